//! Links `librectangle_pack.a`. It is looked for in the folder that `RECTANGLE_PACK_DIR` names; or else in `lib` in this crate,
//! where a release has it; in `build` at the top of the repository, where `tools/build_c.sh` writes it; and where `pkg-config`
//! says that `rectangle_pack` is.
use std::env;
use std::path::{Path, PathBuf};
use std::process::Command;

const ARCHIVE: &str = "librectangle_pack.a";

/// The folder of the library that is installed on this machine.
fn installed() -> Option<PathBuf> {
    let program = env::var_os("PKG_CONFIG").unwrap_or_else(|| "pkg-config".into());
    let said = Command::new(program)
        .args(["--variable=libdir", "rectangle_pack"])
        .output()
        .ok()
        .filter(|it| it.status.success())?;
    Some(PathBuf::from(String::from_utf8(said.stdout).ok()?.trim()))
}

/// The folders that may have the library, in order.
fn folders(here: &Path) -> Vec<PathBuf> {
    env::var_os("RECTANGLE_PACK_DIR").map_or_else(
        || {
            let mut folders = vec![here.join("lib"), here.join("../../build")];
            folders.extend(installed());
            folders
        },
        |named| vec![PathBuf::from(named)],
    )
}

fn main() {
    println!("cargo:rerun-if-env-changed=RECTANGLE_PACK_DIR");
    let target = env::var("TARGET").expect("cargo sets it");
    assert!(
        target.starts_with("x86_64-") && target.contains("-linux-"),
        "the library is for x86_64 and Linux, not for {target}"
    );
    let here = PathBuf::from(env::var_os("CARGO_MANIFEST_DIR").expect("cargo sets it"));
    let folders = folders(&here);
    let folder = folders
        .iter()
        .find(|it| it.join(ARCHIVE).is_file())
        .unwrap_or_else(|| {
            panic!("{ARCHIVE} is in none of {folders:?}: install it, or run tools/build_c.sh first")
        });
    println!("cargo:rerun-if-changed={}", folder.join(ARCHIVE).display());
    println!("cargo:rustc-link-search=native={}", folder.display());
    println!("cargo:rustc-link-lib=static=rectangle_pack");
}
