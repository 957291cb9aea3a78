//! What the tests beside `packrun` share.
mod draw;

pub use draw::Draw;
use std::io::Write;
use std::path::Path;
use std::process::{Command, Stdio};

/// What `packrun` prints to these lines.
pub fn packrun(lines: &str) -> String {
    let program = Path::new(env!("CARGO_MANIFEST_DIR")).join("../../packrun");
    let mut child = Command::new(program)
        .stdin(Stdio::piped())
        .stdout(Stdio::piped())
        .spawn()
        .expect("packrun starts");
    let mut stdin = child.stdin.take().expect("it is piped");
    let input = lines.to_string();
    // It prints while it reads: a pipe that is full must not stop both.
    let writer = std::thread::spawn(move || stdin.write_all(input.as_bytes()));
    let output = child.wait_with_output().expect("packrun ends");
    writer.join().expect("no panic").expect("packrun reads");
    assert!(output.status.success(), "packrun refuses lines: {lines}");
    String::from_utf8(output.stdout).expect("text")
}
