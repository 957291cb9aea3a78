#!/usr/bin/env bash
# inside.sh: for tools/test_release.sh, in a system without the repository. /tmp/release has what dist/ has.
set -euo pipefail
lacks=()

fail() {
    echo "test_release: $*" >&2
    exit 1
}

# have PART PROGRAM..: whether the programs are there that a part is tested with.
have() {
    local it
    for it in "${@:2}"; do
        if ! command -v "$it" >/dev/null; then
            lacks+=("$it, so $1 is not tested")
            return 1
        fi
    done
}

# blocks WORD FILE [N]: the lines of the blocks of a page that begin with ```WORD, or of the Nth of them.
blocks() {
    awk -v word="\`\`\`$1" -v wanted="${3:-0}" '
        $0 == "```" { on = 0 }
        on && (!wanted || n == wanted) { print }
        $0 == word { on = 1; n++ }' "$2"
}

# is_same WHAT WANTED FOUND: says what was printed.
is_same() {
    diff "$2" "$3" >&2 || fail "$1 printed something else"
    echo "$1: $(wc -l <"$3") lines as they are to be, the last: $(tail -n 1 "$3")"
}

# page WORD..: man shows the page of packrun, and has nothing to warn of.
page() {
    man --warnings "$@" >/tmp/page.txt 2>/tmp/warnings.txt
    [[ ! -s /tmp/warnings.txt ]] || fail "the page of packrun: $(head -n 3 /tmp/warnings.txt)"
    grep -q 'pack boxes into bins' /tmp/page.txt || fail "there is no page of packrun"
    echo "the page of packrun: $(wc -l </tmp/page.txt) lines, without a warning"
}

# A Debian of its own has the versions of its compilers, and nothing that proves.
nothing_in_sight() {
    ! command -v rt rattle || fail "the toolchain is in sight"
    [[ ! -e $REPOSITORY ]] || fail "the repository is in sight"
    ! ldconfig -p | grep -q rectangle_pack || fail "the library is here already"
    echo "the system: $(sed -n 's/^PRETTY_NAME="\(.*\)"/\1/p' /etc/os-release), $(ldd --version | sed -n 1p)"
}

# The archive, where it is unpacked, and where it was moved to: its README's commands, one after the other.
archive() {
    cd /tmp
    tar -xzf release/*.tar.gz
    mv rectangle-pack-* "a moved folder"
    cd "a moved folder"
    blocks text README.md 1 >/tmp/packrun.txt
    blocks text README.md 2 >/tmp/session.txt
    printf 'bin a 100 100 1\nrect one 50 90 1\npack\n' | bin/packrun >/tmp/found.txt
    is_same "archive: packrun" /tmp/packrun.txt /tmp/found.txt
    if have "the page of packrun" man; then
        page -l share/man/man1/packrun.1
    fi
    have "the archive's library" cc c++ pkg-config || return 0
    # pkg-config parts words at spaces.
    mv "/tmp/a moved folder" /tmp/archive
    cd /tmp/archive
    cat /tmp/packrun.txt /tmp/session.txt /tmp/session.txt /tmp/session.txt >/tmp/wanted.txt
    bash -euc "$(blocks sh README.md)" >/tmp/found.txt
    is_same "archive: its README's commands, in C and C++ by pkg-config, and static" /tmp/wanted.txt /tmp/found.txt
}

# with_cmake WHAT FOLDER [FLAG..]: the project of the README in CMake.
with_cmake() {
    have "$1 by CMake" cmake cc c++ || return 0
    local project=/tmp/cmake-$RANDOM it
    mkdir "$project"
    cp "$2"/session.c "$2"/session.cpp "$project/"
    blocks cmake /tmp/archive/README.md >"$project/CMakeLists.txt"
    cmake -S "$project" -B "$project/build" "${@:3}" >/dev/null
    cmake --build "$project/build" >/dev/null
    for it in session session_shared; do
        "$project/build/$it" >/tmp/found.txt
        is_same "$1: by CMake, $it" /tmp/session.txt /tmp/found.txt
    done
}

# The packages of Debian: installed, used without a path, removed.
debian() {
    have "the packages of Debian" dpkg || return 0
    if have "apt" apt-get; then
        apt-get install --quiet --quiet --yes /tmp/release/*.deb >/tmp/said.txt 2>&1 || fail "apt: $(cat /tmp/said.txt)"
    else
        dpkg -i /tmp/release/*.deb >/dev/null
    fi
    cd /tmp
    printf 'bin a 100 100 1\nrect one 50 90 1\npack\n' | packrun >/tmp/found.txt
    is_same "Debian: packrun" /tmp/packrun.txt /tmp/found.txt
    if have "the page of packrun" man; then
        page packrun
    fi
    local from=/usr/share/doc/librectangle-pack-dev/examples
    if have "the library for C" cc pkg-config; then
        # shellcheck disable=SC2046 # These are words.
        cc $from/session.c $(pkg-config --cflags --libs rectangle_pack) -o /tmp/session_deb
        readelf -d /tmp/session_deb | grep -q 'librectangle_pack.so.0' || fail "a program does not ask for the soname"
        readelf -V /tmp/session_deb | grep -q 'RECTANGLE_PACK_0.2' || fail "symbols have no versions"
        /tmp/session_deb >/tmp/found.txt
        is_same "Debian: in C by pkg-config" /tmp/session.txt /tmp/found.txt
    fi
    if have "the library for C++" c++ pkg-config; then
        # shellcheck disable=SC2046 # These are words.
        c++ -std=c++17 -Wall -Wextra -Werror $from/session.cpp $(pkg-config --cflags --libs rectangle_pack) -o /tmp/session_deb
        /tmp/session_deb >/tmp/found.txt
        is_same "Debian: in C++ by pkg-config" /tmp/session.txt /tmp/found.txt
    fi
    with_cmake "Debian" $from
    crate_by_pkg_config
    dpkg --purge packrun librectangle-pack-dev librectangle-pack0 >/dev/null
    ! command -v packrun || fail "packrun is still there"
}

# The wheel, in a place of its own: the program of its README, and an example of the repository.
wheel() {
    have "the wheel" python3 || return 0
    if ! python3 -m venv /tmp/venv >/dev/null; then
        lacks+=("python3-venv, so the wheel is not tested")
        return 0
    fi
    /tmp/venv/bin/pip install --no-index --disable-pip-version-check --quiet /tmp/release/*.whl
    /tmp/venv/bin/python -c "
import importlib.metadata
print(importlib.metadata.metadata('rectangle-pack-proved').get_payload())" >/tmp/wheel.md
    cd /tmp
    blocks python wheel.md >wheel.py
    blocks text wheel.md >wanted.txt
    /tmp/venv/bin/python wheel.py >found.txt
    is_same "wheel: its README's program" wanted.txt found.txt
    /tmp/venv/bin/python session.py >found.txt
    is_same "wheel: session.py" session.txt found.txt
    cd "$(/tmp/venv/bin/python -c 'import rectangle_pack as it; print(it.__path__[0])')"
    [[ -e py.typed ]] || fail "the wheel has no types"
}

# project FOLDER CRATE: a project for Cargo, with the program of the crate's README.
project() {
    mkdir -p "$1/src"
    cat >"$1/Cargo.toml" <<END
[package]
name = "mine"
version = "0.1.0"
edition = "2021"

[dependencies]
rectangle-pack-proved = $2
END
    blocks rust /tmp/crate/README.md >"$1/src/main.rs"
}

# unpacked_crate: in /tmp/crate. Whether the compiler is new enough for it.
unpacked_crate() {
    rm -rf /tmp/crate
    mkdir /tmp/crate
    tar -xzf /tmp/release/*.crate -C /tmp/crate --strip-components=1
    blocks text /tmp/crate/README.md >/tmp/wanted.txt
    local least found
    least=$(sed -n 's/^rust-version = "\(.*\)"/\1/p' /tmp/crate/Cargo.toml)
    found=$(rustc --version | cut -d ' ' -f 2)
    if ! printf '%s\n' "$least" "$found" | sort -VC; then
        lacks+=("rustc $least, having $found, so the crate is not tested")
        return 1
    fi
}

# The crate from a registry in a folder, as cargo takes it from any registry.
crate() {
    have "the crate" cargo cc || return 0
    unpacked_crate || return 0
    local file version name=rectangle-pack-proved
    file=$(basename /tmp/release/*.crate .crate)
    version=${file#"$name-"}
    mkdir -p /tmp/registry/index/re/ct
    cp "/tmp/release/$file.crate" /tmp/registry/
    printf '{"name":"%s","vers":"%s","deps":[],"cksum":"%s","features":{},"yanked":false,"links":"rectangle_pack"}\n' $name \
        "$version" "$(sha256sum <"/tmp/registry/$file.crate" | cut -d ' ' -f 1)" \
        >/tmp/registry/index/re/ct/$name
    project /tmp/mine "\"$version\""
    mkdir /tmp/mine/.cargo
    cat >/tmp/mine/.cargo/config.toml <<END
[source.crates-io]
replace-with = "mine"
[source.mine]
local-registry = "/tmp/registry"
END
    cd /tmp/mine
    cargo run --quiet --offline >/tmp/found.txt
    is_same "crate: its README's program, of a registry, offline" /tmp/wanted.txt /tmp/found.txt
    project /tmp/ours '{ path = "/tmp/crate" }'
    cd /tmp/ours
    cargo run --quiet --offline >/tmp/found.txt
    is_same "crate: the same program, from its folder" /tmp/wanted.txt /tmp/found.txt
}

# The crate without the library inside, which it then finds where the packages of Debian put it.
crate_by_pkg_config() {
    have "the crate by pkg-config" cargo cc pkg-config || return 0
    unpacked_crate || return 0
    rm -r /tmp/crate/lib
    project /tmp/theirs '{ path = "/tmp/crate" }'
    cd /tmp/theirs
    cargo run --quiet --offline >/tmp/found.txt
    is_same "crate: with the library found by pkg-config" /tmp/wanted.txt /tmp/found.txt
}

nothing_in_sight
archive
with_cmake "archive" /tmp/archive/share/doc/rectangle-pack/examples -DCMAKE_PREFIX_PATH=/tmp/archive
debian
wheel
crate
for it in ${lacks[@]+"${lacks[@]}"}; do
    echo "lacks: $it"
done
