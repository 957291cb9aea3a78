#!/usr/bin/env bash
# test_bindings.sh [RUNS]: builds the C library and tests it as its users call it: from C, C++, Rust and Python, on RUNS drawn
# inputs and RUNS drawn sessions beside packrun (300 if left out), with each request for memory refused in turn, under the
# sanitizers for addresses and undefined behaviour, and by the seeds of the fuzz target. What this machine has no compiler for is
# skipped, which is said.
set -euo pipefail
cd "$(dirname "${BASH_SOURCE[0]}")/.."
runs=${1:-300}
work=$(mktemp -d)
trap 'rm -rf "$work"' EXIT
skipped=()

have() {
    command -v "$1" >/dev/null || { skipped+=("$2: no $1"); false; }
}

# run_harness NAME [FLAG..]: a harness takes memory by way of its own functions.
run_harness() {
    cc -std=c99 -O2 -g "${@:2}" "${flags[@]}" "bindings/c/tests/$1.c" "$link" -Wl,--wrap=malloc,--wrap=realloc,--wrap=free -o "$work/$1"
    "$work/$1"
}

# test_hpp NAME FLAG..: a test of the header for C++17.
test_hpp() {
    c++ "${@:2}" "${strict[@]}" "bindings/cpp/tests/$1.cpp" "$link" -Wl,--wrap=malloc,--wrap=realloc -o "$work/$1_hpp"
    "$work/$1_hpp"
}

tools/build_c.sh
# Where there is a packrun, it is built anew only where a source is newer.
if [[ -x crates/packrun/out/packrun ]]; then
    ./packrun </dev/null
else
    tools/build.py packrun
fi
flags=(-Wall -Wextra -Werror -Ibuild)
link=build/librectangle_pack.a

# The shared library exports the calls of the header, and nothing else.
if have nm "the exported calls"; then
    nm -D --defined-only build/librectangle_pack.so | sed -n 's/.* T \(.*\)@@RECTANGLE_PACK_.*/\1/p' | sort >"$work/exported.txt"
    sed -n 's/^[a-z].*\b\(rectangle_pack_[a-z_]*\)(.*/\1/p' include/rectangle_pack.h | sort | diff - "$work/exported.txt"
fi
if have cc C; then
    for it in atlas session collection panels; do
        cc -std=c99 "${flags[@]}" "bindings/c/examples/$it.c" "$link" -o "$work/${it}_c"
        "$work/${it}_c" >"$work/$it.txt"
    done
    for it in harness session_harness fitting_harness told_harness search_harness; do
        run_harness "$it"
        run_harness "$it" -fsanitize=address,undefined -fno-sanitize-recover=all
    done
    echo "C: the examples and the harnesses, which also ran under the sanitizers"
    tools/fuzz_c.sh 0
fi
if have c++ C++; then
    for it in atlas session collection panels; do
        c++ -std=c++11 "${flags[@]}" -x c++ "bindings/c/examples/$it.c" -x none "$link" -o "$work/${it}_cpp"
        "$work/${it}_cpp" | diff - "$work/$it.txt"
    done
    # The header of its own for C++17, which is tested as the standards after it compile it too.
    strict=(-Wpedantic -Wconversion -Wshadow "${flags[@]}")
    for it in atlas session collection panels; do
        c++ -std=c++17 "${strict[@]}" "bindings/cpp/examples/$it.cpp" "$link" -o "$work/${it}_hpp"
        "$work/${it}_hpp" | diff - "$work/$it.txt"
    done
    sanitized=(-g "-fsanitize=address,undefined" -fno-sanitize-recover=all)
    for it in test searches; do
        test_hpp "$it" -std=c++20
        test_hpp "$it" -std=c++17 "${sanitized[@]}"
    done
    test_hpp no_exceptions -std=c++20 -fno-exceptions
    test_hpp no_exceptions -std=c++17 -fno-exceptions "${sanitized[@]}"
    echo "C++: the examples print what they print in C, and the header for C++17 passes its tests, also under the sanitizers"
fi
if have cargo Rust; then
    cargo=(--offline --manifest-path bindings/rust/Cargo.toml --target-dir "$work/rust")
    cargo test -q "${cargo[@]}"
    RUSTDOCFLAGS="-D warnings" cargo doc -q --no-deps "${cargo[@]}"
    if cargo clippy --version >/dev/null 2>&1; then
        cargo clippy -q --all-targets "${cargo[@]}" -- -D warnings
    else
        skipped+=("the lints of Rust: no cargo clippy")
    fi
    cargo run -q "${cargo[@]}" --example atlas >/dev/null
    for it in session panels; do
        cargo run -q "${cargo[@]}" --example "$it" | diff - "$work/$it.txt"
    done
    # The crate lists placements by their groups.
    cargo run -q "${cargo[@]}" --example collection | sort | diff - <(sort "$work/collection.txt")
    echo "Rust: cargo test, which compares with packrun, cargo doc, and the examples"
fi
if have python3 Python; then
    # The tests of the module alone: those of the commands are test_tools.sh's.
    (cd bindings/python && python3 -m unittest -q tests/test_*.py)
    # The tests look at what the others print, which have no twin in C.
    for it in atlas session panels; do
        PYTHONPATH=bindings/python python3 "bindings/python/examples/$it.py" | diff - "$work/$it.txt"
    done
    tools/c_beside_packrun.py "$runs"
    tools/c_beside_library.py "$runs"
    tools/judged_searches.py "$((runs / 3))"
    echo "Python: the tests, the examples, and the drawn inputs and sessions beside packrun, the library and the rules"
    # The tests have mypy check the types, where it is there.
    have mypy "the types in Python" || true
fi
for it in ${skipped[@]+"${skipped[@]}"}; do
    echo "skipped: $it"
done
