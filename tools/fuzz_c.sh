#!/usr/bin/env bash
# fuzz_c.sh [MINUTES]: builds the C library, and has libFuzzer draw calls to it for so many minutes (1 if left out; 0 gives the
# seeds alone), on one processor: bindings/c/tests/fuzz.c, under the sanitizers for addresses and undefined behaviour. It begins with
# bindings/c/tests/seeds, whose names say what each shows, and with what was kept before in build/fuzz/kept. What reaches something
# new is kept there, and what is found lies in build/fuzz. The last line says how many runs there were and what was found. Where
# clang has no libFuzzer nothing is run, which is said.
set -euo pipefail
cd "$(dirname "${BASH_SOURCE[0]}")/.."
minutes=${1:-1}
work=build/fuzz
flags=(-std=c99 -O2 -g -Wall -Wextra -Werror "-fsanitize=fuzzer,address,undefined" -fno-sanitize-recover=all)
# What is compared is seldom a part of the bytes, and to note it takes half of the time.
flags+=(-fno-sanitize-coverage=trace-cmp)
export ASAN_OPTIONS=quarantine_size_mb=16:malloc_context_size=3${ASAN_OPTIONS:+:$ASAN_OPTIONS}

mkdir -p "$work/kept"
if ! clang -xc "${flags[@]}" -Wno-unused-parameter -o "$work/none" - 2>/dev/null <<'END'
int LLVMFuzzerTestOneInput(const unsigned char *data, unsigned long size);
int LLVMFuzzerTestOneInput(const unsigned char *data, unsigned long size) { return 0; }
END
then
    echo "skipped: fuzzing: no clang with libFuzzer"
    exit
fi
rm "$work/none"

tools/build_c.sh
clang "${flags[@]}" -Ibuild bindings/c/tests/fuzz.c build/librectangle_pack.a -Wl,--wrap=malloc,--wrap=realloc,--wrap=free -o "$work/fuzz"

# Without a time, each seed is run once.
if ((minutes == 0)); then
    limits=(-runs=0 bindings/c/tests/seeds)
else
    limits=(-max_total_time=$((minutes * 60)) "$work/kept" bindings/c/tests/seeds)
fi
status=0
"$work/fuzz" -max_len=1024 -timeout=20 -print_final_stats=1 -artifact_prefix="$work/" "${limits[@]}" >"$work/log.txt" 2>&1 || status=$?
runs=$(sed -n 's/^stat::number_of_executed_units: *//p' "$work/log.txt")
reached=$(sed -n 's/.* cov: \([0-9]*\) ft: \([0-9]*\) .*/\1 edges, \2 features/p' "$work/log.txt" | tail -n 1)
if ((status != 0)); then
    grep -E '^harness: |ERROR: |runtime error: |Test unit written' "$work/log.txt" || tail "$work/log.txt"
    echo "fuzzing: $runs runs, $reached; something was found: see $work/log.txt"
    exit 1
fi
echo "fuzzing: $runs runs, $reached; nothing was found"
