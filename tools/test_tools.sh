#!/usr/bin/env bash
# test_tools.sh: tests the commands sheet, cut, load, view, check and pack as their users call them, and the pages of view in a
# headless Chromium, by mouse, by touch and by keys. They need the shared library, which RECTANGLE_PACK names or which is in
# build/; where it is in neither, it is proved and built first. What this machine lacks is skipped, which is said.
# test_tools.sh quick: without the browser, and builds nothing.
set -euo pipefail
cd "$(dirname "${BASH_SOURCE[0]}")/.."
work=$(mktemp -d)
trap 'rm -rf "$work"' EXIT
skipped=()

quick=${1:-}
if [[ -z $quick && -z ${RECTANGLE_PACK:-} && ! -f build/librectangle_pack.so ]]; then
    tools/build_c.sh
fi

# Debian's Selenium is seen by Debian's Python alone.
python=python3
for it in python3 /usr/bin/python3; do
    if "$it" -c "import selenium" 2>/dev/null; then
        python=$it
        break
    fi
done

# run_tests NAME PATTERN FOLDER: runs the tests of a folder, and keeps what they skip.
run_tests() {
    local told=$work/told.txt
    if ! "$python" -m unittest discover -v -s "$3" -t bindings/python -p "$2" 2>"$told"; then
        cat "$told" >&2
        exit 1
    fi
    while IFS= read -r it; do
        skipped+=("$1: $it")
    done < <(sed -n "s/.*\.\.\. skipped ['\"]\(.*\)['\"]\$/\1/p" "$told" | sort -u)
    echo "$1: $(sed -n 's/^Ran \([0-9]* tests\?\) .*/\1/p' "$told")"
}

tests=bindings/python/tests/commands
for it in sheet cut load view check pack; do
    # One by one, so that what is skipped is told with the command that it tests.
    if compgen -G "$tests/test_$it*.py" >/dev/null; then
        run_tests "$it" "test_$it*.py" "$tests"
    else
        skipped+=("$it: it has no tests")
    fi
done
if [[ -z $quick ]]; then
    run_tests "view in a browser" "test_*.py" "$tests/browser"
fi
for it in ${skipped[@]+"${skipped[@]}"}; do
    echo "skipped: $it"
done
