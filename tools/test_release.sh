#!/usr/bin/env bash
# test_release.sh [SUITE]: installs and uses what tools/release.sh wrote to dist/, as its READMEs say, in a fresh Debian (trixie
# if SUITE is left out) that sees nothing of the repository and has no network. debootstrap makes it and takes some minutes
# the first time; then it is kept in the folder RELEASE_CACHE, or ~/.cache/rectangle_pack. What is done in it is kept nowhere.
# Where debootstrap cannot be used, this machine is taken, without the folders of its users and of what was added to the
# system. It says what the machine lacks.
set -euo pipefail
cd "$(dirname "${BASH_SOURCE[0]}")/.."
suite=${1:-trixie}
cache=${RELEASE_CACHE:-${XDG_CACHE_HOME:-$HOME/.cache}/rectangle_pack}
mirror=${MIRROR:-http://deb.debian.org/debian}
packages="gcc g++ libc6-dev make cmake pkg-config python3-venv cargo man-db"

if [[ $(id -u) != 0 ]]; then
    echo "test_release: only root can make a fresh Debian, and a place that sees nothing of the repository" >&2
    exit 1
fi

if [[ ! -f dist/SHA256SUMS ]]; then
    echo "test_release: nothing is in dist/: run tools/release.sh VERSION first" >&2
    exit 1
fi
(cd dist && sha256sum --quiet --check SHA256SUMS)

# fresh TO: a Debian with compilers, which is no one's.
fresh() {
    rm -rf "$1.part"
    mkdir -p "$1.part"
    debootstrap --variant=minbase "$suite" "$1.part" "$mirror" >"$1.log" 2>&1 || return
    cp /etc/resolv.conf "$1.part/etc/"
    # shellcheck disable=SC2086 # These are words.
    DEBIAN_FRONTEND=noninteractive LC_ALL=C chroot "$1.part" sh -c "
        apt-get update && apt-get install -y --no-install-recommends $packages && apt-get clean" >>"$1.log" 2>&1 || return
    mv "$1.part" "$1"
}

root=$cache/$suite-$(sha256sum <<<"$packages" | cut -c1-12)
if [[ ! -d $root ]]; then
    if ! command -v debootstrap >/dev/null; then
        echo "lacks: debootstrap; this machine is taken in place of a fresh Debian"
        root=/
    elif ! fresh "$root"; then
        echo "lacks: a Debian $suite that debootstrap can make ($root.log); this machine is taken in its place"
        root=/
    fi
fi

unshare --mount --pid --net --fork --kill-child tools/release/in_namespace.sh "$root" "$PWD"
