#!/usr/bin/env bash
# in_namespace.sh ROOT REPOSITORY: for tools/test_release.sh, in namespaces of its own. Runs tools/release/inside.sh in ROOT, of
# which nothing is changed: what is written goes to memory and is lost at the end.
set -euo pipefail
root=$1 repository=$2
# What is not a part of a system as it is installed.
hidden=(work home root opt srv mnt media tmp var/tmp usr/local)

top=$(mktemp -d)
trap 'umount -l "$top"; rmdir "$top"' EXIT
mount --make-rprivate /
mount -t tmpfs -o mode=755 release "$top"
mkdir "$top"/{upper,work,new}
mount -t overlay -o "lowerdir=$root,upperdir=$top/upper,workdir=$top/work" release "$top/new"
for it in "${hidden[@]}"; do
    if [[ -d $top/new/$it ]]; then
        mount -t tmpfs -o mode=1777 hidden "$top/new/$it"
    fi
done
mkdir "$top/new/tmp/release"
cp "$repository"/dist/* "$top/new/tmp/release/"
cp "$repository/bindings/python/examples/session.py" "$repository/tools/release/inside.sh" "$top/new/tmp/"
mount -t proc proc "$top/new/proc"
for it in null zero urandom; do
    touch "$top/new/dev/$it"
    mount --bind "/dev/$it" "$top/new/dev/$it"
done
env -i PATH=/usr/sbin:/usr/bin:/sbin:/bin HOME=/tmp LC_ALL=C.UTF-8 REPOSITORY="$repository" \
    chroot "$top/new" /bin/bash /tmp/inside.sh
