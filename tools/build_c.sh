#!/usr/bin/env bash
# Proves and builds the C library: build/rectangle_pack.h, build/rectangle_pack.hpp, build/librectangle_pack.a and
# build/librectangle_pack.so.
set -euo pipefail

root=$(dirname "$(dirname "$(readlink -f "${BASH_SOURCE[0]}")")")
heap=$(dirname "$(rt doc)")/c/liblibc_c.a
build=$root/build
: "${CC:=cc}"

"$root/tools/build.py" rectangle_pack_c >&2

mkdir -p "$build"
cp "$root"/include/rectangle_pack.{h,hpp} "$build/"

# One archive of the library and of what takes its memory from malloc. ar takes no path with a space.
rm -f "$build/librectangle_pack.a"
cd "$root"
ar -M <<END
create build/librectangle_pack.a
addlib crates/rectangle_pack_c/out/librectangle_pack_c.a
addlib $heap
save
end
END

# Only the calls are exported. Programs that are linked with it ask for librectangle_pack.so.0 when they start.
soname=librectangle_pack.so.0
$CC -shared -o "$build/$soname" -Wl,-soname,$soname -Wl,-z,relro,-z,now \
    -Wl,--whole-archive "$build/librectangle_pack.a" -Wl,--no-whole-archive \
    -Wl,--version-script="$root/packaging/rectangle_pack.map"
# No link: rt takes none in a workspace.
rm -f "$build/librectangle_pack.so"
cp "$build/$soname" "$build/librectangle_pack.so"
