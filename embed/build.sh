#!/bin/sh
# Builds libcallout.a with all that it links, and puts it with callout.h and callout.pc into a folder, embed/out if none is named:
#   embed/build.sh [FOLDER]
# Needs the kit's rt, and ar.
set -eu
top=$(cd "$(dirname "$0")/.." && pwd)
to=${1:-$top/embed/out}
(cd "$top/crates/callout_c" && rt lib) || exit 1
kit=$(dirname "$(rt doc)")
mkdir -p "$to/lib/pkgconfig" "$to/include"
to=$(cd "$to" && pwd)
work=$(mktemp -d)
trap 'rm -rf "$work"' EXIT
# the library calls the C library's malloc, realloc and free through the kit's heap
(cd "$work" && ar x "$top/crates/callout_c/out/libcallout_c.a" && ar x "$kit/c/liblibc_c.a" && ar rcs libcallout.a *.o)
cp "$work/libcallout.a" "$to/lib/"
cp "$top/include/callout.h" "$to/include/"
sed "s|@PREFIX@|$to|" "$top/embed/callout.pc.in" > "$to/lib/pkgconfig/callout.pc"
echo "$to/lib/libcallout.a"
