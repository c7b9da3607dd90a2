#!/bin/sh
# Builds what a program in C or Python needs, into c/out: libwikzord.a, libwikzord.so and the example.
#
#     c/build.sh
#
# It needs `rt` and a C compiler, cc or what CC names. `rt lib` proves what has not been proved before it builds. The libraries hold the
# crate fed_c and the toolchain's piece that calls malloc, realloc and free: nothing but the C library has to be linked beside them.
set -e
here=$(cd "$(dirname "$0")" && pwd)
crate=$here/../crates/fed_c
kit=$(dirname "$(rt doc)")

mkdir -p "$here/out"
if ! (cd "$crate" && rt lib) >"$here/out/rt.log" 2>&1; then
  tail -n 40 "$here/out/rt.log" >&2
  echo "c/build.sh: the crate fed_c is not built; all that rt said is in c/out/rt.log" >&2
  exit 1
fi

room=$(mktemp -d)
trap 'rm -rf "$room"' EXIT
(cd "$room" && ar x "$crate/out/libfed_c.a" && ar x "$kit/c/liblibc_c.a")
rm -f "$here/out/libwikzord.a"
ar rcs "$here/out/libwikzord.a" "$room"/*.o
echo '{ global: wikzord_*; local: *; };' >"$room/exports"
${CC:-cc} -shared -o "$here/out/libwikzord.so" "$room"/*.o -Wl,--version-script="$room/exports"
${CC:-cc} -std=c99 -O2 -Wall -Wextra -Werror -pedantic -I"$here" -o "$here/out/example" "$here/example.c" "$here/out/libwikzord.a"
echo "c/out: libwikzord.a libwikzord.so example"
