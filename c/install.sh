#!/bin/sh
# Installs what a program in C needs, for pkg-config too.
#
#     c/install.sh PREFIX
#
# It leaves PREFIX/include/wikzord.h, PREFIX/lib/libwikzord.a, PREFIX/lib/libwikzord.so and PREFIX/lib/pkgconfig/wikzord.pc, below DESTDIR where
# that is set. The libraries are built first, by c/build.sh, where `rt` is there; else those are taken that it has left in c/out.
set -e
here=$(cd "$(dirname "$0")" && pwd)
if [ $# -ne 1 ]; then
  echo "usage: c/install.sh PREFIX" >&2
  exit 2
fi
case $1 in
  /*) prefix=$1 ;;
  *) prefix=$(pwd)/$1 ;;
esac
if command -v rt >/dev/null; then
  "$here/build.sh" >/dev/null
elif ! [ -f "$here/out/libwikzord.a" ] || ! [ -f "$here/out/libwikzord.so" ]; then
  echo "c/install.sh: there is no c/out/libwikzord.a or .so, and no command rt that c/build.sh could make it with (docs/LIBRARY.md)" >&2
  exit 1
fi

version=$(sed -n 's/^#define WIKZORD_VERSION //p' "$here/wikzord.h")
mkdir -p "$DESTDIR$prefix/include" "$DESTDIR$prefix/lib/pkgconfig"
install -m 644 "$here/wikzord.h" "$DESTDIR$prefix/include"
install -m 644 "$here/out/libwikzord.a" "$DESTDIR$prefix/lib"
install -m 755 "$here/out/libwikzord.so" "$DESTDIR$prefix/lib"
cat >"$DESTDIR$prefix/lib/pkgconfig/wikzord.pc" <<EOF
prefix=$prefix
includedir=\${prefix}/include
libdir=\${prefix}/lib

Name: wikzord
Description: Matrix's federation core
Version: $version
Cflags: -I\${includedir}
Libs: -L\${libdir} -lwikzord
EOF
echo "$DESTDIR$prefix: include/wikzord.h lib/libwikzord.a lib/libwikzord.so lib/pkgconfig/wikzord.pc"
