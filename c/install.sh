#!/bin/sh
# Installs the library for C: the header, libkcore.so, libkcore.a and kcore.pc for pkg-config. Needs neither kit nor compiler.
# usage: c/install.sh PREFIX     (as c/install.sh /usr/local, or c/install.sh ~/.local)
# LIBDIR, where it is set, is the folder of libraries in place of PREFIX/lib. DESTDIR, where it is set, stands before each path that is
# written, as packagers want it. The library is the one that dist/library.sh finds; the checkout is not written to.
set -eu
top=$(cd "$(dirname "$0")/.." && pwd)
case ${1:-} in
    '' | -*)
        echo "usage: c/install.sh PREFIX" >&2
        exit 2
        ;;
    /*) prefix=${1%/} ;;
    *) prefix=$PWD/${1%/} ;;
esac
libdir=${LIBDIR:-$prefix/lib}
to=${DESTDIR:-}
room=$(mktemp -d)
trap 'rm -rf "$room"' EXIT
trap 'exit 1' HUP INT TERM
from=$(sh "$top/dist/library.sh" "$room")

# The version, as include/kcore.h has it in one number.
packed=$(sed -n 's/^#define KCORE_VERSION \(0x[0-9a-f]*\)u$/\1/p' "$top/include/kcore.h")
version=$((packed >> 16)).$((packed >> 8 & 255)).$((packed & 255))
cat > "$room/kcore.pc" << END
prefix=$prefix
libdir=$libdir
includedir=\${prefix}/include

Name: kcore
Description: Core numbers, k-cores and their certificates by proved code
Version: $version
Libs: -L\${libdir} -lkcore
Cflags: -I\${includedir}
END

mkdir -p "$to$prefix/include" "$to$libdir/pkgconfig"
install -m 644 "$top/include/kcore.h" "$to$prefix/include/kcore.h"
install -m 644 "$from/libkcore.a" "$to$libdir/libkcore.a"
install -m 755 "$from/libkcore.so" "$to$libdir/libkcore.so.$version"
ln -sf "libkcore.so.$version" "$to$libdir/libkcore.so.0"
ln -sf libkcore.so.0 "$to$libdir/libkcore.so"
install -m 644 "$room/kcore.pc" "$to$libdir/pkgconfig/kcore.pc"
echo "installed kcore $version: $to$prefix/include/kcore.h, libkcore.so, libkcore.a and pkgconfig/kcore.pc in $to$libdir"
