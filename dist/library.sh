#!/bin/sh
# Prints the folder of libkcore.so and libkcore.a of these sources, without kit and compiler.
# usage: dist/library.sh [FOLDER]
# The folder is build/, where c/build.sh or an earlier call left them. Else they are unpacked from dist/ into FOLDER (default: build/).
# Where those are not of these sources or not for this machine either, it says why and what to do, and its status is 1.
# KCORE_MACHINE, where it is set, stands for what uname says of the machine, so that a test can have another one.
set -u
top=$(dirname "$(dirname "$(readlink -f "$0")")")
. "$top/dist/common.sh"
speak_of libkcore
folder=${1:-$top/build}
machine=${KCORE_MACHINE:-$(uname -s) $(uname -m)}

fail() {
    echo "dist/library.sh: $*" >&2
    exit 1
}

if has_library "$top/build"; then
    echo "$top/build"
    exit
fi
remedy="take a checkout whose dist/ fits (dist/check.sh tells), or make the library by c/build.sh, which needs the Rattle kit"
[ "$machine" = "Linux x86_64" ] || fail "dist has no library for this machine ($machine): $remedy"
mkdir -p "$folder" && room=$(mktemp -d "$folder/library.XXXXXX") || exit 1
trap 'rm -rf "$room"' EXIT
trap 'exit 1' HUP INT TERM
unpack_library "$room" || fail "$why: $remedy"
fits "$room/$sources" || fail "the sources are not those of the library in dist: $remedy"
# The record comes last, so that a call that is cut off leaves no library that passes for whole.
rm -f "$folder/$sources"
mv -f "$room/libkcore.so" "$room/libkcore.a" "$room/libkcore.so.0" "$folder" && mv -f "$room/$sources" "$folder" || exit 1
echo "$folder"
