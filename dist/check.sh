#!/bin/sh
# Says which parts of dist/ are whole and of these sources, and which are stale: the packed programs, the packed library and the wheel.
# Status 0 where each is, 1 where one is not, with a sentence.
# usage: dist/check.sh [--build] [PART..]   (PART is kcore, cores, libkcore or wheel; default: all)
# It compares sums, and needs no kit; where the command rt is there, it has to be the same kit. With --build the sources are copied to a
# new folder and proved and built there, by `rt run` or c/build.sh, and what comes out is compared with dist/SHA256SUMS and with what is
# packed, byte by byte. rt takes over what it has kept of the same text on this machine, if anything; else it takes half an hour. The
# folder takes up to 5 GB, in $TMPDIR or /tmp. The library comes out the same only by the compiler that its record names. A wheel is made
# again by dist/make.sh wheel.
set -u
top=$(dirname "$(dirname "$(readlink -f "$0")")")
. "$top/dist/common.sh"

fail() {
    echo "check.sh: $*" >&2
    exit 1
}

builds=
if [ "${1:-}" = --build ]; then
    builds=yes
    shift
fi
for name in "$@"; do
    case " $parts " in
        *" $name "*) ;;
        *)
            echo "usage: dist/check.sh [--build] [PART..]   (PART of: $parts)" >&2
            exit 2
            ;;
    esac
done
room=$(mktemp -d) || exit 1
trap 'rm -rf "$room"' EXIT
trap 'exit 1' HUP INT TERM

# Whether what dist holds of the part is whole.
is_whole() {
    case $name in
        libkcore) unpack_library "$room" ;;
        wheel) is_wheel_whole ;;
        *) unpack "$room/$name" ;;
    esac
}

# Whether the part is whole, of these sources and of this kit; else says in $why what is not so.
fits_here() {
    is_whole || return 1
    if ! fits "$top/dist/$sources"; then
        why="the sources are not those of $name in dist: dist/make.sh $name makes it anew"
        return 1
    fi
    kit=$(value "$top/dist/$sources" kit)
    if command -v rt > /dev/null; then
        found=$(rt version < /dev/null)
        if [ "$found" != "$kit" ]; then
            why="$name in dist was made with $kit, and rt is $found"
            return 1
        fi
    fi
    echo "check.sh: $name in dist is whole and of these sources ($kit)"
}

# Ends with what the log says last.
not_built() {
    tail -n 20 "$room/log" >&2
    fail "it was not proved and built"
}

# Proves and builds the program in a copy of its sources, and compares.
builds_the_same() {
    copy=$room/copy-$name
    copy_sources "$copy"
    echo "check.sh: rt run proves and builds $name in $copy"
    (cd "$copy/crates/$name" && rt run < /dev/null > "$room/log" 2>&1) || not_built
    grep '^logic=' "$room/log"
    out=$copy/crates/$name/out
    [ "$(sum_of "$out/$name.o")" = "$(sum_in "$name.o")" ] || fail "the object that was built has another sum than dist/SHA256SUMS says"
    cmp "$out/$name" "$room/$name" || fail "the program that was built differs from the packed one"
    echo "check.sh: the object and the program $name that were built here are those of dist, byte by byte"
}

# Makes the library in a copy of its sources, and compares.
makes_the_same_library() {
    copy=$room/copy-$name
    copy_sources "$copy"
    echo "check.sh: c/build.sh proves and builds the library in $copy"
    "$copy/c/build.sh" > "$room/log" 2>&1 || not_built
    made=$(value "$copy/build/$sources" made)
    for library in libkcore.a libkcore.so; do
        cmp "$copy/build/$library" "$room/$library" ||
            fail "$library that was built differs from the packed one; that was made by $(value "$top/dist/$sources" made), this by $made"
    done
    echo "check.sh: libkcore.a and libkcore.so that were built here are those of dist, byte by byte"
}

is_wrong=
for name in ${*:-$parts}; do
    speak_of "$name"
    if ! fits_here; then
        echo "check.sh: $why" >&2
        is_wrong=yes
    fi
done
[ -z "$is_wrong" ] || exit 1
[ -n "$builds" ] || exit 0
command -v rt > /dev/null || fail "the command rt (the Rattle kit) is not on the path"
for name in ${*:-$parts}; do
    speak_of "$name"
    case $name in
        libkcore) makes_the_same_library ;;
        wheel) ;;
        *) builds_the_same ;;
    esac
done
