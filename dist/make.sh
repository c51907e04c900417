#!/bin/sh
# Makes what dist/ holds anew, with the sums: the packed programs NAME-x86_64-linux.gz, the packed library libkcore-x86_64-linux.so.gz and
# .a.gz, the wheel for Python, NAME.SOURCES of each, and SHA256SUMS.
# usage: dist/make.sh [CHECKOUT] [PART..]   (CHECKOUT has a slash; PART is kcore, cores, libkcore or wheel; default: all, in this order)
# CHECKOUT is a folder with the same sources (default: the one of this script), whose crates/*/out are used. Of a program, what `rt ci` or
# `rt run` has built there is taken; where the object is not there, or a source was changed after it, `rt run` proves and builds it first.
# A program is packed as the kit has linked it, byte for byte, so it is the one that the gate has run.
# The library is made by c/build.sh twice, in CHECKOUT and in a copy elsewhere, and has to come out the same; that takes seconds where
# `rt lib` has proved the crates below kc_c, and else half an hour. The wheel is made twice too, of the packed library; it needs no kit,
# but a python3 (PYTHON names another): python/building/kcore_build.py makes it.
set -eu
here=$(dirname "$(readlink -f "$0")")
own=$(dirname "$here")
checkout=$own
case ${1:-} in
    */*)
        checkout=$(readlink -f "$1")
        shift
        ;;
esac
top=$checkout
. "$here/common.sh"
# The platform that the wheel is for: the library asks for no C library newer than that of manylinux2014.
platform=manylinux2014_x86_64
platform_glibc=2.17

fail() {
    echo "make.sh: $*" >&2
    exit 1
}

room=$(mktemp -d)
trap 'rm -rf "$room"' EXIT
trap 'exit 1' HUP INT TERM

# What the kit is asked of, and where it lies.
need_kit() {
    command -v rt > /dev/null || fail "the command rt (the Rattle kit) is not on the path, and $name is made by it"
    command -v objdump > /dev/null || fail "the command objdump is not on the path"
    kit_folder=$(dirname "$(dirname "$(readlink -f "$(command -v rt)")")")
    kit=$(rt version < /dev/null)
    sum=$(sum_of_sources "$kit")
    [ "$sum" = "$(top=$own; sum_of_sources "$kit")" ] || fail "$top has other sources than $own"
}

# Whether the object, linked as the kit does it for `rt run` and `rt ci`, is the program.
is_of_object() {
    [ -s "$object" ] && [ -x "$program" ] || return 1
    "$kit_folder/bin/rattle-link" --target x86_64-unknown-linux-gnu --toolchain "$kit_folder/toolchain" -o "$room/linked" "$object" \
        "$kit_folder/c/libos_c.a" "$kit_folder/c/liblibc_c.a" 2> /dev/null && cmp -s "$room/linked" "$program"
}

# Proves and builds the program where that is due.
build() {
    if is_of_object && ! is_changed_since "$object"; then
        echo "make.sh: took what was built in $out"
    else
        echo "make.sh: rt run proves and builds the program in $out"
        (cd "$top/crates/$name" && rt run < /dev/null > /dev/null)
        is_of_object || fail "$object, linked again, is not $program"
        [ "$sum" = "$(sum_of_sources "$kit")" ] || fail "a source was changed while the program was built"
    fi
}

# A program or library asks for the C library alone, none newer than the given one, and does not name the checkout's folder.
# judge FILE GLIBC
judge() {
    needed=$(objdump -p "$1" | awk '$1 == "NEEDED" { print $2 }' | tr '\n' ' ')
    [ "$needed" = "libc.so.6 " ] || fail "$1 asks for more than the C library: $needed"
    newest=$(objdump -T "$1" | grep -o 'GLIBC_[0-9.]*' | sed 's/GLIBC_//' | sort -Vu | tail -n 1)
    [ "$(printf '%s\n%s\n' "$newest" "$2" | sort -V | tail -n 1)" = "$2" ] || fail "$1 asks for glibc $newest"
    if grep -aqF "$top/" "$1"; then fail "$1 names the folder $top"; fi
    if grep -aqF "$kit_folder/" "$1"; then echo "make.sh: note: it names the kit's folder, so a kit elsewhere may make other bytes"; fi
}

# Packs a file, and prints its lines for SHA256SUMS.
# pack FILE PACKED
pack() {
    gzip -9nc < "$1" > "$here/$2"
    printf '%s  %s\n' "$(sum_of "$here/$2")" "$2"
    printf '%s  %s\n' "$(sum_of "$1")" "${2%.gz}"
}

make_program() {
    need_kit
    out=$top/crates/$name/out
    object=$out/$name.o
    program=$out/$name
    build
    grep -aq "rattle logic=${kit##* }" "$program" || fail "$program was not made by this kit"
    judge "$program" 2.34
    [ "$name" != cores ] || [ "$("$program" --version < /dev/null 2> /dev/null)" = "cores $version" ] || fail "cores tells another version"
    write_record "$kit" "$sum" "$program" "$here/$sources"
    {
        pack "$program" "$packed"
        printf '%s  %s\n' "$(sum_of "$object")" "$name.o"
    } > "$room/sums"
    echo "make.sh: packed $(wc -c < "$program") bytes into $(wc -c < "$here/$packed"); glibc $newest is enough"
}

# Makes the library in the checkout, and again in a copy in another folder, where kc_c is proved and compiled anew over the same libraries.
make_library() {
    need_kit
    copy="$room/another checkout"
    first=$("$top/c/build.sh")
    copy_sources "$copy"
    for below in $(crates_of_part); do
        if [ "$below" != "$top_crate" ] && [ -d "$top/crates/$below/out/rlib" ]; then
            mkdir "$copy/crates/$below/out"
            cp -al "$top/crates/$below/out/rlib" "$copy/crates/$below/out" 2> /dev/null ||
                cp -a "$top/crates/$below/out/rlib" "$copy/crates/$below/out"
        fi
    done
    second=$("$copy/c/build.sh")
    for library in libkcore.so libkcore.a "$sources"; do
        cmp "$first/$library" "$second/$library" || fail "$library came out otherwise in another folder"
    done
    soname=$(objdump -p "$first/libkcore.so" | awk '$1 == "SONAME" { print $2 }')
    [ "$soname" = libkcore.so.0 ] || fail "libkcore.so has the name $soname"
    judge "$first/libkcore.so" "$platform_glibc"
    : > "$room/sums"
    for library in libkcore.so libkcore.a; do
        file=$(packed_library "$library")
        pack "$first/$library" "$file" >> "$room/sums"
        echo "make.sh: packed $library of $(wc -c < "$first/$library") bytes into $(wc -c < "$here/$file")"
    done
    cp "$first/$sources" "$here/$sources"
    echo "make.sh: libkcore.so came out the same in two folders; glibc $newest is enough"
}

# Makes a wheel in a new folder of the sources, and prints its path.
# wheel_in FOLDER
wheel_in() {
    mkdir -p "$1/made"
    copy_files "$1/sources" $of_package
    find "$1/sources" -name __pycache__ -prune -exec rm -r {} +
    KCORE_LIBRARY=$room/libkcore.so PYTHONPATH=$1/sources/python/building "$python" -c '
import sys, kcore_build
kcore_build.build_wheel(sys.argv[1], {"platform": sys.argv[2]})
' "$1/made" "$platform" > "$1/log" 2>&1 || { cat "$1/log" >&2; fail "the wheel could not be made"; }
    echo "$1"/made/*.whl
}

make_wheel() {
    top=$own
    kit=$(value "$here/libkcore.SOURCES" kit)
    speak_of libkcore
    unpack_library "$room" || fail "$why: dist/make.sh libkcore makes it anew"
    fits "$here/$sources" || fail "the packed library is not of these sources: dist/make.sh libkcore makes it anew"
    speak_of wheel
    python=${PYTHON:-python3}
    first=$(wheel_in "$room/one")
    second=$(wheel_in "$room/another one")
    cmp "$first" "$second" || fail "the wheel came out otherwise in another folder"
    "$python" -m zipfile -l "$first" | grep -q '^kcore/libkcore.so ' || fail "the wheel has no library in it"
    rm -f "$here"/kcore-*.whl
    wheel=$(basename "$first")
    case $wheel in kcore-"$version"-py3-none-"$platform".whl) ;; *) fail "the wheel has the name $wheel" ;; esac
    cp "$first" "$here/$wheel"
    made=$("$python" -c 'import platform, zlib; print("Python", platform.python_version(), "zlib", zlib.ZLIB_RUNTIME_VERSION)')
    printf 'kit %s\nsources %s\nmade %s\nlibkcore.so %s\nwheel %s\n' "$kit" "$(sum_of_sources "$kit")" "$made" \
        "$(sum_of "$room/libkcore.so")" "$(sum_of "$first")" > "$here/$sources"
    printf '%s  %s\n' "$(sum_of "$first")" "$wheel" > "$room/sums"
    echo "make.sh: $wheel of $(wc -c < "$first") bytes came out the same in two folders"
}

# Prints the lines of SHA256SUMS that are of the part.
lines_of_part() {
    awk -v name="$name" '
        { of = $2 ~ /[.]whl$/ ? "wheel" : $2; sub(/([.]SOURCES|[.]o|-x86_64-linux.*)$/, "", of) }
        of == name
    ' "$here/SHA256SUMS"
}

version=$(python3 "$own/bench/check_version.py")
echo "make.sh: the version is $version in all places"
for name in ${*:-$parts}; do
    case " $parts " in *" $name "*) ;; *) fail "there is no part $name: parts are $parts" ;; esac
done
[ -f "$here/SHA256SUMS" ] || : > "$here/SHA256SUMS"
for name in ${*:-$parts}; do
    speak_of "$name"
    top=$checkout
    case $name in
        libkcore) make_library ;;
        wheel) make_wheel ;;
        *) make_program ;;
    esac
    printf '%s  %s\n' "$(sum_of "$here/$sources")" "$sources" >> "$room/sums"
    made_now=$name
    for name in $parts; do
        if [ "$name" = "$made_now" ]; then cat "$room/sums"; else lines_of_part; fi
    done > "$room/all"
    cp "$room/all" "$here/SHA256SUMS"
done
size=$(cat "$here"/* | wc -c)
[ "$size" -le 4194304 ] || fail "dist has $size bytes, and 4 MB are the most"
for file in "$here"/*.gz "$here"/*.whl "$here"/*.SOURCES "$here/SHA256SUMS"; do [ ! -f "$file" ] || chmod 644 "$file"; done
cat "$here"/*.SOURCES "$here/SHA256SUMS"
sh "$here/check.sh" "$@"
