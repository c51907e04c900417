#!/bin/sh
# Tries the packed library and the wheel in copies of this checkout, as one who has no kit: dist/library.sh, c/install.sh, a C program
# against what is installed, `pip install` of the wheel and of the checkout, and the module in the checkout. Called by dist/test.sh.
# usage: dist/test_library.sh libkcore|wheel [CASE..]   (names of the functions that the last lines list; default: all)
# What wants a C compiler, or a python3 with venv, is left out and told where that is not there.
set -u
top=$(dirname "$(dirname "$(readlink -f "$0")")")
name=${1:-}
case $name in libkcore | wheel) shift ;; *) echo "usage: dist/test_library.sh libkcore|wheel [CASE..]" >&2; exit 2 ;; esac
. "$top/dist/common.sh"
if ! sh "$top/dist/check.sh" libkcore "$name" > /dev/null; then exit 1; fi
. "$top/dist/testing.sh"
case $name in
    libkcore) cases="unpacks built changes damage installs programs_in_c" ;;
    wheel) cases="wheel from_checkout in_checkout one_version" ;;
esac
speak_of libkcore
kit=$(value "$top/dist/$sources" kit)

# The caller's path, without folders that have a command rt.
path_without_kit=$(
    IFS=:
    for folder in $PATH; do if [ ! -e "$folder/rt" ]; then printf '%s:' "$folder"; fi; done
)

# Begins a case with a copy in which nothing was unpacked.
begin_anew() {
    begin "$1" crates.txt dist c include $of_package crates/kc_graph crates/kc_text
    rm -rf "$clone/build" "$room/prefix"
}

left_out() {
    echo "left   $title: $*"
}

# Whether a folder has the very library of dist.
has_packed() {
    gzip -dc "$top/dist/$(packed_library libkcore.so)" | cmp -s - "$1/libkcore.so" &&
        gzip -dc "$top/dist/$(packed_library libkcore.a)" | cmp -s - "$1/libkcore.a"
}

has_told() {
    [ $status = 0 ] && [ "$(cat "$room/out")" = "$1" ]
}

# Whether the last command has failed with this sentence and what to do, and wrote nothing.
is_refused() {
    [ $status = 1 ] && says "$1" && says 'or make the library by c/build.sh' && [ ! -s "$room/out" ]
}

unpacks() {
    begin_anew 'library.sh unpacks the library, and finds it again'
    (cd / && try sh "$clone/dist/library.sh" && has_told "$clone/build" && is_quiet) || is_wrong='; it is not unpacked'
    want 'it is that of dist' has_packed "$clone/build"
    before=$(ls -li "$clone/build")
    try sh "$clone/dist/library.sh"
    want 'the same folder' has_told "$clone/build"
    want 'nothing is unpacked again' [ "$(ls -li "$clone/build")" = "$before" ]
    want 'no link, at which rt ci would stop' [ -z "$(find "$clone/build" -type l)" ]
    want 'nothing else is left' [ "$(ls "$clone/build" | tr '\n' ' ')" = 'libkcore.SOURCES libkcore.a libkcore.so libkcore.so.0 ' ]
    echo >> "$clone/build/libkcore.so"
    try sh "$clone/dist/library.sh"
    want 'a damaged one is unpacked anew' has_packed "$clone/build"
    rm "$clone/build/libkcore.SOURCES"
    echo other > "$clone/build/libkcore.so"
    try sh "$clone/dist/library.sh"
    want 'one without a record is not taken' has_packed "$clone/build"
    end
}

# What c/build.sh leaves of the present sources of the copy, with another text in place of each library.
build_another() {
    mkdir -p "$clone/build"
    echo another > "$clone/build/libkcore.so"
    echo another > "$clone/build/libkcore.a"
    (top=$clone && printf 'kit %s\nsources %s\nlibkcore.so %s\nlibkcore.a %s\n' "$kit" "$(sum_of_sources "$kit")" \
        "$(sum_of "$top/build/libkcore.so")" "$(sum_of "$top/build/libkcore.a")" > "$top/build/libkcore.SOURCES")
}

built() {
    begin_anew 'what c/build.sh made of these sources is taken before dist, and only while they are these'
    echo >> "$clone/crates/kc_graph/src/lib.rt"
    build_another
    try sh "$clone/dist/library.sh"
    want 'the folder' has_told "$clone/build"
    want 'the one that was made' [ "$(cat "$clone/build/libkcore.so")" = another ]
    cp "$room/first/crates/kc_graph/src/lib.rt" "$clone/crates/kc_graph/src/lib.rt"
    try sh "$clone/dist/library.sh"
    want 'the folder again' has_told "$clone/build"
    want 'that of dist, whose sources are these again' has_packed "$clone/build"
    end
}

changes() {
    for change in 'echo >> crates/kc_graph/src/lib.rt' 'rm crates/kc_graph/specs/Lib.antt' 'echo >> include/kcore.h' \
        'echo >> c/build.sh'; do
        begin_anew "a source is changed: $change"
        want 'the change itself' within . "$change"
        try sh "$clone/dist/library.sh"
        want 'it is refused' is_refused 'the sources are not those of the library in dist'
        try sh "$clone/dist/check.sh" libkcore
        want 'check.sh tells' says 'the sources are not those of libkcore in dist'
        end
    done
    begin_anew 'changes that do not count'
    echo >> "$clone/crates/kc_text/src/lib.rt"
    want 'the changes themselves' within . "rm -r crates/kc_graph/planted && mkdir crates/kc_graph/out && echo '# a comment' >> crates.txt"
    try sh "$clone/dist/library.sh"
    want 'the folder' has_told "$clone/build"
    end
}

damage() {
    for harm in 'truncate -s 900 libkcore-x86_64-linux.so.gz' 'truncate -s 900 libkcore-x86_64-linux.a.gz' 'sed -i s/^./x/ SHA256SUMS' \
        'sed -i "s/^libkcore.so .*/libkcore.so 0/" libkcore.SOURCES' 'rm libkcore.SOURCES' 'rm SHA256SUMS' \
        'rm libkcore-x86_64-linux.a.gz'; do
        begin_anew "a file of dist is damaged: $harm"
        want 'the harm itself' within dist "$harm"
        try sh "$clone/dist/library.sh"
        want 'it is refused' is_refused dist/
        want 'nothing is left' [ -z "$(ls "$clone/build")" ]
        sh "$clone/dist/check.sh" libkcore > /dev/null 2>&1 && is_wrong="$is_wrong; check.sh passes it"
        end
    done
    for machine in 'Darwin arm64' 'Linux aarch64'; do
        begin_anew "another machine: $machine"
        try sh "$clone/dist/library.sh"
        want 'it is refused' is_refused "no library for this machine ($machine)"
        end
    done
    machine=
}

# Whether all is installed below a folder, for the given prefix.
is_installed() {
    [ "$(cd "$1" && find . -type f -o -type l | LC_ALL=C sort | tr '\n' ' ')" = "./include/kcore.h ./lib/libkcore.a ./lib/libkcore.so \
./lib/libkcore.so.0 ./lib/libkcore.so.$version ./lib/pkgconfig/kcore.pc " ] &&
        has_packed "$1/lib" && cmp -s "$1/include/kcore.h" "$top/include/kcore.h" &&
        [ "$(sed -n 's/^prefix=//p; s/^Version: //p' "$1/lib/pkgconfig/kcore.pc" | tr '\n' ' ')" = "$2 $version " ]
}

installs() {
    begin_anew 'install.sh, in a checkout that cannot be written, also below DESTDIR'
    version=$(sed -n 's/.* this header is for, \([0-9.]*\):.*/\1/p' "$top/include/kcore.h")
    try sh "$clone/c/install.sh" "$room/prefix"
    want 'all is there' is_installed "$room/prefix" "$room/prefix"
    want 'no sentence' is_quiet
    try sh "$clone/c/install.sh" "$room/prefix"
    want 'all is there again' is_installed "$room/prefix" "$room/prefix"
    want 'nothing is unpacked in the checkout' [ ! -e "$clone/build" ]
    chmod -R a+rX,a-w "$clone"
    as_nobody env DESTDIR="$room/temporary/to" sh "$clone/c/install.sh" /usr/local
    want 'all is there below DESTDIR' is_installed "$room/temporary/to/usr/local" /usr/local
    chmod -R u+w "$clone"
    rm -rf "$room/temporary/to"
    try sh "$clone/c/install.sh"
    want 'no prefix is a wrong word' [ $status = 2 ]
    end
}

# Whether core_numbers wrote the core numbers of the karate club.
has_karate() {
    [ $status = 0 ] && is_quiet && [ "$(cut -d ' ' -f 2 "$room/out" | sort | uniq -c | tr -s ' \n' ' ')" = ' 1 1 11 2 12 3 10 4 ' ]
}

programs_in_c() {
    begin_anew 'C programs against what install.sh left, shared and static'
    sh "$clone/c/install.sh" "$room/prefix" > /dev/null
    path=$path_without_kit
    if ! command -v "${CC:-cc}" > /dev/null; then
        left_out "there is no command ${CC:-cc}"
        return
    fi
    flags="-I$room/prefix/include -L$room/prefix/lib -lkcore"
    if command -v pkg-config > /dev/null; then flags=$(PKG_CONFIG_PATH=$room/prefix/lib/pkgconfig pkg-config --cflags --libs kcore); fi
    try ${CC:-cc} -std=c11 -Wall -Wextra -Werror "$clone/examples/c/core_numbers.c" $flags -o "$room/shared"
    want "it compiles with $flags" [ $status = 0 ]
    try env LD_LIBRARY_PATH="$room/prefix/lib" "$room/shared"
    want 'the numbers by the shared library' has_karate
    want 'it asks for libkcore.so.0' grep -aqF libkcore.so.0 "$room/shared"
    try ${CC:-cc} -std=c11 "-I$room/prefix/include" "$clone/examples/c/core_numbers.c" "$room/prefix/lib/libkcore.a" -o "$room/static"
    try "$room/static"
    want 'the numbers by the archive' has_karate
    end
}

# Sets $python to a python3 with these modules, or tells that there is none.
# find_python MODULE..
find_python() {
    for python in ${PYTHON:-python3 /usr/bin/python3}; do
        if python=$("$python" -c "import sys, $(echo "$@" | tr ' ' ','); print(sys.executable)" 2> /dev/null); then return; fi
    done
    left_out "no python3 here has $*"
    return 1
}

# What an installed module says of itself.
tell_of_module() {
    (cd / && try "$@" -c 'import hashlib, kcore
from pathlib import Path
path = Path(kcore._library._library._name)
print(kcore.__version__, hashlib.sha256(path.read_bytes()).hexdigest(), kcore.core_numbers([(0, 1), (1, 2), (2, 0), (2, 3)]))
print(path)'; exit $status)
    status=$?
}

# Whether the module is of the version of the header, and calls the library of dist, which lies in the given folder.
is_module_in() {
    [ "$(head -n 1 "$room/out")" = "$version $(sum_in libkcore-x86_64-linux.so) [2, 2, 2, 1]" ] &&
        case $(tail -n 1 "$room/out") in "$1"/*) ;; *) return 1 ;; esac
}

wheel() {
    begin_anew 'the wheel in a new environment'
    find_python venv ensurepip || return
    wheel=$(name_of_wheel)
    version=$(sed -n 's/.* this header is for, \([0-9.]*\):.*/\1/p' "$top/include/kcore.h")
    path=$path_without_kit
    try "$python" -m venv "$room/env"
    try "$room/env/bin/pip" --disable-pip-version-check install --no-index "$clone/dist/$wheel"
    want 'it is installed' [ $status = 0 ]
    tell_of_module "$room/env/bin/python"
    want 'the numbers' is_module_in "$room/env"
    want 'the name of the wheel has the version' [ "${wheel#kcore-"$version"-py3-none-}" != "$wheel" ]
    end
}

from_checkout() {
    begin_anew 'pip install of a checkout in which nothing was built, in a bare environment without a network'
    offline=
    if unshare -n true 2> /dev/null; then offline="$(command -v unshare) -n"; fi
    find_python venv ensurepip || return
    version=$(sed -n 's/.* this header is for, \([0-9.]*\):.*/\1/p' "$top/include/kcore.h")
    path=$path_without_kit
    try "$python" -m venv "$room/other"
    pip="$room/other/bin/pip --disable-pip-version-check install --no-index"
    try $offline $pip "$clone"
    want 'it is installed' [ $status = 0 ]
    tell_of_module "$room/other/bin/python"
    want 'the numbers' is_module_in "$room/other"
    end
    begin_anew 'pip install of a checkout with other sources'
    path=$path_without_kit
    echo >> "$clone/crates/kc_graph/src/lib.rt"
    try $pip --force-reinstall "$clone"
    want 'it is refused' [ $status = 1 ]
    want 'it says why' grep -q 'the sources are not those of the library in dist: take a .*, or name one in KCORE_LIBRARY' \
        "$room/out" "$room/err"
    end
}

in_checkout() {
    begin_anew 'the module in a checkout, before and after library.sh'
    find_python ctypes || return
    version=$(sed -n 's/.* this header is for, \([0-9.]*\):.*/\1/p' "$top/include/kcore.h")
    path=$path_without_kit
    tell_of_module env PYTHONPATH="$clone/python" PYTHONDONTWRITEBYTECODE=1 "$python"
    want 'it says what to do' grep -q 'ImportError: there is no library .*: in the checkout unpack it by dist/library.sh' "$room/err"
    sh "$clone/dist/library.sh" > /dev/null
    tell_of_module env PYTHONPATH="$clone/python" PYTHONDONTWRITEBYTECODE=1 "$python"
    want 'the numbers' is_module_in "$clone/build"
    end
}

one_version() {
    begin_anew 'one version in all places'
    find_python re || return
    path=$path_without_kit
    try "$python" "$top/bench/check_version.py"
    want 'they agree' [ $status = 0 ]
    end
}

for case in ${*:-$cases}; do
    "$case"
done
exit $wrong
