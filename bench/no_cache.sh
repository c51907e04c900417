#!/bin/sh
# Checks a library with nothing taken over: each module of the program logic and of the kit's libraries that it reads is checked anew.
# usage: sh bench/no_cache.sh NAME [rattle's flags]
#
# `rt check` takes the program logic and the libraries below a crate as they were checked before, so its last line has `logic-built=trusted`.
# This calls `rattle check --no-cache` itself, which reads and writes no such work. Its last line then has neither that word nor
# `cache=trusted`. `libraries-built=trusted` stays, since the libraries' interfaces are read from what was built of them. The crates below have
# to be built already, as `rt lib NAME` or a check of a crate above leaves them. The last line tells the seconds.
set -eu
name=$1
shift
top=$(cd "$(dirname "$0")/.." && pwd)
kit=$(dirname "$(dirname "$(readlink -f "$(command -v rt)")")")
reached() {
    for it in $(sed -n "s/^$1\( staticlib\)\{0,1\}://p" "$top/crates.txt"); do
        echo "$it"
        reached "$it"
    done
}
set -- --no-cache "$@"
for it in std $(reached "$name" | sort -u); do
    rlib=$top/crates/$it/out/rlib/$it.rlib
    if [ -d "$top/crates/$it" ]; then
        if [ ! -d "$rlib" ]; then
            echo "no_cache.sh: crates/$it is not built" >&2
            exit 2
        fi
        set -- -L "dependency=$top/crates/$it/out/rlib" "$@"
    else
        rlib=$kit/rlibs/$it.rlib
    fi
    if [ "$it" = std ] || sed -n "s/^$name\( staticlib\)\{0,1\}://p" "$top/crates.txt" | tr ' ' '\n' | grep -qx "$it"; then
        set -- --extern "$it=$rlib" "$@"
    fi
done
cd "$top/crates/$name"
began=$(date +%s)
status=0
"$kit/bin/rattle" check --crate-name "$name" src/lib.rt -L "dependency=$kit/rlibs" --antt-project "$kit/rattle/logic/antt-project.json" "$@" || status=$?
echo "no_cache.sh: $(($(date +%s) - began)) seconds"
exit $status
