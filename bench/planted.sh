#!/bin/sh
# Tries the planted bugs of crates: sh bench/planted.sh [NAME..]
#
# crates/NAME/planted has edits as those of crates/NAME/must-fail. The gate does not try them, since each costs it up to a minute, and most
# break a clause that one of must-fail breaks, too. Here they stand in must-fail, in a copy of the sources, and `rt must-fail` tries all of
# these crates, or of each crate that has some. The last line is its verdict, and the status is its own.
set -eu
top=$(cd "$(dirname "$0")/.." && pwd)
copy=$(mktemp -d)
trap 'rm -rf "$copy"' EXIT
(cd "$top" && git ls-files -co --exclude-standard crates crates.txt HANDLES | tar -cf - -T -) | tar -xf - -C "$copy"
git -C "$copy" init -q
cd "$copy"
if [ $# = 0 ]; then
    set -- $(ls -d crates/*/planted | cut -d/ -f2)
fi
for name in "$@"; do
    if [ -d "crates/$name/planted" ]; then
        mkdir -p "crates/$name/must-fail"
        mv "crates/$name/planted"/*.edit "crates/$name/must-fail/"
    fi
done
rt must-fail "$@"
