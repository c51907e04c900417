#!/bin/sh
# Lists what the proofs of both programs rest on outside this repository: the C functions whose contracts are assumed, and the functions of the
# kit that the crates call.
# usage: sh bench/axioms.sh [--write] [CRATE..]
# It runs `rt check --list-axioms --list-calls` for each program, and `rt check --list-calls` for each crate below them; or both for the crates
# that are named, by their order in crates.txt. What rt kept of an earlier check is taken over, and what is not proved yet is proved. The list
# goes to standard output, or with --write between the lines '<!-- axioms -->' and '<!-- end -->' of docs/TRUST.md. It needs rt.
set -eu
top=$(dirname "$(dirname "$(readlink -f "$0")")")
. "$top/dist/common.sh"
page=$top/docs/TRUST.md
write=
if [ "${1:-}" = --write ]; then
    write=1
    shift
fi
room=$(mktemp -d)
trap 'rm -rf "$room"' EXIT
trap 'exit 1' HUP INT TERM

# The crates below the programs, each before those that stand on it.
all_crates() {
    for name in $programs; do
        speak_of "$name"
        crates_of_part
    done | sort -u > "$room/names"
    sed 's/[[:blank:]:#].*//' "$top/crates.txt" | grep -Fx -f "$room/names"
}

is_program() {
    [ -f "$top/crates/$1/src/main.rt" ]
}

# Checks a crate, and leaves what the check says in the room.
check() {
    flags=--list-calls
    if is_program "$1"; then flags="--list-axioms $flags"; fi
    echo "axioms.sh: rt check $flags, in crates/$1" >&2
    if ! (cd "$top/crates/$1" && rt check $flags < /dev/null > "$room/$1.log" 2>&1) || ! grep -q '^logic=proved' "$room/$1.log"; then
        tail -n 20 "$room/$1.log" >&2
        echo "axioms.sh: crates/$1 is not proved" >&2
        exit 1
    fi
}

# Prints a line 'KIND LIBRARY FUNCTION' for each function that a check has listed: reached, by a contract that is assumed, or called.
listed() {
    awk '
        /^(axioms|calls) [^ ]+: / { kind = $1; library = $2; sub(/:$/, "", library); next }
        !/::/ || /^fn / { kind = "" }
        { sub(/:$/, "", $1) }
        kind == "axioms" && $NF == "reached" { print "reached", library, $1 }
        kind == "calls" { print "called", library, $1 }
    ' "$@"
}

# Prints for each library how many of its functions are listed, and which, each without the name of the library.
block() {
    LC_ALL=C sort -u | awk '
        { name = $3; if (index(name, $2 "::") == 1) name = substr(name, length($2) + 3) }
        $2 != library { if (library != "") print_it(); library = $2; count = 0; names = "" }
        { count++; names = names " " name }
        function print_it() { print library " (" count "):" names }
        END { if (library != "") print_it() }' | fold -s -w 140 | sed 's/ *$//; /^[^ ]* ([0-9]*):/!s/^/    /'
}

# The lists of all checks in the room.
lists() {
    for crate in "$@"; do
        if is_program "$crate"; then
            printf '\nOf `%s` the last line of the check is:\n\n```\n' "$crate"
            grep '^logic=proved' "$room/$crate.log"
            printf '```\n\nIt rests on the contracts of these C functions:\n\n```\n'
            listed "$room/$crate.log" | grep '^reached ' | block
            printf '```\n'
        fi
    done
    printf '\nThese functions of the kit are called by name, by the programs or by a crate below them:\n\n```\n'
    listed "$room"/*.log | awk '$1 == "called" && $2 !~ /^kc_/' | block
    printf '```\n\n'
}

if [ $# = 0 ]; then set -- $(all_crates); fi
for crate in "$@"; do check "$crate"; done
lists "$@" > "$room/lists"
if [ -z "$write" ]; then
    cat "$room/lists"
    exit 0
fi
awk -v lists="$room/lists" '
    /^<!-- end -->$/ { inside = 0 }
    !inside { print }
    /^<!-- axioms -->$/ { inside = 1; while ((getline line < lists) > 0) print line }
' "$page" > "$room/page"
cat "$room/page" > "$page"
echo "axioms.sh: written to docs/TRUST.md" >&2
