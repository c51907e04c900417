# Runs the program $name with these words and this standard input. Read by ./kcore and ./cores.
# The program in crates/NAME/out is run where it is of these sources. Else the packed one of dist/ is unpacked there, where it is of these
# sources and for this machine. Else the program is proved and built first. What is said of this goes to standard error.
# KCORE_MACHINE, where it is set, stands for what uname says of the machine, so that a test can have another one.
top=$(dirname "$(readlink -f "$0")")
. "$top/dist/common.sh"
out=$top/crates/$name/out
program=$out/$name
record=$out/$name.sources

say() {
    echo "$name: $*" >&2
}

# Whether the program is there and is the one of the record beside it.
is_recorded() {
    [ -x "$program" ] && [ -r "$record" ] && [ "$(sum_of "$program")" = "$(value "$record" program)" ]
}

# Whether the packed program, unpacked into the room, is of these sources and runs here; else says in $why what is not so.
is_packed() {
    machine=${KCORE_MACHINE:-$(uname -s) $(uname -m)}
    if [ "$machine" != "Linux x86_64" ]; then
        why="dist has no program for this machine ($machine)"
        return 1
    fi
    unpack "$room/$name" || return 1
    if ! fits "$top/dist/$sources"; then
        why="the sources are not those of the program in dist"
        return 1
    fi
    if ! "$room/$name" $trial < /dev/null > /dev/null 2>&1; then
        why="the program of dist does not run on this machine"
        return 1
    fi
    cp "$top/dist/$sources" "$room/record"
}

# Proves and builds the program, and writes its record into the room. Words that the program does not take are refused before.
# build [WORD..]
build() {
    if ! are_right "$@"; then
        echo "$usage" >&2
        exit 2
    fi
    if ! command -v rt > /dev/null; then
        say "$why, and the command rt (the Rattle kit), which proves and builds it, is not on the path"
        exit 127
    fi
    say "$why, so the program is proved and built first, which takes half an hour where nothing is proved yet"
    kit=$(rt version < /dev/null) || exit 1
    sum=$(sum_of_sources "$kit")
    (cd "$top/crates/$name" && rt run < /dev/null > /dev/null) || exit 1
    if [ "$sum" != "$(sum_of_sources "$kit")" ]; then
        say "a source was changed while the program was built: call it again"
        exit 1
    fi
    write_record "$kit" "$sum" "$program" "$room/record"
}

if is_recorded && ! is_changed_since "$record"; then exec "$program" "$@"; fi

{ mkdir -p "$out" && room=$(mktemp -d "$out/$name.XXXXXX"); } 2> /dev/null || room=$(mktemp -d "${TMPDIR:-/tmp}/$name.XXXXXX") || exit 1
trap 'rm -rf "$room"' EXIT
trap 'exit 1' HUP INT TERM
# A record has the time at which its sum was begun, so that what is changed meanwhile counts as changed after it.
: > "$room/began"

if is_recorded && fits "$record"; then
    cp "$record" "$room/record"
elif is_packed; then
    # what rt ci has built is the same program
    if ! cmp -s "$room/$name" "$program"; then
        say "this program was proved and built from these sources elsewhere, not here: rt ci proves them, dist/check.sh --build compares"
        # where the checkout can't be written, the unpacked file is opened, and what was opened is run when its folder is gone
        mv -f "$room/$name" "$program" 2> /dev/null || { exec 9< "$room/$name" && program=/proc/self/fd/9; }
    fi
else
    build "$@"
fi
touch -r "$room/began" "$room/record"
mv -f "$room/record" "$record" 2> /dev/null
rm -rf "$room"
exec "$program" "$@"
