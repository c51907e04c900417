#!/bin/sh
# Shows each exit status of the built program, and what stands on standard error with it.
# usage: statuses.sh [PROGRAM]   (default: crates/kcore/out/kcore beside this folder; ./kcore builds it)
# One line a case. Ends with 1 where a status or what stands on standard error is not what it must be.
set -u
here=$(cd "$(dirname "$0")" && pwd)
program=${1:-$here/../crates/kcore/out/kcore}
if [ ! -x "$program" ]; then
    echo "statuses.sh: there is no program $program; ./kcore builds it" >&2
    exit 1
fi
place=$(mktemp -d) || exit 1
trap 'rm -rf "$place"' EXIT
wrong=0

# Compares the status of a case and what it left on standard error, and prints its line.
# report CASE WANTED-STATUS STATUS PATTERN-OF-THE-TEXT
report() {
    text=$(cat "$place/err")
    printf 'status %s  %-34s %s\n' "$3" "$1" "$text"
    case $text in
        $4) [ "$2" = "$3" ] && return ;;
    esac
    printf '  WRONG: status %s was wanted, with: %s\n' "$2" "$4"
    wrong=1
}

printf '1 2\n2 3\n3 1\n' > "$place/triangle"
printf '1 2\n2 x\n' > "$place/refused"
# 2,000,000 lines, about 20 MB: more than the memory that the last case leaves
awk 'BEGIN { for (i = 0; i < 2000000; i++) printf "%d %d\n", i % 1000, 100000 + i % 997 }' > "$place/large"

"$program" < "$place/triangle" > /dev/null 2> "$place/err"
report 'a triangle' 0 $? ''

"$program" --bogus < "$place/triangle" > /dev/null 2> "$place/err"
report 'a word that is no option' 2 $? 'usage: kcore *'

"$program" "$(printf '\377')" < "$place/triangle" > /dev/null 2> "$place/err"
report 'a word that is no UTF-8' 2 $? 'usage: kcore *'

"$program" < "$place/refused" > /dev/null 2> "$place/err"
report 'a letter in place of a number' 3 $? 'refused line 2 kind 1 NotANumber'

"$program" < "$place" > /dev/null 2> "$place/err"
report 'a folder as standard input' 4 $? 'read fault'

if [ -c /dev/full ]; then
    "$program" < "$place/triangle" > /dev/full 2> "$place/err"
    report 'standard output is /dev/full' 5 $? 'write fault'
fi

# the reader of the pipe is gone before the program writes
(
    sleep 1
    "$program" < "$place/triangle" 2> "$place/err"
    echo $? > "$place/status"
) | :
report 'standard output is a closed pipe' 5 "$(cat "$place/status")" 'write fault'

# 16 MiB of addresses
if command -v prlimit > /dev/null; then
    prlimit --as=16777216 "$program" < "$place/large" > /dev/null 2> "$place/err"
else
    (ulimit -v 16384 && exec "$program") < "$place/large" > /dev/null 2> "$place/err"
fi
report 'more input than memory' 6 $? 'no memory'

exit $wrong
