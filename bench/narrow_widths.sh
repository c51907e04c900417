#!/bin/sh
# Runs the stress programs with words whose fields are narrow, so that versions, groups and labels run out early.
# usage: sh bench/narrow_widths.sh [WIDTHS [PROGRAM [WORD..]]]
# (default: each of the widths usual, narrow and groups, with each of stress_journal and stress_order; a run with WORDs of the program, as
# `run 30 1`, is shown and not compared)
#
# The crates are copied to a temporary folder, and the constants of the copy's kc_words/src/layout.rt are changed: `narrow` leaves just the
# room that the contracts ask for. `groups` has groups of 4 items besides, by kc_list/src/limits.rt, so that groups split and run out of
# labels all the time. Also with the usual widths, stress_order makes 2,000 rounds here, and stress_journal 12 batches of each graph that it
# opens: so many that a fresh table runs out of narrow versions, too. The part `held` of stress_journal has one table to its end, so it makes
# just 20 updates where versions are narrow. The copy of each program writes lines of figures more: how often its tables were renewed, or how
# many words it stored.
#
# rt try builds and runs the copy. It proves nothing, and looks at each access to memory. The status is 1 where a program fails, or writes
# something else than crates/PROGRAM/stdout has.
set -eu
cd "$(dirname "$0")/.."
widths=${1:-usual narrow groups} programs=${2:-stress_journal stress_order}
[ $# -lt 2 ] || shift
[ $# -lt 1 ] || shift

copy=$(mktemp -d)
trap 'rm -rf "$copy"' EXIT
trap 'exit 1' HUP INT TERM

# Copies the crates anew, without what rt has made.
copy_crates() {
    rm -rf "$copy/crates"
    tar -cf - --exclude=out crates crates.txt HANDLES | tar -xf - -C "$copy"
}

# Gives each constant NAME=VALUE its value, in a file of the copy.
set_in() {
    file=$copy/crates/$1
    shift
    for it in "$@"; do
        head="\(pub\(([a-z]*)\)\? \)\?const ${it%=*}: [a-z0-9]* = "
        grep -q "^$head" "$file" || { echo "narrow_widths.sh: $file has no ${it%=*}" >&2; exit 2; }
        sed -i "s/^\($head\).*;/\1${it#*=};/" "$file"
    done
}

# Each program's copy writes a line of figures more, and stress_order makes fewer rounds.
add_figures() {
    sed -i 's/right after {} batches"/right after {} batches\\nfigures: renewals {} of {} updates"/
        s/^            counted.batches$/            counted.batches, counted.renewals, counted.updates/' "$copy/crates/stress_journal/src/main.rt"
    sed -i 's/^        try_table(rt, SEED/        let counted = try_table(rt, SEED/
        s/every answer is right")/every answer is right\\nfigures: stores {}", counted.stores)/' "$copy/crates/stress_order/src/main.rt"
    for it in stress_journal stress_order; do
        grep -q 'figures: ' "$copy/crates/$it/src/main.rt" || { echo "narrow_widths.sh: $it is another program by now" >&2; exit 2; }
    done
    set_in stress_order/src/rounds.rt ROUNDS=2_000
    sed -i 's/^            batches: 3,$/            batches: 12,/' "$copy/crates/stress_journal/src/runs.rt"
}

# VERSION GROUP BOTTOM TOP ITEM VERTEX CORE ITEMS VERTICES: the bits of the fields, and how many items and vertices there may be.
set_widths() {
    set_in kc_words/src/layout.rt VERSION_BITS="$1" GROUP_BITS="$2" BOTTOM_BITS="$3" TOP_BITS="$4" ITEM_BITS="$5" VERTEX_BITS="$6" CORE_BITS="$7" \
        LAST_VERSION=$(((1 << $1) - 1)) BOTTOM_ROOM=$((1 << $3)) TOP_ROOM=$((1 << $4)) ITEMS="$8" VERTICES="$9"
    group_items=$(sed -n 's/^pub const GROUP_ITEMS: usize = \(.*\);/\1/p' "$copy/crates/kc_list/src/limits.rt")
    # What the contracts ask of these numbers.
    [ $((3 * $9)) -lt $((1 << $1)) ] && [ $(($8 + 1)) -lt $((1 << $2)) ] && [ $((2 * group_items + 2)) -le $((1 << $3)) ] &&
        [ $((2 * $8 + 4)) -le $((1 << $4)) ] && [ "$8" -le $((1 << $5)) ] && [ "$9" -le $((1 << $6)) ] && [ "$9" -le $((1 << $7)) ] &&
        [ $((2 * $9 + 1)) -le "$8" ] || { echo "narrow_widths.sh: too narrow" >&2; exit 2; }
}

# The widths of a name, for a program: stress_journal has graphs of up to 41 vertices, stress_order 4,002 items.
change_to() {
    bottom=8
    case $1 in
        usual) return ;;
        narrow) ;;
        groups) bottom=4; set_in kc_list/src/limits.rt GROUP_ITEMS=4 OPENING_ITEMS=2 HALF_ITEMS=2 ;;
        *) echo "narrow_widths.sh: the widths are usual, narrow and groups" >&2; exit 2 ;;
    esac
    case $2 in
        stress_journal) set_widths 7 7 "$bottom" 8 7 6 6 85 42; set_in stress_journal/src/main.rt HELD_UPDATES=20 ;;
        stress_order) set_widths 12 12 "$bottom" 13 12 11 11 4002 1365 ;;
        *) echo "narrow_widths.sh: the programs are stress_journal and stress_order" >&2; exit 2 ;;
    esac
}

# What the program has written, as its stdout has it: without the figures, and with the usual numbers of updates and batches.
plain_out() {
    sed -e '/^figures: /d' -e 's/after 20 updates/after 1000 updates/' -e 's/after 48 batches/after 12 batches/' "$copy/out"
}

failed=0
for program in $programs; do
    for width in $widths; do
        copy_crates
        add_figures
        change_to "$width" "$program"
        echo "$program, $width:"
        (cd "$copy/crates/$program" && rt try --seconds 3600 ${1:+--} "$@" </dev/null >"$copy/out" 2>"$copy/told") || true
        grep 'figures: \|^seed' "$copy/out" || true
        if ! grep -q '^run=ended status=0 ' "$copy/told"; then
            cat "$copy/out" "$copy/told"
            failed=1
        elif [ $# -eq 0 ] && ! plain_out | cmp - "crates/$program/stdout"; then
            failed=1
        else
            echo "ended, status 0$([ $# -gt 0 ] || echo ', and wrote what it has to')"
        fi
    done
done
exit $failed
