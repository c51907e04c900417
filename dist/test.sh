#!/bin/sh
# Tries what dist/ holds in copies of this checkout: ./kcore and ./cores here, the library and the wheel by dist/test_library.sh, and
# dist/check.sh with each. It proves and builds nothing: where a build of a program is due, a command of the name rt notes that it was
# called, and leaves a program that says so. Programs are tried with nothing on the path but the tools of any Debian.
# usage: dist/test.sh [PART [CASE..]]   (kcore, cores, libkcore or wheel, and names of the functions that the last lines list; default: all)
# One line a case. Ends with 1 where one went wrong. dist/ has to fit the sources.
set -u
top=$(dirname "$(dirname "$(readlink -f "$0")")")
if [ $# = 0 ]; then
    status=0
    for part in kcore cores libkcore wheel; do sh "$0" "$part" || status=1; done
    exit $status
fi
name=$1
case $name in libkcore | wheel) exec sh "$top/dist/test_library.sh" "$@" ;; esac
shift
. "$top/dist/common.sh"
case " $programs " in *" $name "*) ;; *) echo "usage: dist/test.sh [PART [CASE..]]" >&2; exit 2 ;; esac
if ! sh "$top/dist/check.sh" "$name" > /dev/null; then exit 1; fi
. "$top/dist/testing.sh"
changed="$programs crates.txt dist crates/kcore crates/cores crates/kc_graph crates/kc_io"
usage_in_specs=$(sed -n 's/^usage_line = codes "\(.*\)\\n"$/\1/p' "$top/crates/kc_top/specs/ErrLines.antt")

# A command rt that stands for the kit's.
cat > "$room/kit/rt" << END
#!/bin/sh
if [ "\$1" = version ]; then echo "$(value "$top/dist/$sources" kit)"; exit; fi
echo "\$*" >> "$room/calls"
mkdir -p out
printf '#!/bin/sh\necho built\n' > out/$name
chmod 755 out/$name
END
chmod 755 "$room/kit/rt"

has_numbers() {
    case $name in
        kcore) first='graph vertices 34 edges 78 top 4\n0 4\n1 4' lines=35 ;;
        cores) first='0\t4\n1\t4' lines=34 ;;
    esac
    [ $status = 0 ] && [ "$(head -n "$((lines - 32))" "$room/out")" = "$(printf "$first")" ] && [ "$(wc -l < "$room/out")" = $lines ]
}

has_built() {
    [ "$(cat "$room/calls" 2> /dev/null)" = run ] && [ "$(cat "$room/out")" = built ]
}

is_unasked() {
    [ ! -e "$room/calls" ]
}

is_usage() {
    [ $status = 2 ] && [ "$(cat "$room/err")" = "$usage_in_specs" ] && [ ! -s "$room/out" ]
}

# Where a build is due: without rt a sentence and status 127, with it the sentence, the call and what was built; then no call again.
builds() {
    try "$clone/$name" $trial
    want "status 127 without rt" [ $status = 127 ]
    want "the reason without rt" says "$1"
    path=$room/tools:$room/kit
    try "$clone/$name" $trial
    want "it is built" has_built
    want "the reason" says "$1"
}

first_call() {
    begin 'the first call, and the second' $changed
    before=$(date +%s%N)
    try "$clone/$name" $trial
    took=$((($(date +%s%N) - before) / 1000000))
    want 'the numbers' has_numbers
    want 'the sentence' says 'not here: rt ci proves them'
    want "two seconds are enough ($took ms)" [ $took -lt 2000 ]
    try "$clone/$name" $trial
    want 'the numbers again' has_numbers
    want 'no sentence again' is_quiet
    title="$title ($took ms)"
    end
}

with_the_kit() {
    begin 'the first call where the kit is there' $changed
    path=$room/tools:$room/kit
    try "$clone/$name" $trial
    want 'the numbers' has_numbers
    want 'the sentence' says 'not here: rt ci proves them'
    want 'no build' is_unasked
    end
    begin 'what rt ci has built is the program of dist' $changed
    mkdir "$clone/crates/$name/out"
    unpack "$clone/crates/$name/out/$name"
    try "$clone/$name" $trial
    want 'the numbers' has_numbers
    want 'no sentence' is_quiet
    end
}

places() {
    begin 'from another folder and through a link' $changed
    mkdir "$room/link"
    ln -s "$clone/$name" "$room/link/$name"
    (cd / && try "$room/link/$name" $trial && has_numbers) || is_wrong="; not through a link"
    (cd "$clone" && try "./$name" $trial && has_numbers && is_quiet) || is_wrong="$is_wrong; not from its folder"
    rm -r "$room/link"
    end
}

words() {
    begin 'a wrong word' $changed
    try "$clone/kcore" --help
    want 'the usage line after the sentence' [ "$(tail -n 1 "$room/err")" = "$usage_in_specs" ]
    try "$clone/kcore" --workers 0
    want 'the usage line alone' is_usage
    input=/dev/null
    try "$clone/kcore" --level 3 --show summary
    want 'right words' [ $status = 0 ]
    input=$top/graphs/karate.txt
    end
    begin 'a wrong word where a build is due' $changed
    path=$room/tools:$room/kit
    echo >> "$clone/crates/kc_graph/src/lib.rt"
    try "$clone/kcore" --workers 0
    want 'the usage line at once' is_usage
    want 'no build' is_unasked
    end
    begin 'the script takes just the words that the program takes' $changed
    unpack "$room/program"
    input=/dev/null
    while read -r line; do
        eval "set -- $line"
        try "$room/program" "$@"
        program=$status
        is_taken=2
        if are_right "$@"; then is_taken=0; fi
        want "the same for $line" [ "$is_taken" = "$program" ]
    done << 'END'

--
-- --
x
-- x
''
--help
-h
-V
--workers
--workers 1
--workers 0
--workers 64
--workers 65
--workers 0064
--workers 00000000001
--workers=2
--workers=
--workers= 2
--workers ''
--workers ' 1'
--workers -1
--workers +1
--workers 0x1
--workers 1 --workers 1
--workers=1 --workers 2
--work 1
--workers 1 2
--show cores
--show summary
--show each
--show Each
--show=each
--show=
--show --level
--show cores --level 3
--level 3 --show cores
--level 0
--level 4294967295
--level 4294967296
--level 9999999999
--level=-3
--level --
--level 1 --
--level 1 -- 2
--level 1 --level 1
--gen 7
--gen 7 --show summary
--gen=07
--gen 7x
--start buckets
--start hindex
--start h
--start=buckets --start=hindex
--gen 1 --workers 2 --show each --level 2 --start hindex --
END
    input=$top/graphs/karate.txt
    end
}

changes() {
    for change in 'echo >> crates/kc_graph/src/lib.rt' 'rm crates/kc_graph/specs/Lib.antt' 'echo > crates/kc_io/proofs/New.antt' \
        'mv crates/kc_io/src/lib.rt crates/kc_io/src/other.rt' 'rm -r crates/kc_graph/proofs' 'sed -i s/^kc_io:/kc_io:\ itoa/ crates.txt'; do
        begin "a source is changed: $change" $changed
        want 'the change itself' within . "$change"
        builds 'the sources are not those'
        end
    done
    begin 'a source is changed after the first call, and its time is set back' $changed
    try "$clone/$name" $trial
    echo >> "$clone/crates/kc_graph/src/lib.rt"
    touch -d 2001-01-01 "$clone/crates/kc_graph/src/lib.rt"
    builds 'the sources are not those'
    rm "$room/calls"
    try "$clone/$name" $trial
    want 'no second build' is_unasked
    want 'no sentence again' is_quiet
    cp "$room/first/crates/kc_graph/src/lib.rt" "$clone/crates/kc_graph/src/lib.rt"
    try "$clone/$name" $trial
    want 'the numbers where the change is taken back' has_numbers
    end
}

no_changes() {
    begin 'changes that do not count' $changed
    try "$clone/$name" $trial
    path=$room/tools:$room/kit
    want 'the changes themselves' within . "echo > README.md && echo >> crates/$name/stdin && rm -r crates/kc_graph/planted && rm -rf crates/kc_io/must-fail &&
        mkdir crates/kc_io/out && touch crates/kc_graph/src/lib.rt && echo '# a comment' >> crates.txt"
    try "$clone/$name" $trial
    want 'the numbers' has_numbers
    want 'no sentence' is_quiet
    want 'no build' is_unasked
    end
}

damage() {
    for harm in 'truncate -s 9000 $packed' 'printf x | dd of=$packed bs=1 seek=9000 conv=notrunc 2> /dev/null' \
        'sed -i s/^./x/ SHA256SUMS' 'sed -i "s/^program .*/program 0/" $sources' 'rm $sources' 'rm SHA256SUMS' 'rm $packed' \
        'echo > x; gzip -nc < x > $packed; sed -i "/$packed/s/^[^ ]*/$(sha256sum < $packed | cut -c 1-64)/" SHA256SUMS'; do
        begin "a file of dist is damaged: $harm" $changed
        want 'the harm itself' within dist "$harm"
        builds 'dist/'
        sh "$clone/dist/check.sh" "$name" > /dev/null 2>&1 && is_wrong="$is_wrong; check.sh passes it"
        end
    done
    begin 'the unpacked program is damaged' $changed
    try "$clone/$name" $trial
    echo >> "$clone/crates/$name/out/$name"
    try "$clone/$name" $trial
    want 'the numbers' has_numbers
    want 'it is unpacked anew' says 'not here: rt ci proves them'
    end
}

machines() {
    for machine in 'Darwin arm64' 'Linux aarch64' 'FreeBSD x86_64'; do
        begin "another machine: $machine" $changed
        builds "no program for this machine ($machine)"
        end
    done
    machine=
    begin 'the program of dist does not run here' $changed
    (cd "$clone/dist" && printf '#!/bin/sh\nexit 1\n' > program && gzip -nc < program > "$packed" &&
        write_record "$(value "$sources" kit)" "$(value "$sources" sources)" program "$sources" && rm program &&
        for file in "$packed" "$sources"; do sed -i "/ $file\$/s/^[^ ]*/$(sum_of "$file")/" SHA256SUMS; done &&
        sed -i "/ $unpacked\$/s/^[^ ]*/$(value "$sources" program)/" SHA256SUMS)
    builds 'does not run on this machine'
    end
}

read_only() {
    begin 'a checkout that cannot be written' $changed
    chmod -R a+rX,a-w "$clone"
    as_nobody "$clone/$name" $trial
    want 'the numbers' has_numbers
    want 'the sentence' says 'not here: rt ci proves them'
    as_nobody "$clone/$name" --unknown
    want 'a wrong word' [ $status = 2 ]
    want 'nothing is left' [ -z "$(ls "$room/temporary")" ]
    want 'nothing is unpacked there' [ ! -e "$clone/crates/$name/out" ]
    chmod -R u+w "$clone"
    end
}

checked() {
    begin 'check.sh says whether it fits' $changed
    (cd / && try sh "$clone/dist/check.sh" "$name" && says_fit) || is_wrong='; not where it does'
    echo >> "$clone/crates/kc_graph/src/lib.rt"
    try sh "$clone/dist/check.sh" "$name"
    want 'status 1 where a source is changed' [ $status = 1 ]
    want 'the reason' says 'the sources are not those'
    end
}

says_fit() {
    case $(cat "$room/out") in *"$name in dist is whole and of these sources"*) is_quiet ;; *) return 1 ;; esac
}

version() {
    begin 'cores tells the version of the header' $changed
    try "$clone/cores" --version
    want 'the version' grep -qxF "cores $(sed -n 's/.* this header is for, \([0-9.]*\):.*/\1/p' "$top/include/kcore.h")" "$room/out"
    end
}

# The words of kcore alone are known to the script, and cores alone tells a version.
case $name in kcore) words=words ;; cores) words=version ;; esac
for case in ${*:-first_call with_the_kit places $words changes no_changes damage machines read_only checked}; do
    "$case"
done
exit $wrong
