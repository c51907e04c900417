#!/bin/sh
# Builds both libraries, and tries them from C and from Python: what is exported and declared, the examples on small graphs and on inputs
# that they refuse, plain and under the address and undefined behaviour sanitizers, with each allocation failing in turn, and the Python
# tests by the python3 that PYTHON names. Packages that these want and Debian has are installed where that is Debian's own python3 and the
# caller may; else the script says which are missing, and their tests are skipped. With KCORE_NO_INSTALL set nothing is installed.
# usage: c/test.sh [--packed] [--quick]
# With --packed, or where the Rattle kit is not there, the libraries are those that dist/library.sh finds, and nothing is built.
# With --quick the sanitizers, the allocations that fail and the longer Python tests are left out, and nothing is installed.
set -eu
top=$(cd "$(dirname "$0")/.." && pwd)
packed= quick=
for word in "$@"; do
    case $word in
        --packed) packed=1 ;;
        --quick) quick=1 ;;
        *) echo "usage: c/test.sh [--packed] [--quick]" >&2; exit 2 ;;
    esac
done
if [ -z "$packed" ] && command -v rt > /dev/null; then build=$("$top/c/build.sh"); else build=$(sh "$top/dist/library.sh"); fi
flags="-std=c11 -O2 -g -Wall -Wextra -Werror -I$top/include"
sanitized="-fsanitize=address,undefined -fno-sanitize-recover=all"
wrapped="-Wl,--wrap=malloc,--wrap=realloc,--wrap=free"

# The library exports what the header declares, and nothing else.
grep -o '\<kcore_[a-z_]*(' "$top/include/kcore.h" | tr -d '(' | sort -u > "$build/declared"
nm -D --defined-only "$build/libkcore.so" | sed -n 's/.* T \([a-z_]*\).*/\1/p' | sort > "$build/exported"
cmp "$build/declared" "$build/exported"
echo "exported: $(tr '\n' ' ' < "$build/exported")"

# And with the types that the crate has.
python=${PYTHON:-python3}
"$python" "$top/c/check_header.py"

# The header is C of 1999 and later and C++, and an answer that is dropped is warned of.
for language in "c -std=c99" "c -std=c11" "c++ -std=c++11"; do
    ${CC:-cc} -x $language -pedantic -Wall -Wextra -Werror -fsyntax-only "$top/include/kcore.h"
done
printf '#include "kcore.h"\nvoid drop(struct kcore_edge *edges, uint32_t *core) { kcore_core_numbers(1, edges, 0, core, 1); }\n' > "$build/dropped.c"
if ${CC:-cc} $flags -c "$build/dropped.c" -o "$build/dropped.o" 2> "$build/told"; then
    echo "a dropped answer is not warned of" >&2
    exit 1
fi
grep -q 'unused' "$build/told"

# Prints the programs that are made of an example: the plain one, and the one under the sanitizers.
programs_of() {
    if [ -n "$quick" ]; then echo "$1"; else echo "$1 $1_sanitized"; fi
}

# The programs in which allocations fail.
without_memory=
[ -n "$quick" ] || without_memory="no_memory keep_no_memory"

for program in core_numbers tally rounds csr keep keep_threads; do
    ${CC:-cc} $flags -pthread "$top/examples/c/$program.c" "$build/libkcore.a" -o "$build/$program"
    [ -n "$quick" ] || ${CC:-cc} $flags -pthread $sanitized "$top/examples/c/$program.c" "$build/libkcore.a" -o "$build/${program}_sanitized"
done
for program in $without_memory; do
    ${CC:-cc} $flags $wrapped "$top/examples/c/$program.c" "$build/libkcore.a" -o "$build/$program"
    ${CC:-cc} $flags $sanitized "$top/examples/c/$program.c" $wrapped "$build/libkcore.a" -o "$build/${program}_sanitized"
done

# Each call that keeps nothing, on small graphs whose answers are worked out by hand.
for program in $(programs_of calls); do
    case $program in *_sanitized) extra=$sanitized ;; *) extra= ;; esac
    ${CC:-cc} $flags $extra "$top/c/calls.c" "$build/libkcore.a" -o "$build/$program"
    echo "$program: $("$build/$program")"
done

# The example's status on standard input is 1, it writes nothing, and tells this.
refused() {
    told=$1
    if "$build/$program" > "$build/found" 2> "$build/told"; then
        echo "$program: what has to be told as '$told' is taken" >&2
        exit 1
    fi
    if [ -s "$build/found" ] || ! grep -q "$told" "$build/told"; then
        echo "$program: '$told' is wanted alone, and it wrote" >&2
        head -n 5 "$build/found" "$build/told" >&2
        exit 1
    fi
}

for program in $(programs_of core_numbers); do
    printf '# a triangle\n\n0 1\n1\t2\r\n 2 0 \n2 3\n3 2\n4 4' | "$build/$program" > "$build/found"
    printf '0 2\n1 2\n2 2\n3 1\n4 0\n' | cmp - "$build/found"
    "$build/$program" < /dev/null | cmp - /dev/null
    for line in '-1 2' '1 -2' '1 4294967295' '4294967296 1' '1 99999999999999999999' '1 2 3' '1 2x' '1x 2' '1' 'a b' '1,2' '1 2\0003' '+1 2'; do
        printf "0 1\n1 2\n$line\n2 0\n" | refused 'line 3: this is not two vertices'
    done
    { printf '# '; head -c 3000 /dev/zero | tr '\0' 'x'; printf '\n0 1\n1 '; head -c 3000 /dev/zero | tr '\0' '7'; } | refused 'line 3: '
    refused 'after line 0' < /
    if echo '0 1' | "$build/$program" > /dev/full 2> "$build/told" || ! grep -q 'standard output' "$build/told"; then
        echo "$program: output that can't be written is not told" >&2
        exit 1
    fi
    "$build/$program" < "$top/graphs/karate.txt" > "$build/found"
    echo "$program: $(cut -d' ' -f2 "$build/found" | sort -n | uniq -c | tr -s ' \n' ' ')on karate"
done
# Where memory is refused, in reading or in a call, no numbers of the edges so far are written. The sanitizers want more room.
program=core_numbers
for room in 8000 20000 40000; do
    (ulimit -v $room && yes '0 1' | head -n 4000000 | refused 'no memory')
done
(ulimit -v 20000 && echo '0 90000000' | refused 'no memory')
echo "core_numbers: each line that it can't use is refused, and it tells where a read, a write or an allocation fails"
for program in $(programs_of tally); do
    "$build/$program" < "$top/graphs/karate.txt" > "$build/found"
    { echo "vertices 34 edges 78 verdict 0 wrong numbers refused 68 of 68"
      echo "edge twice 12 loop 10 turned 11 past the vertices 4 before its range 12"
      echo "few counts 8 verdict 8"; } | cmp - "$build/found"
done
echo "tally: karate in two pieces; each number that is one off is refused, and each wrong edge with its status"
{ echo 'no offsets 17 0'; echo 'few offsets 17 0'; echo 'not from zero 18 0'; echo 'descending 19 2'; echo 'a long row 20 1'
  echo 'not to the end 21 0'; echo 'past the end 21 0'; echo 'no vertex 4 2'; } > "$build/wrong_shards"
# The numbers of a graph's lines, and how many rounds there are with the one that changes none.
wanted_rounds() {
    { printf "$2"; echo "rounds $3"; cat "$build/wrong_shards"; } > "$build/wanted"
    printf "$1" | "$build/$program" | cmp "$build/wanted"
}
for program in $(programs_of rounds); do
    wanted_rounds '' '' 1
    wanted_rounds '0 1\n1 2\n2 3\n3 4\n' '0 1\n1 1\n2 1\n3 1\n4 1\n' 3
    wanted_rounds '3 0\n3 1\n3 2\n3 4\n' '0 1\n1 1\n2 1\n3 1\n4 1\n' 2
    wanted_rounds '# a triangle\n0 1\n1 2\n2 0\n2 3\n3 2\n' '0 2\n1 2\n2 2\n3 1\n' 2
    "$build/core_numbers" < "$top/graphs/karate.txt" > "$build/wanted"
    "$build/$program" < "$top/graphs/karate.txt" > "$build/found"
    head -n 34 "$build/found" | cmp "$build/wanted"
    echo "$program: $(sed -n 35p "$build/found") on karate in two shards"
done
{ echo 'one way 1 both ways 1 twice 1'; echo 'no offsets 17 0'; echo 'few offsets 17 0'; echo 'not from zero 18 0'; echo 'descending 19 2'
  echo 'not to the end 21 0'; echo 'past the end 21 0'; echo 'no vertex 4 2'; echo 'few places 1 0'; } > "$build/wanted_rows"
for program in $(programs_of csr); do
    cat "$build/wanted_rows" > "$build/wanted"
    "$build/$program" < /dev/null | cmp "$build/wanted"
    { "$build/core_numbers" < "$top/graphs/karate.txt"; cat "$build/wanted_rows"; } > "$build/wanted"
    "$build/$program" < "$top/graphs/karate.txt" | cmp "$build/wanted"
    { printf '0 2\n1 2\n2 2\n3 1\n4 0\n'; cat "$build/wanted_rows"; } > "$build/wanted"
    printf '0 1\n1 2\n2 0\n2 3\n3 2\n4 4\n' | "$build/$program" | cmp "$build/wanted"
done
echo "csr: karate by rows has the numbers of its edges, and wrong rows are refused, each with its status"
for program in $(programs_of keep); do
    printf '+ 0 1\n+ 1 2\n+ 2 0\n+ 2 3\n\n# the tail closes\n+\t3 0\r\n+ 0 3\n+ 1 1\n\n\n- 1 0\n+ 5 4' | "$build/$program" > "$build/found"
    printf 'batch 1 changed 4\n0 0 2\n1 0 2\n2 0 2\n3 0 1\nbatch 2 changed 1\n3 1 2\nbatch 3 changed 2\n1 2 1\n4 0 1\n5 0 1\n' > "$build/wanted"
    cmp "$build/wanted" "$build/found"
    "$build/$program" < /dev/null | cmp - /dev/null
    for line in '1 2' '+1 2' '+ 1' '+ 1 2 3' '- 1 -2' '+ 1 16777216' '+ 99999999999999999999 1' '+ 1 2x' '* 1 2' '+ 1 2\0003'; do
        printf "+ 0 1\n+ 1 2\n$line\n+ 2 0\n" | refused 'line 3: this is not'
    done
    # All edges of a graph as one batch, and then away one by one: in the end each core number is 0 again.
    grep -v '^#' "$top/graphs/karate.txt" | sed 's/^/+ /' > "$build/updates"
    { cat "$build/updates"; echo; sed 's/^+/-/; s/$/\n/' "$build/updates"; } | "$build/$program" > "$build/found"
    sed '/^batch 2 /,$d; /^batch/d; s/ 0 / /' "$build/found" > "$build/first"
    sed 's/^+ //' "$build/updates" | "$build/core_numbers" | grep -v ' 0$' | cmp - "$build/first"
    awk '$1 != "batch" { core[$1] = $3 } END { for (v in core) if (core[v] != 0) exit 1 }' "$build/found"
done
echo "keep: karate in one batch has the numbers of core_numbers, and none when its edges are gone; each line that it can't use is refused"
for program in $(programs_of keep_threads); do
    "$build/$program"
done
for program in $without_memory; do
    "$build/$program"
    "$build/${program}_sanitized"
done

# The packages of Debian, with the modules by which they are known.
packages="python3-numpy:numpy python3-scipy:scipy python3-pandas:pandas python3-networkx:networkx python3-igraph:igraph
    python3-matplotlib:matplotlib python3-hypothesis:hypothesis python3-mypy:mypy python3-build:build python3-pip:pip
    python3-distributed:distributed"
missing_packages() {
    for known in $packages; do
        "$python" -c "import importlib.util, sys; sys.exit(importlib.util.find_spec('${known#*:}') is None)" || printf '%s ' "${known%:*}"
    done
}
missing=$(missing_packages)
own=$("$python" -c 'import os, sys; print(os.path.realpath(sys.executable).startswith("/usr/bin/"))')
if [ -n "$missing" ] && [ -z "${KCORE_NO_INSTALL:-}$quick" ] && [ "$own" = True ] && [ "$(id -u)" = 0 ] && command -v apt-get > /dev/null; then
    { apt-get update && DEBIAN_FRONTEND=noninteractive apt-get install -y --no-install-recommends $missing; } > "$build/installed" 2>&1 ||
        echo "apt-get could not install $missing: $build/installed tells why" >&2
    missing=$(missing_packages)
fi
[ -z "$missing" ] || echo "not installed for $python, so that their tests are skipped: $missing"
cd "$top/python"
if [ -n "$quick" ]; then
    "$python" -m unittest tests.test_header tests.test_forms tests.test_cores tests.test_kcore
else
    "$python" -m unittest
fi
