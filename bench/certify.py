#!/usr/bin/env python3
"""Whether numbers are the core numbers of a graph, whatever program made them. Nothing else of this repository is used.

    python3 bench/certify.py GRAPH NUMBERS      a file, or - for standard input

GRAPH is an input of `cores` or of `kcore`: with batches it is the graph after the last one. Each line of NUMBERS that is two whole numbers
says an id and its number, in any order of the lines; of an id that comes again the last line counts. So the output of both programs can be
given as it is.

It says 'certified' and ends with 0 where the numbers are the core numbers, and else why they are not, with 1. The test:

1. Each vertex has as many neighbours whose number is no less as its own number says.
2. The vertices can be taken one by one, those of a lesser number first, so that each has at most as many neighbours left as its number.

By 1, the vertices of a number k or more give one another k neighbours, so no number is too great. By 2, no set of vertices gives each of them
more neighbours than the number of the one that is taken first, so no number is too small.
"""
import sys


def lines_of(name):
    file = sys.stdin if name == "-" else open(name, encoding="utf-8", errors="replace")
    with file:
        yield from (line.split() for line in file)


def graph_of(name):
    """The neighbours of each id. Changes are made one by one: then the last line of a batch that names a pair decides."""
    neighbours = {}
    for fields in lines_of(name):
        if not fields or fields[0][0] in "#%" or fields == ["batch"]:
            continue
        sign = fields.pop(0) if fields[0] in "+-" else "+"
        u, v = map(int, fields)
        of_u, of_v = neighbours.setdefault(u, set()), neighbours.setdefault(v, set())
        if u != v:
            (set.add if sign == "+" else set.discard)(of_u, v)
            (set.add if sign == "+" else set.discard)(of_v, u)
    return neighbours


def numbers_of(name):
    return {int(fields[0]): int(fields[1]) for fields in lines_of(name) if len(fields) == 2 and all(it.isdecimal() for it in fields)}


def taken_of(neighbours, core):
    """The vertices that can be taken as 2 says, and the number at which none more can."""
    left = {v: len(of) for v, of in neighbours.items()}
    levels = {}
    for v, k in core.items():
        levels.setdefault(k, []).append(v)
    taken = set()
    for k, level in sorted(levels.items()):
        weak = [v for v in level if left[v] <= k]
        seen = set(weak)
        while weak:
            v = weak.pop()
            taken.add(v)
            for w in neighbours[v] - taken:
                left[w] -= 1
                if core[w] == k and left[w] <= k and w not in seen:
                    seen.add(w)
                    weak.append(w)
        if len(seen) < len(level):
            return taken, k
    return taken, None


def fault_of(neighbours, core):
    """Why these are not the core numbers, or None."""
    if neighbours.keys() != core.keys():
        odd = min(neighbours.keys() ^ core.keys())
        return f"the id {odd} has {'no number' if odd in neighbours else 'a number, and is not in the graph'}"
    for v, k in sorted(core.items()):
        as_high = sum(core[w] >= k for w in neighbours[v])
        if as_high < k:
            return f"the id {v} has the number {k}, and only {as_high} neighbours with that number or a greater one"
    taken, k = taken_of(neighbours, core)
    if k is not None:
        v = min(v for v in neighbours.keys() - taken if core[v] == k)
        return f"the id {v} has the number {k}; it is among {len(neighbours) - len(taken)} ids that have at least {k + 1} neighbours among them"
    return None


def main(words):
    if len(words) != 2 or words == ["-", "-"]:
        print(__doc__.split("\n\n")[1], file=sys.stderr)
        return 2
    neighbours, core = graph_of(words[0]), numbers_of(words[1])
    fault = fault_of(neighbours, core)
    edges = sum(map(len, neighbours.values())) // 2
    print(fault or f"certified: {len(core)} ids, {edges} edges, greatest number {max(core.values(), default=0)}")
    return 1 if fault else 0


if __name__ == "__main__":
    sys.exit(main(sys.argv[1:]))
