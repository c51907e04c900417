#!/usr/bin/env python3
"""Runs `cores` on random edge lists, beside a model in Python of what each command writes.

usage: fuzz_cores.py [--cores PROGRAM] [--cases N] [--seed N]
(default: crates/cores/out/cores beside this folder, 500 cases of seed 1)

The model follows the definitions: core numbers by taking vertices away, k-cores and layers from these. Of `order` it tests that the lines
certify the numbers. Some runs ask for JSON, and its objects are those of Python's json. `check` is run on what `order` and `layers` write,
and on the same with lines changed, swapped, left out, repeated or made foreign. It reads the graph from standard input, from a file, from a
pipe by its name, and from a file whose edges ascend, some of which have a line that does not. Then a line that is wrong stands among the
others: what is told has to name line and column, and to show the line with a caret. Some inputs begin with a byte order mark. Some runs are by
so many threads, which changes nothing. At last a text of many lines is read by one, two and three threads, also with a wrong line far behind, and
a reader goes away that has taken one line. An input that differs is printed, and the status is 1 then. Tables with options that tell how they are
read are those of `fuzz_tables.py`.
"""
import argparse
import json
import pathlib
import random
import subprocess
import sys
import tempfile

TOP = pathlib.Path(__file__).resolve().parent.parent
SIZES_FIRST = "the first line of two ids may tell how many vertices and edges there are, and was read as an edge; pass over it by --skip, as by --skip 1"


def text_of(draw):
    """A random edge list: some ids, with loops, repeats, comments and blank lines."""
    ids = draw.sample(range(draw.choice((8, 60, 4_294_967_296))), draw.randrange(0, 9) if draw.random() < 0.4 else 8)
    lines = []
    for _ in range(draw.randrange(0, 40) if ids else 0):
        lines.append(f"{draw.choice(ids)}{draw.choice((' ', chr(9), '  '))}{draw.choice(ids)}")
        if draw.random() < 0.1:
            lines.append(draw.choice(("# a comment", "", "% 1 2")))
    return "".join(line + draw.choice(("\n", "\r\n")) for line in lines)


def graph_of_pairs(pairs):
    """The neighbours of each end of these pairs, in the order of their first coming."""
    neighbours = {}
    for u, v in pairs:
        for a, b in ((u, v), (v, u)):
            neighbours.setdefault(a, set())
            if a != b:
                neighbours[a].add(b)
    return neighbours


def graph_of(text):
    """The neighbours of each id."""
    rows = (line.split() for line in text.splitlines())
    return dict(sorted(graph_of_pairs(map(int, row) for row in rows if row and row[0][0] not in "#%").items()))


def may_be_sizes(first, pairs):
    """Whether a pair among these may be the sizes of the graph of the others, of two vertices and one edge at least: no id is above the first number,
    but for the second, and the second counts the others that are no loops."""
    n, m = first
    return sum(a != b for a, b in pairs) == m + (n != m) and n > 1 and m > 0 and all(v <= n or v == m for pair in pairs for v in pair)


def told_of_sizes(text):
    """What is told of an edge list that begins with what may be its sizes, and else nothing."""
    pairs = [tuple(map(int, row)) for row in (line.split() for line in text.splitlines()) if row and row[0][0] not in "#%"]
    return f"cores: {SIZES_FIRST}\n" if pairs and may_be_sizes(pairs[0], pairs) else ""


def core_numbers(neighbours):
    """The core number of each id: who has at most k neighbours left is taken away, for k from 0 on."""
    left, core, k = {v: set(ws) for v, ws in neighbours.items()}, {}, 0
    while left:
        low = [v for v in left if len(left[v]) <= k]
        k += not low
        for v in low:
            core[v] = k
            for w in left.pop(v):
                left[w].discard(v) if w in left else None
    return core


def layers(neighbours, core):
    """In which round each id goes, of those with its core number."""
    layer = {}
    for k in set(core.values()):
        left, step = {v for v in core if core[v] >= k}, 0
        while any(core[v] == k for v in left):
            gone = {v for v in left if core[v] == k and len(neighbours[v] & left) <= k}
            layer.update(dict.fromkeys(gone, step))
            left -= gone
            step += 1
    return layer


FORMATS = ((), ("--format", "tsv"), ("--format", "json"))
THREADS = ((), ("--threads", "1"), ("--threads", "3"), ("--threads", "64"))


def written(names, rows, words):
    """Lines of numbers with these names, in the format that the words ask for."""
    if "json" in words:
        return "".join(json.dumps(dict(zip(names, row)), separators=(",", ":"), ensure_ascii=False) + "\n" for row in rows)
    return "".join("\t".join(map(str, row)) + "\n" for row in rows)


def wanted(neighbours, core, k):
    """The names and the numbers of the lines that each command writes, by its words."""
    top = max(core.values(), default=0)
    edges = [(u, v) for u in neighbours for v in sorted(neighbours[u]) if u < v]
    inside = lambda least: [v for v in neighbours if core[v] >= least]
    joined = lambda least: [e for e in edges if core[e[0]] >= least and core[e[1]] >= least]
    layer = layers(neighbours, core)
    sizes = ("core", "shell_vertices", "core_vertices", "core_edges")
    return {
        ("numbers",): (("id", "core"), [(v, core[v]) for v in neighbours]),
        ("sizes",): (sizes, [(j, sum(c == j for c in core.values()), len(inside(j)), len(joined(j))) for j in range(top + 1)]),
        ("members",): (("id",), [(v,) for v in inside(top)]),
        ("members", "--core", str(k)): (("id",), [(v,) for v in inside(k)]),
        ("members", "--edges"): (("source", "target"), joined(top)),
        ("members", "--edges", "--core", str(k)): (("source", "target"), joined(k)),
        ("layers",): (("id", "core", "layer"), [(v, core[v], layer[v]) for v in neighbours]),
    }


def certifies(neighbours, core, lines):
    """Whether lines of ids and numbers are an order that certifies the core numbers."""
    order = [tuple(map(int, line.split("\t"))) for line in lines.splitlines()]
    place = {v: i for i, (v, _) in enumerate(order)}
    return (
        dict(order) == core
        and len(order) == len(core)
        and all(first[1] <= second[1] for first, second in zip(order, order[1:]))
        and all(sum(place[w] > place[v] for w in neighbours[v]) <= core[v] for v in core)
    )


def changed(draw, lines):
    """Lines of a certificate, with one thing changed or none."""
    lines = list(lines)
    i, j = (draw.randrange(len(lines)), draw.randrange(len(lines))) if lines else (0, 0)
    way = draw.randrange(9) if lines else draw.choice((0, 6, 8))
    if way in (1, 2):
        fields = lines[i].split("\t")
        fields[way - 1 if way == 1 else draw.randrange(1, len(fields))] = str(draw.choice((0, 1, 2, 3, 7, 4_294_967_295)))
        lines[i] = "\t".join(fields)
    elif way == 3:
        lines[i], lines[j] = lines[j], lines[i]
    elif way == 4:
        del lines[i]
    elif way == 5:
        lines.insert(j, lines[i])
    elif way == 6:
        lines.insert(j, draw.choice(("77777 1", "# a comment", "", "5", "5 x", "5 1 2 3", "4294967296 1")))
    elif way == 7:
        draw.shuffle(lines)
    return lines


def claims_of(lines):
    """The claims of a certificate, by line, or the first line that is none."""
    claims = []
    for number, line in enumerate(lines, 1):
        fields = line.split()
        if not fields or fields[0][0] in "#%":
            continue
        if len(fields) not in (2, 3) or any(not field.isdigit() or int(field) > 4_294_967_295 for field in fields):
            return number, None
        claims.append((number, *map(int, fields)))
    return None, claims


def fault_of(neighbours, claims):
    """The first fault of claims: the id, and what is told of it."""
    told = {}
    for place, (line, v, number, *rank) in enumerate(claims):
        if v not in neighbours:
            return v, f"line {line}: id {v} is not in the graph; "
        if v in told:
            return v, f"line {line}: id {v} is told twice; "
        told[v] = (number, rank[0] if rank else place, v)
    for v in neighbours:
        if v not in told:
            return v, f"id {v} of the graph has no line; "
    for line, v, number, *_ in claims:
        behind = sum(told[w] > told[v] for w in neighbours[v])
        if behind > number:
            return v, f"line {line}: id {v} is told core number {number}, but has more neighbours after it: {behind}; write it by cores order\n"
        beside = sum(told[w][0] >= number for w in neighbours[v])
        if beside < number:
            return v, f"line {line}: id {v} is told core number {number}, but has fewer neighbours told as much or more: {beside}\n"
    return None


def is_checked(program, neighbours, graph, lines, certificate):
    """Whether the check of these lines ends as the model says. The graph is a text on standard input, and the words that name it."""
    text, words = graph
    certificate.write_text("".join(line + "\n" for line in lines))
    refused, claims = claims_of(lines)
    status, answer, told = run(program, ("check", str(certificate), *words), text)
    start = f"cores: {certificate}: "
    if refused:
        return (status, answer) == (3, "") and told.startswith(f"{start}line {refused}: ")
    fault = fault_of(neighbours, claims)
    if fault is None:
        return (status, answer, told) == (0, "yes\n", "")
    return (status, answer) == (1, f"no\t{fault[0]}\n") and told.startswith(start + fault[1])


def wrong_line_of(text, told):
    """The number of the first line of a stream that does not ascend or is no edge, or else the id of the first line that names one that is not told."""
    last = (-1, -1)
    for number, line in enumerate(text.split("\n"), 1):
        fields = line.split()
        if not fields or fields[0][0] in "#%":
            continue
        edge = tuple(map(int, fields)) if len(fields) == 2 else ()
        if not edge or edge[0] >= edge[1] or edge <= last:
            return number, None
        for v in edge:
            if v not in told:
                return None, v
        last = edge
    return None, None


def stream_fault_of(neighbours, claims):
    """The id that is told of claims for a stream, each of whose ids is told, or nothing where they are a certificate."""
    told = {v: (number, rank[0] if rank else place, v) for place, (_, v, number, *rank) in enumerate(claims)}
    for _, v, number, *_ in claims:
        beside = neighbours.get(v, ())
        if sum(told[w] > told[v] for w in beside) > number or sum(told[w][0] >= number for w in beside) < number:
            return v
    return next((v for _, v, *_ in claims if v not in neighbours), None)


def is_stream_checked(program, lines, certificate, text, words):
    """Whether the check of these lines for a stream ends as the model says. The stream is on standard input, or in the file that the words name."""
    certificate.write_text("".join(line + "\n" for line in lines))
    refused, claims = claims_of(lines)
    status, answer, told = run(program, ("check", "--stream", str(certificate), *words), "" if words else text)
    if refused:
        return (status, answer) == (3, "") and told.startswith(f"cores: {certificate}: line {refused}: ")
    ids = [v for _, v, *_ in claims]
    twice = next((v for place, v in enumerate(ids) if v in ids[:place]), None)
    number, missing = wrong_line_of(text, set(ids))
    if twice is None and number is not None:
        place = f"{words[0]}: line {number}: " if words else f"line {number}: "
        return (status, answer) == (3, "") and told.startswith("cores: " + place)
    fault = twice if twice is not None else missing if missing is not None else stream_fault_of(graph_of(text), claims)
    return (status, answer) == ((0, "yes\n") if fault is None else (1, f"no\t{fault}\n")) and (told == "") == (fault is None)


def ascending_of(draw, neighbours):
    """The edges of a graph, each once and with its lesser id first, in ascending order; or nearly so, or with a comment among them."""
    lines = [f"{u}{draw.choice((' ', chr(9)))}{v}" for u in neighbours for v in sorted(neighbours[u]) if u < v]
    way, j = draw.randrange(9), draw.randrange(len(lines) + 1)
    if way == 4:
        lines.insert(j, draw.choice(("# a comment", "", "% 3 4")))
    elif way == 5 and lines:
        lines.insert(j, draw.choice(lines))
    elif way == 6 and lines:
        lines[-1] = " ".join(reversed(lines[-1].split()))
    elif way == 7 and lines:
        lines.insert(j, lines.pop(draw.randrange(len(lines))))
    elif way == 8:
        lines.insert(j, draw.choice(("5 5", "3  4 ", "0 7", "4294967295 0")))
    return "".join(line + "\n" for line in lines)


def graphs_of(draw, text, place):
    """The ways to give a graph to a check: on standard input, as a file, as a pipe that has a name, and as a file of ascending edges."""
    file, ascending = place / "graph", place / "ascending"
    file.write_text(text)
    edges = ascending_of(draw, graph_of(text))
    ascending.write_text(edges if draw.random() < 0.8 else edges.rstrip("\n"))
    yield text, (text, ())
    yield text, ("", (str(file),))
    yield text, (text, ("/dev/stdin",))
    yield edges, ("", (str(ascending),))


def wrong_checks(program, draw, text, place):
    """The certificates whose check differs: one as it is written and some that are changed, for each command that writes them, and for each
    way to give the graph."""
    for named, graph in graphs_of(draw, text, place):
        neighbours = graph_of(named)
        for command in ("order", "layers", "numbers"):
            lines = run(program, (command,), named)[1].splitlines()
            tries = [changed(draw, lines) for _ in range(4 if graph[1] == () else 2)]
            right = [] if command == "numbers" else [lines]
            for found in right + tries:
                if not is_checked(program, neighbours, graph, found, place / "certificate"):
                    yield "check", repr(found), *graph[1]
                if graph[1] and graph[0] == "" and not is_stream_checked(program, found, place / "certificate", named, draw.choice(((), graph[1]))):
                    yield "check --stream", repr(found), repr(named)


def is_quiet(program):
    """Whether a reader that goes away after a line ends the run without a word, and with status 0."""
    text = "".join(f"{i} {i + 1}\n" for i in range(200_000))
    with subprocess.Popen((program, "numbers"), stdin=subprocess.PIPE, stdout=subprocess.PIPE, stderr=subprocess.PIPE) as running:
        running.stdin.write(text.encode())
        running.stdin.close()
        line = running.stdout.readline()
        running.stdout.close()
        told = running.stderr.read()
        return (running.wait(), line, told) == (0, b"0\t1\n", b"")


def wrong_threads(program, draw):
    """The words by which a run by several threads ends otherwise than by one. The text has so many lines that more than one reads it."""
    lines = [f"{draw.randrange(50_000)}{draw.choice((' ', chr(9)))}{draw.randrange(50_000)}" for _ in range(300_000)]
    lines[200_000] = "# a comment"
    broken = lines[:250_000] + ["1 x"] + lines[250_000:]
    for given in ("\n".join(lines), "\r\n".join(lines) + "\r\n", "\n".join(broken) + "\n"):
        for words in (("numbers",), ("sizes", "--format", "json"), ("order",)):
            one, *more = [run(program, (*words, "--threads", count), given) for count in ("1", "2", "3", "64")] + [run(program, words, given)]
            if any(ended != one for ended in more):
                yield words
    for wrong in ("0", "65", "x", "-1", ""):
        for words in (("numbers", "--threads", wrong), ("check", "/dev/null", "--threads", wrong)):
            if run(program, words, "1 2\n")[:2] != (2, ""):
                yield words
    for words in (("watch", "--threads", "2"), ("check", "/dev/null", "--stream", "--threads", "2")):
        if run(program, words, "1 2\n")[:2] != (2, ""):
            yield words


# a line that is refused, and the column that is told of it
WRONG_LINES = (("1 x", 3), ("x 1", 1), ("7", 2), ("1 2 3", 5), ("4294967296 1", 1), ("12\t99999999999", 4), ("-1 2", 1), ("1 2 ö", 5), ("1 \x07", 3),
               ("batch", None), ("+ 1 2", None))
HEAD = 1 << 20


def shown_byte(b):
    """A byte as a message shows it."""
    return chr(b) if 32 <= b <= 126 else "\\t" if b == 9 else f"\\x{b:02x}"


def shown_lines(text, number, column):
    """The refused line of a text as a message shows it, with a caret under the column, where the line stands in the head of the text."""
    head = text[:HEAD].removeprefix(b"\xef\xbb\xbf")
    lines = head.split(b"\n")
    lines = lines[:-1] if lines[-1] == b"" else lines
    if not column or number > len(lines):
        return []
    line = lines[number - 1].removesuffix(b"\r")
    if column > len(line) + 1:
        return []
    cut = max(0, column - 41)
    shown = [shown_byte(b) for b in line[cut:cut + 60]]
    return ["    " + "".join(shown), "    " + " " * len("".join(shown[:column - 1 - cut])) + "^"]


def marked(draw, text):
    """A text, behind a byte order mark now and then."""
    return ("\ufeff" if draw.random() < 0.1 else "") + text


def wrong_refusals(program, draw, text):
    """The refused texts of which is told otherwise than the model says: a wrong line stands among the others, sometimes far to the right."""
    for wrong, column in draw.sample(WRONG_LINES, 3):
        lines, blanks = text.split("\n"), " " * draw.choice((0, 0, 3, 39, 40, 41, 90))
        number = draw.randrange(len(lines)) + 1
        lines.insert(number - 1, blanks + wrong + draw.choice(("", "\r", " " * 80)) * (wrong != "7"))
        given = marked(draw, "\n".join(lines)).encode()
        column = column and column + len(blanks)
        place = f"cores: line {number}, column {column}: " if column else f"cores: line {number}: "
        status, written_lines, told = run(program, ("numbers", *draw.choice(THREADS)), given)
        if (status, written_lines, told.splitlines()[1:]) != (3, "", shown_lines(given, number, column)) or not told.startswith(place):
            yield "numbers", repr(given), repr(told)


def run(program, words, text):
    """The status, the output and what is told of a run with this text as standard input."""
    given = text if isinstance(text, bytes) else text.encode()
    ended = subprocess.run([program, *words], input=given, capture_output=True, check=False)
    return ended.returncode, ended.stdout.decode(), ended.stderr.decode()


def faults(program, draw, text, k):
    """The words for which the program does not write what is wanted. A quiet run tells nothing of itself."""
    neighbours = graph_of(text)
    core = core_numbers(neighbours)
    size = sum(map(len, neighbours.values())) // 2
    summary = told_of_sizes(text) + f"vertices {len(core)} edges {size} top {max(core.values(), default=0)}\n"
    text = marked(draw, text)
    for words, (names, rows) in wanted(neighbours, core, k).items():
        quiet = ("--quiet",) if draw.random() < 0.2 else ()
        asked, told = (*words, *quiet, *draw.choice(FORMATS), *draw.choice(THREADS)), "" if quiet else summary
        if run(program, asked, text) != (0, written(names, rows, asked), told):
            yield asked
    status, lines, told = run(program, ("order",), text)
    if (status, told) != (0, summary) or not certifies(neighbours, core, lines):
        yield ("order",)
    asked = ("order", "--format", "json")
    rows = [tuple(map(int, line.split("\t"))) for line in lines.splitlines()]
    if run(program, asked, text) != (0, written(("id", "core"), rows, asked), summary):
        yield asked


def main():
    words = argparse.ArgumentParser(description=__doc__, formatter_class=argparse.RawDescriptionHelpFormatter)
    words.add_argument("--cores", default=str(TOP / "crates/cores/out/cores"))
    words.add_argument("--cases", type=int, default=500)
    words.add_argument("--seed", type=int, default=1)
    chosen = words.parse_args()
    wrong = 0
    for case in range(chosen.cases):
        draw = random.Random(f"{chosen.seed} {case}")
        text, k = text_of(draw), draw.randrange(6)
        with tempfile.TemporaryDirectory() as place:
            checks = wrong_checks(chosen.cores, draw, text, pathlib.Path(place))
            refusals = wrong_refusals(chosen.cores, draw, text)
            for found in (*faults(chosen.cores, draw, text, k), *checks, *refusals):
                wrong += 1
                print(f"case {case}: cores {' '.join(found)} differs on {text!r}")
    for found in wrong_threads(chosen.cores, random.Random(chosen.seed)):
        wrong += 1
        print(f"cores {' '.join(found)} differs by the number of threads, or takes a number that is none")
    if not is_quiet(chosen.cores):
        wrong += 1
        print("cores numbers: a reader that goes away is told as a fault")
    print(f"{chosen.cases} cases of seed {chosen.seed}, eight commands, 54 checks and three refusals each: {wrong or 'none'} wrong")
    sys.exit(1 if wrong else 0)


if __name__ == "__main__":
    main()
