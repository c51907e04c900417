#!/usr/bin/env python3
"""Runs `cores check --pieces` on edges that lie in several files.

usage: check_pieces.py [--cores PROGRAM]      (default: crates/cores/out/cores beside this folder)

Each case says what the files hold, in which order they are named, and how the run ends. Then a random graph is cut at random places, and its
pieces give what `cores check --stream` gives of the whole. The status is 1 where one differs.
"""
import argparse
import pathlib
import random
import subprocess
import sys
import tempfile

TOP = pathlib.Path(__file__).resolve().parent.parent
ORDER = "9 1\n5 2\n7 2\n8 2\n"
LINE = "cores: {}: line {}: "
FILES = "sort each file (sort -n -u -k1,1 -k2,2, lesser id first), give them in that order, each edge once\n"
DESCENDS = LINE + "the edges do not ascend here; " + FILES
WORDS = ("cores: --stream and --pieces take lines of two ids with a blank or a tab between them, and one goes without the other and --pieces "
         "without FILE; leave them out for other tables, or write such lines\n")

# name of the case; certificate; the files in the order in which they are named; status; what is written; file and line that are told, or the line
CASES = (
    ("two pieces", ORDER, {"a": "# a\n5 7\n5 8\n", "b": "7 8\n8 9\n"}, 0, "yes\n", ""),
    ("one piece", ORDER, {"a": "5 7\n5 8\n7 8\n8 9\n"}, 0, "yes\n", ""),
    ("a piece without a line end", ORDER, {"a": "5 7\n5 8", "b": "7 8\n8 9"}, 0, "yes\n", ""),
    ("empty pieces", ORDER, {"a": "", "b": "5 7\n5 8\n7 8\n", "c": "", "d": "# none\n", "e": "8 9\n"}, 0, "yes\n", ""),
    ("a changed number", "9 1\n5 2\n7 1\n8 2\n", {"a": "5 7\n5 8\n", "b": "7 8\n8 9\n"}, 1, "no\t5\n", None),
    ("an edge in no piece", ORDER, {"a": "5 7\n5 8\n", "b": "8 9\n"}, 1, "no\t7\n", None),
    ("an id without a claim", ORDER, {"a": "5 7\n5 8\n", "b": "7 8\n8 9\n8 10\n", "c": "no edge\n"}, 1, "no\t10\n", None),
    ("an edge twice, once in each piece", ORDER, {"a": "5 7\n5 8\n", "b": "5 8\n7 8\n8 9\n"}, 3, "", DESCENDS.format("{b}", 1)),
    ("pieces that overlap", ORDER, {"a": "5 7\n7 8\n", "b": "# b\n\n5 8\n8 9\n"}, 3, "", DESCENDS.format("{b}", 3)),
    ("pieces in the wrong order", ORDER, {"b": "7 8\n8 9\n", "a": "5 7\n5 8\n"}, 3, "", DESCENDS.format("{a}", 1)),
    ("the order is that of all files", ORDER, {"a": "5 7\n5 8\n7 8\n", "b": "", "c": "# c\n5 9\n"}, 3, "", DESCENDS.format("{c}", 2)),
    ("a line that is no edge", ORDER, {"a": "5 7\n5 8\n", "b": "7 8\n8\n"}, 3, "", None),
    ("a file that is not there", ORDER, {"a": "5 7\n5 8\n", "none": None, "b": "7 8\n8 9\n"}, 4, "", "cores: {none}: No such file or directory\n"),
    ("a certificate that is not there", None, {"a": "5 7\n"}, 4, "", None),
    ("a certificate with a wrong line", "9 1\n5\n", {"a": "5 7\n"}, 3, "", None),
    ("a table by its name", ORDER, {"a": "5 7\n", "b.csv": "5 8\n"}, 2, "", WORDS),
)


def ended(program, certificate, words):
    """Status, output and message of a check."""
    run = subprocess.run([program, "check", certificate, *words], stdin=subprocess.DEVNULL, capture_output=True, text=True)
    return run.returncode, run.stdout, run.stderr


def write(place, name, text):
    """The path of a new file of this name, which is not made where there is no text."""
    path = place / name
    if text is not None:
        path.write_text(text)
    return str(path)


def is_right(program, certificate, files, status, answer, line):
    """Whether the case ends as it says."""
    with tempfile.TemporaryDirectory() as folder:
        place = pathlib.Path(folder)
        paths = {name: write(place, name, text) for name, text in files.items()}
        found = ended(program, write(place, "order.txt", certificate), ("--pieces", *paths.values()))
    return found[:2] == (status, answer) and (line is None or found[2] == line.format(**{k: v for k, v in paths.items() if k.isalpha()}))


def is_alone(program):
    """Whether `--pieces` is refused beside `--stream`, FILE and an option of tables, and without a file."""
    with tempfile.TemporaryDirectory() as folder:
        place = pathlib.Path(folder)
        order, edges = write(place, "order.txt", ORDER), write(place, "a", "5 7\n5 8\n7 8\n8 9\n")
        cases = (("--stream", "--pieces", edges), (edges, "--pieces", edges), ("--skip", "1", "--pieces", edges), ("--pieces",))
        return all(ended(program, order, words)[:2] == (2, "") for words in cases)


def is_cut_alike(program, draw):
    """Whether the pieces of a random graph give what the whole does."""
    pairs = sorted({tuple(sorted(draw.sample(range(30), 2))) for _ in range(draw.randrange(90))})
    text = "".join(f"{a} {b}\n" for a, b in pairs)
    cuts = sorted(draw.randrange(len(pairs) + 1) for _ in range(draw.randrange(4)))
    with tempfile.TemporaryDirectory() as folder:
        place = pathlib.Path(folder)
        edges = write(place, "edges", text)
        order = subprocess.run([program, "order", edges], capture_output=True, text=True).stdout.splitlines(True)
        if order and draw.random() < 0.5:
            fields = order[draw.randrange(len(order))].split()
            order = [f"{fields[0]}\t{int(fields[1]) + 1}\n" if line.split()[0] == fields[0] else line for line in order]
        certificate = write(place, "order.txt", "".join(order))
        parts = ["".join(f"{a} {b}\n" for a, b in pairs[i:j]) for i, j in zip([0, *cuts], [*cuts, len(pairs)])]
        files = [write(place, f"part{i}", part.removesuffix("\n") if draw.random() < 0.3 else part) for i, part in enumerate(parts)]
        return ended(program, certificate, ("--pieces", *files)) == ended(program, certificate, ("--stream", edges))


def main():
    """Runs the cases."""
    given = argparse.ArgumentParser(description=__doc__.splitlines()[0])
    given.add_argument("--cores", default=str(TOP / "crates/cores/out/cores"))
    program = given.parse_args().cores
    wrong = [name for name, *case in CASES if not is_right(program, *case)]
    if not is_alone(program):
        wrong.append("words that exclude one another")
    draw = random.Random(1)
    wrong += [f"cut {n}" for n in range(200) if not is_cut_alike(program, draw)]
    for name in wrong:
        print(f"differs: {name}")
    print(f"{len(CASES) + 201 - len(wrong)} of {len(CASES) + 201} as they should be")
    return 1 if wrong else 0


if __name__ == "__main__":
    sys.exit(main())
