#!/usr/bin/env python3
"""Runs `cores watch` with `--save` and `--load`: the file has a whole state at every moment, also where the program is killed.

usage: state_files.py [--cores PROGRAM] [--kills N] [--seed N]      (default: crates/cores/out/cores beside this folder)

Each case of a table says how a run begins, what its status and its line are, and what the folder holds then. Then the program is killed by
signal 9 at random moments while it saves a state behind each batch: the file has to have a whole state of some batch, or the one from before,
and `--load` has to take it. A state is looked at by a model: its check sum, its edges, its core numbers, and whether its order certifies them.
The status is 1 where one differs.
"""
import argparse
import pathlib
import random
import resource
import signal
import subprocess
import sys
import tempfile
import time

TOP = pathlib.Path(__file__).resolve().parent.parent
OTHER_VERSION = "the state is of another version of the format, or its line ends were changed"
BEGUN = "a file of this name with .part behind it is there, of a run that goes on or was cut off; remove it if no run goes on"
MEND = "load a state as --save wrote it, or begin with edges by --from"


def sum_of(text):
    """The check sum of a text of a state."""
    total = 0
    for byte in text:
        total = (total * 1099511628211 + byte) % 2**64
    return total


def with_sum(body):
    return body + b"sum %d\n" % sum_of(body)


class State:
    """A state, taken from its text; an error where the text is none."""

    def __init__(self, text):
        *lines, last, behind = text.split(b"\n")
        body = b"".join(line + b"\n" for line in lines)
        if behind or with_sum(body) != text:
            raise ValueError("the check sum is wrong")
        head, lines = lines[:4], lines[4:]
        words = [line.split(b" ") for line in head]
        if [word for word, _ in words] != [b"kcore-state", b"batches", b"vertices", b"edges"] or words[0][1] != b"1":
            raise ValueError("the head is wrong")
        self.batches, vertices, edges = (int(number) for _, number in words[1:])
        rows = [tuple(map(int, line.split(b" "))) for line in lines[:vertices]]
        self.ids = [row[0] for row in rows]
        self.cores = {row[0]: row[1] for row in rows}
        self.order = [row[0] for row in sorted(rows, key=lambda row: row[2])]
        self.edges = [tuple(map(int, line.split(b" "))) for line in lines[vertices:]]
        numbers = {id: number for number, id in enumerate(self.ids)}
        pairs = [(numbers[a], numbers[b]) for a, b in self.edges]
        if len(numbers) != vertices or len(pairs) != edges or sorted(row[2] for row in rows) != list(range(vertices)):
            raise ValueError("the counts are wrong")
        if any(a >= b for a, b in pairs) or any(p >= q for p, q in zip(pairs, pairs[1:])):
            raise ValueError("the edges do not ascend")
        self.certify()

    def certify(self):
        """Whether the order certifies the numbers, by the definition."""
        place = {id: number for number, id in enumerate(self.order)}
        later, high = dict.fromkeys(self.ids, 0), dict.fromkeys(self.ids, 0)
        for a, b in self.edges:
            first = min(a, b, key=place.get)
            later[first] += 1
            high[a] += self.cores[b] >= self.cores[a]
            high[b] += self.cores[a] >= self.cores[b]
        falls = any(self.cores[a] > self.cores[b] for a, b in zip(self.order, self.order[1:]))
        if falls or any(not later[id] <= self.cores[id] <= high[id] for id in self.ids):
            raise ValueError("the order does not certify the numbers")


TRIANGLE = with_sum(b"kcore-state 1\nbatches 3\nvertices 4\nedges 4\n8 2 3\n5 2 1\n7 2 2\n9 1 0\n8 5\n8 7\n8 9\n5 7\n")
EMPTY = with_sum(b"kcore-state 1\nbatches 0\nvertices 0\nedges 0\n")
FIRST = b"graph vertices 4 edges 4 top 2\n"
STREAM = b"8 5\n8 7\n5 7\nbatch\n+ 9 8\nbatch\n"
ANSWERS = b"graph vertices 3 edges 3 top 2\nbatch 1 added 1 removed 0 kept 0 edges 4 top 2\nbatch 2 added 0 removed 0 kept 0 edges 4 top 2\n"
SAVES = ("--save", "{}")


def refused(line, sentence):
    return f"cores: {{}}: line {line}: {sentence}; {MEND}\n".encode()


# name of the case; the file before; words, where {} is the name of the file; the stream; status; the line; the output, or None where it is not looked at; the
# file behind it: None where it is as before, and else how many batches, vertices and edges its state has
CASES = (
    ("a state is saved at the end", None, SAVES, STREAM, 0, b"", ANSWERS, (2, 4, 4)),
    ("nothing was sent", None, SAVES, b"", 0, b"", b"graph vertices 0 edges 0 top 0\n", (0, 0, 0)),
    ("an old file is replaced", b"old", SAVES, b"1 2\n", 0, b"", b"graph vertices 2 edges 1 top 1\n", (0, 2, 1)),
    ("a refused line", b"old", SAVES, STREAM + b"x\n", 3, None, b"".join(ANSWERS.splitlines(True)[:2]), None),
    ("a dropped batch counts", None, (*SAVES, "--bad-lines", "batch"), STREAM + b"x\n", 0, b"cores: 1 batch was refused\n", None, (2, 4, 4)),
    ("a part is there", b"old", SAVES, b"1 2\n", 5, f"cores: {{}}: {BEGUN}\n".encode(), None, None),
    ("it goes on from a state", TRIANGLE, ("--load", "{}"), b"batch\n+ 9 5\n", 0, b"", None, None),
    ("it goes on and is saved again", TRIANGLE, ("--load", "{}", *SAVES), b"batch\n+ 9 5\n", 0, b"", None, (1, 4, 5)),
    ("an id without edges stays", with_sum(b"kcore-state 1\nbatches 0\nvertices 1\nedges 0\n7 0 0\n"), ("--load", "{}", *SAVES), b"", 0, b"",
     b"graph vertices 1 edges 0 top 0\n", (0, 1, 0)),
    ("an empty state", EMPTY, ("--load", "{}"), b"batch\n", 0, b"", None, None),
    ("edges behind a state", TRIANGLE, ("--load", "{}"), b"9 5\nbatch\n", 0, b"", None, None),
    ("a state that was cut", TRIANGLE[:40], ("--load", "{}", *SAVES), STREAM, 3, refused(4, "the state is cut off here"), b"", None),
    ("no state", b"1 2\n", ("--load", "{}"), STREAM, 3, refused(1, "this is not the first line of a saved state"), b"", None),
    ("another version", TRIANGLE.replace(b"state 1", b"state 2"), ("--load", "{}"), STREAM, 3, refused(1, OTHER_VERSION), b"", None),
    ("line ends of Windows", TRIANGLE.replace(b"\n", b"\r\n"), ("--load", "{}"), STREAM, 3, refused(1, OTHER_VERSION), b"", None),
    ("another edge", TRIANGLE.replace(b"8 9\n", b"5 9\n"), ("--load", "{}"), STREAM, 3, refused(12, "the edge does not ascend"), b"", None),
    ("another count of batches", TRIANGLE.replace(b"batches 3", b"batches 4"), ("--load", "{}"), STREAM, 3,
     refused(13, "the check sum is not that of the lines before it"), b"", None),
    ("an id twice", with_sum(TRIANGLE[:TRIANGLE.index(b"sum")].replace(b"5 2 1", b"8 2 1")), ("--load", "{}"), STREAM, 3,
     refused(6, "the id stands in an earlier line"), b"", None),
    ("other numbers", with_sum(TRIANGLE[:TRIANGLE.index(b"sum")].replace(b"9 1 0", b"9 2 0")), ("--load", "{}"), STREAM, 3,
     refused(8, "the order of the lines so far does not certify their core numbers"), b"", None),
    ("a state that is not there", None, ("--load", "{}"), STREAM, 4, b"cores: {}: No such file or directory\n", b"", None),
    ("standard input as a state", None, ("--load", "-"), STREAM, 2, None, b"", None),
    ("two starts", TRIANGLE, ("--load", "{}", "--from", "{}"), STREAM, 2, None, b"", None),
    ("a number without a file", None, ("--every", "3"), STREAM, 2, None, b"", None),
    ("no batches", None, (*SAVES, "--every", "0"), STREAM, 2, None, b"", None),
)


def small_files():
    """Lets no file grow above 4,096 bytes; a write beyond that is an error and no signal."""
    signal.signal(signal.SIGXFSZ, signal.SIG_IGN)
    resource.setrlimit(resource.RLIMIT_FSIZE, (4096, 4096))


def counts_of(text):
    state = State(text)
    return state.batches, len(state.ids), len(state.edges)


def is_right(program, case):
    """Whether a run in a new folder ends as it is wanted."""
    name, before, words, stream, status, line, output, behind = case
    with tempfile.TemporaryDirectory() as place:
        file = pathlib.Path(place) / "state"
        if before is not None:
            file.write_bytes(before)
        if name == "a part is there":
            file.with_name("state.part").write_bytes(b"x")
        run = [program, "watch", *(word.replace("{}", str(file)) for word in words)]
        ended = subprocess.run(run, input=stream, capture_output=True, check=False, preexec_fn=small_files)
        after = file.read_bytes() if file.exists() else None
        same = line is None or ended.stderr == line.replace(b"{}", str(file).encode())
        same = same and (output is None or ended.stdout == output) and ended.returncode == status
        same = same and (after == before if behind is None else after is not None and counts_of(after) == behind)
        left = [path.name for path in file.parent.iterdir() if path.name == "state.part"]
        same = same and bool(left) == (name == "a part is there")
        if not same:
            print(f"{name}: status {ended.returncode}, {ended.stdout!r}, {ended.stderr!r}, {after!r}, {left}")
        return same


def is_cut_right(program):
    """Whether a state that does not fit leaves the old file, and all that was read is answered."""
    with tempfile.TemporaryDirectory() as place:
        file = pathlib.Path(place) / "state"
        file.write_bytes(TRIANGLE)
        stream = b"".join(b"%d %d\n" % (i, i + 1) for i in range(999))
        run = [program, "watch", "--save", str(file)]
        ended = subprocess.run(run, input=stream, capture_output=True, check=False, preexec_fn=small_files)
        line = f"cores: {file}: the output could not be written to its end\n".encode()
        wanted = (5, b"graph vertices 1000 edges 999 top 1\n", line, [("state", TRIANGLE)])
        there = (ended.returncode, ended.stdout, ended.stderr, [(path.name, path.read_bytes()) for path in file.parent.iterdir()])
        if there != wanted:
            print(f"a state that does not fit: {there!r}")
        return there == wanted


def batches_of(rng, ids, count):
    """A start and so many batches, each a text."""
    yield b"".join(b"%d %d\n" % tuple(rng.sample(range(ids), 2)) for _ in range(4 * ids))
    for _ in range(count):
        yield b"batch\n" + b"".join(b"%s %d %d\n" % (rng.choice((b"+", b"-")), *rng.sample(range(ids), 2)) for _ in range(rng.randrange(1, 20)))


def kill_once(program, rng, folder):
    """Kills a run that saves a state behind each batch; gives how many batches the state has that stands there then, if one does."""
    file = folder / "state"
    parts = list(batches_of(rng, rng.choice((20, 300, 2000)), 200))
    before = file.read_bytes() if file.exists() else None
    run = [program, "watch", "--save", str(file), "--every", "1"]
    process = subprocess.Popen(run, stdin=subprocess.PIPE, stdout=subprocess.DEVNULL, stderr=subprocess.PIPE, bufsize=0)
    limit = time.monotonic() + rng.random() * rng.choice((0.02, 0.1, 0.5))
    try:
        for part in parts:
            process.stdin.write(part)
            if time.monotonic() > limit:
                break
            time.sleep(rng.random() * 0.002)
    finally:
        process.kill()
        process.wait()
        process.stdin.close()
        process.stderr.close()
    after = file.read_bytes() if file.exists() else None
    (folder / "state.part").unlink(missing_ok=True)
    if after == before:
        return None
    counts = counts_of(after)
    loaded = subprocess.run([program, "watch", "--load", str(file)], input=b"", capture_output=True, check=False)
    if (loaded.returncode, loaded.stdout[:6]) != (0, b"graph "):
        raise ValueError(f"the state is not loaded: {loaded.stderr!r}")
    return counts[0]


def try_kills(program, seed, count):
    """Kills so many runs, and gives how many of them have left a new state."""
    new = 0
    with tempfile.TemporaryDirectory() as place:
        for number in range(count):
            new += kill_once(program, random.Random(f"{seed} {number}"), pathlib.Path(place)) is not None
    return new


def main():
    words = argparse.ArgumentParser(description=__doc__, formatter_class=argparse.RawDescriptionHelpFormatter)
    words.add_argument("--cores", default=str(TOP / "crates/cores/out/cores"))
    words.add_argument("--kills", type=int, default=200)
    words.add_argument("--seed", type=int, default=1)
    given = words.parse_args()
    wrong = [case[0] for case in CASES if not is_right(given.cores, case)]
    if not is_cut_right(given.cores):
        wrong.append("a state that does not fit")
    print(f"{len(CASES) + 1} cases of --save and --load, wrong: {', '.join(wrong) or 'none'}")
    new = try_kills(given.cores, given.seed, given.kills)
    print(f"{given.kills} runs were killed, {new} of them left a new state: each file was whole and was loaded")
    sys.exit(1 if wrong else 0)


if __name__ == "__main__":
    main()
