#!/usr/bin/env python3
"""Refuses each request for memory of the built program in turn, and looks how its runs end.

usage: refused.py [--kcore PROGRAM] [--cores PROGRAM] [--stress PROGRAM] [--only WORD] [--quick]
(default: crates/kcore/out/kcore, crates/cores/out/cores and crates/stress_journal/out/stress_journal beside this folder; ./kcore and ./cores
build the first two, and `rt run` in its folder the third; what is not there is left out)

The program runs under an allocator that is preloaded (refuse.c, which is built here by $CC or cc): in one run after another the first request is
refused, the second, and so on, until a run needs no more; and then the same where each request after the refused one is refused too (--quick leaves
that out). Only requests that the program itself makes are counted. Each run has to end

  as the run of which nothing is refused, with its status, its whole text and its line on standard error, or
  with status 6, a prefix of that text, and `no memory` on standard error (nothing there where there is no memory for the words).

`cores` says in its own words that there is not enough memory. Then it has written nothing, and `cores watch` a prefix of its answers.

The last case is a program of its own over the journal: where a request is refused, it looks whether the journal is as it was before the
update, or has just those of a batch that were entered, and says so where it is not. It has no status of its own for want of memory: it
has to end with status 1 and a line that says so.

A line a case says how many requests were refused and how the runs ended. The status is 1 where a run ends otherwise, is killed or does
not end; the smallest such case is then printed. With several workers the numbers of the requests hang on the schedule, so the last
number is one that three runs in a row do not come to.
"""
import argparse
import os
import pathlib
import shlex
import struct
import subprocess
import sys
import tempfile

HERE = pathlib.Path(__file__).resolve().parent
NO_MEMORY = 6
LIMIT = 60  # seconds that a run may take
UNREACHED = 3  # runs in a row that need no more requests

TRIANGLE = b"1 2\n2 3\n3 1\n"
CLOSED = b"1 2\n2 3\n3 4\nbatch\n+ 4 1\n"
BACK = b"batch\n+ 1 2\nbatch\n- 2 1\n"
TWO_EDGES = b"1 2\n3 4\nbatch\n+ 1 3\n+ 2 4\n"
CLIQUE = b"".join(b"%d %d\n" % (u, v) for v in range(2, 9) for u in range(1, v))
PEELED = CLIQUE + b"batch\n" + b"".join(b"- 1 %d\n" % v for v in range(2, 9)) + b"batch\n" + b"".join(b"+ 1 %d\n+ 9 %d\n" % (v, v) for v in range(2, 6))
MANY = b"1 2\n" + b"".join(b"batch\n" + b"".join(b"+ %d %d\n- %d %d\n" % (i, j, i, j + 2) for j in range(i + 1, i + 5)) for i in range(1, 7))

CASES = (
    ("three edges", [], TRIANGLE),
    ("no input", [], b""),
    ("a path and a batch that closes it", [], CLOSED),
    ("two edges that a batch makes a circle, one worker", [], TWO_EDGES),
    ("two edges that a batch makes a circle, two workers", ["--workers", "2"], TWO_EDGES),
    ("an edge that comes and goes", [], BACK),
    ("an edge that comes and goes, two workers", ["--workers", "2"], BACK),
    ("a clique that is taken apart and grows, one worker", ["--show", "each"], PEELED),
    ("a clique that is taken apart and grows, two workers", ["--show", "each", "--workers", "2"], PEELED),
    ("six batches, two workers", ["--workers", "2", "--level", "2"], MANY),
    ("six batches, eight workers", ["--workers", "8"], MANY),
    ("rounds of h-indices", ["--start", "hindex", "--show", "each", "--level", "1"], CLOSED),
    ("a refused line", [], b"1 2\nbatch\n+ 1 3\n+ 1\n"),
    ("a word that is wrong", ["--workers", "65"], TRIANGLE),
)
TABLE = b"a,b\n1,2\n2,3\n3,1\n"
BROKEN = b"1 2\n2 x\n"
CORES_CASES = (
    ("cores: numbers", ["numbers"], TRIANGLE),
    ("cores: numbers by three threads", ["numbers", "--threads", "3"], TRIANGLE),
    ("cores: numbers as JSON lines", ["numbers", "--format", "json"], TRIANGLE),
    ("cores: sizes", ["sizes"], TRIANGLE),
    ("cores: the edges of a core", ["members", "--core", "2", "--edges"], TRIANGLE),
    ("cores: layers", ["layers"], TRIANGLE),
    ("cores: an order", ["order"], TRIANGLE),
    ("cores: a certificate", ["check", "{certificate}"], TRIANGLE),
    ("cores: a table", ["numbers", "--columns", "1,2", "--separator", "comma", "--skip", "1"], TABLE),
    ("cores: a refused line", ["numbers"], BROKEN),
    ("cores: a stream", ["watch"], TWO_EDGES),
    ("cores: a stream and its changes", ["watch", "--show", "changes", "--enter", "1"], TWO_EDGES),
)
CERTIFICATE = b"1 2\n2 2\n3 2\n"
CORES_LINE = b"cores: there is not enough memory for this graph\n"
JOURNAL_CASE = ("a journal in one thread, and by two workers", ["few"], b"")
JOURNAL_LINES = (b"Error: out of memory\n", b"Error: memory allocation failed\n")  # where it has no memory


def built(place):
    """The allocator that refuses."""
    library = os.path.join(place, "refuse.so")
    compiler = shlex.split(os.environ.get("CC", "cc"))
    subprocess.run(compiler + ["-O2", "-shared", "-fPIC", str(HERE / "refuse.c"), "-o", library, "-ldl"], check=True)
    return library


class Runner:
    """Runs a program on one case."""

    def __init__(self, program, without, library, place, words, data):
        self.command = [program] + words
        self.without = without
        self.library = library
        self.report = os.path.join(place, "report")
        self.data = data

    def run(self, which):
        """The status, both texts, and how many requests there were and were refused. The status is None where the run does not end."""
        with open(self.report, "wb") as file:
            file.write(bytes(16))
        inside = dict(os.environ, LD_PRELOAD=self.library, KCORE_REFUSE=which, KCORE_REFUSE_REPORT=self.report)
        try:
            done = subprocess.run(self.command, input=self.data, capture_output=True, env=inside, timeout=LIMIT)
            ended = (done.returncode, done.stdout, done.stderr)
        except subprocess.TimeoutExpired as late:
            ended = (None, late.stdout or b"", late.stderr or b"")
        with open(self.report, "rb") as file:
            return ended, struct.unpack("=QQ", file.read(16))


def has_no_memory(ended):
    """Whether a run ends as the program does where there is no memory."""
    status, out, err = ended
    return status == NO_MEMORY and (err == b"no memory\n" or (err == b"" and out == b""))


def has_no_memory_for_cores(ended):
    """The same of the program cores; of a stream a part may be written."""
    status, out, err = ended
    return status == NO_MEMORY and (err == CORES_LINE or (err == b"" and out == b""))


def has_no_memory_and_wrote_nothing(ended):
    return has_no_memory_for_cores(ended) and ended[1] == b""


def has_no_memory_for_journal(ended):
    """The same of the program over the journal."""
    status, _, err = ended
    return status == 1 and err in JOURNAL_LINES


def is_lost(ended, whole, without=has_no_memory):
    """Whether a run ends neither as the unrefused one nor as one that has no memory, as `without` tells."""
    return ended != whole and not (without(ended) and whole[1].startswith(ended[1]))


def refuse_each(runner, whole, later):
    """Runs with one request after another refused: how many runs had no memory, how many of these said nothing, and how many ended as
    the whole one; and the first number whose run ends otherwise, with how it ends."""
    counts = {"no memory": 0, "silent": 0, "whole": 0}
    number, unreached = 1, 0
    while unreached < UNREACHED:
        which = f"{number}{'+' if later else ''}"
        ended, (_, refused) = runner.run(which)
        if is_lost(ended, whole, runner.without):
            return counts, (which, ended)
        if refused:
            unreached = 0
            counts["whole" if ended == whole else "no memory"] += 1
            counts["silent"] += ended != whole and not ended[2]
        else:
            unreached += 1
        number += 1
    return counts, None


def show_lost(name, runner, lost):
    which, (status, out, err) = lost
    print(f"{name}: with request {which} refused the run ends with {'no status: it does not end' if status is None else f'status {status}'}")
    print(f"  words {runner.command[1:]}, input {runner.data!r}\n  output {out!r}\n  standard error {err!r}")


def try_case(runner, name, quick):
    """Refuses each request of a case: how many were refused, and whether nothing was lost."""
    whole, (requests, _) = runner.run("0")
    if requests == 0:
        sys.exit(f"refused.py: no request of {runner.command[0]} was seen; one that is linked statically can't be looked at so")
    if whole[0] == 1:
        show_lost(name, runner, ("0", whole))
        return 0, False
    total, kept = 0, True
    for later in (False,) if quick else (False, True):
        counts, lost = refuse_each(runner, whole, later)
        refused = counts["no memory"] + counts["whole"]
        total += refused
        print(f"{name}, {'and all later ones' if later else 'one alone'}: {refused} requests refused: {counts['no memory']} runs had no memory"
              f" ({counts['silent']} of them for the words), {counts['whole']} ended whole", flush=True)
        if lost:
            show_lost(name, runner, lost)
            kept = False
    return total, kept


def main():
    words = argparse.ArgumentParser(description=__doc__, formatter_class=argparse.RawDescriptionHelpFormatter)
    words.add_argument("--kcore", default=str(HERE.parent / "crates/kcore/out/kcore"))
    words.add_argument("--cores", default=str(HERE.parent / "crates/cores/out/cores"))
    words.add_argument("--stress", default=str(HERE.parent / "crates/stress_journal/out/stress_journal"))
    words.add_argument("--only", default="", help="the cases whose name has this word")
    words.add_argument("--quick", action="store_true", help="refuse single requests alone")
    chosen = words.parse_args()
    cases = [(chosen.kcore, has_no_memory, case) for case in CASES]
    for case in CORES_CASES:
        cases.append((chosen.cores, has_no_memory_for_cores if case[1][0] == "watch" else has_no_memory_and_wrote_nothing, case))
    cases.append((chosen.stress, has_no_memory_for_journal, JOURNAL_CASE))
    for program in dict.fromkeys(it[0] for it in cases):
        if not os.path.exists(program):
            print("left out, not built:", program, file=sys.stderr)
    total, kept = 0, True
    with tempfile.TemporaryDirectory() as place:
        library = built(place)
        certificate = pathlib.Path(place, "certificate")
        certificate.write_bytes(CERTIFICATE)
        for program, without, (name, arguments, data) in cases:
            arguments = [it.format(certificate=certificate) for it in arguments]
            if chosen.only in name and os.path.exists(program):
                refused, all_kept = try_case(Runner(program, without, library, place, arguments, data), name, chosen.quick)
                total, kept = total + refused, kept and all_kept
    print(f"{total} requests refused: {'nothing was lost' if kept else 'SOMETHING WAS LOST'}")
    sys.exit(0 if kept and total else 1)


if __name__ == "__main__":
    main()
