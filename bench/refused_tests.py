#!/usr/bin/env python3
"""Refuses requests for memory of the tests, one after another, and looks how each test ends.

    python3 bench/refused_tests.py [--most N] [--seconds N] [NAME..]   of each test the first N requests (20), in the built program of its crate
    python3 bench/refused_tests.py --try [--most N] [NAME..]           by `rt try --test --fail-alloc`, which builds with sanitizers and needs no proof
    python3 bench/refused_tests.py --both [NAME..]                     runs the tests as two compilers build them, with nothing refused

NAME is a crate of tests; without one it is each of crates.txt, lowest first. `rt test` in a crate's folder builds crates/NAME/out/NAME_tests. The
first way runs that program under an allocator that is preloaded (refuse.c), each test in a process of its own. It needs the program and a C
compiler, but no rt. The others call rt, and take long: `--try` builds the crate anew for each number, and `--both` has it proved.

A test whose request is refused may pass, where it can do without. Else it has to fail: with an error or an assertion that names want of memory.
It must not end by another signal than that of an assertion, and it must not run on without an end. What fails otherwise is printed with how often it
came: each such text is to be looked at, since it may be a wrong answer. EXPECTED has those that were looked at, by crate and file. The status is 1
where one is not there.
"""
import argparse
import collections
import os
import pathlib
import re
import resource
import signal
import struct
import subprocess
import sys
import tempfile

import refused

TOP = pathlib.Path(__file__).resolve().parent.parent
CRATES = TOP / "crates"
MEMORY = re.compile(rb"out of memory|no memory|NoMemory|OutOfMemory|AllocError|AllocFailed|NoSpace|memory allocation failed", re.I)
EXPECTED = {
    ("kc_base_tests::streams", "status -6: assertion failed: false"): "a text was wanted, and its reading has failed",
    ("kc_base_tests::dialogues", "assertion `left == right` failed"): "the wire in memory fails where it has no memory",
    ("kc_text_tests::texts", 'error: "refused"'): "the text can't be read",
    ("kc_order_tests::handing", "assertion failed: waiting.lock(rt).push_back(next).is_ok()"): "the queue can't grow",
    ("kc_order_tests::arcs", "the arc closes no cycle"): "the arc can't be added",
    ("kc_order_tests::racing_arcs", "the arc closes no cycle"): "the arc can't be added",
    ("kc_order_tests::telling", "the arc closes no cycle"): "the arc can't be added",
    ("kc_agree_tests::histories", "nothing was stored between"): "the order can't be asked",
    ("kc_workers_tests::courses", 'error: "refused"'): "the input can't be read",
    ("kc_program_tests::ascending", '"no claims"'): "the claims can't be kept",
    ("kc_program_tests::pieces", '"no claims"'): "the claims can't be kept",
    ("kc_program_tests::pieces", '"no check"'): "the check can't begin",
    ("kc_program_tests::pieces", '"the first piece is wrong"'): "the first piece can't be counted",
    ("kc_program_tests::streams", '"no claims"'): "the claims can't be kept",
}


def crates_of_tests():
    lines = (TOP / "crates.txt").read_text(encoding="utf-8").splitlines()
    names = [re.split(r"[\s:]", line)[0] for line in lines if line.strip() and not line.startswith("#")]
    return [it for it in names if it.endswith("_tests")]


def program_of(crate):
    """The program that rt makes of a crate's tests."""
    return CRATES / crate / "out" / f"{crate}_tests"


class Tests:
    """The built tests of a crate."""

    def __init__(self, crate, library, place, seconds):
        self.program, self.library, self.report = program_of(crate), library, os.path.join(place, "report")
        self.seconds = seconds

    def names(self):
        said = subprocess.run([self.program, "--list"], capture_output=True, check=True, text=True).stdout
        return re.findall(r"^(.*): test$", said, re.M)

    def run(self, test, number):
        """How the test ends where this request is refused, what it wrote on standard error, and whether the request came."""
        with open(self.report, "wb") as file:
            file.write(bytes(16))
        inside = dict(os.environ, LD_PRELOAD=self.library, KCORE_REFUSE=str(number), KCORE_REFUSE_REPORT=self.report)
        no_core = lambda: resource.setrlimit(resource.RLIMIT_CORE, (0, 0))
        try:
            done = subprocess.run([self.program, test], stdin=subprocess.DEVNULL, capture_output=True, env=inside, timeout=self.seconds, preexec_fn=no_core)
            status, text = done.returncode, done.stderr
        except subprocess.TimeoutExpired:
            status, text = None, b"it does not end"
        with open(self.report, "rb") as file:
            return status, text, struct.unpack("=QQ", file.read(16))[1] > 0


def end_of(status, text):
    """One of 'passed', 'memory' and what else it says."""
    if status == 0:
        return "passed"
    if status is not None and (status > 0 or status == -signal.SIGABRT) and MEMORY.search(text):
        return "memory"
    words = b" ".join(text.split()).decode(errors="replace")[:300]
    return f"{'no end' if status is None else f'status {status}'}: {words}"


def refuse_in(tests, most):
    """Refuses the first requests of each test: how many failed for want of memory, and for each other end the requests with which it came."""
    memory, ends = 0, collections.defaultdict(list)
    for test in tests.names():
        status, text, _ = tests.run(test, 0)
        if status != 0:
            ends[f"{test}: {end_of(status, text)}"].append(0)
            continue
        for number in range(1, most + 1):
            status, text, came = tests.run(test, number)
            if not came:
                break
            end = end_of(status, text)
            if end == "memory":
                memory += 1
            else:
                ends[f"{test}: {end}"].append(number)
    return memory, ends


def tell(crate, memory, ends):
    """Prints a line of the crate, and one of each other end with its requests, 0 for none. Returns how many of these were not looked at."""
    passed = sum(len(numbers) for it, numbers in ends.items() if it.endswith(": passed"))
    total, lacking = memory + sum(map(len, ends.values())), 0
    print(f"{crate}: {total} refused: {memory} failed for want of memory, {passed} passed, {total - memory - passed} otherwise", flush=True)
    for text, numbers in ends.items():
        why = "" if text.endswith(": passed") else reason_of(crate, text) or "to be looked at"
        lacking += why == "to be looked at"
        print(f"  {' '.join(map(str, numbers))}: {text}{f'  <- {why}' if why else ''}", flush=True)
    return lacking


def reason_of(crate, text):
    return next((why for (its, part), why in EXPECTED.items() if f"{crate}::{text}".startswith(f"{its}::") and part in text), "")


def try_in(crate, most):
    """The same by `rt try`, of all tests at once: how each number ends."""
    ends = collections.Counter()
    for number in range(1, most + 1):
        words = ["rt", "try", "--test", "--fail-alloc", str(number)]
        done = subprocess.run(words, cwd=CRATES / crate, stdin=subprocess.DEVNULL, stdout=subprocess.PIPE, stderr=subprocess.STDOUT)
        print(f"{crate} --fail-alloc {number}: status {done.returncode}", flush=True)
        sys.stdout.buffer.write(done.stdout)
        sys.stdout.flush()
        ends[done.returncode] += 1
    return ends


def main():
    words = argparse.ArgumentParser(description=__doc__, formatter_class=argparse.RawDescriptionHelpFormatter)
    words.add_argument("names", nargs="*")
    words.add_argument("--most", type=int, default=20)
    words.add_argument("--seconds", type=int, default=60, help="how long a test may take, 60 where it is not given")
    words.add_argument("--try", dest="by_try", action="store_true")
    words.add_argument("--both", action="store_true")
    asked = words.parse_args()
    names, status = asked.names or crates_of_tests(), 0
    if asked.both:
        for crate in names:
            inside = dict(os.environ, RT_BACKEND="both")
            ended = subprocess.run(["rt", "test"], cwd=CRATES / crate, env=inside, stdin=subprocess.DEVNULL).returncode
            print(f"{crate}: by both compilers: status {ended}", flush=True)
            status |= ended != 0
    elif asked.by_try:
        for crate in names:
            print(f"{crate}: {dict(try_in(crate, asked.most))}", flush=True)
    else:
        with tempfile.TemporaryDirectory() as place:
            library, built = refused.built(place), [it for it in names if program_of(it).is_file()]
            for crate in built:
                status |= tell(crate, *refuse_in(Tests(crate, library, place, asked.seconds), asked.most)) > 0
        for crate in [it for it in names if it not in built]:
            print(f"{crate}: left out, since it is not built: rt test in its folder builds it", flush=True)
        status |= not built
    sys.exit(int(status))


if __name__ == "__main__":
    main()
