#!/usr/bin/env python3
"""Runs `cores` with `--output`: the file has all lines or stays as it was, and nothing is left beside it.

usage: output_files.py [--cores PROGRAM]      (default: crates/cores/out/cores beside this folder)

Each case says how the run begins, what its status and its line are, and what the folder holds then. A write fails by a limit on the size of
files. The status is 1 where one differs.
"""
import argparse
import pathlib
import resource
import signal
import subprocess
import sys
import tempfile

TOP = pathlib.Path(__file__).resolve().parent.parent
EDGES = "1 2\n2 3\n3 1\n3 4\n"
NUMBERS = "1\t2\n2\t2\n3\t2\n4\t1\n"
SUMMARY = "vertices 4 edges 4 top 2\n"
BEGUN = "a file of this name with .part behind it is there, of a run that goes on or was cut off; remove it if no run goes on"

# name of the case; what is there before; words; input; status; the line, where {} is the name of the file; what is there behind it
CASES = (
    ("a new file", {}, ("numbers", "--output", "{}"), EDGES, 0, SUMMARY, {"out": NUMBERS}),
    ("an old file is replaced", {"out": "old"}, ("numbers", "--output", "{}"), EDGES, 0, SUMMARY, {"out": NUMBERS}),
    ("a quiet run", {}, ("numbers", "--quiet", "--output", "{}"), EDGES, 0, "", {"out": NUMBERS}),
    ("JSON", {}, ("members", "--format", "json", "--core", "3", "--output", "{}"), EDGES, 0, SUMMARY, {"out": ""}),
    ("a refused input", {"out": "old"}, ("sizes", "--output", "{}"), "1 x\n", 3, None, {"out": "old"}),
    ("an input that is not there", {"out": "old"}, ("order", "--output", "{}", "/no/such"), "", 4, None, {"out": "old"}),
    ("a part is there", {"out": "old", "out.part": "x"}, ("layers", "--output", "{}"), EDGES, 5, f"cores: {{}}: {BEGUN}\n", {"out": "old", "out.part": "x"}),
    ("a write fails", {"out": "old"}, ("numbers", "--output", "{}"), "".join(f"{i} {i + 1}\n" for i in range(9_999)), 5,
     "cores: {}: the output could not be written to its end\n", {"out": "old"}),
)


def limited():
    """Lets no file grow above 4,096 bytes; a write beyond that is an error and no signal."""
    signal.signal(signal.SIGXFSZ, signal.SIG_IGN)
    resource.setrlimit(resource.RLIMIT_FSIZE, (4096, 4096))


def is_right(program, before, words, given, status, line, behind):
    """Whether a run in a new folder ends as it is wanted. Nothing goes to standard output."""
    with tempfile.TemporaryDirectory() as place:
        folder = pathlib.Path(place)
        for name, text in before.items():
            (folder / name).write_text(text)
        out = str(folder / "out")
        run = [program, *(word.replace("{}", out) for word in words)]
        ended = subprocess.run(run, input=given.encode(), capture_output=True, check=False, preexec_fn=limited)
        told = ended.stderr.decode()
        there = {path.name: path.read_text() for path in folder.iterdir()}
        same = line is None or told == line.replace("{}", out)
        if (ended.returncode, ended.stdout, there) == (status, b"", behind) and same:
            return True
        print(f"{' '.join(run)}: status {ended.returncode}, {told!r}, {there!r}")
        return False


def is_refused(program, name, line):
    """Whether a name that can't be written ends with status 5 and this line."""
    ended = subprocess.run([program, "numbers", "--output", name], input=EDGES.encode(), capture_output=True, check=False)
    return (ended.returncode, ended.stdout, ended.stderr.decode()) == (5, b"", f"cores: {name}: {line}\n")


def main():
    words = argparse.ArgumentParser(description=__doc__, formatter_class=argparse.RawDescriptionHelpFormatter)
    words.add_argument("--cores", default=str(TOP / "crates/cores/out/cores"))
    program = words.parse_args().cores
    wrong = [name for name, *case in CASES if not is_right(program, *case)]
    special = "it is a link, a pipe or a device, and is not replaced; name another file, or write the output to it with >"
    for name, line in (("/no/such/folder/out", "No such file or directory"), (tempfile.gettempdir(), "Is a directory"), ("/dev/null", special)):
        if not is_refused(program, name, line):
            wrong.append(name)
    standard = subprocess.run([program, "numbers", "--output", "-"], input=EDGES.encode(), capture_output=True, check=False)
    if standard.stdout.decode() != NUMBERS:
        wrong.append("-")
    print(f"{len(CASES) + 4} cases of --output, wrong: {', '.join(wrong) or 'none'}")
    sys.exit(1 if wrong else 0)


if __name__ == "__main__":
    main()
