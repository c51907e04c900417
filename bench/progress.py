#!/usr/bin/env python3
"""Runs `cores` on pseudo-terminals and through pipes, and looks where its line of progress comes.

    python3 bench/progress.py [PROGRAM]      (default: crates/cores/out/cores; ./cores builds it)

A sender writes edges into a pipe for some seconds, so that the run lasts that long on each machine. One line a case; status 1 where
one is not as it must be.
"""
import os
import pathlib
import pty
import re
import subprocess
import sys
import threading
import time

HERE = pathlib.Path(__file__).resolve().parent
PROGRAM = sys.argv[1] if len(sys.argv) > 1 else str(HERE.parent / "crates/cores/out/cores")
CLEARED = b"\r\x1b[K"
LINE = re.compile(rb"\r\x1b\[K(\d+) bytes read(?:, peeling at core number \d+)?")
SUMMARY = b"vertices 3 edges 3 top 2"
EDGES = b"1 2\n2 3\n3 1\n"


def send(stream, seconds):
    """Writes the edges, and then comments until the time is over."""
    ends = time.monotonic() + seconds
    stream.write(EDGES)
    while time.monotonic() < ends:
        stream.write(b"# a comment\n" * 1000)
        stream.flush()
        time.sleep(0.02)
    stream.close()


def read_all(place):
    """All that comes out of the other side of a terminal or a pipe."""
    parts = []
    while True:
        try:
            part = os.read(place, 65536)
        except OSError:  # a terminal whose other side is closed
            break
        if not part:
            break
        parts.append(part)
    return b"".join(parts)


def run(words, seconds, on_terminal, edges_wrong=False):
    """The status, standard output, and what came on standard error."""
    reader, writer = pty.openpty() if on_terminal else os.pipe()
    with subprocess.Popen([PROGRAM, *words], stdin=subprocess.PIPE, stdout=subprocess.PIPE, stderr=writer) as child:
        os.close(writer)
        told = []
        listener = threading.Thread(target=lambda: told.append(read_all(reader)))
        listener.start()
        if edges_wrong:
            child.stdin.write(b"1 x\n")
        sender = threading.Thread(target=send, args=(child.stdin, seconds))
        sender.start()
        out = child.stdout.read()
        sender.join()
        listener.join()
    os.close(reader)
    return child.returncode, out, told[0]


def main():
    wrong = 0

    def report(case, holds, told):
        nonlocal wrong
        print(f"{'ok   ' if holds else 'WRONG'} {case}")
        if not holds:
            print(f"      {told!r}")
            wrong += 1

    status, out, told = run(["numbers"], 3, True)
    lines = LINE.findall(told)
    rest = LINE.sub(b"", told)
    report("a long run on a terminal shows how far it is", status == 0 and len(lines) >= 2, told)
    report("at most ten times a second, and not in the first", len(lines) <= 10 * 3, told)
    report("the bytes rise", [int(n) for n in lines] == sorted({int(n) for n in lines}), told)
    report("the line is cleared before the summary", rest.startswith(CLEARED) and rest[len(CLEARED):].strip() == SUMMARY, told)
    report("the output is that of a run without it", out == b"1\t2\n2\t2\n3\t2\n", out)
    status, _, told = run(["numbers"], 0.2, True)
    report("a short run on a terminal shows nothing", status == 0 and told.strip() == SUMMARY, told)
    status, _, told = run(["numbers", "--quiet"], 2.5, True)
    report("with --quiet nothing is shown", status == 0 and told == b"", told)
    status, _, told = run(["numbers"], 2.5, False)
    report("nothing of it goes into a pipe", status == 0 and told == SUMMARY + b"\n", told)
    status, _, told = run(["numbers"], 2.5, True, edges_wrong=True)
    rest = LINE.sub(b"", told)
    report("it is cleared before a refusal", status == 3 and rest.startswith(CLEARED + b"cores: "), told)
    sys.exit(1 if wrong else 0)


if __name__ == "__main__":
    main()
