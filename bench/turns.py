#!/usr/bin/env python3
"""Times commands in turns, so that other work on the machine falls on all of them alike.

usage: turns.py [--rounds N] COMMAND COMMAND...
(default: 7 rounds; each COMMAND is one word, as 'crates/cores/out/cores numbers graph.txt')

For each command: the median of its processor time (user and system) in milliseconds, the least and the greatest, and the median over the
rounds of its time beside the first command's. All have to write the same, and to end with status 0; else the status is 1.
"""
import argparse
import os
import shlex
import statistics
import subprocess
import sys
import tempfile


def run(command):
    """The processor milliseconds of a run, and what it wrote; nothing where it failed."""
    with tempfile.TemporaryFile() as out:
        running = subprocess.Popen(shlex.split(command), stdin=subprocess.DEVNULL, stdout=out, stderr=subprocess.DEVNULL)
        _, status, used = os.wait4(running.pid, 0)
        running.returncode = os.waitstatus_to_exitcode(status)
        out.seek(0)
        return (1000 * (used.ru_utime + used.ru_stime), out.read()) if status == 0 else None


def main():
    words = argparse.ArgumentParser(description=__doc__, formatter_class=argparse.RawDescriptionHelpFormatter)
    words.add_argument("--rounds", type=int, default=7)
    words.add_argument("commands", nargs="+")
    chosen = words.parse_args()
    times, written = {command: [] for command in chosen.commands}, set()
    for _ in range(chosen.rounds):
        for command in chosen.commands:
            ended = run(command)
            if ended is None:
                sys.exit(f"failed: {command}")
            times[command].append(ended[0])
            written.add(ended[1])
    first = times[chosen.commands[0]]
    for command, taken in times.items():
        ratio = statistics.median(mine / base for mine, base in zip(taken, first))
        print(f"{statistics.median(taken):8.1f} ms, {min(taken):.1f} to {max(taken):.1f}, {ratio:.2f} of the first: {command}")
    if len(written) > 1:
        sys.exit("they don't write the same")


if __name__ == "__main__":
    main()
