#!/usr/bin/env python3
"""Runs the built program on inputs that stand right at its limits, and on one beyond each, and prints time and peak memory.

usage: limits.py [--kcore PROGRAM] [--plain PEER_PLAIN] [--workers 1,4] [--only WORD]
(default: crates/kcore/out/kcore beside this folder; ./kcore builds it. GNU time has to be there: Debian's package time)

At a limit the status has to be 0, with as many ids, updates and batches in the text as the input has; with --plain the whole text has to
be that of peer_plain. One beyond, it has to be 3, with the line and the kind of the first refused line. The inputs are made here, from
random numbers with seeds of their own. The status is 1 where a run ends otherwise.
"""
import argparse
import os
import pathlib
import random
import re
import shutil
import subprocess
import sys
import tempfile
import time

HERE = pathlib.Path(__file__).resolve().parent
IDS, EDGE_LINES, UPDATES, BATCHES, BYTES = 524_288, 4_194_304, 1_048_576, 4_096, 67_108_864
LIMIT = 3_600  # seconds that a run may take


def random_pairs(seed, count, ids):
    """Pairs of different numbers below a bound."""
    draw = random.Random(seed).randrange
    for _ in range(count):
        u = draw(ids)
        v = draw(ids - 1)
        yield u, v + (v >= u)


def lines_of(seed, count, ids, sign=""):
    return "".join(f"{sign}{u} {v}\n" for u, v in random_pairs(seed, count, ids))


def with_ids(file, count):
    file.write("".join(f"{2 * i} {2 * i + 1}\n" for i in range(count // 2)))
    if count % 2:
        file.write(f"{count - 1} 0\n")


def with_edge_lines(file, count):
    """As many ids as may be, too: each of them is on one of the first lines."""
    with_ids(file, IDS)
    file.write(lines_of(1, count - IDS // 2, IDS))


def with_updates(file, count):
    """One batch on a random graph: random additions, and between them removals of edges that the graph begins with."""
    ids, edges = 16_384, 524_288
    start = list(random_pairs(2, edges, ids))
    file.write("".join(f"{u} {v}\n" for u, v in start))
    file.write("batch\n")
    for number, (u, v) in enumerate(random_pairs(3, count, ids)):
        if number % 4:
            file.write(f"+ {u} {v}\n")
        else:
            file.write("- %d %d\n" % start[number // 4 % edges])


def with_batches(file, count):
    """Batches of 64 additions and removals on 4,096 ids."""
    ids, edges = 4_096, 16_384
    start = list(random_pairs(4, edges, ids))
    file.write("".join(f"{u} {v}\n" for u, v in start))
    pairs = random_pairs(5, count * 32, ids)
    for number in range(count):
        file.write("batch\n")
        for place in range(32):
            u, v = next(pairs)
            file.write(f"+ {u} {v}\n- %d %d\n" % start[(32 * number + place) % edges])


def with_bytes(file, count):
    """One comment."""
    file.write("#" * count)


# What there is of each, how many are taken, how the input is made, whether it has batches, and how one more is refused.
CASES = (
    ("ids", IDS, with_ids, False, f"refused line {IDS // 2 + 1} kind 9 TooManyVertices\n"),
    ("edge lines", EDGE_LINES, with_edge_lines, False, f"refused line {EDGE_LINES + 1} kind 10 TooManyEdgeLines\n"),
    ("update lines in one batch", UPDATES, with_updates, True, f"refused line {524_288 + 1 + UPDATES + 1} kind 11 TooManyUpdates\n"),
    ("batches", BATCHES, with_batches, True, f"refused line {16_384 + BATCHES * 65 + 1} kind 12 TooManyBatches\n"),
    ("bytes", BYTES, with_bytes, False, "refused line 0 kind 13 TooLong\n"),
)


def measured(command, path):
    """The status, the text, what stands on standard error, seconds by the clock and of the processor, and the peak in MB."""
    gnu = shutil.which("time")
    with open(path, "rb") as file, tempfile.NamedTemporaryFile("r") as use:
        # a child of this program would begin with this program's own peak; GNU time's child does not
        start = time.monotonic()
        done = subprocess.run([gnu, "-q", "-f", "%U %S %M", "-o", use.name] + command, stdin=file, capture_output=True, timeout=LIMIT)
        clock = time.monotonic() - start
        user, system, kilobytes = use.read().split()[-3:]
    return done.returncode, done.stdout, done.stderr.decode(), clock, float(user) + float(system), int(kilobytes) / 1024


def what_is_wrong(name, count, status, text, err):
    """What a run at a limit does otherwise than it has to; none where it is right."""
    if status != 0 or err:
        return f"status {status}: {err!r}"
    first = text[: text.index(b"\n")].decode()
    wanted = {"ids": IDS, "edge lines": IDS, "bytes": 0}.get(name)
    if wanted is not None and f"graph vertices {wanted} " not in first:
        return f"the graph line is {first!r}"
    changes = re.findall(rb"^batch \d+ added (\d+) removed (\d+) kept (\d+)(?: overruled (\d+))?", text, re.M)
    if name.startswith("batches") and len(changes) != count:
        return f"there are {len(changes)} batch lines"
    if name.startswith("update") and sum(int(number or 0) for number in changes[0]) != count:
        return "the batch line counts other updates"
    return None


def show(*fields):
    print("| " + " | ".join(fields) + " |", flush=True)


def try_case(chosen, place, case):
    """Runs a case at its limit with each number of workers, and one beyond it. Says whether all was right."""
    name, count, make, batched, refusal = case
    path, right = os.path.join(place, "input"), True
    for beyond in (0, 1):
        with open(path, "w") as file:
            make(file, count + beyond)
        size = os.path.getsize(path)
        for workers in chosen.workers.split(",") if batched and not beyond else ["1"]:
            status, text, err, clock, processor, peak = measured([chosen.kcore, "--show", "summary", "--workers", workers], path)
            if beyond:
                wrong = None if (status, text, err) == (3, b"", refusal) else f"status {status}: {err!r}"
            else:
                wrong = what_is_wrong(name, count, status, text, err)
            if wrong is None and chosen.plain and not beyond:
                plain = subprocess.run([chosen.plain, "summary"], stdin=open(path, "rb"), capture_output=True).stdout
                wrong = None if plain == text else "peer_plain writes another text"
            came = wrong or (err.strip() if beyond else "done")
            show(f"{count + beyond:,} {name}", f"{size:,}", workers, came, f"{clock:.2f}", f"{processor:.2f}", f"{peak:.0f}")
            right = right and wrong is None
    return right


def main():
    words = argparse.ArgumentParser(description=__doc__, formatter_class=argparse.RawDescriptionHelpFormatter)
    words.add_argument("--kcore", default=str(HERE.parent / "crates/kcore/out/kcore"))
    words.add_argument("--plain", default="")
    words.add_argument("--workers", default="1", help="the numbers of workers for inputs with batches, parted by commas")
    words.add_argument("--only", default="", help="the cases whose name has this word")
    chosen = words.parse_args()
    if not shutil.which("time"):
        sys.exit("limits.py: GNU time is missing (Debian: time)")
    show("Input", "Bytes", "Workers", "Came of it", "Seconds", "Processor seconds", "Peak MB")
    show(*["---"] * 7)
    with tempfile.TemporaryDirectory() as place:
        right = [try_case(chosen, place, case) for case in CASES if chosen.only in case[0]]
    sys.exit(0 if all(right) else 1)


if __name__ == "__main__":
    main()
