#!/usr/bin/env python3
"""Compares the built program with peer_plain and with a model on small random inputs.

usage: differ.py --kcore PROGRAM --plain PEER_PLAIN [--seed N] [--cases N] [--only cores,summary,each,level] [--workers 1,2,3,8,64]

Each input has edge lines with loops, repeats and both directions, comments, blank lines, CRLF and blanks of both kinds, and
batches that name pairs again. It is run in one mode, in turn, and in each with every number of workers, in turn:

  cores     no word             beside peer_plain and the model
  summary   --show summary      beside peer_plain and the model
  each      --show each         beside the model
  level     --level K           beside the model

The model counts by the definition: the k-core is what is left when vertices with fewer than k neighbours go. Where outputs
differ, the input is shrunk line by line while they still do, and printed with both outputs; the status is then 1.
"""
import argparse
import random
import subprocess
import sys

MODES = ("cores", "summary", "each", "level")
WORKERS = (1, 2, 3, 8, 64)
IDS = (0, 1, 2, 3, 4, 5, 6, 7, 8, 9, 17, 4294967295)


class Refused(Exception):
    """The input is not one that the program takes."""


def random_number(rng):
    number = str(rng.choice(IDS))
    return "0" * rng.choice((0, 0, 0, 0, 1, 12)) + number


def random_pair(rng, loops):
    while True:
        pair = random_number(rng), random_number(rng)
        if loops or int(pair[0]) != int(pair[1]):
            return pair


def random_line(rng, in_batch):
    """A line without its end: mostly one that says something."""
    kind = rng.random()
    if kind < 0.05:
        return rng.choice(("", " ", "\t", "\t "))
    if kind < 0.1:
        return rng.choice(("# 1 2", "%", "#\u00e9", "  # + 1 2", "#batch"))
    fields = random_pair(rng, loops=not in_batch)
    if in_batch:
        fields = (rng.choice("+-"),) + fields
    gaps = [rng.choice((" ", "\t", "  ", " \t")) for _ in fields]
    line = "".join(field + gap for field, gap in zip(fields, gaps)).rstrip()
    return rng.choice(("", "", "", " ", "\t")) + line + rng.choice(("", "", "", " ", "\t"))


def random_lines(rng):
    lines = [random_line(rng, in_batch=False) for _ in range(rng.choice((0, 3, 10, 25, 40)))]
    for _ in range(rng.randrange(4)):
        lines.append(rng.choice(("batch", "batch", " batch\t")))
        lines += [random_line(rng, in_batch=True) for _ in range(rng.choice((0, 1, 5, 20, 60)))]
    return [line + rng.choice(("\n", "\n", "\n", "\r\n")) for line in lines]


def as_bytes(lines, ended):
    text = "".join(lines)
    return (text if ended or not text else text.rstrip("\r\n")).encode()


def meaning(data):
    """The ids, the start edges, and for each batch the lines that decide, as a map from pairs to signs, and how many others it has."""
    ids, start, batches = set(), set(), []
    for line in data.decode().split("\n"):
        fields = line.removesuffix("\r").replace("\t", " ").split()
        if not fields or fields[0][0] in "#%":
            continue
        if fields == ["batch"]:
            batches.append(({}, []))
            continue
        sign = fields.pop(0) if fields[0] in "+-" else None
        if (sign is None) != (not batches):
            raise Refused
        u, v = sorted(map(int, fields))
        ids |= {u, v}
        if sign is None:
            if u != v:
                start.add((u, v))
        else:
            batches[-1][0][u, v] = sign
            batches[-1][1].append((u, v))
    return sorted(ids), start, [(deciding, len(named) - len(deciding)) for deciding, named in batches]


def core_numbers(ids, edges):
    near = {v: set() for v in ids}
    for u, v in edges:
        near[u].add(v)
        near[v].add(u)
    core, k = {v: 0 for v in ids}, 0
    while near:
        k += 1
        while True:
            gone = [v for v in near if len(near[v]) < k]
            if not gone:
                break
            for v in gone:
                for w in near.pop(v):
                    near[w].discard(v)
        for v in near:
            core[v] = k
    return core


def model(data, mode, level):
    """The text that the input has in this mode."""
    ids, edges, batches = meaning(data)
    core = core_numbers(ids, edges)

    def top():
        return max(core.values(), default=0)

    def core_lines():
        return [f"{v} {core[v]}" for v in ids]

    lines = [f"graph vertices {len(ids)} edges {len(edges)} top {top()}"]
    if mode == "each":
        lines += core_lines()
    for number, (deciding, overruled) in enumerate(batches, 1):
        added = {pair for pair, sign in deciding.items() if sign == "+"} - edges
        removed = {pair for pair, sign in deciding.items() if sign == "-"} & edges
        edges = (edges | added) - removed
        core = core_numbers(ids, edges)
        counts = f"added {len(added)} removed {len(removed)} kept {len(deciding) - len(added) - len(removed)}"
        if overruled:
            counts += f" overruled {overruled}"
        lines.append(f"batch {number} {counts} edges {len(edges)} top {top()}")
        if mode == "each":
            lines += core_lines()
    if mode in ("cores", "level"):
        lines += core_lines()
    if mode == "level":
        members = [v for v in ids if core[v] >= level]
        lines += [f"level {level} members {len(members)}"] + [str(v) for v in members]
    return "".join(line + "\n" for line in lines).encode()


def words_of(mode, level, workers):
    shown = {"cores": [], "summary": ["--show", "summary"], "each": ["--show", "each"], "level": ["--level", str(level)]}[mode]
    return ["--workers", str(workers)] + shown


def output(command, data):
    """What a program writes, with its status and its words on standard error where it fails."""
    done = subprocess.run(command, input=data, capture_output=True)
    if done.returncode:
        return done.stdout + b"status %d: " % done.returncode + done.stderr
    return done.stdout


def difference(chosen, data, mode, level, workers):
    """The names and the outputs that differ, if any do."""
    ours = output([chosen.kcore] + words_of(mode, level, workers), data)
    others = [("the model", model(data, mode, level))]
    if mode in ("cores", "summary"):
        others.append(("peer_plain", output([chosen.plain] + ([mode] if mode == "summary" else []), data)))
    return next(((ours, name, theirs) for name, theirs in others if ours != theirs), None)


def shrunk(chosen, lines, ended, mode, level, workers):
    """Lines whose outputs still differ, of which none can be left out."""
    at = 0
    while at < len(lines):
        fewer = lines[:at] + lines[at + 1:]
        try:
            if difference(chosen, as_bytes(fewer, ended), mode, level, workers):
                lines, at = fewer, 0
                continue
        except Refused:
            pass
        at += 1
    return lines


def main():
    words = argparse.ArgumentParser(description=__doc__, formatter_class=argparse.RawDescriptionHelpFormatter)
    words.add_argument("--kcore", required=True)
    words.add_argument("--plain", required=True)
    words.add_argument("--seed", type=int, default=1)
    words.add_argument("--cases", type=int, default=4000)
    words.add_argument("--only", default=",".join(MODES), help="the modes, parted by commas")
    words.add_argument("--workers", default=",".join(map(str, WORKERS)), help="the numbers of workers, parted by commas")
    chosen = words.parse_args()
    modes = chosen.only.split(",")
    if not set(modes) <= set(MODES):
        words.error("the modes are " + ", ".join(MODES))
    counts = [int(count) for count in chosen.workers.split(",")]
    rng = random.Random(chosen.seed)
    for case in range(chosen.cases):
        mode, level = modes[case % len(modes)], rng.randrange(6)
        workers = counts[case // len(modes) % len(counts)]
        lines, ended = random_lines(rng), rng.random() < 0.8
        if difference(chosen, as_bytes(lines, ended), mode, level, workers):
            data = as_bytes(shrunk(chosen, lines, ended, mode, level, workers), ended)
            ours, name, theirs = difference(chosen, data, mode, level, workers)
            print(f"case {case} of seed {chosen.seed}, words {words_of(mode, level, workers)}: the outputs differ on {data!r}")
            print(f"kcore:\n{ours.decode()}{name}:\n{theirs.decode()}")
            sys.exit(1)
    print(f"{chosen.cases} inputs of seed {chosen.seed}, modes {', '.join(modes)}, workers {chosen.workers}: no output differs")


if __name__ == "__main__":
    main()
