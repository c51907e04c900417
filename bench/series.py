#!/usr/bin/env python3
"""Measures what the README tells of speed, in one series on one machine, and writes a table for each of its claims.

    python3 bench/series.py --kcore PROGRAM --cores PROGRAM --peers bench/build [--stream FILE] GRAPH.. > bench/figures/series.md

GRAPH are edge lists without batches, named after their files; DIR of --peers holds `gen`, `peer_plain`, `peer_order` and `peer_igraph`.
All times are processor time but where the clock is told, medians of --rounds runs (5) in turns: so other work on the machine falls on all
alike. Where it is allowed the runs have a real-time priority. The outputs have to be the same, or the script ends with status 1. With
--only NAME,NAME.. it makes these tables alone: rest, threads, updates, large, back, workers, check, tables, watch, ones, stream. The last one is
of the text that --stream FILE names, as `bench/cochange.py` writes it.
"""
import argparse
import hashlib
import json
import multiprocessing
import os
import pathlib
import random
import statistics
import subprocess
import sys
import tempfile
import time

PRIORITY = 1
ANEW = 20  # batches of one update, of which each has `plain` and igraph compute all anew
LARGE = 10_000_000  # bytes of a graph that is not small
PART = 105_000  # updates that take a twentieth of the edges of a large graph out and give it back
ANSWERS = 3_000  # batches of one new edge, of which each is sent when the one before it is answered


def urgent():
    """Gives the run a real-time priority, where it may."""
    try:
        os.sched_setscheduler(0, os.SCHED_FIFO, os.sched_param(PRIORITY))
    except PermissionError:
        pass


def run(command, path):
    """Seconds of processor and clock, peak megabytes, what was written, and the last line on standard error."""
    with open(path, "rb") as source, tempfile.TemporaryFile() as out, tempfile.TemporaryFile() as err:
        begun = time.monotonic()
        child = subprocess.Popen(command, stdin=source, stdout=out, stderr=err, preexec_fn=urgent)
        _, status, used = os.wait4(child.pid, 0)
        clock = time.monotonic() - begun
        child.returncode = os.waitstatus_to_exitcode(status)
        if status:
            sys.exit(f"status {child.returncode}: {command} < {path}")
        out.seek(0)
        err.seek(0)
        return used.ru_utime + used.ru_stime, clock, used.ru_maxrss / 1000, out.read(), (err.read().splitlines() or [b""])[-1]


def write_small_batches(graph, count, path):
    """Batches of one update behind a graph: a random edge goes, and one comes between an end of each of two random edges."""
    edges = [line.split()[:2] for line in graph.open() if line[:1] not in "#%\n"]
    chance = random.Random(1)
    with path.open("w") as file:
        file.writelines(f"{u} {v}\n" for u, v in edges)
        for _ in range(count // 2):
            at = chance.randrange(len(edges))
            comes = [chance.choice(edges)[0], chance.choice(edges)[1]]
            comes = edges[at] if comes[0] == comes[1] else comes
            file.write(f"batch\n- {' '.join(edges[at])}\nbatch\n+ {' '.join(comes)}\n")
            edges[at] = comes


def answer_times(cores, graph, count):
    """Microseconds from a batch of one new edge and the line that ends it to its answer: the median and the most."""
    edges = [line.split()[:2] for line in graph.open() if line[:1] not in "#%\n"]
    known, chance, times = {frozenset(edge) for edge in edges}, random.Random(1), []
    watch = subprocess.Popen([cores, "watch"], stdin=subprocess.PIPE, stdout=subprocess.PIPE, preexec_fn=urgent)
    watch.stdin.write("".join(f"{u} {v}\n" for u, v in edges).encode() + b"batch\n")
    watch.stdin.flush()
    watch.stdout.readline()
    urgent()
    while len(times) < count:
        u, v = chance.choice(edges)[0], chance.choice(edges)[1]
        if u == v or frozenset((u, v)) in known:
            continue
        known.add(frozenset((u, v)))
        begun = time.perf_counter()
        watch.stdin.write(f"+ {u} {v}\nbatch\n".encode())
        watch.stdin.flush()
        watch.stdout.readline()
        times.append(1e6 * (time.perf_counter() - begun))
    watch.stdin.close()
    if watch.wait():
        sys.exit(f"status {watch.returncode}: {cores} watch")
    return statistics.median(times), max(times)


class Series:
    """Programs, and how often each runs."""

    def __init__(self, chosen):
        self.kcore, self.cores, self.peers, self.rounds = chosen.kcore, chosen.cores, pathlib.Path(chosen.peers), chosen.rounds
        self.folder = pathlib.Path(tempfile.mkdtemp())

    def measured(self, command, path):
        """Seconds of processor and clock, peak megabytes, and a digest: a text that is kept here would count in the peak of the next run."""
        *figures, written, _ = run(command, path)
        return (*figures, hashlib.sha256(written).digest())

    def turns(self, commands, path, same=True):
        """For each command the medians of processor, clock and peak memory, and the median over the rounds of processor time beside the first."""
        rows = [[self.measured(command, path) for command in commands] for _ in range(self.rounds)]
        if same and len({ended[3] for row in rows for ended in row}) > 1:
            sys.exit(f"outputs differ: {commands} < {path}")
        told = []
        for at in range(len(commands)):
            columns = [statistics.median(row[at][what] for row in rows) for what in range(3)]
            told.append((*columns, *(statistics.median(row[at][what] / row[0][what] for row in rows) for what in range(2))))
        return told

    def made(self, graph, changes):
        """What `gen` makes of a graph with changes, in a file. The graph is a file, or the words of one that `gen` makes."""
        words = ["file", graph] if isinstance(graph, pathlib.Path) else list(graph)
        path = self.folder / ("-".join(map(str, [pathlib.Path(words[-1]).stem, *changes])) + ".txt")
        with path.open("wb") as file:
            subprocess.run([self.peers / "gen", *words, "--", *map(str, changes)], stdout=file, stderr=subprocess.DEVNULL, check=True)
        return path

    def stream(self, graph, batches, updates):
        """The graph with random updates, in a file."""
        return self.made(graph, ("random", batches, updates, 1))

    def small_batches(self, graph, count):
        """The graph with batches of one update, in a file. A process of its own writes it: else a run's peak would be no less than what that takes."""
        path = self.folder / f"{graph.stem}-{count}-ones.txt"
        writer = multiprocessing.Process(target=write_small_batches, args=(graph, count, path))
        writer.start()
        writer.join()
        return path

    def anew(self, peer, path):
        """Milliseconds in which a yardstick computes all anew, the mean of the batches and the median of the rounds."""
        told = [run([self.peers / peer, "summary"], path)[4] for _ in range(self.rounds)]
        return statistics.median(json.loads(line)["batches_ms"] for line in told) / ANEW

    def written(self, name, command, path=os.devnull):
        """The file of this name with what a command writes."""
        made = self.folder / name
        made.write_bytes(run(command, path)[3])
        return made


def static(series, graphs):
    """Core numbers of a graph at rest."""
    print("| Graph | `plain`, ms | `cores numbers` / `plain` | `kcore` / `plain` | `kcore` / igraph | Memory of `cores`, MB |")
    print("|---|---|---|---|---|---|")
    for graph in graphs:
        commands = [[series.peers / "peer_plain"], [series.cores, "numbers"], [series.kcore], [series.peers / "peer_igraph"]]
        plain, cores, kcore, igraph = series.turns(commands, graph, same=False)
        print(f"| {graph.stem} | {plain[0] * 1e3:.0f} | {cores[3]:.2f} | {kcore[3]:.2f} | {kcore[3] / igraph[3]:.2f} | {cores[2]:.0f} |", flush=True)


def threads(series, graphs):
    """Core numbers of a graph at rest that several threads read: the clock and the processor time, beside `plain`."""
    counts = ("1", "2", "4")
    print("| Graph | `plain`, ms by the clock | " + " | ".join(f"`--threads {count}`: clock, processor" for count in counts) + " |")
    print("|---|---|" + "---|" * len(counts))
    for graph in graphs:
        commands = [[series.peers / "peer_plain"], *([series.cores, "numbers", "--threads", count] for count in counts)]
        plain, *told = series.turns(commands, graph, same=False)
        cells = [f"{each[4]:.2f}, {each[3]:.2f}" for each in told]
        print(f"| {graph.stem} | {plain[1] * 1e3:.0f} | " + " | ".join(cells) + " |", flush=True)


def batches(series, graphs):
    """10,000 random updates in 100 batches, beside the same algorithm without proofs, and beside computing anew."""
    print("| Graph | `kcore`, s | `order`, s | `kcore` / `order` | An update, microseconds | That of `order` | All anew, a batch, ms: `plain`, igraph |")
    print("|---|---|---|---|---|---|---|")
    for graph in graphs:
        many, one, anew = series.stream(graph, 100, 100), series.stream(graph, 1, 1), series.stream(graph, ANEW, 1)
        commands = [[series.peers / "peer_order"], [series.kcore]]
        order, kcore = series.turns(commands, many)
        order_one, kcore_one = series.turns(commands, one)
        taken = [series.anew(peer, anew) for peer in ("peer_plain", "peer_igraph")]
        update, least = ((now[0] - before[0]) / 9_999 * 1e6 for now, before in ((kcore, kcore_one), (order, order_one)))
        print(f"| {graph.stem} | {kcore[0]:.2f} | {order[0]:.2f} | {kcore[3]:.1f} | {update:.1f} | {least:.2f} | {taken[0]:.0f}, {taken[1]:.0f} |", flush=True)


def large_batches(series, graphs):
    """One batch of a part of the edges, beside `plain`, which computes all anew."""
    print("| Graph | Updates in the batch, of the edges | `kcore` / `plain` |")
    print("|---|---|---|")
    for graph in graphs:
        edges = sum(1 for line in graph.open("rb") if line[:1] not in b"#%\n")
        for part in (100, 50, 20, 10):
            path = series.stream(graph, 1, max(1, edges // part))
            plain, kcore = series.turns([[series.peers / "peer_plain", "summary"], [series.kcore, "--show", "summary"]], path, same=False)
            print(f"| {graph.stem} | 1/{part} | {kcore[3]:.2f} |", flush=True)


def workers(series, graphs):
    """Several workers beside one: the clock, and processor time."""
    counts = (1, 2, 4, 8, 64)
    print("| Stream | " + " | ".join(f"{count} workers" for count in counts[1:]) + " |")
    print("|---|" + "---|" * (len(counts) - 1))
    for graph, size in graphs:
        path = series.stream(graph, 100, size)
        told = series.turns([[series.kcore, "--show", "summary", "--workers", str(count)] for count in counts], path)
        cells = [f"{each[4]:.2f} and {each[3]:.2f}" for each in told[1:]]
        print(f"| {graph.stem}, 100 batches of {size} | " + " | ".join(cells) + " |", flush=True)


def checks(series, graphs):
    """A certificate checked beside the core numbers computed, edges ascending."""
    print("| Graph, sorted | `numbers`, ms | `check` by order, by layers | With `--stream` | Memory: `numbers`, `check`, `--stream`, MB |")
    print("|---|---|---|---|---|")
    for graph in graphs:
        edges = series.folder / f"{graph.stem}.sorted.txt"
        # (the lesser id of each edge first, so that the lines ascend)
        order = "grep -v '^[#%]' \"$1\" | awk '$1 != $2 { print ($1 < $2 ? $1 \" \" $2 : $2 \" \" $1) }' | LC_ALL=C sort -n -u -k1,1 -k2,2 > \"$2\""
        subprocess.run(["sh", "-c", order, "sh", graph, edges], check=True)
        made = [series.written(f"{graph.stem}.{each}", [series.cores, each, edges]) for each in ("order", "layers")]
        commands = [[series.cores, "numbers", edges]]
        commands += [[series.cores, "check", *more, each, edges] for more in ((), ("--stream",)) for each in made]
        numbers, *told = series.turns(commands, os.devnull, same=False)
        ratios = [f"{each[3]:.2f}" for each in told]
        memory = ", ".join(f"{each[2]:.0f}" for each in (numbers, told[0], told[2]))
        print(f"| {graph.stem} | {numbers[0] * 1e3:.0f} | {ratios[0]}, {ratios[1]} | {ratios[2]}, {ratios[3]} | {memory} |", flush=True)


def tables(series, graphs):
    """The same graph read as a table, beside none of the options."""
    print("| Graph | `numbers`, ms | `--columns 1,2 --separator blank` | as CSV, `--separator comma` |")
    print("|---|---|---|---|")
    for graph in graphs:
        csv = series.folder / f"{graph.stem}.csv"
        subprocess.run(["sh", "-c", "grep -v '^[#%]' \"$1\" | tr ' \\t' ',,' > \"$2\"", "sh", graph, csv], check=True)
        options = [[graph], ["--columns", "1,2", "--separator", "blank", graph], ["--separator", "comma", csv]]
        none, blank, comma = series.turns([[series.cores, "numbers", *each] for each in options], os.devnull)
        print(f"| {graph.stem} | {none[0] * 1e3:.0f} | {blank[3]:.2f} | {comma[3]:.2f} |", flush=True)


def watched(series, graphs):
    """A stream that is answered, beside the batch tool on the same text, and beside `plain` where one batch has all edges."""
    words = ("`watch`, 100 batches of 100, beside `kcore --show summary`", "One batch with all edges, beside `plain`", "From line to line, microseconds")
    print(f"| Graph | {' | '.join(words)} |")
    print("|---|---|---|---|")
    for graph in graphs:
        many = series.stream(graph, 100, 100)
        kcore, watch = series.turns([[series.kcore, "--show", "summary"], [series.cores, "watch"]], many, same=False)
        edges = series.folder / f"{graph.stem}.one.txt"
        subprocess.run(["sh", "-c", "(echo batch; grep -v '^[#%]' \"$1\" | sed 's/^/+ /') > \"$2\"", "sh", graph, edges], check=True)
        plain, whole = series.turns([[series.peers / "peer_plain", "summary"], [series.cores, "watch"]], edges, same=False)
        with multiprocessing.Pool(1) as sender:  # (a process of its own has the real-time priority)
            median, most = sender.apply(answer_times, (series.cores, graph, ANSWERS))
        print(f"| {graph.stem} | {watch[3]:.2f} | {whole[3]:.2f} | {median:.0f}, at most {most:.0f} |", flush=True)


def streamed(series, streams):
    """A stream of large batches, beside `plain`, which computes all anew after each batch."""
    print("| Stream | `plain`, ms | `watch` / `plain` | Memory of `plain` and of `watch`, MB |")
    print("|---|---|---|---|")
    for path in streams:
        plain, watch = series.turns([[series.peers / "peer_plain", "summary"], [series.cores, "watch"]], path, same=False)
        print(f"| {path.stem} | {plain[0] * 1e3:.0f} | {watch[3]:.2f} | {plain[2]:.0f}, {watch[2]:.0f} |", flush=True)


def given_back(series, graphs):
    """Edges that go and come back, and updates that each move nearly all vertices, beside the same algorithm without proofs."""
    print("| Stream | `order`, s | `kcore`, s | `kcore` / `order` | The clock by 2 and by 4 workers, beside one |")
    print("|---|---|---|---|---|")
    rows = [(f"{graph.stem}, {told}", graph, ("takeback", batches, PART // batches, 1))
            for graph in graphs for told, batches in (("in batches of 1,000", PART // 1_000), ("as one batch", 1))]
    rows += [(f"`path 100000 -- {what} 64`", ("path", "100000"), (what, 64)) for what in ("flip", "cycle")]
    for told, graph, changes in rows:
        path = series.made(graph, changes)
        commands = [[series.peers / "peer_order"], *([series.kcore, "--workers", count] for count in "124")]
        order, one, *more = series.turns(commands, path)
        clocks = ", ".join(f"{each[1] / one[1]:.2f}" for each in more)
        print(f"| {told} | {order[0]:.2f} | {one[0]:.2f} | {one[3]:.1f} | {clocks} |", flush=True)


def small_batches(series, graphs):
    """A stream of batches of one update: what a batch takes, and whether the memory grows with them."""
    counts = (10_000, 100_000, 1_000_000)
    print("| Graph | A batch, microseconds | " + " | ".join(f"{count:,} batches, s and MB" for count in counts) + " |")
    print("|---|---|" + "---|" * len(counts))
    for graph in graphs:
        told = [series.turns([[series.cores, "watch"]], series.small_batches(graph, count))[0] for count in counts]
        batch = (told[-1][0] - told[0][0]) / (counts[-1] - counts[0]) * 1e6
        print(f"| {graph.stem} | {batch:.1f} | " + " | ".join(f"{each[0]:.2f}, {each[2]:.1f}" for each in told) + " |", flush=True)


def main():
    words = argparse.ArgumentParser(description=__doc__, formatter_class=argparse.RawDescriptionHelpFormatter)
    words.add_argument("--kcore", required=True)
    words.add_argument("--cores", required=True)
    words.add_argument("--peers", required=True)
    words.add_argument("--rounds", type=int, default=5)
    words.add_argument("--only", type=lambda names: names.split(","), default=[])
    words.add_argument("--stream", action="append", type=pathlib.Path, default=[])
    words.add_argument("graphs", nargs="*", type=pathlib.Path)
    chosen = words.parse_args()
    series, graphs = Series(chosen), chosen.graphs
    small = [graph for graph in graphs if graph.stat().st_size < LARGE]
    real = [graph for graph in small if "star" not in graph.stem]
    mixed = [graph for graph in graphs if not graph.stem.startswith(("star", "ba-"))]
    parts = {
        "rest": ("Core numbers of a graph at rest", static, graphs),
        "threads": ("Core numbers of a graph at rest by several threads, beside `plain`", threads, graphs),
        "updates": ("10,000 random updates in 100 batches", batches, [graph for graph in graphs if not graph.stem.startswith(("star", "er-"))]),
        "large": ("One large batch", large_batches, real),
        "back": ("Edges that go and come back", given_back, [graph for graph in graphs if graph.stem.endswith("-18")]),
        "workers": ("Several workers, the clock and the processor time beside one worker", workers,
                    [(graph, 100 if graph in small else 1000) for graph in mixed]),
        "check": ("A certificate that is checked, beside `cores numbers`", checks, mixed),
        "tables": ("Tables beside plain edge lists", tables, mixed),
        "watch": ("A stream that is answered", watched, real),
        "ones": ("A stream of batches of one update", small_batches, real),
        "stream": ("A stream of large batches", streamed, chosen.stream),
    }
    for name, (title, make, these) in parts.items():
        if not chosen.only or name in chosen.only:
            print(f"\n{title}:\n", flush=True)
            make(series, these)


main()
