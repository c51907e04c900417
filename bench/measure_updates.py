#!/usr/bin/env python3
"""Measures what an update takes beside computing all core numbers anew, and writes a table as figures/updates.csv is.

    python3 bench/measure_updates.py --kcore PROGRAM --peers bench/build GRAPH... > FILE.csv

GRAPH are edge lists without batches; DIR of --peers holds `gen` and `peer_plain`. An update is one of 10,000 random ones in 100
batches: the processor time of the run, less that of a run with a single update, which opens the journal too. What `plain` takes
to compute anew is its own clock over 20 batches of one update. Each is the least of some runs. On a busy machine begin with
`chrt -f 1`.
"""
import argparse
import json
import pathlib
import resource
import subprocess
import sys
import tempfile

BATCHES, UPDATES = 100, 100
ANEW = 20


def processor_time():
    use = resource.getrusage(resource.RUSAGE_CHILDREN)
    return use.ru_utime + use.ru_stime


def run(command, path):
    """The processor time of a run on a file, in seconds, and what stands on standard error."""
    before = processor_time()
    with path.open("rb") as file:
        done = subprocess.run(command, stdin=file, stdout=subprocess.DEVNULL, stderr=subprocess.PIPE, check=True)
    return processor_time() - before, done.stderr.decode()


def stream(gen, graph, batches, updates, folder):
    """The graph with random updates, in a file."""
    path = folder / f"{batches}_{updates}.txt"
    with path.open("wb") as file:
        words = [gen, "file", graph, "--", "random", str(batches), str(updates), "1"]
        subprocess.run(words, stdout=file, stderr=subprocess.DEVNULL, check=True)
    return path


def figures(kcore, peers, graph, runs):
    """Microseconds of `plain` to compute anew, and of an update."""
    with tempfile.TemporaryDirectory() as name:
        folder = pathlib.Path(name)
        many = stream(peers / "gen", graph, BATCHES, UPDATES, folder)
        one = stream(peers / "gen", graph, 1, 1, folder)
        anew = stream(peers / "gen", graph, ANEW, 1, folder)
        summary = [kcore, "--show", "summary"]
        least = [min(run(summary, path)[0] for _ in range(runs)) for path in (many, one)]
        times = [json.loads(run([peers / "peer_plain", "summary"], anew)[1].splitlines()[-1]) for _ in range(runs)]
    update = (least[0] - least[1]) / (BATCHES * UPDATES - 1) * 1e6
    return min(each["batches_ms"] for each in times) / ANEW * 1e3, update


def main():
    parser = argparse.ArgumentParser(description=__doc__, formatter_class=argparse.RawDescriptionHelpFormatter)
    parser.add_argument("--kcore", required=True, type=pathlib.Path)
    parser.add_argument("--peers", required=True, type=pathlib.Path)
    parser.add_argument("--runs", type=int, default=3)
    parser.add_argument("graphs", nargs="+", type=pathlib.Path)
    words = parser.parse_args()
    print("graph,anew_us,update_us")
    for graph in words.graphs:
        anew, update = figures(words.kcore, words.peers, graph, words.runs)
        print(f"{graph.stem},{anew:.0f},{update:.1f}", flush=True)
    return 0


if __name__ == "__main__":
    sys.exit(main())
