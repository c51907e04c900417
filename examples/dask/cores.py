"""Core numbers on Dask's distributed scheduler, with a proved verdict: sh examples/dask/run.sh [--spoil] [..]

The edges come in chunks, as an engine has them. Each is dealt out in both directions by ranges of vertices, so that a worker gets shards:
rows with the neighbours of the vertices of a range. The workers make rounds of h-indices on the shards until one changes no number. The
rank of a vertex is the last round that changed its number. By numbers and ranks the workers tally the edges of their shards, each edge at
its lesser end. The tallies are merged, and one verdict tells whether the numbers are the core numbers of all edges that were tallied.
"""

import argparse
import operator
import os
import time

import kcore
import numpy
import shards as work
from distributed import Client, LocalCluster


def submit_chunks(client, options):
    """The chunks of the edges, each on some worker."""
    pieces = options.pieces
    if options.edges_file is None:
        cuts = [options.edges * k // pieces for k in range(pieces + 1)]
        return [client.submit(work.chunk_by_seed, options.seed + k, cuts[k + 1] - cuts[k], options.scale) for k in range(pieces)]
    size = os.stat(options.edges_file).st_size
    cuts = [size * k // pieces for k in range(pieces + 1)]
    return [client.submit(work.chunk_of_file, os.path.abspath(options.edges_file), *cut) for cut in zip(cuts, cuts[1:])]


def submit_shards(client, chunks, pieces):
    """The shards, each on some worker."""
    vertices = client.submit(work.size_of, *chunks)
    cuts_there = client.submit(work.cuts_of, pieces, *[client.submit(work.ends_at, chunk, vertices) for chunk in chunks])
    cuts = cuts_there.result()
    dealt = [client.submit(work.dealt, chunk, cuts_there) for chunk in chunks]
    shards = []
    for k in range(pieces):
        parts = [client.submit(operator.getitem, lists, k) for lists in dealt]
        shards.append(client.submit(work.shard_of, cuts[k], cuts[k + 1], *parts))
    return shards


def settle(client, shards):
    """Rounds until one changes nothing: the numbers, the ranks, and how many rounds there were."""
    parts = [client.submit(work.first_part, shard) for shard in shards]
    numbers, rounds = client.submit(work.joined, "numbers", *parts), 0
    while True:
        rounds += 1
        parts = [client.submit(work.next_part, shard, part, numbers, rounds) for shard, part in zip(shards, parts)]
        if client.submit(work.changed_in, *parts).result() == 0:
            return numbers, client.submit(work.joined, "ranks", *parts), rounds
        numbers = client.submit(work.joined, "numbers", *parts)


def judge(client, shards, core, ranks):
    """The verdict on the tallies of all shards, which are merged two by two."""
    certificates = [client.submit(work.tallied, core, ranks, shard) for shard in shards]
    while len(certificates) > 1:
        pairs = [certificates[place : place + 2] for place in range(0, len(certificates), 2)]
        certificates = [client.submit(work.merged, core, ranks, *pair) for pair in pairs]
    return client.submit(work.verdict_of, certificates[0]).result()


def compare(client, chunks, core):
    """Whether the numbers are those of one call on all edges, which the client brings together for it."""
    numbers = core.result()
    edges = numpy.concatenate(client.gather(chunks))
    print("the same as kcore.core_numbers:", "yes" if (kcore.core_numbers(edges, len(numbers)) == numbers).all() else "no")


def run(client, options):
    """All steps, with the time at the end of each. Returns the verdict."""
    client.upload_file(work.__file__)
    begun = time.monotonic()

    def told(what):
        print(f"{time.monotonic() - begun:7.2f} s  {what}", flush=True)

    chunks = submit_chunks(client, options)
    shards = submit_shards(client, chunks, options.pieces)
    vertices, entries = map(sum, zip(*client.gather([client.submit(work.sizes, shard) for shard in shards])))
    told(f"{vertices} vertices and {entries // 2} edges, dealt out into {options.pieces} shards")
    core, ranks, rounds = settle(client, shards)
    told(f"{rounds} rounds of h-indices, the last of which changed no number")
    if options.spoil:
        core = client.submit(work.spoiled, core, vertices // 2)
        told(f"the number of vertex {vertices // 2} is raised by one on the way")
    verdict = judge(client, shards, core, ranks)
    top, having = client.submit(work.summary, core).result()
    told(f"top core number {top}, which {having} vertices have")
    told(f"verdict: {'yes, these are the core numbers' if verdict else 'no'}")
    if options.compare:
        compare(client, chunks, core)
    return verdict


def options_of(words=None):
    parser = argparse.ArgumentParser(description="Core numbers on Dask's distributed scheduler, with a proved verdict.")
    parser.add_argument("edges_file", nargs="?", help="a text file of lines `u v`, which each worker can read; else a graph is made")
    parser.add_argument("--edges", type=int, default=300_000, help="how many edges to draw (default 300000)")
    parser.add_argument("--scale", type=int, default=16, help="of 2 ** SCALE vertices (default 16)")
    parser.add_argument("--seed", type=int, default=1, help="by this seed (default 1)")
    parser.add_argument("--scheduler", help="the address of a cluster that runs, as tcp://host:8786; else one is started here")
    parser.add_argument("--processes", type=int, default=4, help="how many processes the cluster here has (default 4)")
    parser.add_argument("--pieces", type=int, default=8, help="how many chunks and shards there are (default 8)")
    parser.add_argument("--spoil", action="store_true", help="change one number on the way: the verdict has to be no")
    parser.add_argument("--compare", action="store_true", help="compare the numbers with one call of kcore.core_numbers")
    return parser.parse_args(words)


def main():
    options = options_of()
    if options.scheduler:
        with Client(options.scheduler) as client:
            return run(client, options)
    with LocalCluster(n_workers=options.processes, threads_per_worker=1, processes=True, dashboard_address=None) as cluster:
        with Client(cluster) as client:
            return run(client, options)


if __name__ == "__main__":
    raise SystemExit(0 if main() else 1)
