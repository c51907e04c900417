#!/usr/bin/env python3
"""Makes a real stream of large batches: the graph of the files that one of the last commits changed together.

    git log --stat=1000 | python3 bench/cochange.py > stream.txt
    zcat changelog.gz | python3 bench/cochange.py > stream.txt

It reads what `git log --stat` writes, and makes a stream for `kcore` and `cores watch` of it. Some Debian packages have such a text as
their changelog: that of libharfbuzz0b stands in the package's folder of documents.
Two files are joined while a commit that changed both is among the last --window of them (200), so edges also go away. A batch has what
--group commits (4) changed of it, and the graph is empty at first. Commits of more than --most files (400) are left out. On standard error
it tells how many batches, updates and files there are, and the most edges at the end of a batch.
"""
import argparse
import collections
import itertools
import re
import sys

CHANGED = re.compile(r" (\S.*?) +\| +(?:\d|Bin)")


def commits_of(log):
    """The files of each commit, the first commit first."""
    commits = []
    for line in log:
        if line.startswith("commit "):
            commits.append([])
        elif commits and (found := CHANGED.match(line)):
            commits[-1].append(found[1])
    return reversed(commits)


def pairs_of(commits, most):
    """The pairs of files that each commit joins, by numbers in the order of their coming; of those commits that join some and not too many."""
    ids = {}
    for files in commits:
        if 1 < len(set(files)) <= most:
            numbers = sorted({ids.setdefault(name, len(ids)) for name in files})
            yield list(itertools.combinations(numbers, 2))


class Window:
    """The pairs that the last commits join, and how many of these commits join each."""

    def __init__(self, size):
        self.size = size
        self.commits = collections.deque()
        self.counts = collections.Counter()

    def take(self, commits):
        """Takes further commits, and gives each pair that is joined now and was not before, or the other way round."""
        before = {}
        for pairs in commits:
            self.commits.append(pairs)
            self.count(pairs, 1, before)
            if len(self.commits) > self.size:
                self.count(self.commits.popleft(), -1, before)
        after = {pair: pair in self.counts for pair in before}
        return [(pair, joined) for pair, joined in after.items() if joined != before[pair]]

    def count(self, pairs, more, before):
        """Counts pairs once more or once less, and keeps which were joined before."""
        for pair in pairs:
            before.setdefault(pair, pair in self.counts)
            self.counts[pair] += more
            if not self.counts[pair]:
                del self.counts[pair]


def main():
    options = argparse.ArgumentParser(description=__doc__, formatter_class=argparse.RawDescriptionHelpFormatter)
    options.add_argument("--window", type=int, default=200)
    options.add_argument("--group", type=int, default=4)
    options.add_argument("--most", type=int, default=400)
    wanted = options.parse_args()
    window = Window(wanted.window)
    rest = pairs_of(commits_of(sys.stdin), wanted.most)
    batches = updates = most_edges = 0
    files = set()
    while group := list(itertools.islice(rest, wanted.group)):
        changes = window.take(group)
        print("batch")
        sys.stdout.writelines(f"{'+' if joined else '-'} {a} {b}\n" for (a, b), joined in changes)
        batches += 1
        updates += len(changes)
        most_edges = max(most_edges, len(window.counts))
        files.update(itertools.chain.from_iterable(pair for pair, _ in changes))
    print(f"batches {batches} updates {updates} files {len(files)} most edges {most_edges}", file=sys.stderr)


if __name__ == "__main__":
    main()
