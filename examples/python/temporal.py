"""From a temporal file to a page and pictures: PYTHONPATH=python python3 examples/python/temporal.py FILE FOLDER [EVERY [WINDOW]] [--unix]

Each line of the file is `u v time`, as SNAP has its temporal graphs. FOLDER gets report.html, and where matplotlib is installed sizes.svg,
degrees.svg, onion.svg and rings.svg of the graph after the last batch, and changes.svg of all batches. EVERY is the length of an interval of
time, WINDOW how long an edge stays after its last mention; by default there are twelve intervals, and edges stay for good. With --unix times
and lengths are seconds, and times are told as dates of UTC. It needs NumPy, and in a checkout `dist/library.sh` first; where kcore is installed
PYTHONPATH is left out.
"""

import argparse
from datetime import datetime, timedelta, timezone
from pathlib import Path

import kcore


def rows_of(path):
    """The rows of the file: both ends as integers, and the time as a number."""
    with open(path, encoding="utf-8") as lines:
        fields = [line.split()[:3] for line in lines if line.strip() and line[0] not in "#%"]
    return [(int(u), int(v), float(time)) for u, v, time in fields]


def date_of(time):
    return datetime.fromtimestamp(time, timezone.utc).replace(tzinfo=None)


def told(time):
    """A time as it is printed: a number in full, and a date to the minute."""
    return f"{time:%Y-%m-%d %H:%M}" if isinstance(time, datetime) else f"{time:.12g}"


def follow(cores, batches):
    """Applies the batches, and prints a line for each: what came and went, and who rose farthest. Returns their results."""
    results = []
    for batch, result in zip(batches, cores.replay(batches, core_numbers=True)):
        results.append(result)
        rises = {name: after - (before or 0) for name, (before, after) in result.changes.items()}
        first = max(rises, key=rises.get, default=None)
        rose = f"{first} to {cores[first]}" if first is not None and rises[first] > 0 else "nobody"
        came = f"+{len(batch.insert)} -{len(batch.remove)} top {cores.degeneracy}"
        print(f"{told(result.begin)} to {told(result.end)}: {came} rose farthest: {rose}")
    return results


def draw(edges, results, folder):
    """Draws the graph, and how it came to be, where matplotlib is installed."""
    try:
        import matplotlib
    except ImportError:
        print("no pictures, since matplotlib is not installed")
        return
    matplotlib.use("Agg")
    pictures = (kcore.plot.sizes, kcore.plot.degrees, kcore.plot.onion, kcore.plot.rings)
    figures = {picture.__name__: picture(edges, return_ids=True).figure for picture in pictures}
    figures["changes"] = kcore.plot.changes(results)[0].figure
    for name, figure in figures.items():
        figure.savefig(folder / f"{name}.svg")
        matplotlib.pyplot.close(figure)


def main():
    words = argparse.ArgumentParser(description=__doc__, formatter_class=argparse.RawDescriptionHelpFormatter)
    words.add_argument("file", metavar="FILE", type=Path)
    words.add_argument("folder", metavar="FOLDER", type=Path)
    words.add_argument("every", metavar="EVERY", type=float, nargs="?")
    words.add_argument("window", metavar="WINDOW", type=float, nargs="?")
    words.add_argument("--unix", action="store_true")
    asked = words.parse_args()
    rows = rows_of(asked.file)
    times = [time for _, _, time in rows]
    # A little more than a twelfth of the span, so that the last row lies in the twelfth interval.
    every, window = asked.every or (max(times) - min(times)) / 11.99 or 1, asked.window
    if asked.unix:
        rows = [(u, v, date_of(time)) for u, v, time in rows]
        every, window = timedelta(seconds=every), timedelta(seconds=window) if window else None
    batches = list(kcore.batches(rows, every, window))
    cores = kcore.Cores(names=True)
    results = follow(cores, batches)
    print(f"the numbers are certified: {cores.check()}")
    asked.folder.mkdir(parents=True, exist_ok=True)
    (asked.folder / "report.html").write_text(kcore.report((), batches, asked.file.name), encoding="utf-8")
    draw(cores.to_edges(), results, asked.folder)


if __name__ == "__main__":
    main()
