#!/usr/bin/env python3
"""Draws the figures of bench/figures as SVG files beside them.

    python3 bench/plot.py

`updates.csv` has what an update takes beside computing all anew, in microseconds; `bench/measure_updates.py` makes such a table.
`workers.csv` has what 100 batches of 1,000 updates took by some workers, in times of what one worker took, by `bench_journal batches`: the
median, and the least and the most that the series gave.
"""
import csv
import math
import pathlib
import sys

FIGURES = pathlib.Path(__file__).resolve().parent / "figures"
WIDTH, LEFT, TOP, ROW = 760, 130, 92, 36
INK, FAINT, BLUE, ORANGE = "#222222", "#d8d8d8", "#0b61a4", "#d9730d"


def rows_of(name):
    with (FIGURES / name).open(encoding="utf-8") as file:
        return list(csv.DictReader(file))


class Picture:
    """An SVG picture whose x axis goes from one value to another."""

    def __init__(self, title, note, rows, right, scale):
        height = TOP + ROW * rows + 62
        self.low, self.high, self.of = scale
        self.right = WIDTH - right
        self.bottom = height - 58
        self.parts = [
            f'<svg xmlns="http://www.w3.org/2000/svg" viewBox="0 0 {WIDTH} {height}" width="{WIDTH}" height="{height}" '
            'font-family="DejaVu Sans, Verdana, sans-serif" font-size="13">',
            f'<rect width="{WIDTH}" height="{height}" fill="#ffffff"/>',
        ]
        self.text(20, 30, title, size=17, weight="bold")
        self.text(20, height - 14, note, size=11)

    def place(self, value):
        share = (self.of(value) - self.of(self.low)) / (self.of(self.high) - self.of(self.low))
        return LEFT + share * (self.right - LEFT)

    def text(self, x, y, words, size=13, anchor="start", fill=INK, weight="normal"):
        self.parts.append(
            f'<text x="{x:.1f}" y="{y:.1f}" font-size="{size}" text-anchor="{anchor}" fill="{fill}" font-weight="{weight}" '
            f'stroke="#ffffff" stroke-width="6" stroke-linejoin="round" paint-order="stroke">{words}</text>'
        )

    def line(self, x1, y1, x2, y2, stroke, width=1.0):
        self.parts.append(f'<line x1="{x1:.1f}" y1="{y1:.1f}" x2="{x2:.1f}" y2="{y2:.1f}" stroke="{stroke}" stroke-width="{width}"/>')

    def dot(self, x, y, fill):
        self.parts.append(f'<circle cx="{x:.1f}" cy="{y:.1f}" r="6" fill="{fill}"/>')

    def key(self, x, fill, words):
        self.dot(x, 56, fill)
        self.text(x + 12, 60.5, words)

    def axis(self, ticks):
        for value, words in ticks:
            self.line(self.place(value), TOP - 12, self.place(value), self.bottom, FAINT)
            self.text(self.place(value), self.bottom + 18, words, size=12, anchor="middle")

    def save(self, name):
        (FIGURES / name).write_text("\n".join(self.parts) + "\n</svg>\n", encoding="utf-8")


def time_text(us):
    unit, each = next((unit, each) for unit, each in (("s", 1e6), ("ms", 1e3), ("µs", 1)) if us >= each)
    return f"{float(f'{us / each:.2g}'):g} {unit}"


def ratio_text(ratio):
    digits = max(0, len(f"{ratio:.0f}") - 2)
    return f"{round(ratio, -digits):,.0f} times"


def draw_updates():
    rows = rows_of("updates.csv")
    picture = Picture(
        "One update, and computing all anew",
        "An update: its share of a run with batches. Anew: buckets on flat arrays in C++, after one update. Processor time.",
        len(rows),
        110,
        (1, 1e6, math.log10),
    )
    picture.key(LEFT, BLUE, "an update (kcore)")
    picture.key(LEFT + 190, ORANGE, "all anew (plain)")
    picture.axis([(10**power, time_text(10**power)) for power in range(7)])
    for number, row in enumerate(rows):
        y = TOP + ROW * number + 10
        update, anew = float(row["update_us"]), float(row["anew_us"])
        picture.line(picture.place(update), y, picture.place(anew), y, "#9a9a9a", 2)
        picture.dot(picture.place(update), y, BLUE)
        picture.dot(picture.place(anew), y, ORANGE)
        picture.text(LEFT - 14, y + 4.5, row["graph"], anchor="end")
        picture.text(picture.place(update) - 12, y + 4.5, time_text(update), size=12, anchor="end", fill=BLUE)
        picture.text(picture.place(anew) + 12, y + 4.5, time_text(anew), size=12, fill=ORANGE)
        picture.text(WIDTH - 20, y + 4.5, ratio_text(anew / update), anchor="end")
    picture.save("updates.svg")


def draw_workers():
    rows = rows_of("workers.csv")
    tenths = range(math.floor(10 * min(float(row["least"]) for row in rows)), math.ceil(10 * max(1, *(float(row["most"]) for row in rows))) + 1)
    picture = Picture(
        "A batch by two and by four workers, beside one",
        "100 batches of 1,000 updates, where one worker takes 1. Less is faster. Dot: the median. Line: from the least to the most.",
        len(rows),
        170,
        (tenths[0] / 10, tenths[-1] / 10, float),
    )
    picture.key(LEFT, BLUE, "two workers")
    picture.key(LEFT + 150, ORANGE, "four workers")
    picture.text(WIDTH - 20, 60.5, "median (least, most)", size=12, anchor="end")
    picture.axis([(tenth / 10, f"{tenth / 10:.1f}") for tenth in tenths])
    picture.line(picture.place(1), TOP - 12, picture.place(1), picture.bottom, INK, 1.5)
    for number, row in enumerate(rows):
        y = TOP + ROW * number + 10
        fill = BLUE if row["workers"] == "2" else ORANGE
        median, least, most = (float(row[name]) for name in ("median", "least", "most"))
        picture.line(picture.place(least), y, picture.place(most), y, fill, 3)
        picture.dot(picture.place(median), y, fill)
        picture.text(WIDTH - 20, y + 4.5, f"{median:.2f} ({least:.2f}, {most:.2f})", size=12, anchor="end", fill=fill)
        if number % 2 == 0:
            picture.text(LEFT - 14, y + ROW / 2 + 4.5, row["graph"], anchor="end")
    picture.save("workers.svg")


def main():
    draw_updates()
    draw_workers()
    return 0


if __name__ == "__main__":
    sys.exit(main())
