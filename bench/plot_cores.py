#!/usr/bin/env python3
"""Draws the pictures of the README by kcore.plot.

    dist/library.sh && PYTHONPATH=python python3 bench/plot_cores.py graphs/karate.txt bench/data/email-Enron.txt

figures/cores.svg has the shells of a small graph as rings, and the sizes of the k-cores of a large one. figures/shells.png has the shells of
the large one as rings, and its core numbers against degrees. It needs NumPy and matplotlib, and the library that dist/library.sh unpacks.
"""
import io
import pathlib
import sys

import matplotlib

matplotlib.use("svg")
import numpy
from matplotlib import pyplot
from PIL import Image

import kcore.plot

FOLDER = pathlib.Path(__file__).resolve().parent / "figures"
COLOURS = 128  # of the picture in pixels, which has some 70 kB so


def edges_of(path):
    return numpy.loadtxt(path, dtype=numpy.uint32, comments=("#", "%"))


def drawn(left, right):
    """A figure with two pictures, each of a call, its edges and its title."""
    figure, axes = pyplot.subplots(1, 2, figsize=(9.5, 4.2), layout="constrained")
    for ax, (draw, edges, title) in zip(axes, (left, right)):
        draw(edges, ax=ax).set_title(title)
    return figure


def save_lines(figure, place):
    figure.savefig(place, metadata={"Date": None})
    place.write_text("".join(f"{line.rstrip()}\n" for line in place.read_text(encoding="utf-8").splitlines()), encoding="utf-8")


def save_pixels(figure, place):
    room = io.BytesIO()
    figure.savefig(room, format="png", dpi=100, metadata={"Software": None})
    Image.open(room).convert("RGB").quantize(COLOURS, dither=Image.Dither.NONE).save(place, optimize=True)


def main(small, large):
    matplotlib.rcParams.update({"svg.hashsalt": "kcore", "svg.fonttype": "none", "font.size": 10})
    few, many = edges_of(small), edges_of(large)
    few_title, title = pathlib.Path(small).stem, pathlib.Path(large).stem
    save_lines(drawn((kcore.plot.rings, few, few_title), (kcore.plot.sizes, many, title)), FOLDER / "cores.svg")
    save_pixels(drawn((kcore.plot.rings, many, title), (kcore.plot.degrees, many, title)), FOLDER / "shells.png")


if __name__ == "__main__":
    if len(sys.argv) != 3:
        sys.exit(__doc__)
    main(*sys.argv[1:])
