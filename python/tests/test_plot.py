"""Each picture is drawn, and what it shows is compared with the core numbers. Skipped where matplotlib is not installed."""

import builtins
import unittest
from datetime import datetime, timedelta, timezone
from unittest import mock

import kcore

from .test_forms import NAMED
from .test_kcore import TAILED, edges_of, numpy

try:
    import matplotlib

    matplotlib.use("Agg")
    from matplotlib import pyplot
    from matplotlib.text import Text
except ImportError:
    raise unittest.SkipTest("matplotlib is not installed") from None


class Pictures(unittest.TestCase):
    def tearDown(self):
        pyplot.close("all")

    def test_sizes(self):
        ax = kcore.plot.sizes(TAILED)
        self.assertEqual([bar.get_height() for bar in ax.patches], [1, 1, 3])
        self.assertEqual(ax.lines[0].get_ydata().tolist(), [5, 4, 3, 3])
        self.assertEqual(ax.lines[0].get_xdata().tolist(), [-0.5, 0.5, 1.5, 2.5])
        self.assertEqual(ax.get_yscale(), "log")

    def test_degrees(self):
        ax = kcore.plot.degrees(NAMED, marked=1)
        points, marks = ax.collections
        self.assertEqual(sorted(points.get_offsets().tolist()), [[1, 1], [2, 2], [2, 2], [3, 2]])
        self.assertEqual(len(marks.get_offsets()), 1)
        self.assertEqual([text.get_text() for text in ax.texts], ["eve"])

    def test_names_stand_apart(self):
        # Ten stars of which each centre hangs on a clique lie close together, and are farthest off.
        clique = [(f"m{u}", f"m{v}") for u in range(12) for v in range(u)]
        stars = [(f"centre {c}", f"leaf {c} {v}") for c in range(10) for v in range(40 + c)] + [(f"centre {c}", "m0") for c in range(10)]
        ax = kcore.plot.degrees(clique + stars)
        ax.figure.canvas.draw()
        boxes = [Text.get_window_extent(text) for text in ax.texts]
        self.assertEqual(len(boxes), 10)
        self.assertFalse([1 for place, box in enumerate(boxes) for other in boxes[:place] if box.overlaps(other)])
        self.assertTrue(all(ax.patch.get_window_extent().contains(*corner) for box in boxes for corner in (box.min, box.max)))

    def test_names_are_shown_as_they_are(self):
        (text,) = kcore.plot.degrees([("$x_1$", v) for v in range(9)] + [("$x_1$", "$\\no$")], marked=1).texts
        self.assertEqual(text.get_text(), "$x_1$")
        text.figure.canvas.draw()
        (text,) = kcore.plot.degrees([("a" * 40, v) for v in range(9)], marked=1).texts
        self.assertEqual(len(text.get_text()), 24)

    def test_rings(self):
        edges = edges_of("karate")
        core = kcore.core_numbers(edges)
        ax = kcore.plot.rings(edges)
        lines, dots = ax.collections
        self.assertEqual(len(lines.get_segments()), len({frozenset(edge) for edge in edges}))
        distances = numpy.hypot(*dots.get_offsets().T)
        shells = dots.get_array()
        self.assertEqual(sorted(shells.tolist()), sorted(core))
        self.assertLess(distances[shells == 4].max(), distances[shells == 1].min())

    def test_onion(self):
        edges = edges_of("karate")
        layers, core = kcore.onion_layers(edges), kcore.core_numbers(edges)
        ax = kcore.plot.onion(edges)
        (dots,) = ax.collections
        wanted = {layer: (layers.count(layer), number) for layer, number in zip(layers, core)}
        found = {int(x): (int(y), int(k)) for (x, y), k in zip(dots.get_offsets(), dots.get_array())}
        self.assertEqual(found, wanted)

    def test_changes(self):
        rows = [("ann", "bob", 0), ("bob", "cat", 1), ("cat", "ann", 2), ("ann", "dan", 3)]
        results = list(kcore.Cores(names=True).replay(kcore.batches(rows, every=1, window=3), core_numbers=True))
        above, below = kcore.plot.changes(results)
        rose, fell = (line.get_ydata().tolist() for line in below.lines[:2])
        self.assertEqual((rose, fell), ([2, 1, 3, 1, 1], [0, 0, 0, -3, -3]))
        beside = next(ax for ax in above.figure.axes if ax not in (above, below))
        self.assertEqual([text.get_text() for text in beside.get_legend().get_texts()], ["1-core", "2-core"])
        self.assertEqual(beside.lines[0].get_ydata().tolist(), [1, 1, 2, 1, 1])
        self.assertEqual(beside.lines[0].get_xdata().tolist(), [0, 1, 2, 3, 4])
        _, axes = pyplot.subplots(2)
        self.assertEqual(kcore.plot.changes(results, axes=axes), tuple(axes))
        kcore.plot.changes([])[0].figure.canvas.draw()
        with self.assertRaisesRegex(ValueError, "core_numbers=True"):
            kcore.plot.changes(kcore.Cores(names=True).replay(kcore.batches(rows, every=1)))

    def test_times_are_told_in_full_or_as_dates(self):
        begin = 1_082_040_961
        rows = [("ann", "bob", begin), ("bob", "cat", begin + 5 * 86400), ("cat", "ann", begin + 90 * 86400)]
        dated = [(u, v, datetime.fromtimestamp(time, timezone.utc)) for u, v, time in rows]
        for listed, every, wanted in ((rows, 864000, r"\d{10}"), (dated, timedelta(days=10), r"[A-Z][a-z]{2}|\d{2}|2004")):
            results = kcore.Cores(names=True).replay(kcore.batches(listed, every=every), core_numbers=True)
            below = kcore.plot.changes(results)[1]
            below.figure.canvas.draw()
            for label in below.get_xticklabels():
                self.assertRegex(label.get_text(), f"^({wanted})$")

    def test_axes_that_are_given_and_other_forms(self):
        for draw in [kcore.plot.sizes, kcore.plot.degrees, kcore.plot.onion, kcore.plot.rings]:
            _, ax = pyplot.subplots()
            self.assertIs(draw(numpy.array(TAILED), ax=ax, vertices=9), ax)
            draw([(5, 10**12)], return_ids=True).figure.canvas.draw()
            draw([], vertices=3).figure.canvas.draw()
            draw([]).figure.canvas.draw()
            with self.assertRaisesRegex(TypeError, "axis does not go with"):
                draw(NAMED, axis=0)

    def test_without_matplotlib(self):
        real = builtins.__import__

        def absent(name, *rest):
            if name.startswith("matplotlib"):
                raise ImportError("none")
            return real(name, *rest)

        for draw in [kcore.plot.sizes, kcore.plot.degrees, kcore.plot.onion, kcore.plot.rings, lambda _: kcore.plot.changes([])]:
            with mock.patch.object(builtins, "__import__", absent), self.assertRaisesRegex(ImportError, "pictures need matplotlib"):
                draw(TAILED)

    def test_an_attribute_that_is_not_there(self):
        self.assertIn("plot", dir(kcore))
        with self.assertRaisesRegex(AttributeError, "no attribute 'plots'"):
            kcore.plots


if __name__ == "__main__":
    unittest.main()
