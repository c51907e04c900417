"""Batches of edges with times, beside their definition, and core numbers that follow them, beside networkx."""

import doctest
import math
import random
import unittest
from datetime import datetime, timedelta, timezone
from fractions import Fraction

import kcore
from kcore import _cores, _temporal

try:
    import networkx
except ImportError:
    networkx = None
try:
    import numpy
except ImportError:
    numpy = None
try:
    import pandas
except ImportError:
    pandas = None

FIRST = datetime(2020, 1, 1)
ROWS = [("ann", "bob", 0), ("bob", "cat", 4), ("cat", "ann", 11), ("bob", "ann", 12)]


def told(table, *words, **named):
    return [tuple(batch) for batch in kcore.batches(table, *words, **named)]


def there(rows, end, window):
    """The edges that are there at the end of an interval, by the definition."""
    return {frozenset((u, v)) for u, v, time in rows if u != v and time < end and (window is None or time >= end - window)}


class BatchesTest(unittest.TestCase):
    def test_examples(self):
        for module in (_temporal, _cores):
            self.assertEqual(doctest.testmod(module, verbose=False).failed, 0)

    def test_intervals_are_half_open(self):
        rows = [(0, 1, 0), (1, 2, 9), (2, 3, 10), (3, 4, 20)]
        self.assertEqual(told(rows, 10), [(0, 10, [(0, 1), (1, 2)], []), (10, 20, [(2, 3)], []), (20, 30, [(3, 4)], [])])

    def test_a_window_is_half_open(self):
        rows = [(0, 1, 0), (1, 2, 1), (8, 9, 29)]
        # At 20 the window of 20 holds the times from 0 on, and at 30 those from 10 on.
        self.assertEqual([batch[3] for batch in told(rows, 10, 20)], [[], [], [(0, 1), (1, 2)]])
        self.assertEqual([batch[3] for batch in told(rows, 10, 19)], [[], [(0, 1)], [(1, 2)]])

    def test_an_edge_that_is_mentioned_again_stays(self):
        rows = [(0, 1, 0), (1, 0, 9), (0, 1, 18), (8, 9, 39)]
        self.assertEqual(told(rows, 10, 15), [(0, 10, [(0, 1)], []), (10, 20, [], []), (20, 30, [], []), (30, 40, [(8, 9)], [(0, 1)])])

    def test_an_edge_that_went_may_come_again_the_other_way_round(self):
        rows = [(0, 1, 0), (2, 3, 10), (1, 0, 20)]
        self.assertEqual(told(rows, 10, 10), [(0, 10, [(0, 1)], []), (10, 20, [(2, 3)], [(0, 1)]), (20, 30, [(1, 0)], [(2, 3)])])

    def test_a_window_shorter_than_an_interval(self):
        self.assertEqual(told([(0, 1, 0), (1, 2, 8), (2, 3, 10)], 10, 3), [(0, 10, [(1, 2)], []), (10, 20, [], [(1, 2)])])

    def test_empty_intervals_loops_and_nothing(self):
        self.assertEqual(told([(0, 1, 5), (7, 7, 38)], 10), [(5, 15, [(0, 1)], []), (15, 25, [], []), (25, 35, [], []), (35, 45, [], [])])
        self.assertEqual(told([], 10), [])
        self.assertEqual(told(iter(()), 10, 3), [])

    def test_rows_are_sorted_stably(self):
        rows = [(4, 5, 7), (0, 1, 3), (2, 3, 3), (1, 0, 3)]
        self.assertEqual(told(rows, 10), [(3, 13, [(0, 1), (2, 3), (4, 5)], [])])
        self.assertEqual(rows[0], (4, 5, 7))

    def test_batches_are_made_when_they_are_asked_for(self):
        made = kcore.batches([(0, 1, 0), (1, 2, 10**18)], 1)
        self.assertEqual(next(made).insert, [(0, 1)])
        self.assertEqual(next(made).insert, [])

    def test_times_of_other_kinds(self):
        day = timedelta(days=1)
        first = datetime(2020, 2, 28, tzinfo=timezone.utc)
        rows = [("a", "b", first), ("b", "c", first + day), ("c", "d", first + 2 * day)]
        self.assertEqual([batch.end - batch.begin for batch in kcore.batches(rows, day, day)], [day] * 3)
        self.assertEqual([batch.remove for batch in kcore.batches(rows, day, day)], [[], [("a", "b")], [("b", "c")]])
        third = Fraction(1, 3)
        self.assertEqual([batch.begin for batch in kcore.batches([(0, 1, third), (1, 2, 1)], third)], [third, 2 * third, 3 * third])

    def test_floats_lie_in_the_interval_that_is_told(self):
        draw = random.Random(5)
        rows = [(v, v + 1, draw.random()) for v in range(500)]
        listed = list(kcore.batches(rows, 0.1, 0.3))
        seen = {edge: (batch.begin, batch.end) for batch in listed for edge in batch.insert}
        for u, v, time in rows:
            begin, end = seen[u, v]
            self.assertTrue(begin <= time < end)
        self.assertTrue(all(before.end == after.begin for before, after in zip(listed, listed[1:])))

    @unittest.skipUnless(numpy, "NumPy is not installed")
    def test_arrays(self):
        rows = [(0, 1, 0), (1, 2, 4), (2, 0, 11)]
        wanted = told(rows, 5, 10)
        for array in (numpy.array(rows), numpy.array(rows, "uint32"), numpy.array(rows, float), numpy.asfortranarray(rows)):
            found = told(array, 5, 10)
            self.assertEqual(found, wanted)
            self.assertTrue(all(type(end) is int for batch in found for edge in batch[2] for end in edge))
        self.assertEqual(told(numpy.array([(0, 1, 0.5), (1, 2, 0.75)]), 0.25)[1], (0.75, 1.0, [(1, 2)], []))
        self.assertEqual(told(numpy.zeros((0, 3)), 5), [])

    @unittest.skipUnless(numpy, "NumPy is not installed")
    def test_dates_of_numpy(self):
        first, day = numpy.datetime64("2020-02-28", "D"), numpy.timedelta64(1, "D")
        rows = [(0, 1, first), (1, 2, first + day)]
        kind = [("target", "i4"), ("time", "M8[s]"), ("source", "i4")]
        fields = numpy.array([(v, time, u) for u, v, time in rows], kind)
        for table, columns in [(rows, None), (fields, None), (fields, (2, 0, "time"))]:
            for length in (day, timedelta(days=1)):
                found = told(table, length, columns=columns)
                self.assertEqual(found, [(first, first + day, [(0, 1)], []), (first + day, first + 2 * day, [(1, 2)], [])])
        self.assertEqual(told([(0, 1, datetime(2020, 1, 1))], day), [(datetime(2020, 1, 1), datetime(2020, 1, 2), [(0, 1)], [])])
        hours = list(kcore.batches(rows, timedelta(hours=12), numpy.timedelta64(1, "D")))
        self.assertEqual([(batch.insert, batch.remove) for batch in hours], [([(0, 1)], []), ([], []), ([(1, 2)], [(0, 1)])])

    @unittest.skipUnless(pandas, "pandas is not installed")
    def test_frames(self):
        wanted = told(ROWS, 5, 10)
        frame = pandas.DataFrame(ROWS, columns=["source", "target", "time"])
        self.assertEqual(told(frame, 5, 10), wanted)
        self.assertEqual(told(frame[["time", "target", "source"]], 5, 10), [(b, e, [(u, v) for u, v in i], r) for b, e, i, r in wanted])
        self.assertEqual(told(frame.set_axis(["a", "b", "c"], axis=1), 5, 10), wanted)
        wide = frame.assign(weight=1).rename(columns={"source": "from"})
        self.assertEqual(told(wide, 5, 10, columns=("from", "target", 2)), wanted)
        with self.assertRaisesRegex(ValueError, "say which by columns="):
            kcore.batches(wide, 5)
        dated = frame.assign(time=pandas.to_datetime(frame["time"], unit="D"))
        found = told(dated, pandas.Timedelta(days=5), timedelta(days=10))
        self.assertEqual([batch[2:] for batch in found], [batch[2:] for batch in wanted])
        self.assertEqual(found[1][0], pandas.Timestamp("1970-01-06"))
        self.assertEqual(told(dated, numpy.timedelta64(5, "D"), numpy.timedelta64(10, "D")), found)
        tick = pandas.Timedelta(3, "ns")
        first = pandas.Timestamp(1, unit="ns")
        for time in (first, first.to_datetime64()):
            for length in (tick, tick.to_timedelta64()):
                self.assertEqual(told([(0, 1, time)], length, length), [(time, first + tick, [(0, 1)], [])])
        with self.assertRaisesRegex(TypeError, "can't be added to the time"):
            kcore.batches(dated, numpy.timedelta64(1, "M"))
        with self.assertRaisesRegex(ValueError, "row 1 has no time"):
            kcore.batches(dated.assign(time=dated["time"].mask([False, True, False, False])), timedelta(1))
        with self.assertRaisesRegex(ValueError, "dropna"):
            kcore.batches(frame.assign(source=[None, "a", "b", "c"]), 5)

    def test_refusals(self):
        for table, words, error, wanted in (
            ([(0, 1)], (5,), ValueError, r"row 0 is \(0, 1\), and a row has source, target and time"),
            ([(0, 1, 2), "abc"], (5,), TypeError, "row 1 is of the type str"),
            ([7], (5,), TypeError, "row 0 is of the type int"),
            ("abc", (5,), TypeError, "not of the type str"),
            (5, (5,), TypeError, "not of the type int"),
            ([(0, 1, math.nan)], (5,), ValueError, "row 0 has no time, but nan"),
            ([(0, 1, None)], (5,), ValueError, "row 0 has no time, but None"),
            ([(0, 1, math.inf)], (5,), ValueError, "not finite"),
            ([(0, 1, "2020")], (5,), TypeError, "of the type str, and the times are numbers"),
            ([(0, 1, 1), (0, 1, datetime(2020, 1, 1))], (5,), TypeError, "row 1 has the time"),
            ([(0, None, 1)], (5,), TypeError, "an end is None"),
            ([(0, 1.5, 1)], (5,), TypeError, "an end is the float 1.5"),
            ([(0, 1, 1)], (0,), ValueError, "every is 0, and has to be above 0"),
            ([(0, 1, 1)], (5, -1), ValueError, "window is -1"),
            ([(0, 1, 1)], (math.nan,), ValueError, "every is nan"),
            ([(0, 1, 1)], (math.inf,), ValueError, "every is inf"),
            ([(0, 1, 1)], ("5",), TypeError, "every is a number or a timedelta"),
            ([(0, 1, 1)], (timedelta(1),), TypeError, "the times are numbers"),
            ([(0, 1, datetime(2020, 1, 1))], (5,), TypeError, "the times are dates: give a timedelta"),
            ([(0, 1, datetime(2020, 1, 1))], (timedelta(0),), ValueError, "above 0"),
            ([(0, 1, FIRST), (0, 1, FIRST.replace(tzinfo=timezone.utc))], (timedelta(1),), TypeError, "can't be compared"),
        ):
            with self.subTest(table=table, words=words), self.assertRaisesRegex(error, wanted):
                kcore.batches(table, *words)
        if numpy is not None:
            with self.assertRaisesRegex(TypeError, "can't be added to the time"):
                kcore.batches([(0, 1, datetime(2020, 1, 1))], numpy.timedelta64(1, "M"))
        with self.assertRaisesRegex(TypeError, "columns goes with"):
            kcore.batches([(0, 1, 2)], 5, columns=(0, 1, 2))

    @unittest.skipUnless(numpy, "NumPy is not installed")
    def test_refusals_of_arrays(self):
        for array, error, wanted in (
            (numpy.zeros((4, 2)), ValueError, r"the shape \(4, 2\)"),
            (numpy.array([(0.5, 1, 2)]), ValueError, "no whole numbers"),
            (numpy.array([(math.nan, 1, 2)]), ValueError, "no whole numbers"),
            (numpy.ma.array([(0, 1, 2)], mask=[(0, 0, 1)]), TypeError, "masked"),
        ):
            with self.subTest(array=array), self.assertRaisesRegex(error, wanted):
                kcore.batches(array, 1)

    def test_random_rows_beside_the_definition(self):
        draw = random.Random(9)
        for _ in range(400):
            top = draw.randrange(1, 7)
            rows = [(draw.randrange(top), draw.randrange(top), draw.randrange(40)) for _ in range(draw.randrange(30))]
            every, window = draw.randrange(1, 15), draw.choice((None, draw.randrange(1, 25)))
            before, end = set(), min((row[2] for row in rows), default=0)
            for batch in kcore.batches(rows, every, window):
                self.assertEqual((batch.begin, batch.end), (end, end + every))
                end = batch.end
                come, gone = [{frozenset(edge) for edge in edges} for edges in (batch.insert, batch.remove)]
                after = there(rows, end, window)
                self.assertEqual((len(batch.insert), len(batch.remove)), (len(come), len(gone)))
                self.assertEqual((come, gone), (after - before, before - after))
                self.assertTrue(all(edge in {row[:2] for row in rows} for edge in batch.insert + batch.remove))
                before = after
            self.assertTrue(not rows or end - every <= max(row[2] for row in rows) < end)


class ReplayTest(unittest.TestCase):
    def test_what_changed(self):
        results = list(kcore.Cores(names=True).replay(kcore.batches(ROWS, 5, 10)))
        self.assertEqual([tuple(result) for result in results], [
            (0, 5, {"ann": (None, 1), "bob": (None, 1), "cat": (None, 1)}, None),
            (5, 10, {}, None),
            (10, 15, {}, None),
        ])

    def test_all_numbers_on_request(self):
        cores = kcore.Cores([(0, 1)])
        results = cores.replay(kcore.batches([(1, 2, 0), (2, 0, 5)], 5), core_numbers=True)
        self.assertEqual(next(results).core_numbers, [1, 1, 1])
        # The second batch is not applied before it is asked for.
        self.assertEqual(cores.core_numbers(), [1, 1, 1])
        self.assertEqual(next(results), (5, 10, {0: (1, 2), 1: (1, 2), 2: (1, 2)}, [2, 2, 2]))
        self.assertEqual(list(results), [])

    @unittest.skipUnless(numpy and pandas, "NumPy or pandas is not installed")
    def test_edges_of_arrays_and_frames_have_names_too(self):
        array = numpy.array([(0, 1), (1, 2), (2, 0)])
        cores = kcore.Cores(array, names=True)
        self.assertEqual(cores.insert(array + 1), {3: (None, 2)})
        frame = pandas.DataFrame([("a", "b"), ("b", "c"), ("c", "a")])
        cores = kcore.Cores(frame)
        self.assertEqual(cores.insert(frame.replace("a", "d")), {"d": (None, 2)})
        self.assertEqual(cores.remove(frame[:1]), {"a": (2, 1)})
        self.assertEqual(cores.remove(frame), {"a": (1, 0), "b": (2, 1), "c": (2, 1), "d": (2, 1)})

    def test_refusals_come_with_the_batch(self):
        cores = kcore.Cores()
        results = cores.replay(kcore.batches([(0, 1, 0), ("a", "b", 1)], 1))
        self.assertEqual(next(results).changes, {0: (None, 1), 1: (None, 1)})
        with self.assertRaisesRegex(TypeError, "names=True"):
            next(results)
        self.assertEqual(cores.core_numbers(), [1, 1])

    @unittest.skipUnless(networkx, "networkx is not installed")
    def test_random_rows_beside_networkx(self):
        draw = random.Random(3)
        for _ in range(60):
            top = draw.randrange(2, 12)
            rows = [(draw.randrange(top), draw.randrange(top), draw.randrange(30)) for _ in range(draw.randrange(1, 80))]
            every, window = draw.randrange(1, 9), draw.choice((None, draw.randrange(1, 20)))
            old = {}
            for result in kcore.Cores(names=True).replay(kcore.batches(rows, every, window), core_numbers=True):
                graph = networkx.Graph(list(map(tuple, there(rows, result.end, window))))
                graph.add_nodes_from(old)
                new = networkx.core_number(graph) if len(graph) else {}
                self.assertEqual(result.core_numbers, new)
                self.assertEqual(result.changes, {v: (old.get(v), k) for v, k in result.core_numbers.items() if old.get(v) != k})
                old = result.core_numbers


if __name__ == "__main__":
    unittest.main()
