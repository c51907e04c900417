"""The report page: what it knows, that it is one file which asks nothing of a network, and the command that writes it."""

import contextlib
import doctest
import html.parser
import importlib
import io
import json
import os
import subprocess
import sys
import tempfile
import unittest
from pathlib import Path
from unittest import mock

import kcore
from kcore import __main__ as command
from kcore import _text

from .test_kcore import TAILED, TOP, edges_of, needs_networkx, networkx, numpy

if numpy is None:
    raise unittest.SkipTest("NumPy is not installed")

_report = importlib.import_module("kcore._report")

EVIL = ["<script>alert(1)</script>", "</script>", "&amp;", '"quoted"', "<!--", "{{script}}", "\u2028", "\ud800", "naïve"]


class Elements(html.parser.HTMLParser):
    """The elements of a page with their attributes, and the text of each script and style."""

    def __init__(self, page):
        super().__init__()
        self.elements, self.texts, self._open = [], {}, None
        self.feed(page)
        self.close()

    def handle_starttag(self, tag, attributes):
        self.elements.append((tag, dict(attributes)))
        self._open = dict(attributes).get("id", tag)

    def handle_endtag(self, tag):
        self._open = None

    def handle_data(self, text):
        self.texts[self._open] = self.texts.get(self._open, "") + text


def data_of(page):
    return json.loads(Elements(page).texts["data"])


class Page(unittest.TestCase):
    def test_examples(self):
        self.assertEqual(doctest.testmod(_report, verbose=False).failed, 0)

    def test_what_it_knows_of_karate(self):
        edges = edges_of("karate")
        data = data_of(kcore.report(edges))
        self.assertEqual((data["core"], data["layer"]), (kcore.core_numbers(edges), kcore.onion_layers(edges)))
        self.assertEqual(sum(data["degree"]), 2 * 78)
        self.assertEqual(data["shells"], [[0, 0, 34, 78], [1, 1, 34, 78], [2, 11, 33, 77], [3, 12, 22, 55], [4, 10, 10, 25]])
        self.assertEqual((data["names"], data["time"]), (None, None))
        self.assertEqual(sorted(data["rings"]["v"]), list(range(34)))
        self.assertEqual(len(data["rings"]["edges"]), 2 * 78)

    def test_rings_do_not_overlap(self):
        data = data_of(kcore.report(edges_of("karate")))
        rings = data["rings"]
        far = {}
        for v, x, y in zip(rings["v"], rings["x"], rings["y"]):
            far.setdefault(data["core"][v], []).append((x * x + y * y) ** 0.5)
        self.assertTrue(all(distance <= 1.001 for listed in far.values() for distance in listed))
        for k in range(1, 4):
            self.assertGreater(min(far[k]), max(far[k + 1]))
        # The main core has a disc.
        self.assertGreater(max(far[4]), 2 * min(far[4]))

    def test_many_vertices_are_drawn_in_part(self):
        star = [(0, v) for v in range(1, 9000)] + [(u, v) for u in range(9000, 9010) for v in range(9000, u)]
        data = data_of(kcore.report(star))
        rings = data["rings"]
        self.assertLessEqual(len(rings["v"]), 3000)
        self.assertEqual({data["core"][v] for v in rings["v"]}, {1, 9})
        self.assertTrue(all(0 <= place < len(rings["v"]) for place in rings["edges"]))

    def test_forms(self):
        self.assertEqual(data_of(kcore.report(TAILED))["core"], [2, 2, 2, 1, 0])
        self.assertEqual(data_of(kcore.report(numpy.array(TAILED), vertices=6))["core"], [2, 2, 2, 1, 0, 0])
        self.assertEqual(data_of(kcore.report([(7, 10**12)], return_ids=True))["names"], ["7", str(10**12)])
        self.assertEqual(data_of(kcore.report([("a", "b")]))["names"], ["a", "b"])
        for edges, vertices in [([], 0), ([], 3), ([(0, 0)], None)]:
            data = data_of(kcore.report(edges, vertices=vertices))
            self.assertEqual(set(data["core"]), {0} if vertices != 0 else set())
        with self.assertRaisesRegex(TypeError, "axis does not go with"):
            kcore.report([("a", "b")], axis=0)

    def test_names_are_text(self):
        page = kcore.report([(name, "hub") for name in EVIL], title="<b>bold</b> & </title><script>")
        self.assertEqual(data_of(page)["names"], [EVIL[0], "hub", *EVIL[1:]])
        self.assertIn("<h1>&lt;b&gt;bold&lt;/b&gt; &amp; &lt;/title&gt;&lt;script&gt;</h1>", page)
        plain = Elements(kcore.report([(0, 1)]))
        self.assertEqual([tag for tag, _ in Elements(page).elements if tag != "td"], [tag for tag, _ in plain.elements if tag != "td"])
        self.assertEqual(page.count("<script"), 2)
        self.assertEqual(page.count("</script"), 2)

    def test_times_are_text(self):
        page = kcore.report((), [kcore.Batch("<script>", "</script>", [(0, 1)], [])])
        self.assertEqual(page.count("<script"), 2)
        self.assertEqual(data_of(page)["time"]["begin"], ["<script>"])

    def test_nothing_is_loaded(self):
        found = Elements(kcore.report(edges_of("karate")))
        for tag, attributes in found.elements:
            self.assertNotIn("src", attributes)
            self.assertNotIn("style", attributes)
            self.assertFalse([name for name in attributes if name.startswith("on")])
            self.assertIn(attributes.get("href", "data:,"), ("data:,",))
        policy = next(attributes["content"] for _, attributes in found.elements if attributes.get("http-equiv") == "Content-Security-Policy")
        self.assertTrue(policy.startswith("default-src 'none'; style-src 'sha256-"))
        self.assertNotIn("unsafe", policy)
        self.assertIn(_report._hash(found.texts["script"]), policy)
        self.assertIn(_report._hash(found.texts["style"]), policy)
        for word in ("http:", "https:", "//cdn", "@import", "url(", "fetch(", "import(", "innerHTML", "eval("):
            text = (found.texts["script"] + found.texts["style"]).replace("http://www.w3.org/2000/svg", "")
            self.assertNotIn(word, text)

    def test_without_matplotlib(self):
        words = "import sys; sys.modules['matplotlib'] = None; import kcore; kcore.report([(0, 1)]); assert 'pandas' not in sys.modules"
        environment = {**os.environ, "PYTHONPATH": str(TOP / "python")}
        subprocess.run([sys.executable, "-c", words], env=environment, check=True)

    def test_without_numpy(self):
        with mock.patch.dict(sys.modules, {"numpy": None}), self.assertRaisesRegex(ImportError, "a report needs NumPy"):
            kcore.report([(0, 1)])


class OverTime(unittest.TestCase):
    ROWS = [("a", "b", 0), ("b", "c", 1), ("c", "a", 12), ("c", "d", 13), ("a", "b", 14), ("x", "x", 29)]

    def test_what_it_knows_of_each_batch(self):
        data = data_of(kcore.report((), kcore.batches(self.ROWS, 10, 20)))
        time = data["time"]
        self.assertEqual((time["begin"], time["end"]), (["0", "10", "20"], ["10", "20", "30"]))
        self.assertEqual((time["inserted"], time["removed"], time["edges"]), ([2, 2, 0], [0, 0, 1], [2, 4, 3]))
        self.assertEqual(time["sizes"], [[3, 3], [4, 4, 3], [4, 4]])
        self.assertEqual((time["rose"], time["fell"]), ([3, 4, 0], [0, 0, 3]))
        self.assertEqual(time["up"][1], [[0, 1, 2], [1, 1, 2], [2, 1, 2], [3, -1, 1]])
        self.assertEqual(time["down"][2], [[0, 2, 1], [1, 2, 1], [2, 2, 1]])
        self.assertEqual((data["names"], data["core"], data["degree"]), (["a", "b", "c", "d"], [1, 1, 1, 1], [2, 1, 2, 1]))

    def test_edges_at_the_start(self):
        batch = kcore.Batch(0, 1, [("b", "a"), ("c", "a"), ("e", "e")], [("z", "a"), ("c", "d"), ("d", "a")])
        data = data_of(kcore.report([("a", "b"), ("b", "c"), ("c", "d")], [batch]))
        self.assertEqual((data["time"]["inserted"], data["time"]["removed"], data["time"]["edges"]), ([1], [1], [3]))
        self.assertEqual((data["names"], data["core"]), (["a", "b", "c", "d", "e"], [2, 2, 2, 0, 0]))
        self.assertEqual(data["time"]["sizes"], [[5, 3, 3]])
        self.assertEqual(data_of(kcore.report(numpy.array([(5, 9)] * 3), []))["names"], ["5", "9"])
        for words in ({"vertices": 3}, {"return_ids": True}):
            with self.assertRaisesRegex(TypeError, "does not go with batches"):
                kcore.report([(0, 1)], [], **words)

    @needs_networkx
    def test_sizes_beside_networkx(self):
        rows = [(v * v % 23, v * 5 % 17, v) for v in range(200)]
        data = data_of(kcore.report((), kcore.batches(rows, 10, 35)))
        graph = networkx.Graph()
        for place, batch in enumerate(kcore.batches(rows, 10, 35)):
            graph.remove_edges_from(batch.remove)
            graph.add_edges_from(batch.insert)
            core = networkx.core_number(graph).values()
            self.assertEqual(data["time"]["sizes"][place], [sum(number >= k for number in core) for k in range(max(core) + 1)])
        self.assertEqual(dict(zip(data["names"], data["degree"])), {str(v): d for v, d in graph.degree})


class Lines(unittest.TestCase):
    def test_edge_lines(self):
        lines = [b"# a comment\n", b"% another\n", b"\n", b" \t \r\n", b"0 1\r\n", b"\t2\t 007  \n", b"4294967295 0"]
        self.assertEqual(_text.edges(lines, "f"), [(0, 1), (2, 7), (4294967295, 0)])
        self.assertEqual(_text.temporal_edges(["1 2 3", "1 2 -4", "1 2 1.5\n"], "f"), [(1, 2, 3), (1, 2, -4), (1, 2, 1.5)])

    def test_other_lines(self):
        wanted = "f: line 2: an edge line has two whole numbers of 0 to 4294967295"
        great = ["1 4294967296", "4294967296 1"]
        for line in ["1", "1 2 3", "1 2x", "a b", "-1 2", "+1 2", "1,2", *great, "1 2 # no", "1\u00a02", "\u0661 2", "1 2\0", "1 2\r\r"]:
            with self.subTest(line=line), self.assertRaisesRegex(_text.WrongLineError, wanted):
                _text.edges(["0 1\n", line + "\n"], "f")
        for line in ["1 2", "1 2 x", "1 2 3 4", "1 2 1e5", "1 2 nan", "1 2 .5"]:
            with self.subTest(line=line), self.assertRaisesRegex(_text.WrongLineError, "line 1: a line has two .* and a time"):
                _text.temporal_edges([line], "f")
        with self.assertRaisesRegex(_text.WrongLineError, r"this line has '\\\\xff 2'"):
            _text.edges([b"\xff 2\n"], "f")
        with self.assertRaises(_text.WrongLineError) as caught:
            _text.edges([b"1" * 5000], "f")
        self.assertLess(len(str(caught.exception)), 250)


class Command(unittest.TestCase):
    def setUp(self):
        folder = tempfile.TemporaryDirectory()
        self.addCleanup(folder.cleanup)
        self.folder = Path(folder.name)

    def run_with(self, text, *words):
        path, page = self.folder / "edges.txt", self.folder / "page.html"
        path.write_text(text)
        told = io.StringIO()
        with contextlib.redirect_stderr(told):
            status = command.main(["report", str(path), "-o", str(page), *words])
        return status, told.getvalue(), page.read_text("utf-8") if page.exists() else None

    def test_a_file(self):
        status, told, page = self.run_with("# karate\n3 4\n4 10\n10 3\n", "--title", "A <triangle>")
        self.assertEqual((status, told), (0, ""))
        self.assertEqual((data_of(page)["names"], data_of(page)["core"]), (["3", "4", "10"], [2, 2, 2]))
        self.assertIn("<title>A &lt;triangle&gt;</title>", page)
        self.assertIn("<h1>edges.txt</h1>", self.run_with("1 2\n")[2])

    def test_times(self):
        text = "0 1 0\n1 2 86400\n2 0 172800\n"
        status, told, page = self.run_with(text, "--time", "--every", "86400", "--window", "172800")
        self.assertEqual((status, told), (0, ""))
        self.assertEqual(data_of(page)["time"]["removed"], [0, 0, 1])
        dated = data_of(self.run_with(text, "--time", "--every", "86400", "--unix")[2])["time"]
        self.assertEqual(dated["begin"], ["1970-01-01 00:00:00", "1970-01-02 00:00:00", "1970-01-03 00:00:00"])
        self.assertEqual(len(data_of(self.run_with(text, "--time")[2])["time"]["begin"]), 50)
        self.assertEqual(len(data_of(self.run_with("0 1 0.5\n1 2 0.75\n", "--time")[2])["time"]["begin"]), 51)
        for alike in ("0 1 5\n", "0 1 5.5\n"):
            self.assertEqual(len(data_of(self.run_with(alike, "--time")[2])["time"]["begin"]), 1)
        self.assertEqual(data_of(self.run_with("", "--time")[2])["time"]["begin"], [])

    def test_refusals(self):
        for text, words, wanted in (
            ("0 1\n1 x\n", (), r"edges\.txt: line 2: an edge line has two whole numbers of 0 to .*as in 12 7; this line has '1 x'"),
            ("0 1\n", ("--time",), r"edges\.txt: line 1: a line has .* and a time"),
            ("0 1 2\n", (), r"line 1: an edge line"),
            ("0 1 0\n0 1 100000\n", ("--time", "--every", "1"), "more than 5000 intervals"),
            ("0 1 99999999999999\n", ("--time", "--unix"), "no second of a year"),
        ):
            with self.subTest(text=text, words=words):
                status, told, page = self.run_with(text, *words)
                self.assertEqual((status, page), (3, None))
                self.assertRegex(told, f"^kcore: .*{wanted}")
        for words in (["--every", "5"], ["--time", "--every", "0"], ["--time", "--window", "x"], ["--unix"], ["--sizes"]):
            with self.subTest(words=words), self.assertRaises(SystemExit) as ended:
                self.run_with("0 1\n", *words)
            self.assertEqual(ended.exception.code, 2)

    def test_files_that_are_not_there(self):
        told = io.StringIO()
        with contextlib.redirect_stderr(told):
            self.assertEqual(command.main(["report", str(self.folder / "none"), "-o", str(self.folder / "page")]), 4)
            self.assertEqual(command.main(["report", str(TOP / "graphs" / "karate.txt"), "-o", str(self.folder / "none" / "page")]), 5)
        self.assertEqual(told.getvalue().count("No such file or directory"), 2)

    def test_without_numpy(self):
        with mock.patch.dict(sys.modules, {"numpy": None}):
            status, told, page = self.run_with("0 1\n")
        self.assertEqual((status, page), (1, None))
        self.assertRegex(told, r"^kcore: a report needs NumPy .*\n$")

    def test_as_a_program(self):
        environment = {**os.environ, "PYTHONPATH": str(TOP / "python")}
        words = [sys.executable, "-m", "kcore", "report", "-", "-o", "-"]
        ended = subprocess.run(words, env=environment, input="0 1\n", stdout=subprocess.PIPE, text=True, encoding="utf-8")
        self.assertEqual((ended.returncode, data_of(ended.stdout)["core"]), (0, [1, 1]))
        self.assertIn("<h1>standard input</h1>", ended.stdout)


if __name__ == "__main__":
    unittest.main()
