"""The report page in headless Chromium: what it shows when it is hovered over, clicked, sorted, searched and stepped through by keyboard.

Skipped where selenium, Chromium or its driver is not installed: on Debian python3-selenium, chromium and chromium-driver. Where KCORE_SHOTS
names a folder, pictures of the pages are written there, light and dark, wide and narrow.
"""

import base64
import os
import random
import shutil
import subprocess
import sys
import tempfile
import unittest
from pathlib import Path
from unittest import mock

import kcore

from .test_kcore import edges_of, numpy

try:
    from selenium import webdriver
    from selenium.webdriver import ActionChains, Keys
    from selenium.webdriver.chrome.options import Options
    from selenium.webdriver.chrome.service import Service
    from selenium.webdriver.support.ui import WebDriverWait
except ImportError:
    raise unittest.SkipTest("selenium is not installed") from None
CHROMIUM, DRIVER = shutil.which("chromium"), shutil.which("chromedriver")
if CHROMIUM is None or DRIVER is None:
    raise unittest.SkipTest("chromium or its driver is not installed")
if numpy is None:
    raise unittest.SkipTest("NumPy is not installed")

SHOTS = os.environ.get("KCORE_SHOTS")
EVIL = "<script>document.title = 'run'</script><img src=x onerror=\"document.title='run'\">"


def temporal():
    """Rows of four groups, each of which is busy for some time."""
    draw = random.Random(4)
    rows = []
    for time in range(3000):
        group = time // 300 % 4
        near = draw.random() < 0.4
        ends = [group * 15 + draw.randrange(15) if near else int(300 * draw.random() ** 2) for _ in range(2)]
        rows.append((*ends, time))
    return rows


class InChromium(unittest.TestCase):
    @classmethod
    def setUpClass(cls):
        options = Options()
        options.binary_location = CHROMIUM
        for word in ("--headless=new", "--no-sandbox", "--disable-gpu", "--disable-dev-shm-usage", "--hide-scrollbars", "--window-size=1200,1000"):
            options.add_argument(word)
        options.set_capability("goog:loggingPrefs", {"browser": "ALL", "performance": "ALL"})
        cls.browser = webdriver.Chrome(service=Service(DRIVER), options=options)
        cls.addClassCleanup(cls.browser.quit)
        folder = tempfile.TemporaryDirectory()
        cls.addClassCleanup(folder.cleanup)
        cls.folder = Path(folder.name)

    def open(self, page):
        path = self.folder / f"{self.id().rpartition('.')[2]}.html"
        path.write_text(page, "utf-8")
        self.browser.get(path.as_uri())
        self.assertFalse(self.browser.get_log("browser"))

    def tearDown(self):
        self.assertFalse(self.browser.get_log("browser"))

    def one(self, selector):
        return self.browser.find_element("css selector", selector)

    def all(self, selector):
        return self.browser.find_elements("css selector", selector)

    def text(self, selector):
        return self.one(selector).text

    def column(self, place):
        script = "return [...document.querySelectorAll(`#table .row td:nth-child(${arguments[0]})`)].map((cell) => cell.textContent)"
        return self.browser.execute_script(script, place)

    def tip(self, element):
        self.browser.execute_script("arguments[0].scrollIntoView({block: 'center'})", element)
        ActionChains(self.browser).move_to_element(element).perform()
        return self.text("#tip")

    def click(self, element):
        self.browser.execute_script("arguments[0].scrollIntoView({block: 'center'})", element)
        ActionChains(self.browser).move_to_element(element).click().perform()

    def until(self, wanted):
        WebDriverWait(self.browser, 10).until(lambda _: wanted())

    def row_at(self, share):
        """The place of the row that is seen at this share of the height of the table's part of the window, from 0 on."""
        return int(self.browser.execute_script(
            """const scroller = document.getElementById("scroller"); scroller.scrollIntoView({block: "center"});
            const box = scroller.getBoundingClientRect();
            const row = document.elementFromPoint(box.left + 60, box.top + 4 + arguments[0] * (box.height - 8)).closest("tr.row");
            return row ? row.getAttribute("aria-rowindex") : 0""", share)) - 2

    def scroll(self, place):
        script = "const scroller = document.getElementById('scroller'); scroller.scrollTop = arguments[0] * scroller.scrollHeight"
        self.browser.execute_script(script, place)
        self.browser.execute_script("return new Promise((done) => requestAnimationFrame(() => requestAnimationFrame(done)))")

    def test_karate(self):
        self.open(kcore.report(edges_of("karate"), title="Karate"))
        self.assertEqual((self.browser.title, self.text("#count")), ("Karate", "34 vertices"))
        self.assertEqual([cell.text for cell in self.all(".figures dd")], ["34", "78", "4", "7"])
        wanted = "Core number 3\n12 vertices: 4, 5, 6 and 9 more\n3-core: 22 vertices, 55 edges"
        self.assertEqual(self.tip(self.one("#sizes .hit[data-core='3']")), wanted)
        self.assertIn("Layer 2, core number 2\n11 vertices", self.tip(self.all("#spectrum .hit")[1]))
        self.assertRegex(self.tip(self.all("#degrees .dot")[0]), r"^Degree 1, core number 1\n1 vertex: 11$")
        self.assertIn("core number 4, degree", self.tip(self.all("#rings .dot")[-1]))
        self.assertFalse(self.one("#over-time").is_displayed())
        self.click(self.one("summary"))
        self.assertIn("2 11 33 77", self.text("table.plain"))

    def test_a_click_on_a_shell_filters_the_table(self):
        self.open(kcore.report(edges_of("karate")))
        self.click(self.one("#sizes .hit[data-core='3']"))
        self.assertEqual((self.text("#count"), set(self.column(2))), ("12 of 34 vertices", {"3"}))
        self.assertEqual(self.text("#clear"), "core number 3")
        self.assertEqual(len(self.all("#rings .dot:not(.dim)")), 12)
        self.assertEqual(len(self.all("#sizes .shape:not(.dim)")), 1)
        # A click on the same shell again, or on what is chosen, gives all back.
        self.click(self.one("#sizes .hit[data-core='3']"))
        self.assertEqual((self.text("#count"), len(self.all(".dim"))), ("34 vertices", 0))
        self.click(self.all("#spectrum .hit")[0])
        self.assertEqual((self.text("#clear"), self.column(1)), ("layer 1", ["11"]))
        self.click(self.one("#clear"))
        self.assertEqual(self.text("#count"), "34 vertices")
        self.click(self.all("#degrees .dot")[0])
        self.assertEqual((self.text("#clear"), self.column(1)), ("core number 1, degree 1", ["11"]))
        self.click(self.all("#rings .dot")[-1])
        self.assertEqual((self.text("#clear"), set(self.column(2))), ("core number 4", {"4"}))

    def test_the_keyboard(self):
        self.open(kcore.report(edges_of("karate")))
        keys = ActionChains(self.browser)
        keys.send_keys(Keys.TAB, Keys.ARROW_RIGHT, Keys.ARROW_RIGHT).perform()
        self.assertIn("Core number 2", self.text("#tip"))
        ActionChains(self.browser).send_keys(Keys.ENTER).perform()
        self.assertEqual(self.text("#count"), "11 of 34 vertices")
        ActionChains(self.browser).send_keys(Keys.ESCAPE).perform()
        self.assertFalse(self.one("#tip").is_displayed())
        self.assertTrue(all(element.get_attribute("aria-label") for element in self.all("[role=button]")))

    def rows(self):
        """All rows of the table, as it is scrolled from its top to its end: the texts of their cells, by the name of the vertex."""
        script = """const scroller = document.getElementById("scroller"), found = {};
            const frame = () => new Promise((done) => requestAnimationFrame(() => requestAnimationFrame(done)));
            for (let top = 0; ; top += scroller.clientHeight) {
              scroller.scrollTop = top;
              await frame();
              for (const row of document.querySelectorAll("#table .row")) {
                const [name, ...numbers] = [...row.cells].map((cell) => cell.textContent);
                found[name] = numbers;
              }
              if (top + scroller.clientHeight >= scroller.scrollHeight) return found;
            }"""
        found = self.browser.execute_script(f"return (async () => {{ {script} }})()")
        return {name: [int(number) for number in numbers] for name, numbers in found.items()}

    def test_each_shell_in_the_table_has_its_vertices(self):
        draw = random.Random(9)
        edges = [(f"v{int(150 * draw.random() ** 2)}", f"v{int(150 * draw.random() ** 2)}") for _ in range(500)]
        core, layers = kcore.core_numbers(edges), kcore.onion_layers(edges)
        near = {name: set() for name in core}
        for u, v in edges:
            near[u].add(v)
            near[v].add(u)
        wanted = {name: [number, len(near[name] - {name}), layers[name]] for name, number in core.items()}
        self.open(kcore.report(edges))
        self.assertEqual(self.rows(), wanted)
        for k in sorted(set(core.values())):
            self.click(self.one(f"#sizes .hit[data-core='{k}']"))
            self.assertEqual(self.rows(), {name: row for name, row in wanted.items() if row[0] == k})
            self.click(self.one("#clear"))
        heads = {head.get_attribute("data-key"): head.find_element("css selector", "button") for head in self.all("#table th")}
        for key in ("core", "degree", "layer"):
            self.click(heads[key])
            self.assertEqual(self.rows(), wanted)
        self.one("#search").send_keys("v1")
        self.assertEqual(self.rows(), {name: row for name, row in wanted.items() if "v1" in name})

    def test_a_page_of_the_command(self):
        rows = temporal()
        path, page = self.folder / "mails.txt", self.folder / "mails.html"
        path.write_text("".join(f"{u} {v} {time}\n" for u, v, time in rows))
        words = ["report", str(path), "-o", str(page), "--time", "--unix", "--every", "300", "--window", "600"]
        environment = {**os.environ, "PYTHONPATH": str(Path(kcore.__file__).parents[1])}
        subprocess.run([sys.executable, "-m", "kcore", *words], env=environment, check=True)
        self.open(page.read_text("utf-8"))
        self.assertEqual((self.text("h1"), self.text("#batch-place")), ("mails.txt", "10 of 10"))
        self.assertTrue(self.text("#batch-told").startswith("1970-01-01 00:45:00 to 1970-01-01 00:50:00: "))
        last = {frozenset((u, v)) for u, v, time in rows if time >= 2400 and u != v}
        wanted = kcore.core_numbers([tuple(map(str, pair)) for pair in last])
        self.assertEqual({name: row[0] for name, row in self.rows().items() if row[0]}, wanted)

    def test_the_table_is_sorted_and_searched(self):
        self.open(kcore.report([(f"V{number}", f"V{number * number % 41}") for number in range(60)]))
        heads = {head.get_attribute("data-key"): head for head in self.all("#table th")}
        for key, place in [("name", 1), ("degree", 3), ("layer", 4), ("core", 2)]:
            self.click(heads[key].find_element("css selector", "button"))
            down = heads[key].get_attribute("aria-sort") == "descending"
            self.assertEqual(down, key != "name")
            numbers = [int(text.lstrip("V")) for text in self.column(place)]
            self.assertEqual(numbers, sorted(numbers, reverse=down))
            self.click(heads[key].find_element("css selector", "button"))
            self.assertEqual(heads[key].get_attribute("aria-sort"), "ascending" if down else "descending")
        self.one("#search").send_keys("v59")
        self.assertEqual((self.column(1), self.text("#count")), (["V59"], f"1 of {self.text('.figures dd')} vertices"))
        self.one("#search").send_keys("none")
        self.assertEqual((self.column(1), self.text("#count")), ([], f"0 of {self.text('.figures dd')} vertices"))

    def test_names_are_shown_as_text(self):
        self.open(kcore.report([(EVIL, "a"), ("a", "b"), ("b", EVIL), ("b", "</script>")], title=EVIL))
        self.assertEqual((self.browser.title, self.text("h1")), (EVIL, EVIL))
        self.assertEqual(set(self.column(1)), {EVIL, "a", "b", "</script>"})
        self.assertIn(EVIL, self.tip(self.one("#sizes .hit[data-core='2']")))
        self.assertFalse(self.all("img"))

    def test_nothing_is_asked_of_a_network(self):
        self.browser.get_log("performance")
        self.open(kcore.report((), kcore.batches(temporal(), 60, 200)))
        asked = [entry["message"] for entry in self.browser.get_log("performance") if '"Network.requestWillBeSent"' in entry["message"]]
        urls = {part.split('"')[0] for message in asked for part in message.split('"url":"')[1:]}
        self.assertTrue(any(url.startswith("file:") for url in urls))
        self.assertEqual({url for url in urls if not url.startswith(("file:", "data:"))}, set())

    def test_over_time(self):
        rows = temporal()
        self.open(kcore.report((), kcore.batches(rows, 100, 300)))
        self.assertEqual(self.text("#batch-place"), "30 of 30")
        results = list(kcore.Cores(names=True).replay(kcore.batches(rows, 100, 300), core_numbers=True))

        def shows(place):
            self.assertEqual(self.text("#batch-place"), f"{place + 1} of 30")
            result = results[place]
            rose = sum(after > (before or 0) for before, after in result.changes.values())
            fell = sum(after < (before or 0) for before, after in result.changes.values())
            told = self.text("#batch-told")
            self.assertTrue(told.startswith(f"{result.begin} to {result.end}: "), told)
            self.assertTrue(told.endswith(f"{rose} rose and {fell} fell."), told)
            self.assertIn(f"The greatest core number is {max(result.core_numbers.values())};", told)
            lists = (len(self.all("#rose button")), len(self.all("#fell button")))
            self.assertEqual(lists, (min(rose, 200), min(fell, 200)))
            for item in self.all("#fell li")[: min(fell, 5)]:
                name, _, numbers = item.text.partition("\n")
                self.assertEqual(numbers, "{} → {}".format(*results[place].changes[int(name)]))

        slider = self.one("#batch")
        for place in range(29, -1, -1):
            shows(place)
            slider.send_keys(Keys.ARROW_LEFT)
        shows(0)
        self.assertEqual(len(self.all("#timeline .hit.at")), 1)
        hit = self.all("#timeline .hit")[11]
        told = self.tip(hit).split("\n")
        self.assertEqual(told[0], "Batch 12: 1100 to 1200")
        numbers = results[11].core_numbers.values()
        for line in told[1:]:
            k, size = line.replace(" vertices", "").replace(" vertex", "").split("-core: ")
            self.assertEqual(int(size), sum(number >= int(k) for number in numbers))
        self.click(hit)
        shows(11)
        name = self.all("#rose button")[0]
        wanted = name.text
        self.click(name)
        self.assertIn(wanted, self.column(1))

    def test_a_hundred_thousand_vertices(self):
        draw = numpy.random.default_rng(1)
        edges = (draw.random((300_000, 2)) ** 2 * 100_000).astype("uint32")
        self.open(kcore.report(edges, vertices=100_000))
        self.assertEqual(self.text("#count"), "100,000 vertices")
        self.assertLess(len(self.all("#table .row")), 60)
        self.assertLess(len(self.all("*")), 25_000)
        self.scroll(1)
        self.assertEqual((self.row_at(1), self.column(2)[-1]), (99_999, "0"))
        self.scroll(0.5)
        self.assertTrue(49_990 < self.row_at(0.5) < 50_020)
        self.assertLess(len(self.all("#table .row")), 60)
        spent = self.browser.execute_script(
            "const begin = performance.now(); document.querySelector('#table th button').click(); return performance.now() - begin")
        self.assertLess(spent, 5000)
        self.assertEqual(self.column(1)[:3], ["0", "1", "2"])
        self.one("#search").send_keys("99999")
        self.assertEqual(self.column(1), ["99999"])

    def test_a_table_that_is_taller_than_an_element_may_be(self):
        pages = self.folder / "pages"
        shutil.copytree(Path(kcore.__file__).with_name("_page"), pages)
        script = (pages / "page.js").read_text("utf-8")
        self.assertIn("TALLEST = 12_000_000;", script)
        (pages / "page.js").write_text(script.replace("TALLEST = 12_000_000;", "TALLEST = 30_000;"), "utf-8")
        with mock.patch.object(sys.modules["kcore._report"], "_FOLDER", pages):
            self.open(kcore.report([(v, v + 1) for v in range(5999)]))
        height = self.browser.execute_script("return document.getElementById('scroller').scrollHeight")
        places = []
        for share in (0, 0.0005, 0.25, 0.5, 0.75, 1, 1):
            self.scroll(share)
            places.append(self.row_at(0.5))
            self.assertGreaterEqual(self.row_at(0.2), 0)
        self.assertEqual(places, sorted(places))
        self.assertTrue(places[0] < 10 and 2_900 < places[3] < 3_100 and places[-1] > 5_985)
        self.assertEqual(self.row_at(1), 5_999)
        self.assertEqual(self.browser.execute_script("return document.getElementById('scroller').scrollHeight"), height)
        self.scroll(0)
        self.assertEqual(self.row_at(0.12), 0)

    def test_no_vertices_and_no_batches(self):
        for page in (kcore.report([]), kcore.report((), []), kcore.report([], vertices=2), kcore.report((), kcore.batches([(0, 0, 1)], 1))):
            self.open(page)
            self.assertEqual(self.text(".figures dd") + (" vertices"), self.text("#count"))

    def test_nothing_is_cut_off_at_a_narrow_width(self):
        self.open(kcore.report((), kcore.batches(temporal(), 100, 300)))
        for width in (360, 700, 1200):
            self.resize(width)
            self.until(lambda: self.one("#sizes svg").size["width"] <= width)
            self.assertLessEqual(self.browser.execute_script("return document.documentElement.scrollWidth"), width)
        self.browser.execute_cdp_cmd("Emulation.clearDeviceMetricsOverride", {})

    def resize(self, width):
        words = {"width": width, "height": 900, "deviceScaleFactor": 1, "mobile": False}
        self.browser.execute_cdp_cmd("Emulation.setDeviceMetricsOverride", words)

    def shoot(self, name, width, scheme):
        """Writes a picture of the whole page as it is now."""
        self.browser.execute_cdp_cmd("Emulation.setEmulatedMedia", {"features": [{"name": "prefers-color-scheme", "value": scheme}]})
        self.resize(width)
        self.browser.execute_script("return new Promise((done) => requestAnimationFrame(() => requestAnimationFrame(done)))")
        shot = self.browser.execute_cdp_cmd("Page.captureScreenshot", {"captureBeyondViewport": True, "format": "png"})
        Path(SHOTS).mkdir(parents=True, exist_ok=True)
        Path(SHOTS, f"{name}-{scheme}-{width}.png").write_bytes(base64.b64decode(shot["data"]))
        self.browser.execute_cdp_cmd("Emulation.clearDeviceMetricsOverride", {})
        self.browser.execute_cdp_cmd("Emulation.setEmulatedMedia", {"features": []})

    @unittest.skipUnless(SHOTS, "KCORE_SHOTS names no folder")
    def test_shots(self):
        draw = numpy.random.default_rng(1)
        large = (draw.random((100_000, 2)) ** 3 * 20_000).astype("uint32")
        pages = {
            "karate": kcore.report(edges_of("karate"), title="Zachary's karate club"),
            "temporal": kcore.report((), kcore.batches(temporal(), 60, 200), "Temporal"),
            "large": kcore.report(large, title="Large"),
        }
        for name, page in pages.items():
            self.open(page)
            self.click(self.one("#sizes .hit[data-core='2']"))
            for scheme in ("light", "dark"):
                for width in (1200, 390):
                    self.shoot(name, width, scheme)


if __name__ == "__main__":
    unittest.main()
