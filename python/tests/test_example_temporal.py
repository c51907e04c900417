"""examples/python/temporal.py on small data."""

import importlib.util
import os
import subprocess
import sys
import tempfile
import unittest
from pathlib import Path

from .test_kcore import TOP, needs_numpy

LINES = "# mails\n1 2 0\n2 3 10\n3 1 20\n\n1 2 50\n4 4 60\n3 4 119\n"


@needs_numpy
class Example(unittest.TestCase):
    def run_with(self, folder, *words):
        path = Path(folder) / "mails.txt"
        path.write_text(LINES)
        environment = {**os.environ, "PYTHONPATH": str(TOP / "python")}
        program = [sys.executable, str(TOP / "examples" / "python" / "temporal.py"), str(path), str(Path(folder) / "out"), *words]
        return subprocess.run(program, env=environment, stdout=subprocess.PIPE, text=True, check=True).stdout.splitlines()

    def test_a_page_and_pictures(self):
        with tempfile.TemporaryDirectory() as folder:
            told = self.run_with(folder, "30", "60")
            self.assertEqual(told[:4], [
                "0 to 30: +3 -0 top 2 rose farthest: 1 to 2",
                "30 to 60: +0 -0 top 2 rose farthest: nobody",
                "60 to 90: +0 -2 top 1 rose farthest: nobody",
                "90 to 120: +1 -1 top 1 rose farthest: 3 to 1",
            ])
            self.assertEqual(told[4], "the numbers are certified: True")
            files = {path.name for path in (Path(folder) / "out").iterdir()}
            drawn = {f"{name}.svg" for name in ("sizes", "degrees", "onion", "rings", "changes")} if importlib.util.find_spec("matplotlib") else set()
            self.assertEqual(files, {"report.html"} | drawn)
            self.assertIn("<title>mails.txt</title>", (Path(folder) / "out" / "report.html").read_text("utf-8"))

    def test_dates(self):
        with tempfile.TemporaryDirectory() as folder:
            told = self.run_with(folder, "30", "60", "--unix")
            self.assertEqual(told[1], "1970-01-01 00:00 to 1970-01-01 00:01: +0 -0 top 2 rose farthest: nobody")
            self.assertIn('"begin":["1970-01-01 00:00:00","1970-01-01 00:00:30"', (Path(folder) / "out" / "report.html").read_text("utf-8"))

    def test_twelve_intervals_by_default(self):
        with tempfile.TemporaryDirectory() as folder:
            self.assertEqual(len([line for line in self.run_with(folder) if " to " in line]), 12)


if __name__ == "__main__":
    unittest.main()
