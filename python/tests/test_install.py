"""The package as pip and `python3 -m build` make it, without a network, and what python/building/kcore_build.py makes. What wants pip or
build is skipped where that is not installed."""

import ast
import base64
import email
import hashlib
import importlib.util
import os
import shutil
import subprocess
import sys
import tarfile
import tempfile
import unittest
import zipfile
from pathlib import Path

import kcore

from .test_kcore import TOP

LIBRARY = Path(kcore._library._library._name)
BUILDING = Path("python", "building", "kcore_build.py")


def missing(*modules):
    return unittest.skipIf(any(importlib.util.find_spec(name) is None for name in modules), f"{' or '.join(modules)} is not installed")


def checkout(folder, with_library=True):
    """A copy of what the package is built from, as a source archive has it. dist/test.sh tries a whole checkout."""
    for name in ["pyproject.toml", "README.md", "docs/PYTHON.md", BUILDING]:
        (folder / name).parent.mkdir(parents=True, exist_ok=True)
        shutil.copy(TOP / name, folder / name)
    shutil.copytree(TOP / "python" / "kcore", folder / "python" / "kcore", ignore=shutil.ignore_patterns("__pycache__"))
    if with_library:
        (folder / "build").mkdir()
        shutil.copy(LIBRARY, folder / "build" / "libkcore.so")


def run(*words, folder, **environment):
    """What a command writes, and its status."""
    kept = {key: value for key, value in os.environ.items() if key not in ("KCORE_LIBRARY", "PYTHONPATH")}
    ended = subprocess.run(words, cwd=folder, env={**kept, **environment}, stdout=subprocess.PIPE, stderr=subprocess.STDOUT, text=True)
    return ended.stdout, ended.returncode


def pip_install(source, target, *words, **environment):
    """pip in an environment of its own for the build, with no index, unless further words say otherwise."""
    words = ["-m", "pip", "--disable-pip-version-check", "install", "--no-index", "--no-deps", *words, "--target", str(target), str(source)]
    return run(sys.executable, *words, folder=source, **environment)


class InFolders(unittest.TestCase):
    def setUp(self):
        folder = tempfile.TemporaryDirectory()
        self.addCleanup(folder.cleanup)
        self.source, self.target = Path(folder.name) / "source", Path(folder.name) / "target"
        self.source.mkdir()
        self.target.mkdir()


@missing("pip")
class Installs(InFolders):

    def told_by_the_installed(self, **environment):
        text = "import kcore; print(kcore.__version__, kcore._library._library._name, kcore.core_numbers([(0, 1)]))"
        return run(sys.executable, "-c", text, folder=self.target, PYTHONPATH=str(self.target), **environment)[0]

    def test_the_library_is_in_the_package(self):
        checkout(self.source)
        told, status = pip_install(self.source, self.target)
        self.assertEqual(status, 0, told)
        library = (self.target / "kcore" / "libkcore.so").resolve()
        self.assertEqual(self.told_by_the_installed(), f"{kcore.__version__} {library} [1, 1]\n")
        self.assertTrue((self.target / "kcore" / "py.typed").exists())
        self.assertTrue((self.target / "kcore" / "_api.pyi").exists())
        self.assertEqual(len(list((self.target / "kcore" / "_page").iterdir())), 3)

    def test_a_library_that_is_named(self):
        checkout(self.source, with_library=False)
        told, status = pip_install(self.source, self.target, "--no-build-isolation", KCORE_LIBRARY=str(LIBRARY))
        self.assertEqual(status, 0, told)
        self.assertIn("[1, 1]", self.told_by_the_installed())

    def test_no_library_is_told(self):
        checkout(self.source, with_library=False)
        told, status = pip_install(self.source, self.target)
        self.assertNotEqual(status, 0)
        self.assertRegex(told, "there is no library .*/build/libkcore.so: make it by c/build.sh, or name another in KCORE_LIBRARY")

    @missing("build")
    def test_a_wheel_by_build(self):
        checkout(self.source)
        words = ["-m", "build", "--no-isolation", "--outdir", str(self.target), "."]
        told, status = run(sys.executable, *words, folder=self.source)
        self.assertEqual(status, 0, told)
        (wheel,) = self.target.glob("*.whl")
        self.assertRegex(wheel.name, rf"^kcore-{kcore.__version__}-py3-none-linux_\w+\.whl$")
        self.assertEqual([path.name for path in self.target.glob("*.tar.gz")], [f"kcore-{kcore.__version__}.tar.gz"])

    def test_an_editable_one_leads_to_the_sources(self):
        checkout(self.source)
        words = ["-m", "pip", "--disable-pip-version-check", "install", "--no-index", "--prefix", str(self.target), "-e", "."]
        told, status = run(sys.executable, *words, folder=self.source, PYTHONNOUSERSITE="1")
        self.assertEqual(status, 0, told)
        (found,) = self.target.rglob("*.pth")
        self.assertEqual(Path(found.read_text().rstrip("\n")).resolve(), (self.source / "python").resolve())


class Builds(InFolders):
    """The functions of kcore_build.py, called as pip does: in a process of their own, in the folder of the sources."""

    def answer(self, call, source=None):
        words = f"import sys; sys.path.insert(0, {str(BUILDING.parent)!r}); import kcore_build; print(kcore_build.{call})"
        told, status = run(sys.executable, "-B", "-c", words, folder=source or self.source)
        self.assertEqual(status, 0, told)
        return told.rstrip("\n")

    def wheel(self, source=None, settings="None"):
        path = self.target / self.answer(f"build_wheel({str(self.target)!r}, {settings})", source)
        with zipfile.ZipFile(path) as files:
            return path, {name: files.read(name) for name in files.namelist()}

    def archive(self, source=None):
        return self.target / self.answer(f"build_sdist({str(self.target)!r})", source)

    def test_what_a_wheel_has(self):
        checkout(self.source)
        (self.source / "python" / "kcore" / "notes.txt").write_text("no part of the package")
        path, files = self.wheel()
        told = f"kcore-{kcore.__version__}.dist-info"
        named = [f"{told}/{name}" for name in ("METADATA", "WHEEL", "entry_points.txt", "top_level.txt", "RECORD")]
        self.assertEqual(list(files)[-5:], named)
        package = Path(kcore.__file__).parent
        sources = {f"kcore/{at.relative_to(package)}": at.read_bytes() for at in package.rglob("*") if at.is_file() and at.suffix not in (".pyc", ".so")}
        self.assertEqual({name: files[name] for name in files if not name.startswith(told)}, {**sources, "kcore/libkcore.so": LIBRARY.read_bytes()})
        self.assertEqual(files[f"{told}/entry_points.txt"], b"[networkx.backends]\nkcore = kcore._networkx\n")
        for line in files[f"{told}/RECORD"].decode().splitlines():
            name, known, size = line.split(",")
            if name != f"{told}/RECORD":
                digest = base64.urlsafe_b64encode(hashlib.sha256(files.pop(name)).digest()).decode().rstrip("=")
                self.assertEqual((known[:7], known[7:]), ("sha256=", digest))
        self.assertEqual(list(files), [f"{told}/RECORD"])

    def test_two_builds_give_the_same_bytes(self):
        another = self.source.parent / "another place"
        another.mkdir()
        for source in (self.source, another):
            checkout(source)
        first = self.wheel()[0].read_bytes()
        os.utime(another / "python" / "kcore" / "plot.py", (10**9, 10**9))
        (another / "python" / "kcore" / "plot.py").chmod(0o755)
        self.assertEqual(self.wheel(another)[0].read_bytes(), first)
        archive = self.archive().read_bytes()
        self.assertEqual(self.archive(another).read_bytes(), archive)

    def test_a_wheel_of_a_source_archive_is_that_of_the_sources(self):
        checkout(self.source)
        wanted = self.wheel()[0].read_bytes()
        archive = self.archive()
        with tarfile.open(archive) as packed:
            packed.extractall(self.target)
        unpacked = self.target / archive.name[: -len(".tar.gz")]
        path, files = self.wheel(unpacked)
        self.assertEqual(path.read_bytes(), wanted)
        self.assertEqual((unpacked / "PKG-INFO").read_bytes(), files[f"kcore-{kcore.__version__}.dist-info/METADATA"])

    def test_a_platform_that_is_named(self):
        checkout(self.source)
        path, files = self.wheel(settings="{'platform': 'manylinux2014_x86_64'}")
        self.assertEqual(path.name, f"kcore-{kcore.__version__}-py3-none-manylinux2014_x86_64.whl")
        self.assertIn(b"\nTag: py3-none-manylinux2014_x86_64\n", files[f"kcore-{kcore.__version__}.dist-info/WHEEL"])

    def test_what_is_told_of_the_package(self):
        checkout(self.source)
        headers = email.message_from_bytes(self.wheel()[1][f"kcore-{kcore.__version__}.dist-info/METADATA"])
        self.assertEqual((headers["Name"], headers["Version"], headers["Requires-Python"]), ("kcore", kcore.__version__, ">=3.8"))
        self.assertEqual(headers.get_all("Provides-Extra"), ["arrays", "plot"])
        self.assertEqual(headers.get_all("Requires-Dist"), ["numpy ; extra == 'arrays'", "matplotlib ; extra == 'plot'"])
        self.assertEqual(headers.get_payload(decode=True), (TOP / "docs" / "PYTHON.md").read_bytes())

    @missing("tomllib")
    def test_the_tables_are_read_as_toml(self):
        import tomllib

        checkout(self.source)
        found = ast.literal_eval(self.answer("project()"))
        wanted = tomllib.loads((self.source / "pyproject.toml").read_text("utf-8"))["project"]
        self.assertEqual(found.pop("project.optional-dependencies"), wanted.pop("optional-dependencies"))
        self.assertEqual(found.pop("project.entry-points.networkx.backends"), wanted.pop("entry-points")["networkx.backends"])
        self.assertEqual(found, {"project": wanted})

    def test_a_table_that_is_not_known_is_refused(self):
        checkout(self.source)
        path = self.source / "pyproject.toml"
        kept = path.read_text("utf-8")
        for line, wanted in [('dependencies = ["numpy"]', "dependencies"), ('[project.scripts]\nkcore = "kcore.__main__:main"', "scripts")]:
            path.write_text(kept.replace("[project.optional-dependencies]", f"{line}\n\n[project.optional-dependencies]"), "utf-8")
            told, status = run(sys.executable, "-B", "-c", "import kcore_build; kcore_build.project()", folder=self.source / BUILDING.parent)
            self.assertEqual(status, 1)
            self.assertRegex(told, f"kcore_build.py writes nothing of what pyproject.toml has as {wanted}")


if __name__ == "__main__":
    unittest.main()
