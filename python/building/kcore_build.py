"""Builds the package as pip and `python3 -m build` ask for it (PEP 517 and PEP 660), by Python's standard library alone.

pyproject.toml names this module, and wants nothing else for a build. So `pip install .` needs no network, also in a bare environment. What a
wheel tells of the package comes from the tables [project] of pyproject.toml, its page, and the version in kcore/_library.py. Two builds of
the same files with the same zlib give the same bytes. dist/make.sh makes the packed wheel by build_wheel too.
"""

import ast
import base64
import gzip
import hashlib
import io
import os
import re
import subprocess
import sysconfig
import tarfile
import zipfile
from pathlib import Path

TOP = Path(__file__).resolve().parents[2]
PACKAGE = TOP / "python" / "kcore"
BEGIN = 315532800  # the time of all files: 1980 began, and zip knows no time before
KNOWN = {"name", "description", "readme", "requires-python", "keywords", "classifiers", "dynamic", "optional-dependencies", "entry-points"}


def project():
    """The tables [project] of pyproject.toml, by their names. Their values are text and lists of text, which Python reads as TOML does."""
    tables, table, begun = {}, None, ""
    for line in (TOP / "pyproject.toml").read_text("utf-8").splitlines():
        head = re.fullmatch(r"\[+([^\]]+)\]+", line)
        if head:
            table = head[1].replace('"', "") if head[1].split(".")[0] == "project" else None
        elif table and line.strip() and not line.startswith("#"):
            begun += line
            key, _, value = begun.partition(" = ")
            if not value.startswith("[") or line.endswith("]"):
                tables.setdefault(table, {})[key] = ast.literal_eval(value)
                begun = ""
    named = {*tables["project"], *(table.split(".")[1] for table in tables if table != "project")}
    if named - KNOWN or tables["project"]["dynamic"] != ["version"]:
        raise SystemExit(f"{__file__} writes nothing of what pyproject.toml has as {', '.join(sorted(named - KNOWN)) or 'dynamic'}")
    return tables


def version():
    """The version, which stands in one place of the package."""
    return re.search(r'^__version__ = "([0-9.]+)"$', (PACKAGE / "_library.py").read_text("utf-8"), re.M)[1]


def description():
    """What is told of the package, in the lines of METADATA and PKG-INFO."""
    tables = project()
    told = tables["project"]
    lines = ["Metadata-Version: 2.1", f"Name: {told['name']}", f"Version: {version()}", f"Summary: {told['description']}"]
    lines += [f"Keywords: {','.join(told['keywords'])}", *(f"Classifier: {line}" for line in told["classifiers"])]
    lines += [f"Requires-Python: {told['requires-python']}", "Description-Content-Type: text/markdown"]
    for extra, wanted in tables["project.optional-dependencies"].items():
        lines += [f"Provides-Extra: {extra}", *(f"Requires-Dist: {it} ; extra == '{extra}'" for it in wanted)]
    return ("\n".join(lines) + "\n\n" + (TOP / told["readme"]).read_text("utf-8")).encode()


def entry_points():
    """What other packages find this one by: the tables [project.entry-points]."""
    heads = {table.split(".", 2)[2]: points for table, points in project().items() if table.startswith("project.entry-points.")}
    return "\n".join(f"[{head}]\n" + "".join(f"{name} = {place}\n" for name, place in points.items()) for head, points in heads.items()).encode()


def library():
    """The bytes of the library to take: the one that KCORE_LIBRARY names, or else the one of these sources.

    In a checkout that is the one of c/build.sh, or the packed one of dist/, which dist/library.sh unpacks. A source archive has it in
    build/.
    """
    named = os.environ.get("KCORE_LIBRARY")
    finder = TOP / "dist" / "library.sh"
    path = Path(named) if named else TOP / "build" / "libkcore.so"
    if not named and finder.is_file():
        found = subprocess.run(["sh", str(finder)], stdout=subprocess.PIPE, stderr=subprocess.PIPE, text=True)
        if found.returncode:
            raise SystemExit(f"{found.stderr.strip()}, or name one in KCORE_LIBRARY")
        path = Path(found.stdout.rstrip("\n")) / "libkcore.so"
    if not path.is_file():
        raise SystemExit(f"there is no library {path}: make it by c/build.sh, or name another in KCORE_LIBRARY")
    return path.read_bytes()


def package():
    """The files of the package without the library: their names from python/ on, and their bytes."""
    paths = [path for pattern in ("*.py", "*.pyi", "py.typed", "_page/*") for path in PACKAGE.glob(pattern)]
    return {str(path.relative_to(PACKAGE.parent)): path.read_bytes() for path in paths}


def packed(folder, files, tag):
    """Writes a wheel of these files, and answers its name."""
    stem = f"{project()['project']['name']}-{version()}"
    told = {
        "METADATA": description(),
        "WHEEL": f"Wheel-Version: 1.0\nGenerator: kcore_build ({version()})\nRoot-Is-Purelib: false\nTag: {tag}\n\n".encode(),
        "entry_points.txt": entry_points(),
        "top_level.txt": b"kcore\n",
    }
    record = f"{stem}.dist-info/RECORD"
    listed = sorted(files.items(), key=lambda it: os.path.split(it[0])) + [(f"{stem}.dist-info/{name}", content) for name, content in told.items()]
    sums = [base64.urlsafe_b64encode(hashlib.sha256(content).digest()).rstrip(b"=").decode() for _, content in listed]
    rows = [f"{name},sha256={known},{len(content)}\n" for (name, content), known in zip(listed, sums)]
    listed.append((record, "".join([*rows, f"{record},,\n"]).encode()))
    with zipfile.ZipFile(Path(folder) / f"{stem}-{tag}.whl", "w", zipfile.ZIP_DEFLATED) as wheel:
        for name, content in listed:
            entry = zipfile.ZipInfo(name)
            entry.compress_type, entry.external_attr = zipfile.ZIP_DEFLATED, 0o100644 << 16
            wheel.writestr(entry, content)
    return f"{stem}-{tag}.whl"


def build_wheel(wheel_directory, config_settings=None, metadata_directory=None):
    """A wheel for each Python 3, and for the platform of the library: this one, or the one that the setting `platform` names."""
    platform = (config_settings or {}).get("platform") or re.sub(r"[-.]", "_", sysconfig.get_platform())
    return packed(wheel_directory, {**package(), "kcore/libkcore.so": library()}, f"py3-none-{platform}")


def build_editable(wheel_directory, config_settings=None, metadata_directory=None):
    """A wheel that leads to python/ of this checkout, where the package finds the library in build/."""
    library()
    return packed(wheel_directory, {"__editable__.kcore.pth": f"{PACKAGE.parent}\n".encode()}, "py3-none-any")


def build_sdist(sdist_directory, config_settings=None):
    """A source archive with the library in build/, so that a wheel can be made of it."""
    stem = f"{project()['project']['name']}-{version()}"
    files = {f"python/{name}": content for name, content in package().items()}
    for name in ("README.md", "pyproject.toml", project()["project"]["readme"], str(Path(__file__).resolve().relative_to(TOP))):
        files[name] = (TOP / name).read_bytes()
    files.update({"PKG-INFO": description(), "build/libkcore.so": library()})
    with open(Path(sdist_directory) / f"{stem}.tar.gz", "wb") as target, gzip.GzipFile("", "wb", 9, target, BEGIN) as stream:
        with tarfile.open(fileobj=stream, mode="w", format=tarfile.PAX_FORMAT) as archive:
            for name, content in sorted(files.items()):
                entry = tarfile.TarInfo(f"{stem}/{name}")
                entry.size, entry.mtime, entry.mode = len(content), BEGIN, 0o644
                archive.addfile(entry, io.BytesIO(content))
    return f"{stem}.tar.gz"
