#!/usr/bin/env python3
"""Compares the version in all places that show it with the first of PLACES: that of the crate kc_c, which the library tells.

    python3 bench/check_version.py

The proved sources can't take it from a file, so it is written out in each place. `cores --version` has it from kc_wishes, pip and the wheel
from the Python package. CHANGELOG.md has it in the heading of its first section that has a number. A place that has another version, or
that is not found, is printed, and the status is 1 then. Else the version is printed.
"""
import pathlib
import re
import sys

TOP = pathlib.Path(__file__).resolve().parent.parent

# File, what the place is, and a pattern of it, with the version as numbers with dots or underscores, or packed in one hexadecimal number.
PLACES = [
    ("crates/kc_c/src/lib.rt", "the number that kcore_version answers", r"^pub const VERSION: u32 = (0x[0-9a-f_]+);"),
    ("crates/kc_c/src/lib.rt", "its comment", r"^/// The version of these functions, ([0-9.]+):"),
    ("c/calls.c", "its test's number", r"kcore_version\(\) == KCORE_VERSION && KCORE_VERSION == ([0-9]+)\)"),
    ("include/kcore.h", "KCORE_VERSION", r"^#define KCORE_VERSION (0x[0-9a-f]+)u$"),
    ("include/kcore.h", "its comment", r"^/\* The version that this header is for, ([0-9.]+):"),
    ("crates/kc_wishes/src/words.rt", "what cores --version writes", r'^pub const VERSION: &str = "([0-9.]+)";'),
    ("python/kcore/_library.py", "kcore.__version__", r'^__version__ = "([0-9.]+)"$'),
    ("CITATION.cff", "version", r"^version: ([0-9.]+)$"),
    ("CHANGELOG.md", "the first section with a number", r"^## ([0-9.]+)$"),
    ("docs/FROM-C.md", "the number of kcore_version", r"answers the version of the crate, ([0-9.]+), as"),
    ("docs/FROM-C.md", "the same, packed", r"answers the version of the crate, [0-9.]+, as (0x[0-9a-f]+)\."),
]
# pyproject.toml has no version of its own; python/building/kcore_build.py reads that of the package.
DYNAMIC = ("pyproject.toml", "the version", r'^dynamic = \["(version)"\]$')


def dotted(found):
    """The version as three numbers with dots."""
    if re.fullmatch(r"0x[0-9a-f_]+|[0-9]+", found):
        packed = int(found.replace("_", ""), 0)
        return f"{packed >> 16}.{packed >> 8 & 255}.{packed & 255}"
    return found.replace("_", ".")


def found_at(file, pattern):
    found = re.search(pattern, (TOP / file).read_text(encoding="utf-8"), re.M)
    return found and found[1]


def main():
    file, _, pattern = PLACES[0]
    first = dotted(found_at(file, pattern) or "none")
    faults = []
    for file, what, pattern in PLACES:
        found = found_at(file, pattern)
        if found is None:
            faults.append(f"{file}: {what} is not found")
        elif dotted(found) != first:
            faults.append(f"{file}: {what} is {dotted(found)} ({found}), and {PLACES[0][0]} has {first}")
    file, what, pattern = DYNAMIC
    if found_at(file, pattern) is None:
        faults.append(f"{file}: {what} is not left to the build")
    for fault in faults:
        print(fault, file=sys.stderr)
    if not faults:
        print(first)
    return bool(faults)


if __name__ == "__main__":
    sys.exit(main())
