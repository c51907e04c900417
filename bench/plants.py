#!/usr/bin/env python3
"""Tries wrong bodies in the library crates by `rt plant`, and writes what came of it to docs/TESTING.md.

    python3 bench/plants.py [--minutes N] [--max N] [NAME..]   tries these crates, or each library of crates.txt, lowest first; then writes the page
    python3 bench/plants.py --write                            writes the page from what earlier runs have left, and tries nothing
    python3 bench/plants.py --check                            tells whether the page is that, and tries and writes nothing

`rt plant` puts a wrong body under a function's signature and clauses, and asks the prover whether it meets them. A body may give up, answer a
constant, or call the real function and change an argument, the result or a field. It proves nothing of the crate, and it needs rt. A crate takes
the time of a check, and then up to --minutes (10 where that is not given), in which up to --max bodies (400) are tried.

bench/plants/NAME.txt has what came of a crate's last run. This script makes it: a sum over the crate's sources, the time, how many bodies came to
each end, and one line for each body that was proved, each function that takes no such body, and each cause for which bodies were not judged.

bench/plants.txt says why a body that was proved is right. It is kept by hand. A line names the crate, the function and the body, or `*` for each
body of that function; the indented lines behind it say why. They begin with `right` where the body does what is promised, and with `open` where
the contract should say more.

The page has a table between the lines '<!-- plants -->' and '<!-- end -->': a row for each crate that was tried, how many were not, and
each body that was proved with its reason. The status is 1 where a body has no reason yet, where a crate's run came to no end, or where --check
finds another page.
"""
import argparse
import collections
import hashlib
import pathlib
import re
import resource
import subprocess
import sys
import time

TOP = pathlib.Path(__file__).resolve().parent.parent
CRATES = TOP / "crates"
KEPT = TOP / "bench" / "plants"
REASONS = TOP / "bench" / "plants.txt"
PAGE = TOP / "docs" / "TESTING.md"
BEGIN, END = "<!-- plants -->", "<!-- end -->"

ENDS = "proves same refused elsewhere not-judged not-source not-run".split()
ROW = re.compile(r"^(proves|not-judged|no-ensures|untested) +(\S+?):\d+ (.+?)(?:\(\)|: \{ ?(.*?) ?\}(?:  \((.*)\))?)$", re.M)
LAST = re.compile(r"^plants crate=(\w+) (.*)$", re.M)


def libraries():
    """The libraries of crates.txt but those of tests, lowest first."""
    lines = (TOP / "crates.txt").read_text(encoding="utf-8").splitlines()
    names = [re.split(r"[\s:]", line)[0] for line in lines if line.strip() and not line.startswith("#")]
    return [it for it in names if (CRATES / it / "src" / "lib.rt").is_file() and not it.endswith("_tests")]


def sum_of(crate):
    """A sum over the files that a check of the crate reads of it."""
    made = hashlib.sha256()
    for part in ("src", "specs", "proofs"):
        for path in sorted(it for it in (CRATES / crate / part).rglob("*") if it.is_file()):
            made.update(f"{path.relative_to(CRATES)}\n".encode() + path.read_bytes())
    return made.hexdigest()[:16]


def rows_in(said):
    """What is kept of the lines of `rt plant --all`: the bodies that are proved, the functions without, and causes with how often they came."""
    rows, causes = [], collections.Counter()
    for kind, file, function, body, cause in ROW.findall(said):
        if kind == "not-judged":
            causes[cause or "no cause was told"] += 1
        else:
            rows.append(f"{kind} {file} {function}" + f": {{ {body} }}" * (kind == "proves"))
    order = ("proves", "no-ensures", "untested")
    rows = sorted(dict.fromkeys(rows), key=lambda it: order.index(it.split()[0]))
    return rows + [f"not-judged {count} {cause}" for cause, count in causes.most_common()]


def try_crate(crate, minutes, most):
    """Runs `rt plant` in the crate and keeps what came of it. Returns whether it came to its end."""
    print(f"plants.py: {crate}", file=sys.stderr, flush=True)
    words = ["rt", "plant", "--all", "--minutes", str(minutes), "--max", str(most), "--jobs", "1"]
    began, before = time.monotonic(), resource.getrusage(resource.RUSAGE_CHILDREN)
    how = {"cwd": CRATES / crate, "stdin": subprocess.DEVNULL, "stdout": subprocess.PIPE, "encoding": "utf-8", "errors": "replace"}
    own_sum = sum_of(crate)
    ran = subprocess.run(words, **how)
    after = resource.getrusage(resource.RUSAGE_CHILDREN)
    last = LAST.search(ran.stdout)
    if ran.returncode or not last or last.group(1) != crate:
        print(f"plants.py: rt plant came to no end in crates/{crate}", file=sys.stderr)
        return False
    spent = after.ru_utime + after.ru_stime - before.ru_utime - before.ru_stime
    lines = [
        f"# Made by bench/plants.py: what rt plant said of {crate}.",
        f"sources {own_sum}",
        f"asked minutes={minutes} max={most}",
        f"took seconds={time.monotonic() - began:.0f} processor={spent:.0f}",
        f"counts {last.group(2)}",
        *rows_in(ran.stdout),
    ]
    KEPT.mkdir(exist_ok=True)
    (KEPT / f"{crate}.txt").write_text("\n".join(lines) + "\n", encoding="utf-8")
    print(f"plants.py: {last.group()}", file=sys.stderr, flush=True)
    return True


class Outcome:
    """What the last run of a crate has left."""

    def __init__(self, crate):
        lines = (KEPT / f"{crate}.txt").read_text(encoding="utf-8").splitlines()
        heads = {line.split()[0]: line.split()[1:] for line in lines[1:5]}
        self.crate, self.is_present = crate, heads["sources"] == [sum_of(crate)]
        self.counts = {it.partition("=")[0]: int(it.partition("=")[2]) for it in heads["counts"]}
        self.took = dict(it.split("=") for it in heads["took"])
        self.proved = [line.split(" ", 2)[2] for line in lines[5:] if line.startswith("proves ")]
        self.bare = [line.split(" ", 2)[2] for line in lines[5:] if line.startswith("no-ensures ")]


def outcomes():
    return [Outcome(it) for it in libraries() if (KEPT / f"{it}.txt").is_file()]


def reasons():
    """The reasons by crate and body; `FUNCTION: *` stands for each body of a function."""
    found, here = {}, None
    for line in REASONS.read_text(encoding="utf-8").splitlines() if REASONS.is_file() else []:
        if line.startswith("    ") and here:
            found[here] = f"{found[here]} {line.strip()}".strip()
        elif line.strip() and not line.startswith("#"):
            here = tuple(line.strip().split(" ", 1))
            found[here] = ""
    return found


def reason_of(crate, body, known):
    key = (crate, body) if (crate, body) in known else (crate, body.split(": {")[0] + ": *")
    return known.get(key, "")


def cell(text):
    """Code in a cell of a table."""
    return f"`{text}`".replace("|", "\\|")


def table(found):
    rows = ["| Crate | Functions | Refused | Proved | The same | Elsewhere | Not judged | Not run |", "|---|---|---|---|---|---|---|---|"]
    for it in found:
        ends = [it.counts[end] for end in ("refused", "proves", "same", "elsewhere", "not-judged", "not-run")]
        rows.append(f"| `{it.crate}`{'' if it.is_present else ' (earlier sources)'} | {it.counts['planted-in']} | {' | '.join(map(str, ends))} |")
    return rows


def block():
    """The lines of the page, and the bodies that have no reason yet."""
    found, known, lacking = outcomes(), reasons(), []
    tried = [it.crate for it in found]
    left = [it for it in libraries() if it not in tried]
    lines = ["", *table(found), ""] if found else [""]
    lines += [f"Not tried so far, of {len(libraries())} libraries: {len(left)}." if left else f"Each of {len(libraries())} libraries was tried.", ""]
    rows = [(it.crate, body) for it in found for body in [*it.proved, *(f"{bare}: {{ any }}" for bare in it.bare)]]
    if rows:
        lines += ["| Crate | Function and the body that was proved | Why |", "|---|---|---|"]
    for crate, body in rows:
        why = reason_of(crate, body, known)
        if not why:
            lacking.append((crate, body))
        lines.append(f"| `{crate}` | {cell(body)} | {why or 'no reason yet'} |")
    return lines + [""] * bool(rows), lacking


def page_with(lines):
    text = PAGE.read_text(encoding="utf-8")
    if BEGIN not in text:
        sys.exit(f"plants.py: docs/{PAGE.name} has no line {BEGIN}")
    head, rest = text.split(f"{BEGIN}\n", 1)
    return head + "\n".join([BEGIN, *lines]) + "\n" + rest[rest.index(END) :]


def main():
    asked = argparse.ArgumentParser(description="Tries wrong bodies by rt plant, and writes what came of it to docs/TESTING.md.")
    asked.add_argument("names", nargs="*")
    asked.add_argument("--minutes", type=int, default=10)
    asked.add_argument("--max", type=int, default=400)
    asked.add_argument("--write", action="store_true", help="write the page from what is kept")
    asked.add_argument("--check", action="store_true", help="compare the page with what is kept")
    words = asked.parse_args()
    wrong = [it for it in words.names if it not in libraries()]
    if wrong:
        sys.exit(f"plants.py: no library of crates.txt: {' '.join(wrong)}")
    status = 0
    for crate in [] if words.write or words.check else words.names or libraries():
        status |= not try_crate(crate, words.minutes, words.max)
    lines, lacking = block()
    page = page_with(lines)
    for crate, body in lacking:
        print(f"no reason yet: {crate} {body}")
    if words.check and page != PAGE.read_text(encoding="utf-8"):
        print("docs/TESTING.md: not what bench/plants/ has; bench/plants.py --write writes it")
        status = 1
    elif not words.check:
        PAGE.write_text(page, encoding="utf-8")
    sys.exit(1 if status or lacking else 0)


if __name__ == "__main__":
    main()
