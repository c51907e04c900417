#!/usr/bin/env python3
"""Compares the layers of crates.txt with the table of docs/ARCHITECTURE.md and with the heads of the crates.

    python3 bench/check_layers.py

crates.txt has the crates in groups, each under a line '## NAME: ..', lowest first. The table has the same groups with the same
crates in the same order. Checked is that no crate stands before one that it stands on; that each root file begins with a `//!` head;
that each crate which a head says to stand on is in its line of crates.txt; and that the names of the table's last column are found in
the sources of their crate. The drawing of the layers has a line for each group of libraries and programs, with its crates; each arrow leads
to a crate that one before it stands on. What differs is printed, and the status is 1 then.
"""
import pathlib
import re
import sys

TOP = pathlib.Path(__file__).resolve().parent.parent
NAME = re.compile(r"`([^`]+)`")


def groups_of_crates():
    """The groups of crates.txt: for each its crates, in order, with what each stands on."""
    groups, here = {}, None
    for line in (TOP / "crates.txt").read_text(encoding="utf-8").splitlines():
        if line.startswith("## "):
            here = groups.setdefault(line[3:].partition(":")[0].strip(), {})
        elif line.strip() and not line.startswith("#"):
            head, _, below = line.partition(":")
            here[head.split()[0]] = below.split()
    return groups


def groups_of_table():
    """The groups of the table: for each its crates, in order, with the names of the last column."""
    text = (TOP / "docs/ARCHITECTURE.md").read_text(encoding="utf-8")
    section = re.search(r"^## The crates$(.*?)^## ", text, re.M | re.S).group(1)
    groups, here = {}, None
    for line in section.splitlines():
        cells = [it.strip() for it in line.strip().strip("|").split("|")]
        if line.startswith("| **"):
            here = groups.setdefault(cells[0].strip("*"), {})
        elif line.startswith("| `") and here is not None:
            for crate in NAME.findall(cells[0]):
                here[crate] = NAME.findall(cells[2])
    return groups


def head_of(crate):
    """The `//!` lines at the top of a crate's root file."""
    folder = TOP / "crates" / crate / "src"
    path = next(it for it in (folder / "lib.rt", folder / "main.rt") if it.is_file())
    lines = path.read_text(encoding="utf-8").splitlines()
    return [it[3:].strip() for it in lines if it.startswith("//!")]


def faults_of_order(groups):
    seen = set()
    everyone = {crate for group in groups.values() for crate in group}
    for group in groups.values():
        for crate, below in group.items():
            for low in below:
                if low in everyone and low not in seen:
                    yield f"crates.txt: {crate} stands before {low}, on which it stands"
            seen.add(crate)


def faults_of_heads(groups):
    for group in groups.values():
        for crate, below in group.items():
            head = " ".join(head_of(crate))
            if not head:
                yield f"crates/{crate}: no `//!` head"
            for sentence in re.findall(r"[Tt]he crate stands on ([^.:;]*)", head):
                for low in NAME.findall(sentence):
                    if low.startswith("kc_") and low not in below:
                        yield f"crates/{crate}: its head says that it stands on {low}, crates.txt does not"


def faults_of_table(groups, table):
    if list(groups) != list(table):
        yield f"the groups differ: {', '.join(groups)} in crates.txt, {', '.join(table)} in docs/ARCHITECTURE.md"
    for name, group in groups.items():
        if list(group) != list(table.get(name, {})):
            yield f"group {name}: {' '.join(group)} in crates.txt, {' '.join(table.get(name, {}))} in docs/ARCHITECTURE.md"
    for group in table.values():
        for crate, names in group.items():
            folder = TOP / "crates" / crate
            text = "".join(it.read_text(encoding="utf-8") for it in sorted(folder.glob("src/**/*.rt")) + sorted(folder.glob("specs/*.antt")))
            for name in names:
                if not re.search(rf"\b{re.escape(name.split('::')[-1])}\b", text):
                    yield f"docs/ARCHITECTURE.md: `{name}` is not found in {crate}"


def lines_of_drawing():
    """The lines of the drawing: the name of a group, and its chains of arrows, each a list of lists of crates."""
    text = (TOP / "docs/ARCHITECTURE.md").read_text(encoding="utf-8")
    drawing = re.search(r"^## The layers$.*?^```$(.*?)^```$", text, re.M | re.S).group(1)
    for line in filter(str.strip, drawing.splitlines()):
        name, *chains = re.split(r" {2,}", line.strip())
        yield name, [[re.findall(r"\w+", link) for link in chain.split("->")] for chain in chains]


def faults_of_drawing(groups):
    below = {crate: lower for group in groups.values() for crate, lower in group.items()}
    drawn = {}
    for name, chains in lines_of_drawing():
        for chain in chains:
            for upper, lower in zip(chain, chain[1:]):
                reached = {low for crate in upper for low in below.get(crate, [])}
                yield from (f"the drawing: none of {', '.join(upper)} stands on {low}" for low in lower if low not in reached)
                yield from (f"the drawing: {crate} stands on none of {', '.join(lower)}" for crate in upper if not set(lower) & set(below.get(crate, [])))
        drawn[name] = {crate for chain in chains for link in chain for crate in link}
        if name not in groups:
            yield f"the drawing: there is no group {name}"
    for name, crates in drawn.items():
        yield from (f"the drawing: {crate} of {name} is missing" for crate in groups.get(name, {}) if crate.startswith("kc_") and crate not in crates)
        yield from (f"the drawing: {crate} of {name} is no crate" for crate in crates if crate not in below)


def main():
    groups, table = groups_of_crates(), groups_of_table()
    faults = [*faults_of_order(groups), *faults_of_heads(groups), *faults_of_table(groups, table), *faults_of_drawing(groups)]
    for fault in faults:
        print(fault)
    print(f"{sum(map(len, groups.values()))} crates in {len(groups)} groups, {len(faults)} differ")
    return 1 if faults else 0


if __name__ == "__main__":
    sys.exit(main())
