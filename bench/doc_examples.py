#!/usr/bin/env python3
"""The examples in doc comments: whether they stand there as they were tried, and whether they run.

    python3 bench/doc_examples.py              looks whether each comment has its example, and each example its entry; status 1 where not
    python3 bench/doc_examples.py --write      puts each example that is not there at the end of its item's comment
    python3 bench/doc_examples.py --run        has the kit compile and run them all, in a copy of the repository: `rt try --test`, some minutes

`doc_examples.txt` has them: each block of code in a doc comment of `crates/*/src`. A block there begins with `@ FILE :: BEGINNING OF THE ITEM`.
A line `T| ..` stands in the test alone: it asserts what the comment says. The copy takes the libraries that are built here.
"""
import argparse
import os
import pathlib
import re
import shutil
import subprocess
import sys
import tempfile

TOP = pathlib.Path(__file__).resolve().parent.parent
CRATE = "doc_examples"
LIBRARIES = (
    "kc_io kc_lines kc_files kc_wire kc_dialogue kc_lists kc_graph kc_flat kc_cert kc_tally kc_shard kc_hindex kc_text kc_dialect kc_names kc_head kc_read"
    " kc_threads kc_words kc_table kc_order kc_topo kc_view kc_journal kc_batch_effects kc_shared kc_workers kc_batch kc_run kc_snapshot kc_published kc_keeper"
    " kc_keeper_workers kc_changes kc_stream kc_answers kc_watch kc_top kc_claims kc_wishes kc_cores"
)
IMPORTS = ["std::alloc::Global", "std::process::Abort", "std::sync::Wait", "std::test::Fail", "std::thread::Threads"]
BOUNDS = "R: Abort + AllocGlobal + Threads + Wait + Sync"


def blocks():
    """Each example: the file in crates/, the beginning of its item, and its lines."""
    text = (TOP / "bench" / "doc_examples.txt").read_text(encoding="utf-8")
    for part in re.split(r"(?m)^@ ", text)[1:]:
        head, _, body = part.partition("\n")
        file, _, item = head.partition(" :: ")
        yield file.strip(), item.strip(), body.rstrip("\n").split("\n")


def shown(lines):
    """The lines of an example's comment."""
    kept = []
    for line in lines:
        if not line.startswith("T|") and (line or (kept and kept[-1])):
            kept.append(line)
    while kept and not kept[-1]:
        kept.pop()
    return kept


def tested(lines):
    """The lines of an example's test."""
    return [line.removeprefix("T| ") for line in lines]


def is_import(line):
    return re.match(r"(ghost )?use ", line) is not None


def module(file, item, lines):
    """The module of an example's test."""
    text = tested(lines)
    imports = sorted((line for line in text if is_import(line)), key=lambda line: not line.startswith("ghost"))
    rest = [line for line in text if not is_import(line)]
    head = [f"//! {item} in {file}.", *imports]
    if any("#[test]" in line for line in text):
        return [*head, "", *rest]
    return [
        *head,
        *(f"use {path};" for path in IMPORTS),
        "",
        f"fn example<{BOUNDS}>(rt: &R, alloc: Global) -> Result<(), Fail> {{",
        *rest,
        "Ok(())",
        "}",
        "",
        "#[test]",
        "fn runs(host: HostRuntime) -> Result<(), Fail> {",
        "example(&host, host.alloc())",
        "}",
    ]


def place_in(text, file, item):
    """The line before which the item's comment ends: that of its first attribute, or its own."""
    hits = [at for at, line in enumerate(text) if line.strip().startswith(item)]
    if len(hits) != 1:
        sys.exit(f"{file}: {item} stands {len(hits)} times")
    at = hits[0]
    while text[at - 1].strip().startswith("#["):
        at -= 1
    if not text[at - 1].strip().startswith("///"):
        sys.exit(f"{file}: {item} has no doc comment")
    return at


def comment_of(lines, indent):
    made = ["", "# Example", "", "```rust", *shown(lines), "```"]
    return [f"{indent}/// {line}" if line else f"{indent}///" for line in made]


def look(write):
    """Compares each comment with its example, and puts it there if that is asked for. Gives how many are not there."""
    missing = 0
    for file, item, lines in blocks():
        path = TOP / "crates" / file
        text = path.read_text(encoding="utf-8").split("\n")
        at = place_in(text, file, item)
        comment = comment_of(lines, re.match(r"\s*", text[at]).group())
        if text[at - len(comment) : at] == comment:
            continue
        if write:
            text[at:at] = comment
            path.write_text("\n".join(text), encoding="utf-8")
        else:
            print(f"{file}: the comment of '{item}' has not the example of bench/doc_examples.txt")
            missing += 1
    return missing


def fences(text):
    """Where the code of doc comments begins: the line of each fence, and the line behind its comment. A fence of `text` is a sketch, and no code."""
    is_open = False
    for at, line in enumerate(text):
        if re.match(r"\s*//[/!] ```", line):
            is_open = not is_open
            if is_open and not line.endswith("```text"):
                behind = at
                while re.match(r"\s*//[/!]", text[behind]):
                    behind += 1
                yield at, behind


def look_back():
    """Looks whether each example of a comment is in the list, as the last of its item. Gives how many are not."""
    listed = {}
    for file, item, _ in blocks():
        listed.setdefault(file, []).append(item)
    missing = 0
    for path in sorted((TOP / "crates").glob("*/src/**/*.rt")):
        file = path.relative_to(TOP / "crates").as_posix()
        text = path.read_text(encoding="utf-8").split("\n")
        known = {place_in(text, file, item) for item in listed.get(file, [])}
        last = {behind: at for at, behind in fences(text)}
        for at, behind in fences(text):
            if behind not in known or at != last[behind]:
                print(f"{file}: line {at + 1} begins an example that bench/doc_examples.txt has not, before '{text[behind].strip()}'")
                missing += 1
    return missing


def link_or_copy(source, target):
    try:
        os.link(source, target)
    except OSError:
        shutil.copy2(source, target)


def lend(clone):
    """Gives a clone the libraries that are built here. The kit takes one only where it was built of the same sources."""
    for built in (TOP / "crates").glob("*/out/rlib"):
        if (clone / "crates" / built.parts[-3]).is_dir():
            shutil.copytree(built, clone / built.relative_to(TOP), copy_function=link_or_copy)


def run():
    """Runs the examples as the tests of a crate in a clone. Gives the status."""
    with tempfile.TemporaryDirectory() as folder:
        clone = pathlib.Path(folder) / "clone"
        subprocess.run(["git", "clone", "-q", TOP, clone], check=True)
        lend(clone)
        source = clone / "crates" / CRATE / "src"
        source.mkdir(parents=True)
        root = ["//! The examples of the doc comments.", "#![tactic(auto)]", ""]
        for file, item, lines in blocks():
            name = f"{file.split('/')[0]}_{re.sub(r'[^a-zA-Z0-9_]', '', item.split()[-1])}_example".lower()
            root += ["#[cfg(test)]", f"mod {name};"]
            (source / f"{name}.rt").write_text("\n".join(module(file, item, lines)) + "\n", encoding="utf-8")
        (source / "lib.rt").write_text("\n".join(root) + "\n", encoding="utf-8")
        with open(clone / "crates.txt", "a", encoding="utf-8") as crates:
            crates.write(f"\n{CRATE}: {LIBRARIES}\n")
        return subprocess.run(["rt", "try", "--test"], cwd=clone / "crates" / CRATE).returncode


def main():
    words = argparse.ArgumentParser(description=__doc__, formatter_class=argparse.RawDescriptionHelpFormatter)
    words.add_argument("--write", action="store_true")
    words.add_argument("--run", action="store_true")
    asked = words.parse_args()
    missing = look(asked.write) + look_back()
    if missing:
        sys.exit(1)
    print(f"{sum(1 for _ in blocks())} examples stand in their comments, and there are no others")
    if asked.run:
        sys.exit(run())


main()
