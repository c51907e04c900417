#!/usr/bin/env python3
"""Looks up the names of the documents in the sources.

    python3 bench/check_map.py

docs/MAP.md: a row has a promise and five cells of names in backticks, parted by commas: functions, definitions, lemmas, edits and tests
of the crate that the heading names. Edits that stand in no row are named too.

docs/DEFINITIONS.md: each word in backticks of a row's first cell is looked up in the files of its column `Where`. A bare `File.antt` there is
of the crate that was named last, and `the same` is the cell above.

README.md, CONTRIBUTING.md, SECURITY.md, CHANGELOG.md and the other pages: each name in backticks that has an underscore, a capital inside or
`::` is a word of the sources, but those of OUTSIDE. Of docs/ARCHITECTURE.md and docs/TRUST.md that is each name in backticks. And each file
that a page names is there: by its path, by the path in its crate, or by its name.

docs/DECISIONS.md has a table of the public names that several crates have; it is compared with the sources.

A name that is not found is printed with its line, and the status is 1 then.
"""
import pathlib
import re
import sys

TOP = pathlib.Path(__file__).resolve().parent.parent
CRATES = TOP / "crates"
DOCS = TOP / "docs"
OUTSIDE = {"CachePadded", "Backoff", "crossbeam_utils", "par_for_each_mut", "mov", "xchg"}  # names of the kit and of processors that no source here has
ALL_NAMES = {"ARCHITECTURE.md", "TRUST.md"}  # the pages of which every name is looked up
FILE = re.compile(r"[\w-]+(?:/[\w.-]+)*\.(?:rt|antt|edit|md|py|sh|h|hpp|c|cpp)")


def text_of(path):
    return path.read_text(encoding="utf-8") if path.is_file() else ""


def source_of(crate, parts):
    """The text of the file that a Rust path names, and what is left of the path behind it."""
    if (CRATES / parts[0]).is_dir():
        crate, parts = parts[0], parts[1:]
    for length in range(len(parts) - 1, 0, -1):
        path = (CRATES / crate / "src" / "/".join(parts[:length])).with_suffix(".rt")
        if path.is_file():
            return text_of(path), parts[length:]
    return text_of(CRATES / crate / "src" / "lib.rt"), parts


def has_function(crate, name):
    """`file::Type::function`; without a file it stands in lib.rt."""
    text, (*owner, function) = source_of(crate, name.split("::"))
    if owner and not re.search(rf"\b(?:impl|trait)\b[^{{\n]*\b{owner[0]}\b", text):
        return False
    return re.search(rf"\bfn {function}\b", text) is not None


def antt_of(crate, folder, name):
    """The text of the file of `File.word` or `crate.File.word`, and the word."""
    *place, file, word = name.split(".")
    return text_of(CRATES / (place[0] if place else crate) / folder / f"{file}.antt"), word


def has_definition(crate, name):
    text, word = antt_of(crate, "specs", name)
    return re.search(rf"^(?:[a-z]+ )*{re.escape(word)}(?=[ :(\n])", text, re.M) is not None


def has_lemma(crate, name):
    """The lemma stands in its file, and some answer of this crate cites it."""
    text, word = antt_of(crate, "proofs", name)
    stated = re.search(rf"^ *(?:[a-z]+ )*pub (?:[a-z]+ )*{re.escape(word)}\s*:", text, re.M)
    cited = re.compile(rf"(?<![\w-]){re.escape(word)}(?![\w-])")
    return stated is not None and any(cited.search(text_of(path)) for path in (CRATES / crate / "proofs").glob("*/**/*.antt"))


def has_edit(crate, name):
    return any((CRATES / crate / folder / f"{name}.edit").is_file() for folder in ("must-fail", "planted"))


def has_test(crate, name):
    """A test by its path, or a script or program by its place."""
    if "/" in name:
        return (TOP / name).exists()
    text, (*_, function) = source_of(crate, name.split("::"))
    return re.search(rf"#\[test\]\s+(?:#\[[^\n]*\]\s+)*fn {function}\b", text) is not None


KINDS = [("function", has_function), ("definition", has_definition), ("lemma", has_lemma), ("edit", has_edit), ("test", has_test)]


def faults_of_row(crate, cells):
    for (kind, is_there), cell in zip(KINDS, cells):
        names = re.findall(r"`([^`]+)`", cell)
        if not names and cell.strip() != "none":
            yield f"neither a {kind} nor 'none'"
        yield from (f"no {kind} {name} in {crate}" for name in names if not is_there(crate, name))


def edits_without_a_row(text):
    return [f"in no row: {path.relative_to(TOP)}" for path in sorted([*CRATES.glob("*/must-fail/*.edit"), *CRATES.glob("*/planted/*.edit")]) if f"`{path.stem}`" not in text]


def faults_of_map():
    """The rows of docs/MAP.md, and what is wrong with them."""
    crate, rows, faults = "", 0, []
    text = text_of(DOCS / "MAP.md")
    for place, line in enumerate(text.splitlines(), 1):
        if line.startswith("## "):
            crate = line[3:].strip()
        cells = line.split("|")[2:-1]
        if not line.startswith("| ") or cells[0].strip() == "Function":
            continue
        rows += 1
        wrong = list(faults_of_row(crate, cells)) if len(cells) == len(KINDS) else [f"{len(cells)} cells of names"]
        faults += [f"docs/MAP.md:{place}: {fault}" for fault in wrong]
    return rows, faults + edits_without_a_row(text)


def files_of(cell, before):
    """The files that a cell of the column `Where` names."""
    files = list(before) if "the same" in cell else []
    crate = before[-1].split("/")[0] if before else ""
    for name in re.findall(r"`([^`]+)`", cell):
        if "/" in name:
            crate = name.split("/")[0]
            files.append(name)
        else:
            files.append(f"{crate}/{name}" if name.startswith(("src/", "specs/")) else f"{crate}/specs/{name}")
    return files


def is_defined(name, files):
    """A word of specs/, or a type, constant, variant or function of src/."""
    word = re.escape(name)
    stated = re.compile(rf"^ *(?:[a-z]+ )*{word}(?=[ :(\n])", re.M)
    coded = re.compile(rf"\b(?:struct|enum|trait|type|const|fn) {word}\b|^ +{word}(?= *[,({{])", re.M)
    return any((stated if file.endswith(".antt") else coded).search(text_of(CRATES / file)) for file in files)


def faults_of_definitions():
    """The words of docs/DEFINITIONS.md that are looked up, and those that are not found where they are said to stand."""
    looked_up, faults, column, files = 0, [], None, []
    for place, line in enumerate(text_of(DOCS / "DEFINITIONS.md").splitlines(), 1):
        cells = [cell.strip() for cell in line.strip().strip("|").split("|")] if line.startswith("|") else []
        if not cells:
            column = None
        elif "Where" in cells:
            column, files = cells.index("Where"), []
        elif column is not None and len(cells) > column and not cells[0].startswith("---"):
            files = files_of(cells[column], files)
            faults += [] if files else [f"docs/DEFINITIONS.md:{place}: no file is named"]
            faults += [f"docs/DEFINITIONS.md:{place}: no file {file}" for file in files if not (CRATES / file).is_file()]
            for name in re.findall(r"`([^\s`]+)[^`]*`", cells[0]):
                looked_up += 1
                if not is_defined(name, files):
                    faults.append(f"docs/DEFINITIONS.md:{place}: no {name} in {', '.join(files)}")
    return looked_up, faults


def words_of_sources():
    """Each word of the sources and of the names of their files and folders, and those of each crate."""
    lines = text_of(TOP / "crates.txt").splitlines()
    here = {re.split(r"[\s:]", line)[0]: set() for line in lines if line.strip() and not line.startswith("#")}
    folders = {name: [CRATES / name] for name in here} | {"": [TOP / it for it in ("bench", "c", "dist", "include", "python")]}
    for name, places in folders.items():
        words = here.setdefault(name, set())
        for path in (it for place in places for it in place.rglob("*") if "out" not in it.relative_to(TOP).parts):
            words.update(re.findall(r"\w+", path.name))
            if path.suffix in (".rt", ".antt", ".h", ".c", ".cpp", ".py", ".sh"):
                words.update(re.findall(r"\w+", text_of(path)))
    everywhere = set().union(*here.values(), re.findall(r"\w+", "\n".join(lines)))
    return {it for it in everywhere if not it.startswith("kc_") or it in here}, here


def files_there():
    """The path of each file from the top, and each end of it that begins with a name."""
    paths = [it.relative_to(TOP).parts for it in TOP.rglob("*.*")]
    return {"/".join(parts[begin:]) for parts in paths if not {"out", ".git"} & set(parts) for begin in range(len(parts))}


def faults_of_page(page, everywhere, here, there):
    """Names of a page that are looked up, and those that are not found: `kc_x::name` in its crate, others and files anywhere."""
    looked_up, faults = 0, []
    for place, line in enumerate(text_of(page).splitlines(), 1):
        for quoted in re.findall(r"`([^`]+)`", line):
            if FILE.fullmatch(quoted) and "FILE" not in quoted:
                looked_up += 1
                faults += [] if quoted in there else [f"{page.relative_to(TOP)}:{place}: no file {quoted}"]
                continue
            for path in re.findall(r"[A-Za-z_]\w*(?:::[A-Za-z_]\w*)*", quoted):
                crate, *rest = path.split("::")
                words = here[crate] if rest and crate in here else everywhere
                names = [it for it in (rest if rest else [crate]) if "::" in path or page.name in ALL_NAMES or re.search(r"[a-z]_[a-z]|[a-z][A-Z]", it)]
                looked_up += len(names)
                faults += [f"{page.relative_to(TOP)}:{place}: no {name} in the sources" for name in names if name not in words | OUTSIDE]
    return looked_up, faults


def names_of(crate):
    """The public names of a crate: types and functions of src/ that stand at the margin, and words of specs/."""
    coded = re.compile(r"^pub (?:struct|enum|trait|type|fn) (\w+)", re.M)
    stated = re.compile(r"^(?:abbrev pub|unfoldable pub|pub record|pub data|pub) (?!mod |use |record |data )([\w']+)(?=[ :(\n])", re.M)
    for folder, suffix, name in (("src", "rt", coded), ("specs", "antt", stated)):
        for path in (CRATES / crate / folder).rglob(f"*.{suffix}"):
            yield from name.findall(text_of(path))


def faults_of_names(crates):
    """Public names that stand in several crates and not in the table of docs/DECISIONS.md, or the other way round."""
    found = {}
    for crate in crates:
        if crate.startswith("kc_") and not crate.endswith("_tests"):
            for name in set(names_of(crate)):
                found.setdefault(name, set()).add(crate)
    section = re.search(r"^## Names that several crates have$(.*?)^## ", text_of(DOCS / "DECISIONS.md"), re.M | re.S)
    listed = {}
    for line in section.group(1).splitlines() if section else []:
        cells = line.strip().strip("|").split("|")
        if line.startswith("| `") and len(cells) == 3:
            listed.update({name: set(re.findall(r"`([^`]+)`", cells[1])) for name in re.findall(r"`([^`]+)`", cells[0])})
    several = {name: of for name, of in found.items() if len(of) > 1}
    for name in sorted(several.keys() | listed.keys()):
        here, said = several.get(name, set()), listed.get(name, set())
        if here != said:
            yield f"docs/DECISIONS.md: {name}: the table has {sorted(said) or 'no row'}, the sources {sorted(here) or 'at most one crate'}"


def main():
    rows, faults = faults_of_map()
    defined, more = faults_of_definitions()
    faults += more
    everywhere, here = words_of_sources()
    faults += faults_of_names(here)
    named, there = 0, files_there()
    for page in [*(TOP / it for it in ("README.md", "CONTRIBUTING.md", "SECURITY.md", "CHANGELOG.md", "bench/README.md")), *sorted(DOCS.glob("*.md"))]:
        if page.name != "MAP.md":
            count, more = faults_of_page(page, everywhere, here, there)
            named, faults = named + count, faults + more
    print("\n".join(faults + [f"{rows} rows, {defined} definitions, {named} names on other pages, {len(faults)} faults"]))
    return 1 if faults or not rows or not defined else 0


if __name__ == "__main__":
    sys.exit(main())
