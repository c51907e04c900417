#!/usr/bin/env python3
"""Lists what one must read to trust the output: the files that the promises of both programs reach, in reading order.

    python3 bench/trust.py           compares the lists with docs/TRUST.md, and ends with 1 where the page is stale
    python3 bench/trust.py --write   writes them there

A statement is a function's signature with its clauses. From there each word is followed to where it is defined, by `ghost use` and `use
Rattle.CRATE.specs.FILE.{..}` and by the Rust imports of types. `specs.declared.FILE.NAME` stands for a type, a trait or a constant of
src/FILE.rt: its declaration is read then, and its `impl Model` if it has one. Bodies and proofs are not followed. A word that is spelled
as an import is taken for it, also where it is a variable: so a list may have a word too many, and has none too few.

What is said of a file is the first sentence of its head, which is its first comment or its `//!` lines.

The lists stand between lines '<!-- trust NAME -->' and '<!-- end -->'. Of the rest of the page the names in backticks are looked up in the
sources, the words of a row that has files of a crate in these, and links and the files of commands on the disk.
"""
import functools
import pathlib
import re
import sys

import check_map

TOP = pathlib.Path(__file__).resolve().parent.parent
CRATES = TOP / "crates"
PAGE = TOP / "docs" / "TRUST.md"
RUN, ANSWER = ("kc_top/src/run.rt", "run"), ("kc_cores/src/answer.rt", "answer")
PROGRAMS = (("kc_program/src/program.rt", "run_on"), ("kc_cores/src/program.rt", "answer_on"))
# What a run leaves in `ran` is reached by these words alone.
LEFT = frozenset({("kc_run/src/ran.rt", "Ran"), ("kc_run/specs/Runs.antt", "IsEmpty"), ("kc_top/specs/Leaving.antt", "RunLeaves")})
# Who makes the batches of a stream is a bound of `answer`, and no clause of it speaks of that: what is promised holds whoever it is.
MAKER = frozenset({("kc_keeper/src/maker.rt", "BatchMaker")})

TOKEN = re.compile(r"(?<![\w'.-])[^\W\d][\w'-]*(?:\.[^\W\d][\w'-]*)*")
LABEL = re.compile(r"\b(requires|ensures)( \w+)? (?=\{)")
DEFINED = re.compile(r"(?:(?:abbrev|unfoldable|pub|record|data) )+([^\s:(]+)")
VARIANT = re.compile(r"  (?:pub )?([A-Z]\w*) :")
DECLARED = re.compile(r"(?: {4})?(?:pub(?:\(crate\))? )?(struct|enum|trait|type|const|fn) (\w+)")
MODEL = re.compile(r"impl(?:<[^{]*>)? Model for (\w+)")
GHOST_USE = re.compile(r"^ *(?:ghost )?use (\w+\.[\w.]*\w)(?:\.\{(.*)\}| as (\w+));?$", re.M)
USE = re.compile(r"^(?:pub )?use ((?:\w+::)+)(?:\{([^}]*)\}|(\w+(?: as \w+)?));", re.M)

# A lemma within a part of a file that has premises of its own, and any other line that stands as deep.
INNER = re.compile(r"  (?:pub ([A-Za-z][\w'◌-]*)\s*:|\S)")


class File:
    """The words that a file defines, each with its text, and what its imports lead to: a module or a Rust path, and a name there."""

    def __init__(self, path):
        self.path = path
        self.text = (CRATES / path).read_text(encoding="utf-8")
        self.words, self.variants, self.imports = {}, {}, {}
        for module, names, alias in GHOST_USE.findall(self.text):
            self.imports |= {it.strip(): (module, it.strip()) for it in names.split(",")} if names else {alias: (module, "")}
        if path.endswith(".antt"):
            self.read_definitions()
        else:
            self.read_declarations()

    def read_definitions(self):
        """The words of a file of specs/; of a lemma, which a definition may cite too, the statement alone."""
        here, is_lemma = "", "/proofs/" in self.path
        for line in self.text.splitlines():
            if not line.strip() or line.lstrip().startswith("--") or line.startswith(("use ", "pub mod ", "mod ")):
                continue
            if line[0] not in " })]":
                begins = DEFINED.match(line)
                here = begins.group(1) if begins else "" if is_lemma else line.split()[0]
            elif is_lemma and INNER.match(line):
                here = INNER.match(line).group(1) or ""
            if not here:
                continue
            self.words[here] = self.words.get(here, "") + line + "\n"
            variant = VARIANT.match(line)
            if variant and re.match(r"(?:pub )?data ", self.words[here]):
                self.variants[variant.group(1)] = here

    def read_declarations(self):
        lines = [line for line in self.text.splitlines() if not line.lstrip().startswith(("//", "#"))]
        for at, line in enumerate(lines):
            declared, model = DECLARED.match(line), MODEL.match(line)
            if model or declared and (not line.startswith(" ") or declared.group(1) == "const"):
                name = model.group(1) if model else declared.group(2)
                self.words[name] = self.words.get(name, "") + declaration_in(lines[at:])
        for path, several, one in USE.findall(self.text):
            for name in (several or one).split(","):
                name, _, alias = name.strip().partition(" as ")
                self.imports.setdefault(alias or name, (path.removesuffix("::"), name))


def declaration_in(lines):
    """The declaration that begins here: to the end of its block, and of a function to where its body begins."""
    margin = re.match(" *", lines[0]).group()
    is_function = DECLARED.match(lines[0]) and DECLARED.match(lines[0]).group(1) == "fn"
    for at, line in enumerate(lines):
        if is_function and line == "{":
            return "\n".join(lines[:at]) + "\n"
        if re.match(rf"{margin}\S", line) and line.endswith((";", "}")):
            return "\n".join(lines[: at + 1]) + "\n"
    return "\n".join(lines) + "\n"


@functools.cache
def file_of(path):
    return File(path)


@functools.cache
def crates():
    """The crates of the repository, lowest first."""
    lines = (TOP / "crates.txt").read_text(encoding="utf-8").splitlines()
    return [re.split(r"[\s:]", line)[0] for line in lines if line.strip() and not line.startswith("#")]


@functools.cache
def declared_in(crate, name):
    """Where a crate declares a type, a trait or a constant, or the crate from which it hands it on."""
    for path in sorted((CRATES / crate / "src").rglob("*.rt")):
        if name in file_of(str(path.relative_to(CRATES))).words:
            return str(path.relative_to(CRATES)), name
    path, other = file_of(f"{crate}/src/lib.rt").imports.get(name, ("", ""))
    return declared_in(path.split("::")[0], other) if path.split("::")[0] in crates() else None


def place_of(here, module, name):
    """The file and the word that an import of a file leads to, by a module of specs/ or by a Rust path. None: they are not of this repository."""
    if "." not in module:
        crate = re.sub(r"^(?:crate|self|super)$", here.split("/")[0], module.split("::")[0])
        return declared_in(crate, name) if crate in crates() else None
    first, *rest = module.removeprefix("Rattle.").split(".")
    if first not in crates():
        return None
    if rest[1] != "declared":
        return f"{first}/{rest[0]}/{rest[1]}.antt", name
    names = rest[2:]
    length = next((it for it in range(len(names), 0, -1) if (CRATES / first / "src" / "/".join(names[:it])).with_suffix(".rt").is_file()), 0)
    return f"{first}/src/{'/'.join(names[:length]) or 'lib'}.rt", name if names[length] == "TheConstants" else names[length]


def words_cited(path, word):
    """The words that a definition or a statement cites, each by its file, and the kit's, each by its module."""
    file = file_of(path)
    text = LABEL.sub(r"\1 ", re.sub(r'"(?:\\.|[^"\\])*"', '""', file.words[word]))
    used = {tuple(token.split(".")[:2]) for token in TOKEN.findall(text)}
    used |= {(name,) for name in file.imports if "◌" in name and all(part in text for part in name.split("◌") if part)}
    here, kit = set(), set()
    for first, *behind in used:
        if first in file.words or first in file.variants:
            here.add((path, first))
        elif first in file.imports:
            module, name = file.imports[first]
            name = name or (behind[0] if behind else first)
            place = place_of(path, module, name)
            if place:
                here.add(place)
            elif "." in module:
                kit.add((module.removeprefix("Rattle."), name))
    return {(it, file_of(it).variants.get(name, name)) for it, name in here}, kit


def reached(begin, without=frozenset()):
    """All words that a statement reaches, with those of them that each cites; and the kit's."""
    cites, kit, left = {}, set(), [begin]
    while left:
        path, word = left.pop()
        if (path, word) in cites:
            continue
        if word not in file_of(path).words:
            sys.exit(f"crates/{path}: no {word} there, which is cited")
        here, more = words_cited(path, word)
        cites[(path, word)] = here - without - {(path, word)}
        kit |= more
        left += sorted(cites[(path, word)])
    return cites, kit


def in_order(cites):
    """The files of these words: each crate before those above it, and in a crate each file before those that use it."""
    files = sorted({path for path, _ in cites}, key=lambda path: (crates().index(path.split("/")[0]), path))
    uses = {path: {it for (its, _), below in cites.items() if its == path for it, _ in below} - {path} for path in files}
    order = []

    def take(path, above):
        for it in sorted(uses[path] - above, key=files.index):
            take(it, above | {it})
        if path not in order:
            order.append(path)

    for path in files:
        take(path, {path})
    return order


def sentence_of(path):
    """The first sentence of a file's head."""
    mark = "--" if path.endswith(".antt") else "//!"
    head = re.match(rf"(?:{mark}.*\n)*", file_of(path).text).group()
    if not head:
        sys.exit(f"crates/{path}: its first line is no comment, which should say what the file is about")
    return re.split(r"(?<=\.)\s", " ".join(line.removeprefix(mark).strip() for line in head.splitlines()))[0]


def lines_of(words):
    return sum(len(file_of(path).words[word].splitlines()) for path, word in words)


def table(words, order):
    """A row for each file that has some of the words: what it says, and these words."""
    rows = ["| File | What it says | Words |", "|---|---|---|"]
    for path in order:
        names = [name for name in file_of(path).words if (path, name) in words]
        if names:
            rows.append(f"| [`{path}`](../crates/{path}) | {sentence_of(path)} | `{' '.join(names)}` |")
    return [f"{len(rows) - 2} files, {len(words)} words, {lines_of(words)} lines:", "", *rows]


def kit_table(kit):
    """A row for each module of the kit, with the words that are cited of it, but for operators."""
    names = {}
    for module, name in sorted(kit):
        if "◌" not in name:
            names.setdefault(module, []).append(name)
    return ["| Module | Words |", "|---|---|", *(f"| `{module}` | `{' '.join(of)}` |" for module, of in names.items())]


def skipped(words):
    """How much of specs/ the lists have, and which libraries they have nothing of."""
    libraries = [it for it in crates() if it.startswith("kc_") and not it.endswith("_tests")]
    files = [str(path.relative_to(CRATES)) for it in libraries for path in sorted((CRATES / it / "specs").glob("*.antt")) if path.name != "Lib.antt"]
    read = {path for path, _ in words}
    total = sum(len(file_of(path).words) for path in files)
    cited = sum("/specs/" in path for path, _ in words)
    whole = [it for it in libraries if not any(path.startswith(f"{it}/") for path in read)]
    return [
        f"- In `specs/` the libraries have {total} definitions in {len(files)} files.",
        f"- The lists above have {cited} of these, in {sum(path in read for path in files)} files.",
        f"- They have no word of {len(whole)} libraries: `{' '.join(whole)}`.",
    ]


def lists():
    """The lists of the page by their names."""
    (whole, kit), (text, _), (cores, more) = reached(RUN), reached(RUN, LEFT), reached(ANSWER, MAKER)
    programs = reached(PROGRAMS[0])[0] | reached(PROGRAMS[1], MAKER)[0]
    order = in_order(whole | cores | programs)
    both = text.keys() & cores.keys()
    return {
        "both": table(both, order),
        "kcore": table(text.keys() - both, order),
        "cores": table(cores.keys() - both, order),
        "left": table(whole.keys() - text.keys() - cores.keys(), order),
        "programs": table(programs.keys() - whole.keys() - cores.keys(), order),
        "kit": kit_table(kit | more),
        "skipped": skipped(programs.keys() | whole.keys() | cores.keys()),
    }


def parts_of(text, name):
    """The text before a list, the list, and the text behind it."""
    found = re.search(rf"^<!-- trust {name} -->\n(.*?)^<!-- end -->$", text, re.M | re.S)
    if not found:
        sys.exit(f"docs/TRUST.md: no lines '<!-- trust {name} -->' and '<!-- end -->'")
    return text[: found.start(1)], found.group(1), text[found.end(1) :]


def faults_of_page(text):
    """Names of the page that the sources lack, and links and files of commands that lead nowhere."""
    _, faults = check_map.faults_of_page(PAGE, *check_map.words_of_sources(), check_map.files_there())
    links = re.findall(r"\]\(([^)#]+)[^)]*\)", text)
    files = re.findall(r"(?<![\w/.])(?:bench|dist|crates|docs|graphs|c|python)/[\w./-]*\w", text)
    faults += [f"docs/TRUST.md: no {it}" for it in links if not it.startswith("http") and not (PAGE.parent / it).exists()]
    faults += [f"docs/TRUST.md: no {it}" for it in files if not (TOP / it).exists()]
    for cell, words in re.findall(r"^\|[^|]*\| (`\w+/(?:specs|src)/[^|]*) \| ([^|]*) \|$", text, re.M):
        paths = [it for it in re.findall(r"`([^`]+)`", cell) if (CRATES / it).is_file()]
        defined = {word for it in paths for word in file_of(it).words}
        faults += [f"docs/TRUST.md: no {it} in {cell}" for it in re.findall(r"`([^`]+)`", words) if it not in defined]
    return faults


def main(write):
    text, stale = PAGE.read_text(encoding="utf-8"), []
    for name, rows in lists().items():
        front, old, back = parts_of(text, name)
        new = "\n".join(["", *rows, "", ""])
        stale += [name] if new != old else []
        text = front + new + back
    if write:
        PAGE.write_text(text, encoding="utf-8")
    faults = faults_of_page(text)
    faults += [] if write else [f"docs/TRUST.md: the list '{name}' is stale: python3 bench/trust.py --write" for name in stale]
    print("\n".join([*faults, f"{len(lists())} lists, {len(stale)} {'written anew' if write else 'stale'}, {len(faults)} faults"]))
    return 1 if faults else 0


if __name__ == "__main__":
    sys.exit(main(sys.argv[1:] == ["--write"]))
