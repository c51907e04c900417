#!/usr/bin/env python3
"""Writes docs/INDEX.md: where each name stands, as the index at the end of a book does.

    python3 bench/index.py --write      writes the page
    python3 bench/index.py              tells whether the page fits the sources, by its status

A name is that of a function, type, constant, variant, field or clause of a crate's src/, of a definition or one of its fields in specs/, or of
a lemma of proofs/*.antt. Names that stand as the same in more than MOST crates, and those of fewer than LEAST letters, are left out: they tell nothing of where
they stand. Answer files, whose names are the prover's, are left out, too. Behind a name stand the other crates whose files bring it in by `use`,
where these are at most USERS.
"""
import collections
import pathlib
import re
import sys

TOP = pathlib.Path(__file__).resolve().parent.parent
CRATES = TOP / "crates"
PAGE = TOP / "docs" / "INDEX.md"
MOST = 6
LEAST = 4
USERS = 10

ITEM = re.compile(r"^\s*(?:pub(?:\([^)]*\))?\s+)?(?:const\s+|unsafe\s+|extern \"C\"\s+)*(?:fn|struct|enum|trait|const|type)\s+(\w+)", re.M)
VARIANT = re.compile(r"^    ([A-Z]\w+)(?:\s*[,({]|$)", re.M)
ENUM = re.compile(r"\benum\s+\w+[^{]*\{(.*?)^\}", re.M | re.S)
STRUCT = re.compile(r"\bstruct\s+\w+[^{;(]*\{(.*?)^\}", re.M | re.S)
OF_STRUCT = re.compile(r"^    (?:pub(?:\([^)]*\))? )?(\w+):", re.M)
CLAUSE = re.compile(r"^\s*(?:requires|ensures) (\w+) \{", re.M)
WORD = re.compile(r"^(?:abbrev |opaque |pub |record |data )+([^\s:(]+)", re.M)
FIELD = re.compile(r"^  (?:pub )?([a-z][\w'-]*)\s*:", re.M)
LEMMA = re.compile(r"^ *(?:abbrev |private |pub )*([A-Za-z][\w'◌-]*)\s*:(?=\s)", re.M)

BROUGHT = re.compile(r"\buse (?:Rattle\.)?(\w+)((?:(?:\.|::)\w[\w'-]*)*)(?:(?:\.|::)\{([^}]*)\})?")

HEAD = """# Index

Where each name stands: the crate, and the file in its `src/`, `specs/` or `proofs/`. `python3 bench/index.py --write` makes this page from the
sources. Names that stand as the same in more than {most} crates are left out, and so are those of fewer than {least} letters. `docs/DEFINITIONS.md` says in
plain English what the definitions mean, and `docs/MAP.md` which promise rests on them.

Behind `used in` stand the other crates that bring the name in, where these are at most {users}.

A letter behind a name tells what it is: `f` a function, type or constant of the code, `s` a field of a struct, `c` a clause of a function, `d` a
definition, `m` a member of a definition that is a record, `l` a lemma.

"""


def names_of_code(text):
    yield from ITEM.findall(text)
    for body in ENUM.findall(text):
        yield from VARIANT.findall(body)


def listed():
    """For each name and kind the places where it stands, as `crate file`."""
    found = collections.defaultdict(set)
    for crate in sorted(CRATES.iterdir()):
        for path in sorted(crate.glob("src/**/*.rt")):
            text = path.read_text(encoding="utf-8")
            for name in names_of_code(text):
                found[name, "f"].add((crate.name, path.stem))
            for body in STRUCT.findall(text):
                for name in OF_STRUCT.findall(body):
                    found[name, "s"].add((crate.name, path.stem))
            for name in CLAUSE.findall(text):
                found[name, "c"].add((crate.name, path.stem))
        for path in sorted(crate.glob("specs/**/*.antt")):
            text = path.read_text(encoding="utf-8")
            for name in WORD.findall(text):
                found[name, "d"].add((crate.name, path.stem))
            for name in FIELD.findall(text):
                found[name, "m"].add((crate.name, path.stem))
        for path in sorted(crate.glob("proofs/*.antt")):
            for name in LEMMA.findall(path.read_text(encoding="utf-8")):
                found[name, "l"].add((crate.name, path.stem))
    return found


def users():
    """For each crate and name of it the other crates that bring it in by `use`."""
    found = collections.defaultdict(set)
    for crate in sorted(CRATES.iterdir()):
        for path in [*crate.glob("src/**/*.rt"), *crate.glob("specs/**/*.antt"), *crate.glob("proofs/**/*.antt")]:
            for below, names, more in BROUGHT.findall(path.read_text(encoding="utf-8")):
                if below != crate.name and (CRATES / below).is_dir():
                    brought = more.split(",") if more else re.split(r"\.|::", names)[-1:]
                    for name in brought:
                        found[below, re.split(r"\.|::|\s", name.strip())[-1]].add(crate.name)
    return found


def page():
    found, used = listed(), users()
    crates = {key: {crate for crate, _ in places} for key, places in found.items()}
    rows, letter = [HEAD.format(most=MOST, least=LEAST, users=USERS)], ""
    kept = [key for key in found if len(crates[key]) <= MOST and len(key[0]) >= LEAST and not key[0].startswith(("mod", "◌"))]
    for name, kind in sorted(kept, key=lambda key: (key[0].lower(), key)):
        if name[0].upper() != letter:
            letter = name[0].upper()
            rows.append(f"\n## {letter}\n\n")
        places = collections.defaultdict(list)
        for crate, file in sorted(found[name, kind]):
            places[crate].append(file)
        told = "; ".join(f"{crate} {', '.join(files)}" for crate, files in places.items())
        bring = sorted(set().union(*(used[crate, name] for crate in places)) - set(places))
        if 0 < len(bring) <= USERS:
            told += f"; used in {', '.join(bring)}"
        rows.append(f"- `{name}` {kind}: {told}\n")
    return "".join(rows)


def main():
    made = page()
    if sys.argv[1:] == ["--write"]:
        PAGE.write_text(made, encoding="utf-8")
        return 0
    fits = PAGE.is_file() and PAGE.read_text(encoding="utf-8") == made
    print(f"docs/INDEX.md: {made.count(chr(10) + '- ')} names, {'fits the sources' if fits else 'stale: python3 bench/index.py --write'}")
    return 0 if fits else 1


sys.exit(main())
