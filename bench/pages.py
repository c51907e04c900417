#!/usr/bin/env python3
"""Runs the commands of the pages as they stand, and compares what they write with what the pages show.

    python3 bench/pages.py [--at COMMIT] [--list] [PAGE..]

The pages are those of this checkout. The commands run in a new clone of it, or of COMMIT, in a temporary folder, with no `rt` on the path:
so nothing is proved, and where dist/ does not fit the sources of the clone the status is 2. With --list nothing is run.

- A block `sh`: each command ends with status 0. A block without a language right behind it has what the last command writes. Where the
  comment behind a command ends with `writes TEXT`, that is the last line that it writes.
- A block that begins with `$ `: each such line is a command, and the lines behind it are what it writes; `...` stands for any lines.
- A table with the heads `Command` and `Its first two lines`: `|` stands for a tab in a line.
- A block `python`: the statements of a page run one after another; where the comment behind an expression begins with a literal, that is
  its value.
- The blocks `c` of a page, each inside the one before, are compiled, linked and run.
- A command in the running text: the script that it names is there.

LEFT_OUT has what is not run, each with the reason, and SHORTER what is run with fewer cases. The status is 1 where a command fails or
writes something else.
"""
import argparse
import gzip
import json
import os
import pathlib
import re
import subprocess
import sys
import tempfile

TOP = pathlib.Path(__file__).resolve().parent.parent
PAGES = ["README.md", "SECURITY.md", "CONTRIBUTING.md", "CHANGELOG.md", "bench/README.md"]
PYTHON = os.environ.get("PYTHON", "/usr/bin/python3")
SECONDS = 600  # the longest that a command may take

# What is not run: a pattern of the command, and why.
LEFT_OUT = [
    (r"\brt (run|test|check|lemma)\b", "proves, which rt ci does"),
    (r"^crates/(bench|stress)_\w+/out/", "runs what rt has built in the line before"),
    (r"axioms\.sh|check\.sh --build", "proves and builds anew"),
    (r"apt-get", "installs packages of the system"),
    (r"^pip install|-m build", "installs into the Python at hand; what README and docs/PYTHON.md say of an environment is run"),
    (r"install\.sh /usr/local|pkg-config", "writes into the system; c/install.sh of another place is run, and dist/test.sh libkcore goes on from there"),
    (r"dist/test\.sh", "takes minutes, and takes the checkout apart"),
    (r"tail .*-f", "never ends; bench/watch.py follows a stream"),
    (r"socat", "opens a port and never ends"),
    (r"bench\.py", "measures, in minutes"),
    (r"email-Enron", "wants a graph from elsewhere"),
    (r"bench/limits\.py|bench/refused\.py", "takes minutes"),
    (r"bench/plants\.py kc_|bench/refused_tests\.py|bench/no_cache\.sh|bench/narrow_widths\.sh", "needs rt, or what rt has built"),
    (r"examples/dask", "starts a cluster; python/tests/test_dask.py does so too"),
    (r"backend=\"kcore\"", "wants networkx 3.2 or later"),
]

# What is run with fewer cases than the page says.
SHORTER = [
    (r"--cases \d+", "--cases 20"),
    (r"differ\.py (?!.*--cases)", "differ.py --cases 20 "),
    (r"soak \d+", "soak 50000"),
    (r"KCORE_EXAMPLES=\d+", "KCORE_EXAMPLES=5"),
]

# What stands for files of the reader, and for names of the reader in the Python of a page.
FILES = {
    "big.txt.gz": gzip.compress(b"1 2\n2 3\n"),
    "mails.txt": b"1 2 0\n2 3 700000\n1 3 1500000\n",
}
NAMES = {
    "docs/FROM-C.md": "import numpy, scipy.sparse\n"
    "edges = numpy.array([(0, 1), (0, 2), (1, 2), (2, 3)], dtype=numpy.uint32)\n"
    "matrix = scipy.sparse.csr_array((numpy.ones(4), (edges[:, 0], edges[:, 1])), shape=(4, 4))\n"
    "ranks, piece = [2, 1, 3, 0], edges[:2]\n"
    "import kcore\n"
    "other_part = kcore.Certificate([2, 2, 2, 1], ranks)\n"
    "other_part.add(edges[2:])\n",
}

# Runs the statements of a page, given as JSON on standard input, and writes what is wrong as lines PLACE<TAB>TEXT, and how much was compared.
STATEMENTS = r"""
import ast, io, json, sys, tokenize

def plain(value):
    if hasattr(value, "tolist"):
        return value.tolist()
    return tuple(map(plain, value)) if type(value) is tuple else value

def literal_of(comment):
    for end in (at for at in range(len(comment), 0, -1) if at == len(comment) or comment[at] in ",:;"):
        try:
            return [ast.literal_eval(comment[:end])]
        except (SyntaxError, ValueError):
            pass

given = json.load(sys.stdin)
names, compared = {}, 0
exec(given["names"], names)
for begin, source in given["blocks"]:
    comments = {it.start[0]: it.string.lstrip("# ") for it in tokenize.generate_tokens(io.StringIO(source).readline) if it.type == tokenize.COMMENT}
    for node in ast.parse(source).body:
        try:
            if isinstance(node, ast.Expr):
                value, wanted = eval(compile(ast.Expression(node.value), "page", "eval"), names), literal_of(comments.get(node.end_lineno, ""))
                compared += wanted is not None
                if wanted is not None and plain(value) != wanted[0]:
                    print(f"{begin + node.lineno}\tis {plain(value)!r}, and the page shows {wanted[0]!r}")
            else:
                exec(compile(ast.Module([node], []), "page", "exec"), names)
        except Exception as fault:
            print(f"{begin + node.lineno}\t{type(fault).__name__}: {fault}")
print(f"0\t{compared}")
"""


class Block:
    """A block between lines of three backticks: the page's line that it begins at, its language, and its lines."""

    def __init__(self, place, language, lines, follows):
        self.place, self.language, self.lines, self.follows = place, language, lines, follows


def blocks_of(text):
    """The blocks of a page; one that follows another has only blank lines between."""
    found, inside, last = [], None, 0
    for place, line in enumerate(text.splitlines(), 1):
        if line.startswith("```"):
            if inside is None:
                inside = Block(place, line[3:].strip(), [], last == len(found) > 0)
            else:
                found.append(inside)
                inside, last = None, len(found)
        elif inside is not None:
            inside.lines.append(line)
        elif line.strip():
            last = 0
    return found


def reason_of(command):
    """Why a command is left out, or nothing."""
    return next((reason for pattern, reason in LEFT_OUT if re.search(pattern, command)), None)


def commands_in(block):
    """The commands of a block `sh`, with their lines. One that loops, or sets what later lines read, is one command."""
    if any(re.match(r"for |cd |\w+=", line) for line in block.lines):
        return [(block.place + 1, "\n".join(block.lines))]
    found, begun = [], ""
    for place, line in enumerate(block.lines, block.place + 1):
        begun += line
        if line.endswith("\\"):
            begun = begun[:-1]
        elif begun.strip() and not begun.lstrip().startswith("#"):
            found.append((place, begun.strip()))
            begun = ""
    return found


def last_line_of(command):
    """What the comment behind a command says to be the last line that it writes, if it says so."""
    told = re.search(r" # .*\bwrites (.+)$", command)
    return told and ["...", told[1]]


def talks_in(block):
    """The commands of a block that begins with `$ `, each with its line and the lines that it writes."""
    found = []
    for place, line in enumerate(block.lines, block.place + 1):
        if line.startswith("$ "):
            found.append((place, line[2:], []))
        else:
            found[-1][2].append(line)
    return found


def rows_in(text):
    """The commands of tables `Command | Its first two lines`, with both lines."""
    found, inside = [], False
    for place, line in enumerate(text.splitlines(), 1):
        cells = line.strip().strip("|").replace("\\|", "\t").split("|")
        if line.startswith("| Command | Its first two lines |"):
            inside = True
        elif not line.startswith("|"):
            inside = False
        elif inside and "`" in line:
            command, *shown = re.findall(r"`([^`]*)`", "|".join(cells))
            found.append((place, f"{command} 2> /dev/null | head -n 2", shown))
    return found


def tasks_of(text):
    """What a page has to run: lines, commands, and the lines that each writes, where they are shown."""
    tasks = rows_in(text)
    for block in blocks_of(text):
        if block.language == "sh":
            tasks += [(place, command, last_line_of(command)) for place, command in commands_in(block)]
        elif not block.language and block.lines and block.lines[0].startswith("$ "):
            tasks += talks_in(block)
        elif not block.language and block.follows and tasks:
            place, command, _ = tasks.pop()
            tasks.append((place, command, block.lines))
    return tasks


def is_shown(written, shown):
    """Whether the lines are those that a page shows, where `...` stands for any."""
    pattern = "".join("(?s:.*)" if line == "..." else re.escape(line) + "\n" for line in shown)
    return re.fullmatch(pattern, "".join(line + "\n" for line in written)) is not None


class Place:
    """A clone in which commands run."""

    def __init__(self, room, commit):
        self.folder, home = room / "clone", room / "home"
        home.mkdir()
        subprocess.run(["git", "clone", "--quiet", TOP, self.folder], check=True)
        if commit:
            subprocess.run(["git", "checkout", "--quiet", commit], cwd=self.folder, check=True)
        for name, content in FILES.items():
            (self.folder / name).write_bytes(content)
        path = [os.path.dirname(PYTHON), *(it for it in os.environ["PATH"].split(":") if not os.access(f"{it}/rt", os.X_OK))]
        python = str(self.folder / "python")
        self.values = {**os.environ, "PATH": ":".join(path), "HOME": str(home), "PYTHONPATH": python, "MPLBACKEND": "Agg", "LC_ALL": "C.UTF-8"}

    def run(self, words, given=""):
        """The status of a command, and the lines that it writes to both streams."""
        try:
            ended = subprocess.run(
                words, cwd=self.folder, env=self.values, input=given, stdout=subprocess.PIPE, stderr=subprocess.STDOUT, text=True, timeout=SECONDS
            )
        except subprocess.TimeoutExpired:
            return -1, [f"not done after {SECONDS} seconds"]
        return ended.returncode, ended.stdout.splitlines()

    def is_ready(self):
        """Whether dist/ fits the sources. Then both programs are unpacked, and the library."""
        status, told = self.run(["sh", "-c", "sh dist/check.sh && ./cores --version && ./kcore < /dev/null && sh dist/library.sh"])
        if status:
            print("\n".join(told) + "\npages.py: the programs are not at hand; --at COMMIT takes a commit whose dist/ fits its sources")
        return status == 0


class Counts:
    def __init__(self):
        self.run, self.compared, self.faults, self.left_out = 0, 0, [], []


def run_task(place, task, counts):
    line, command, shown = task
    for pattern, shorter in SHORTER:
        command = re.sub(pattern, shorter, command)
    status, written = place.run(["sh", "-c", command])
    counts.run += 1
    counts.compared += shown is not None
    if shown is not None and not is_shown(written, shown):
        counts.faults.append((line, f"{command}: it writes {written[:12]}, and the page shows {shown}"))
    elif shown is None and status:
        counts.faults.append((line, f"{command}: status {status}: {' / '.join(written[-3:])}"))


def run_statements(place, page, blocks, counts):
    given = {"names": NAMES.get(page, ""), "blocks": [(block.place, "\n".join(block.lines) + "\n") for block in blocks]}
    status, written = place.run([PYTHON, "-c", STATEMENTS], json.dumps(given))
    counts.run += len(blocks)
    if status:
        counts.faults.append((blocks[0].place, f"the Python of the page: {' / '.join(written[-3:])}"))
    for line in written if status == 0 else []:
        where, _, what = line.partition("\t")
        if where == "0":
            counts.compared += int(what)
        elif where.isdigit():
            counts.faults.append((int(where), what))


def run_c(place, blocks, counts):
    lines = ["#include <stdlib.h>", '#include "kcore.h"', "int main(void)"]
    for block in blocks:
        lines += ["{", *block.lines]
    lines += ["return 0;", "}" * len(blocks)]
    command = "cc -std=c11 -O1 -Wall -Iinclude -xc - -xnone build/libkcore.a -o build/page && build/page"
    status, written = place.run(["sh", "-c", command], "\n".join(lines) + "\n")
    counts.run += len(blocks)
    if status:
        counts.faults.append((blocks[0].place, f"the C of the page: status {status}: {' / '.join(written[-3:])}"))


def lost_scripts(text):
    """Scripts that commands in the running text name and that are not there."""
    for line, words in enumerate(text.splitlines(), 1):
        for quoted in re.findall(r"`([^`]+)`", words):
            named = re.match(r"(?:sh |python3 |/usr/bin/python3 )([\w./-]+\.(?:sh|py))|\./([a-z]+)\b|((?:bench|c|dist)/\w+\.(?:sh|py))", quoted)
            script = named and next(filter(None, named.groups()))
            if script and not (TOP / script).is_file():
                yield line, f"there is no {script}"


def read_page(page, place, counts):
    text = (TOP / page).read_text(encoding="utf-8")
    counts.faults += lost_scripts(text)
    for task in tasks_of(text):
        reason = reason_of(task[1])
        if reason:
            counts.left_out.append((task[0], task[1], reason))
        elif place:
            run_task(place, task, counts)
        else:
            print(f"{page}:{task[0]}: {task[1]}")
    blocks = [block for block in blocks_of(text) if block.language == "c"]
    if place and blocks:
        run_c(place, blocks, counts)
    blocks = [block for block in blocks_of(text) if block.language == "python"]
    told = [(block, reason_of("\n".join(block.lines))) for block in blocks]
    counts.left_out += [(block.place, "a block of Python", reason) for block, reason in told if reason]
    if place and any(reason is None for _, reason in told):
        run_statements(place, page, [block for block, reason in told if reason is None], counts)


def main():
    words = argparse.ArgumentParser(description=__doc__, formatter_class=argparse.RawDescriptionHelpFormatter)
    words.add_argument("--at", metavar="COMMIT")
    words.add_argument("--list", action="store_true")
    words.add_argument("pages", nargs="*")
    chosen = words.parse_args()
    others = [*sorted(TOP.glob("docs/*.md")), *sorted(TOP.glob("examples/*/README.md"))]
    pages = chosen.pages or [*PAGES, *(str(it.relative_to(TOP)) for it in others)]
    faults = 0
    with tempfile.TemporaryDirectory() as room:
        place = None if chosen.list else Place(pathlib.Path(room), chosen.at)
        if place and not place.is_ready():
            return 2
        for page in pages:
            counts = Counts()
            read_page(page, place, counts)
            for line, command, reason in counts.left_out:
                print(f"{page}:{line}: left out, {reason}: {command.splitlines()[0]}")
            for line, fault in counts.faults:
                print(f"{page}:{line}: {fault}")
            if counts.run or counts.left_out or counts.faults:
                print(f"{page}: {counts.run} run, {counts.compared} outputs compared, {len(counts.left_out)} left out, {len(counts.faults)} faults", flush=True)
            faults += len(counts.faults)
    return 1 if faults else 0


if __name__ == "__main__":
    sys.exit(main())
