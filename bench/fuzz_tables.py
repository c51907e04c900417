#!/usr/bin/env python3
"""Runs `cores` on random tables of edges, beside a model in Python of how each of its options reads them.

usage: fuzz_tables.py [--cores PROGRAM] [--cases N] [--seed N]
(default: crates/cores/out/cores beside this folder, 2,000 cases of seed 1)

A case draws the columns, the separator, the lines of the head, what becomes of bad lines and whether the ids are names, some of them left to what
holds where nothing is said. Its table has quotes, separators in quotes, empty cells, comments, blank lines, bad lines, a byte order mark, both line ends, a last line
without an end, and lines of arbitrary bytes. Now and then a long comment moves the lines to where a piece of the reading ends (a MiB). The
table is read from a file, from standard input, or from a pipe that is filled slowly and in pieces. One of the commands is run, and the status,
the lines and what is told have to be the model's: of a refusal the line and the column, of bad lines that were passed over the first five and
their count, and the line of a refusal is shown with a caret. Some cases ask in words that are not right. An input that differs is printed, and the status is 1 then.
"""
import argparse
import collections
import pathlib
import random
import re
import subprocess
import sys
import tempfile
import time

import fuzz_cores

TOP = pathlib.Path(__file__).resolve().parent.parent
SEPARATORS = {"blank": b" ", "comma": b",", "semicolon": b";", "tab": b"\t"}
ENDINGS = {"comma": ".csv", "tab": ".tsv"}
GREATEST = 4_294_967_295
PIECE = 1 << 20
WRONG = (b"a", b"4294967296", b"99999999999999999999", b"1.5", b"-1", b"+1", b"0x1", b"1e3", b"", b'"', b'""', b'" 1"', b'"1', b'1"2', b"1\r2", b"\xff", b"\0")
NAMES = (b"ann", b"bob", b"Ann", "Zo\u00eb".encode(), "\u6771\u4eac".encode(), b"batch", b"+", b"-1", b"12", b"012", b"a/b\\c", b"O'Neil", b"x#y", b'say"hi')
WRONG_NAMES = (b"", b"a b", b"a\tb", b"\xff", b"Zo\xeb", b"\x01", b"x\x7f", b"a\rb", b"\0", b'""')
BESIDE = (b"x", b"0.5", b"-3", b"7", b"2026-11-29", b"{}", b"#", b"12:30")
WRONG_WORDS = (("--columns", "0,1"), ("--columns", "2,2"), ("--columns", "1"), ("--columns", "1,a"), ("--columns", "1,2,3"), ("--columns", "4294967296,1"), ("--separator", "pipe"),
               ("--separator", ","), ("--skip", "x"), ("--skip", "4294967296"), ("--bad-lines", "drop"), ("--ids", "words"), ("--ids",), ("--column", "1,2"), ("--bad-lines",))

MARKS = ((b"\x1f\x8b", "this is gzip; "), (b"BZh", "this is bzip2; "), (b"\xfd7zXZ\0", "this is xz; "), (b"\x28\xb5\x2f\xfd", "this is zstd; "), (b"\xff\xfe", "this is UTF-16; "),
         (b"\xfe\xff", "this is UTF-16; "), (b"%%MatrixMarket", "this is MatrixMarket; "), (b'{"', "this is JSON; "))

# How a table is read: the columns of the ids, the separator, the lines of the head, what becomes of bad lines, and what the ids are.
Dialect = collections.namedtuple("Dialect", "columns separator skip bad_lines ids")


def dialect_of(draw):
    """A random dialect."""
    columns = draw.choice(((1, 2), draw.sample(range(1, 6), 2))) if draw.random() < 0.95 else (1, GREATEST)
    skip = draw.choice((0, 0, 0, 1, 2, 5)) if draw.random() < 0.97 else draw.choice((40, GREATEST))
    return Dialect(tuple(columns), draw.choice(sorted(SEPARATORS)), skip, draw.choice(("stop", "skip")), draw.choice(("numbers", "names")))


def cell_text(draw, cell, separator):
    """A cell as it may stand: with blanks or quotes around it, or with more than one blank before it."""
    if separator == "blank":
        return draw.choice((cell, cell, cell, b" " + cell, b"\t" + cell, cell + b" "))
    blank = b" " if separator == "tab" else draw.choice((b" ", b"\t"))
    return draw.choice((cell, cell, cell, blank + cell, cell + blank, b'"%s"' % cell, blank + b'"%s"' % cell + blank))


def row_of(draw, dialect, ids, wrong):
    """A line of a table; with the probability `wrong` something is wrong with it."""
    parting, width = SEPARATORS[dialect.separator], min(max(dialect.columns), 6)
    quoted = [b'"x%sy"' % parting] if dialect.separator != "blank" else []
    cells = [draw.choice(ids) if column in dialect.columns else draw.choice((*BESIDE, *quoted)) for column in range(1, width + 1)]
    if dialect.ids == "numbers":
        cells = [draw.choice((cell, cell, cell, b"000" + cell)) if cell.isdigit() else cell for cell in cells]
    cells += [b"y"] * draw.randrange(3)
    if draw.random() < wrong:
        at = draw.randrange(len(cells))
        cells = draw.choice((cells[:at], cells[:at] + [draw.choice(WRONG if dialect.ids == "numbers" else WRONG_NAMES)] + cells[at + 1:]))
    return parting.join(cell_text(draw, cell, dialect.separator) for cell in cells)


def table_of(draw, dialect):
    """A random table in this dialect."""
    ids = [b"%d" % v for v in draw.sample(range(draw.choice((9, 60, GREATEST + 1))), 8)] if dialect.ids == "numbers" else draw.sample(NAMES, 8)
    wrong, ends = draw.choice((0, 0, 0.05, 0.5)), draw.choice(((b"\n",), (b"\r\n",), (b"\n", b"\n", b"\r\n")))
    ends = (b"\r",) if draw.random() < 0.02 else ends
    lines = [b"%%MatrixMarket matrix\n"] if draw.random() < 0.02 else []
    for number in range(draw.randrange(30)):
        line = row_of(draw, dialect, ids, wrong)
        if number < dialect.skip and draw.random() < 0.8:
            line = draw.choice((b"from,to", b"3 2", b"", b"\xff\xfe"))
        elif draw.random() < 0.1:
            line = draw.choice((b"# 1 2 3", b"%%1,2", b"", b"  ", b"\t", b"\r", b" \t#1;2", SEPARATORS[dialect.separator] * 2))
        elif draw.random() < wrong / 10:
            line = draw.choice((draw.randbytes(12), b"batch", b"+ 1 2", b"\xef\xbb\xbf1 2", b"#", b'"# 1"'))
        lines.append(line + draw.choice(ends))
    text = b"".join(lines)
    text = text[:-1] if draw.random() < 0.2 else text
    if draw.random() < 0.02:
        text = b"#" * max(0, PIECE - 1 - draw.randrange(len(text) + 2)) + draw.choice(ends) + text
    return (draw.choice((b"", b"\xef\xbb\xbf")) if draw.random() < 0.97 else draw.choice((b"\xef\xbb\xbf\xef\xbb\xbf", b"\xef\xbb", b" \xef\xbb\xbf"))) + text


def cells_of(line, separator):
    """The fields of a line, each behind the number of bytes before it."""
    if separator == "blank":
        return [(found.start(), found.group()) for found in re.finditer(rb"[^ \t]+", line)]
    parts, quoted, start = [], False, 0
    for at in range(len(line)):
        quoted ^= line[at:at + 1] == b'"'
        if line[at:at + 1] == SEPARATORS[separator] and not quoted:
            parts.append((start, line[start:at]))
            start = at + 1
    cells = []
    for start, part in (*parts, (start, line[start:])):
        cell = part.lstrip(b" \t")
        start += len(part) - len(cell)
        cell = cell.rstrip(b" \t")
        cells.append((start, cell[1:-1] if len(cell) > 1 and cell[:1] == cell[-1:] == b'"' else cell))
    return cells


def id_of(cell, ids):
    """The id of a cell: a number, or a name; None where it is neither."""
    if ids == "numbers":
        return int(cell) if re.fullmatch(rb"[0-9]+", cell) and int(cell) <= GREATEST else None
    try:
        name = cell.decode()
    except UnicodeDecodeError:
        return None
    return name if name and all(b > 32 and b != 127 for b in cell) else None


def rows_of(text, dialect):
    """The lines of a table: for each its number, and the two ids, or the column that is wrong."""
    lines = text.split(b"\n")
    for number, line in enumerate(lines[:-1] if lines[-1] == b"" else lines, 1):
        line = line[:-1] if line.endswith(b"\r") else line
        line = line[3:] if number == 1 and line.startswith(b"\xef\xbb\xbf") else line
        if number <= dialect.skip or re.match(rb"[ \t]*([#%]|\Z)", line):
            continue
        cells, ids = cells_of(line, dialect.separator), []
        for column in dialect.columns:
            start, cell = cells[column - 1] if column <= len(cells) else (len(line), b"")
            found = id_of(cell, dialect.ids)
            if found is None:
                yield number, None, start + 1
                break
            ids.append(found)
        else:
            yield number, ids, None


def words_of(draw, dialect, file):
    """The options that tell this dialect; what holds without a word, or by the file's name, may be left out. One option stands always."""
    pairs = [("--columns", f"{dialect.columns[0]},{dialect.columns[1]}"), ("--skip", str(dialect.skip)), ("--bad-lines", dialect.bad_lines)]
    pairs += [("--separator", dialect.separator), ("--ids", dialect.ids)]
    usual = {"--columns": "1,2", "--skip": "0", "--bad-lines": "stop", "--ids": "numbers", "--separator": {".csv": "comma", ".tsv": "tab"}.get(file.suffix, "blank")}
    left = [pair for pair in pairs if usual[pair[0]] != pair[1] or draw.random() < 0.5]
    told_by_name = file.suffix in (".csv", ".tsv")
    left = left if left or told_by_name else [draw.choice(pairs)]
    draw.shuffle(left)
    return [word for name, value in left for word in draw.choice(((name, value), (f"{name}={value}",)))]


def run_slowly(draw, words, text):
    """A run whose standard input comes in pieces, with pauses between some."""
    with subprocess.Popen(words, stdin=subprocess.PIPE, stdout=subprocess.PIPE, stderr=subprocess.PIPE) as running:
        cuts = sorted(draw.sample(range(len(text) + 1), min(len(text), 6)))
        try:
            for start, end in zip([0, *cuts], [*cuts, len(text)]):
                running.stdin.write(text[start:end])
                running.stdin.flush()
                time.sleep(draw.choice((0, 0, 0.002)))
        except BrokenPipeError:  # a refusal ends the run before the whole text is read
            pass
        lines, told = running.communicate()
        return running.returncode, lines.decode(), told.decode()


def labelled(keys, rows, labels):
    """The rows of lines with the labels of their ids in place of these."""
    return keys, [tuple(labels[field] if key in ("id", "source", "target") else field for key, field in zip(keys, row)) for row in rows]


def wanted_of(rows, command, words):
    """What a command writes of the edges of a table. Names are numbered in the order of their first coming."""
    pairs = [ids for _, ids, _ in rows if ids]
    numbers = {}
    for name in (name for pair in pairs for name in pair if isinstance(name, str)):
        numbers.setdefault(name, len(numbers))
    neighbours = fuzz_cores.graph_of("".join(f"{numbers.get(a, a)} {numbers.get(b, b)}\n" for a, b in pairs))
    core = fuzz_cores.core_numbers(neighbours)
    size = sum(map(len, neighbours.values())) // 2
    summary = f"vertices {len(core)} edges {size} top {max(core.values(), default=0)}"
    labels = dict(enumerate(numbers)) if numbers else {v: v for v in neighbours}
    return fuzz_cores.written(*labelled(*fuzz_cores.wanted(neighbours, core, 2)[command], labels), words), summary


def foreign(text, dialect):
    """What a text may be that is no table, as its first mebibyte tells: the start of the sentence, or nothing."""
    head = text[:PIECE]
    if dialect.skip:
        return []
    marks = [sentence for mark, sentence in MARKS if head.startswith(mark)]
    returns = ["the lines end in CR alone; "] if b"\n" not in head and b"\r" in head[:-1] else []
    return (marks or returns)[:1]


def told_of_sizes(text, dialect, rows):
    """What is told of a table whose first pair, in its first mebibyte, may be the sizes of the graph, and else nothing."""
    first = next((ids for _, ids, _ in rows_of(text[:PIECE], dialect) if ids), None)
    if first is None or dialect.ids == "names":
        return []
    return [fuzz_cores.SIZES_FIRST] if fuzz_cores.may_be_sizes(first, [ids for _, ids, _ in rows if ids]) else []


def is_told(found, starts):
    """Whether the lines on standard error begin so."""
    found = found.splitlines()
    return len(found) == len(starts) and all(line.startswith(start) for line, start in zip(found, starts))


def difference(program, draw, place, tried):
    """What is run and read where a random table is not read as the model reads it, and else nothing. What is tried is counted."""
    dialect = dialect_of(draw)
    text = table_of(draw, dialect)
    file = place / ("table" + draw.choice((ENDINGS.get(dialect.separator, ""), ENDINGS.get(dialect.separator, ""), "", ".csv", ".txt")))
    way = draw.choice(("file", "file", "input", "slow pipe"))
    words = words_of(draw, dialect, file if way == "file" else pathlib.Path("table"))
    command = draw.choice((("numbers",), ("numbers",), ("sizes",), ("members", "--edges"), ("layers",)))
    words += draw.choice(fuzz_cores.FORMATS)
    asked = [program, *command, *words]
    tried[f"from a {way}" if way != "input" else "from standard input"] += 1
    if way == "slow pipe":
        status, lines, told = run_slowly(draw, asked, text)
    else:
        file.write_bytes(text)
        asked += [str(file)] if way == "file" else draw.choice(([], ["-"]))
        status, lines, told = fuzz_cores.run(program, asked[1:], b"" if way == "file" else text)
    front = f"cores: {file}: " if way == "file" else "cores: "
    rows = list(rows_of(text, dialect))
    bad = [(number, column) for number, ids, column in rows if ids is None]
    if bad and dialect.bad_lines == "stop":
        tried["refused"] += 1
        shown = fuzz_cores.shown_lines(text, *bad[0])
        right = (status, lines) == (3, "") and is_told(told, [f"{front}line {bad[0][0]}, column {bad[0][1]}: ", *shown])
    else:
        wanted, summary = wanted_of(rows, command, words)
        tried["read with bad lines" if bad else "read, without an edge line" if not rows else f"read as {dialect.ids}"] += 1
        starts = [front + sentence for sentence in foreign(text, dialect) or told_of_sizes(text, dialect, rows)]
        tried["read, and told that it may be no table"] += len(starts)
        starts += [f"{front}line {number}, column {column}: " for number, column in bad[:5]]
        starts += [f"{front}{'1 line was' if len(bad) == 1 else f'{len(bad)} lines were'} passed over"] if bad else []
        right = (status, lines) == (0, wanted) and is_told(told, [*starts, summary])
    return None if right else (way, asked[1:], text, status, lines, told)


def wrong_words(program, draw, tried):
    """Words that are not right and are not told so, with status 2 and before anything is read."""
    words = draw.choice(WRONG_WORDS)
    tried["asked in wrong words"] += 1
    status, lines, told = fuzz_cores.run(program, ("numbers", *words), b"1 x\n")
    return None if (status, lines) == (2, "") and told else ("words", words, b"", status, lines, told)


def main():
    words = argparse.ArgumentParser(description=__doc__, formatter_class=argparse.RawDescriptionHelpFormatter)
    words.add_argument("--cores", default=str(TOP / "crates/cores/out/cores"))
    words.add_argument("--cases", type=int, default=2000)
    words.add_argument("--seed", type=int, default=1)
    chosen = words.parse_args()
    wrong, tried = 0, collections.Counter()
    with tempfile.TemporaryDirectory() as place:
        for case in range(chosen.cases):
            draw = random.Random(f"{chosen.seed} {case}")
            found = wrong_words(chosen.cores, draw, tried) if draw.random() < 0.01 else difference(chosen.cores, draw, pathlib.Path(place), tried)
            if found:
                wrong += 1
                print(f"case {case}: {found}", flush=True)
    print(", ".join(f"{count} {name}" for name, count in sorted(tried.items())))
    print(f"{chosen.cases} tables of seed {chosen.seed}: {wrong or 'none'} wrong")
    sys.exit(1 if wrong else 0)


if __name__ == "__main__":
    main()
