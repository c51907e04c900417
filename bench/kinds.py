#!/usr/bin/env python3
"""Gives `cores` the kinds of files that people hold, one by one.

usage: kinds.py [--cores PROGRAM] [--only WORD] [--told]
(default: crates/cores/out/cores beside this folder)

Each row of `rows` is a file, the words that it is given with, and what has to come: the core numbers of the edges that it means (by a model
that takes vertices away), or a refusal that names file, line and column and says how to mend it. Where the refusal names a way, another row
goes it. A row with `known` is one that the program does not meet yet, with the reason; it is listed, and so is one that it meets by now.
At last numpy, pandas, networkx, igraph and jq read the outputs, those of them that are there.

Status 1: a row without `known` is not met, or one with it is.
"""
import argparse
import bz2
import dataclasses
import gzip
import importlib
import json
import lzma
import pathlib
import re
import shutil
import subprocess
import sys
import tempfile

import fuzz_cores

TOP = pathlib.Path(__file__).resolve().parent.parent
PATH = [(1, 2), (2, 3)]


@dataclasses.dataclass
class Row:
    """A file, the words that it is given with, and what has to come."""

    kind: str
    text: bytes
    words: tuple
    name: str = "graph.txt"
    # the edges that the file means; None where it has to be refused
    edges: list | None = None
    # of a refusal: the line and the column, None where there is none to name, and what the message has to have in it
    line: int | None = None
    column: int | None = None
    mends: tuple = ()
    # lines that have to be told on standard error before the summary
    told: tuple = ()
    # why the program does not meet the row yet, and whether it reads what it should refuse
    known: str = ""
    silent: bool = False
    by_pipe: bool = False


def right(kind, text, edges, *words, **more):
    """A file that is read, as these edges."""
    return Row(kind, text.encode() if isinstance(text, str) else text, words, edges=edges, **more)


def refused(kind, text, line, column, mends, *words, **more):
    """A file that is refused there, with a message that has these words in it."""
    mends = (mends,) if isinstance(mends, str) else mends
    return Row(kind, text.encode() if isinstance(text, str) else text, words, line=line, column=column, mends=mends, **more)


SIZES_FIRST = (fuzz_cores.SIZES_FIRST,)


def plain_rows():
    """What is an edge list of two ids a line."""
    return [
        right("tabs", "1\t2\n2\t3\n", PATH),
        right("CRLF", "1 2\r\n2 3\r\n", PATH),
        right("no end of the last line", "1 2\n2 3", PATH),
        right("blank lines and blanks around", "\n \t\n  1   2 \n\t2\t3\t\n", PATH),
        right("loops, repeats and both directions", "1 1\n1 2\n2 1\n1 2\n2 3\n", PATH),
        right("comments of SNAP", "# Nodes: 3 Edges: 2\n# FromNodeId\tToNodeId\n1\t2\n2\t3\n", PATH),
        right("comments of KONECT", "% sym unweighted\n% 2 3 3\n1 2\n2 3\n", PATH),
        right("leading zeros", "0001 02\n2 3\n", PATH),
        right("empty input", "", []),
        right("comments alone", "# none\n", []),
        right("standard input", "1 2\n2 3\n", PATH, by_pipe=True),
        right("more ids than kcore takes", "".join(f"{v} {v + 1}\n" for v in range(600_000)), None, name="path.txt"),
    ]


def column_rows():
    """Files with more than two columns."""
    temporal = "1 2 1217567877\n2 3 1217573801\n"
    konect = "% bip weighted\n% 2 3 3\n1 2 0.5 1217567877\n2 3 1 1217573801\n"
    return [
        refused("temporal SNAP", temporal, 1, 5, "--columns 1,2"),
        right("temporal SNAP", temporal, PATH, "--columns", "1,2"),
        refused("KONECT with weight and time", konect, 3, 5, "--columns 1,2"),
        right("KONECT with weight and time", konect, PATH, "--columns", "1,2"),
        right("SNAP with a sign", "# FromNodeId\tToNodeId\tSign\n1\t2\t-1\n2\t3\t1\n", PATH, "--columns", "1,2"),
        right("a weight in front", "0.5\t1\t2\n-1e9\t2\t3\n", PATH, "--columns", "2,3"),
        refused("networkx.write_edgelist", "1 2 {}\n2 3 {}\n", 1, 5, "--columns 1,2"),
        right("networkx.write_edgelist", "1 2 {}\n2 3 {'weight': 0.5, 'x': 1}\n", PATH, "--columns", "1,2"),
        right("networkx.write_weighted_edgelist", "1 2 0.5\n2 3 1\n", PATH, "--columns", "1,2"),
        refused("trailing comment", "1 2 # best friends\n2 3\n", 1, 5, "--columns 1,2"),
        right("trailing comment", "1 2 # best friends\n2 3\n", PATH, "--columns", "1,2"),
    ]


def csv_rows():
    """Files with commas and semicolons."""
    return [
        right("CSV", "1,2\n2,3\n", PATH, name="graph.csv"),
        right("CSV, no end of the last line", "1,2\r\n2,3", PATH, name="graph.csv"),
        right("CSV by a pipe", "1,2\n2,3\n", PATH, "--separator", "comma", by_pipe=True),
        refused("CSV that is not named so", "1,2\n2,3\n", 1, 1, "--separator"),
        right("CSV that is not named so", "1,2\n2,3\n", PATH, "--separator", "comma"),
        refused("CSV named in capitals", "1,2\n2,3\n", 1, 1, "--separator", name="GRAPH.CSV"),
        refused("CSV with a header", "from,to\n1,2\n2,3\n", 1, 1, "--skip", name="graph.csv"),
        right("CSV with a header", "from,to\n1,2\n2,3\n", PATH, "--skip", "1", name="graph.csv"),
        right("CSV, a comma and a blank", "1, 2\n2, 3\n", PATH, name="graph.csv"),
        right("CSV, quoted", '"1","2","likes, and more"\n"2","3",""\n', PATH, name="graph.csv"),
        right("CSV with rating and time (bitcoin-otc)", "1,2,-10,1217567877\n2,3,7,1217573801\n", PATH, name="graph.csv"),
        right("pandas.to_csv with its index", ",source,target\n0,1,2\n1,2,3\n", PATH, "--skip", "1", "--columns", "2,3", name="graph.csv"),
        refused("semicolons in a .csv (Excel in Europe)", "1;2\n2;3\n", 1, 1, "--separator", name="graph.csv"),
        right("semicolons in a .csv (Excel in Europe)", "1;2\n2;3\n", PATH, "--separator", "semicolon", name="graph.csv"),
        refused("semicolons", "1;2\n2;3\n", 1, 1, "--separator"),
        right("TSV", "1\t2\tx y\n2\t3\t\n", PATH, name="graph.tsv"),
        right("TSV with an empty cell before the ids", "\t1\t2\na\t2\t3\n", PATH, "--columns", "2,3", name="graph.tsv"),
        refused("an empty cell", "1,2\n2,\n", 2, 3, "--bad-lines skip", name="graph.csv"),
        refused("a bar (CAIDA)", "1|2|-1\n2|3|0\n", 1, 1, "tr '|' ' '"),
        right("a bar (CAIDA), by tr", "1|2|-1\n2|3|0\n".replace("|", " "), PATH, "--columns", "1,2", by_pipe=True),
        refused("a header of words between blanks", "from to\n1 2\n2 3\n", 1, 1, "--skip"),
        right("a header of words between blanks", "from to\n1 2\n2 3\n", PATH, "--skip", "1"),
        right("CSV with CRLF and times, columns the other way round", "t,1,2\r\nt,2,3\r\n", PATH, "--columns", "3,2", name="graph.csv"),
        refused("whole numbers as floats (numpy.savetxt)", "1.0 2.0\n2.0 3.0\n", 1, 1, "whole number"),
        right("a bad line that is passed over", "1,2\nx,y\n2,3\n", PATH, "--bad-lines", "skip", name="graph.csv",
              told=("line 2, column 1: ", "1 line was passed over")),
    ]


def format_rows():
    """Formats that have a head of their own, or a form of their own."""
    matrix = "%%MatrixMarket matrix coordinate pattern symmetric\n% a comment\n9 9 2\n2 1\n3 2\n"
    reals = "%%MatrixMarket matrix coordinate real general\n9 9 2\n2 1 0.5\n3 2 1e-3\n"
    adjacency = "1 2 3\n2 3\n3 4\n4\n"
    dimacs = "c a comment\np edge 3 2\ne 1 2\ne 2 3\n"
    pajek = '*Vertices 3\n1 "a"\n2 "b"\n3 "c"\n*Edges\n1 2 1\n2 3 1\n'
    size_line = "3 2\n1 2\n2 3\n"
    return [
        refused("MatrixMarket", matrix, 3, 5, ("MatrixMarket", "--skip")),
        right("MatrixMarket", matrix, PATH, "--skip", "3"),
        right("MatrixMarket with values", reals, PATH, "--skip", "2", "--columns", "1,2"),
        right("MatrixMarket with values and --columns alone: its size line is an edge line", reals, [(9, 9), (2, 1), (3, 2)], "--columns", "1,2",
              told=("this is MatrixMarket; pass over its lines up to that of the sizes by --skip",)),
        right("a header line n m, which is an edge line: told", "9 2\n1 2\n2 3\n", [(9, 2), *PATH], told=SIZES_FIRST),
        right("a header line n m, which is an edge line: told", size_line, [(3, 2), *PATH], told=SIZES_FIRST),
        right("a header line n m with weights, which is an edge line: told", "# a path\n3 2\n1 2 0.5\n2 3 1\n", [(3, 2), *PATH],
              "--columns", "1,2", told=SIZES_FIRST),
        right("a header line n m with as many vertices as edges, which is a loop: told", "3 3\n1 2\n2 3\n3 1\n", [*PATH, (3, 1)], told=SIZES_FIRST),
        right("a header line n m", size_line, PATH, "--skip", "1"),
        right("a header line n m among names", "3 2\n1 2\n2 3\n", [("3", "2"), ("1", "2"), ("2", "3")], "--ids", "names"),
        right("a first edge whose second id counts the others, but not the first", "2 1\n3 2\n", [(2, 1), (3, 2)]),
        refused("adjacency list", adjacency, 1, 5, "adjacency"),
        right("adjacency list, first two columns: the first neighbour alone, as docs/CORES.md says", "1 2 3\n2 3\n3 4\n", [*PATH, (3, 4)], "--columns", "1,2"),
        refused("DIMACS", dimacs, 1, 1, "--columns"),
        right("DIMACS", dimacs, PATH, "--columns", "2,3", "--bad-lines", "skip",
              told=("line 1, column 3: ", "line 2, column 3: ", "2 lines were passed over")),
        refused("Pajek", pajek, 1, 1, "--skip"),
        right("Pajek", pajek, PATH, "--skip", "5", "--columns", "1,2"),
        refused("JSON lines", '{"source": 1, "target": 2}\n', 1, 1, ("JSON", "jq -r '[.source,.target]|@tsv'")),
        refused("a batch of kcore", "1 2\nbatch\n+ 2 3\n", 2, None, "kcore"),
        refused("a change of kcore", "1 2\n+ 2 3\n", 2, None, "kcore"),
        refused("a sign without a blank", "+1 2\n", 1, 1, "whole number"),
        refused("BATCH", "1 2\nBATCH\n", 2, 1, "whole number"),
        refused("add and remove as words", "add 2 3\n", 1, 1, "whole number"),
    ]


def byte_rows():
    """Files whose bytes are not those of a plain text."""
    plain = b"1 2\n2 3\n"
    bom = "\ufeff1 2\n2 3\n"
    packed = [("gzip", gzip.compress(plain), "zcat", ".gz"), ("xz", lzma.compress(plain), "xzcat", ".xz")]
    packed.append(("bzip2", bz2.compress(plain), "bzcat", ".bz2"))
    if shutil.which("zstd"):
        packed.append(("zstd", subprocess.run(["zstd", "-c"], input=plain, capture_output=True, check=True).stdout, "zstdcat", ".zst"))
    rows = [
        right("byte order mark (Excel, Notepad)", bom, PATH),
        right("byte order mark (Excel, Notepad)", bom, PATH, "--columns", "1,2"),
        right("byte order mark and CSV", "\ufeff1,2\r\n2,3\r\n", PATH, name="graph.csv"),
        refused("UTF-16 (PowerShell)", plain.decode().encode("utf-16"), 1, None, ("UTF-16", "iconv")),
        refused("UTF-16 with a dialect", plain.decode().encode("utf-16"), 1, None, ("UTF-16", "iconv"), "--columns", "1,2"),
        refused("lines that end in CR alone", "1 2\r2 3\r", 1, 3, "CR"),
        right("CR alone behind a comment: all is one comment", "# a comment\r1 2\r2 3\r", [], told=("the lines end in CR alone; make them newlines, as by tr",)),
        right("CR alone, first two columns: all is one line", "1 2 x\r2 3 y\r", [(1, 2)], "--columns", "1,2", told=("the lines end in CR alone; make them newlines, as by tr",)),
        right("CR alone by tr", "# a comment\r1 2\r2 3\r".replace("\r", "\n"), PATH, by_pipe=True),
    ]
    for name, text, mend, ending in packed:
        rows.append(refused(name, text, 1, None, (name, mend), name="graph.txt" + ending))
        rows.append(right(f"{name} by {mend}", subprocess.run([mend], input=text, capture_output=True, check=True).stdout, PATH, by_pipe=True))
    return rows


def id_rows():
    """Ids that are no whole numbers below 2^32."""
    return [
        right("the greatest id", "4294967295 1\n", [(4294967295, 1)]),
        refused("64-bit ids (Twitter)", "1 2\n2 9007199254740993\n", 2, 3, "4294967295"),
        refused("64-bit ids in a CSV", "1,2\n2,9007199254740993\n", 2, 3, "4294967295", name="graph.csv"),
        refused("ids of 21 digits (ego-Gplus)", "1 112188647432305746617\n", 1, 3, "4294967295"),
        refused("names", "alice bob\nbob carol\n", 1, 1, "--ids"),
        right("names", "alice bob\nbob carol\n", [("alice", "bob"), ("bob", "carol")], "--ids", "names"),
        refused("UUIDs", "1 0b5c9c1e-0d2b-4f6e-9a1f-2f0f3b7e9d11\n", 1, 3, "--ids"),
        right("UUIDs", "1 0b5c9c1e-0d2b-4f6e-9a1f-2f0f3b7e9d11\n", [("1", "0b5c9c1e-0d2b-4f6e-9a1f-2f0f3b7e9d11")], "--ids", "names"),
        right("64-bit ids as names", "2 9007199254740993\n", [("2", "9007199254740993")], "--ids", "names"),
        right("names of genes, with a weight", "BRCA1 TP53 0.98\nTP53 BRCA1 0.98\n", [("BRCA1", "TP53")], "--ids", "names"),
        right("letters of more than one byte", "Zoë 東京\n", [("Zoë", "東京")], "--ids", "names"),
        right("names of a CSV, with a header", "from,to\nann,\"Doe,J\"\n", [("ann", "Doe,J")], "--ids", "names", "--skip", "1", name="graph.csv"),
        right("mail addresses that are not whole are passed over", "a@x.org b@x.org\na@x.org\n", [("a@x.org", "b@x.org")], "--ids", "names",
              "--bad-lines", "skip", told=("line 2, column 8: ", "1 line was passed over")),
        refused("a name with a blank", "ann,New York\n", 1, 5, "blank", "--ids", "names", name="graph.csv"),
        refused("names in Latin-1", "Zo\u00eb ann\n".encode("latin-1"), 1, 1, "UTF-8", "--ids", "names"),
        refused("hexadecimal ids", "0x1 0x2\n", 1, 1, "whole number"),
        refused("a negative id", "-1 2\n", 1, 1, "whole number"),
        refused("comments of // ", "// a comment\n1 2\n2 3\n", 1, 1, "#"),
        right("comments of // ", "// a comment\n1 2\n2 3\n", PATH, "--bad-lines", "skip", told=("line 1, column 1: ", "1 line was passed over")),
        refused("comments of ; ", "; a comment\n1 2\n2 3\n", 1, 1, "#"),
        right("comments of ; ", "; a comment\n1 2\n2 3\n", PATH, "--bad-lines", "skip", told=("line 1, column 1: ", "1 line was passed over")),
        refused("a line of one id", "1 2\n3\n", 2, 2, "two ids"),
    ]


def rows():
    return [*plain_rows(), *column_rows(), *csv_rows(), *format_rows(), *byte_rows(), *id_rows()]


def numbers_of(edges):
    """The lines of the core numbers of these edges, and the summary: by ascending ids, or names in the order of their first coming."""
    neighbours = fuzz_cores.graph_of_pairs(edges)
    neighbours = dict(sorted(neighbours.items())) if all(isinstance(v, int) for v in neighbours) else neighbours
    core = fuzz_cores.core_numbers(neighbours)
    size = sum(map(len, neighbours.values())) // 2
    lines = "".join(f"{v}\t{core[v]}\n" for v in neighbours)
    return lines, f"vertices {len(core)} edges {size} top {max(core.values(), default=0)}"


# a path of 600,001 ids, each of core number 1
LONG_PATH = ("".join(f"{v}\t1\n" for v in range(600_001)), "vertices 600001 edges 600000 top 1")


def missed_reading(row, status, lines, told, front):
    """What of a row that is read is not met, or an empty text."""
    wanted, summary = numbers_of(row.edges) if row.edges is not None else LONG_PATH
    starts, found = [front + start for start in row.told] + [summary], told.splitlines()
    if (status, lines) != (0, wanted):
        return f"status {status}, {told.strip() or lines!r}"
    return "" if len(found) == len(starts) and all(a.startswith(b) for a, b in zip(found, starts)) else f"told {told.strip()!r}"


def missed_refusal(row, status, lines, told, front):
    """What of a row that is refused is not met, or an empty text."""
    if (status, lines) != (3, ""):
        return f"status {status}, {(lines + told)!r}"
    place = f"line {row.line}" + (f", column {row.column}: " if row.column else "")
    lacks = [word for word in (place, *row.mends) if word.lower() not in told.replace(front, "", 1).lower()]
    column = re.match(rf"line {row.line}, column ([0-9]+): ", told.replace(front, "", 1))
    shown = fuzz_cores.shown_lines(row.text, row.line, int(column[1]) if column else None)
    fits = told.startswith(front) and told.splitlines()[1:] == shown and not lacks
    return "" if fits else f"told {told.strip().replace(front, '')!r}, without {', '.join(map(repr, lacks))}"


def missed(row, ended, front):
    """What of a row is not met, or an empty text."""
    return (missed_reading if row.line is None else missed_refusal)(row, *ended, front)


def missed_beside(row, ended, front):
    """What is not met of a known row beside what is known: it is refused at its line."""
    if row.silent or not row.known or row.line is None:
        return ""
    return missed(dataclasses.replace(row, column=None, mends=()), ended, front)


def run_row(program, row, place):
    """What of a row is not met, and what of a known one beside what is known."""
    if row.by_pipe:
        ended, front = fuzz_cores.run(program, ("numbers", *row.words), row.text), "cores: "
    else:
        file = place / row.name
        file.write_bytes(row.text)
        ended, front = fuzz_cores.run(program, ("numbers", *row.words, str(file)), b""), f"cores: {file}: "
    return missed(row, ended, front), missed_beside(row, ended, front)


def tried_rows(program, only, told):
    """Runs the rows, and tells of each that is not met, or is met though it is known. How many are wrong."""
    wrong, known, count = 0, {}, 0
    with tempfile.TemporaryDirectory() as place:
        for row in rows():
            if only not in row.kind:
                continue
            count += 1
            found, beside = run_row(program, row, pathlib.Path(place))
            asked = " ".join((row.kind + ":", "cores numbers", *row.words, row.name))
            if beside or (found and not row.known):
                wrong += 1
                print(f"wrong: {asked}: {beside or found}")
            elif found:
                known.setdefault(row.known, []).append(f"{asked}: {found}" if told else asked)
            elif row.known:
                wrong += 1
                print(f"met by now: {asked}: take away `known` ({row.known})")
    for reason, found in known.items():
        print(f"known: {reason}", *found, sep="\n    ")
    met = count - wrong - sum(map(len, known.values()))
    print(f"{count} files: {met} as they have to be, {sum(map(len, known.values()))} known, {wrong} wrong")
    return wrong


def table_of(program, place, *words):
    """A file with what a command writes of the small graph, and its rows by plain Python."""
    file = place / ("-".join(words).replace("/", "") + ".tsv")
    lines = fuzz_cores.run(program, (*words, "--quiet", str(TOP / "graphs/karate.txt")), b"")[1]
    file.write_text(lines)
    return file, [[int(field) for field in line.split("\t")] for line in lines.splitlines()]


COMMANDS = (("numbers",), ("sizes",), ("members",), ("members", "--core", "3"), ("members", "--edges"), ("layers",), ("order",))


def by_numpy(numpy, file):
    return numpy.loadtxt(file, dtype=numpy.int64, ndmin=2).tolist()


def by_pandas(pandas, file):
    return pandas.read_csv(file, sep="\t", header=None).values.tolist()


def by_jq(_, file):
    ended = subprocess.run(["jq", "-R", "-c", 'split("\t") | map(tonumber)', str(file)], capture_output=True, check=True)
    return [json.loads(line) for line in ended.stdout.splitlines()]


def numbers_by_networkx(networkx, file):
    return sorted(map(list, networkx.core_number(networkx.read_edgelist(file, nodetype=int)).items()))


def numbers_by_igraph(igraph, file):
    graph = igraph.Graph.Read_Ncol(str(file), directed=False)
    return sorted([int(name), core] for name, core in zip(graph.vs["name"], graph.coreness()))


def module(name):
    """A module, where it is there."""
    try:
        return importlib.import_module(name)
    except ImportError:
        return None


def tried_readers(program):
    """Has the outputs read by what is there, and tells what reads them otherwise."""
    wrong, there, lacking = 0, [], []
    tables = {"numpy": by_numpy, "pandas": by_pandas, "jq": by_jq}
    graphs = {"networkx": numbers_by_networkx, "igraph": numbers_by_igraph}
    with tempfile.TemporaryDirectory() as folder:
        place = pathlib.Path(folder)
        numbers = table_of(program, place, "numbers")[1]
        edges = table_of(program, place, "members", "--edges", "--core", "0")[0]
        for name in (*tables, *graphs):
            reader = shutil.which("jq") if name == "jq" else module(name)
            (there if reader else lacking).append(name)
            found = []
            if reader and name in tables:
                found = [words for words in COMMANDS for file, lines in [table_of(program, place, *words)] if tables[name](reader, file) != lines]
            elif reader and graphs[name](reader, edges) != numbers:
                found = [("numbers",)]
            wrong += len(found)
            for words in found:
                print(f"wrong: {name} reads {' '.join(words)} otherwise")
    print(f"{len(COMMANDS)} outputs are read by {', '.join(there) or 'none'}: {wrong or 'none'} wrong")
    if lacking:
        print(f"not there: {', '.join(lacking)}")
    return wrong


def main():
    words = argparse.ArgumentParser(description=__doc__, formatter_class=argparse.RawDescriptionHelpFormatter)
    words.add_argument("--cores", default=str(TOP / "crates/cores/out/cores"))
    words.add_argument("--only", default="", help="kinds with this word in their name")
    words.add_argument("--told", action="store_true", help="with what the program tells of each row that is known")
    chosen = words.parse_args()
    wrong = tried_rows(chosen.cores, chosen.only, chosen.told) + tried_readers(chosen.cores)
    sys.exit(1 if wrong else 0)


if __name__ == "__main__":
    main()
