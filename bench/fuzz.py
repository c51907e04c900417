#!/usr/bin/env python3
"""Runs the built program on small random inputs and words, and compares what it does with a model of its text in Python.

usage: fuzz.py [--kcore PROGRAM] [--seed N] [--cases N] [--first N] [--seconds N] [--processes N] [--kinds valid,broken,soup,words,batches,faults]
(default: crates/kcore/out/kcore beside this folder; ./kcore builds it)

The model speaks of lines, sets and counts alone: it says for each list of words and each input the status, the whole text and the line
on standard error, each refusal with its line and kind among them. The kinds of cases:

  valid     edge lines and batches in all their forms, with words that are right
  broken    the same with some bytes or lines changed, dropped, doubled or added
  soup      bytes that are drawn from those that lines are made of, and from all
  words     words that are right or nearly so, among them `--gen`
  batches   many changes of few vertices, so that core numbers rise and fall
  faults    a folder as standard input, /dev/full or a closed pipe as output, and, where cc is at hand, a refused request for memory

Each but `faults` is run with 1, 2, 3, 8 or 64 workers. Where the program does otherwise, the case is shrunk while it still does, and
printed; the status is then 1. Each case is made from the seed and its own number, so `--first N --cases 1` runs case N again.
"""
import argparse
import concurrent.futures
import functools
import os
import pathlib
import random
import subprocess
import sys
import tempfile
import time

import differ
import refused

HERE = pathlib.Path(__file__).resolve().parent
KINDS = ("valid", "broken", "soup", "words", "batches", "faults")
WORKERS = (1, 1, 2, 3, 8, 64)
LIMIT = 60  # seconds that a run may take
GREATEST_ID = 4_294_967_295
MOST_IDS, MOST_EDGE_LINES, MOST_UPDATES, MOST_BATCHES, MOST_BYTES = 524_288, 4_194_304, 1_048_576, 4_096, 67_108_864
USAGE = b"usage: kcore [--workers W] [--show cores|summary|each] [--level K] [--gen NUMBER] [--start buckets|hindex]\n"
NAMES = {
    1: "NotANumber", 2: "MissingField", 3: "ExtraField", 4: "NumberTooLarge", 5: "LoopInBatch", 7: "UpdateOutsideBatch",
    8: "EdgeLineInBatch", 9: "TooManyVertices", 10: "TooManyEdgeLines", 11: "TooManyUpdates", 12: "TooManyBatches", 13: "TooLong",
}


class Refused(Exception):
    """A line is refused."""

    def __init__(self, kind, line=0):
        super().__init__(kind)
        self.kind, self.line = kind, line


# What a text means.

def fields_of(line):
    return [field for field in line.replace(b"\t", b" ").split(b" ") if field]


def number_of(field):
    if any(byte not in b"0123456789" for byte in field):
        raise Refused(1)
    if int(field) > GREATEST_ID:
        raise Refused(4)
    return int(field)


def pair_of(fields):
    numbers = []
    for place in range(2):
        if place == len(fields):
            raise Refused(2)
        numbers.append(number_of(fields[place]))
    if len(fields) > 2:
        raise Refused(3)
    return tuple(numbers)


class Reader:
    """What the lines so far have said."""

    def __init__(self):
        self.ids, self.edges, self.batches = set(), set(), []
        self.edge_lines = self.updates = 0

    def take(self, line):
        fields = fields_of(line.removesuffix(b"\r"))
        if not fields or fields[0][:1] in (b"#", b"%"):
            return
        if fields[0] == b"batch":
            if len(fields) > 1:
                raise Refused(3)
            self.batches.append([])
        elif fields[0] in (b"+", b"-"):
            self.take_update(fields[0] == b"+", pair_of(fields[1:]))
        else:
            self.take_edge(pair_of(fields))
        if len(self.ids) > MOST_IDS:
            raise Refused(9)
        for count, most, kind in ((self.edge_lines, MOST_EDGE_LINES, 10), (self.updates, MOST_UPDATES, 11), (len(self.batches), MOST_BATCHES, 12)):
            if count > most:
                raise Refused(kind)

    def take_update(self, added, pair):
        if not self.batches:
            raise Refused(7)
        if pair[0] == pair[1]:
            raise Refused(5)
        self.ids.update(pair)
        self.updates += 1
        self.batches[-1].append((tuple(sorted(pair)), added))

    def take_edge(self, pair):
        if self.batches:
            raise Refused(8)
        self.ids.update(pair)
        self.edge_lines += 1
        if pair[0] != pair[1]:
            self.edges.add(tuple(sorted(pair)))


def read(data):
    """What the bytes mean; Refused with the first refused line."""
    if len(data) > MOST_BYTES:
        raise Refused(13)
    reader = Reader()
    for number, line in enumerate(data.split(b"\n"), 1):
        try:
            reader.take(line)
        except Refused as refusal:
            raise Refused(refusal.kind, number) from None
    return reader


def rounds_of(ids, edges):
    """The first round of h-indices that changes no number, from the degrees on."""
    near = {v: [] for v in ids}
    for u, v in edges:
        near[u].append(v)
        near[v].append(u)
    now, rounds = {v: len(near[v]) for v in ids}, 0
    while True:
        after = {}
        for v in ids:
            numbers = sorted((now[w] for w in near[v]), reverse=True)
            after[v] = sum(number > place for place, number in enumerate(numbers))
        rounds += 1
        if after == now:
            return rounds
        now = after


def states_of(reader):
    """The graph's edges and core numbers at first and after each batch, with what the batch did."""
    ids, edges = sorted(reader.ids), set(reader.edges)
    states = [(None, len(edges), differ.core_numbers(ids, edges))]
    for lines in reader.batches:
        deciding = dict(lines)
        added = {pair for pair, sign in deciding.items() if sign and pair not in edges}
        gone = {pair for pair, sign in deciding.items() if not sign and pair in edges}
        edges = (edges | added) - gone
        counts = (len(added), len(gone), len(deciding) - len(added) - len(gone), len(lines) - len(deciding))
        states.append((counts, len(edges), differ.core_numbers(ids, edges)))
    return ids, states


def batch_line(number, counts, edges, top):
    added, gone, kept, overruled = counts
    again = f" overruled {overruled}" if overruled else ""
    return f"batch {number} added {added} removed {gone} kept {kept}{again} edges {edges} top {top}"


def text_of(setting, ids, states, rounds):
    def top(core):
        return max(core.values(), default=0)

    def core_lines(core):
        return [f"{v} {core[v]}" for v in ids]

    last = states[-1][2]
    lines = [f"graph vertices {len(ids)} edges {states[0][1]} top {top(states[0][2])}"]
    if rounds is not None:
        lines.append(f"hindex rounds {rounds}")
    if setting["show"] == "each":
        lines += core_lines(states[0][2])
    for number, (counts, edges, core) in enumerate(states[1:], 1):
        lines.append(batch_line(number, counts, edges, top(core)))
        if setting["show"] == "each":
            lines += core_lines(core)
    if setting["show"] == "cores":
        lines += core_lines(last)
    if setting["level"] is not None:
        members = [v for v in ids if last[v] >= setting["level"]]
        lines += [f"level {setting['level']} members {len(members)}"] + [str(v) for v in members]
    return "".join(line + "\n" for line in lines).encode()


# What words mean.

def small_number(word, least, greatest):
    if not 1 <= len(word) <= 10 or any(byte not in "0123456789" for byte in word):
        return None
    return int(word) if least <= int(word) <= greatest else None


VALUES = {
    "workers": lambda word: small_number(word, 1, 64),
    "show": lambda word: word if word in ("cores", "summary", "each") else None,
    "level": lambda word: small_number(word, 0, GREATEST_ID),
    "gen": lambda word: small_number(word, 0, GREATEST_ID),
    "start": lambda word: word if word in ("buckets", "hindex") else None,
}


def setting_of(words):
    """What the words ask for; None where they are not right."""
    given, words = {}, list(words)
    while words:
        word = words.pop(0)
        if word == "--":
            if words:
                return None
            break
        name, parted, value = word.removeprefix("--").partition("=")
        if not word.startswith("--") or name not in VALUES or name in given:
            return None
        if not parted:
            if not words or words[0].startswith("-"):
                return None
            value = words.pop(0)
        given[name] = VALUES[name](value)
        if given[name] is None:
            return None
    shown = "summary" if "gen" in given else "cores"
    return {"show": given.get("show", shown), "level": given.get("level"), "gen": given.get("gen"), "start": given.get("start", "buckets")}


def generated(number):
    """The text that is made from a number."""
    state = number

    def draw(bound):
        nonlocal state
        state = (state * 6364136223846793005 + 1442695040888963407) % 2**64
        return state // 8589934592 % bound

    pairs = [(draw(10_000), draw(10_000)) for _ in range(50_000)]
    lines = [f"{a} {b}" for a, b in pairs]
    for _ in range(4):
        lines.append("batch")
        named = set()
        for _ in range(1_000):
            sign = "+" if draw(2) == 0 else "-"
            a, b = (draw(10_000), draw(10_000)) if sign == "+" else pairs[draw(50_000)]
            if a != b and frozenset((a, b)) not in named:
                named.add(frozenset((a, b)))
                lines.append(f"{sign} {a} {b}")
    return "".join(line + "\n" for line in lines).encode()


@functools.lru_cache(maxsize=8)
def generated_states(number):
    reader = read(generated(number))
    return states_of(reader) + (rounds_of(reader.ids, reader.edges),)


def model(words, data):
    """The status, the text and the line on standard error."""
    setting = setting_of(words)
    if setting is None:
        return 2, b"", USAGE
    if setting["gen"] is not None:
        ids, states, rounds = generated_states(setting["gen"])
    else:
        try:
            reader = read(data)
        except Refused as refusal:
            return 3, b"", f"refused line {refusal.line} kind {refusal.kind} {NAMES[refusal.kind]}\n".encode()
        ids, states = states_of(reader)
        rounds = rounds_of(reader.ids, reader.edges) if setting["start"] == "hindex" else None
    return 0, text_of(setting, ids, states, rounds if setting["start"] == "hindex" else None), b""


# Cases.

def valid_words(rng):
    words = []
    for option in rng.sample(("workers", "show", "level", "start"), rng.choice((0, 1, 1, 2, 2, 3, 4))):
        value = {
            "workers": str(rng.choice(WORKERS)), "show": rng.choice(("cores", "summary", "each")),
            "level": rng.choice(("0", "1", "2", "3", "0004", "4294967295")), "start": rng.choice(("buckets", "hindex")),
        }[option]
        words += [f"--{option}={value}"] if rng.random() < 0.3 else [f"--{option}", value]
    return words + ["--"] * (rng.random() < 0.05)


def valid_data(rng):
    return differ.as_bytes(differ.random_lines(rng), rng.random() < 0.8)


def changed(rng, data):
    """The bytes with one place changed."""
    at, piece = rng.randrange(len(data) + 1), rng.choice((b"\n", b" ", b"\r", b"x", b"-", b"+", b"# ", b"batch\n", b"9" * 10, b"0", b"\0", b"\xff", b"+ 1 1\n", b"- 2\n", b"4294967296"))
    kind = rng.randrange(4)
    if kind == 0:
        return data[:at] + piece + data[at:]
    if kind == 1:
        return data[:at] + data[at + rng.choice((1, 1, 2, 5)):]
    if kind == 2:
        return data[:at] + bytes([rng.randrange(256)]) + data[at + 1:]
    return data[:at] + data[at:at + rng.choice((1, 4, 12))] + data[at:]


def broken_data(rng):
    data = valid_data(rng)
    for _ in range(rng.choice((1, 1, 1, 2, 4))):
        data = changed(rng, data)
    return data


TOKENS = (b"1", b"2", b"3", b" ", b" ", b"\n", b"\n", b"+ ", b"- ", b"batch\n", b"batch", b"# ", b"%", b"\r\n", b"\t", b"\n+ 1 2", b"\n- 2 2")


def soup(rng):
    if rng.random() < 0.5:
        return b"".join(rng.choice(TOKENS) for _ in range(rng.choice((2, 4, 8, 16, 40))))
    alphabet = rng.choice((b" \t\r\n\n+-#%0123456789", b"12 \n", b"1 +-\n", bytes(range(256))))
    pieces = [bytes([rng.choice(alphabet)]) for _ in range(rng.choice((1, 2, 3, 5, 9, 30, 100)))]
    if rng.random() < 0.3:
        pieces.insert(rng.randrange(len(pieces) + 1), b"batch\n")
    return b"".join(pieces)


def odd_words(rng):
    pool = ["--workers", "--show", "--level", "--gen", "--start", "--", "-", "", "1", "2", "8", "64", "65", "0", "cores", "each", "summary",
            "hindex", "buckets", "--help", "-h", "--version", "--work", "--workers=2", "--workers=", "--workers=2=3", "--level=0002", "--level=-1",
            "--level", "00000000002", "4294967295", "4294967296", "--show=each", "--show=Each", "--start=hindex", "--gen=x", "-w", "--levels=2",
            "+2", " 2", "2 ", "\u0662", "--workers=\u0662", "--=1", "---workers", "--level=", "--gen=-"]
    words = valid_words(rng) if rng.random() < 0.5 else []
    for _ in range(rng.choice((0, 1, 1, 2, 3))):
        words.insert(rng.randrange(len(words) + 1), rng.choice(pool))
    if rng.random() < 0.002:
        words = ["--gen", str(rng.choice((0, 7, 4294967295)))] + valid_words(rng)
    return words


def many_changes(rng):
    vertices, lines = rng.choice((3, 5, 8, 13, 24)), []
    edge_share = rng.choice((0.2, 0.5, 0.9))

    def pair():
        return rng.sample(range(vertices), 2)

    for _ in range(rng.choice((0, vertices, 3 * vertices))):
        lines.append("%d %d\n" % tuple(pair()))
    for _ in range(rng.choice((1, 2, 4, 12))):
        lines.append("batch\n")
        for _ in range(rng.choice((1, 3, 10, 40))):
            lines.append("%s %d %d\n" % ("+" if rng.random() < edge_share else "-", *pair()))
    return "".join(lines).encode()


def case_of(seed, number, kinds):
    """The kind, the words and the input of a case, and the numbers that follow."""
    rng = random.Random(f"{seed} {number}")
    kind = kinds[number % len(kinds)]
    if kind == "words":
        return kind, odd_words(rng), valid_data(rng) if rng.random() < 0.3 else b"1 2\n", rng
    data = {"valid": valid_data, "broken": broken_data, "soup": soup, "batches": many_changes, "faults": many_changes}[kind](rng)
    words = valid_words(rng)
    if kind == "batches" and not any(word.startswith("--workers") for word in words):
        words = ["--workers", str(rng.choice(WORKERS))] + words
    return kind, words, data, rng


# Runs.

def run(command, data, **more):
    """The status, the text and what stands on standard error; the status is None where the run does not end."""
    try:
        done = subprocess.run(command, input=data, capture_output=True, timeout=LIMIT, **more)
    except subprocess.TimeoutExpired as late:
        return None, late.stdout or b"", late.stderr or b""
    return done.returncode, done.stdout, done.stderr


def found(chosen, words, data):
    """What the program does and what it should do, where these differ."""
    ours, wanted = run([chosen.kcore] + words, data), model(words, data)
    return None if ours == wanted else (ours, wanted)


def without_reading(chosen, words):
    """What the program does with a folder as standard input."""
    with subprocess.Popen([chosen.kcore] + words, stdin=os.open("/", os.O_RDONLY), stdout=subprocess.PIPE, stderr=subprocess.PIPE) as child:
        out, err = child.communicate(timeout=LIMIT)
    return child.returncode, out, err


def without_writing(chosen, words, data, full):
    """What the program does where its output is full, or closed by its reader."""
    if full:
        output = os.open("/dev/full", os.O_WRONLY)
    else:
        reading, output = os.pipe()
        os.close(reading)
    try:
        with subprocess.Popen([chosen.kcore] + words, stdin=subprocess.PIPE, stdout=output, stderr=subprocess.PIPE) as child:
            _, err = child.communicate(data, timeout=LIMIT)
    finally:
        os.close(output)
    return child.returncode, b"", err


def fault_found(chosen, words, data, rng):
    """As `found`, with a fault on the outside."""
    wanted, kind = model(words, data), rng.randrange(4)
    if kind == 0:
        ours, wanted = without_reading(chosen, words), (4, b"", b"read fault\n")
    elif kind == 1 and os.path.exists("/dev/full"):
        ours, wanted = without_writing(chosen, words, data, True), (5, b"", b"write fault\n")
    elif kind == 2:
        ours, wanted = without_writing(chosen, words, data, False), (5, b"", b"write fault\n")
    else:
        later = rng.choice(("", "+"))
        inside = dict(os.environ, LD_PRELOAD=chosen.library, KCORE_REFUSE=f"{rng.choice((1, 10, 100, 1000)) + rng.randrange(200)}{later}")
        ours = run([chosen.kcore] + words, data, env=inside)
        return None if not refused.is_lost(ours, wanted) else (ours, wanted)
    return None if ours == wanted else (ours, wanted)


def shrunk(wrong, pieces, join):
    """Pieces that are still wrong, of which none can be left out."""
    size = max(1, len(pieces) // 2)
    while size:
        at = 0
        while at < len(pieces):
            fewer = pieces[:at] + pieces[at + size:]
            if wrong(join(fewer)):
                pieces = fewer
            else:
                at += size
        size //= 2
    return join(pieces)


def shrunk_case(chosen, words, data):
    """The case with fewer words, lines and bytes, while the program still does otherwise than the model."""
    size = None
    while size != (len(words), len(data)):
        size = len(words), len(data)
        words = shrunk(lambda fewer: found(chosen, fewer, data), words, list)
        data = shrunk(lambda fewer: found(chosen, words, fewer), data.splitlines(keepends=True), b"".join)
        data = shrunk(lambda fewer: found(chosen, words, fewer), [bytes([byte]) for byte in data], b"".join)
    return words, data


def try_cases(chosen, numbers):
    """How many cases of each kind were run, and what is wrong of the first that is, shrunk."""
    counts = dict.fromkeys(KINDS, 0)
    for number in numbers:
        if chosen.until and time.monotonic() > chosen.until:
            break
        kind, words, data, rng = case_of(chosen.seed, number, chosen.kinds)
        wrong = fault_found(chosen, words, data, rng) if kind == "faults" else found(chosen, words, data)
        counts[kind] += 1
        if wrong and kind != "faults":
            small, less = shrunk_case(chosen, words, data)
            words, data, wrong = (small, less, found(chosen, small, less)) if found(chosen, small, less) else (words, data, wrong)
        if wrong:
            return counts, f"case {number} of seed {chosen.seed} ({kind}), words {words}, input {data!r}:\n  does  {wrong[0]}\n  model {wrong[1]}"
    return counts, None


def main():
    words = argparse.ArgumentParser(description=__doc__, formatter_class=argparse.RawDescriptionHelpFormatter)
    words.add_argument("--kcore", default=str(HERE.parent / "crates/kcore/out/kcore"))
    words.add_argument("--seed", type=int, default=1)
    words.add_argument("--first", type=int, default=0, help="the number of the first case")
    words.add_argument("--cases", type=int, default=6_000)
    words.add_argument("--seconds", type=float, default=0, help="stop after so many seconds")
    words.add_argument("--processes", type=int, default=2)
    words.add_argument("--kinds", default=",".join(KINDS))
    chosen = words.parse_args()
    chosen.kinds = chosen.kinds.split(",")
    if not set(chosen.kinds) <= set(KINDS):
        words.error("the kinds are " + ", ".join(KINDS))
    chosen.until = time.monotonic() + chosen.seconds if chosen.seconds else 0
    counts, wrong = dict.fromkeys(KINDS, 0), None
    with tempfile.TemporaryDirectory() as place, concurrent.futures.ProcessPoolExecutor(chosen.processes) as pool:
        chosen.library = refused.built(place) if "faults" in chosen.kinds else ""
        share = 600
        ends = range(chosen.first, chosen.first + chosen.cases, share)
        tries = [pool.submit(try_cases, chosen, range(at, min(at + share, chosen.first + chosen.cases))) for at in ends]
        for done in concurrent.futures.as_completed(tries):
            tried, found_wrong = done.result()
            for kind in KINDS:
                counts[kind] += tried[kind]
            if found_wrong:
                wrong = found_wrong
                for other in tries:
                    other.cancel()
                break
    told = ", ".join(f"{count} {kind}" for kind, count in counts.items() if count)
    print(f"{sum(counts.values())} cases of seed {chosen.seed} from number {chosen.first} on ({told}): {'ONE IS WRONG' if wrong else 'none is wrong'}")
    if wrong:
        print(wrong)
        sys.exit(1)


if __name__ == "__main__":
    main()
