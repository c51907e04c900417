#!/usr/bin/env python3
"""Talks to `cores watch` through real pipes, and compares each answer with a model of it in Python.

usage: watch.py [--cores PROGRAM] [--seed N] [--cases N] [--seconds N]
(default: crates/cores/out/cores beside this folder; `./cores --version` builds it)

A sender writes a piece of a random stream, waits for just the answer that the model has for all that was sent, and only then writes the
next piece. An answer that does not come within the time, that is wrong or that comes before its bytes were sent is told, with the stream;
the status is then 1. Short streams are cut at each byte. The streams name new ids in late batches, and some have lines that are refused:
then the program has to end by itself, with status 3 and the line that tells the refusal, though the pipe stays open. With `--bad-lines batch`,
as half of them have it, it has to drop the batch of such a line and go on, and to tell at its end how many it dropped. Each stream also ends
without a last newline. Among the changes stand questions, of known ids and others. Half of them are watched with `--show changes`, most with
`--enter K`, and a third with `--format json`: there the model writes each line in words as an object. In a third of them the front of the
stream, cut anywhere, is a file that `--from` names; others go on from a state by `--load`. A third is saved by `--save`, half of these with
`--every`: then the file has to have a state of the stream, the last one or one that is not too old. Half have `--workers`, which changes no
answer. At the end it tries files that can't stand in front, a reader that goes away (`| head -1`), a folder as standard input, and /dev/full, and
has batches of a large graph made by one worker and by four, for which that many are asked.
"""
import argparse
import collections
import itertools
import json
import os
import pathlib
import random
import select
import subprocess
import sys
import tempfile
import time

import differ
import fuzz
import state_files

HERE = pathlib.Path(__file__).resolve().parent
# The file in front of a stream, and those of its states, in the folder where the program runs.
START, STATE, SAVED = "start.txt", "state.txt", "saved.txt"
SENTENCES = {
    1: "a field is not a whole number; write ids of decimal digits, or begin the line with # if it is a comment",
    2: "a number is missing; write two ids with a blank or a tab between them, or in a question ? ID, ? core K or ? order A B",
    3: "there are too many fields; write two ids, batch alone, or in a question ? ID, ? core K, ? sizes or ? order A B",
    4: "an id is greater than 4294967295; number the vertices anew with smaller ids",
    5: "a change names one id twice; remove the line",
    7: "a change or a question stands before any line batch; write a line batch before it",
    8: "an edge stands after a line batch; begin the line with + or -",
}


def number_of(fields):
    """The number that is all of the fields."""
    if not fields:
        raise fuzz.Refused(2)
    number = fuzz.number_of(fields[0])
    if len(fields) > 1:
        raise fuzz.Refused(3)
    return number


def two_numbers_of(fields):
    """The two numbers that are all of the fields."""
    if not fields:
        raise fuzz.Refused(2)
    return [fuzz.number_of(fields[0]), number_of(fields[1:])]


def object_of(line):
    """What a line of words tells, as an object."""
    word, *rest = line.split()
    numbers = [None if field == "-" else int(field) for field in rest if field == "-" or field.isdecimal()]
    if word in ("graph", "batch"):
        fields = rest if word == "graph" else [word, *rest]
        return {"event": word} | dict(zip(fields[::2], map(int, fields[1::2])))
    if word == "refused":
        return {"event": word} | dict(zip(("batch", "line", "kind"), numbers)) | {"name": rest[-1]}
    if word == "members":
        return {"event": word, "core": numbers[0], "ids": numbers[1:]}
    if word == "sizes":
        return {"event": word, "sizes": [{"core": core, "vertices": count} for core, count in zip(numbers[::2], numbers[1::2])]}
    if word == "order":
        return {"event": word, "first": numbers[0], "second": numbers[1], "order": None if rest[2] == "-" else rest[2]}
    if word == "core":
        return {"event": word, "id": numbers[0], "core": numbers[1]}
    return {"event": word, "id": numbers[0]} if rest[1:] == [] else {"event": "change", "id": int(word), "old": numbers[0], "new": numbers[1]}


class Options:
    """What is asked for behind the line of a batch, whether a refused line drops its batch, whether lines are objects, and the text of the file in
    front of the stream, if there is one. Where that is the start text of a state, `state` is the text of the state. The stream is saved where
    `saves` holds, and behind each `every` batches. So many `workers` may make a batch."""

    def __init__(self, changes=False, enter=None, drops=False, objects=False, start=None):
        self.changes, self.enter, self.drops, self.objects, self.start = changes, enter, drops, objects, start
        self.state, self.saves, self.every, self.workers = None, False, None, None

    def words(self):
        words = ["--show", "changes"] * self.changes + (["--enter", str(self.enter)] if self.enter is not None else [])
        words += ["--bad-lines", "batch"] * self.drops + ["--format", "json"] * self.objects
        words += ["--save", SAVED] * self.saves + ["--every", str(self.every)] * (self.every is not None)
        words += ["--workers", str(self.workers)] * (self.workers is not None)
        if self.state is not None:
            return words + ["--load", STATE]
        return words + ["--from", START] * (self.start is not None)

    def text_of(self, line):
        return (json.dumps(object_of(line), separators=(",", ":")) if self.objects else line).encode() + b"\n"

    def lines(self, before, after):
        """The lines about the ids whose core numbers change; both are core numbers by id."""
        changed = sorted(id for id in after if before.get(id) != after[id])
        lines = [f"{id} {before.get(id, '-')} {after[id]}" for id in changed] if self.changes else []
        return lines + ([line for id in changed for line in self.crossing(id, before.get(id, -1), after[id])] if self.enter is not None else [])

    def crossing(self, id, before, after):
        was, now = before >= self.enter, after >= self.enter
        return [f"{'enter' if now else 'leave'} {id}"] if was != now else []


class Model:
    """What a stream is answered, line by line."""

    def __init__(self, options):
        self.options, self.cores = options, {}
        self.known, self.dropped, self.refused_batches = set(), None, 0
        self.reader, self.edges, self.text, self.begun, self.lines, self.refusal = fuzz.Reader(), set(), b"", b"", 0, None
        # the ids in the order of their coming, how many batches have ended, and the ids and edges behind each of them
        self.order, self.ended, self.states = [], -1, {}
        self.front, self.file = 0, f"{START}: "
        if options.start:
            self.feed(options.start + b"\n" * (not options.start.endswith(b"\n")))
        self.front, self.file = self.lines, ""

    def feed(self, piece):
        *whole, self.begun = (self.begun + piece).split(b"\n")
        for line in whole:
            self.take(line)

    def end(self):
        if self.begun:
            self.take(self.begun)
        if not self.refusal:
            self.end_part(len(self.reader.batches))

    def take(self, line):
        if self.refusal:
            return
        self.lines += 1
        before = len(self.reader.batches)
        fields = fuzz.fields_of(line.removesuffix(b"\r"))
        if self.dropped and fields != [b"batch"] and fields[:1] != [b"?"]:
            return
        try:
            if fields[:1] == [b"?"]:
                self.answer(fields[1:])
            else:
                self.reader.take(line)
                self.order += [id for id in dict.fromkeys(int(field) for field in fields[-2:] if field.isdigit()) if id in self.reader.ids - set(self.order)]
        except fuzz.Refused as refusal:
            self.refuse(refusal.kind)
            return
        if len(self.reader.batches) > before:
            self.end_part(before)
            self.known = set(self.reader.ids)

    def refuse(self, kind):
        """The line ends the answers, or drops its batch; in a batch that is dropped only the first such line counts."""
        if not (self.options.drops and self.reader.batches):
            self.refusal = f"cores: {self.file}line {self.lines - self.front}: {SENTENCES[kind]}\n".encode()
        elif not self.dropped:
            self.dropped = f"line {self.lines} kind {kind} {fuzz.NAMES[kind]}"
            self.refused_batches += 1
            self.reader.ids, self.reader.batches[-1] = set(self.known), []
            self.order = [id for id in self.order if id in self.known]

    def message(self):
        """What the program tells of its run."""
        count = self.refused_batches
        counted = f"cores: {count} {'batch was' if count == 1 else 'batches were'} refused\n".encode() if count else b""
        return self.refusal or counted

    def answer(self, fields):
        """Answers a question of the core numbers behind the last batch that has ended."""
        word = fields[0] if fields[:1] in ([b"core"], [b"sizes"], [b"order"]) else b""
        pair = two_numbers_of(fields[1:]) if word == b"order" else None
        number = None if word in (b"sizes", b"order") else number_of(fields[1:] if word else fields)
        if word == b"sizes" and len(fields) > 1:
            raise fuzz.Refused(3)
        if not self.reader.batches:
            raise fuzz.Refused(7)
        if word == b"core":
            words = ["members", number, *sorted(id for id, core in self.cores.items() if core >= number)]
        elif word == b"order":
            words = ["order", *pair, self.order_of(*pair)]
        elif word == b"sizes":
            words = ["sizes", *(n for pair in sorted(collections.Counter(self.cores.values()).items()) for n in pair)]
        else:
            words = ["core", number, self.cores.get(number, "-")]
        self.text += self.options.text_of(" ".join(map(str, words)))

    def order_of(self, a, b):
        """Where the first id stands to the second, in the order by core number, layer and id."""
        if a not in self.cores or b not in self.cores:
            return "-"
        layers = self.layers()
        first, second = ((self.cores[id], layers[id], id) for id in (a, b))
        return "before" if first < second else "after" if second < first else "same"

    def layers(self):
        """The layer of each id: the round in which it goes among those of its core number, where all go that have few neighbours left above or beside."""
        beside = collections.defaultdict(set)
        for a, b in self.edges:
            beside[a].add(b)
            beside[b].add(a)
        layers, step, left = {}, 0, set(self.cores)
        while left:
            going = {v for v in left if sum(self.cores[w] > self.cores[v] or (self.cores[w] == self.cores[v] and w in left) for w in beside[v]) <= self.cores[v]}
            layers.update(dict.fromkeys(going, step))
            left -= going
            step += 1
        return layers

    def end_part(self, number):
        """Ends the start, or the batch of this number from 1."""
        before = self.cores
        if number == 0:
            self.edges = set(self.reader.edges)
            self.count_cores()
            lines = [f"graph vertices {len(self.reader.ids)} edges {len(self.edges)} top {self.top()}"]
        elif self.dropped:
            lines, self.dropped = [f"refused batch {number} {self.dropped}"], None
        else:
            lines = [self.end_batch(number, self.reader.batches[number - 1])] + self.options.lines(before, self.cores)
        self.text += b"".join(map(self.options.text_of, lines))
        self.ended, self.states[number] = number, (list(self.order), set(self.edges))

    def count_cores(self):
        self.cores = {id: 0 for id in self.reader.ids} | differ.core_numbers(sorted(self.reader.ids), self.edges)

    def end_batch(self, number, lines):
        deciding = dict(lines)
        added = {pair for pair, sign in deciding.items() if sign and pair not in self.edges}
        gone = {pair for pair, sign in deciding.items() if not sign and pair in self.edges}
        self.edges = (self.edges | added) - gone
        self.count_cores()
        counts = (len(added), len(gone), len(deciding) - len(added) - len(gone), len(lines) - len(deciding))
        return fuzz.batch_line(number, counts, len(self.edges), self.top())

    def top(self):
        return max(self.cores.values(), default=0)


# Streams.

# Lines of which each is refused at most places.
WRONG = (b"x", b"1", b"1 2 3", b"1 4294967296", b"+ 1 1", b"- 1 2", b"1 2", b"batch 1", b"+ 1", b"-1 2")
WRONG_QUESTIONS = (b"?", b"? x y z", b"? 1 2", b"? core", b"? core x", b"? core 1 2", b"? sizes 1", b"? 4294967296", b"?1", b"? batch", b"? order", b"? order 1",
                   b"? order x 1", b"? order 1 x", b"? order 1 2 3", b"? order 1 4294967296 3")


def random_question(rng, most):
    """A question of an id, which may not be known, or of a level, for the sizes, or for the order of two ids; at times a wrong one."""
    if rng.random() < 0.02:
        return rng.choice(WRONG_QUESTIONS)
    first, second = rng.randrange(most + 2), rng.randrange(most + 2)
    return rng.choice(("? sizes", f"? core {rng.randrange(4)}", f"?\t{first}", f"? {first}", f"? order {first} {second}", f"? order {first} {second}")).encode()


def random_stream(rng, broken):
    """Edges, and batches whose ids grow, with so many lines that may be refused as one of the numbers in `broken`."""
    most, asking, lines = rng.choice((2, 4, 8)), rng.choice((0, 0.2, 0.6)), []
    for _ in range(rng.choice((0, 0, 1, 5, 12, 30))):
        lines.append(f"{rng.randrange(most)} {rng.randrange(most)}".encode())
    for _ in range(rng.choice((0, 1, 2, 3, 6))):
        lines.append(b"batch")
        if rng.random() < asking:
            lines.append(random_question(rng, most))
        most += rng.choice((0, 0, 1, 3))
        for _ in range(rng.choice((0, 1, 2, 5, 20))):
            a, b = rng.sample(range(most), 2)
            lines.append(f"{rng.choice('+++-')} {a} {b}".encode())
            if rng.random() < asking:
                lines.append(random_question(rng, most))
    for _ in range(rng.choice((0, 0, 1, 2))):
        lines.insert(rng.randrange(len(lines) + 1), rng.choice((b"# a comment", b"", b"  ", b"% x", b"\r")))
    for _ in range(rng.choice(broken)):
        lines.insert(rng.randrange(len(lines) + 1), rng.choice(WRONG + WRONG_QUESTIONS))
    data = b"".join(line + rng.choice((b"\n", b"\n", b"\n", b"\r\n")) for line in lines)
    return data.rstrip(b"\n") if rng.random() < 0.4 else data


def peeled(ids, edges):
    """The ids in an order that certifies their core numbers: one of the fewest neighbours left goes next."""
    beside = {id: set() for id in ids}
    for a, b in edges:
        beside[a].add(b)
        beside[b].add(a)
    order = []
    while beside:
        least = min(beside, key=lambda id: len(beside[id]))
        for other in beside.pop(least):
            beside[other].discard(least)
        order.append(least)
    return order


def random_state(rng):
    """A start text and the text of its state."""
    ids = rng.sample(range(12), rng.randrange(9))
    edges = [pair for pair in itertools.combinations(range(len(ids)), 2) if rng.random() < 0.5]
    named = [(ids[a], ids[b]) for a, b in edges]
    order = peeled(ids, named)
    cores = {id: 0 for id in ids} | differ.core_numbers(sorted(ids), {tuple(sorted(pair)) for pair in named})
    lines = [f"kcore-state 1\nbatches {rng.randrange(9)}\nvertices {len(ids)}\nedges {len(edges)}\n"]
    lines += [f"{id} {cores[id]} {order.index(id)}\n" for id in ids] + [f"{a} {b}\n" for a, b in named]
    start = "".join([f"{id} {id}\n" for id in ids] + [f"{a} {b}\n" for a, b in named])
    return start.encode(), state_files.with_sum("".join(lines).encode())


def pieces_of(rng, data):
    """The stream in pieces: each byte alone, each line alone, or cut anywhere."""
    kind = rng.randrange(3)
    if kind == 0 and len(data) <= 120:
        return [data[at:at + 1] for at in range(len(data))]
    if kind == 1:
        return data.splitlines(keepends=True)
    pieces = []
    while data:
        size = rng.choice((1, 2, 3, 7, 20, 200))
        pieces.append(data[:size])
        data = data[size:]
    return pieces


# A dialogue.

class Wrong(Exception):
    """The program did otherwise than the model."""


class Talk:
    """A run of the program, to which is written while its answers are read."""

    def __init__(self, program, seconds, words=(), folder=None):
        self.process = subprocess.Popen(
            [program, "watch", *words], stdin=subprocess.PIPE, stdout=subprocess.PIPE, stderr=subprocess.PIPE, bufsize=0, cwd=folder)
        self.seconds, self.got, self.open = seconds, b"", True

    def send(self, piece):
        self.process.stdin.write(piece)

    def read_up_to(self, length):
        """Reads until so many bytes have come in all, and then what has come beside them."""
        limit = time.monotonic() + self.seconds
        while self.open:
            wait = max(limit - time.monotonic(), 0) if len(self.got) < length else 0
            if not select.select([self.process.stdout], [], [], wait)[0]:
                return
            piece = os.read(self.process.stdout.fileno(), 65536)
            self.got += piece
            self.open = bool(piece)

    def expect(self, text):
        self.read_up_to(len(text))
        if self.got != text:
            raise Wrong(f"answered {self.got!r} in place of {text!r}")

    def finish(self, status, line):
        """Waits until the program ends by itself."""
        try:
            ended = self.process.wait(self.seconds)
        except subprocess.TimeoutExpired:
            raise Wrong("the program did not end") from None
        told = self.process.stderr.read()
        if (ended, told) != (status, line):
            raise Wrong(f"status {ended} and {told!r} in place of {status} and {line!r}")

    def close(self):
        self.process.kill()
        self.process.wait()
        for stream in (self.process.stdin, self.process.stdout, self.process.stderr):
            stream.close()


def check_saved(folder, options, model, ended, is_whole):
    """Whether the file has the last state of a stream that has ended, or one behind not much less than the batches that had ended when more was asked
    for last."""
    file = folder / SAVED
    if not options.saves or not file.exists():
        if options.saves and (is_whole or (options.every is not None and ended >= options.every)):
            raise Wrong("no state was saved")
        return
    try:
        state = state_files.State(file.read_bytes())
    except ValueError as error:
        raise Wrong(f"{error}: {file.read_bytes()!r}") from error
    edges = {tuple(sorted(pair)) for pair in state.edges}
    if (state.ids, edges) != model.states.get(state.batches):
        raise Wrong(f"saved {file.read_bytes()!r} in place of {model.states.get(state.batches)!r}")
    cores = {id: 0 for id in state.ids} | differ.core_numbers(sorted(state.ids), edges)
    if state.cores != cores:
        raise Wrong(f"saved core numbers {state.cores!r} in place of {cores!r}")
    if state.batches != model.ended if is_whole else options.every is None or ended - state.batches >= options.every:
        raise Wrong(f"the state of batch {state.batches} was saved, behind {model.ended} batches")


def converse(program, options, pieces, seconds, folder):
    """Sends the pieces one by one, each after the answer to those before; the first after what the file in front of them is answered."""
    (folder / SAVED).unlink(missing_ok=True)
    if options.state is not None:
        (folder / STATE).write_bytes(options.state)
    elif options.start is not None:
        (folder / START).write_bytes(options.start)
    model, talk = Model(options), Talk(program, seconds, options.words(), folder)
    try:
        for piece in (b"", *pieces):
            ended = model.ended if piece else -1  # how many batches had ended when more of the stream was asked for last; none, before it is read
            if piece:
                talk.send(piece)
                model.feed(piece)
            talk.expect(model.text)
            if model.refusal:
                talk.finish(3, model.message())
                talk.expect(model.text)
                check_saved(folder, options, model, ended, False)
                return
        talk.process.stdin.close()
        model.end()
        talk.expect(model.text)
        talk.finish(3 if model.refusal else 0, model.message())
        talk.read_up_to(len(model.text) + 1)
        talk.expect(model.text)
        check_saved(folder, options, model, ended, not model.refusal)
    finally:
        talk.close()


# Streams that fail.

def run_with(program, data, stdin=None, stdout=subprocess.PIPE, words=()):
    given = {"stdin": stdin} if stdin else {"input": data}
    done = subprocess.run([program, "watch", *words], stdout=stdout, stderr=subprocess.PIPE, timeout=60, check=False, **given)
    return done.returncode, done.stderr


def try_faults(program, seconds):
    folder = os.open(HERE, os.O_RDONLY)
    check("a folder as input", run_with(program, b"", stdin=folder), (4, b"cores: the input could not be read to its end\n"))
    os.close(folder)
    with open("/dev/full", "wb") as full:
        check("/dev/full as output", run_with(program, b"1 2\n", stdout=full), (5, b"cores: the output could not be written to its end\n"))
    try_starts(program)
    try_reader_gone(program, seconds)
    try_workers(program)


def try_starts(program):
    """Files that can not stand in front of a stream: nothing of the stream is answered."""
    missing = run_with(program, b"1 2\nbatch\n", words=["--from", "no such file"])
    check("a file that is missing", missing, (4, b"cores: no such file: No such file or directory\n"))
    check("a folder in front", run_with(program, b"1 2\n", words=["--from", str(HERE)]), (4, f"cores: {HERE}: Is a directory\n".encode()))
    check("standard input in front of itself", run_with(program, b"1 2\n", words=["--from", "-"])[0], 2)
    check("an edge list as a state", run_with(program, b"1 2\n", words=["--load", str(HERE / "watch.py")])[0], 3)


def try_reader_gone(program, seconds):
    """The reader takes the first line and goes, as `head -1` does; the next answer finds nobody."""
    talk = Talk(program, seconds)
    try:
        talk.send(b"1 2\nbatch\n")
        talk.expect(b"graph vertices 2 edges 1 top 1\n")
        talk.process.stdout.close()
        talk.send(b"+ 2 3\nbatch\n")
        talk.finish(0, b"")
    finally:
        talk.close()


def rows_of(count, length):
    """So many paths of so many ids, and two batches for which it pays to ask four workers: each closes half of the paths, and opens the others."""
    yield from (f"{first + place} {first + place + 1}" for first in range(0, count * length, length) for place in range(length - 1))
    for turn in range(2):
        yield "batch"
        yield from (f"{'+' if row % 2 == turn else '-'} {row * length} {row * length + length - 1}" for row in range(count))


def try_workers(program):
    """The answers are the same for each number of workers, and a number that is none is refused."""
    stream = "\n".join(rows_of(10_000, 21)).encode()
    texts = [subprocess.run([program, "watch", "--show", "changes", *words], input=stream, stdout=subprocess.PIPE, timeout=600, check=True).stdout
             for words in ((), ("--workers", "4"))]
    check("as many lines by four workers as by one", texts[1].count(b"\n"), texts[0].count(b"\n"))
    check("the same text by four workers as by one", texts[1] == texts[0], True)
    for wrong in ("0", "65", "x"):
        check(f"{wrong} workers", run_with(program, b"", words=["--workers", wrong])[0], 2)


def check(what, is_so, must_be):
    if is_so != must_be:
        raise Wrong(f"{what}: {is_so!r} in place of {must_be!r}")


# All cases.

CASES = (
    b"", b"\n", b"batch", b"batch\n", b"1 2", b"1 2\nbatch", b"1 2\n2 3\nbatch\n+ 1 3\nbatch\n+ 3 9\n- 1 2", b"1 x", b"1 2\nbatch\n+ 1 1\n+ 1 2\n",
    b"1 2\nbatch\n? 2\n+ 2 3\n? 3\nbatch\n? 3\n? core 1\n? sizes", b"? 1\n", b"batch\n? core 0\n? sizes\n", b"1 2\nbatch\n? x y z\n",
    b"5 4\n4 3\n3 2\n2 1\nbatch\n? order 3 4\n+ 1 5\n? order 1 5\nbatch\n? order 5 1\n? order 9 1\n? order 3 3\n? order 1 3",
    b"1 2\nbatch\n+ 2 3\n+ 7 8\n+ 1 1\n? 7\n? 1\nx\n+ 1 3\nbatch\n? 7\n+ 1 3\n+ 3 2\nbatch\n- 1 2\n+ 9",
    b"1 2\nbatch\n1 3\n", b"+ 1 2\n", b"1 2\nbatch\n+ 2 3\nbatch x", b"4294967295 0\nbatch\n+ 4294967294 7\n", b"1 2\nbatch\n+ 1 2\n+ 1 2\n- 2 1\nbatch\n",
)


def cases_of(seed, count):
    """Each stream above cut at each byte, and then random ones."""
    for options in (Options(), Options(True), Options(True, 1), Options(True, drops=True), Options(True, 2, True, True)):
        for data in CASES:
            for at in (0, len(data) // 2, len(data)):
                yield Options(options.changes, options.enter, options.drops, options.objects, data[:at]), [data[at:]] if data[at:] else []
            yield options, [data[at:at + 1] for at in range(len(data))]
            for at in range(len(data) + 1):
                yield options, [piece for piece in (data[:at], data[at:]) if piece]
    for number in range(count):
        rng = random.Random(f"{seed} {number}")
        options = Options(rng.random() < 0.5, rng.choice((None, None, 0, 1, 2, 3)), rng.random() < 0.5, rng.random() < 0.35)
        data = random_stream(rng, (0, 1, 2, 5) if options.drops else (0, 0, 1))
        if rng.random() < 0.3:
            at = rng.randrange(len(data) + 1)
            options.start, data = data[:at], data[at:]
        elif rng.random() < 0.3:
            options.start, options.state = random_state(rng)
        options.saves = rng.random() < 0.3
        options.every = rng.choice((None, 1, 2, 3)) if options.saves else None
        options.workers = rng.choice((None, None, None, 1, 4, 64))
        yield options, pieces_of(rng, data)


def main():
    parser = argparse.ArgumentParser(description=__doc__, formatter_class=argparse.RawDescriptionHelpFormatter)
    parser.add_argument("--cores", default=str(HERE.parent / "crates" / "cores" / "out" / "cores"))
    parser.add_argument("--seed", type=int, default=1)
    parser.add_argument("--cases", type=int, default=1000)
    parser.add_argument("--seconds", type=float, default=10, help="how long an answer may take")
    given = parser.parse_args()
    program = str(pathlib.Path(given.cores).resolve())
    with tempfile.TemporaryDirectory() as name:
        return try_all(given, program, pathlib.Path(name))


def try_all(given, program, folder):
    number, answers = 0, 0
    for number, (options, pieces) in enumerate(cases_of(given.seed, given.cases), 1):
        try:
            converse(program, options, pieces, given.seconds, folder)
        except Wrong as wrong:
            print(f"case {number}: {wrong}\nwords: {options.words()}\nfile in front: {options.start!r} {options.state!r}\npieces: {pieces!r}")
            return 1
        answers += len(pieces)
    try:
        try_faults(program, given.seconds)
    except Wrong as wrong:
        print(wrong)
        return 1
    print(f"{number} streams in {answers} pieces, and the streams that fail: no difference")
    return 0


if __name__ == "__main__":
    sys.exit(main())
