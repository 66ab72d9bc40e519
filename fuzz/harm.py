#!/usr/bin/env python3
"""Hands the program files that are meant to harm: those of examples and rows, changed by bytes, tokens, single values and whole members.

  fuzz/harm.py [--count N] [--minutes M] [--seed N] [--jobs N] [--program PATH] [--stack KIB] [--model FOLDER]

Each call is one of an example or of a row of run_rows, with one of its files changed, at times two, or the lines of a talk; at a
resubmission the run and the actions that it names may be others too. What is watched for: an end by a signal, a status that isn't the
command's, a text that isn't one of that status (docs/MESSAGES.md), a word on standard error, over 10 seconds of the processor, over 2 GiB
of memory, a stack of more than KIB KiB (1,024 where none is named). With --model the engine of that folder (model.py) is asked what the
call owes, and status and text compared, where it answers within 10 seconds. The program is loaded once by each job, and up to 50 calls
follow each other in a process (served.py). After M minutes no more calls are begun. A file that does harm is kept in fuzz/harm-found/,
with the words of its command. The last line is 'N passed, M failed'."""
import argparse
import collections
import functools
import json
import multiprocessing
import os
import random
import re
import signal
import sys
import time

import model
import served

TOP = served.TOP
FOUND = os.path.join(TOP, "fuzz", "harm-found")
SECONDS = 10
MEMORY = 2 * 2**30
SIZE = 2**16

# ---- what each command may say, by status

QUOTED = rb'"(?:[^"\\\n]|\\.)*"'
REFUSED = rb"definition (?:too long|NotJson|(?:NotWhole|TooDeep) %b|V(?:[1-9]|1[0-9]|2[01])(?: %b)?)\n" % (QUOTED, QUOTED)
FILE = rb"(?:too long|NotJson|(?:NotWhole|TooDeep) %b)\n" % QUOTED
INPUTS = rb"inputs (?:%b|Form %b\n|Twice %b [0-9]+\n|Moment\n)" % (FILE, QUOTED, QUOTED)
SCHEDULE = rb"schedule (?:too long|Line [0-9]+)\n"
FAULT = rb"[A-Za-z0-9]+(?: (?:[A-Za-z0-9]+|%b))*" % QUOTED
TRIGGER = rb"trigger (?:NoTrigger|(?:NoParameter|ParameterType|NotAllowed) %b|Split %b|SplitNotList|SplitTooLong [0-9]+|Condition %b)\n" \
    % (QUOTED, FAULT, FAULT)


class Pieces:
    """A text of pieces, one after the other, of which the last may have to be of a kind; or another text alone. (One pattern that repeats
    would keep the place of each piece, gigabytes for the texts of many runs.)"""

    def __init__(self, piece, last=None, alone=None, least=1):
        self.piece, self.last, self.alone, self.least = re.compile(piece), re.compile(last or piece), alone, least

    def fits(self, text):
        at, count, found = 0, 0, None
        while at < len(text):
            found = self.piece.match(text, at)
            if not found or found.end() == at:
                return text == self.alone
            at, count = found.end(), count + 1
        return count >= self.least and (not found or self.last.fullmatch(found[0]) is not None)


def is_said(says, text):
    return says.fits(text) if isinstance(says, Pieces) else re.fullmatch(says, text) is not None


RUN = rb"\{[^\n]*\}\n# run [^\n]* steps [0-9]+ peak [0-9]+\n"
RUNS = Pieces(RUN, alone=b"# no run\n")
TRACES = Pieces(rb"# [0-9]+ [^\n]*\n|" + RUN, last=RUN, alone=b"# no run\n")
HISTORY = rb"history (?:too long|Line [0-9]+)\n"
NOT_AGAIN = rb"history (?:NoRun|Twice [0-9]+ [0-9]+)\n" \
    rb"|resubmit (?:NoAction %b|InLoop %b %b|NotRun %b|OtherDefinition [0-9a-f]{64} [0-9a-f]{64}|Shape %b)\n" % ((QUOTED,) * 5)
LINE = rb"# refused [0-9]+ (?:%b|Form %b\n|NotWanted %b [0-9]+\n)" % (FILE, QUOTED, QUOTED)
HEARD = rb"# want [^\n]* [0-9]+\n|" + LINE
TALK = rb"\{[^\n]*\}\n# session lines [0-9]+ refused [0-9]+\n"
MADE = {0: RUNS, 1: REFUSED, 6: rb"%b|%b|%b" % (INPUTS, SCHEDULE, TRIGGER), 8: rb"too large\n"}
MADE_AGAIN = {0: RUN, 1: REFUSED, 6: rb"%b|%b" % (INPUTS, SCHEDULE), 7: rb"%b|%b" % (HISTORY, NOT_AGAIN), 8: rb"too large\n"}
SAYS = {
    "check": {0: rb"accepted [0-9]+\n", 1: REFUSED},
    "run": MADE,
    "trace": {**MADE, 0: TRACES},
    "resubmit": MADE_AGAIN,
    "resubmit-set": MADE_AGAIN,
    "list": {0: Pieces(rb"run [^\n]* (?:Succeeded|Failed|Cancelled) rows [0-9]+\n", least=0), 7: HISTORY},
    "fires": {0: Pieces(rb"[0-9]{4}-[^\n]*\n", alone=b"# none\n", least=0), 1: REFUSED, 2: rb"usage: [^\n]*\n",
              6: rb"recurrence (?:NoTrigger|NotRecurrence|(?:Form|Zone) %b)\n" % QUOTED},
    "session": {0: Pieces(HEARD + rb"|" + TALK, last=TALK, alone=b"# no run\n"), 1: REFUSED,
                6: rb"%b|%b|session ManyRuns [0-9]+\n" % (INPUTS, TRIGGER), 8: Pieces(HEARD + rb"|too large\n", last=rb"too large\n"),
                9: Pieces(HEARD + rb"|# open [^\n]* [0-9]+\n|input ended\n", last=rb"input ended\n", least=3)},
}
COUNTS = {"check": (2,), "run": (3, 4), "trace": (4,), "resubmit": (6, 7), "resubmit-set": range(7, 24), "list": (2,), "fires": (5,),
          "session": (3,)}
# The place of a call's standard input, among those of its words.
INPUT = 0
# Which words of a command are files, and of what kind.
KINDS = {
    "check": {1: "definition"},
    "run": {1: "definition", 2: "inputs", 3: "schedule"},
    "trace": {1: "definition", 2: "inputs", 3: "schedule"},
    "resubmit": {1: "definition", 2: "history", 5: "inputs", 6: "schedule"},
    "resubmit-set": {1: "definition", 2: "history", 4: "inputs", 5: "schedule"},
    "list": {1: "history"},
    "fires": {1: "definition"},
    "session": {1: "definition", 2: "inputs", INPUT: "lines"},
}


# ---- seeds: calls, each its words and the bytes of its files

def read(*path):
    with open(os.path.join(TOP, *path), "rb") as file:
        return file.read()


def of_examples():
    for at, _, names in os.walk(os.path.join(TOP, "examples")):
        held = {name: read(at, name) for name in sorted(names)}
        if "definition.json" not in held:
            continue
        yield ["check", "definition.json"], held
        for inputs in (name for name in held if name.startswith("inputs")):
            yield ["run", "definition.json", inputs], held
            yield from talks_of(held, inputs)
            for schedule in (name for name in held if name.endswith("schedule")):
                yield ["trace", "definition.json", inputs, schedule], held
            for history in (name for name in held if name.startswith("output")):
                first = json.loads(held[history].split(b"\n")[0])
                for row in first["rows"]:
                    yield ["resubmit", "definition.json", history, first["run"], row["name"], inputs], held
        for history in (name for name in held if name.startswith("output")):
            yield ["list", history], held


def talks_of(held, inputs):
    """Talks with the answers of INPUTS as lines, each of them three times."""
    whole = json.loads(held[inputs])
    lines = b"".join(json.dumps(answer).encode() + b"\n" for answer in whole.pop("answers", []))
    if lines:
        yield ["session", "definition.json", inputs], {**held, inputs: json.dumps(whole).encode(), INPUT: lines * 3}


ESCAPED = {b"n": b"\n", b"r": b"\r", b"t": b"\t", b"\\": b"\\"}


def unescaped(text):
    return re.sub(rb"\\([nrt\\])", lambda found: ESCAPED[found.group(1)], text)


def of_rows():
    """The calls of run_rows (the head of its main.rt says what a line means), without those of which a read or a write fails."""
    held, failing = {INPUT: b""}, False
    for line in read("crates", "run_rows", "stdin").split(b"\n"):
        word, _, rest = line.partition(b" ")
        if word in (b"file", b"bytes"):
            name, _, text = rest.partition(b" ")
            held[name.decode()] = text if word == b"file" else unescaped(text)
        elif word == b"input":
            held[INPUT] = unescaped(rest)
        elif word == b"pad":
            held = {INPUT: b""}
        elif word == b"fail":
            failing = True
        elif word == b"check":
            yield ["check", "d"], {"d": rest}
        elif word == b"words":
            if not failing:
                yield rest.decode().split(), dict(held)
            failing = False


@functools.lru_cache(1)
def seeds():
    """The calls by their commands, and all files by what they are."""
    calls, files = collections.defaultdict(dict), collections.defaultdict(dict)
    for words, held in (*of_examples(), *of_rows()):
        if len(words) not in COUNTS.get(words[0], ()):
            continue
        kinds = KINDS[words[0]]
        named = {place: held.get(INPUT if place == INPUT else words[place]) for place in kinds if place < len(words)}
        if any(file is None or len(file) > SIZE for file in named.values()):
            continue
        calls[words[0]][(tuple(words), tuple(named.values()))] = named
        for place, file in named.items():
            files[kinds[place]][file] = True
    files["schedule"].update(dict.fromkeys([b"", b"0\n1\n2\n", b"4294967295\r\n0\n"], True))
    return {command: [(list(words), named) for (words, _), named in some.items()] for command, some in calls.items()}, \
        {kind: list(some) for kind, some in files.items()}


# ---- changes

TOKENS = re.compile(rb'"(?:[^"\\]|\\.)*"|-?[0-9]+(?:\.[0-9]+)?(?:[eE][-+]?[0-9]+)?|[{}\[\]:,]|[a-z]+|\s+|.', re.S)
HARD = [b"{", b"}", b"[", b"]", b'"', b"\\", b"\x00", b"\xff", b"\xed\xa0\x80", b"\\u0000", b"\\ud800", b"@", b"@{", b"@@", b"'", b"''",
        b"(", b")", b"-9223372036854775808", b"9223372036854775808", b"1e309", b"1e-1", b"-0", b"1.0", b"null", b"true", b"\r\n", b"#",
        b"\xef\xbb\xbf",
        b'"@item()"', b'"@result(\'A\')"', b'"@variables(\'v\')"', b'"@range(0,100000)"', b'"@string(createArray(1))"', b'"\\/"',
        b"[" * 130, b"]" * 130, b'{"a":' * 130, b'"' + b"a" * 81 + b'"', b'"' + "\U0001f600".encode() * 80 + b'"']


@functools.lru_cache(128)
def tokens_of(file):
    return tuple(TOKENS.findall(file))


def by_bytes(rng, file, _):
    file = bytearray(file)
    for _ in range(rng.choice((1, 1, 2, 4, 16))):
        at = rng.randrange(len(file) + 1)
        what = rng.randrange(5)
        if what == 0 and at < len(file):
            file[at] ^= 1 << rng.randrange(8)
        elif what == 1:
            file[at:at] = bytes([rng.randrange(256)])
        elif what == 2:
            del file[at:at + rng.choice((1, 2, 8, 64))]
        elif what == 3:
            file[at:at] = file[at:at + rng.choice((1, 8, 64, 512))]
        else:
            file[at:at] = rng.choice(HARD)
    return bytes(file)


def by_tokens(rng, file, others):
    tokens = list(tokens_of(file))
    more = tokens_of(rng.choice(others))
    for _ in range(rng.choice((1, 1, 2, 5))):
        if not tokens:
            break
        at = rng.randrange(len(tokens))
        what = rng.randrange(5)
        if what == 0:
            del tokens[at:at + rng.choice((1, 2, 5))]
        elif what == 1 and more:
            tokens[at] = rng.choice(more)
        elif what == 2:
            tokens[at] = rng.choice(HARD)
        elif what == 3:
            to = rng.randrange(len(tokens))
            tokens[at], tokens[to] = tokens[to], tokens[at]
        else:
            tokens[at:at] = tokens[at:at + rng.choice((2, 6, 20))] * rng.choice((1, 2, 50))
    return b"".join(tokens)


NUMBERS = [b"0", b"1", b"-1", b"2", b"99", b"100", b"199", b"200", b"404", b"429", b"503", b"599", b"600", b"100000",
           b"9223372036854775807"]


@functools.lru_cache(128)
def scalars_of(file):
    """The places of texts, of numbers and of words among the tokens of a file, and those of each kind."""
    found = {}
    for place, token in enumerate(tokens_of(file)):
        kind = "text" if token[:1] == b'"' else "number" if token[-1:].isdigit() else "word" if token.isalpha() else None
        if kind:
            found.setdefault(kind, ([], []))
            found[kind][0].append(place)
            found[kind][1].append(token)
    return found


def by_scalars(rng, file, others):
    """Texts, numbers and words in the place of others of their kind, so that the file mostly reads."""
    tokens, more = list(tokens_of(file)), scalars_of(rng.choice(others))
    found = scalars_of(file)
    for _ in range(rng.choice((1, 1, 2, 4)) if found else 0):
        kind = rng.choice(sorted(found))
        source = rng.choice((found, more))
        choices = NUMBERS if kind == "number" and rng.randrange(3) == 0 else source.get(kind, found[kind])[1]
        tokens[rng.choice(found[kind][0])] = rng.choice(choices)
    return b"".join(tokens)


def parts(value):
    """The value and all in it."""
    found = [value]
    for part in found:
        found.extend(part.values() if isinstance(part, dict) else part if isinstance(part, list) else ())
    return found


def by_members(rng, file, others):
    """Members and items taken away, doubled, or put in the place of others."""
    lines = file.split(b"\n")
    at = rng.randrange(len(lines))
    try:
        if not lines[at].startswith((b"{", b"[")):
            lines, at = [file], 0
        value, other = json.loads(lines[at]), json.loads(rng.choice(others).split(b"\n# ")[0])
    except (ValueError, RecursionError):
        return by_tokens(rng, file, others)
    for _ in range(rng.choice((1, 1, 2, 3))):
        # (what was doubled is one and the same value twice, so that a second change in it would double it again)
        text = json.dumps(value)
        if len(text) > 2**21:
            break
        value = json.loads(text)
        holders = [part for part in parts(value) if isinstance(part, (dict, list)) and part]
        if not holders:
            break
        holder = rng.choice(holders)
        place = rng.choice(list(holder)) if isinstance(holder, dict) else rng.randrange(len(holder))
        what = rng.randrange(4)
        if what == 0:
            del holder[place]
        elif what == 1:
            holder[place] = rng.choice(parts(other))
        elif what == 2:
            holder[place] = [holder[place]] if rng.randrange(2) else {"value": holder[place]}
        elif isinstance(holder, dict):
            holder[rng.choice([name for part in parts(other) if isinstance(part, dict) for name in part] or ["a"])] = holder[place]
        else:
            holder[place:place] = [holder[place]] * rng.choice((1, 3, 1000))
    try:
        lines[at] = json.dumps(value, ensure_ascii=rng.randrange(2) == 0).encode("utf-8", "surrogatepass")
    except (ValueError, RecursionError):
        return by_bytes(rng, file, others)
    return b"\n".join(lines)


NAME = re.compile(r'"([^"\\\x00-\x1f]{1,80})":')


def other_words(rng, words, file):
    """The words with another run, or with actions that the definition may have."""
    names = NAME.findall(file.decode("utf-8", "replace")) or ["A"]
    if words[0] == "resubmit":
        words[rng.choice((3, 4))] = rng.choice(names)
    else:
        words[6:] = [rng.choice(words[6:] + names) for _ in range(rng.choice((1, 1, 2, 5)))]


CHANGES = (by_bytes, by_tokens, by_members, by_scalars, by_scalars)


def case(rng):
    """A call: its words, and the bytes of the files that it names, by their places."""
    calls, files = seeds()
    command = rng.choice(sorted(calls))
    words, named = rng.choice(calls[command])
    words, named = list(words), dict(named)
    for _ in range(rng.choice((1, 1, 1, 2))):
        place = rng.choice(list(named))
        named[place] = rng.choice(CHANGES)(rng, named[place], files[KINDS[command][place]])
    if command.startswith("resubmit") and rng.randrange(3) == 0:
        other_words(rng, words, named[1])
    return words, named


# ---- trying them

def wrong(words, ended, text):
    """What is wrong with how a call ended; None if nothing is."""
    if ended.signal == signal.SIGPROF:
        return "over %d seconds" % SECONDS
    if ended.signal:
        return "signal %d" % ended.signal
    if ended.status == 5:
        return "over %d bytes of memory" % MEMORY
    says = SAYS[words[0]].get(ended.status)
    if says is None:
        return "status %d" % ended.status
    if not is_said(says, text):
        return "status %d with another text: %r" % (ended.status, text[:200])
    return None


class Slow(Exception):
    """The second engine takes too long."""


def slow(*_):
    raise Slow


def other(engine, words, named, ended, text):
    """How the answer differs from that of the second engine; None where it doesn't, or where there is none."""
    if engine is None or ended.seconds > 0.1:
        return None, 0
    signal.signal(signal.SIGALRM, slow)
    signal.alarm(SECONDS)
    try:
        files = {words[place]: file for place, file in named.items() if place != INPUT}
        owed = engine[1](words, files, named[INPUT])[:2] if INPUT in named else engine[0](words, files)
    except (Slow, RecursionError, MemoryError):
        return None, 0
    finally:
        signal.alarm(0)
    if owed != (ended.status, text):
        return "another answer than %d %r" % (owed[0], owed[1][:200]), 1
    return None, 1


def start(base, built, options):
    """What a job has: the program, which is loaded here, and the second engine."""
    global program, engine
    folder = os.path.join(base, str(os.getpid()))
    os.mkdir(folder)
    program = served.Served(options.program, folder, built, options.stack, MEMORY)
    engine = (model.of(options.model), model.talking(options.model)) if options.model else None


def keep(name, words, named, why):
    kept = os.path.join(FOUND, name)
    os.makedirs(kept, exist_ok=True)
    for place, file in named.items():
        with open(os.path.join(kept, "lines" if place == INPUT else words[place]), "wb") as copy:
            copy.write(file)
    with open(os.path.join(kept, "words"), "w") as note:
        note.write("%s\n%s\n" % (" ".join(words), why))


def work(task):
    seed, count, until = task
    ends, harms = collections.Counter(), []
    if time.time() > until:
        return 0, ends, harms
    rng = random.Random(seed)
    cases, calls = [], []
    for number in range(count):
        words, named = case(rng)
        kinds, given = KINDS[words[0]], os.devnull
        for place, file in named.items():
            name = "%s-%d" % (kinds[place], number)
            with open(os.path.join(program.folder, name), "wb") as copy:
                copy.write(file)
            if place == INPUT:
                given = name
            else:
                words[place] = name
        cases.append((words, named))
        calls.append(("out-%d" % number, words, {}, given))
    for number, ((words, named), (ended, text)) in enumerate(zip(cases, program.call(calls, SECONDS))):
        ends["%s %s" % (words[0], ended.status)] += 1
        why = wrong(words, ended, text)
        if why is None:
            why, compared = other(engine, words, named, ended, text)
            ends["compared"] += compared
        if why:
            harms.append((why, words))
            keep("%d-%d" % (seed, number), words, named, why)
    said = program.said_on_error()
    if said:
        harms.append(("standard error: %r" % said[:200], ["seed", str(seed)]))
    return count, ends, harms


def main():
    parser = argparse.ArgumentParser(description=__doc__, formatter_class=argparse.RawDescriptionHelpFormatter)
    parser.add_argument("--count", type=int, default=10000)
    parser.add_argument("--minutes", type=float, default=1e6)
    parser.add_argument("--seed", type=int, default=1)
    parser.add_argument("--jobs", type=int, default=os.cpu_count())
    parser.add_argument("--program", default=served.PROGRAM, type=os.path.abspath)
    parser.add_argument("--stack", type=int, default=1024, metavar="KIB")
    parser.add_argument("--model")
    options = parser.parse_args()
    piece, until, began = served.BATCH, time.time() + 60 * options.minutes, time.time()
    tasks = [(options.seed * 1_000_003 + number, min(piece, options.count - number * piece), until)
             for number in range((options.count + piece - 1) // piece)]
    done, ends, harms = 0, collections.Counter(), []
    with served.fast_folder() as base, multiprocessing.Pool(options.jobs, start, (base, served.library(base), options)) as pool:
        for count, more, found in pool.imap_unordered(work, tasks):
            if (done + count) // 10000 > done // 10000:
                print("%d calls, %d s" % (done + count, time.time() - began), file=sys.stderr, flush=True)
            done += count
            ends += more
            harms += found
            for why, words in found:
                print("%s: %s" % (" ".join(words), why), flush=True)
            if time.time() > until:
                break
    print(", ".join("%s: %d" % it for it in sorted(ends.items())))
    print("%d s, seed %d" % (time.time() - began, options.seed))
    print("%d passed, %d failed" % (done - len(harms), len(harms)))
    sys.exit(1 if harms or not done else 0)


if __name__ == "__main__":
    main()
