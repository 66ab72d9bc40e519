#!/usr/bin/env python3
"""Writes what the rows of `crates/run_rows` owe, decided by the judge of fuzz.py and not by the program.

  fuzz/owed.py [--model FOLDER] <crates/run_rows/stdin >crates/run_rows/stdout

What that judge doesn't know, as runs of other actions than those of type Compose, the engine in the folder of --model says (model.py tells
what that is); without it such a row is told on standard error, and nothing is written for it.
What a line of the rows means stands at the head of crates/run_rows/src/main.rt."""
import argparse
import json
import re
import sys

import histories
import model
import moments
import recurrences
import rules
from fuzz import wanted
from reading import read

USAGE = (
    "usage: wflow check DEF | run DEF INPUTS [SCHEDULE] | trace DEF INPUTS SCHEDULE"
    " | resubmit DEF HISTORY RUN ACTION INPUTS [SCHEDULE] | resubmit-set DEF HISTORY RUN INPUTS SCHEDULE ACTION..."
    " | list HISTORY | drill N | session DEF INPUTS | fires DEF TRIGGER FROM N\n"
)
# How many words each command has; and what is read, with bytes that it can't be.
COUNTS = {"check": (2,), "run": (3, 4), "trace": (4,), "list": (2,), "drill": (2,), "fires": (5,), "session": (3,), "resubmit": (6, 7),
          "resubmit-set": range(7, 507)}
ESCAPED = {"n": "\n", "r": "\r", "t": "\t", "\\": "\\"}
STAGES = [(b"definition", b""), (b"inputs", b""), (b"schedule", b"\n")]
AGAIN = [(b"definition", b""), (b"history", b"x"), (b"inputs", b""), (b"schedule", b"\n")]


class Unread(Exception):
    """A file couldn't be read."""


# Files of which one read may fail, counted from 1.
class Files:
    def __init__(self, held, failing):
        self.held, self.failing, self.reads, self.faults = held, failing, 0, 0

    def read(self, name):
        self.reads += 1
        if self.reads == self.failing or name not in self.held:
            self.faults += 1
            raise Unread("cannot read %s\n" % json.dumps(name, ensure_ascii=False))
        return self.held[name]


# `fires`: the words, the definition as for `check`, the trigger of the name, and its recurrence.
def fired(files, definition, name, moment, count):
    moment = recurrences.moment_of(moment)
    if moment is None or not re.fullmatch("[1-9][0-9]{0,2}|1000", count):
        return 2, USAGE.encode()
    held = files.read(definition)
    refused = wanted("check", held)
    if refused[0] != 0:
        return refused
    value = read(held, len(held))
    triggers = value.get("definition", value).get("triggers", {})
    if name not in triggers:
        return 6, b"recurrence NoTrigger\n"
    try:
        listed = recurrences.moments(recurrences.read(triggers[name]), moment, int(count))
    except recurrences.Refused as refused:
        return 6, ("recurrence %s\n" % refused).encode()
    return 0, "".join(recurrences.printed(one) + "\n" for one in listed).encode() or b"# none\n"


# The commands that resubmit, by the engine: the files in the order in which they are read, whatever that of the words is.
def resubmitted(files, words, engine):
    if engine is None:
        return None, b""
    single = words[0] == "resubmit"
    named = words[1:3] + ([words[5]] + words[6:] if single else words[4:6])
    names = [stage.decode() for stage, _ in AGAIN]
    call = [words[0]] + names[:2] + [words[3]] + ([words[4]] + names[2:len(named)] if single else names[2:] + words[6:])
    held = {name: unfit for name, (_, unfit) in zip(names, AGAIN)}
    for place, file in enumerate(named):
        held[names[place]] = files.read(file)
        owed = engine(call, held)
        if place + 1 == len(named) or not owed[1].startswith(AGAIN[place + 1][0] + b" "):
            return owed


# `drill`: a number from 1 to 400. Which line it owes the engine of --model says.
def drilled(size, engine):
    if not re.fullmatch("[1-9][0-9]{0,2}", size) or int(size) > 400:
        return 2, USAGE.encode()
    return engine(["drill", size], {}) if engine else (None, b"")


# What the second engine says of calls, with and without a talk.
class Engine:
    def __init__(self, folder):
        self.said, self.talking, self.talks = model.of(folder), model.talking(folder), {}

    def talk(self, definition, inputs, source, blanks):
        """Status and moments of a talk."""
        key = definition, inputs, source, blanks
        if key not in self.talks:
            self.talks[key] = self.held(*key)
        return self.talks[key]

    def held(self, definition, inputs, source, blanks):
        files = {"definition": definition, "inputs": inputs}
        # (a talk in which nothing is asked for costs what the run does, which the engine says sooner)
        if not has_connectors(definition) and self.said(["run", *files], files)[0] == 8:
            return 8, [(0, b"too large\n")]
        return moments.of(lambda front: self.talking(["session", *files], files, front, blanks)[:2], source, blanks)


def has_connectors(definition):
    held = rules.definition_in(read(definition, len(definition)))
    return any(rules.type_of(action) in rules.CONNECTORS for _, action, _ in rules.actions(held))


# `session`: its status and moments. DEF and INPUTS are read as `run` does; what is said of them and of the lines the engine tells.
def talked(files, words, source, blanks, engine):
    definition = files.read(words[1])
    refused = wanted("run", definition, b"")
    if not refused[1].startswith(b"inputs "):
        return refused[0], [(0, refused[1])]
    inputs = files.read(words[2])
    return engine.talk(definition, inputs, source, blanks) if engine else (None, [])


# A file is read once those before it are taken, which shows by what is refused where the next one is unfit.
def said(files, words, engine):
    if len(words) not in COUNTS.get(words[0], ()):
        return 2, USAGE.encode()
    command, held = words[0], []
    try:
        if command == "list":
            return histories.said(files.read(words[1]))
        if command == "fires":
            return fired(files, *words[1:])
        if command == "drill":
            return drilled(words[1], engine)
        if command in ("resubmit", "resubmit-set"):
            return resubmitted(files, words, engine)
        for name, (next_stage, _) in zip(words[1:-1], STAGES[1:]):
            held.append(files.read(name))
            refused = wanted(command, *held, *(unfit for _, unfit in STAGES[len(held):]))
            if not refused[1].startswith(next_stage):
                return refused
        held.append(files.read(words[-1]))
        owed = wanted(command, *held)
        if owed[0] is None and engine:
            names = [name.decode() for name, _ in STAGES][:len(held)]
            return engine([command] + names, dict(zip(names, held)))
        return owed
    except Unread as line:
        return 3, str(line).encode()


def unescaped(text):
    return re.sub(r"\\([nrt\\])", lambda found: ESCAPED[found.group(1)], text)


# The status of a call and its moments; all commands but `session` write a text at once, and take nothing of the source.
def moments_of(files, words, source, blanks, engine):
    if words[0] == "session" and len(words) in COUNTS["session"]:
        try:
            return talked(files, words, source, blanks, engine)
        except Unread as line:
            return 3, [(0, str(line).encode())]
    status, text = said(files, words, engine and engine.said)
    return status, [(0, text)]


def main():
    parser = argparse.ArgumentParser(description=__doc__, formatter_class=argparse.RawDescriptionHelpFormatter)
    parser.add_argument("--model")
    words = parser.parse_args()
    engine = Engine(words.model) if words.model else None
    held, last, trouble, unknown = {}, None, {}, 0
    source, blanks = b"untouched", 0
    for line in sys.stdin.read().split("\n"):
        word, _, rest = line.partition(" ")
        if word in ("file", "bytes"):
            last, _, text = rest.partition(" ")
            held[last] = (text if word == "file" else unescaped(text)).encode()
        elif word == "pad":
            held[last] = held[last].ljust(int(rest))
        elif word == "input":
            source, blanks = unescaped(rest).encode(), 0
        elif word == "indent":
            blanks = int(rest) - len(source)
        elif word == "fail":
            trouble[rest.split()[0]] = int(rest.split()[1])
        elif word == "pieces":
            trouble[word] = int(rest)
        elif word == "check":
            status, text = wanted("check", rest.encode())
            print("%d %s" % (status, text.decode()), end="")
        elif word == "words":
            files = Files(held, trouble.get("read"))
            status, told = moments_of(files, rest.split(), source, blanks, engine)
            if status is None:
                unknown += 1
                print("owed: nothing is known of a row with the words %s" % rest, file=sys.stderr)
                continue
            status, told = moments.cut_by_source(status, told, trouble.get("input", 0))
            piece = trouble.get("pieces", moments.MOST_BYTES)
            ended, text, calls = moments.cut_by_sink(status, told, piece, trouble.get("write", 0))
            # a call that fails takes no byte
            taken = calls - 1 if 0 < trouble.get("input", 0) <= calls else calls
            left = max(len(source) + blanks - taken, 0)
            print("words %s: status %d, failed reads %d, failed writes %d, left in the source %d" % (
                rest, ended, files.faults, ended == 4, left))
            print(text.decode())
            trouble = {}
    return 1 if unknown else 0


if __name__ == "__main__":
    sys.exit(main())
