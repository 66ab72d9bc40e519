#!/usr/bin/env python3
"""Holds random talks with `session`, and judges what is printed.

  fuzz/talks.py [--model FOLDER] [--count N] [--first N] [--seed N] [--jobs N] [--program PATH] [--case N] [--keep FOLDER]

For each case it makes a definition, INPUTS and a schedule as all.py does, and adds answers until no attempt lacks one: so `trace` tells in
which order the attempts of the run may be answered. A part of the answers stays in INPUTS. Then it holds three talks:
  - the lines of the others in the order of the trace, and in that of a trace under another schedule. Each of them has to be taken, with
    bytes behind the last left alone; each attempt has to be told once as wanted, before its line; and the record has to be that of `run`
    with all answers in INPUTS. So it doesn't depend on the order of the lines.
  - the lines changed: some lost, doubled or in another place, others among them that are no answers or aren't wanted, empty ones, carriage
    returns, cut off after any byte. Where that ends with a record, it has to be that of `run` with the answers that were taken.
Where several runs start, or none, or INPUTS are refused, `session` has to say so as `run` does, or with the number of the runs. With
--model status and text of each talk have to be to the byte what the engine in that folder says (model.py tells what that is).

Where one doesn't, --keep writes the files of the case to a folder, and --case N makes the Nth case alone; --first N begins with it. From a
thousand cases on it fails too where an end of a talk or a cause of refusing a line came up too seldom. The last line is 'N passed, M
failed'."""
import collections
import concurrent.futures
import json
import os
import random
import re
import shutil
import subprocess
import sys
import tempfile

import all as making
import model
import rules
from reading import compact

SESSION, RUN = ["session", "definition", "inputs"], ["run", "definition", "whole"]
TRY = re.compile(r"# [0-9]+ Try (.*) ([0-9]+) (\S+)")
WANT = re.compile(r"# want (.*) ([0-9]+)")
REFUSED = re.compile(r"# refused ([0-9]+) ([A-Za-z]+)")
ENDED = re.compile(r"# session lines ([0-9]+) refused ([0-9]+)")
CAUSES = ["NotJson", "NotWhole", "TooDeep", "Form", "NotWanted"]
ENDS = ["end 0", "end 6", "end 9", "no run"]
TRIED = ENDS + ["refused " + cause for cause in CAUSES] + ["two orders"]
NO_ANSWERS = [b"", b"\r", b" ", b"x", b"{", b"\xff", b"\xef\xbb\xbf", b"null", b"[]", b"{}", b"1.5", b"[" * 121 + b"]" * 121,
              b"[" * 128 + b"]" * 128,
              b'{"action":1.5}', b'{"action":"A"}', b'{"action":"A","status":600}', b'{"action":"a\\nb","at":[7],"status":200}']
NO_ANSWERS += [b'{"action":"A","status":200,%b}' % member for member in (
    b'"at":null', b'"at":[0,-1]', b'"attempt":92', b'"body":1e3', b'}', b'"body":' + b"[" * 65 + b"]" * 65)]
ROUNDS = 12


class SideBySide(making.Maker):
    """A definition in the making with many connectors, few of which wait for another action."""

    def __init__(self, rng):
        super().__init__(rng)
        self.variables, self.chained = {}, rng.choice([0, 0.1, 0.3])
        self.kinds = ["Http"] * 8 + ["Foreach"] * 3 + ["Compose"] * 2 + ["Scope", "If", "Until", "ParseJson", "Select"]


class Wrong(Exception):
    """What is printed isn't what has to be."""


# ---- what is answered

def key_of(answer):
    return answer["action"], tuple(answer.get("at", ())), answer.get("attempt", 1)


def address(key):
    return "/".join([key[0], *map(str, key[1])])


def keys_of(definition):
    """For each connector a pattern of its addresses, with its name."""
    loops, found = {}, []
    for path, action, _ in rules.actions(definition):
        kind = rules.type_of(action)
        above = next((loops[path[:cut]] for cut in range(len(path) - 1, 0, -1) if path[:cut] in loops), 0)
        loops[path] = above + (kind in ("foreach", "until"))
        if kind in rules.CONNECTORS:
            found.append((path[-1], re.compile(re.escape(path[-1]) + "((?:/[0-9]+){%d})" % above)))
    return found


def keys_at(keys, text):
    """The names and iterations whose address that text may be."""
    return [(name, tuple(map(int, found.group(1).split("/")[1:]))) for name, form in keys for found in [form.fullmatch(text)] if found]


# ---- lines

def spelled(rng, answer):
    """An answer as a line, without the line feed."""
    answer = dict(answer)
    for member, plain in (("at", []), ("attempt", 1), ("body", None)):
        if answer.get(member, plain) == plain and rng.random() < 0.7:
            answer.pop(member, None)
    if rng.random() < 0.1:
        answer["note"] = [1, {"x": None}]
    members = list(answer.items())
    rng.shuffle(members)
    spaced = rng.random() < 0.2
    text = json.dumps(dict(members), ensure_ascii=rng.random() < 0.5, separators=(", ", ": ") if spaced else (",", ":"))
    return (rng.choice(["", "", "", " ", "\ufeff"]) + text + rng.choice(["", "", "", "\t", "\r"])).encode()


def changed(rng, lines, others):
    """Lines of which some are lost, doubled or moved, with others among them, as the bytes of standard input."""
    lines = list(lines)
    for _ in range(rng.choice([0, 1, 2, 3, 6])):
        what, at = rng.choice(["move", "double", "lose", "none", "none", "other"]), rng.randrange(len(lines) + 1)
        if what == "move" and lines:
            lines.insert(rng.randrange(len(lines)), lines.pop(rng.randrange(len(lines))))
        elif what == "double" and lines:
            lines.insert(at, rng.choice(lines))
        elif what == "lose" and lines and rng.random() < 0.5:
            lines.pop(rng.randrange(len(lines)))
        else:
            lines.insert(at, rng.choice(others if what == "other" else NO_ANSWERS))
    given = b"".join(line + rng.choice([b"\n"] * 9 + [b"\r\n", b"\n\n"]) for line in lines)
    if rng.random() < 0.3:
        given = given[:rng.randrange(len(given) + 1)]
    return given + rng.choice([b"", b"", b"more\n", b"\n"])


# ---- judging

def records(text):
    return [line for line in text.decode().split("\n") if line.startswith("{")]


class Talks:
    """The talks of a case."""

    def __init__(self, words, folder, seed, number):
        self.program, self.folder, self.counts = words.program, folder, collections.Counter()
        self.rng = random.Random("talk %d/%d" % (seed, number))
        self.files = {}
        self.definition = self.made()
        self.keys = keys_of(self.definition)

    def made(self):
        """Most definitions have connectors, many of them several, and half of them side by side."""
        least, maker = self.rng.choice([0, 1, 2, 2, 3, 4]), self.rng.choice([making.Maker, SideBySide])
        for _ in range(100):
            whole = maker(self.rng).definition()
            definition = rules.definition_in(whole)
            if rules.refusal(whole) is None and len(keys_of(definition)) >= least:
                break
        self.write("definition", json.dumps(whole).encode())
        return definition

    def write(self, name, data):
        self.files[name] = data
        with open(os.path.join(self.folder, name), "wb") as file:
            file.write(data)

    def handed(self, name, inputs, answers):
        self.write(name, json.dumps(inputs | {"answers": answers}).encode())

    def called(self, call, given=b""):
        ended = subprocess.run([self.program] + call, cwd=self.folder, input=given, capture_output=True, timeout=300)
        if ended.returncode < 0 or ended.stderr:
            raise Wrong("%s: status %d, %r" % (" ".join(call), ended.returncode, ended.stderr[:200]))
        return ended.returncode, ended.stdout

    def talk(self, given):
        """What a talk prints, which is what the second engine owes, if there is one."""
        self.write("input", given)
        status, text = self.called(SESSION, given)
        self.counts["no run" if text == b"# no run\n" else "end %d" % status] += 1
        self.counts.update("refused " + cause for _, cause in REFUSED.findall(text.decode("utf-8", "replace")))
        if begin.talking:
            owed = begin.talking(SESSION, self.files, given)[:2]
            if owed != (status, text):
                raise Wrong("session: status %d, owed %d\n%s" % (
                    status, owed[0], making.first_apart(text.decode("utf-8", "replace"), owed[1].decode())))
        return status, text

    def tries(self, schedule):
        """The attempts of the one run that starts with all answers, in the order in which they come under a schedule: the texts of their
        addresses, their numbers and what each comes to. None where there isn't one run."""
        self.write("schedule", schedule)
        status, text = self.called(["trace", "definition", "whole", "schedule"])
        if status or len(records(text)) != 1:
            return None
        return [found.groups() for found in map(TRY.fullmatch, text.decode().split("\n")) if found]

    def completed(self, inputs, answers):
        """The answers, with those that a run lacks; None where it isn't one run, or doesn't come to an end so."""
        for _ in range(ROUNDS):
            self.handed("whole", inputs, answers)
            tries = self.tries(b"")
            if tries is None:
                return None
            missing = [(text, int(number)) for text, number, outcome in tries if outcome == "noAnswer"]
            if not missing:
                return answers
            for text, number in missing:
                for name, at in keys_at(self.keys, text)[:1]:
                    answers = answers + [{"action": name, "at": list(at), "attempt": number, "body": self.rng.choice(making.BODIES),
                                          "status": self.rng.choice([200, 200, 404, 500, "noConnection", "timedOut"])}]
        return None

    def in_order(self, lines, wanted):
        """A talk in which each line is wanted in its turn: its record. What is wanted has to be told once."""
        behind = self.rng.choice([b"", b"more\n", b"\xff"])
        status, text = self.talk(b"".join(line + b"\n" for line in lines) + behind)
        told = [found.groups() for found in map(WANT.fullmatch, text.decode().split("\n")) if found]
        if status or sorted(told) != sorted(wanted):
            raise Wrong("in order: status %d, wanted %s and not %s" % (status, told, wanted))
        if not text.endswith(b"\n# session lines %d refused 0\n" % len(lines)):
            raise Wrong("in order: the last line is %r" % text.split(b"\n")[-2])
        return records(text)

    def orders(self, answers, kept, owed):
        """Talks in two orders in which the answers may come."""
        held = {(address(key_of(answer)), str(key_of(answer)[2])): answer for answer in answers}
        orders = []
        # under the first of these schedules the first of the enabled events comes each time, under the second any of them
        for most in (1, 1000):
            tries = self.tries(b"".join(b"%d\n" % self.rng.randrange(most) for _ in range(300)))
            wanted = [(text, number) for text, number, _ in tries if key_of(held[text, number]) not in kept]
            lines = [spelled(self.rng, held[one]) for one in wanted]
            orders.append(wanted)
            if self.in_order(lines, wanted) != owed:
                raise Wrong("in order: another record than that of run")
        self.counts["one order"] += orders[0] == orders[-1]
        self.counts["two orders"] += orders[0] != orders[-1]
        return lines

    def astray(self, inputs, lines, answers, kept):
        """A talk of changed lines."""
        given = changed(self.rng, lines, [spelled(self.rng, answer) for answer in answers] or [b"{}"])
        status, text = self.talk(given)
        if status != 0:
            return
        refused = {int(number) for number, _ in REFUSED.findall(text.decode())}
        count = int(ENDED.fullmatch(text.decode().split("\n")[-2]).group(1))
        taken = [json.loads(line.decode("utf-8-sig")) for number, line in enumerate(given.split(b"\n")[:count], 1)
                 if line not in (b"", b"\r") and number not in refused]
        self.handed("whole", inputs, [answer for answer in answers if key_of(answer) in kept] + taken)
        if records(self.called(RUN)[1]) != records(text):
            raise Wrong("changed: another record than that of run with what was taken")

    def unheld(self, given):
        """Where no talk begins, or it may be of any kind."""
        status, text = self.called(RUN)
        said, told = self.talk(given)
        if status == 0 and len(records(text)) > 1:
            status, text = 6, b"session ManyRuns %d\n" % len(records(text))
        if status != 8 and (status, text) != (said, told) and len(records(text)) != 1:
            raise Wrong("session: status %d with %r and not %d with %r" % (said, told[:200], status, text[:200]))

    def all(self):
        inputs = making.inputs(self.rng, self.definition)
        given = inputs.pop("answers")
        answers = self.completed(inputs, given)
        if answers is None:
            self.handed("inputs", inputs, given[::2])
            self.handed("whole", inputs, given[::2])
            return self.unheld(b"".join(spelled(self.rng, answer) + b"\n" for answer in given[1::2]))
        # (where two names have one address, which attempt is meant can't be told)
        if len({(address(key_of(answer)), key_of(answer)[2]) for answer in answers}) < len(answers):
            return None
        kept = {key_of(answer) for answer in answers if self.rng.random() < self.rng.choice([0, 0.1, 0.5])}
        self.handed("inputs", inputs, [answer for answer in answers if key_of(answer) in kept])
        owed = records(self.called(RUN)[1])
        lines = self.orders(answers, kept, owed)
        return self.astray(inputs, lines, answers, kept)


def tried(words, number):
    with tempfile.TemporaryDirectory() as room:
        folder = os.path.join(words.keep or room, str(number))
        os.makedirs(folder, exist_ok=True)
        counts, wrong = collections.Counter(), ""
        try:
            one = Talks(words, folder, words.seed, number)
            counts = one.counts
            one.all()
        except Exception as fault:
            wrong = str(fault) if isinstance(fault, Wrong) else "%s: %s" % (type(fault).__name__, fault)
        if words.keep and not wrong:
            shutil.rmtree(folder)
        return counts, wrong


def begin(folder):
    begin.talking = model.talking(folder) if folder else None


def main():
    words = making.called_with(__doc__)
    numbers = range(words.first, words.first + words.count) if words.case is None else [words.case]
    counts, failed = collections.Counter(), 0
    with concurrent.futures.ProcessPoolExecutor(words.jobs, initializer=begin, initargs=(words.model,)) as pool:
        for number, (more, wrong) in zip(numbers, pool.map(tried, [words] * len(numbers), numbers, chunksize=16)):
            counts += more
            if wrong:
                failed += 1
                print("case %d: %s" % (number, wrong), flush=True)
    print("seed %d: %s" % (words.seed, ", ".join("%s %d" % one for one in sorted(counts.items()))))
    passed = len(numbers) - failed
    for name in TRIED if len(numbers) >= 1000 else ():
        if counts[name] * 1000 < len(numbers):
            failed += 1
            print("too few cases have %s" % name)
    print("%d passed, %d failed" % (passed, failed))
    return 1 if failed else 0


if __name__ == "__main__":
    sys.exit(main())
