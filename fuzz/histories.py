#!/usr/bin/env python3
"""Runs the row program of records on random values, and `wflow list` on random histories, and compares each answer with the one owed.

  fuzz/histories.py [--count N] [--seed N] [--program PATH] [--rows PATH]
  fuzz/histories.py --owed <crates/record_rows/stdin >crates/record_rows/stdout

The first makes N records, changed at a place or two or not at all, runs crates/record_rows/out/record_rows, or the program of --rows, once
on all of them, and then puts them into files of some lines, on which it runs bin/wflow, or the program of --program. The second writes
what the rows owe. What a row means stands at the head of crates/record_rows/src/main.rt. The judge, which is apart from the program, lists
all places at which a value isn't a record by docs/FORMATS.md and takes the least at the end. It fails too where of ten rows, or files,
fewer than one is taken, or fewer than one isn't. The last line is 'N passed, M failed'."""
import argparse
import collections
import copy
import os
import random
import re
import subprocess
import sys
import tempfile

import functions
from reading import Refused, compact, read

TOP = os.path.dirname(os.path.dirname(os.path.abspath(__file__)))
HISTORY_BYTES = 64 * 2**20
STATUSES = ("Succeeded", "Failed", "Skipped", "TimedOut", "Cancelled")
RUN_STATUSES = ("Succeeded", "Failed", "Cancelled")
TRY_WORDS = ("noConnection", "timedOut", "noAnswer", "unknown")


# ---- the judge

def is_whole(value, least=-(2**63), most=2**63 - 1):
    return type(value) is int and least <= value <= most


def is_name(value):
    return isinstance(value, str) and 1 <= len(value) <= 80 and not re.search("[\x00-\x1f\x7f]", value)


def fits(value):
    return functions.depth(value) <= functions.DEEP and functions.weight(value) <= functions.HEAVY


def behind(step, pointers):
    return ["/" + str(step).replace("~", "~0").replace("/", "~1") + pointer for pointer in pointers]


def unless(test):
    return lambda value: [] if test(value) else [""]


# An object is measured member by member.
def measured(value):
    if not isinstance(value, dict):
        return [] if fits(value) else [""]
    return [pointer for name, part in value.items() if not fits(part) for pointer in behind(name, [""])]


def object_of_values(value):
    return measured(value) if isinstance(value, dict) else [""]


# An object of exactly these members, each with what it has to be.
def exactly(members):
    def flaws(value):
        held = value if isinstance(value, dict) else {}
        found = [] if isinstance(value, dict) else [""]
        found += [pointer for name in members if name not in held for pointer in behind(name, [""])]
        for name, part in held.items():
            found += behind(name, members[name](part) if name in members else [""])
        return found
    return flaws


def items(judge):
    def flaws(value):
        if not isinstance(value, list):
            return [""]
        return [pointer for place, item in enumerate(value) for pointer in behind(place, judge(item))]
    return flaws


def attempts(form):
    if form == 1:
        return unless(lambda value: is_whole(value, 0, 91))
    one = items(unless(lambda value: is_whole(value, 100, 599) or isinstance(value, str) and value in TRY_WORDS))
    return lambda value: [""] * (isinstance(value, list) and len(value) > 91) + one(value)


def text_or_null(value):
    return value is None or isinstance(value, str)


def row(form):
    return exactly({
        "at": items(unless(lambda value: is_whole(value, 0))),
        "attempts": attempts(form),
        "code": unless(lambda value: isinstance(value, str)),
        "error": unless(text_or_null),
        "inputs": unless(fits),
        "name": unless(is_name),
        "outputs": measured,
        "status": unless(lambda value: isinstance(value, str) and value in STATUSES),
        "tracked": lambda value: [] if value is None else object_of_values(value),
    })


# The address of a row, if it has one: its order is by the bytes of the name, and then by the numbers of the iterations.
def address(value):
    name, at = (value.get("name"), value.get("at")) if isinstance(value, dict) else (None, None)
    if isinstance(name, str) and isinstance(at, list) and all(is_whole(number, 0) for number in at):
        return name.encode(), at
    return None


def rows(form):
    def flaws(value):
        found = items(row(form))(value)
        addresses = [address(one) for one in value] if isinstance(value, list) else []
        for place in range(1, len(addresses)):
            before, here = addresses[place - 1:place + 1]
            if before is not None and here is not None and before >= here:
                found += behind(place, [""])
        return found
    return flaws


def record(form):
    return exactly({
        "definition": unless(lambda value: isinstance(value, str) and re.fullmatch("[0-9a-f]{64}", value)),
        "error": lambda value: [],
        "form": unless(is_whole),
        "outputs": measured,
        "parameters": object_of_values,
        "response": measured,
        "rows": rows(form),
        "run": unless(is_name),
        "status": unless(lambda value: isinstance(value, str) and value in RUN_STATUSES),
        "trigger": exactly({"name": unless(text_or_null), "outputs": measured}),
    })


def fault_of(value):
    """Why a value is no record, or None."""
    form = value.get("form") if isinstance(value, dict) else None
    if is_whole(form) and form not in (1, 2):
        return "Version %d" % form
    found = record(1 if is_whole(form, 1, 1) else 2)(value)
    return "Form " + compact(min(found, key=str.encode)) if found else None


def in_form_two(value):
    """A record of either form, as it is written."""
    if value["form"] == 1:
        value = dict(value, form=2, rows=[dict(one, attempts=["unknown"] * one["attempts"]) for one in value["rows"]])
    return value


def listing(data):
    """What `list` writes of a history; it refuses one that is none."""
    if len(data) > HISTORY_BYTES:
        raise Refused("too long")
    lines = []
    for number, line in enumerate(data.split(b"\n"), 1):
        line = line.removesuffix(b"\r")
        if not line or line.startswith(b"#"):
            continue
        try:
            value = read(line, len(line))
        except Refused:
            raise Refused("Line %d" % number)
        if fault_of(value):
            raise Refused("Line %d" % number)
        lines.append("run %s %s rows %d\n" % (value["run"], value["status"], len(value["rows"])))
    return "".join(lines).encode()


def owed(line):
    """The answer to a row, which is bytes without their line's end."""
    try:
        value = read(line, len(line))
    except Refused:
        return "unread"
    return fault_of(value) or compact(in_form_two(value))


def said(data):
    """The status and the text of `list` on a file of these bytes."""
    try:
        return 0, listing(data)
    except Refused as fault:
        return 7, ("history %s\n" % fault).encode()


# ---- random records

NAMES = ["A", "B", "Call", "Call/0", "a", "Send mail", "é", "😀", "x" * 80, "0", "~"]
VALUES = [None, True, 0, -1, 7, 2**63 - 1, "", "text", "é", [], [1, [2]], {}, {"body": "b", "headers": {}, "statusCode": 200},
          {"a/b": {"~": []}}]
ODD = VALUES + ["x" * 80, "x" * 81, "a\nb", "\x7f", "Succeeded", "failed", "Skipped", "unknown", "0" * 64, "A" * 64,
                1, 2, 3, 91, 92, 99, 100, 599, 600]


def nested(depth):
    value = None
    for _ in range(depth):
        value = [value]
    return value


def any_row(rng, form):
    tries = [rng.choice([200, 404, 503, 100, 599] + list(TRY_WORDS)) for _ in range(rng.choice([0, 0, 1, 2, 5]))]
    return {
        "at": [rng.choice([0, 1, 2, 10]) for _ in range(rng.choice([0, 0, 1, 2]))],
        "attempts": tries if form == 2 else len(tries),
        "code": rng.choice(["OK", "ActionSkipped", "404", ""]),
        "error": rng.choice([None, None, "NoValue \"x\""]),
        "inputs": rng.choice(VALUES),
        "name": rng.choice(NAMES),
        "outputs": rng.choice(VALUES),
        "status": rng.choice(STATUSES),
        "tracked": rng.choice([{}, {}, None, {"id": 1}]),
    }


def any_record(rng):
    form = rng.choice([1, 2, 2])
    found = {}
    for one in (any_row(rng, form) for _ in range(rng.choice([0, 1, 2, 3, 8]))):
        found[address(one)[0], tuple(one["at"])] = one
    return {
        "definition": "".join(rng.choice("0123456789abcdef") for _ in range(64)),
        "error": rng.choice([None, None, {"code": "InvalidTemplate", "message": "Range div"}]),
        "form": form,
        "outputs": rng.choice([{}, {"o": 1}, None]),
        "parameters": rng.choice([{}, {"limit": 7}]),
        "response": rng.choice([None, None, {"body": "b", "headers": {}, "statusCode": 200}]),
        "rows": [found[key] for key in sorted(found)],
        "run": rng.choice(["r1", "r2", "nightly 3", "é", "x" * 80]),
        "status": rng.choice(RUN_STATUSES),
        "trigger": {"name": rng.choice([None, "manual"]), "outputs": rng.choice(VALUES)},
    }


# All lists and objects in a value, itself among them.
def holders(value):
    if isinstance(value, (dict, list)):
        yield value
        for part in value.values() if isinstance(value, dict) else value:
            yield from holders(part)


# A change of a list or an object at one place.
def change(rng, holder):
    places = list(holder) if isinstance(holder, dict) else list(range(len(holder)))
    kind = rng.randrange(6)
    if kind == 0 and isinstance(holder, dict):
        holder[rng.choice(["x", "a/b", "rows", "at", "form"])] = rng.choice(VALUES)
    elif kind == 1 and places:
        del holder[rng.choice(places)]
    elif kind == 2 and isinstance(holder, list) and len(places) > 1:
        one, other = rng.sample(places, 2)
        holder[one], holder[other] = holder[other], holder[one]
    elif kind == 3 and isinstance(holder, list) and places:
        holder.insert(rng.choice(places), copy.deepcopy(holder[rng.choice(places)]))
    elif places:
        holder[rng.choice(places)] = copy.deepcopy(rng.choice(ODD + [nested(63), nested(64), nested(65)]))


def changed(rng, value):
    value = copy.deepcopy(value)
    for _ in range(rng.choice([0, 1, 1, 1, 2])):
        change(rng, rng.choice(list(holders(value))))
    return value


def history(rng, lines):
    held = []
    for line in lines:
        held += [rng.choice([b"", b"# run r1 steps 2 peak 1", b"#", b"\r"]) for _ in range(rng.choice([0, 0, 1, 2]))]
        held.append(line + rng.choice([b"", b"", b"\r", b" ", b"\r\r"]))
    return b"\n".join(held) + rng.choice([b"", b"\n", b"\n\n", b"\r\n"])


# ---- the comparison

def compared(rows_program, rows):
    """How many of the rows are answered otherwise than owed."""
    ended = subprocess.run([rows_program], input=b"\n".join(rows), capture_output=True, timeout=120)
    got, wanted = ended.stdout.decode().splitlines(), [owed(line) for line in rows]
    failed = abs(len(got) - len(wanted)) + (ended.returncode != 0)
    for line, one, other in zip(rows, got, wanted):
        if one != other:
            failed += 1
            print("%s\n  answered %s\n  and owed %s" % (line.decode(), one, other))
    return failed, collections.Counter(answer.split(" ")[0] if answer[:1] != "{" else "record" for answer in wanted)


def listed(program, files):
    failed, statuses = 0, collections.Counter()
    with tempfile.TemporaryDirectory() as folder:
        path = os.path.join(folder, "history")
        for data in files:
            with open(path, "wb") as file:
                file.write(data)
            ended = subprocess.run([program, "list", path], capture_output=True, timeout=60)
            status, text = said(data)
            statuses["list %d" % status] += 1
            if (ended.returncode, ended.stdout) != (status, text):
                failed += 1
                print("list: status %d, %r\n  owed %d, %r\n  %r" % (
                    ended.returncode, ended.stdout[:200], status, text[:200], data[:600]))
    return failed, statuses


def main():
    parser = argparse.ArgumentParser(description=__doc__, formatter_class=argparse.RawDescriptionHelpFormatter)
    parser.add_argument("--count", type=int, default=5000)
    parser.add_argument("--seed", type=int, default=1)
    parser.add_argument("--program", default=os.path.join(TOP, "bin", "wflow"))
    parser.add_argument("--rows", default=os.path.join(TOP, "crates", "record_rows", "out", "record_rows"))
    parser.add_argument("--owed", action="store_true")
    words = parser.parse_args()
    if words.owed:
        for line in sys.stdin.buffer.read().split(b"\n"):
            if line:
                print(line.decode() if line.startswith(b"#") else owed(line))
        return 0
    rng = random.Random(words.seed)
    rows = [compact(changed(rng, any_record(rng))).encode() for _ in range(words.count)]
    failed, counts = compared(words.rows, rows)
    records = [line for line in rows if not owed(line).startswith(("Form", "Version"))]
    files = [history(rng, [rng.choice(lines) for _ in range(rng.choice([0, 1, 2, 4]))])
             for _ in range(words.count // 20) for lines in (records, rows)]
    wrong, statuses = listed(words.program, files)
    failed += wrong
    print("seed %d, owed %s" % (words.seed, dict(sorted((counts + statuses).items()))))
    for word, count, of in (("record", counts["record"], len(rows)), ("Form", counts["Form"], len(rows)),
                            ("list 0", statuses["list 0"], len(files)), ("list 7", statuses["list 7"], len(files))):
        if count * 10 < of:
            failed += 1
            print("only %d are owed '%s'" % (count, word))
    print("%d passed, %d failed" % (max(len(rows) + len(files) - failed, 0), failed))
    return 1 if failed else 0


if __name__ == "__main__":
    sys.exit(main())
