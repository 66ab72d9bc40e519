#!/usr/bin/env python3
"""Runs random flat definitions under random schedules, and judges what is printed by itself alone.

  fuzz/machine.py [--count N] [--seed N] [--program PATH]

For each case it makes a definition, inputs and a schedule, and calls `run DEF INPUTS`, `run DEF INPUTS SCHEDULE` and `trace DEF INPUTS
SCHEDULE`. Of the values it knows nothing: of the rows of each record it asks that an action is Skipped exactly where what it waits for
ended otherwise than is listed, and what all three calls print has to be the same records. Then a small machine of its own says which event
comes at each turn: of those that are enabled, in byte order of the names, the one at the place that the schedule has, counted around. So
each line of an event has its number, its event, and the value of the record's row; and each summary line the steps and the peak of those
events, with the schedule and without. Of a schedule that is none both calls name the first such line. It fails where fewer than half of the
cases have a run, or fewer than a tenth several. The last line is 'N passed, M failed'."""
import collections
import json
import os
import random
import subprocess
import sys
import tempfile

import events
import fuzz
from reading import Refused

NAMES = ["A", "B", "C", "D", "E", "F", "G", "H", "a", "A0", "A-1", "Aa", "é", "Z z", "~", "😀", "\uff5e", "10", "2", "A/0"]
INPUTS = [1, None, True, "x", [1, "é"], {"b": 1, "a": [None]}, "@add(1,2)", "@guid()", "@trigger()", "@triggerBody()", "@utcNow()",
          "@div(1,0)", "@int('x')", "@add('1',2)", "@json('{}').x", "@workflow().run.name"]
STATUSES = ["Succeeded", "FAILED", "skipped", "TimedOut"]


def action(rng, before):
    made = {"type": "Compose", "inputs": rng.choice(INPUTS)}
    if before:
        name = rng.choice(before).replace("'", "''")
        made["inputs"] = rng.choice([made["inputs"], "@outputs('%s')" % name, "@actions('%s').status" % name, "@{body('%s')}!" % name])
        listed = [["Succeeded"]] * 4 + [STATUSES, STATUSES[:2], ["Failed"], ["Skipped"], []]
        made["runAfter"] = {other: rng.choice(listed) for other in before}
    return made


# A graph of one of some shapes: all side by side, one after the other, in layers, or as it comes.
def actions(rng):
    names = rng.sample(NAMES, rng.choice([0, 1, 2, 3, 3, 4, 5, 8, 12, 20]))
    shape, wide = rng.choice(["beside", "chain", "layers", "any", "any"]), rng.randint(1, 4)
    made = []
    for place, name in enumerate(names):
        befores = {"beside": [], "chain": names[:place][-1:], "layers": names[:place - place % wide][-wide:], "any": names[:place]}
        before = befores[shape]
        made.append((name, action(rng, rng.sample(before, rng.randint(0, len(before))) if shape == "any" else before)))
    rng.shuffle(made)
    return dict(made)


def case(rng):
    definition, inputs = {"actions": actions(rng)}, {"run": "r1", "moment": "2024-05-01T12:00:00Z", "seed": "s"}
    if rng.random() < 0.5:
        definition["triggers"] = {"t": {"type": "Request"}}
        inputs["outputs"] = {"body": rng.choice([1, {"k": [True]}])}
        if rng.random() < 0.6:
            definition["triggers"]["t"]["splitOn"] = rng.choice(["@triggerBody()", "@range(0,%d)" % rng.randrange(4)])
            inputs["outputs"] = {"body": [rng.choice(["é", 7, None]) for _ in range(rng.choice([0, 1, 2, 3]))]}
    if rng.random() < 0.3:
        definition["outputs"] = {"o": {"value": rng.choice(["@div(1,0)", "@guid()", 1])}}
    return definition, inputs, fuzz.schedule(rng)


class Wrong(Exception):
    """What is printed can't be; the words say why."""


# The records of a text that has no lines of events, by the text of each.
def records_of(text):
    lines = text.split("\n")
    if lines.pop() or len(lines) % 2 and lines != ["# no run"]:
        raise Wrong("no text of runs")
    return [] if len(lines) % 2 else lines[::2]


# The rows of a record by their names, where each is Skipped exactly where its action doesn't run.
def rows_of(record, graph):
    rows = {row["name"]: row for row in record["rows"]}
    if list(rows) != sorted(graph, key=str.encode):
        raise Wrong("rows of other actions, or out of order")
    for name, row in rows.items():
        skipped = not events.is_met(graph[name], rows)
        if skipped != (row["status"] == "Skipped") or (row["status"] == "Failed") != (row["error"] is not None):
            raise Wrong("the status of %s" % name)
    return rows


# What has to be printed of these records under a schedule.
def owed(records, graph, schedule, traced):
    text = []
    for line in records:
        record = json.loads(line)
        lines, steps, peak = events.happened(graph, rows_of(record, graph), schedule)
        text += (lines if traced else []) + [line, "\n# run %s steps %d peak %d\n" % (record["run"], steps, peak)]
    return "".join(text) or "# no run\n"


# Judges a case by a function that makes a call; answers how many runs there were.
def judge(call, definition, schedule):
    status, text = call("run")
    if status != 0:
        raise Wrong("status %d" % status)
    records = records_of(text)
    wanted = {"run": (0, owed(records, definition["actions"], [], False))}
    for command in ("run", "trace"):
        try:
            numbers = events.read_schedule(schedule)
            wanted[command + " under"] = 0, owed(records, definition["actions"], numbers, command == "trace")
        except Refused as fault:
            wanted[command + " under"] = 6, "schedule %s\n" % fault
    for words, answer in wanted.items():
        got = call(*words.split())
        if got != answer:
            raise Wrong("%s printed %d %s\nand not %d %s" % ((words,) + got + answer))
    return len(records)


def main():
    words = fuzz.called_with(__doc__)
    rng = random.Random(words.seed)
    counts = collections.Counter()
    with tempfile.TemporaryDirectory() as folder:
        paths = [os.path.join(folder, name) for name in ("definition", "inputs", "schedule")]

        # Calls a command on the definition and the inputs, and on the schedule where it stands under one.
        def call(command, under=None):
            ended = subprocess.run([words.program, command] + paths[:2 if under is None else 3], capture_output=True, timeout=60)
            return ended.returncode, ended.stdout.decode()

        for number in range(words.count):
            definition, inputs, schedule = case(rng)
            for path, data in zip(paths, (json.dumps(definition).encode(), json.dumps(inputs).encode(), schedule)):
                with open(path, "wb") as file:
                    file.write(data)
            try:
                made = judge(call, definition, schedule)
                counts["a run"] += made > 0
                counts["several"] += made > 1
            except Wrong as wrong:
                counts["failed"] += 1
                print("case %d: %s\n  %s\n  %s\n  %r" % (number, str(wrong)[:2000], json.dumps(definition), json.dumps(inputs), schedule))
    print("seed %d: %d cases with a run, %d with several" % (words.seed, counts["a run"], counts["several"]))
    if counts["a run"] * 2 < words.count or counts["several"] * 10 < words.count:
        counts["failed"] += 1
        print("too few cases have a run, or several")
    print("%d passed, %d failed" % (max(words.count - counts["failed"], 0), counts["failed"]))
    return 1 if counts["failed"] else 0


if __name__ == "__main__":
    sys.exit(main())
