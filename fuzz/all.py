#!/usr/bin/env python3
"""Runs random definitions of all kinds on random answers under random schedules, and judges what is printed.

  fuzz/all.py [--model FOLDER] [--count N] [--first N] [--seed N] [--jobs N] [--program PATH] [--case N] [--keep FOLDER]

For each case it makes a definition that breaks no rule, with containers in one another, loops, variables, connectors, Responses and
Terminates, INPUTS with answers to some of the attempts that may come, and a schedule, which in one case of five is empty. It calls `trace
DEF INPUTS SCHEDULE`, in whose text the lines of events and the summary have to be those that a machine of its own makes of the rows of each
record and the schedule (traces.py); `run DEF INPUTS SCHEDULE`, which has to print the same without the events; and `run DEF INPUTS`, which
has to leave the same records in as many steps. So of the values in the records nothing is known but that they are the same. With --model
status and text of the trace have to be to the byte what the engine in that folder says (model.py tells what that is).

Where one doesn't, --keep writes the files of the case to a folder, and --case N makes the Nth case alone; --first N begins with it, so a long
trial is gone on with (the folder of --keep has what is being tried). From a thousand cases on it fails too where a kind of action, a kind
of event or a status of a row was too seldom to have been tried. The last line is 'N passed, M failed'."""
import argparse
import collections
import concurrent.futures
import json
import os
import random
import re
import shutil
import subprocess
import sys
import tempfile

import events
import fuzz
import graphs
import model
import rules
import traces
from graphs import quoted

HOLDERS = ["Scope", "If", "Switch", "Foreach", "Until"]
EVENTS = ("Start", "Try", "End", "Skip", "Open", "Begin", "Test", "Close")
ENDS = ("Succeeded", "Failed", "Skipped", "TimedOut", "Cancelled")
NAMES = graphs.NAMES + list("KLMNOPQRSTUVWXYac") + ["A0", "A-", "0", "10", "2", "\uff5e"]
CALLING = ["Http", "HTTP", "ApiConnection", "ApiConnectionWebhook", "HttpWebhook", "Function", "Workflow", "ApiManagement"]
CALLING += ["ServiceProvider"]
LATE = ["Succeeded", "Failed", "Skipped", "TimedOut"]
LISTED = [["Succeeded"]] * 10 + [["Failed", "TimedOut"], ["Succeeded", "Skipped"], ["SKIPPED"], ["failed"], []]
POLICIES = [{"type": "none"}, {"type": "Fixed", "count": 1, "interval": "PT1S"}, {"type": "exponential", "count": 3, "interval": "PT5S"},
            {"type": "default"}]
BODIES = ["b", None, 3, [1, "é"], {"x": 1, "value": [1, 2]}, {"state": "done"}, ["a", {"x": None}], "", True]
TASTES = [[200], [200, 299, 500], [500, 429, "noConnection", 408], [404, "timedOut", 200], [429, 408, "timedOut", 302, 199, 300, 599]]
TURNS = [{}] * 4 + [{"operationOptions": "Sequential"}, {"operationOptions": "x, sequential "}] + [
    {"runtimeConfiguration": {"concurrency": {"repetitions": most}}} for most in (1, 2, 2, 3)]
SCHEMAS = [{}, {"type": "object"}, {"type": ["object", "null"], "required": ["a"]},
           {"properties": {"a": {"type": "array", "items": {"type": "integer"}}}}, {"enum": [1, "x", {"a": [1]}]}]


class Maker(graphs.Maker):
    """A definition in the making most of whose expressions have a value, and whose loops end soon."""

    def __init__(self, rng):
        super().__init__(rng)
        self.left = rng.sample(NAMES, len(NAMES))
        self.astray = 0
        self.budget = rng.choice([3, 6, 9, 12, 16, 20, 25])
        self.counts = rng.choice([[2, 3], [2, 3, 4], [3, 4, 5]])
        its = [kind for kind, its in graphs.CHANGES.items() if self.suited(its)]
        self.kinds = ["Compose"] * 4 + rng.choices(HOLDERS + ["Http"], k=5) + its * rng.choice([1, 3])
        self.kinds += ["Http", "Http", "Foreach"] + rng.choice([["Http"] * 4, ["Foreach", "Until"] * 3, ["If", "Switch", "Scope"] * 2])
        ends = rng.choice([[], [], ["Terminate"] * 4, ["Response"] * 3])
        self.kinds += ends
        # what must be in order is mostly chained, and holds more
        self.chained = 0.98 if ends or self.variables else rng.choice([0.3, 0.7, 0.95])
        self.kinds += ["Scope", "If", "Switch"] * 2 if ends else []
        self.kinds += rng.sample(["Select", "Query", "Join", "ParseJson", "Wait"], 2)

    def plain(self, seen, inside):
        rng = self.rng
        picks = ["1", "'a'", "trigger()", "parameters('p')", "guid()", "rand(0,9)", "utcNow('HH:mm')", "workflow().run.name"] + inside * 3
        picks += ["variables('%s')" % name for name in self.variables] * 2
        for name, kind, left in seen:
            calls = ["outputs(%s)", "body(%s)", "actions(%s)", "actions(%s)?['status']", "outputs(%s)?['statusCode']"] * (left < 2)
            is_looped = kind in ("Foreach", "Until")
            calls += ["result(%s)"] * (kind in HOLDERS and left < (1 if is_looped else 2))
            picks += [rng.choice(calls) % quoted(name)] * 2 if calls else []
        if rng.random() < 0.03:
            return rng.choice(["div(1,0)", "int('x')", "json('{}').nope", "first(5)"])
        return rng.choice(picks)

    def expression(self, seen, inside, depth=0):
        rng, made = self.rng, self.plain(seen, inside)
        if depth > 1 or rng.random() < 0.4:
            return made
        other = self.expression(seen, inside, depth + 1)
        return rng.choice(["concat(%s,%s)", "createArray(%s,%s)", "coalesce(%s,%s)", "string(createArray(%s,%s))",
                           "if(" + self.truth(seen, inside) + ",%s,%s)", "add(length(string(%s)),length(string(%s)))",
                           "union(array(%s),array(%s))", "if(equals(%s,null),0,%s)"]) % (made, other)

    def truth(self, seen, inside):
        made = self.plain(seen, inside)
        turns = [call for call in inside if call.startswith("iterationIndexes")]
        picks = ["true", "false", "equals(mod(length(string(%s)),2),0)" % made, "greater(length(string(%s)),4)" % made, "less(rand(0,9),5)",
                 "equals(%s,%s)" % (made, self.plain(seen, inside))] + ["greaterOrEquals(%s,1)" % call for call in turns] * 3
        return self.rng.choice(picks) if self.rng.random() < 0.95 else made

    def condition(self, seen, inside):
        made = "@" + self.truth(seen, inside)
        return self.rng.choice([made, made, {"or": ["@" + self.truth(seen, inside), {"not": made}]}, {"and": [made]},
                                {"equals": [self.value(seen, inside), self.value(seen, inside)]}, {"contains": ["abc", "@string(1)"]}])

    def items(self, seen, inside):
        made = self.expression(seen, inside)
        return self.rng.choice([[1, 2], [], ["a", None, {"x": 1}], "@range(0,%d)" % self.rng.choice([0, 1, 3]), "@createArray(%s,1)" % made,
                                "@take(array(%s),3)" % made, ["@" + made, "b"], "@" + made])

    def graph(self, seen, inside, level):
        made, known = super().graph(seen, inside, level)
        for action in made.values():
            # (of many that it waits for most may end in any way, else it would seldom run)
            if action.get("runAfter"):
                action["runAfter"] = {name: self.rng.choice(LISTED) if self.rng.random() < 0.3 else LATE for name in action["runAfter"]}
        return made, known

    def action(self, name, seen, inside, level):
        made, within = super().action(name, seen, inside, level)
        rng, kind = self.rng, made["type"]
        if kind == "Foreach":
            made = {name: held for name, held in made.items() if name not in ("operationOptions", "runtimeConfiguration")}
            made["foreach"] = self.items(seen, inside)
            made.update(TURNS[4] if self.variables and rng.random() < 0.6 else rng.choice(TURNS))
        elif kind == "Until" and rng.random() < 0.99:
            made["limit"] = {"count": rng.choice([1, 2, 3, 4])}
            made.update(rng.choice([{}, {}, {"operationOptions": "FailWhenLimitsReached"}]))
        elif kind == "Switch":
            number = "@mod(length(string(%s)),3)" % self.plain(seen, inside)
            made["expression"] = rng.choice(["@'one'", "two", number, "@" + self.expression(seen, inside)])
            for case, value in zip(made["cases"].values(), rng.sample(["one", "two", 1, 2], 4)):
                case["case"] = value
            if rng.random() < 0.5:
                graph, others = self.graph(seen, inside, level + 1)
                made["default"], within = {"actions": graph}, within + others
        elif kind == "Http":
            made["type"] = rng.choice(CALLING)
            made["inputs"].update(rng.choice([{}, {"retryPolicy": rng.choice(POLICIES)}]))
        elif kind == "ParseJson":
            made["inputs"] = {"content": rng.choice(['{"a":[1,"x"]}', '{"a":[1]}', "[1", "@null", self.value(seen, inside)])}
            made["inputs"].update(rng.choice([{}, {"schema": rng.choice(SCHEMAS)}]))
        elif kind in ("Select", "Query", "Join"):
            made["inputs"]["from"] = self.items(seen, inside)
            made["inputs"]["joinWith"] = rng.choice([", ", "@string(%s)" % self.plain(seen, inside), 1])
            made["inputs"]["where"] = "@" + self.truth(seen, inside + ["item()"])
        elif kind == "Terminate":
            made["inputs"] = rng.choice([{}, {"runError": {"code": "E", "message": self.value(seen, inside)}}]) | {
                "runStatus": rng.choice(["Succeeded", "failed", "Cancelled", "@concat('Fai','led')", "Odd"])}
        elif kind in graphs.CHANGES:
            made["inputs"]["value"] = self.change(kind, made["inputs"]["name"], seen, inside)
        if "trackedProperties" in made:
            made["trackedProperties"] = {name: self.tracked(seen) for name in rng.sample("tué", rng.choice([1, 2]))}
        return made, within

    def tracked(self, seen):
        asked = ["action()", "action().status", "action()?['outputs']", "action()?['inputs']?['body']", "action().code", "triggerBody()"]
        asked += ["outputs(%s)" % quoted(name) for name, _, left in seen if left < 2][-2:]
        asked += ["action().nope"] * (self.rng.random() < 0.2)
        return self.rng.choice(["@%s", "@%s", "-@{%s}"]) % self.rng.choice(asked)

    # A value for a variable, most of the time of the type that it takes.
    def change(self, kind, name, seen, inside):
        number, made = "@mod(length(string(%s)),5)" % self.plain(seen, inside), self.value(seen, inside)
        text, truth = "s-@{%s}" % self.plain(seen, inside), "@" + self.truth(seen, inside)
        kinds = {"integer": number, "string": text, "array": [made], "boolean": truth, "object": {"k": made}}
        fine = kinds[self.variables.get(name, "integer").lower()]
        return made if self.rng.random() < 0.1 or kind.startswith("Append") else fine

    def definition(self):
        whole = super().definition()
        holder = whole.get("definition", whole)
        if holder is not whole and self.rng.random() < 0.9:
            held = holder["parameters"]
            whole["parameters"] = {name: {"value": one["defaultValue"]} for name, one in held.items() if "defaultValue" in one}
        for trigger in holder.get("triggers", {}).values():
            asked = self.rng.choice(["@array(triggerBody())", "@triggerBody()", "@createArray(1,triggerBody())", "@range(0,2)"])
            held = self.rng.choice(["@true", "@not(equals(triggerBody(),5))", "@equals(workflow().run.name,'r1')"])
            trigger.update(self.rng.choice([{"splitOn": asked}, {"conditions": [{"expression": held}]}]))
        if self.rng.random() < 0.4:
            holder.pop("triggers", None)
        return whole


def accepted(rng):
    """A definition that breaks no rule, and how many were thrown away before it."""
    for thrown in range(1000):
        made = Maker(rng).definition()
        if rules.refusal(made) is None:
            return made, thrown
    raise RuntimeError("no definition in a thousand is accepted")


def answers(rng, definition):
    """Answers to the connectors of a definition: of the first three turns of the loops round each, and of some attempts."""
    loops = {}
    made = []
    for path, action, _ in rules.actions(definition):
        kind = rules.type_of(action)
        above = next((loops[path[:cut]] for cut in range(len(path) - 1, 0, -1) if path[:cut] in loops), 0)
        loops[path] = above + (kind in ("foreach", "until"))
        ats = [[]]
        for _ in range(above):
            ats = [at + [turn] for at in ats for turn in range(3)]
        taste = rng.choice(TASTES)
        for at in ats if kind in rules.CONNECTORS else ():
            for attempt in range(1, 1 + rng.choice([0, 1, 1, 2, 5])):
                if rng.random() < 0.95:
                    made.append({"action": path[-1], "at": at, "attempt": attempt, "status": rng.choice(taste), "body": rng.choice(BODIES)}
                                | rng.choice([{}, {}, {"headers": {"h": 1}}]))
    rng.shuffle(made)
    return made


def inputs(rng, definition):
    made = {"run": rng.choice(["r1", "é"]), "moment": rng.choice(["2024-05-01T12:00:00Z", "2024-02-29T00:30+01:00"]),
            "answers": answers(rng, definition)}
    if rng.random() < 0.6:
        made["seed"] = rng.choice(["", "s", "é"])
    if rng.random() < 0.8:
        made["outputs"] = rng.choice([{"body": [1, {"x": 2}]}, {"body": {"x": 1}, "headers": {}}, {"body": "t"}, [1], 5, {"body": [2, 3]}])
    if rng.random() < 0.05:
        made["parameters"] = {name: fuzz.one_of(rng) for name in "pq" if rng.random() < 0.5}
    return made


def schedule(rng):
    most, count = rng.choice([1, 2, 3, 7, 2**32 - 1]), rng.choice([0, 5, 20, 60, 200])
    return fuzz.schedule(rng) if rng.random() < 0.05 else b"".join(b"%d\n" % rng.randint(0, most) for _ in range(count))


def case(seed, number):
    """The files of a case, by their names."""
    rng = random.Random("%d/%d" % (seed, number))
    definition, _ = accepted(rng)
    handed = inputs(rng, rules.definition_in(definition))
    return {"definition": json.dumps(definition).encode(), "inputs": json.dumps(handed).encode(), "schedule": schedule(rng)}


EVENT = re.compile("# [0-9]+ (%s) " % "|".join(EVENTS))
PEAK = re.compile("^(# run .* steps [0-9]+) peak [0-9]+$", re.MULTILINE)


def records(text):
    return [line for line in text.split("\n") if line.startswith("{")]


def untraced(text):
    return "".join(line + "\n" for line in text.split("\n")[:-1] if not EVENT.match(line))


def unpeaked(text):
    return PEAK.sub(r"\1", text)


# The calls beside the trace, each with what of the traced text it owes, and what of its own text that is.
TRACE = ["trace", "definition", "inputs", "schedule"]
CALLS = (
    (["run", "definition", "inputs", "schedule"], untraced, str),
    (["run", "definition", "inputs"], lambda text: unpeaked(untraced(text)), unpeaked),
)


def counted(status, text, definition):
    """What a case tried: the status, kinds of action, events, and how rows ended."""
    counts = collections.Counter(["status %d" % status])
    if status == 0:
        counts.update({"kind " + rules.type_of(action) for _, action, _ in rules.actions(definition)})
        counts.update({"row " + row["status"] for line in records(text) for row in json.loads(line)["rows"]})
        counts.update({"event " + found.group(1) for found in map(EVENT.match, text.split("\n")) if found})
    return counts


def called(program, call, folder):
    ended = subprocess.run([program] + call, cwd=folder, capture_output=True, timeout=300)
    return ended.returncode, ended.stdout.decode("utf-8", "replace")


def wrong_in(status, text, files, definition):
    """What is wrong in a trace by itself, or nothing."""
    if status == 0:
        return traces.apart(text, definition, events.read_schedule(files["schedule"])) or ""
    return "" if status == 6 and text.startswith(("trigger ", "schedule ")) or status == 8 else "status %d" % status


def wrong_beside(program, folder, status, text):
    """What the other calls say otherwise than is owed by the trace, or nothing."""
    for call, part, own in CALLS:
        if len(call) == 3 and text.startswith("schedule "):
            continue
        ended, got = called(program, call, folder)
        if (ended, own(got)) != (status, part(text)):
            return "%s: status %d, owed %d\n%s" % (" ".join(call), ended, status, first_apart(own(got), part(text)))
    return ""


def tried(words, number):
    """Tries one case, of which whatever goes wrong is told, be it in the judges."""
    try:
        return judged(words, number)
    except Exception as fault:
        return collections.Counter(), "%s: %s" % (type(fault).__name__, fault)


def judged(words, number):
    """What a case tried, and what was wrong, or nothing."""
    files = case(words.seed, number)
    definition = rules.definition_in(json.loads(files["definition"]))
    with tempfile.TemporaryDirectory() as room:
        folder = os.path.join(words.keep or room, str(number))
        os.makedirs(folder, exist_ok=True)
        for name, data in files.items():
            with open(os.path.join(folder, name), "wb") as file:
                file.write(data)
        status, text = called(words.program, TRACE, folder)
        wrong = ""
        if begin.engine:
            owed, whole = begin.engine(TRACE, files)
            if (status, text) != (owed, whole.decode()):
                wrong = "trace: status %d, owed %d\n%s" % (status, owed, first_apart(text, whole.decode()))
        wrong = wrong or wrong_in(status, text, files, definition) or wrong_beside(words.program, folder, status, text)
        if words.keep and not wrong:
            shutil.rmtree(folder)
    return counted(status, text, definition), wrong


def first_apart(got, wanted):
    """The first line at which two texts part."""
    one, two = got.split("\n"), wanted.split("\n")
    at = next((at for at, pair in enumerate(zip(one, two)) if pair[0] != pair[1]), min(len(one), len(two)))
    left, right = [(lines[at] if at < len(lines) else "(nothing)") for lines in (one, two)]
    cut = max(len(os.path.commonprefix([left, right])) - 60, 0)
    return "  line %d, from character %d\n  has  %s\n  owed %s" % (at + 1, cut, left[cut:cut + 300], right[cut:cut + 300])


def begin(folder):
    begin.engine = model.of(folder) if folder else None
    begin.layered = model.layered(folder) if folder else None


def seldom(counts, count):
    """What was tried in fewer than one case of a thousand."""
    kinds = rules.LEAVES + rules.HOLDING_ONE + ["switch"]
    names = ["kind " + kind for kind in kinds] + ["event " + kind for kind in EVENTS] + ["row " + end for end in ENDS]
    return [name for name in names if counts[name] * 1000 < count]


def called_with(text=__doc__):
    top = os.path.dirname(os.path.dirname(os.path.abspath(__file__)))
    parser = argparse.ArgumentParser(description=text, formatter_class=argparse.RawDescriptionHelpFormatter)
    parser.add_argument("--model", metavar="FOLDER")
    parser.add_argument("--count", type=int, default=20000)
    parser.add_argument("--first", type=int, default=0)
    parser.add_argument("--seed", type=int, default=1)
    parser.add_argument("--jobs", type=int, default=os.cpu_count())
    parser.add_argument("--program", help="what to run; the program of bin/program where it is left out")
    parser.add_argument("--case", type=int)
    parser.add_argument("--keep", metavar="FOLDER")
    words = parser.parse_args()
    if not words.program:
        words.program = subprocess.check_output([os.path.join(top, "bin", "program")], text=True).strip()
    return words


def main():
    words = called_with()
    numbers = range(words.first, words.first + words.count) if words.case is None else [words.case]
    counts, failed = collections.Counter(), 0
    with concurrent.futures.ProcessPoolExecutor(words.jobs, initializer=begin, initargs=(words.model,)) as pool:
        for number, (more, wrong) in zip(numbers, pool.map(tried, [words] * len(numbers), numbers, chunksize=16)):
            counts += more
            if wrong:
                failed += 1
                print("case %d: %s" % (number, wrong), flush=True)
    print("seed %d: %s" % (words.seed, ", ".join("%s %d" % one for one in sorted(counts.items()))))
    passed = len(numbers) - failed
    for name in seldom(counts, len(numbers)) if len(numbers) >= 1000 else ():
        failed += 1
        print("too few cases have %s" % name)
    print("%d passed, %d failed" % (passed, failed))
    return 1 if failed else 0


if __name__ == "__main__":
    sys.exit(main())
