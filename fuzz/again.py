#!/usr/bin/env python3
"""Resubmits runs of random definitions of all kinds from random sets of actions, with new answers, and judges what is printed.

  fuzz/again.py [--model FOLDER] [--count N] [--seed N] [--jobs N] [--program PATH] [--case N] [--keep FOLDER]

For each case it makes a definition and inputs as all.py does, runs it, takes one of the records, and resubmits it from one to three
actions, most of which ran and stand in no loop, with answers of a second making and under a schedule; then the new record once more, with
a third. Of each resubmission it judges apart from the program what is kept: rows of actions that are neither redone nor round a chosen
one are those of the old record, byte for byte, and so are its trigger and parameters; it is refused only for a chosen action; under
another schedule there is the same record in as many steps; `resubmit` says of one action what `resubmit-set` says; and with the
answers, the moment, the seed and the name of the old run there is the old record. Then a record is forged: a row less, one more, another
status, another decision; the program has to refuse it, or to end. With --model status and text of each call have to be to the byte what
the engine in that folder says (model.py tells what that is).

And the record of a resubmission has to be that of a fresh run in layers, in which an action has the answers, the moment, the seed and the
run name of the last layer that holds it. A layer is what a resubmission redoes, by this script's own reading of the definition. There is no
command for a run in layers, so it is made in three ways, each compared as the whole line of the record, byte by byte:
  - 'fresh': the run is resubmitted, and its new record once more, with answers of the layers but the moment, the seed and the run name of
    the old run. Then all layers differ in answers alone, and each record has to be that of a plain `run` of the same definition with one
    list of answers, taken for each action from the last layer that holds it.
  - 'fresh, apart': where the definition asks for no moment, word or run name, the records of the resubmissions with moments, seeds and run
    names of their own have to be that of such a plain `run` under the run name of the last layer.
  - 'layers': with --model, the records of the resubmissions have to be what that engine's recursion over the graphs gives in an environment
    with layers. It knows no event and no old record.

Where a case fails, --keep writes its files to a folder, and --case N makes the Nth case alone. From a thousand cases on it fails too where
a fault of resubmissions, a fresh run or an end of a forged record came up too seldom. The last line is 'N passed, M failed'."""
import collections
import concurrent.futures
import json
import os
import random
import re
import shutil
import subprocess
import sys
import tempfile

import all as making
import rules
from reading import compact

FAULTS = ["NoAction", "InLoop", "NotRun", "OtherDefinition", "Shape"]
TRIED = ["fault " + fault for fault in FAULTS] + ["fresh 1", "fresh 2", "fresh, apart", "forged 0", "forged 7"]
LOOPS = ("foreach", "until")
# What an expression of a definition names where it asks for the moment, a random word or the run's name.
ASKS = re.compile("utcnow|getfuturetime|getpasttime|guid|rand|workflow", re.IGNORECASE)


# ---- what a set of actions redoes

class Order:
    """Which action stands where, by the paths of actions."""

    def __init__(self, definition):
        self.paths = {path[-1]: path for path, _, _ in rules.actions(definition)}
        self.actions = {path[-1]: action for path, action, _ in rules.actions(definition)}
        self.graphs = {}
        for path in self.paths.values():
            self.graphs[path[-1]] = path[:-1]

    def holders(self, name):
        """The containers round an action, outermost first."""
        path = self.paths[name]
        return [part for part in path[:-1] if part in self.actions and self.paths[part] == path[:len(self.paths[part])]]

    def loops(self, name):
        return [held for held in self.holders(name) if rules.type_of(self.actions[held]) in LOOPS]

    def waits(self, name):
        return set((self.actions[name].get("runAfter") or {}))

    def behind(self, name):
        """The actions of its graph that wait for an action, or for one that does."""
        found, left = set(), [name]
        while left:
            one = left.pop()
            more = [other for other in self.actions if other not in found and one in self.waits(other)
                    and self.holders(other) == self.holders(name)]
            found.update(more)
            left += more
        return found

    def redone(self, chosen):
        tops = set(chosen)
        for name in chosen:
            for one in [name] + self.holders(name):
                tops |= self.behind(one)
        return {name for name in self.actions if tops & set([name] + self.holders(name))}

    def closed_again(self, chosen):
        redone = self.redone(chosen)
        return {held for name in chosen for held in self.holders(name)} - redone


# ---- a case

def case(seed, number):
    """The files of a case by their names, and a source of what is drawn later."""
    rng = random.Random("again/%d/%d" % (seed, number))
    definition, _ = making.accepted(rng)
    inner = rules.definition_in(definition)
    files = {"definition": json.dumps(definition).encode(), "inputs": json.dumps(making.inputs(rng, inner)).encode()}
    for name in ("again", "once-more"):
        handed = making.inputs(rng, inner)
        handed["run"] = name
        files[name] = json.dumps(handed).encode()
    files["schedule"], files["other-schedule"], files["none"] = making.schedule(rng), making.schedule(rng), b""
    return files, inner, rng


def chosen_of(rng, order, record):
    """Some actions, most of them such as may be resubmitted."""
    rows = {row["name"]: row["status"] for row in record["rows"] if not row["at"]}
    fine = sorted(name for name in order.actions if not order.loops(name) and rows.get(name, "Skipped") != "Skipped")
    picked = rng.sample(fine, min(len(fine), rng.choice([1, 1, 1, 2, 2, 3])))
    if rng.random() < 0.12 or not picked:
        picked.append(rng.choice(sorted(order.actions) + ["nope"]))
    if rng.random() < 0.05:
        picked.append(picked[0])
    rng.shuffle(picked)
    return picked


def forged(rng, record):
    """A record that no run wrote, or at least another one."""
    made = json.loads(json.dumps(record))
    rows = made["rows"]
    way = rng.choice(["less", "more", "status", "decision", "outputs", "digest"])
    if way == "less" and rows:
        rows.pop(rng.randrange(len(rows)))
    elif way == "more" and rows:
        row = json.loads(json.dumps(rng.choice(rows)))
        row["at"] = row["at"] + [rng.choice([0, 1, 7])] if rng.random() < 0.6 or not row["at"] else row["at"][:-1]
        rows.append(row)
    elif way == "status" and rows:
        rng.choice(rows)["status"] = rng.choice(["Succeeded", "Failed", "Skipped", "TimedOut", "Cancelled"])
    elif way == "decision" and rows:
        rng.choice(rows)["inputs"] = rng.choice([None, True, False, 1, "one", [1], [1, 2], {}, list(range(4))])
    elif way == "outputs" and rows:
        rng.choice(rows)["outputs"] = rng.choice([None, {"iterations": rng.choice([0, 1, 2, 3])}, {"body": {"name": "v", "value": 1}}, 5])
    else:
        made["definition"] = "0" * 64
    seen = {}
    for row in rows:
        seen[key_of(row)] = row
    made["rows"] = [seen[key] for key in sorted(seen, key=lambda key: (key[0].encode(), key[1]))]
    return made


# ---- a fresh run in layers

def in_layers(base, layers):
    """INPUTS with the answers of the last layer that holds an action, and with those of the base where none does."""
    answers = base.get("answers") or []
    for redone, handed in layers:
        answers = [one for one in answers if one["action"] not in redone] + [one for one in handed["answers"] if one["action"] in redone]
    return base | {"answers": answers}


def of_one_run(old, base, handed):
    """INPUTS with the answers of others, but with the moment, the run name and the seed that the old run had. (A run of a split is called
    by its place, and so is its seed.)"""
    place = old["run"][len(base["run"]):]
    return handed | {"moment": base["moment"], "run": old["run"], "seed": base.get("seed", "") + place}


# ---- what is judged

def key_of(row):
    return row["name"], tuple(row["at"])


def apart_in(order, old, new, chosen):
    """What a resubmission keeps otherwise than it has to, or nothing."""
    for member in ("trigger", "parameters"):
        if old[member] != new[member]:
            return "another %s" % member
    done = order.redone(chosen) | order.closed_again(chosen)
    was, now = [{key_of(row): compact(row) for row in record["rows"] if row["name"] not in done} for record in (old, new)]
    return "" if was == now else "rows that are kept: %s" % sorted(set(was.items()) ^ set(now.items()))[:2]


class Tried:
    """One case, as it is tried."""

    def __init__(self, words, folder, files, definition, rng):
        self.program, self.folder, self.files, self.rng = words.program, folder, files, rng
        self.order, self.counts = Order(definition), collections.Counter()
        for name, data in files.items():
            self.write(name, data)

    def write(self, name, data):
        self.files[name] = data
        with open(os.path.join(self.folder, name), "wb") as file:
            file.write(data)

    def said(self, call):
        """What the program says of a call, and the other engine, too; else it is wrong."""
        status, text = making.called(self.program, call, self.folder)
        if making.begin.engine:
            owed, whole = making.begin.engine(call, self.files)
            if (status, text) != (owed, whole.decode()):
                raise Wrong("%s: status %d, owed %d\n%s" % (" ".join(call), status, owed, making.first_apart(text, whole.decode())))
        return status, text

    def record(self, text):
        return json.loads(making.records(text)[0])

    def resubmitted(self, old, run, chosen, inputs):
        """A resubmission under a schedule, and all that has to go with it. The new record, if there is one."""
        call = ["resubmit-set", "definition", "history", run, inputs, "schedule"] + chosen
        status, text = self.said(call)
        self.counts["again %d" % status] += 1
        self.counts.update("fault " + fault for fault in FAULTS if text.startswith("resubmit %s" % fault))
        if text.startswith("schedule "):
            return None
        if len(set(chosen)) == 1:
            single = self.said(["resubmit", "definition", "history", run, chosen[0], inputs, "schedule"])
            if single != (status, text):
                raise Wrong("resubmit of %s says something else" % chosen[0])
        if status == 7 and all(self.may_be_resubmitted(one, old) for one in chosen):
            raise Wrong("%s: refused, though a run wrote the record and the actions ran, outside of loops\n%s" % (" ".join(call), text))
        if status:
            return None
        other = self.said(["resubmit-set", "definition", "history", run, inputs, "none"] + chosen)
        if (other[0], making.unpeaked(other[1])) != (status, making.unpeaked(text)):
            raise Wrong("another record under another schedule")
        new = self.record(text)
        wrong = apart_in(self.order, old, new, chosen)
        if wrong:
            raise Wrong("%s: %s" % (" ".join(call), wrong))
        self.counts["kept"] += sum(row["name"] not in self.order.redone(chosen) for row in new["rows"])
        return new

    def history(self, *records):
        self.write("history", "".join(compact(record) + "\n" for record in records).encode())

    def old_again(self, old, run, chosen):
        """With the old answers there is the old record."""
        handed = json.loads(self.files["inputs"])
        if old["run"] != handed["run"]:
            return
        status, text = self.said(["resubmit-set", "definition", "history", run, "inputs", "none"] + chosen)
        if status == 0 and compact(self.record(text)) != compact(old):
            raise Wrong("with old answers there is another record")

    def once_more(self, old, new, layers):
        """The new record is resubmitted, too, and each is that of a fresh run in layers."""
        self.of_layers(old, new, layers)
        self.history(old, new)
        chosen = chosen_of(self.rng, self.order, new)
        newest = self.resubmitted(new, "again", chosen, "once-more")
        if newest:
            self.of_layers(old, newest, layers + [(self.order.redone(chosen), json.loads(self.files["once-more"]))])

    def line(self, call, run):
        """The line of a record that a call prints, by the name of its run."""
        status, text = making.called(self.program, call, self.folder)
        found = [line for line in making.records(text) if status == 0 and json.loads(line)["run"] == run]
        if len(found) != 1:
            raise Wrong("%s: status %d, %d records of %s" % (" ".join(call), status, len(found), run))
        return found[0]

    def plain_run(self, inputs, run):
        self.write("layered", json.dumps(inputs).encode())
        return self.line(["run", "definition", "layered"], run)

    def fresh(self, old):
        """Resubmitted twice in the moment of the old run: each time there is the record of a plain run with the answers of the layers."""
        base, record, layers = json.loads(self.files["inputs"]), old, []
        for name in ("again", "once-more"):
            handed = of_one_run(old, base, json.loads(self.files[name]))
            chosen = [one for one in chosen_of(self.rng, self.order, record) if self.may_be_resubmitted(one, record)]
            if len(old["run"]) > 64 or not chosen:
                return
            self.write("handed", json.dumps(handed).encode())
            self.history(record)
            got = self.line(["resubmit-set", "definition", "history", old["run"], "handed", "none"] + chosen, old["run"])
            layers.append((self.order.redone(chosen), handed))
            owed = self.plain_run(in_layers(base, layers), old["run"])
            if got != owed:
                raise Wrong("layer %d, from %s, isn't a fresh run\n%s" % (len(layers), chosen, making.first_apart(got, owed)))
            self.counts["fresh %d" % len(layers)] += 1
            self.counts["fresh %d, another record" % len(layers)] += compact(record) != got
            record = json.loads(got)

    def may_be_resubmitted(self, name, record):
        status = {row["name"]: row["status"] for row in record["rows"] if not row["at"]}.get(name, "Skipped")
        return name in self.order.actions and not self.order.loops(name) and status != "Skipped"

    def fresh_apart(self, new, layers):
        """Where nothing asks for the moment, a word or the run's name, the new record is that of a plain run, too."""
        if ASKS.search(self.files["definition"].decode()):
            return
        base, last = json.loads(self.files["inputs"]), layers[-1][1]
        held = in_layers(base, layers) | {"run": last["run"], "moment": last["moment"], "seed": last.get("seed", "")}
        self.write("layered", json.dumps(held).encode())
        status, text = making.called(self.program, ["run", "definition", "layered"], self.folder)
        owed = [compact(json.loads(line) | {"run": last["run"]}) for line in making.records(text)]
        if status or compact(new) not in owed:
            raise Wrong("%d layers aren't a fresh run apart\n%s" % (len(layers), making.first_apart(compact(new), (owed + [""])[0])))
        self.counts["fresh, apart"] += 1

    def of_layers(self, old, new, layers):
        """The new record is that of the fresh run in layers, as far as there are ways to make one."""
        self.fresh_apart(new, layers)
        if making.begin.engine:
            owed = making.begin.layered(self.files["definition"], self.files["inputs"], old["run"], layers)
            if compact(new) != owed:
                raise Wrong("%d layers give another record\n%s" % (len(layers), making.first_apart(compact(new), owed)))
            self.counts["layers %d" % len(layers)] += 1

    def all(self):
        status, text = self.said(["run", "definition", "inputs"])
        self.counts["run %d" % status] += 1
        lines = making.records(text) if status == 0 else []
        if not lines:
            return
        old = json.loads(self.rng.choice(lines))
        self.history(old)
        chosen = chosen_of(self.rng, self.order, old)
        new = self.resubmitted(old, old["run"], chosen, "again")
        if new:
            self.old_again(old, old["run"], chosen)
            self.once_more(old, new, [(self.order.redone(chosen), json.loads(self.files["again"]))])
        record = forged(self.rng, old)
        self.history(record)
        self.counts["forged"] += 1
        status, text = self.said(["resubmit-set", "definition", "history", old["run"], "again", "none"] + chosen)
        self.counts.update("fault " + fault for fault in FAULTS if text.startswith("resubmit %s" % fault))
        if status not in (0, 7, 8):
            raise Wrong("a forged record: status %d" % status)
        self.counts["forged %d" % status] += 1
        self.fresh(old)


class Wrong(Exception):
    pass


def tried(words, number):
    try:
        files, definition, rng = case(words.seed, number)
        with tempfile.TemporaryDirectory() as room:
            folder = os.path.join(words.keep or room, str(number))
            os.makedirs(folder, exist_ok=True)
            one, wrong = Tried(words, folder, files, definition, rng), ""
            try:
                one.all()
            except Wrong as fault:
                wrong = str(fault)
            if words.keep and not wrong:
                shutil.rmtree(folder)
            return one.counts, wrong
    except Exception as fault:
        return collections.Counter(), "%s: %s" % (type(fault).__name__, fault)


def main():
    words = making.called_with(__doc__)
    numbers = range(words.count) if words.case is None else [words.case]
    counts, failed = collections.Counter(), 0
    with concurrent.futures.ProcessPoolExecutor(words.jobs, initializer=making.begin, initargs=(words.model,)) as pool:
        for number, (more, wrong) in zip(numbers, pool.map(tried, [words] * len(numbers), numbers, chunksize=16)):
            counts += more
            if wrong:
                failed += 1
                print("case %d: %s" % (number, wrong), flush=True)
    print("seed %d: %s" % (words.seed, ", ".join("%s %d" % one for one in sorted(counts.items()))))
    passed = len(numbers) - failed
    for name in TRIED if len(numbers) >= 1000 else ():
        if counts[name] * 1000 < len(numbers):
            failed += 1
            print("too few cases have %s" % name)
    print("%d passed, %d failed" % (passed, failed))
    return 1 if failed else 0


if __name__ == "__main__":
    sys.exit(main())
