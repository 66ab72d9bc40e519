"""What happens in a run of any definition under a schedule, told by the rows of its record alone: a machine that knows no values but those
of the rows, of which it goes by the statuses, by what containers decided and by what attempts came to. Decided apart from the program,
after docs/ORDER.md and docs/FORMATS.md; all.py stands on this."""
import json

import rules
from reading import compact

# How many iterations go side by side, and how many an Until has at most, where nothing is said.
REPETITIONS, COUNT = 20, 60


def kind_of(action):
    return rules.type_of(action)


def graph_of(holder):
    return holder.get("actions", {})


def branches(action):
    """The graphs of an action that holds others and is no loop."""
    kind = kind_of(action)
    if kind == "scope":
        return [graph_of(action)]
    if kind == "if":
        return [graph_of(action), graph_of(action.get("else", {}))]
    if kind == "switch":
        return [graph_of(case) for case in action["cases"].values()] + [graph_of(action.get("default", {}))]
    return []


def same(one, other):
    return type(one) is type(other) and one == other


def case_of(action, value):
    """The name of the case that a Switch takes for a value, or None."""
    return next((name for name, case in action["cases"].items() if same(case["case"], value)), None)


def options(action):
    return [option.strip().lower() for option in action.get("operationOptions", "").split(",")]


def repetitions(action):
    held = action.get("runtimeConfiguration", {}).get("concurrency", {}).get("repetitions", REPETITIONS)
    return 1 if "sequential" in options(action) else held


class Run:
    """A run that goes by the rows of a record."""

    def __init__(self, definition, record):
        self.graph = graph_of(definition)
        self.rows = {(row["name"], tuple(row["at"])): row for row in record["rows"]}
        self.done, self.running, self.begun, self.tested = set(), {}, {}, {}

    # ---- what is there

    def taken(self, action, row):
        """The graph that an If, a Switch or a Scope runs."""
        kind = kind_of(action)
        if kind == "scope":
            return graph_of(action)
        if row["inputs"] is None:
            return {}
        if kind == "if":
            return graph_of(action if row["inputs"] else action.get("else", {}))
        case = case_of(action, row["inputs"])
        return graph_of(action.get("default", {}) if case is None else action["cases"][case])

    def turns(self, action, row):
        """How many iterations a loop has in all."""
        if kind_of(action) == "foreach":
            return len(row["inputs"] or [])
        return row["outputs"]["iterations"]

    def is_done(self, graph, at):
        return all((name, at) in self.done for name in graph)

    # ---- which events are enabled: the address, the kind and the number of each

    def enabled(self):
        found = list(self.of_graph(self.graph, ()))
        return sorted(found, key=lambda event: (event[0][0].encode(), event[0][1]))

    def of_graph(self, graph, at):
        for name, action in graph.items():
            address = name, at
            if address in self.running:
                tries = self.running[address]
                more = tries < len(self.rows[address]["attempts"])
                yield address, "Try" if more else "End", tries + 1 if more else 0, action
            elif address in self.begun:
                yield from self.of_open(address, action)
            elif address not in self.done and all((other, at) in self.done for other in action.get("runAfter", {})):
                holds = kind_of(action) in rules.HOLDING_ONE + ["switch"]
                skipped = self.rows[address]["status"] == "Skipped"
                yield address, "Skip" if skipped else "Open" if holds else "Start", 0, action

    def of_open(self, address, action):
        (_, at), row, begun = address, self.rows[address], self.begun[address]
        if kind_of(action) in ("foreach", "until"):
            inside = graph_of(action)
            ended = [self.is_done(inside, at + (turn,)) for turn in range(begun)]
            for turn in range(begun):
                yield from self.of_graph(inside, at + (turn,))
            if kind_of(action) == "until" and self.tested[address] < begun:
                if ended[-1]:
                    yield address, "Test", begun - 1, action
            elif begun < self.turns(action, row):
                if kind_of(action) == "until" or ended.count(False) < repetitions(action):
                    yield address, "Begin", begun, action
            elif all(ended):
                yield address, "Close", 0, action
            return
        taken = self.taken(action, row)
        yield from self.of_graph(taken, at)
        if self.is_done(taken, at):
            yield address, "Close", 0, action

    # ---- steps

    def skip_inside(self, action, at):
        for graph in branches(action):
            for name, inner in graph.items():
                self.done.add((name, at))
                self.skip_inside(inner, at)

    def step(self, address, kind, action):
        if kind == "Start":
            self.running[address] = 0
        elif kind == "Try":
            self.running[address] += 1
        elif kind == "End":
            del self.running[address]
        elif kind == "Open":
            self.begun[address] = self.tested[address] = 0
            taken = self.taken(action, self.rows[address]) if branches(action) else {}
            for graph in branches(action):
                for name, inner in graph.items() if graph is not taken else ():
                    self.done.add((name, address[1]))
                    self.skip_inside(inner, address[1])
        elif kind == "Begin":
            self.begun[address] += 1
        elif kind == "Test":
            self.tested[address] += 1
        elif kind == "Close":
            del self.begun[address]
        elif kind == "Skip":
            self.skip_inside(action, address[1])
        if kind in ("End", "Skip", "Close"):
            self.done.add(address)

    # ---- what is told

    def opened(self, action, row):
        kind = kind_of(action)
        if kind in ("scope", "until"):
            return ""
        if row["inputs"] is None:
            return " !" + (row["error"] or row["code"])
        if kind == "foreach":
            return " %d" % len(row["inputs"])
        case = None if kind == "if" else case_of(action, row["inputs"])
        return " " + (compact(row["inputs"]) if kind == "if" else "default" if case is None else compact(case))

    # (of a last test that might have been either, as the count was reached, the row doesn't tell: both are given)
    def verdicts(self, action, row, turn):
        if turn + 1 < row["outputs"]["iterations"]:
            return ["false"]
        if row["code"] == "InvalidTemplate":
            return ["!" + row["error"]]
        if row["code"] == "LimitReached":
            return ["false"]
        may_be_false = turn + 1 == action.get("limit", {}).get("count", COUNT) and "failwhenlimitsreached" not in options(action)
        return ["true", "false"] if may_be_false and row["status"] != "Cancelled" else ["true"]

    def told(self, address, kind, number, action):
        """What may stand in an event's line behind its address."""
        row = self.rows[address]
        if kind == "Start":
            faulted = row["code"] == "InvalidTemplate"
            return [" " + ("!" + row["error"] if faulted else compact(row["inputs"]))]
        if kind == "Try":
            return [" %d %s" % (number, row["attempts"][number - 1])]
        if kind == "Test":
            return [" %d %s" % (number, verdict) for verdict in self.verdicts(action, row, number)]
        return [{"End": " %s %s" % (row["status"], compact(row["outputs"])), "Begin": " %d" % number, "Close": " " + row["status"],
                 "Open": self.opened(action, row) if kind == "Open" else "", "Skip": ""}[kind]]


def lines(definition, record, schedule):
    """The lines of the events of a run under a schedule, each as those that it may be, with the summary line behind them."""
    run, made, peak = Run(definition, record), [], 0
    enabled = run.enabled()
    while enabled:
        place = schedule[len(made)] % len(enabled) if len(made) < len(schedule) else 0
        address, kind, number, action = enabled[place]
        head = "# %d %s %s" % (len(made) + 1, kind, "/".join([address[0]] + [str(turn) for turn in address[1]]))
        made.append([head + rest for rest in run.told(*enabled[place])])
        run.step(address, kind, action)
        peak = max(peak, len(run.running))
        enabled = run.enabled()
    if run.done != set(run.rows):
        raise ValueError("rows of actions that aren't done: %s" % sorted(set(run.rows) ^ run.done)[:3])
    return made + [["# run %s steps %d peak %d" % (record["run"], len(made), peak)]]


def apart(text, definition, schedule):
    """Where a traced text says otherwise than its records and the schedule make it, or None."""
    found = text.split("\n")
    at = 0
    while found[at:] != [""]:
        if found[at:] == ["# no run", ""]:
            return None
        end = next((place for place in range(at, len(found)) if found[place].startswith("{")), None)
        if end is None:
            return "no record behind line %d" % (at + 1)
        said = found[at:end] + found[end + 1:end + 2]
        try:
            owed = lines(definition, json.loads(found[end]), schedule)
        except (KeyError, TypeError, ValueError, IndexError) as fault:
            return "its record is of no run: %r" % fault
        for place, (line, fine) in enumerate(zip(said, owed)):
            if line not in fine:
                return "line %d is\n  %s\nand by the record\n  %s" % (at + place + 1, line[:300], fine[0][:300])
        if len(said) != len(owed):
            return "%d lines of events, and by the record %d" % (len(said) - 1, len(owed) - 1)
        at = end + 2
    return None
