"""What `wflow run` and `wflow trace` owe on a definition that they take, on inputs and under a schedule: which runs start, and what each of
them writes where all its actions are of type Compose. Decided apart from the program, after docs/FORMATS.md; the judge of fuzz.py."""
import hashlib
import re

import events
import functions
import references
import rules
import templates
from reading import Refused, compact, read

MOST_COST = 2**26
MOST_ITEMS = 100000


class TriggerRefused(Exception):
    """No run starts for a fault; the words are it as it is printed."""


class TooLarge(Exception):
    """The runs cost more than the limit."""


# ---- INPUTS

def is_name(name, most):
    return isinstance(name, str) and 1 <= len(name) <= most and not re.search("[\x00-\x1f\x7f]", name)


def is_fit(value):
    return functions.depth(value) <= functions.DEEP and functions.weight(value) <= functions.HEAVY


def is_status(value):
    return value in ("noConnection", "timedOut") if isinstance(value, str) else rules.within(value, 100, 599)


# Where an answer isn't of its form.
def astray_in_answer(answer, path):
    if not isinstance(answer, dict):
        yield path
        return
    ats = answer.get("at", [])
    if not isinstance(ats, list):
        yield path + ("at",)
    else:
        yield from (path + ("at", place) for place, number in enumerate(ats) if not rules.within(number, 0, 2**63 - 1))
    tests = {
        "action": isinstance(answer.get("action"), str), "attempt": rules.within(answer.get("attempt", 1), 1, 91),
        "status": is_status(answer.get("status")), "headers": isinstance(answer.get("headers", {}), dict) and is_fit(answer.get("headers")),
        "body": is_fit(answer.get("body"))}
    yield from (path + (name,) for name, holds in tests.items() if not holds)


# Where INPUTS isn't of its form.
def astray(value):
    if not isinstance(value, dict):
        yield ()
        return
    tests = {
        "run": is_name(value.get("run"), 64), "moment": isinstance(value.get("moment"), str),
        "seed": isinstance(value.get("seed", ""), str), "trigger": isinstance(value.get("trigger", ""), str),
        "outputs": is_fit(value.get("outputs")), "parameters": isinstance(value.get("parameters", {}), dict),
        "answers": isinstance(value.get("answers", []), list)}
    yield from ((name,) for name, holds in tests.items() if not holds)
    if tests["parameters"]:
        yield from (("parameters", name) for name, given in value.get("parameters", {}).items() if not is_fit(given))
    if tests["answers"]:
        for place, answer in enumerate(value.get("answers", [])):
            yield from astray_in_answer(answer, ("answers", place))


# What a run is handed: its name, the seed of its words, its moment in ticks, and what is given for the trigger and the parameters.
def judge_inputs(value):
    place = rules.least(astray(value))
    if place is not None:
        raise Refused("Form " + place)
    keys = sorted((answer["action"].encode(), answer.get("at", []), answer.get("attempt", 1)) for answer in value.get("answers", []))
    for key, after in zip(keys, keys[1:]):
        if key == after:
            address = "/".join([key[0].decode()] + [str(number) for number in key[1]])
            raise Refused("Twice %s %d" % (compact(address), key[2]))
    moment = functions.moment_of(value["moment"])
    if moment is None:
        raise Refused("Moment")
    return {"run": value["run"], "seed": value.get("seed", ""), "moment": moment, "trigger": value.get("trigger"),
            "outputs": value.get("outputs"), "parameters": value.get("parameters", {})}


# ---- which runs start

def trigger_of(definition, inputs):
    names = list(definition.get("triggers", {}))
    if inputs["trigger"] is None and len(names) < 2:
        return names[0] if names else None
    if inputs["trigger"] not in names:
        raise TriggerRefused("NoTrigger")
    return inputs["trigger"]


# The values of the declared parameters: of what the inputs, the file beside the definition, and the definition give, the first.
def parameters_of(definition, given, inputs):
    values, faults = {}, {"NoParameter": [], "ParameterType": [], "NotAllowed": []}
    for name, parameter in definition.get("parameters", {}).items():
        found = [held[name] for held in (inputs["parameters"], given) if name in held]
        found += [parameter[member] for member in ("defaultValue",) if member in parameter]
        if not found:
            faults["NoParameter"].append(name)
            continue
        values[name] = found[0]
        if functions.kind(found[0]) != references.SORTS[rules.type_of(parameter)]:
            faults["ParameterType"].append(name)
        if compact(found[0]) not in [compact(allowed) for allowed in parameter.get("allowedValues", [found[0]])]:
            faults["NotAllowed"].append(name)
    for fault, names in faults.items():
        if names:
            raise TriggerRefused("%s %s" % (fault, compact(min(names, key=str.encode))))
    return dict(sorted(values.items(), key=lambda member: member[0].encode()))


# The value of a JSON text inside a run; ValueError where it is none.
def read_text(text):
    try:
        return read(text.encode(), len(text.encode()))
    except Refused:
        raise ValueError


def evaluator(run, place, view=None):
    return templates.Evaluator(view, run, place, compact, read_text)


# The items of a split, or None where the trigger has no `splitOn`.
def items_of(trigger, run):
    if "splitOn" not in trigger:
        return None
    try:
        items = evaluator(run, None).tree(trigger["splitOn"])
    except functions.Fault as fault:
        raise TriggerRefused("Split %s" % fault)
    if not isinstance(items, list):
        raise TriggerRefused("SplitNotList")
    if len(items) > MOST_ITEMS:
        raise TriggerRefused("SplitTooLong %d" % len(items))
    return items


def holds(condition, run):
    try:
        value = evaluator(run, None).tree(condition["expression"])
        functions.needs(isinstance(value, bool), "WrongType", "condition 1")
        return value
    except functions.Fault as fault:
        raise TriggerRefused("Condition %s" % fault)


# What each run that starts is made of.
def starts(definition, given, inputs):
    name = trigger_of(definition, inputs)
    trigger = definition.get("triggers", {}).get(name, {})
    run = dict(inputs, parameters=parameters_of(definition, given, inputs), trigger={"name": name, "outputs": inputs["outputs"]})
    items = items_of(trigger, run)
    if not all(holds(condition, run) for condition in trigger.get("conditions", [])):
        return
    if items is None:
        yield run
        return
    whole = inputs["outputs"] if isinstance(inputs["outputs"], dict) else {}
    for number, item in enumerate(items):
        yield dict(run, run="%s-%d" % (run["run"], number), seed="%s-%d" % (run["seed"], number),
                   trigger={"name": name, "outputs": dict(whole, body=item)})


# ---- what a run writes

# The actions in an order in which each stands after those that it waits for.
def ordered(actions):
    waiting = {name: set(action.get("runAfter", {})) for name, action in actions.items()}
    while waiting:
        ended = sorted(name for name, others in waiting.items() if not others & waiting.keys())
        yield from ended
        for name in ended:
            del waiting[name]


def row_of(name, status, code, inputs, error):
    return {"at": [], "attempts": [], "code": code, "error": error, "inputs": inputs, "name": name, "outputs": inputs, "status": status,
            "tracked": {}}


# The rows of the actions, by their names, and what is seen of each.
def rows_of(actions, run):
    rows = {}

    def view(name):
        return {member: rows[name][member] for member in ("code", "error", "inputs", "name", "outputs", "status")}

    for name in ordered(actions):
        if not events.is_met(actions[name], rows):
            rows[name] = row_of(name, "Skipped", "ActionSkipped", None, None)
            continue
        try:
            rows[name] = row_of(name, "Succeeded", "OK", evaluator(run, name, view).tree(actions[name]["inputs"]), None)
        except functions.Fault as fault:
            rows[name] = row_of(name, "Failed", "InvalidTemplate", None, str(fault))
    return rows, view


# How the graph ended: by the judged actions, which are those that none waits for, and those that a judged Skipped one waits for.
def status_of(actions, rows):
    judged = set(actions).difference(*(action.get("runAfter", {}) for action in actions.values()))
    while True:
        more = judged.union(*(actions[name].get("runAfter", {}) for name in judged if rows[name]["status"] == "Skipped"))
        if more == judged:
            return "Failed" if any(rows[name]["status"] == "Failed" for name in judged) else "Succeeded"
        judged = more


# The values of the outputs section, which share one count of words, and the fault of the first that has none.
def outputs_of(definition, run, view):
    given = evaluator(run, "@outputs", view)
    try:
        return {name: given.tree(output["value"]) for name, output in sorted(definition.get("outputs", {}).items(),
                                                                            key=lambda member: member[0].encode())}, None
    except functions.Fault as fault:
        return None, str(fault)


# The record of a run, its rows by their names, and what it costs.
def record(definition, digest, run):
    actions = definition.get("actions", {})
    rows, view = rows_of(actions, run)
    outputs, fault = outputs_of(definition, run, view)
    made = {
        "definition": digest, "error": None if fault is None else {"code": "InvalidTemplate", "message": fault}, "form": 2,
        "outputs": outputs, "parameters": run["parameters"], "response": None,
        "rows": [rows[name] for name in sorted(rows, key=str.encode)],
        "run": run["run"], "status": status_of(actions, rows) if fault is None else "Failed", "trigger": run["trigger"],
    }
    cost = 64 + sum(functions.weight(made[member]) for member in ("trigger", "parameters", "outputs"))
    cost += sum(64 + sum(functions.weight(row[member]) for member in ("inputs", "outputs", "error", "tracked")) for row in made["rows"])
    return made, rows, cost


# The text that the runs of this definition and these inputs write under a schedule, which each of them begins anew. Of actions of another
# type than Compose it isn't known.
def text_of(definition, given, inputs, schedule, traced):
    digest = hashlib.sha256(compact(definition).encode()).hexdigest()
    text, total = [], 0
    for run in starts(definition, given, inputs):
        if not rules.is_plain(definition):
            raise functions.Unknown
        made, rows, cost = record(definition, digest, run)
        total += cost
        if total > MOST_COST:
            raise TooLarge
        lines, steps, peak = events.happened(definition.get("actions", {}), rows, schedule)
        text += lines if traced else []
        text += [compact(made), "\n", "# run %s steps %d peak %d\n" % (run["run"], steps, peak)]
    return "".join(text) or "# no run\n"
