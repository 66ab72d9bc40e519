"""Which rule a definition breaks first, and where: decided apart from the program, after docs/RULES.md and
docs/MESSAGES.md. The judge of fuzz.py stands on this.

A rule is a function from a definition, for which all rules before it hold, to the places at which it is broken, as paths of names and
numbers. Those from V9 on are in references.py. `refusal` gives the words of the fault as they are printed, or None."""
import json
import re

import references
import templates

SCHEMA = "https://schema.management.azure.com/providers/Microsoft.Logic/schemas/2016-06-01/workflowdefinition.json#"
CONNECTORS = "http apiconnection apiconnectionwebhook httpwebhook function workflow apimanagement serviceprovider".split()
LEAVES = CONNECTORS + ("compose wait response terminate select query join parsejson initializevariable setvariable incrementvariable"
                       " decrementvariable appendtoarrayvariable appendtostringvariable").split()
HOLDING_ONE = "scope if foreach until".split()
PARAMETER_TYPES = "int string bool array object securestring secureobject".split()
VARIABLE_TYPES = "boolean integer string array object".split()
SCHEMA_TYPES = "null boolean integer number string array object".split()
COMPARISONS = "equals greater greaterOrEquals less lessOrEquals contains startsWith endsWith".split()
STATUSES = "succeeded failed skipped timedout".split()
# the texts of which the members of `inputs` are templates, where not all of `inputs` is one
ASKED = {"select": ["from", "select"], "query": ["from", "where"], "join": ["from", "joinWith"], "parsejson": ["content"],
         "setvariable": ["value"], "incrementvariable": ["value"], "decrementvariable": ["value"], "appendtoarrayvariable": ["value"],
         "appendtostringvariable": ["value"]}
DURATION = re.compile(r"P(?=[0-9T])([0-9]{1,9}D)?(T(?=[0-9])([0-9]{1,9}H)?([0-9]{1,9}M)?([0-9]{1,9}S)?)?")
NAMING = "actions outputs body result items iterationindexes parameters variables".split()
# what a function takes: the least and the greatest number of arguments, `*` for any
FUNCTIONS = {name.lower(): counts for counts, names in [
    ("0", "action item trigger triggerOutputs triggerBody workflow"),
    ("0-1", "utcNow guid"),
    ("0-*", "createArray"),
    ("1", "toLower toUpper trim length empty first last array reverse not int bool isInt dayOfMonth dayOfYear dayOfWeek ticks uriComponent"
          " encodeUriComponent uriComponentToString decodeUriComponent uriScheme uriHost uriPath uriQuery uriPathAndQuery uriPort base64"
          " base64ToString decodeBase64 dataUri dataUriToString string json actions outputs body result items iterationIndexes parameters"
          " variables"),
    ("1-2", "sort formatDateTime startOfDay startOfHour startOfMonth"),
    ("1-*", "concat min max and or coalesce"),
    ("2", "split startsWith endsWith indexOf lastIndexOf contains take skip join range chunk removeProperty add sub mul div mod equals"
          " greater greaterOrEquals less lessOrEquals dateDifference rand"),
    ("2-3", "substring slice addDays addHours addMinutes addSeconds getFutureTime getPastTime"),
    ("2-*", "union intersection"),
    ("3", "replace addProperty setProperty if"),
    ("3-4", "addToTime subtractFromTime"),
] for name in names.split()}


def low(text):
    return "".join(chr(ord(c) + 32) if "A" <= c <= "Z" else c for c in text)


def is_whole(value):
    return isinstance(value, int) and not isinstance(value, bool)


def within(value, least, most):
    return is_whole(value) and least <= value <= most


def is_duration(value):
    return isinstance(value, str) and value.isascii() and DURATION.fullmatch(value) is not None


def type_of(member):
    return low(member["type"]) if isinstance(member.get("type"), str) else None


# What stands at a path of members, or the whole of `absent` where a step isn't there.
def at(value, *names, absent=None):
    for name in names:
        if not isinstance(value, dict) or name not in value:
            return absent
        value = value[name]
    return value


def has(value, *names):
    return at(value, *names, absent=DURATION) is not DURATION


# ---- the graphs of a definition, as far as they are of their form

# The branches of an action that its type has: the path to what holds an `actions` object, and what stands there.
def branches(action):
    kind = type_of(action)
    if kind in HOLDING_ONE:
        yield (), action
    if kind == "if" and "else" in action:
        yield ("else",), action["else"]
    if kind == "switch":
        cases = action.get("cases", {})
        for name in cases if isinstance(cases, dict) else ():
            yield ("cases", name), cases[name]
        if "default" in action:
            yield ("default",), action["default"]


# Every graph: its path, its members, and the level of its actions. Of what is no object nothing is looked at.
def graphs(holder, path=(), level=1):
    if not isinstance(holder, dict) or not isinstance(holder.get("actions"), dict):
        return
    path += ("actions",)
    yield path, holder["actions"], level
    for name, action in holder["actions"].items():
        for more, branch in branches(action) if isinstance(action, dict) else ():
            yield from graphs(branch, path + (name,) + more, level + 1)


def actions(definition):
    for path, members, level in graphs(definition):
        for name, action in members.items():
            yield path + (name,), action, level


def members(definition, section):
    for name, member in definition.get(section, {}).items():
        yield (section, name), member


# ---- the rules

def is_after(value):
    return isinstance(value, dict) and all(isinstance(listed, list) and all(isinstance(status, str) for status in listed)
                                           for listed in value.values())


def form(definition):
    if not isinstance(definition, dict):
        yield ()
        return
    if not isinstance(definition.get("contentVersion", ""), str):
        yield ("contentVersion",)
    for section in ("parameters", "triggers", "outputs"):
        if not isinstance(definition.get(section, {}), dict):
            yield (section,)
            continue
        for path, member in members(definition, section):
            if not isinstance(member, dict):
                yield path
            elif section == "parameters" and not isinstance(member.get("allowedValues", []), list):
                yield path + ("allowedValues",)
    if not isinstance(definition.get("actions", {}), dict):
        yield ("actions",)
    for path, action, _ in actions(definition):
        if not isinstance(action, dict):
            yield path
            continue
        for name in ("trackedProperties", "runtimeConfiguration"):
            if not isinstance(action.get(name, {}), dict):
                yield path + (name,)
        if not is_after(action.get("runAfter", {})):
            yield path + ("runAfter",)
        if type_of(action) == "switch" and not isinstance(action.get("cases", {}), dict):
            yield path + ("cases",)
        for more, branch in branches(action):
            if not isinstance(branch, dict):
                yield path + more
            elif not isinstance(branch.get("actions", {}), dict):
                yield path + more + ("actions",)


def schema(definition):
    if definition.get("$schema", SCHEMA) not in (SCHEMA, SCHEMA[:-1]):
        yield ("$schema",)


# How many variables an action makes.
def made(action):
    listed = at(action.get("inputs"), "variables")
    return len(listed) if type_of(action) == "initializevariable" and isinstance(listed, list) else 0


def limits(definition):
    found = list(actions(definition))
    if len(found) > 500 or sum(made(action) for _, action, _ in found) > 250:
        yield ("actions",)
    for section, most in (("parameters", 50), ("triggers", 10), ("outputs", 10)):
        if len(definition.get(section, {})) > most:
            yield (section,)
    for path, action, level in found:
        if level > 8:
            yield path
        if type_of(action) == "switch" and len(action.get("cases", {})) > 25:
            yield path + ("cases",)


def is_name(name):
    return 1 <= len(name) <= 80 and not re.search("[\x00-\x1f\x7f]", name)


def names(definition):
    found = [path for path, _, _ in actions(definition)]
    bearers = {}
    for path in found:
        bearers[path[-1]] = bearers.get(path[-1], 0) + 1
    yield from (path for path in found if not is_name(path[-1]) or bearers[path[-1]] > 1)
    for section in ("parameters", "triggers", "outputs"):
        yield from (path for path, _ in members(definition, section) if not is_name(path[-1]))
    for path, action, _ in actions(definition):
        if type_of(action) == "switch":
            yield from (path + ("cases", name) for name in action.get("cases", {}) if not is_name(name))


def types(definition):
    yield from (path for path, action, _ in actions(definition) if type_of(action) not in LEAVES + HOLDING_ONE + ["switch"])
    yield from (path for path, trigger in members(definition, "triggers") if type_of(trigger) in (None, "batch"))
    yield from (path for path, parameter in members(definition, "parameters") if type_of(parameter) not in PARAMETER_TYPES)


def is_condition(value):
    if isinstance(value, str):
        return True
    if not isinstance(value, dict) or len(value) != 1:
        return False
    (name, parts), = value.items()
    if name == "not":
        return is_condition(parts)
    if name in ("and", "or"):
        return isinstance(parts, list) and all(map(is_condition, parts))
    return name in COMPARISONS and isinstance(parts, list) and len(parts) == 2


def is_policy(value):
    kind = low(value["type"]) if isinstance(value, dict) and isinstance(value.get("type"), str) else None
    if kind in ("default", "none"):
        return True
    if kind not in ("fixed", "exponential") or not within(value.get("count"), 1, 90) or not is_duration(value.get("interval")):
        return False
    return all(is_duration(value[name]) for name in ("minimumInterval", "maximumInterval") if name in value)


def is_variable(value):
    return isinstance(at(value, "name"), str) and isinstance(at(value, "type"), str) and low(value["type"]) in VARIABLE_TYPES


def is_schema(value):
    if not isinstance(value, dict):
        return False
    types = value["type"] if isinstance(value.get("type"), list) else [value.get("type", "null")]
    properties, required, items = (value.get(name, absent) for name, absent in (("properties", {}), ("required", []), ("items", [])))
    return (types != [] and all(isinstance(name, str) and name in SCHEMA_TYPES for name in types)
            and isinstance(value.get("enum", []), list)
            and isinstance(properties, dict) and all(map(is_schema, properties.values()))
            and isinstance(required, list) and all(isinstance(name, str) for name in required)
            and (isinstance(items, list) or is_schema(items)))


def are_cases(cases):
    values = [at(case, "case") for case in cases.values()]
    told = [(isinstance(value, str), value) for value in values if isinstance(value, str) or is_whole(value)]
    return len(told) == len(values) == len(set(told))


# Whether an action has the members of its type.
def is_whole_action(action):
    kind, inputs = type_of(action), action.get("inputs")
    if not isinstance(action.get("operationOptions", ""), str):
        return False
    if kind in CONNECTORS:
        return isinstance(inputs, dict) and is_policy(inputs.get("retryPolicy", {"type": "none"}))
    if kind in ("wait", "response", "terminate"):
        needed = {"response": "statusCode", "terminate": "runStatus"}.get(kind)
        return isinstance(inputs, dict) and (needed is None or needed in inputs)
    if kind == "initializevariable":
        listed = at(inputs, "variables")
        return isinstance(listed, list) and 1 <= len(listed) <= 20 and all(map(is_variable, listed))
    if kind.endswith("variable"):
        return isinstance(at(inputs, "name"), str) and (kind in ("incrementvariable", "decrementvariable") or has(inputs, "value"))
    if kind in ASKED:
        whole = all(has(inputs, name) for name in ASKED[kind])
        if kind == "query":
            return whole and isinstance(inputs["where"], str)
        return whole and (kind != "parsejson" or is_schema(inputs.get("schema", {})))
    if kind == "if":
        return is_condition(action.get("expression"))
    if kind == "switch":
        return isinstance(action.get("expression"), str) and "cases" in action and are_cases(action["cases"])
    if kind == "foreach":
        turns = at(action, "runtimeConfiguration", "concurrency", "repetitions", absent=1)
        return isinstance(action.get("foreach"), (str, list)) and within(turns, 1, 50)
    if kind == "until":
        count, timeout = at(action, "limit", "count", absent=1), at(action, "limit", "timeout", absent="PT1S")
        return is_condition(action.get("expression")) and within(count, 1, 5000) and is_duration(timeout)
    return {"compose": "inputs", "scope": "actions"}[kind] in action


def is_whole_trigger(trigger):
    conditions = trigger.get("conditions", [])
    return (isinstance(trigger.get("splitOn", ""), str) and isinstance(conditions, list)
            and all(isinstance(at(condition, "expression"), str) for condition in conditions))


def lacking(definition):
    yield from (path for path, action, _ in actions(definition) if not is_whole_action(action))
    yield from (path for path, trigger in members(definition, "triggers") if not is_whole_trigger(trigger))
    yield from (path for path, output in members(definition, "outputs") if "value" not in output)


# The texts of a value, with their paths.
def texts(value, path):
    if isinstance(value, str):
        yield path, value
    parts = value.items() if isinstance(value, dict) else enumerate(value) if isinstance(value, list) else ()
    for name, part in parts:
        yield from texts(part, path + (name,))


def templates_of(action, path):
    kind, inputs = type_of(action), action.get("inputs")
    if kind in CONNECTORS:
        yield from texts({name: part for name, part in inputs.items() if name != "retryPolicy"}, path + ("inputs",))
    elif kind in ("compose", "wait", "response", "terminate"):
        yield from texts(inputs, path + ("inputs",))
    elif kind == "initializevariable":
        for place, variable in enumerate(inputs["variables"]):
            yield from texts(variable.get("value"), path + ("inputs", "variables", place, "value"))
    for name in ASKED.get(kind, ()):
        yield from texts(inputs.get(name), path + ("inputs", name))
    for name, kinds in (("expression", ("if", "switch", "until")), ("foreach", ("foreach",))):
        if kind in kinds:
            yield from texts(action[name], path + (name,))
    yield from texts(action.get("trackedProperties", {}), path + ("trackedProperties",))


def all_templates(definition):
    for path, action, _ in actions(definition):
        yield from templates_of(action, path)
    for path, output in members(definition, "outputs"):
        yield from texts(output["value"], path + ("value",))
    for path, trigger in members(definition, "triggers"):
        yield from texts(trigger.get("splitOn"), path + ("splitOn",))
        for place, condition in enumerate(trigger.get("conditions", [])):
            yield path + ("conditions", place, "expression"), condition["expression"]


def is_call(name, parts):
    counts = FUNCTIONS.get(low(name))
    if counts is None:
        return False
    least, _, most = counts.partition("-")
    if len(parts) < int(least) or most != "*" and len(parts) > int(most or least):
        return False
    return low(name) not in NAMING or parts[0][0] == "lit" and isinstance(parts[0][1], str)


# The calls of a text, or None where it is no template.
def calls_of(text):
    try:
        return [(name, parts) for made in templates.expressions(text) for _, name, parts in templates.calls(made)]
    except templates.Refused:
        return None


def expressions(definition):
    for path, text in all_templates(definition):
        found = calls_of(text)
        if found is None or not all(is_call(name, parts) for name, parts in found):
            yield path


# All that each action waits for, at however many removes.
def ancestors(graph):
    above = {name: {other for other in action.get("runAfter", {}) if other in graph} for name, action in graph.items()}
    for middle in graph:
        for name in graph:
            if middle in above[name]:
                above[name] = above[name] | above[middle]
    return above


def run_after(definition):
    for path, graph, _ in graphs(definition):
        above = ancestors(graph)
        for name, action in graph.items():
            after = action.get("runAfter", {})
            fine = all(other in graph and all(low(status) in STATUSES for status in listed) for other, listed in after.items())
            if not fine or name in above[name]:
                yield path + (name,)


RULES = [form, schema, limits, names, types, lacking, expressions, run_after]


def pointer(path):
    return "".join("/" + str(step).replace("~", "~0").replace("/", "~1") for step in path)


# The least place by its bytes as it is printed, or None where there is none.
def least(paths):
    found = min((pointer(path).encode() for path in paths), default=None)
    return None if found is None else json.dumps(found.decode(), ensure_ascii=False)


# The definition that a file's value holds.
def definition_in(value):
    return value["definition"] if isinstance(value, dict) and "definition" in value else value


# What the file gives for the definition's parameters, by their names.
def given_in(value):
    outer = value.get("parameters") if value is not definition_in(value) else None
    outer = outer if isinstance(outer, dict) else {}
    return {name: held["value"] for name, held in outer.items() if has(held, "value")}


# The words of the fault for which a file's value is refused, or None where it is taken.
def refusal(value):
    definition = definition_in(value)
    for number, rule in enumerate(RULES, 1):
        place = least(rule(definition))
        if place is not None:
            return "V%d %s" % (number, place)
    for number, places in references.broken(definition, given_in(value)):
        place = least(places)
        if place is not None:
            return "V%d %s" % (number, place)
    return None


# Whether all actions of a definition are of type Compose, without tracked properties: of such ones runs.py knows what a run writes.
def is_plain(definition):
    return all(type_of(action) == "compose" and not action.get("trackedProperties") for _, action, _ in actions(definition))
