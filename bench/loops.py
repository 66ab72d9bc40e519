"""Sections on runs with many instances: loops, all kinds of actions, data actions on many items, and instructions a step."""
import json
import os
import re
import shutil
import subprocess
import sys

import measure
from measure import file, handed, head, jq, least, line, mib, output, path, ratio, said

BEGIN = {"type": "InitializeVariable", "inputs": {"variables": [
    {"name": "n", "type": "integer", "value": 0}, {"name": "l", "type": "array", "value": []}]}}
BEHIND_BEGIN = {"runAfter": {"Begin": ["Succeeded"]}}
SEQUENTIAL = {"operationOptions": "Sequential"}
CALL = {"type": "Http", "inputs": {"method": "GET", "uri": "https://contoso.com/@{item()}"}}


def each(count, actions, **more):
    return {"type": "Foreach", "foreach": "@range(0,%d)" % count, "actions": actions} | more


# ---- loops

def side_by_side(count):
    return {"actions": {"Each": each(count, {"Item": {"type": "Compose", "inputs": "@item()"}})}}


def handed_in(_):
    made = {"Each": {"type": "Foreach", "foreach": "@triggerBody()", "actions": {"Item": {"type": "Compose", "inputs": "@item()"}}}}
    return {"triggers": {"Asked": {"type": "Request"}}, "actions": made}


def named(value):
    """A Foreach over what the trigger put out, in which an expression names a value as large as that."""
    def made(count):
        each_item = {"type": "Foreach", "foreach": "@triggerBody()?['items']", "actions": {"Item": {"type": "Compose", "inputs": value}},
                     "runAfter": {"C": ["Succeeded"]}}
        return {"parameters": {"p": {"type": "array"}}, "triggers": {"Asked": {"type": "Request"}}, "actions": {
            "C": {"type": "Compose", "inputs": "@range(0,%d)" % count}, "Each": each_item}}
    return made


def in_one_another(count):
    return {"actions": {"Each": each(count, {"Inner": each(count, {"Item": {"type": "Compose", "inputs": "@item()"}})})}}


def counting(count):
    more = {"Each": each(count, {"More": {"type": "IncrementVariable", "inputs": {"name": "n"}}}, **SEQUENTIAL, **BEHIND_BEGIN)}
    return {"actions": {"Begin": BEGIN} | more}


def appending(count):
    add = {"Add": {"type": "AppendToArrayVariable", "inputs": {"name": "l", "value": "@item()"}}}
    return {"actions": {"Begin": BEGIN, "Each": each(count, add, **SEQUENTIAL, **BEHIND_BEGIN)}}


def calling(count):
    return {"actions": {"Each": each(count, {"Call": CALL})}}


def repeating(count):
    more = {"More": {"type": "IncrementVariable", "inputs": {"name": "n"}}}
    until = {"type": "Until", "expression": "@equals(variables('n'),%d)" % count, "limit": {"count": count}, "actions": more} | BEHIND_BEGIN
    return {"actions": {"Begin": BEGIN, "Until": until}}


def nothing_handed(_):
    return handed()


def items(count):
    return handed(outputs={"body": list(range(count))})


def rows(count):
    made = [{"id": k, "name": "n%d" % k} for k in range(count)]
    return handed(outputs={"body": {"name": "n", "items": made}}, parameters={"p": made})


def answers(count):
    return handed(answers=[{"action": "Call", "at": [k], "status": 200, "body": {"id": k}} for k in range(count)])


LOOPS = [
    ("a Foreach", side_by_side, nothing_handed, (10000, 100000), "loop"),
    ("a Foreach over what its trigger put out", handed_in, items, (10000, 100000), "jq"),
    ("one that names its trigger's body", named("@triggerBody()?['name']"), rows, (5000, 50000), "jq"),
    ("one that names a parameter", named("@parameters('p')[0]"), rows, (5000, 50000), "jq"),
    ("one that names outputs", named("@outputs('C')[0]"), rows, (5000, 50000), "jq"),
    ("two in one another, N by N", in_one_another, nothing_handed, (95, 300), "nested"),
    ("a sequential one, counting", counting, nothing_handed, (10000, 100000), None),
    ("a sequential one, appending", appending, nothing_handed, (1000, 10000), "appends"),
    ("a Foreach with a connector", calling, answers, (10000, 100000), "jq"),
    ("an Until, counting", repeating, nothing_handed, (500, 5000), None),
]


def beside(other, count, run):
    """The time of what a loop is told beside: a plain loop in Python that makes the same record, or jq on the inputs."""
    if other == "jq":
        return jq(run[3])
    if other is None:
        return None
    made = output(run)
    record = made.splitlines()[0]
    words = [sys.executable, os.path.join(measure.TOP, "bench", "plain.py"), other, str(count), json.loads(record)["definition"]]
    assert output(words) == record + "\n", other
    return least(words)


def loops(wflow):
    """`run` of loops with few and with many iterations, and how their time and their records' bytes grow; beside a plain loop in Python
    that makes the same record, or `jq -c .` on the inputs."""
    head("loop", "N", "wflow s", "growth", "bytes", "grow by", "memory", "beside s", "ratio", "said")
    for name, made, inputs, counts, other in LOOPS:
        before = None
        for count in counts:
            run = [wflow, "run", file("definition.json", made(count)), file("inputs.json", inputs(count))]
            text = output(run)
            ours, size, theirs = least(run), len(text), beside(other, count, run)
            growths = ("-", "-") if before is None else (ratio(ours, before[0]), ratio(size, before[1]))
            line(name, count, ours, growths[0], size, growths[1], mib(run), "-" if theirs is None else theirs,
                 "-" if theirs is None else ratio(ours, theirs), text.splitlines()[-1][2:])
            before = ours, size


# ---- all kinds

CONNECTORS = ("Http", "ApiConnection", "ApiConnectionWebhook", "HttpWebhook", "Function", "Workflow", "ApiManagement", "ServiceProvider")
LISTED = "@createArray(1,2,3)"
SCHEMA = {"type": "object", "properties": {"a": {"type": "array", "items": {"type": "integer"}}}, "required": ["a"]}
CHANGES = [
    {"type": "SetVariable", "inputs": {"name": "o", "value": {"n": "@variables('n')"}}},
    {"type": "IncrementVariable", "inputs": {"name": "n", "value": 2}}, {"type": "DecrementVariable", "inputs": {"name": "n"}},
    {"type": "AppendToArrayVariable", "inputs": {"name": "l", "value": "@variables('n')"}},
    {"type": "AppendToStringVariable", "inputs": {"name": "s", "value": "@{variables('n')},"}},
]
DATA = [
    {"type": "Compose", "inputs": {"n": "@add(variables('n'),1)", "at": "@utcNow('HH:mm')"}},
    {"type": "Select", "inputs": {"from": LISTED, "select": {"twice": "@mul(item(),2)"}}},
    {"type": "Query", "inputs": {"from": LISTED, "where": "@greater(item(),1)"}},
    {"type": "Join", "inputs": {"from": LISTED, "joinWith": ", "}},
    {"type": "ParseJson", "inputs": {"content": "@json('{\"a\":[1,2]}')", "schema": SCHEMA}},
    {"type": "Wait", "inputs": {"interval": {"count": 1, "unit": "Minute"}}},
]
TRACKED = {"trackedProperties": {"code": "@action().code"}}
CALLS = [{"type": kind, "inputs": {"path": "/rows/@{variables('n')}"}} | TRACKED for kind in CONNECTORS]


def note(name, value):
    return {name: {"type": "Compose", "inputs": value}}


def holders(name):
    """Containers, each with the actions that it holds."""
    return [
        ({"type": "If", "expression": {"greater": ["@variables('n')", 3]}, "actions": note(name + "_yes", 1),
          "else": {"actions": note(name + "_no", 2)}}, 2),
        ({"type": "Switch", "expression": "@mod(variables('n'),3)", "cases": {"One": {"case": 1, "actions": note(name + "_one", 1)}},
          "default": {"actions": note(name + "_other", 2)}}, 2),
        ({"type": "Foreach", "foreach": LISTED, "actions": note(name + "_item", "@mul(item(),2)")}, 1),
        ({"type": "Until", "expression": "@greater(iterationIndexes('%s'),0)" % name,
          "actions": note(name + "_turn", "@variables('n')")}, 1),
    ]


def level(number, count, below):
    """A graph of so many actions of all kinds, one after the other, whose last holds those below."""
    made, left, last = {}, count - (below is not None), None
    while left > 0:
        name = "L%dA%02d" % (number, len(made))
        choices = [(action, 0) for action in DATA + CHANGES + CALLS] + (holders(name) if below is not None else [])
        action, holds = choices[(number * 7 + len(made)) % len(choices)]
        action, holds = (action, holds) if holds < left else (DATA[0], 0)
        made[name] = action | ({"runAfter": {last: ["Succeeded"]}} if last else {})
        last, left = name, left - holds - 1
    if below is not None:
        made["L%d" % number] = {"type": "Scope", "actions": below, "runAfter": {last: ["Succeeded"]}}
    return made


def all_kinds():
    """500 actions of all kinds in 8 levels."""
    below = None
    for number in range(8, 0, -1):
        below = level(number, 62 if number > 1 else 63, below)
    variables = [("n", "integer", 0), ("s", "string", ""), ("l", "array", []), ("o", "object", {})]
    below["Begin"] = {"type": "InitializeVariable", "inputs": {"variables": [
        {"name": name, "type": kind, "value": value} for name, kind, value in variables]}}
    below["L1A00"]["runAfter"] = {"Begin": ["Succeeded"]}
    below["Reply"] = {"type": "Response", "inputs": {"statusCode": 200, "body": "@variables('n')"}, "runAfter": {"L1": ["Succeeded"]}}
    below["Stop"] = {"type": "Terminate", "inputs": {"runStatus": "Succeeded"}, "runAfter": {"Reply": ["Succeeded"]}}
    return {"actions": below}


def called(actions):
    """The names of the connectors of a graph."""
    for name, action in actions.items():
        if action["type"] in CONNECTORS:
            yield name
        yield from called(action.get("actions", {}))


def kinds(wflow):
    """`run` and `check` of 500 actions of all kinds in 8 levels, with variables, connectors and retries, beside `jq -c .` on the
    definition."""
    whole = all_kinds()
    given = [{"action": name, "attempt": attempt, "status": status, "body": {"rows": [1, 2]}}
             for k, name in enumerate(called(whole["actions"]))
             for attempt, status in enumerate([503, 200] if k % 3 == 0 else [200], 1)]
    definition, inputs = file("definition.json", whole), file("inputs.json", handed(answers=given))
    head("500 actions of all kinds, 8 levels", "bytes", "wflow s", "jq s", "ratio", "memory", "said")
    for words in ([wflow, "check", definition], [wflow, "run", definition, inputs]):
        ours, theirs = least(words), jq(definition)
        line(words[1], os.path.getsize(definition), ours, theirs, ratio(ours, theirs), mib(words), said(words))


# ---- data

def data_cases(count):
    listed = [{"id": k} for k in range(count)]
    numbers = list(range(count))
    spelt = json.dumps([{"id": k, "open": k % 2 == 0} for k in range(count * 2 // 5)], separators=(",", ":"))
    form = {"type": "array", "items": {
        "type": "object", "properties": {"id": {"type": "integer"}, "open": {"type": "boolean"}}, "required": ["id", "open"]}}
    is_of_form = "fromjson | if all(.[]; (.id | type) == \"number\" and (.open | type) == \"boolean\") then . else error(\"form\") end"
    return [
        ("Select", listed, {"from": "@parameters('p')", "select": {"n": "@mul(item().id,2)"}}, "map({n: (.id * 2)})"),
        ("Query", listed, {"from": "@parameters('p')", "where": "@equals(mod(item().id,2),0)"}, "map(select(.id % 2 == 0))"),
        ("Join", numbers, {"from": "@parameters('p')", "joinWith": ", "}, "map(tostring) | join(\", \")"),
        ("ParseJson", spelt, {"content": "@parameters('p')", "schema": form}, is_of_form),
    ]


def data_times(wflow, kind, given, inputs, query):
    """The times of a run with one action on a parameter, and of jq on a file of that parameter, where both make the same."""
    sort = "string" if kind == "ParseJson" else "array"
    definition = {"parameters": {"p": {"type": sort}}, "actions": {"A": {"type": kind, "inputs": inputs}}}
    run = [wflow, "run", file("definition.json", definition), file("given.json", handed(parameters={"p": given}))]
    other = ["jq", "-c", query, file("given-alone.json", given)]
    assert '"outputs":{"body":%s}' % output(other).strip() in output(run), kind
    return least(run), least(other), mib(run)


def data(wflow):
    """`run` of one Select, Query, Join or ParseJson (of nearly 1 MiB, with a schema) on 100,000 items, beside jq doing the same. The run
    writes its inputs too, jq what it makes alone. The growth is from a tenth of the items on."""
    head("data action", "items", "wflow s", "jq s", "ratio", "growth", "of jq", "memory")
    for few, many in zip(data_cases(10**4), data_cases(10**5)):
        less, little, _ = data_times(wflow, *few)
        ours, theirs, most = data_times(wflow, *many)
        items = 4 * 10**4 if many[0] == "ParseJson" else 10**5
        line(many[0], items, ours, theirs, ratio(ours, theirs), ratio(ours, less), ratio(theirs, little), most)


# ---- steps

def instructions(words):
    """How many instructions a call executes, by callgrind."""
    done = subprocess.run(["valgrind", "--tool=callgrind", "--callgrind-out-file=" + path("callgrind")] + words, stdout=subprocess.PIPE,
                          stderr=subprocess.PIPE, text=True)
    return int(re.search(r"Collected : (\d+)", done.stderr).group(1)), int(re.search(r" steps (\d+) ", done.stdout).group(1))


def steps(wflow):
    """Instructions a step, by callgrind, of runs with 500 to 100,000 rows, without those of a run with none: of a Foreach whose iterations
    go side by side, and of one whose iterations count one after the other."""
    if not shutil.which("valgrind"):
        print("bench: valgrind is missing, so no instructions are counted")
        return
    head("instructions", "rows", "millions", "steps", "a step", "growth")
    for name, made in (("a Foreach", side_by_side), ("a sequential one, counting", counting)):
        none, first = None, None
        for count in (0, 500, 5000, 100000):
            run = [wflow, "run", file("definition.json", made(count)), file("inputs.json", handed())]
            took, turns = instructions(run)
            if none is None:
                none = took, turns
                continue
            one = (took - none[0]) / (turns - none[1])
            first = first or one
            line(name, count, round(took / 10**6), turns, round(one), ratio(one, first))
