"""Sections on whole calls: definitions that run or are refused, `check`, large inputs, traces, histories and resubmissions."""
import json
import os

import measure
from measure import file, handed, head, jq, least, line, mib, path, ratio, said

NAMES = ["A%03d" % k for k in range(500)]
ROWS = [{"id": k, "name": "order %d" % k, "tags": ["a", "b"], "open": k % 2 == 0} for k in range(14000)]
ONE = {"actions": {"A": {"type": "Compose", "inputs": 1}}}
SPLIT = {"triggers": {"t": {"type": "Request", "splitOn": "@triggerBody()"}}}


def graph(after):
    return {"actions": {name: {"type": "Compose", "inputs": k, "runAfter": {other: ["Succeeded"] for other in after(k)}}
                        for k, name in enumerate(NAMES)}}


# ---- definitions

TEN_FUNCTIONS = "@concat(toUpper(first(split('b,a',','))),string(sort(createArray(3,1,2)))," \
    "formatDateTime(addDays(utcNow(),%d),'D'),guid())"


def running():
    return [
        ("500 actions, each after the last", graph(lambda k: NAMES[k - 1:k])),
        ("500 actions, each after the next", graph(lambda k: NAMES[k + 1:k + 2])),
        ("500 actions, each after all before", graph(lambda k: NAMES[:k])),
        ("500 actions, each after all behind", graph(lambda k: NAMES[k + 1:])),
        ("500 actions, ten functions in each", {"actions": {name: {"type": "Compose", "inputs": TEN_FUNCTIONS % k}
                                                            for k, name in enumerate(NAMES)}}),
        ("one action, a value of 0.9 MiB", {"actions": {"A": {"type": "Compose", "inputs": ROWS}}}),
        ("4 MiB that isn't looked at", {"metadata": [ROWS] * 4, "actions": {"A": {"type": "Compose", "inputs": 1}}}),
    ]


KINDS = [
    {"type": "Http", "inputs": {"uri": "@{body('A')}/x", "retryPolicy": {"type": "fixed", "count": 9, "interval": "PT1S"}}},
    {"type": "Select", "inputs": {"from": "@body('A')", "select": {"id": "@item()?['id']"}}},
    {"type": "Query", "inputs": {"from": "@body('A')", "where": "@equals(item()?['open'],true)"}},
    {"type": "If", "expression": {"and": [{"equals": ["@body('A')", 200]}, {"not": "@false"}]}, "else": {"actions": {}}},
    {"type": "Switch", "expression": "@body('A')", "cases": {"c%d" % k: {"case": k} for k in range(25)}},
    {"type": "Foreach", "foreach": "@body('A')", "operationOptions": "Sequential"},
    {"type": "Until", "expression": "@true", "limit": {"count": 9, "timeout": "PT1H"}},
    {"type": "Compose", "inputs": ROWS[:850], "trackedProperties": {"id": "@action().code"}},
]


def scopes():
    """400 Scopes in 8 levels."""
    nested = {"D": {"type": "Compose", "inputs": 1}}
    for level in range(7):
        width = 71 if level else 1
        nested = {"L%d%03d" % (level, k): {"type": "Scope", "actions": nested if k == 0 else {}} for k in range(width)}
    return nested


# What is said of these is told too, so that one that is refused early can't be taken for a fast one.
def refused():
    return [
        ("500 actions of all kinds, 4 MiB", {"actions": {name: KINDS[k % 8] for k, name in enumerate(NAMES)}}),
        ("400 actions in 8 levels", {"actions": scopes()}),
        ("500 on one cycle", graph(lambda k: [NAMES[k - 1]])),
        ("500, each after all others", {"actions": {
            name: {"type": "Compose", "inputs": 1, "runAfter": {other: [] for other in NAMES if other != name}} for name in NAMES}}),
        ("the name of one in each graph", {"actions": {name: {"type": "Scope", "actions": {"A": KINDS[0]}} for name in NAMES[:250]}}),
        ("expressions, 4 MiB", {"actions": {"A": {"type": "Compose", "inputs": ["@add(1,mul(2,3))"] * 200000 + ["@add(1)"]}}}),
        ("one condition, 4 MiB", {"actions": {"A": {"type": "If", "expression": {"and": [{"equals": ["@1", 1]}] * 180000}}}}),
        ("statuses, 4 MiB", {"actions": {"A": {"type": "Compose", "inputs": 1, "runAfter": {"A": ["Succeeded"] * 300000}}}}),
        ("270,000 actions", {"actions": {"A%06d" % k: {} for k in range(270000)}}),
        ("no forms below a name of 1 MiB", {"actions": {
            "n" * 2**20: {"type": "Scope", "actions": {"A%06d" % k: 1 for k in range(200000)}}}}),
    ]


def definitions(wflow):
    """`run` beside `jq -c .` on the same definition."""
    inputs = file("inputs.json", handed())
    head("definition", "bytes", "wflow s", "jq s", "ratio", "memory", "said")
    for name, definition in running() + refused():
        run = [wflow, "run", file("definition.json", definition), inputs]
        ours, theirs = least(run, ends=(0, 1)), jq(run[2])
        line(name, os.path.getsize(run[2]), ours, theirs, ratio(ours, theirs), mib(run), "%.40s" % said(run))


# ---- checks

def naming(names):
    return "@concat(%s)" % ",".join("string(outputs('%s'))" % name for name in names) if names else 1


def chain(count, named):
    """Each action names all before it, as far as an expression's 8,192 characters reach: the nearest 300 or so in each text."""
    texts = [[naming(NAMES[max(k - named, at):min(at + 300, k)]) for at in range(max(k - named, 0) // 300 * 300, k, 300)]
             for k in range(count)]
    return {"actions": {name: {"type": "Compose", "inputs": texts[k], "runAfter": {other: ["Succeeded"] for other in NAMES[k - 1:k]}}
                        for k, name in enumerate(NAMES[:count])}}


def levels(count):
    """Eight levels, an eighth of the actions in each, whose last holds the next level; each names the last actions of all levels above."""
    made, held = {}, None
    for level in range(8, 0, -1):
        mine = ["L%dA%03d" % (level, k) for k in range(count // 8)]
        above = ["L%dA%03d" % (other, count // 8 - 2) for other in range(1, level)]
        made = {name: {"type": "Compose", "inputs": naming(above), "runAfter": {other: ["Succeeded"] for other in mine[k - 1:k]}}
                for k, name in enumerate(mine)}
        if held is not None:
            made[mine[-1]].update({"type": "Scope", "actions": held})
        held = made
    return {"actions": made}


def writers(count):
    """Variables, half as many as actions and made 20 at a time; and behind them actions in eight levels, each after the last, that write
    one of them and read ten."""
    variables = ["v%03d" % k for k in range(count // 2)]
    makers = {"V%02d" % k: {
        "type": "InitializeVariable", "inputs": {"variables": [{"name": name, "type": "string"} for name in variables[20 * k:20 * k + 20]]},
        "runAfter": {"V%02d" % (k - 1): ["Succeeded"]} if k else {}} for k in range((len(variables) + 19) // 20)}
    width, held = (count - len(makers)) // 8, None
    for level in range(8, 0, -1):
        mine, made = ["L%dA%03d" % (level, k) for k in range(width)], {}
        for k, name in enumerate(mine):
            read = ",".join("variables('%s')" % variables[(width * level + k + 17 * j) % len(variables)] for j in range(10))
            value = {"name": variables[(width * level + k) % len(variables)], "value": "@concat(%s)" % read}
            made[name] = {"type": "SetVariable", "inputs": value, "runAfter": {other: ["Succeeded"] for other in mine[k - 1:k]}}
        if held is not None:
            made[mine[-1]].update({"type": "Scope", "actions": held})
        held = made
    held["L1A000"]["runAfter"] = {list(makers)[-1]: ["Succeeded"]}
    return {"actions": makers | held}


def much_named(count):
    return {"actions": {name: {
        "type": "Compose", "inputs": [naming(NAMES[:min(k, 300)])], "runAfter": {other: ["Succeeded"] for other in NAMES[:k][-170:]}}
        for k, name in enumerate(NAMES[:count])}}


def loops_with_items(count):
    return {"actions": {"L%03d" % k: {"type": "Foreach", "foreach": "@range(0,9)", "actions": {
        "C%03d" % k: {"type": "Compose", "inputs": "@concat(items('L%03d'),item())" % k}}} for k in range(count // 2)}}


CHECKS = [
    ("actions in a chain", lambda count: chain(count, 1)),
    ("each naming all before it", lambda count: chain(count, count)),
    ("in 8 levels, naming those above", levels),
    ("writing one of 250, reading ten", writers),
    ("4 MiB of names", much_named),
    ("loops, each with items named", loops_with_items),
]


def checks(wflow):
    """`check` beside `jq -c .`, on definitions whose expressions name much, and on one of 4 MiB. The growth is from a half of them."""
    head("checked: 500 actions", "bytes", "wflow s", "jq s", "ratio", "growth", "memory", "said")
    for name, made in CHECKS:
        check, half = ([wflow, "check", file("definition-%d.json" % count, made(count))] for count in (500, 250))
        ours, theirs = least(check), jq(check[2])
        growth = ratio(ours, least(half))
        line(name, os.path.getsize(check[2]), ours, theirs, ratio(ours, theirs), growth, mib(check), said(check))


# ---- inputs

def answers(count, body):
    return [{"action": "A%d" % (k % 100), "at": [k // 100], "status": 200, "body": body} for k in range(count)]


def large_inputs():
    return [
        ("64 MiB that isn't looked at", ONE, handed(x=[ROWS] * 67)),
        ("64 parameters of 0.9 MiB", ONE, handed(parameters={"p%d" % k: "x" * 960000 for k in range(69)})),
        ("64 MiB of answers", ONE, handed(answers=answers(190000, ROWS[0] | {"text": "x" * 200}))),
        ("100,000 answers", ONE, handed(answers=answers(100000, None))),
        ("a split of 10,000 items", SPLIT | ONE, handed(outputs={"body": list(range(10000))})),
        ("a split of 100,000 items", SPLIT | ONE, handed(outputs={"body": list(range(100000))})),
        ("a split of 100,000, no action", SPLIT, handed(outputs={"body": list(range(100000))})),
        ("a split of 100,000, too large", SPLIT | graph(lambda k: []), handed(outputs={"body": list(range(100000))})),
    ]


def inputs(wflow):
    """`run` on inputs near their 64 MiB, beside `jq -c .` on the same; 100,000 answers; and splits, of which all runs are written."""
    head("inputs", "bytes", "wflow s", "jq s", "ratio", "memory", "said")
    for name, definition, given in large_inputs():
        run = [wflow, "run", file("definition.json", definition), file("large.json", given)]
        ours, theirs = least(run, ends=(0, 8)), jq(run[3])
        line(name, os.path.getsize(run[3]), ours, theirs, ratio(ours, theirs), mib(run), "%.40s" % said(run))


# ---- traces

SHAPES = [
    ("500 actions in a chain", graph(lambda k: NAMES[k - 1:k]), 500),
    ("500 actions side by side", graph(lambda k: []), 500),
    ("500 actions in layers of ten", graph(lambda k: NAMES[max(k - k % 10 - 10, 0):k - k % 10]), 500),
    ("500 actions, each after all before", graph(lambda k: NAMES[:k]), 500),
    ("a split of 100,000 items", SPLIT | ONE, 100000),
]


def traces(wflow):
    """Runs under a schedule that takes the last event at each turn, with their events, beside those under the empty one. The growth is
    from a half of the actions, or of the items."""
    schedule = path("schedule")
    with open(schedule, "w") as out:
        out.write("%d\n" % (2**32 - 1) * 1000)
    head("traced", "run s", "trace s", "growth", "memory", "said")
    for name, whole, count in SHAPES:
        half, trace = ([wflow, "trace", file("definition-%d.json" % size, whole | {"actions": dict(list(whole["actions"].items())[:size])}),
                        file("inputs-%d.json" % size, handed(outputs={"body": list(range(size))})), schedule]
                       for size in (count // 2, count))
        ours = least(trace)
        line(name, least([wflow, "run"] + trace[2:4]), ours, ratio(ours, least(half)), mib(trace), "%.40s" % said(trace))


# ---- histories

def kept(count, value):
    """A history of so many records of three rows."""
    row = {"at": [], "attempts": [200], "code": "OK", "error": None, "inputs": value, "outputs": value, "status": "Succeeded",
           "tracked": {}}
    left = {"definition": "0" * 64, "error": None, "form": 2, "outputs": {}, "parameters": {}, "response": None, "status": "Succeeded",
            "trigger": {"name": None, "outputs": None}}
    with open(path("history"), "w") as out:
        for k in range(count):
            rows = [row | {"name": name} for name in ("A", "B", "C")]
            out.write(json.dumps(left | {"rows": rows, "run": "r%d" % k}, separators=(",", ":"), sort_keys=True) + "\n")
    return path("history")


def histories(wflow):
    """`list` on histories of 64 MiB, of many small records and of fewer large ones, beside jq on the same lines."""
    head("listed", "bytes", "wflow s", "jq s", "ratio", "memory", "said")
    for name, count, value in (("100,000 records", 100000, None), ("1,000 records", 1000, [{"id": k, "open": True} for k in range(470)])):
        listed = [wflow, "list", kept(count, value)]
        ours, theirs = least(listed), jq(listed[2])
        line(name, os.path.getsize(listed[2]), ours, theirs, ratio(ours, theirs), mib(listed), said(listed))


# ---- resubmissions

def turned(count, **more):
    return {"type": "Foreach", "foreach": "@range(1,%d)" % count, "actions": {"Each": {"type": "Compose", "inputs": "@item()"}}} | more


def counting(count):
    adding = {"Each": {"type": "IncrementVariable", "inputs": {"name": "v", "value": 1}}}
    return turned(count, operationOptions="Sequential", actions=adding)


def looping(loop):
    """A definition with a loop in a Scope, an action beside it, one before and one behind."""
    made = {"type": "InitializeVariable", "inputs": {"variables": [{"name": "v", "type": "integer", "value": 0}]}}
    inner = {"Loop": loop, "Beside": {"type": "Compose", "inputs": "@utcNow()", "runAfter": {"Loop": ["Succeeded"]}}}
    return {"actions": {
        "Before": made, "Round": {"type": "Scope", "actions": inner, "runAfter": {"Before": ["Succeeded"]}},
        "After": {"type": "Compose", "inputs": "@add(variables('v'),1)", "runAfter": {"Round": ["Succeeded"]}}}}


def resubmittable(wflow, loop, count):
    """The words that name a run whose loop has so many iterations, and the call that made it."""
    run = [wflow, "run", file("looping-%d.json" % count, looping(loop(count))), file("inputs.json", handed())]
    history = path("history-%d" % count)
    with open(history, "w") as out:
        out.writelines(one + "\n" for one in measure.output(run).splitlines() if one.startswith("{"))
    return [run[2], history, "bench", file("again.json", handed(run="again")), os.devnull], run


def resubmissions(wflow):
    """`resubmit-set` of a run whose loop leaves all but a few of 100,000 rows, beside the run itself, each with what it reads and writes:
    from an action behind the loop, which keeps its rows; from one before it, which makes them anew; from one beside it in the Scope round
    it, which is closed again; and from two. The growth is from a half of the rows."""
    head("resubmitted: 100,000 rows", "bytes", "run s", "wflow s", "ratio", "growth", "memory", "said")
    for name, loop in (("a loop", turned), ("counting", counting)):
        (half, _), (whole, run) = (resubmittable(wflow, loop, count) for count in (49995, 99995))
        first = least(run)
        for chosen in (["After"], ["Before"], ["Beside"], ["Loop", "After"]):
            again = [wflow, "resubmit-set"] + whole + chosen
            ours = least(again)
            growth = ratio(ours, least([wflow, "resubmit-set"] + half + chosen))
            line("%s, from %s" % (name, " and ".join(chosen)), os.path.getsize(whole[1]), first, ours, ratio(ours, first), growth,
                 mib(again), said(again))
