#!/usr/bin/env python3
"""Runs the built program on random and mutated files, and compares each status and text with the one that is owed.

  fuzz/fuzz.py [--count N] [--seed N] [--program PATH] [--model FOLDER]

For each case it makes a definition, for `wflow check` or with an inputs file for `wflow run`, which has a schedule too in one call of two,
or for `wflow trace`, from nothing but bytes or by mutating files of the right form, and decides for itself, with a reader of JSON, a judge
and a small machine of its own, what the call owes on them: the count of actions, the events, the records and their summary lines, or the
one fault and its place. So a program that refuses what is of the form fails, and so does one that takes what isn't, and one that is ended
by a signal. It fails too where fewer than one case in ten of a command is of the form, since it would try little then. Of the functions of
the expression language the judge has all but what a URL's parts are where the URL isn't plain, and of what runs write that of actions of type
Compose alone (all.py tries the others): a case that asks for more isn't tried, and counted, unless the engine in the folder of --model
(model.py tells what that is) says what is owed. The last line is 'N passed, M failed'."""
import argparse
import collections
import json
import os
import random
import subprocess
import sys
import tempfile

import events
import functions
import graphs
import model
import rules
import runs
from reading import DEFINITION_BYTES, INPUTS_BYTES, Refused, read


def value(rng, depth=0):
    kind = rng.randrange(8 if depth < 4 else 5)
    if kind == 0:
        return None
    if kind == 1:
        return rng.random() < 0.5
    if kind == 2:
        odd = 2**63 if rng.random() < 0.1 else 1.5 if rng.random() < 0.1 else 7
        return rng.choice([0, 1, -1, 2**63 - 1, -(2**63), rng.randrange(-1000, 1000), odd])
    if kind in (3, 4):
        return "".join(rng.choice('aB0 "\\/\n\t\x1f\x7fé€😀{' + "}@"[rng.random() < 0.02]) for _ in range(rng.randrange(8)))
    if kind in (5, 6):
        return [value(rng, depth + 1) for _ in range(rng.randrange(4))]
    return {str(value(rng, 4)): value(rng, depth + 1) for _ in range(rng.randrange(4))}


STATUSES = ["Succeeded", "Failed", "skipped", "TimedOut"]


# Functions with the kinds of arguments that they are called on, most of the time: the letters of docs/FUNCTIONS.md, small numbers n,
# timestamps S, patterns P, units U, URLs H, Base64 E and JSON J.
CALLS = [(name, kinds.split(",")) for name, _, kinds in (line.partition(" ") for line in """
add II;SUB II;mul II;div In;mod In;min III,L;max I,L;equals VV,IB;greater II,TT;greaterOrEquals nn;less II,TT;lessOrEquals TT;not B;int I,T
bool B,I,T;isInt T;concat VV;substring Tn,Tnn;slice Tn,Tnn;replace TTT;split TT;toLower T;toUpper T;trim T;startsWith TT;endsWith TT
indexOf TT;lastIndexOf TT;length T,L;empty T,L,O;contains TT,LV,OT;first T,L;last T,L;take Tn,Ln;skip Tn,Ln;join LT;union LL,OO
intersection LL,OO;createArray VVV;array V;range In;chunk Tn,Ln;sort L,LT;reverse L;addProperty OTV;setProperty OTV;removeProperty OT
addDays Sn,SnP;addHours Sn;addMinutes SI;addSeconds Sn;addToTime SnU,SnUP;subtractFromTime SnU;formatDateTime S,SP;startOfDay S,SP
startOfHour S;startOfMonth S;dayOfMonth S;dayOfYear S;dayOfWeek S;ticks S;dateDifference SS;uriComponent T;decodeUriComponent T;uriHost H
uriPort H;uriPathAndQuery H;base64 T;base64ToString E;dataUri T;dataUriToString T;if BVV;and BB;Or BB;coalesce VV;string V;json J
utcNow P,;getFutureTime nU,nUP;getPastTime nU;GUID T,;rand nn,II;workflow ;encodeUriComponent T;uriComponentToString T;decodeBase64 E
""".replace("\n", ";").strip(";").split(";"))]
LITERALS = {
    "I": ["0", "1", "-2", "7", "9223372036854775807", "-9223372036854775808"], "n": ["0", "1", "2", "3", "-1", "10"],
    "B": ["true", "FALSE"],
    "T": ["'a'", "''", "'it''s'", "'b,A,b'", "' é€ '", "'10'", "'%41'", "'D'"],
    "L": ["createArray()", "createArray(2,1,2)", "createArray('b','a')", "json('[{\"a\":2},{\"a\":1}]')"],
    "O": ["json('{}')", "json('{\"a\":1,\"b\":[]}')"], "J": ["'[1]'", "'{\"b\":1,\"a\":null}'", "'x'", "'1.5'"],
    "S": ["'2024-05-01T12:00:00Z'", "'2024-02-29'", "'2023-02-29'", "'0001-01-01'", "'9999-12-31T23:59:59.9Z'", "'2024-01-31T00:30-01:00'"],
    "P": ["'o'", "'D'", "'yyyy-MM-dd hh:mm tt'", "'ddd d MMMM'", "'q'", "'fff'"],
    "U": ["'Day'", "'MONTH'", "'year'", "'Weeks'", "'Second'"],
    "H": ["'https://a.b/c?x=1'", "'http://a'", "'ftp://b.c:21/'"], "E": ["'aGVsbG8='", "'aGk'", "''"],
}
LITERALS["V"] = ["null"] + LITERALS["I"] + LITERALS["B"] + LITERALS["T"] + LITERALS["L"]

# What is asked of the trigger and the parameters.
GIVEN = ["parameters('p')", "Parameters('q')", "trigger()", "triggerBody()", "triggerBody()?['k']", "triggerOutputs()", "trigger().name"]


# An expression over the rows of some actions, where it is wanted of a kind.
def expression(rng, names, depth=0, wanted="V"):
    kind = rng.randrange(10 if depth < 3 else 4)
    if kind < 4 and rng.random() < 0.15:
        return rng.choice(GIVEN)
    if depth and kind < 6 or kind < 2 or kind < 4 and not names:
        return rng.choice(LITERALS[wanted if rng.random() < 0.9 else "V"])
    if kind < 4 and names:
        name = rng.choice(names).replace("'", "''")
        return rng.choice(["outputs('%s')", "body('%s')", "Actions('%s')", "actions('%s').status", "outputs('%s')?.a", "outputs('%s')[0]",
                           "outputs( '%s' )?[0]", "body('%s')?['x y']", "actions('%s')['error']"]) % name
    name, kinds = rng.choice(CALLS)
    kinds = rng.choice(kinds) + ("V" if rng.random() < 0.02 else "")
    return "%s(%s)" % (name, ",".join(expression(rng, names, depth + 1, one) for one in kinds))


# A value some of whose texts are templates.
def templated(rng, names):
    kind = rng.randrange(6)
    if kind == 0:
        return value(rng)
    if kind == 1:
        return {"a": templated(rng, names), "x y": templated(rng, names)}
    if kind == 2:
        return [templated(rng, names), value(rng, 4)]
    if kind == 3:
        return "%s@{%s}%s" % (rng.choice(["", "a", "@@", "é"]), expression(rng, names), rng.choice(["", "b", "@@{", "@"]))
    return "@" + expression(rng, names)


# What rules and the reading of definitions look at: members, with values that some of them take.
MEMBERS = [
    ("actions", {"In": {"type": "Compose", "inputs": 1}}), ("actions", {}), ("cases", {"c": {"case": 1}}), ("default", {}), ("else", {}),
    ("expression", "@true"), ("expression", {"and": [{"equals": [1, "@1"]}]}), ("foreach", [1]), ("inputs", {"name": "v", "value": 1}),
    ("inputs", {"from": [], "select": "@item()", "where": "@true", "joinWith": ","}), ("inputs", {"statusCode": 1, "runStatus": "@1"}),
    ("inputs", {"variables": [{"name": "v", "type": "integer"}]}),
    ("inputs", {"retryPolicy": {"type": "fixed", "count": 90, "interval": "PT1S"}}),
    ("limit", {"count": 5000, "timeout": "P1D"}), ("limit", {"count": 0}), ("operationOptions", "Sequential"), ("operationOptions", 1),
    ("runtimeConfiguration", {"concurrency": {"repetitions": 51}}), ("trackedProperties", {"t": "@action()"}), ("trackedProperties", {}),
]
TYPES = rules.LEAVES + rules.HOLDING_ONE + ["switch", "Switch", "Table", "", 1]


def action(rng, names):
    made = {"type": rng.choice(["Compose", "compose", "COMPOSE"] if rng.random() < 0.99 else TYPES)}
    after = rng.sample(names, rng.randrange(min(4, len(names)) + 1)) if names and rng.random() < 0.8 else []
    if after:
        listed = [["Succeeded"], ["Failed"], STATUSES, ["Succeeded", "SKIPPED"], []]
        made["runAfter"] = {name: rng.choice(listed if rng.random() < 0.3 else listed[:1]) for name in after}
    asked = after if rng.random() < 0.97 else names
    made["inputs"] = templated(rng, asked) if rng.random() < 0.8 else value(rng)
    if made["type"] in TYPES or rng.random() < 0.02:
        made.update(rng.sample(MEMBERS, rng.randrange(1, 6)))
    if rng.random() < 0.02:
        made[rng.choice(["runAfter", "trackedProperties", "x"])] = value(rng)
    return made


# The sections beside the actions: parameters, most of the time those that expressions ask for, triggers and outputs.
KINDS = {"int": [0, 7], "String": ["", "a"], "bool": [True], "array": [[], [1]], "object": [{}, {"k": 1}], "secureString": ["s"]}


def parameters(rng):
    made = {}
    for name in ("p", "q"):
        kind = rng.choice(list(KINDS))
        made[name] = {"type": kind}
        if rng.random() < 0.95:
            made[name]["defaultValue"] = rng.choice(KINDS[kind])
        if rng.random() < 0.2:
            made[name]["allowedValues"] = KINDS[kind][:rng.randrange(3)]
    return made


SPLITS = ["@triggerBody()", "@range(0,3)", "@createArray()", "@triggerOutputs()", "@parameters('p')", "@div(1,0)", "x",
          "@createArray(utcNow(),1)", "@body('A')", "@rand(0,1)"]
CONDITIONS = ["@true", "@equals(1,2)", "@not(empty(triggerBody()))", "@equals(parameters('p'),7)", "@div(1,0)", "@1",
              "@equals(workflow().run.name,'r1')", "@greater(length(utcNow()),9)", "x"]


def triggers(rng):
    made = {}
    for name in rng.sample(["t", "manual"], rng.choice([1] * 7 + [2])):
        made[name] = {"type": rng.choice(["Request", "Recurrence"])}
        if rng.random() < 0.4:
            made[name]["splitOn"] = rng.choice(SPLITS if rng.random() < 0.4 else SPLITS[:3])
        if rng.random() < 0.4:
            made[name]["conditions"] = [{"expression": rng.choice(CONDITIONS)} for _ in range(rng.randrange(3))]
    return made


def section(rng):
    name = rng.choice(["a", "/", "", "~" * 81])
    member = rng.choice([{"type": "Int"}, {"type": "Request", "splitOn": "@triggerBody()"}, {"value": "@body('A')"}, {}, value(rng)])
    return {name: member} if rng.random() < 0.9 else value(rng)


# A definition whose actions wait for ones that are made before them, or in one case of twenty for any.
def definition(rng):
    names = ["A", "B", "b", "é" * 80, "😀", "A0", "Z z"]
    if rng.random() < 0.05:
        names[rng.randrange(len(names))] = rng.choice(["", "a" * 81, "a\tb", "\x7f"])
    rng.shuffle(names)
    names = names[:rng.choice([0, 1, 1, 2, 3, 5, 7])]
    astray = rng.random() < 0.05
    actions = [(name, action(rng, names if astray else names[:place])) for place, name in enumerate(names)]
    rng.shuffle(actions)
    whole = {"actions": dict(actions) if rng.random() < 0.97 else value(rng)}
    if rng.random() < 0.95:
        whole["parameters"] = parameters(rng)
    if rng.random() < 0.5:
        whole["triggers"] = triggers(rng)
    if rng.random() < 0.4:
        whole["outputs"] = {name: {"value": templated(rng, names)} for name in rng.sample("oxé", rng.choice([1, 2]))}
    if rng.random() < 0.03:
        whole[rng.choice(["parameters", "triggers", "outputs"])] = section(rng)
    if rng.random() < 0.05:
        whole[rng.choice(["definition", "$schema", "contentVersion", "x"])] = rng.choice([value(rng), rules.SCHEMA, {}])
    if rng.random() < 0.8:
        return whole
    return {"definition": whole, "kind": "Stateful", "parameters": {name: {"value": one_of(rng)} for name in "pqz" if rng.random() < 0.3}}


def checked(rng):
    return definition(rng) if rng.random() < 0.2 else graphs.Maker(rng).definition()


# A value for a parameter.
def one_of(rng):
    return rng.choice([part for kinds in KINDS.values() for part in kinds] + [None])


def answer(rng):
    made = {"action": rng.choice("AB"), "status": rng.choice([100, 200, 599, "timedOut", "noConnection"])}
    more = [("at", []), ("at", [0, rng.randrange(3)]), ("attempt", 1), ("attempt", 91), ("headers", {"h": 1}), ("body", value(rng))]
    made.update(rng.sample(more, rng.randrange(4)))
    if rng.random() < 0.05:
        made[rng.choice(["action", "at", "attempt", "status", "headers"])] = rng.choice([None, 0, 92, "x", [-1], {}])
    return made


def inputs(rng):
    whole = {"run": rng.choice(["r1", "", "x" * 65, "é", 1]), "moment": rng.choice(["2024-05-01T12:00:00Z", "", 1, "now", "2023-02-29"])}
    if rng.random() < 0.93:
        moments = ["2024-05-01T12:00:00Z", "0001-01-01", "9999-12-31T23:59:59.9999999Z", "2024-02-29T00:30+01:00"]
        whole = {"run": "r1", "moment": rng.choice(moments)}
    if rng.random() < 0.5:
        whole["seed"] = rng.choice(["", "s", "é\0", value(rng)])
    if rng.random() < 0.7:
        whole["outputs"] = rng.choice([{"body": [1, {"k": 2}]}, {"body": "no", "headers": {}}, {"body": {"k": [1]}}, [1], 5, value(rng)])
    if rng.random() < 0.4:
        whole["parameters"] = {name: one_of(rng) for name in "pqz" if rng.random() < 0.3}
    if rng.random() < 0.1:
        whole["trigger"] = rng.choice(["t", "manual"])
    if rng.random() < 0.2:
        whole["answers"] = [answer(rng) for _ in range(rng.randrange(4))]
    if rng.random() < 0.05:
        whole[rng.choice(["trigger", "outputs", "parameters", "answers", "x"])] = value(rng)
    return whole


def mutated(rng, data):
    data = bytearray(data)
    for _ in range(rng.choice([0] * 27 + [1, 2, 8])):
        place = rng.randrange(len(data) + 1)
        change = rng.randrange(4)
        if change == 0:
            data[place:place] = bytes([rng.randrange(256)])
        elif change == 1:
            del data[place:place + rng.randrange(1, 5)]
        elif change == 2:
            data[place:place] = rng.choice([b"\xef\xbb\xbf", b"[" * 130, b"1e400", b"-0", b"\\ud800", b"\xff", b'"', b"{}"])
        else:
            data[place:place + 1] = bytes([rng.randrange(256)])
    return bytes(data)


def made(rng, form):
    if rng.random() < 0.03:
        return bytes(rng.randrange(256) for _ in range(rng.randrange(64)))
    return mutated(rng, json.dumps(form(rng), ensure_ascii=rng.random() < 0.5).encode())


# The words of the fault of a file that is read, with what the file is.
def wanted_of_definition(data):
    value = read(data, DEFINITION_BYTES)
    fault = rules.refusal(value)
    if fault is not None:
        raise Refused(fault)
    return rules.definition_in(value), rules.given_in(value)


# The lines of a schedule, of which one in twenty is no number.
def schedule(rng):
    most = rng.choice([1, 2, 3, 10, 2**32 - 1])
    lines = [b"%d" % rng.randint(0, most) for _ in range(rng.choice([0, 1, 2, 4, 8, 16, 30]))]
    if rng.random() < 0.05:
        faulty = [b"", b"x", b"-1", b"+1", b" 1", b"1 ", b"1\r\r", b"4294967296", b"00000000001", b"\xef\xbb\xbf1", b"1.0", b"\xd9\xa1"]
        lines.insert(rng.randint(0, len(lines)), rng.choice(faulty))
    return rng.choice([b"\n", b"\n", b"\r\n"]).join(lines) + rng.choice([b"", b"\n", b"\n", b"\r\n"] if lines else [b""])


# The status and the text that a command owes on these files; None where the judge doesn't know what a function gives, or a run writes.
def wanted(command, definition, inputs=None, schedule=b""):
    try:
        definition, given = wanted_of_definition(definition)
    except Refused as fault:
        return 1, ("definition %s\n" % fault).encode()
    if command == "check":
        return 0, b"accepted %d\n" % len(list(rules.actions(definition)))
    try:
        inputs = runs.judge_inputs(read(inputs, INPUTS_BYTES))
    except Refused as fault:
        return 6, ("inputs %s\n" % fault).encode()
    try:
        numbers = events.read_schedule(schedule)
        return 0, runs.text_of(definition, given, inputs, numbers, command == "trace").encode()
    except Refused as fault:
        return 6, ("schedule %s\n" % fault).encode()
    except runs.TriggerRefused as fault:
        return 6, ("trigger %s\n" % fault).encode()
    except runs.TooLarge:
        return 8, b"too large\n"
    except functions.Unknown:
        return None, b""


def called_with(description, *more):
    """What the command line asks for: how many cases, of which seed, and of which program; and further options."""
    top = os.path.dirname(os.path.dirname(os.path.abspath(__file__)))
    parser = argparse.ArgumentParser(description=description, formatter_class=argparse.RawDescriptionHelpFormatter)
    parser.add_argument("--count", type=int, default=10000)
    parser.add_argument("--seed", type=int, default=1)
    parser.add_argument("--program", help="what to run; the program of bin/program where it is left out")
    for option in more:
        parser.add_argument(option)
    words = parser.parse_args()
    if not words.program:
        words.program = subprocess.check_output([os.path.join(top, "bin", "program")], text=True).strip()
    return words


def main():
    words = called_with(__doc__, "--model")
    engine = model.of(words.model) if words.model else None
    rng = random.Random(words.seed)
    statuses = collections.Counter()
    failed = 0
    with tempfile.TemporaryDirectory() as folder:
        paths = [os.path.join(folder, name) for name in ("definition", "inputs", "schedule")]
        for case in range(words.count):
            command = ("run", "check", "trace")[case % 3]
            files = [made(rng, checked)] if command == "check" else [made(rng, definition), made(rng, inputs)]
            if command == "trace" or command == "run" and rng.random() < 0.5:
                files.append(schedule(rng))
            for path, data in zip(paths, files):
                with open(path, "wb") as file:
                    file.write(data)
            status, text = wanted(command, *files)
            if status is None and engine:
                status, text = engine([command, "definition", "inputs", "schedule"][:1 + len(files)],
                                      dict(zip(("definition", "inputs", "schedule"), files)))
            statuses["unknown" if status is None else "%s %d" % (command, status)] += 1
            if status is None:
                continue
            ended = subprocess.run([words.program, command] + paths[:len(files)], capture_output=True, timeout=60)
            if (ended.returncode, ended.stdout) != (status, text):
                failed += 1
                print("case %d: %s, status %d, %r\n  owed %d, %r\n  %r" % (
                    case, command, ended.returncode, ended.stdout[:200], status, text[:200], [data[:300] for data in files]))
    print("seed %d, statuses owed %s" % (words.seed, dict(sorted(statuses.items(), key=str))))
    for command in ("check", "run", "trace"):
        if statuses[command + " 0"] * 30 < words.count:
            failed += 1
            print("only %d cases of %s are of the form" % (statuses[command + " 0"], command))
    print("%d passed, %d failed" % (max(words.count - statuses["unknown"] - failed, 0), failed))
    return 1 if failed else 0


if __name__ == "__main__":
    sys.exit(main())
