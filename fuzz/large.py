#!/usr/bin/env python3
"""Hands the program files that are as deep, wide or long as they may be, and longer.

  fuzz/large.py [--part deep|wide|long|records] [--only WORD] [--stack KIB] [--program PATH]

Each call has a process of its own, started as bin/launch does, a stack of KIB KiB (1,024 where none is named) and 2 GiB of memory. It has
to end within 10 seconds of the processor with a status and a text that its command has (harm.py), and not for want of memory. A line tells
its name, its command, the bytes of its files, the status, the seconds, the MiB and the beginning of the text; the last line is
'N passed, M failed'."""
import argparse
import json
import os
import sys

import harm
import served

DEF_SIZE, FILE_SIZE = 4 * 2**20, 64 * 2**20
PLAIN = b'{"run":"r1","moment":"2024-05-01T12:00:00Z"}'


def text(value):
    return json.dumps(value, ensure_ascii=False, separators=(",", ":")).encode()


def compose(inputs, *before):
    return {"type": "Compose", "inputs": inputs, "runAfter": {name: ["Succeeded"] for name in before}}


def definition(actions, **more):
    return text({"actions": actions, **more})


def filled(front, piece, between, back, size):
    """A file of at most so many bytes: pieces between a front and a back."""
    count = (size - len(front) - len(back) + len(between)) // (len(piece) + len(between))
    return front + between.join([piece] * count) + back


def numbered(front, piece, back, size):
    """The same with pieces that have the number of each in them, with a comma between."""
    pieces, room = [], size - len(front) - len(back)
    while room > 0:
        pieces.append(piece % len(pieces))
        room -= len(pieces[-1]) + 1
    return front + b",".join(pieces[:-1]) + back


def nested(depth, inner=b"", kind=b"[]"):
    return kind[:-1] * depth + inner + kind[-1:] * depth


def foreach(items, **actions):
    return {"type": "Foreach", "foreach": items, "actions": actions}


def until(count, **actions):
    return {"type": "Until", "expression": "@equals(1,2)", "limit": {"count": count}, "actions": actions}


def scopes(depth, name, actions):
    """Scopes in one another, the innermost with the actions."""
    for level in range(depth):
        actions = {"%s%d" % (name, level): {"type": "Scope", "actions": actions}}
    return actions


# ---- deep

def deep():
    """Brackets in every place that takes JSON: as many as are read, as a value may have, and more."""
    for depth in (63, 64, 65, 118, 120, 121, 126, 127, 128, 200, 100000):
        for kind, inner in ((b"[]", b""), (b'{"a":}', b"1")):
            value = nested(depth, inner, kind) if kind == b"[]" else b'{"a":' * depth + inner + b"}" * depth
            told = "%d %s" % (depth, "lists" if kind == b"[]" else "objects")
            run = ["run", "definition", "inputs"]
            for place, front, back in (
                    ("the definition", b"", b""),
                    ("a member without a rule", b'{"actions":{},"x":', b"}"),
                    ("inputs of an action", b'{"actions":{"A":{"type":"Compose","inputs":', b"}}}"),
                    ("an expression", b'{"actions":{"A":{"type":"If","expression":', b',"actions":{}}}}'),
                    ("a schema", b'{"actions":{"A":{"type":"ParseJson","inputs":{"content":1,"schema":', b"}}}}"),
                    ("tracked properties", b'{"actions":{"A":{"type":"Compose","inputs":1,"trackedProperties":{"t":', b"}}}}"),
                    ("a default", b'{"actions":{},"parameters":{"p":{"type":"array","defaultValue":', b"}}}"),
                    ("a recurrence", b'{"actions":{},"triggers":{"T":{"type":"Recurrence","recurrence":', b"}}}"),
                    ("an output", b'{"actions":{},"outputs":{"o":{"type":"Array","value":', b"}}}"),
                    ("actions", b'{"actions":', b"}")):
                yield "%s in %s" % (told, place), run, {"definition": front + value + back, "inputs": PLAIN}
                if place == "a recurrence":
                    yield "%s in it, asked" % told, ["fires", "definition", "T", "2024-01-01", "5"], {"definition": front + value + back}
            for place, front, back in (
                    ("INPUTS", b"", b""), ("outputs", PLAIN[:-1] + b',"outputs":', b"}"),
                    ("a parameter", PLAIN[:-1] + b',"parameters":{"p":', b"}}"),
                    ("a body", PLAIN[:-1] + b',"answers":[{"action":"A","status":200,"body":', b"}]}")):
                yield "%s in %s" % (told, place), run, {"definition": ASKING, "inputs": front + value + back}
            yield "%s in a record" % told, ["list", "history"], {"history": RECORD.replace(b'"outputs":{}', b'"outputs":{"a":%b}' % value)}
            yield "%s as a record" % told, ["list", "history"], {"history": value}
            yield "%s read by json" % told, run, {"definition": definition(
                {"A": compose("@json(parameters('p'))"), "B": compose("@equals(outputs('A'), json(parameters('p')))", "A")},
                parameters={"p": {"type": "string", "defaultValue": value.decode()}}), "inputs": PLAIN}
    for name, front, inner, back in (
            ("calls", "not(", "true", ")"), ("calls that make lists", "createArray(", "1", ")"), ("indexes", "", "1", "[0]"),
            ("accesses", "", "outputs('A')", "?.a"), ("indexes of indexes", "createArray(1)[", "0", "]")):
        for depth in (50, 500, 1600, 2700, 4000):
            expression = "@" + front * depth + inner + back * depth
            yield "%d %s" % (depth, name), ["run", "definition", "inputs"], {
                "definition": definition({"A": compose({}), "B": compose(expression, "A")}), "inputs": PLAIN}
    for depth in (20, 50, 55, 58):
        condition = {"equals": [1, 1]}
        for _ in range(depth):
            condition = {"not": {"and": [condition]}}
        yield "%d conditions" % depth, ["run", "definition", "inputs"], {
            "definition": definition({"A": {"type": "If", "expression": condition, "actions": {}}}), "inputs": PLAIN}
    for depth in (7, 8, 9, 60):
        yield "%d levels" % depth, ["run", "definition", "inputs"], {
            "definition": definition(scopes(depth, "S", {"A": compose(1)})), "inputs": PLAIN}


RECORD = b'{"definition":"%b","error":null,"form":2,"outputs":{},"parameters":{},"response":null,"rows":[],"run":"r1",' \
    b'"status":"Succeeded","trigger":{"name":null,"outputs":null}}' % (b"0" * 64)
# A definition that asks for all that INPUTS may give.
ASKING = definition(
    {"A": {"type": "Http", "inputs": {"o": "@triggerOutputs()", "p": "@parameters('p')"}}, "B": compose("@body('A')", "A")},
    parameters={"p": {"type": "array", "defaultValue": []}}, triggers={"t": {"type": "Request"}})


# ---- wide

def wide():
    run = ["run", "definition", "inputs"]
    for name, front, piece, back in (
            ("a text", b'{"actions":{"A":{"type":"Compose","inputs":"', b"a", b'"}}}'),
            ("a text of quotes", b'{"actions":{"A":{"type":"Compose","inputs":"', b'\\"', b'"}}}'),
            ("a text of expressions", b'{"actions":{"A":{"type":"Compose","inputs":"', b"@{1}", b'"}}}'),
            ("an expression", b'{"actions":{"A":{"type":"Compose","inputs":"@concat(', b"1,", b'1)"}}}'),
            ("a name of an action", b'{"actions":{"', b"a", b'":{"type":"Compose","inputs":1}}}'),
            ("a type", b'{"actions":{"A":{"type":"', b"a", b'","inputs":1}}}'),
            ("a wrapper", b'{"x":"', b"\\u0061", b'","definition":{"actions":{}}}'),
            ("blanks", b'{"actions":{}', b" ", b"}")):
        yield "4 MiB of " + name, run, {"definition": filled(front, piece, b"", back, DEF_SIZE), "inputs": PLAIN}
    for name, front, piece, back in (
            ("numbers", b'{"actions":{"A":{"type":"Compose","inputs":[', b"1", b"]}}}"),
            ("objects", b'{"actions":{"A":{"type":"Compose","inputs":[', b"{}", b"]}}}"),
            ("statuses", b'{"actions":{"B":{"type":"Compose","inputs":1},"A":{"type":"Compose","inputs":1,"runAfter":{"B":[',
             b'"Failed"', b"]}}}}"),
            ("conditions", b'{"actions":{"A":{"type":"If","actions":{},"expression":{"and":[', b'{"equals":[1,1]}', b"]}}}}"),
            ("a trigger's conditions", b'{"actions":{},"triggers":{"t":{"type":"Request","conditions":[',
             b'{"expression":"@true"}', b"]}}}"),
            ("allowed values", b'{"actions":{},"parameters":{"p":{"type":"int","defaultValue":1,"allowedValues":[', b"1", b"]}}}"),
            ("a schema's values", b'{"actions":{"A":{"type":"ParseJson","inputs":{"content":1,"schema":{"enum":[', b'"a"', b"]}}}}}"),
            ("a schema's choices", b'{"actions":{"A":{"type":"ParseJson","inputs":{"content":1,"schema":{"anyOf":[',
             b'{"enum":[2]}', b"]}}}}}"),
            ("variables", b'{"actions":{"A":{"type":"InitializeVariable","inputs":{"variables":[', b'{"name":"v","type":"int"}', b"]}}}}")):
        yield "4 MiB of " + name, run, {"definition": filled(front, piece, b",", back, DEF_SIZE), "inputs": PLAIN}
    for name, front, piece, back in (
            ("actions", b'{"actions":{', b'"A%d":{"type":"Compose","inputs":1}', b"}}"),
            ("members of inputs", b'{"actions":{"A":{"type":"Compose","inputs":{', b'"a%d":1', b"}}}}"),
            ("actions before", b'{"actions":{"A":{"type":"Compose","inputs":1,"runAfter":{', b'"B%d":["Succeeded"]', b"}}}}"),
            ("parameters", b'{"actions":{},"parameters":{', b'"p%d":{"type":"int","defaultValue":1}', b"}}"),
            ("triggers", b'{"actions":{},"triggers":{', b'"t%d":{"type":"Request"}', b"}}"),
            ("outputs", b'{"actions":{},"outputs":{', b'"o%d":{"type":"Int","value":1}', b"}}"),
            ("cases", b'{"actions":{"A":{"type":"Switch","expression":1,"cases":{', b'"c%d":{"case":1,"actions":{}}', b"}}}}"),
            ("tracked properties", b'{"actions":{"A":{"type":"Compose","inputs":1,"trackedProperties":{', b'"t%d":1', b"}}}}"),
            ("a schema's members", b'{"actions":{"A":{"type":"ParseJson","inputs":{"content":{},"schema":{"properties":{',
             b'"p%d":{}', b"}}}}}}"),
            ("parameters beside", b'{"definition":{"actions":{}},"parameters":{', b'"p%d":{"value":1}', b"}}"),
            ("members without a rule", b'{"actions":{},"x":{', b'"m%d":1', b"}}")):
        yield "4 MiB of " + name, run, {"definition": numbered(front, piece, back, DEF_SIZE), "inputs": PLAIN}
    yield "4 MiB and a byte", run, {"definition": b" " * (DEF_SIZE + 1), "inputs": PLAIN}
    names = ["%03d" % number + "\U0001f600" * 77 for number in range(500)]
    for name, actions in (
            ("side by side", {name: compose(1) for name in names}),
            ("in a chain", {name: compose("@outputs('%s')" % names[at - 1] if at else 1, *names[at - 1:at] if at else ())
                            for at, name in enumerate(names)}),
            ("each after ten", {name: compose(1, *names[max(0, at - 10):at]) for at, name in enumerate(names)})):
        yield "500 names of 80 characters of four bytes, %s" % name, ["trace", "definition", "inputs", "schedule"], {
            "definition": definition(actions), "inputs": PLAIN, "schedule": b"7\n3\n1\n" * 500}
    inner = {"A%d" % number: compose("@length(result('S0'))" if number == 0 else 1) for number in range(493)}
    inner["A0"] = compose(1)
    yield "493 actions at level 8", run, {"definition": definition(scopes(7, "S", inner)), "inputs": PLAIN}
    chain = {"A%d" % number: compose("@outputs('A%d')" % (number - 1) if number else 1, *["A%d" % (number - 1)] if number else ())
             for number in range(493)}
    yield "493 actions at level 8, in a chain", run, {"definition": definition(scopes(7, "S", chain)), "inputs": PLAIN}
    every = {"A%d" % number: compose(1, *["A%d" % before for before in range(number)]) for number in range(500)}
    yield "500 actions, each after all before", run, {"definition": definition(every), "inputs": PLAIN}


# ---- long

def long():
    run, trace = ["run", "definition", "inputs"], ["trace", "definition", "inputs", "schedule"]
    item = {"C": compose("@item()")}
    boxes = scopes(2, "S", item)
    sixteen = foreach("@range(0,16)", **item)
    for level in range(3):
        sixteen = foreach("@range(0,16)", **{"L%d" % level: sixteen})
    for name, actions in (
            ("100,000 items", {"L": foreach("@range(0,100000)", **item)}),
            ("100,001 items", {"L": foreach("@range(0,100001)", **item)}),
            ("100,000 items in one", {"L": foreach([1], M=foreach("@range(0,100000)", **item))}),
            ("100,000 items in five", {"L": foreach([1, 2, 3, 4, 5], M=foreach("@range(0,100000)", **item))}),
            ("100,000 items in 100,000", {"L": foreach("@range(0,100000)", M=foreach("@range(0,100000)", **item))}),
            ("one item in 100,000", {"L": foreach("@range(0,100000)", M=foreach([1], **item))}),
            ("100,000 items of two scopes", {"L": foreach("@range(0,100000)", **boxes)}),
            ("2,000 items in 2,000, two actions", {"L": foreach("@range(0,2000)", M=foreach("@range(0,2000)", **item, D=compose(1)))}),
            ("5,000 turns in 20", {"L": foreach("@range(0,20)", U=until(5000, **item))}),
            ("5,000 turns of 5,000", {"U": until(5000, V=until(5000, C=compose(1)))}),
            ("four loops of 16 items in one another", {"L": sixteen})):
        files = {"definition": definition(actions), "inputs": PLAIN, "schedule": b"9\n4\n2\n" * 100000}
        yield name, run, files
        yield name + ", traced", trace, files
    lists = {"V": {"type": "InitializeVariable", "inputs": {"variables": [{"name": "v", "type": "array"}]}}}
    push = {"type": "AppendToArrayVariable", "inputs": {"name": "v", "value": "@item()"}}
    yield "a list made by 10,000 items", run, {"definition": definition(
        {**lists, "L": {**foreach("@range(0,10000)", P=push), "operationOptions": "Sequential", "runAfter": {"V": ["Succeeded"]}}}),
        "inputs": PLAIN}
    rows = [{"name": "%d" % number} for number in range(20000)]
    for name, value in (
            ("a trigger's body", "@triggerBody()?['name']"), ("a parameter", "@parameters('p')[0]"),
            ("outputs", "@outputs('C')[0]"), ("a length", "@length(triggerBody()?['items'])"),
            ("a variable", "@variables('v')[0]")):
        yield "%s named in 20,000 iterations" % name, run, {"definition": definition(
            {"V": {"type": "InitializeVariable", "inputs": {"variables": [{"name": "v", "type": "array", "value": "@parameters('p')"}]}},
             "C": {**compose("@range(0,20000)"), "runAfter": {"V": ["Succeeded"]}},
             "L": {**foreach("@triggerBody()?['items']", N=compose(value)), "runAfter": {"C": ["Succeeded"]}}},
            parameters={"p": {"type": "array"}}, triggers={"t": {"type": "Request"}}),
            "inputs": text(json.loads(PLAIN) | {"outputs": {"body": {"name": "n", "items": rows}}, "parameters": {"p": rows}})}
    doubled = {"A0": compose("@createArray(" + ",".join(["1"] * 1000) + ")")}
    for number in range(1, 30):
        before = "A%d" % (number - 1)
        doubled["A%d" % number] = compose("@union(outputs('%s'), createArray(outputs('%s'), outputs('%s')))" % ((before,) * 3), before)
    yield "a list doubled until it is too big", run, {"definition": definition(doubled), "inputs": PLAIN}
    longer = {"A0": compose("a" * 1000)}
    for number in range(1, 30):
        before = "A%d" % (number - 1)
        longer["A%d" % number] = compose("@concat(outputs('%s'), outputs('%s'))" % (before, before), before)
    yield "a text doubled until it is too big", run, {"definition": definition(longer), "inputs": PLAIN}
    two = {"definition": definition({"A": compose(1), "B": compose(2)}), "inputs": PLAIN}
    for name, schedule in (
            ("zeros", b"0\n" * (FILE_SIZE // 2)), ("ten digits", b"4294967295\n" * (FILE_SIZE // 11)),
            ("returns", b"1\r\n" * (FILE_SIZE // 3)), ("one line", b"1" * FILE_SIZE),
            ("empty lines", b"\n" * FILE_SIZE), ("a byte more", b"0\n" * (FILE_SIZE // 2) + b"0"),
            ("a last line that is none", b"0\n" * (FILE_SIZE // 2 - 1) + b"x\n")):
        yield "a schedule of 64 MiB, %s" % name, trace, {**two, "schedule": schedule}
    one = RECORD + b"\n"
    row = b'{"at":[%d],"attempts":[],"code":"OK","error":null,"inputs":1,"name":"A","outputs":1,"status":"Succeeded","tracked":{}}'
    rows = b",".join(row % number for number in range(500000))
    for name, history in (
            ("one line of blanks", b" " * FILE_SIZE), ("empty lines", b"\n" * FILE_SIZE), ("comments", b"#\n" * (FILE_SIZE // 2)),
            ("one comment", b"#" * FILE_SIZE), ("records", one * (FILE_SIZE // len(one))), ("brackets", b"[" * FILE_SIZE),
            ("a text", RECORD.replace(b'"error":null', b'"error":"%b"' % (b"a" * (FILE_SIZE - len(RECORD))))),
            ("500,000 rows", RECORD.replace(b'"rows":[]', b'"rows":[%b]' % rows)), ("a byte more", b"\n" * (FILE_SIZE + 1))):
        yield "a history of 64 MiB, %s" % name, ["list", "history"], {"history": history}
        yield "a history of 64 MiB, %s, resubmitted" % name, ["resubmit", "definition", "history", "r1", "A", "inputs"], \
            {**two, "history": history}
    front = PLAIN[:-1]
    for name, inputs in (
            ("blanks", PLAIN.ljust(FILE_SIZE)), ("a text", filled(front + b',"outputs":"', b"a", b"", b'"}', FILE_SIZE)),
            ("numbers", filled(front + b',"outputs":[', b"1", b",", b"]}", FILE_SIZE)),
            ("empty lists", filled(front + b',"x":[', b"[]", b",", b"]}", FILE_SIZE)),
            ("empty objects", filled(front + b',"parameters":{"p":[', b"{}", b",", b"]}}", FILE_SIZE)),
            ("members", numbered(front + b',"outputs":{', b'"m%d":1', b"}}", FILE_SIZE)),
            ("parameters", numbered(front + b',"parameters":{', b'"p%d":[]', b"}}", FILE_SIZE)),
            ("answers", numbered(front + b',"answers":[', b'{"action":"A","at":[%d],"status":200}', b"]}", FILE_SIZE)),
            ("one answer", filled(front + b',"answers":[{"action":"A","status":200,"body":"', b"a", b"", b'"}]}', FILE_SIZE)),
            ("lists of one", filled(front + b',"outputs":[', b"[1]", b",", b"]}", FILE_SIZE)),
            ("lists of two", filled(front + b',"x":[', b"[1,2]", b",", b"]}", FILE_SIZE)),
            ("lists of five", filled(front + b',"x":[', b"[1,2,3,4,5]", b",", b"]}", FILE_SIZE)),
            ("objects of one", filled(front + b',"x":[', b'{"a":1}', b",", b"]}", FILE_SIZE)),
            ("lists 100 deep", filled(front + b',"x":[', nested(100), b",", b"]}", FILE_SIZE)),
            ("objects 100 deep", filled(front + b',"x":[', b'{"":' * 100 + b"1" + b"}" * 100, b",", b"]}", FILE_SIZE)),
            ("lists of eight 20 deep", filled(front + b',"x":[', b"[1,1,1,1,1,1,1," * 20 + b"1" + b"]" * 20, b",", b"]}", FILE_SIZE)),
            ("lists of one, and a half", filled(front + b',"x":[', b"[1]", b",", b",0.5]}", FILE_SIZE)),
            ("lists 100 deep, and a half", filled(front + b',"x":[', nested(100), b",", b",0.5]}", FILE_SIZE)),
            ("lists 120 deep, too deep", filled(front + b',"x":[', nested(120), b",", b"]}", FILE_SIZE)),
            ("a half that is replaced", filled(front + b',"x":0.5,"x":[', b"[1]", b",", b"]}", FILE_SIZE)),
            ("brackets", b"[" * FILE_SIZE), ("escapes", filled(front + b',"outputs":"', b"\\u00e4", b"", b'"}', FILE_SIZE)),
            ("a byte more", PLAIN.ljust(FILE_SIZE + 1))):
        yield "INPUTS of 64 MiB, %s" % name, run, {"definition": ASKING, "inputs": inputs}
    split = definition({"A": compose("@triggerBody()")}, triggers={"t": {"type": "Request", "splitOn": "@triggerBody()"}})
    for count in (100000, 100001):
        yield "a split of %d" % count, run, {
            "definition": split, "inputs": front + b',"outputs":{"body":[' + b",".join([b"1"] * count) + b"]}}"}
    for name, moment, frequency, interval, first in (
            ("1,000 months", "0001-01-01", "Month", 1, "0001-01-31"), ("1,000 weeks", "9980-01-01", "Week", 1, "0001-01-31"),
            ("seconds a long way off", "9999-12-31T23:00:00", "Second", 7, "0001-01-01")):
        yield "fires, " + name, ["fires", "definition", "T", moment, "1000"], {"definition": definition({}, triggers={"T": {
            "type": "Recurrence", "recurrence": {"frequency": frequency, "interval": interval, "startTime": first + "T00:00:00Z"}}})}


def records(program, folder):
    """A record with 100,000 iterations, which a run left, and its resubmission."""
    files = {"definition": definition({"B": compose(1), "L": foreach("@range(0,100000)", C=compose("@item()"))}), "inputs": PLAIN}
    put(folder, files)
    files["history"] = next(program.call([("out", ["run", "definition", "inputs"], {})], 60, 1))[1]
    yield "a record of 100,001 rows", ["list", "history"], files
    for action in ("L", "B"):
        yield "100,001 rows, resubmitted from %s" % action, ["resubmit", "definition", "history", "r1", action, "inputs"], files
    names = ["A%03d" % number for number in range(500)]
    files = {"definition": definition({name: compose(1) for name in names}), "inputs": PLAIN, "schedule": b""}
    put(folder, files)
    files["history"] = next(program.call([("out", ["run", "definition", "inputs"], {})], 60, 1))[1]
    yield "500 actions resubmitted", ["resubmit-set", "definition", "history", "r1", "inputs", "schedule", *names], files


def put(folder, files):
    for name, file in files.items():
        with open(os.path.join(folder, name), "wb") as copy:
            copy.write(file)


def main():
    parser = argparse.ArgumentParser(description=__doc__, formatter_class=argparse.RawDescriptionHelpFormatter)
    parser.add_argument("--part", choices=("deep", "wide", "long", "records"))
    parser.add_argument("--only", default="", metavar="WORD")
    parser.add_argument("--program", default=served.PROGRAM, type=os.path.abspath)
    parser.add_argument("--stack", type=int, default=1024, metavar="KIB")
    options = parser.parse_args()
    good, bad = 0, 0
    with served.fast_folder() as folder, \
            served.Served(options.program, folder, served.library(folder), options.stack, harm.MEMORY) as program:
        for part, cases in (("deep", deep()), ("wide", wide()), ("long", long()), ("records", records(program, folder))):
            for name, words, files in cases if options.part in (part, None) else ():
                if options.only not in name:
                    continue
                put(folder, files)
                ended, said = next(program.call([("out", words, {})], harm.SECONDS, 1))
                why = harm.wrong(words, ended, said)
                print("%s | %s | %d bytes | status %s | %.2f s | %d MiB | %s%s" % (
                    name, words[0], sum(map(len, files.values())), ended.status, ended.seconds, ended.kibibytes // 1024,
                    said[:60].split(b"\n")[0].decode("utf-8", "replace"), " | HARM: " + why if why else ""), flush=True)
                good, bad = good + (not why), bad + bool(why)
    print("%d passed, %d failed" % (good, bad))
    return 1 if bad or not good else 0


if __name__ == "__main__":
    sys.exit(main())
