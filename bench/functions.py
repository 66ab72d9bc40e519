"""Sections on parts of the engine by themselves, by the programs of rows: parsed templates, functions, and what templates come to."""
import calendar
import datetime
import json
import os
import random
import subprocess
import urllib.parse

from measure import clock, file, handed, head, jq, least, line, mib, output, path, ratio, rows_program


def answered(program, given):
    """All that a program of rows writes."""
    with open(given) as text:
        return subprocess.run([program], stdin=text, capture_output=True, check=True, text=True).stdout.strip()


def lines_file(name, lines):
    with open(path(name), "w") as out:
        out.writelines(one + "\n" for one in lines)
    return path(name)


# ---- texts

SIZE = 4 * 2**20
TEXTS = [
    ("plain text", "x" * SIZE),
    ("`@{1}` over and over", "@{1}" * (SIZE // 4)),
    ("one quoted text", "@'" + "x" * (SIZE - 3) + "'"),
    ("`@1`, and `.a` over and over", "@1" + ".a" * (SIZE // 2 - 1)),
]


def texts(_):
    """Texts parsed as templates, beside reading their bytes alone, and beside `jq -c .` on the same text as JSON. What each is parsed as is
    told too, so that a parser that gives up early can't be taken for a fast one."""
    program = rows_program("template_rows")
    head("text", "bytes", "parse s", "read s", "ratio", "jq s", "memory", "parsed as")
    for name, text in TEXTS:
        with open(path("text"), "w") as out:
            out.write(text)
        parse = [program, "parse"]
        with open(path("text")) as given:
            parsed = subprocess.run(parse, stdin=given, capture_output=True, check=True, text=True).stdout.strip()
        ours, reading, theirs = least(parse, path("text")), least([program, "read"], path("text")), jq(file("text.json", text))
        line(name, len(text), ours, reading, ratio(ours, reading), theirs, mib(parse, path("text")), parsed)


# ---- functions on texts

MILLION = 10**6
CALLS = [
    ("split of 1,000,000 commas", "split", ["," * MILLION, ","], lambda text, part: text.split(part)),
    ("replace of 1,000,000 commas", "replace", ["," * MILLION, ",", ";"], lambda text, old, new: text.replace(old, new)),
    ("replace of 500,000 commas and blanks", "replace", [", " * (MILLION // 2), ", ", ";"], lambda text, old, new: text.replace(old, new)),
    ("replace that would be too big", "replace", ["x" * MILLION, "x", "y" * MILLION], None),
    ("lastIndexOf of a..ab in a..a", "lastIndexOf", ["a" * MILLION, "a" * (MILLION // 2) + "b"],
        lambda text, part: text.lower().rfind(part.lower())),
    ("encodeUriComponent of letters", "encodeUriComponent", ["a" * MILLION], lambda text: urllib.parse.quote(text, safe="")),
    ("encodeUriComponent of blanks", "encodeUriComponent", [" " * 340000], lambda text: urllib.parse.quote(text, safe="")),
]


def timed(program, function, arguments):
    """The row of a call, a file that has it once, what it gives, and its time: that of eleven rows less that of one, a tenth of it, which
    leaves the start of the program out."""
    row = function + "\t" + json.dumps(arguments)
    single, often = lines_file("once", [row]), lines_file("often", [row] * 11)
    return row, single, answered(program, single), (least([program], often) - least([program], single)) / 10


def by_python(own, arguments):
    """The least time of Python's own function, with its arguments read and its value written, and that value's text."""
    times = []
    for _ in range(5):
        began = clock()
        value = json.dumps(own(*json.loads(arguments)), separators=(",", ":"))
        times.append(clock() - began)
    return min(times), value


def functions(_):
    """Functions on long texts, with arguments read from JSON and a value written as JSON, beside Python's own with the same."""
    program = rows_program("function_rows")
    head("function", "bytes", "wflow s", "python s", "ratio", "memory", "gives")
    for name, function, arguments, own in CALLS:
        row, single, gives, ours = timed(program, function, arguments)
        theirs, value = by_python(own, row[len(function) + 1:]) if own else ("-", gives)
        assert value == gives, name
        shown = gives if len(gives) < 30 else "%d bytes" % len(gives)
        line(name, len(row) + 1, ours, theirs, ratio(ours, theirs) if own else "-", mib([program], single), shown)


# ---- functions on lists and objects

def of_items(count):
    given = random.Random(7)
    some, others = ([given.randrange(10 * count) for _ in range(count)] for _ in range(2))
    names = ["%09d" % given.randrange(10**9) for _ in range(count)]
    one, other = ({"k%07d" % key: mark for key in keys[:count // 2]} for mark, keys in enumerate((some, others)))
    there = set(others)
    return [
        ("union of two lists of numbers", "union", [some, others], "(.[0] + .[1]) | unique", list(dict.fromkeys(some + others))),
        ("intersection of the two", "intersection", [some, others], "map(unique) | add | group_by(.) | map(select(length > 1) | .[0])",
            [item for item in dict.fromkeys(some) if item in there]),
        ("union of two objects of half of them", "union", [one, other], ".[0] + .[1]", dict(sorted({**one, **other}.items()))),
        ("sort of texts", "sort", [names], ".[0] | sort", sorted(names)),
        ("range", "range", [0, count], "[range(.[0]; .[0] + .[1])]", list(range(count))),
        ("chunk of a list by 7", "chunk", [some, 7], ".[0] as $items | [range(0; $items | length; 7) as $at | $items[$at:$at + 7]]",
            [some[at:at + 7] for at in range(0, count, 7)]),
    ]


def time_of(program, function, arguments, wanted):
    _, _, gives, ours = timed(program, function, arguments)
    assert gives == json.dumps(wanted, separators=(",", ":")), function
    return ours


def lists(wflow):
    """Functions on lists and objects beside jq's whole run on the same arguments: by what a call costs, then by whole runs on both sides.
    The growth is from a tenth of the items on."""
    program = rows_program("function_rows")
    head("function", "items", "wflow s", "jq s", "ratio", "growth")
    for (name, function, arguments, query, wanted), small in zip(of_items(10**5), of_items(10**4)):
        ours = time_of(program, function, arguments, wanted)
        theirs = least(["jq", "-c", query, file("arguments.json", arguments)])
        line(name, 10**5, ours, theirs, ratio(ours, theirs), ratio(ours, time_of(program, function, small[2], small[4])))
    head("function, by whole runs", "items", "wflow s", "jq s", "ratio", "growth", "of jq")
    for many, few in zip(of_items(10**5), of_items(10**4)):
        (less, little), (ours, theirs) = (whole_runs(wflow, *one[1:]) for one in (few, many))
        line(many[0], 10**4, less, little, ratio(less, little), "-", "-")
        line(many[0], 10**5, ours, theirs, ratio(ours, theirs), ratio(ours, less), ratio(theirs, little))


def whole_runs(wflow, function, arguments, query, wanted):
    """The times of a definition with one action that calls the function on parameters, and of jq on a file of the arguments. Both read what
    they are given and write what they make."""
    kinds = {list: "Array", dict: "Object", int: "Int"}
    given = {"p%d" % place: argument for place, argument in enumerate(arguments)}
    called = "@%s(%s)" % (function, ",".join("parameters('%s')" % name for name in given))
    definition = file("definition.json", {
        "parameters": {name: {"type": kinds[type(value)]} for name, value in given.items()},
        "actions": {"A": {"type": "Compose", "inputs": called}},
    })
    run = [wflow, "run", definition, file("given.json", handed(parameters=given))]
    assert json.dumps(wanted, separators=(",", ":")) in output(run), called
    return least(run), least(["jq", "-c", query, file("arguments.json", arguments)])


# ---- functions on time

def written(args):
    moment = datetime.datetime.strptime(args[0], "%Y-%m-%dT%H:%M:%SZ")
    return moment.strftime("%a, %d %b %Y %H:%M:%S")


def months_later(args):
    moment = datetime.datetime.strptime(args[0], "%Y-%m-%dT%H:%M:%SZ")
    month = moment.year * 12 + moment.month - 1 + args[1]
    year, month = month // 12, month % 12 + 1
    day = min(moment.day, calendar.monthrange(year, month)[1])
    return moment.replace(year=year, month=month, day=day).strftime("%Y-%m-%dT%H:%M:%S") + ".0000000Z"


def times(_):
    """Functions on time, on 100,000 rows, beside Python's datetime with the same JSON read and written."""
    program = rows_program("function_rows")
    moments = ["%04d-%02d-%02dT%02d:%02d:%02dZ" % (2000 + k % 7000, k % 12 + 1, k % 28 + 1, k % 24, k % 60, k * 7 % 60)
               for k in range(10**5)]
    head("function", "rows", "wflow s", "python s", "ratio")
    for name, rows, own in (
            ("formatDateTime", [[text, "ddd, dd MMM yyyy HH:mm:ss"] for text in moments], written),
            ("addToTime by months", [[text, k % 1000 - 500, "Month"] for k, text in enumerate(moments)], months_later)):
        lines = [json.dumps(args) for args in rows]
        given = lines_file("rows", [name.split()[0] + "\t" + one for one in lines])
        began = clock()
        values = [json.dumps(own(json.loads(one))) for one in lines]
        theirs = clock() - began
        assert values == answered(program, given).splitlines(), name
        ours = least([program], given)
        line(name, len(rows), ours, theirs, ratio(ours, theirs))


# ---- templates

EVALUATED = [
    ("`@add(item(),1)`, 100,000 times", [{"look": {"items": [1]}}] + [{"text": "@add(item(),1)"}] * 100000),
    ("one `concat` of 4,000 arguments", [{"text": "@concat(" + ",".join("1" * 4000) + ")"}]),
    ("2,700 accesses in a row, 1,000 times", [{"text": ["@json('{}')", 2700, "?.a"]}] * 1000),
    ("4 MiB of 100,000 parts", [{"text": ("@{" + " " * 38 + "1}") * 100000}]),
]


def templates(_):
    """What templates come to, in the looks of rows, beside `jq -c .` on the same rows."""
    program = rows_program("evaluation_rows")
    head("rows", "bytes", "ours s", "jq s", "ratio", "memory", "the last comes to")
    for name, rows in EVALUATED:
        given = lines_file("rows", [json.dumps(row) for row in rows])
        last = answered(program, given).splitlines()[-1]
        ours, theirs = least([program], given), jq(given)
        line(name, os.path.getsize(given), ours, theirs, ratio(ours, theirs), mib([program], given), last[:40])
