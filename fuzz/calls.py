"""Calls of the program that the scripts on its failures make: of each command, over small definitions and over one that has actions of
every kind (fuzz/every)."""
import collections
import json
import os

import moments
from served import TOP


def _held(*path):
    with open(os.path.join(TOP, *path), "rb") as file:
        return file.read()


def _text(value):
    return json.dumps(value).encode()


def _http(*before):
    return {"type": "Http", "inputs": {"method": "GET", "uri": "https://contoso.com"}, "runAfter": {name: ["Succeeded"] for name in before}}


def _answers(**bodies):
    return [{"action": name, "status": 200, "body": body} for name, body in bodies.items()]


def _inputs(run, moment, **bodies):
    return _text({"run": run, "moment": moment, "answers": _answers(**bodies)})


def _lines(*lines):
    return b"".join((line if isinstance(line, bytes) else _text(line)) + b"\n" for line in lines)


def _asked(inputs, lines):
    """INPUTS of a talk, and its lines."""
    return {"asked": _text(inputs), "lines": _lines(*lines)}


# One action; two connectors side by side, whose answers a last one joins; and actions of every kind, in a file beside its parameters.
SMALL = {
    "definition": _text({"actions": {"A": {"type": "Compose", "inputs": "hi"}}}),
    "inputs": _text({"run": "r1", "moment": "2024-05-01T12:00:00Z"}),
}
JOINED = {
    "definition": _text({"actions": {"A": _http(), "B": _http("A"), "C": _http("A"), "D": {
        "type": "Http", "inputs": {"l": "@body('B')", "r": "@body('C')"}, "runAfter": {"B": ["Succeeded"], "C": ["Succeeded"]}}}}),
    "inputs": _inputs("r1", "2024-05-01T12:00:00Z", A="a", B="b", C="c", D="d"),
    "again": _inputs("r2", "2024-06-01T00:00:00Z", B="b2", D="d2"),
    "schedule": b"0\n0\n0\n1\n",
} | _asked({"run": "r1", "moment": "2024-05-01T12:00:00Z"},
           _answers(A="a", B="b") + [b"x", b"", {"action": "A", "status": 200}, b'{"action":1.5}'] + _answers(C="c", D="d") + [b"more"])
EVERY = {
    "definition": _held("fuzz", "every", "definition.json"),
    "inputs": _held("fuzz", "every", "inputs.json"),
    "again": _held("fuzz", "every", "inputs.json").replace(b'"r1"', b'"r2"'),
    "schedule": _held("fuzz", "every", "schedule"),
}
_GIVEN = json.loads(EVERY["inputs"])
EVERY |= _asked(_GIVEN | {"outputs": {"body": [7]}, "answers": _GIVEN["answers"][:1]},
                _GIVEN["answers"][:0:-1] + [b"", _GIVEN["answers"][-1], b"more"])
CHECK, RUN, TRACE = ["check", "definition"], ["run", "definition", "inputs"], ["trace", "definition", "inputs", "schedule"]
SESSION = ["session", "definition", "asked"]
# Each call: what it is of, its words and the files that it may read. HISTORY is what the second of these calls writes, and a talk reads
# its lines.
CALLS = [("one action", CHECK, SMALL), ("one action", RUN, SMALL)] + \
    [("four actions", words, JOINED) for words in (
        CHECK, RUN, TRACE,
        ["resubmit", "definition", "history", "r1", "B", "again"],
        ["resubmit-set", "definition", "history", "r1", "again", "schedule", "B", "C"],
        ["list", "history"], SESSION)] + \
    [("every kind", words, EVERY) for words in (
        CHECK, RUN, TRACE,
        ["resubmit", "definition", "history", "r1-0", "Fetch", "again", "schedule"],
        ["resubmit-set", "definition", "history", "r1-1", "again", "schedule", "Poll", "Line", "Fetch"],
        ["list", "history"],
        ["fires", "definition", "nightly", "2024-02-01", "5"], SESSION)]


# A call of which nothing fails: what is told of it, its words and the file of its input, how it ends, what it writes, and of that the text
# of each moment (moments.py).
Plain = collections.namedtuple("Plain", "name words given ended own moments")


def moments_of(program, folder, words, own, files):
    """What a call writes moment by moment: all but a talk at once."""
    def said(front):
        with open(os.path.join(folder, "front"), "wb") as file:
            file.write(front)
        ended, text = next(program.call([("out", words, {}, "front")]))
        return ended.status, text
    return moments.of(said, files["lines"])[1] if words[0] == "session" else [(0, own)]


def prepared(program, folder):
    """Each call with its files put into a folder."""
    for of, words, files in CALLS:
        for name, file in files.items():
            with open(os.path.join(folder, name), "wb") as copy:
                copy.write(file)
        history = next(text for _, text in program.call([("out", RUN, {})]))
        with open(os.path.join(folder, "history"), "wb") as copy:
            copy.write(history)
        given = "lines" if words[0] == "session" else os.devnull
        ended, own = next(program.call([("out", words, {}, given)]))
        yield Plain("%s, %s" % (of, words[0]), words, given, ended, own, moments_of(program, folder, words, own, files))
