"""Templates, and what they come to, decided apart from the program: the judge of fuzz.py stands on this.

A text is read by the grammar of docs/EXPRESSIONS.md, and the functions that ask for rows, the moment or words, or that don't evaluate
all of their arguments, are written here from docs/EVALUATION.md; functions.py has the others. `Unknown` is raised where the value of
a function is asked for that this judge doesn't know."""
import hashlib
import re
import uuid

from functions import GIVEN, Fault, Unknown, fitting, give, moved, needs, pattern_of, printed, text_of, typed

BLANKS = re.compile("[ \t\r\n]*")
NAME = re.compile("[A-Za-z][A-Za-z0-9_]*")
MEMBER = re.compile("[A-Za-z_$][A-Za-z0-9_$]*")
NUMBER = re.compile("-?[0-9]+")
QUOTED = re.compile("'((?:[^']|'')*)'", re.DOTALL)
LEAST, MOST = -(2**63), 2**63 - 1
LONGEST, OPEN_AT_MOST = 8192, 64
# the functions that a definition may call: their names as they are printed, and how many arguments they take
OWN = {
    "if": (3, 3), "and": (1, None), "or": (1, None), "coalesce": (1, None), "string": (1, 1), "json": (1, 1), "actions": (1, 1),
    "outputs": (1, 1), "body": (1, 1), "workflow": (0, 0), "utcNow": (0, 1), "getFutureTime": (2, 3), "getPastTime": (2, 3), "guid": (0, 1),
    "rand": (2, 2), "parameters": (1, 1), "trigger": (0, 0), "triggerOutputs": (0, 0), "triggerBody": (0, 0)}
BUILT = {name.lower(): (name,) + counts for name, counts in (OWN | {name: row[1:] for name, row in GIVEN.items()}).items()}


class Refused(Exception):
    """A text is no template: it can't be read on from the place that is given."""


# An expression from a place of a text on: ("lit", value), ("call", name, parts), ("member", base, name, soft), ("index", base, key, soft).
class Reader:
    def __init__(self, text, place):
        self.text, self.place, self.open = text, place, 0

    def take(self, pattern):
        found = pattern.match(self.text, self.place)
        if not found:
            raise Refused(self.place)
        self.place = found.end()
        return found

    def blanks(self):
        self.place = BLANKS.match(self.text, self.place).end()

    def next(self, word):
        if not self.text.startswith(word, self.place):
            return False
        self.place += len(word)
        return True

    def opened(self):
        self.open += 1
        if self.open > OPEN_AT_MOST:
            raise Refused(self.place)

    def closed(self, word):
        if not self.next(word):
            raise Refused(self.place)
        self.open -= 1

    def expression(self):
        self.blanks()
        made = self.primary()
        while True:
            before = self.place
            self.blanks()
            soft = self.next("?")
            if self.next("."):
                self.blanks()
                made = ("member", made, self.take(MEMBER).group(), soft)
            elif self.next("["):
                self.opened()
                key = self.expression()
                self.closed("]")
                made = ("index", made, key, soft)
            else:
                if soft:
                    self.place = before
                    raise Refused(self.place)
                return made

    def primary(self):
        if self.text.startswith("'", self.place):
            return ("lit", self.take(QUOTED).group(1).replace("''", "'"))
        if NUMBER.match(self.text, self.place):
            number = int(self.take(NUMBER).group())
            if not LEAST <= number <= MOST:
                raise Refused(self.place)
            return ("lit", number)
        name = self.take(NAME).group()
        after = self.place
        self.blanks()
        if self.next("("):
            self.opened()
            return ("call", name, self.parts())
        self.place = after
        words = {"true": True, "false": False, "null": None}
        if name.lower() not in words:
            raise Refused(self.place)
        return ("lit", words[name.lower()])

    def parts(self):
        self.blanks()
        parts = []
        if not self.text.startswith(")", self.place):
            parts.append(self.expression())
            while self.next(","):
                parts.append(self.expression())
        self.closed(")")
        return parts


# A text as ("plain", text), ("whole", expression) or ("parts", pieces), a piece being a text or an expression.
def template(text):
    if re.match("@[^@{]", text, re.DOTALL) or text == "@":
        reader = Reader(text, 1)
        made = reader.expression()
        if reader.place != len(text) or len(text) - 1 > LONGEST:
            raise Refused(reader.place)
        return ("whole", made)
    pieces, letters, place, any_part = [], "", 0, False
    while place < len(text):
        if place == 0 and text.startswith("@@"):
            letters, place = "@", 2
        elif place and text.startswith("@@{", place):
            letters, place = letters + "@{", place + 3
        elif text.startswith("@{", place):
            reader = Reader(text, place + 2)
            part = reader.expression()
            if reader.place - place - 2 > LONGEST or not reader.next("}"):
                raise Refused(reader.place)
            pieces += [letters, part] if letters else [part]
            letters, place, any_part = "", reader.place, True
        else:
            letters, place = letters + text[place], place + 1
    if not any_part:
        return ("plain", letters)
    return ("parts", pieces + [letters] if letters else pieces)


# All calls in an expression.
def calls(made):
    if made[0] == "call":
        yield made
        for part in made[2]:
            yield from calls(part)
    elif made[0] != "lit":
        yield from calls(made[1])
        if made[0] == "index":
            yield from calls(made[2])


def expressions(value):
    if isinstance(value, str):
        kind, held = template(value)
        yield from [held] if kind == "whole" else [part for part in held if not isinstance(part, str)] if kind == "parts" else []
    for part in value.values() if isinstance(value, dict) else value if isinstance(value, list) else ():
        yield from expressions(part)


def is_whole(value):
    return isinstance(value, int) and not isinstance(value, bool)


# The value of an expression. `view` gives what is known of an action; `compact` gives the JSON text of a value, and `read` the value of a
# JSON text, or raises ValueError. The run has a name, a seed, a moment, parameters and what its trigger gave, and words are drawn at the
# place, the action's name.
class Evaluator:
    def __init__(self, view, run, place, compact, read):
        self.view, self.run, self.place, self.compact, self.read, self.drawn = view, run, place, compact, read, 0

    def text(self, value):
        return text_of(value, self.compact)

    # the next word
    def word(self):
        self.drawn += 1
        return hashlib.sha256(b"\0".join([self.run["seed"].encode(), self.place.encode(), b"%d" % (self.drawn - 1)])).digest()

    def tree(self, value):
        if isinstance(value, str):
            return self.template(template(value))
        if isinstance(value, list):
            return fitting([self.tree(part) for part in value])
        if isinstance(value, dict):
            return fitting({name: self.tree(part) for name, part in sorted(value.items())})
        return value

    def template(self, made):
        kind, held = made
        if kind == "whole":
            return self.value(held)
        if kind == "plain":
            return fitting(held)
        return fitting("".join(part if isinstance(part, str) else self.text(self.value(part)) for part in held))

    def value(self, made):
        if made[0] == "lit":
            return fitting(made[1])
        if made[0] == "call":
            return fitting(self.call(made[1].lower(), made[2]))
        base, soft = self.value(made[1]), made[3]
        key = made[2] if made[0] == "member" else self.value(made[2])
        if isinstance(key, str) and isinstance(base, dict) and key in base:
            return base[key]
        if is_whole(key) and isinstance(base, list) and 0 <= key < len(base):
            return base[key]
        if not isinstance(key, str) and not is_whole(key):
            raise Fault("WrongType index 2")
        if soft:
            return None
        raise Fault("NoMember " + self.compact(key if isinstance(key, str) else str(key)))

    def call(self, name, parts):
        if name == "if":
            test = self.value(parts[0])
            if not isinstance(test, bool):
                raise Fault("WrongType if 1")
            return self.value(parts[1] if test else parts[2])
        if name in ("and", "or"):
            for place, part in enumerate(parts):
                truth = self.value(part)
                if not isinstance(truth, bool):
                    raise Fault("WrongType %s %d" % (name, place + 1))
                if truth == (name == "or"):
                    return truth
            return name == "and"
        if name == "coalesce":
            found = (self.value(part) for part in parts)
            return next((value for value in found if value is not None), None)
        if name in ("actions", "outputs", "body", "trigger", "triggeroutputs", "triggerbody"):
            view = self.run["trigger"] if name.startswith("trigger") else self.view(parts[0][1])
            outputs = view["outputs"]
            body = outputs.get("body") if isinstance(outputs, dict) else None
            return outputs if name.endswith("outputs") else body if name.endswith("body") else view
        if name == "parameters":
            return self.run["parameters"][parts[0][1]]
        if name == "workflow":
            return {"name": "workflow", "run": {"name": self.run["run"]}}
        name, values = BUILT[name][0], [self.value(part) for part in parts]
        return getattr(self, name)(name, values) if name in OWN else give(name, values, self.compact)

    def string(self, name, values):
        return self.text(values[0])

    def json(self, name, values):
        if not isinstance(values[0], str):
            return {} if values[0] is None else values[0]
        try:
            return self.read(values[0])
        except ValueError:
            raise Fault("BadText json")

    def utcNow(self, name, values):
        return printed(self.run["moment"], pattern_of(name, typed(name, values, "T")))

    def getFutureTime(self, name, values):
        count, unit, *pattern = typed(name, values, ["I", "T"])
        parts = pattern_of(name, pattern)
        return printed(moved(name, self.run["moment"], -count if name == "getPastTime" else count, unit), parts)

    getPastTime = getFutureTime

    # a version 4 identifier of RFC 9562, of the word's first 16 bytes
    def guid(self, name, values):
        form = (typed(name, values, "T") or ["D"])[0]
        needs(form in ("D", "N", "B", "P"), "Range", name)
        made = uuid.UUID(bytes=self.word()[:16], version=4)
        return {"D": "%s", "N": made.hex, "B": "{%s}", "P": "(%s)"}[form].replace("%s", str(made))

    def rand(self, name, values):
        least, end = typed(name, values, "I")
        needs(least < end, "Range", name)
        return least + int.from_bytes(self.word()[:8], "big") % (end - least)
