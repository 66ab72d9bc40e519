"""A reader of JSON of its own, for the judge of fuzz.py: what a file holds, or the fault and its place."""
import json
import re

def compact(value):
    return json.dumps(value, separators=(",", ":"), ensure_ascii=False, sort_keys=True)


DEFINITION_BYTES, INPUTS_BYTES = 4 * 2**20, 64 * 2**20
NESTED_AT_MOST, READ_AT_MOST = 120, 127
NUMBER = re.compile(r"-?(0|[1-9][0-9]*)(\.[0-9]+)?([eE][-+]?[0-9]+)?")
BLANKS = re.compile("[ \t\r\n]*")
WORDS = {"null": None, "true": True, "false": False}
ESCAPES = {'"': '"', "\\": "\\", "/": "/", "b": "\b", "f": "\f", "n": "\n", "r": "\r", "t": "\t"}


class Refused(Exception):
    """A file isn't of its form; the words are its fault as it is printed."""


class NotWhole:
    """A number that is no whole one of 64 bits."""


# A reader of RFC 8259 over a text, by recursion; the place moves on as it reads.
class Reader:
    def __init__(self, text):
        self.text, self.place = text, 0

    def next(self):
        return self.text[self.place:self.place + 1]

    def take(self, word):
        if not self.text.startswith(word, self.place):
            raise Refused("NotJson")
        self.place += len(word)

    def blanks(self):
        self.place = BLANKS.match(self.text, self.place).end()

    def whole(self):
        self.blanks()
        value = self.value(0)
        self.blanks()
        if self.next():
            raise Refused("NotJson")
        return value

    def value(self, within):
        if self.next() in ("[", "{"):
            if within == READ_AT_MOST:
                raise Refused("NotJson")
            return self.list(within + 1) if self.next() == "[" else self.object(within + 1)
        if self.next() == '"':
            return self.string()
        for word, value in WORDS.items():
            if self.text.startswith(word, self.place):
                self.place += len(word)
                return value
        return self.number()

    def list(self, within):
        items = []
        self.take("[")
        self.blanks()
        while self.next() != "]":
            if items:
                self.take(",")
                self.blanks()
            items.append(self.value(within))
            self.blanks()
        self.take("]")
        return items

    def object(self, within):
        members, count = {}, 0
        self.take("{")
        self.blanks()
        while self.next() != "}":
            if count:
                self.take(",")
                self.blanks()
            name = self.string()
            self.blanks()
            self.take(":")
            self.blanks()
            members[name] = self.value(within)
            count += 1
            self.blanks()
        self.take("}")
        return members

    def unit(self):
        digits = self.text[self.place:self.place + 4]
        if not re.fullmatch("[0-9a-fA-F]{4}", digits):
            raise Refused("NotJson")
        self.place += 4
        return int(digits, 16)

    def escape(self):
        letter = self.next()
        self.place += 1
        if letter in ESCAPES:
            return ESCAPES[letter]
        if letter != "u":
            raise Refused("NotJson")
        first = self.unit()
        if 0xD800 <= first < 0xDC00:
            self.take("\\u")
            second = self.unit()
            if not 0xDC00 <= second < 0xE000:
                raise Refused("NotJson")
            return chr(0x10000 + (first - 0xD800) * 0x400 + second - 0xDC00)
        if 0xDC00 <= first < 0xE000:
            raise Refused("NotJson")
        return chr(first)

    def string(self):
        self.take('"')
        letters = []
        while self.next() != '"':
            letter = self.next()
            if letter < " ":
                raise Refused("NotJson")
            self.place += 1
            letters.append(self.escape() if letter == "\\" else letter)
        self.place += 1
        return "".join(letters)

    def number(self):
        found = NUMBER.match(self.text, self.place)
        if not found or float(found.group()) in (float("inf"), float("-inf")):
            raise Refused("NotJson")
        self.place = found.end()
        plain = not found.group(2) and not found.group(3) and found.group() != "-0"
        return int(found.group()) if plain and -(2**63) <= int(found.group()) < 2**63 else NotWhole()


# The pointers of all places below a value of which the test says so, by its bytes and how many lists and objects it stands in.
def places(value, test, pointer=b"", within=0):
    if test(value, within):
        yield pointer
    parts = value.items() if isinstance(value, dict) else enumerate(value) if isinstance(value, list) else ()
    for step, part in parts:
        step = str(step).replace("~", "~0").replace("/", "~1").encode()
        yield from places(part, test, pointer + b"/" + step, within + 1)


def read(data, limit):
    if len(data) > limit:
        raise Refused("too long")
    try:
        value = Reader(data.removeprefix(b"\xef\xbb\xbf").decode("utf-8")).whole()
    except UnicodeDecodeError:
        raise Refused("NotJson")
    tests = [
        ("NotWhole", lambda part, within: isinstance(part, NotWhole)),
        ("TooDeep", lambda part, within: isinstance(part, (list, dict)) and within >= NESTED_AT_MOST),
    ]
    for word, test in tests:
        least = min(places(value, test), default=None)
        if least is not None:
            raise Refused(word + " " + compact(least.decode()))
    return value
