#!/usr/bin/env python3
"""Runs the row program of schemas on random schemas and values, and compares each answer with the one that is owed.

  fuzz/schemas.py [--count N] [--seed N] [--program PATH]
  fuzz/schemas.py --owed <crates/schema_rows/stdin >crates/schema_rows/stdout

The first makes rows and runs crates/schema_rows/out/schema_rows, or the program of PATH, once on all of them. The second writes what the
rows owe. What a row means stands at the head of crates/schema_rows/src/main.rt. The judge, which is apart from the program, lists all places
by docs/DEFINITIONS.md and takes the least at the end. It fails too where of one row in ten or fewer the first is no schema, or the value
fails, or passes. The last line is 'N passed, M failed'."""
import argparse
import collections
import os
import random
import subprocess
import sys

from reading import Refused, compact, read

# The types of a schema, each by the type in Python of what is of it.
KINDS = {"null": type(None), "boolean": bool, "integer": int, "number": int, "string": str, "array": list, "object": dict}
TOP = os.path.dirname(os.path.dirname(os.path.abspath(__file__)))


def behind(step, pointers):
    return ["/" + str(step).replace("~", "~0").replace("/", "~1") + pointer for pointer in pointers]


def is_type(value):
    return isinstance(value, str) and value in KINDS


# The places in a list whose items the test refuses.
def refused(items, test):
    return [pointer for place, item in enumerate(items) if not test(item) for pointer in behind(place, [""])]


# What is asked of the member of each name in a schema: the places at which it isn't so, from the member on.
def types(value):
    if not isinstance(value, list):
        return [] if is_type(value) else [""]
    return refused(value, is_type) if value else [""]


def names(value):
    return refused(value, lambda item: isinstance(item, str)) if isinstance(value, list) else [""]


def inner(value):
    if not isinstance(value, dict):
        return [""]
    return [pointer for name, schema in value.items() for pointer in behind(name, flaws(schema))]


KEYWORDS = {
    "type": types, "required": names, "properties": inner, "items": lambda value: [] if isinstance(value, list) else flaws(value),
    "enum": lambda value: [] if isinstance(value, list) else [""]}


def flaws(value):
    """All places at which a value isn't as a schema has to be."""
    if not isinstance(value, dict):
        return [""]
    return [pointer for name, test in KEYWORDS.items() if name in value for pointer in behind(name, test(value[name]))]


# Whether a value is as a schema asks, what is in it apart.
def is_met(schema, value):
    listed = schema.get("type", list(KINDS))
    if type(value) not in [KINDS[name] for name in (listed if isinstance(listed, list) else [listed])]:
        return False
    if isinstance(value, dict) and not set(schema.get("required", [])) <= set(value):
        return False
    return "enum" not in schema or compact(value) in [compact(one) for one in schema["enum"]]


def failures(schema, value):
    """All places at which a value fails a schema."""
    found = [] if is_met(schema, value) else [""]
    if isinstance(value, dict):
        parts = [(name, schema.get("properties", {})[name], part) for name, part in value.items() if name in schema.get("properties", {})]
    elif isinstance(value, list) and isinstance(schema.get("items"), dict):
        parts = [(place, schema["items"], part) for place, part in enumerate(value)]
    else:
        parts = []
    return found + [pointer for step, one, part in parts for pointer in behind(step, failures(one, part))]


def least(pointers):
    return compact(min(pointers, key=str.encode))


def owed(row):
    """The answer to a row, which is bytes without their line's end."""
    texts = row.split(b"\t", 1)
    try:
        schema, value = [read(text, len(row)) for text in texts]
    except (Refused, ValueError):
        return "unread"
    flawed = flaws(schema)
    if flawed:
        return "no schema " + least(flawed)
    failed = failures(schema, value)
    return "fails " + least(failed) if failed else "passes"


NAMES = ["a", "b", "A", "a/b", "a~b", "~1", "", "a-b", "a0", "é", "😀", "type", "enum", "10", "2"]
SCALARS = [None, True, False, 0, 1, -1, 7, 2**63 - 1, -(2**63), "", "a", "A", "null", "1", "é"]


def any_value(rng, depth):
    kind = rng.randrange(4 if depth < 3 else 2)
    if kind < 2:
        return rng.choice(SCALARS)
    if kind == 2:
        return [any_value(rng, depth + 1) for _ in range(rng.randrange(4))]
    return {name: any_value(rng, depth + 1) for name in rng.sample(NAMES, rng.randrange(4))}


# A schema, and seldom something like one.
def any_schema(rng, depth, odd):
    if rng.random() < odd:
        return any_value(rng, 1)
    schema = {}
    for keyword, chance in (("type", 0.6), ("required", 0.3), ("properties", 0.6), ("items", 0.5), ("enum", 0.12)):
        if rng.random() < (chance if depth < 4 else chance / 4):
            schema[keyword] = any_value(rng, 1) if rng.random() < odd else keyword_value(rng, keyword, depth, odd)
    for name in ("$schema", "Type", "additionalProperties", "minimum", "format"):
        if rng.random() < 0.05:
            schema[name] = any_value(rng, 2)
    return dict(rng.sample(list(schema.items()), len(schema)))


def keyword_value(rng, keyword, depth, odd):
    if keyword == "type":
        listed = rng.sample(list(KINDS), rng.randrange(1, 5)) * rng.choice([1, 1, 1, 4])
        if rng.random() < odd:
            listed[rng.randrange(len(listed))] = rng.choice([None, 5, "Null", "any", "", ["null"]])
        return listed[0] if rng.random() < 0.6 else listed if rng.random() > odd else []
    if keyword == "required":
        listed = [rng.choice(NAMES) for _ in range(rng.choice([0, 1, 1, 2, 3]))]
        return listed if rng.random() > odd else listed + [rng.choice([None, 5, True, []])]
    if keyword == "properties":
        return {name: any_schema(rng, depth + 1, odd) for name in rng.sample(NAMES, rng.randrange(5))}
    if keyword == "items":
        return any_schema(rng, depth + 1, odd) if rng.random() < 0.85 else [any_value(rng, 1) for _ in range(rng.randrange(3))]
    return [any_value(rng, 2) for _ in range(rng.choice([0, 1, 3, 5]))]


# A value that a schema may be about to pass; what is no schema is taken for one that asks nothing.
def about(rng, schema, depth):
    if depth > 6 or not isinstance(schema, dict) or rng.random() < 0.05:
        return any_value(rng, 2)
    if isinstance(schema.get("enum"), list) and schema["enum"] and rng.random() < 0.9:
        return rng.choice(schema["enum"])
    listed = schema.get("type", "object" if "properties" in schema or "required" in schema else "array" if "items" in schema else "null")
    kind = rng.choice(listed) if isinstance(listed, list) and listed else listed
    if kind == "object":
        made = {name: any_value(rng, 2) for name in rng.sample(NAMES, rng.randrange(2))}
        properties, required = schema.get("properties"), schema.get("required")
        for name, one in properties.items() if isinstance(properties, dict) else ():
            if rng.random() < 0.7:
                made[name] = about(rng, one, depth + 1)
        for name in required if isinstance(required, list) else ():
            if isinstance(name, str) and rng.random() < 0.9:
                made.setdefault(name, rng.choice(SCALARS))
        return made
    if kind == "array":
        return [about(rng, schema.get("items"), depth + 1) for _ in range(rng.choice([0, 1, 2, 3, 12]))]
    fitting = [one for one in SCALARS if isinstance(kind, str) and kind in KINDS and type(one) is KINDS[kind]]
    return rng.choice(fitting or SCALARS)


def case(rng):
    """A schema, or something like one, and a value."""
    schema = any_schema(rng, 0, rng.choice([0, 0, 0, 0.05, 0.2]))
    return schema, about(rng, schema, 0)


def row_of(schema, value):
    return ("%s\t%s" % (compact(schema), compact(value))).encode()


def main():
    parser = argparse.ArgumentParser(description=__doc__, formatter_class=argparse.RawDescriptionHelpFormatter)
    parser.add_argument("--count", type=int, default=3000)
    parser.add_argument("--seed", type=int, default=1)
    parser.add_argument("--program", default=os.path.join(TOP, "crates", "schema_rows", "out", "schema_rows"))
    parser.add_argument("--owed", action="store_true")
    words = parser.parse_args()
    if words.owed:
        for row in sys.stdin.buffer.read().split(b"\n"):
            if row:
                print(row.decode() if row.startswith(b"#") else owed(row))
        return 0
    rng = random.Random(words.seed)
    rows = [row_of(*case(rng)) for _ in range(words.count)]
    ended = subprocess.run([words.program], input=b"\n".join(rows), capture_output=True, timeout=60)
    got = ended.stdout.decode().splitlines()
    wanted = [owed(row) for row in rows]
    failed = abs(len(got) - len(wanted)) + (ended.returncode != 0)
    for row, one, other in zip(rows, got, wanted):
        if one != other:
            failed += 1
            print("%s\n  answered %s\n  and owed %s" % (row.decode(), one, other))
    counts = collections.Counter(answer.split(' "')[0] for answer in wanted)
    print("seed %d, owed %s" % (words.seed, dict(sorted(counts.items()))))
    for word in ("no schema", "fails", "passes"):
        if counts[word] * 10 < words.count:
            failed += 1
            print("only %d rows are owed '%s'" % (counts[word], word))
    print("%d passed, %d failed" % (max(words.count - failed, 0), failed))
    return 1 if failed else 0


if __name__ == "__main__":
    sys.exit(main())
