#!/usr/bin/env python3
"""Drills of every size, and words that are none: what `wflow drill N` says beside what it owes.

  fuzz/drills.py [--program PROGRAM] [--model FOLDER] [--from N] [--to N]

Of each size from 1 to 400 the line is compared with what is known of it without making a run: 2 N + 3 rows; 6 for the actions that are
there for each size, 6 for each call and number, and one for each call that is tried twice, as steps; at most one leaf at a time under the
empty schedule; and that it succeeds. The other two peaks are at least that, and at most as many as leaves may run at once. With the engine
in the folder of --model (model.py says what that is) the whole line is compared. All other words get the usage line and status 2."""
import argparse
import os
import re
import subprocess
import sys

import model

TOP = os.path.dirname(os.path.dirname(os.path.abspath(__file__)))
LINE = re.compile(rb"drill (\d+) rows (\d+) steps (\d+) peak (\d+) (\d+) (\d+) status (\w+)\n")
NONE = ["", "0", "00", "01", "001", "401", "0400", "1000", "4000000000", "18446744073709551617", "-1", "+1", "1 ", " 1", "1.0", "1e2", "x", "one"]


def told(program, *words):
    done = subprocess.run([program, *words], stdin=subprocess.DEVNULL, capture_output=True)
    return done.returncode, done.stdout


# What is wrong with a line, by what is known of each size.
def wrong(size, status, text):
    found = LINE.fullmatch(text)
    if status != 0 or not found:
        return "no line"
    number, rows, steps, first, second, third = map(int, found.groups()[:6])
    if (number, rows, steps, first) != (size, 2 * size + 3, 6 + 6 * size + -(-size // 3), 1):
        return "figures"
    if found.group(7) != b"Succeeded":
        return "status"
    if not all(1 <= peak <= 2 * size for peak in (second, third)):
        return "peaks"
    return None


def main():
    parser = argparse.ArgumentParser(description=__doc__, formatter_class=argparse.RawDescriptionHelpFormatter)
    parser.add_argument("--program", default=os.path.join(TOP, "bin", "wflow"))
    parser.add_argument("--model")
    parser.add_argument("--from", dest="first", type=int, default=1)
    parser.add_argument("--to", type=int, default=400)
    words = parser.parse_args()
    engine = model.of(words.model) if words.model else None
    bad = compared = 0
    for size in range(words.first, words.to + 1):
        status, text = told(words.program, "drill", str(size))
        fault = wrong(size, status, text)
        if not fault and engine:
            compared += 1
            if engine(["drill", str(size)], {}) != (status, text):
                fault = "the engine of --model says another line"
        if fault:
            bad += 1
            print("drill %d: %s: %d %r" % (size, fault, status, text))
    for word in NONE:
        status, text = told(words.program, "drill", word)
        if status != 2 or not text.startswith(b"usage: ") or text.count(b"\n") != 1:
            bad += 1
            print("drill %r: no usage line: %d %r" % (word, status, text))
    print("%d sizes, %d of them beside the other engine, and %d words that are no size: %d differ" %
          (words.to - words.first + 1, compared, len(NONE), bad))
    sys.exit(1 if bad else 0)


if __name__ == "__main__":
    main()
