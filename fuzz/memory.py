#!/usr/bin/env python3
"""Lets the program run out of memory at each of its allocations.

  fuzz/memory.py [--thin K] [--program PATH]

Each call of calls.py is made once as it is, then with its first allocation failing, with its second, and so on, each of them twice: once
that one fails alone, and once with all after it. It has to end with status 5, and `out of memory` or, where no file was opened yet,
nothing written; or, where it can do without what failed, as it does otherwise. A talk may have said something by then: all that the lines
before some moment make it say, and nothing else. With --thin only each Kth allocation is tried, the first and the last included. The last
line is 'N passed, M failed'."""
import argparse
import itertools
import os
import sys
import time

import calls
import served

SECONDS = 30


def numbers(count, thin):
    """Each Kth of the numbers from 1 to a count, with the last."""
    return sorted({*range(1, count + 1, thin), count})


def ends(plain):
    """What a call may write that ends for want of memory."""
    fronts = itertools.accumulate((text for _, text in plain.moments[:-1]), initial=b"")
    return {front + b"out of memory\n" for front in fronts}


def wrong(ended, text, plain, ends):
    """What is wrong with how a call ended of which an allocation failed; None if nothing is."""
    if ended.signal:
        return "signal %d" % ended.signal
    if ended.status == 5 and (text in ends or text == b"" and ended.calls["open"] == 0):
        return None
    if (ended.status, text) == (plain.ended.status, plain.own):
        return None
    return "status %d with %r" % (ended.status, text[:200])


def tried(program, plain, thin):
    """How many failures of a call ended with want of memory, how many as the call does otherwise, and what was wrong."""
    asked = [(number, last) for number in numbers(plain.ended.calls["allocation"], thin) for last in (number, served.FOREVER)]
    made = [("out-%d" % (place % served.BATCH), plain.words, served.fails("allocation", *plan), plain.given)
            for place, plan in enumerate(asked)]
    want, same, harms, may = 0, 0, [], ends(plain)
    for plan, (ended, text) in zip(asked, program.call(made, SECONDS)):
        why = wrong(ended, text, plain, may)
        if why:
            harms.append("allocation %d%s: %s" % (plan[0], " and all behind it" if plan[1] > plan[0] else "", why))
        elif ended.status == 5:
            want += 1
        else:
            same += 1
    return want, same, harms


def main():
    parser = argparse.ArgumentParser(description=__doc__, formatter_class=argparse.RawDescriptionHelpFormatter)
    parser.add_argument("--thin", type=int, default=1, metavar="K")
    parser.add_argument("--program", default=served.PROGRAM, type=os.path.abspath)
    options = parser.parse_args()
    began, good, bad = time.time(), 0, 0
    with served.fast_folder() as folder, served.Served(options.program, folder, served.library(folder), memory=2**31) as program:
        for plain in calls.prepared(program, folder):
            want, same, harms = tried(program, plain, options.thin)
            print("%s: %d allocations, status %d; %d failures end with 5, %d as it does otherwise"
                  % (plain.name, plain.ended.calls["allocation"], plain.ended.status, want, same), flush=True)
            for harm in harms:
                print("  %s: %s" % (" ".join(plain.words), harm), flush=True)
            good += want + same
            bad += len(harms)
        said = program.said_on_error()
    if said:
        print("standard error: %r" % said[:1000])
    print("%d s" % (time.time() - began))
    print("%d passed, %d failed" % (good, bad))
    return 1 if bad or said or not good else 0


if __name__ == "__main__":
    sys.exit(main())
