#!/usr/bin/env python3
"""Lets each call of files, of the input and of the output fail, or give less than it was asked for.

  fuzz/outside.py [--program PATH]

Each call of calls.py is made once as it is, and then
- with each open and each read of a file failing, by several errors: it has to end with status 3 and `cannot read` with the file's name,
  or with status 5 where the system says that it is for want of memory;
- with reads that give but 1, 7 or 4,096 bytes: it has to end as it does otherwise;
- with each read of a talk's input failing: with status 3, what the whole lines before it make it say, and `cannot read input`;
- with each write failing, by several errors or since nothing is taken, whole or in pieces of 1, 16 and 4,096 bytes: it has to end with
  status 4 and the pieces before it written, and as it does otherwise where the text ends before that write; a talk writes what each line
  makes it say by itself;
- with a write and an open failing: with status 4 and nothing written.
The last line is 'N passed, M failed'."""
import argparse
import errno
import json
import os
import sys
import time

import calls
import moments
import served

SECONDS = 30
OPENS = (errno.ENOENT, errno.EACCES, errno.EMFILE, errno.ENOMEM, errno.EIO)
READS = (errno.EIO, errno.EISDIR, errno.ENOMEM)
WRITES = (errno.ENOSPC, errno.EPIPE, errno.EIO, errno.EBADF, 0)
# The words of a command that are files, in the order in which they are read.
READ = {"check": (1,), "run": (1, 2), "trace": (1, 2, 3), "list": (1,), "fires": (1,), "session": (1, 2),
        "resubmit": (1, 2, 5, 6), "resubmit-set": (1, 2, 4, 5)}


def some(numbers, most):
    """At most so many of the numbers, the first and the last included."""
    numbers = list(numbers)
    return numbers if len(numbers) <= most else sorted({numbers[at * (len(numbers) - 1) // (most - 1)] for at in range(most)})


def unread(name, error):
    return (5, b"out of memory\n") if error == errno.ENOMEM else (3, b"cannot read %s\n" % json.dumps(name).encode())


def files_of(plain):
    return [plain.words[place] for place in READ[plain.words[0]] if place < len(plain.words)]


def of_files(plain, read_before):
    """The plans of failing files, with what each has to end with: status and text."""
    for number, name in enumerate(files_of(plain), 1):
        for error in OPENS:
            yield served.fails("open", number, error=error), unread(name, error)
        for read in range(read_before[number - 1] + 1, read_before[number] + 1):
            for error in READS:
                yield served.fails("read", read, error=error), unread(name, error)
        yield {**served.fails("open", number), **served.fails("write", 1)}, (4, b"")
    for most in (1, 7, 4096):
        yield {"read": (0, 0, 0, most)}, (plain.ended.status, plain.own)


def of_input(plain, before):
    """The same of a failing input, of whose reads so many of files come before."""
    for number in range(1, plain.moments[-1][0] + 1):
        status, made = moments.cut_by_source(plain.ended.status, plain.moments, number)
        for error in READS:
            yield served.fails("read", before + number, error=error), (status, b"".join(text for _, text in made))


def of_output(plain):
    """The same of a failing output."""
    for piece in (len(plain.own), 4096, 16, 1):
        yield {"write": (0, 0, 0, piece)}, (plain.ended.status, plain.own)
        writes = sum(-(-len(text) // piece) for _, text in plain.moments)
        for number in some(range(1, writes + 2), 400):
            for error in WRITES if piece > 1 else WRITES[number % len(WRITES):][:1]:
                owed = moments.cut_by_sink(plain.ended.status, plain.moments, piece, number)[:2]
                yield served.fails("write", number, error=error, most=piece), owed


def tried(program, plain):
    """How many calls ended as they have to, and what was wrong."""
    failing = [("out", plain.words, served.fails("open", number), plain.given) for number in range(1, len(files_of(plain)) + 1)]
    reads = plain.ended.calls["read"] - plain.moments[-1][0]
    read_before = [ended.calls["read"] for ended, _ in program.call(failing, SECONDS, 1)] + [reads]
    plans = [*of_files(plain, read_before), *of_input(plain, reads), *of_output(plain)]
    made = [("out-%d" % (place % served.BATCH), plain.words, plan, plain.given) for place, (plan, _) in enumerate(plans)]
    harms = []
    for (plan, owed), (ended, text) in zip(plans, program.call(made, SECONDS)):
        if ended.signal or (ended.status, text) != owed:
            harms.append("%r: %s %r and not %r" % (plan, "signal %d" % ended.signal if ended.signal else "status %d" % ended.status,
                                                   text[:100], owed))
    return len(plans) - len(harms), harms


def main():
    parser = argparse.ArgumentParser(description=__doc__, formatter_class=argparse.RawDescriptionHelpFormatter)
    parser.add_argument("--program", default=served.PROGRAM, type=os.path.abspath)
    options = parser.parse_args()
    began, good, bad = time.time(), 0, 0
    with served.fast_folder() as folder, served.Served(options.program, folder, served.library(folder), memory=2**31) as program:
        for plain in calls.prepared(program, folder):
            passed, harms = tried(program, plain)
            print("%s: %d opens, %d reads, %d bytes written; %d calls" % (
                plain.name, plain.ended.calls["open"], plain.ended.calls["read"], len(plain.own), passed + len(harms)), flush=True)
            for harm in harms[:20]:
                print("  %s: %s" % (" ".join(plain.words), harm), flush=True)
            good += passed
            bad += len(harms)
        said = program.said_on_error()
    if said:
        print("standard error: %r" % said[:1000])
    print("%d s" % (time.time() - began))
    print("%d passed, %d failed" % (good, bad))
    return 1 if bad or said or not good else 0


if __name__ == "__main__":
    sys.exit(main())
