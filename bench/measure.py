"""What all sections of the bench measure by: files in a folder of its own, the least time of some runs, the memory of one."""
import json
import os
import resource
import subprocess
import sys
import tempfile
import time

TOP = os.path.dirname(os.path.dirname(os.path.abspath(__file__)))
ROOM = tempfile.TemporaryDirectory()
FOLDER = ROOM.name
RUNS, ENOUGH = 5, 12
# Whether times are those of the processor, and no wall clock; bench.py sets it.
BY_PROCESSOR = False


def program():
    """The program, as bin/program finds it."""
    found = subprocess.run([os.path.join(TOP, "bin", "program")], stdout=subprocess.PIPE, text=True)
    if found.returncode:
        sys.exit(found.returncode)
    return found.stdout.strip()


def rows_program(name):
    """A program of rows, built where it isn't there."""
    built = os.path.join(TOP, "crates", name, "out", name)
    if not os.access(built, os.X_OK):
        done = subprocess.run(["rt", "run"], cwd=os.path.join(TOP, "crates", name), stdin=subprocess.DEVNULL, stdout=subprocess.PIPE,
                              stderr=subprocess.STDOUT, text=True)
        if done.returncode:
            sys.exit(done.stdout)
    return built


def path(name):
    return os.path.join(FOLDER, name)


def file(name, value):
    """The path of a file with that value as JSON."""
    with open(path(name), "w") as out:
        json.dump(value, out)
    return path(name)


def clock():
    """The time of this process: by the wall clock, or of the processor."""
    return time.process_time() if BY_PROCESSOR else time.perf_counter()


def children():
    """The processor's time of all processes that this one started and that have ended."""
    used = resource.getrusage(resource.RUSAGE_CHILDREN)
    return used.ru_utime + used.ru_stime


def once(words, given, ends):
    """The time of one run."""
    with open(given) as text:
        began, before = time.perf_counter(), children()
        ended = subprocess.run(words, stdin=text, stdout=subprocess.DEVNULL, stderr=subprocess.DEVNULL).returncode
        took = time.perf_counter() - began
    if ended not in ends:
        sys.exit("%s ended with %d" % (words, ended))
    return children() - before if BY_PROCESSOR else took


def least(words, given=os.devnull, ends=(0,)):
    """The least time of five runs, or of as many, two at least, as end within ENOUGH seconds."""
    times, began = [], time.perf_counter()
    while len(times) < 2 or len(times) < RUNS and time.perf_counter() - began < ENOUGH:
        times.append(once(words, given, ends))
    return max(min(times), 1e-4)


def memory(words, given=os.devnull):
    """The greatest memory of a run in MiB. A fresh interpreter starts it, since a process counts what it had before it became the
    program; so nothing below that interpreter's own 9 MiB can be seen."""
    start = "import os, sys; null = os.open('/dev/null', os.O_WRONLY); " \
        "pid = os.posix_spawn(sys.argv[1], sys.argv[1:], {}, file_actions=[(os.POSIX_SPAWN_DUP2, null, 1)]); " \
        "print(os.wait4(pid, 0)[2].ru_maxrss // 1024)"
    with open(given) as text:
        run = ["python3", "-I", "-S", "-c", start] + words
        return int(subprocess.run(run, stdin=text, stdout=subprocess.PIPE, check=True).stdout)


def said(words):
    """The last line that a call writes."""
    return subprocess.run(words, stdout=subprocess.PIPE).stdout.decode().splitlines()[-1]


def jq(name):
    """The time of `jq -c .` on a file."""
    return least(["jq", "-c", ".", name])


def handed(**more):
    """INPUTS."""
    return {"run": "bench", "moment": "2024-05-01T12:00:00Z"} | more


def head(first, *columns):
    print()
    print(("%-37s" + " %9s" * len(columns)) % ((first,) + columns), flush=True)


def line(first, *columns):
    """A line of a table: seconds are told with four digits, ratios with one."""
    shown = ["%9.4f" % one if isinstance(one, float) else "%9s" % (one,) for one in columns]
    print("%-37s %s" % (first, " ".join(shown)), flush=True)


def ratio(ours, theirs):
    return "%.2f" % (ours / theirs)


def mib(words, given=os.devnull):
    return "%d MiB" % memory(words, given)


def output(words):
    """All that a call writes."""
    return subprocess.run(words, stdout=subprocess.PIPE, check=True, text=True).stdout
