"""The built program, loaded once and called many times, up to 50 times in one process; of each call the allocations, opens, reads and
writes can be made to fail one by one (served.c). It needs gcc."""
import collections
import errno
import os
import resource
import shutil
import struct
import subprocess
import tempfile

TOP = os.path.dirname(os.path.dirname(os.path.abspath(__file__)))
PROGRAM = os.path.join(TOP, "bin", "x86_64-linux", "wflow")
KINDS = ("allocation", "open", "read", "write")
REQUESTS, ANSWERS = 198, 199
COUNT, REQUEST, PLAN, ANSWER = struct.Struct("=I"), struct.Struct("=4I"), struct.Struct("=2Q2I"), struct.Struct("=2IQ4Q")
BATCH = 50
FOREVER = 2**63

# How a call ended: `signal` and `status`, of which one is None, the greatest memory in KiB of its process until then, the seconds of the
# processor, and how many calls of each kind were made.
Ended = collections.namedtuple("Ended", "signal status kibibytes seconds calls")


def fast_folder():
    """A folder in memory, where there is one."""
    return tempfile.TemporaryDirectory(dir="/dev/shm" if os.access("/dev/shm", os.W_OK) else None)


def library(folder):
    """Builds served.c in a folder."""
    if shutil.which("gcc") is None:
        raise SystemExit("this needs gcc")
    built = os.path.join(folder, "served.so")
    subprocess.run(["gcc", "-O2", "-Wall", "-shared", "-fPIC", "-o", built, os.path.join(TOP, "fuzz", "served.c")], check=True)
    return built


def fails(kind, number, last=None, error=errno.EIO, most=0):
    """The plan of a call of which the calls of a kind fail from a number to the last one, which is the first where none is named."""
    return {kind: (number, number if last is None else last, errno.ENOMEM if kind == "allocation" else error, most)}


class Served:
    """The program, whose calls run in a folder."""

    def __init__(self, program, folder, built, stack=None, memory=None):
        self.folder = folder
        self.errors = open(os.path.join(folder, "errors"), "w+b")
        asks, self.requests = os.pipe()
        self.answers, says = os.pipe()

        def limits():
            os.dup2(asks, REQUESTS)
            os.dup2(says, ANSWERS)
            if stack:
                resource.setrlimit(resource.RLIMIT_STACK, (stack * 1024, stack * 1024))
            if memory:
                resource.setrlimit(resource.RLIMIT_AS, (memory, memory))
        self.process = subprocess.Popen([program], cwd=folder, stdin=subprocess.DEVNULL, stdout=subprocess.DEVNULL, stderr=self.errors,
                                        env={"LD_PRELOAD": built}, preexec_fn=limits, close_fds=False)
        os.close(asks)
        os.close(says)

    def __enter__(self):
        return self

    def __exit__(self, *_):
        os.close(self.requests)
        os.close(self.answers)
        self.process.wait()
        self.errors.close()

    def _got(self, size):
        found = b""
        while len(found) < size:
            more = os.read(self.answers, size - len(found))
            if not more:
                raise RuntimeError("the program that serves calls has ended")
            found += more
        return found

    def _ask(self, calls, seconds):
        asked = COUNT.pack(len(calls))
        for out, words, plan, *given in calls:
            text = b"".join(os.fsencode(word) + b"\0" for word in (out, *(given or [os.devnull]), *words))
            asked += REQUEST.pack(len(words), len(text), seconds, 0)
            asked += b"".join(PLAN.pack(*plan.get(kind, (0, 0, 0, 0))) for kind in KINDS) + text
        os.write(self.requests, asked)
        for _ in calls:
            status, kibibytes, used, *counts = ANSWER.unpack(self._got(ANSWER.size))
            signal = os.WTERMSIG(status) if os.WIFSIGNALED(status) else None
            yield Ended(signal, None if signal else os.WEXITSTATUS(status), kibibytes, used / 1e6, dict(zip(KINDS, counts)))

    def call(self, calls, seconds=10, together=BATCH):
        """Makes calls, each with the file of its output, its words, its plan and, where it has one, the file of its input; and tells of each
        how it ended and what it wrote."""
        for first in range(0, len(calls), together):
            some = calls[first:first + together]
            for (out, *_), ended in zip(some, list(self._ask(some, seconds))):
                with open(os.path.join(self.folder, out), "rb") as file:
                    yield ended, file.read()

    def said_on_error(self):
        """What was written to standard error until now; it is forgotten."""
        self.errors.seek(0)
        found = self.errors.read()
        self.errors.truncate(0)
        self.errors.seek(0)
        return found
