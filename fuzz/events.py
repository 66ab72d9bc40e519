"""What happens in a run of a flat definition under a schedule: a small machine, which asks of the rows no more than the statuses that the
actions end in. Decided apart from the program, after docs/ORDER.md and docs/FORMATS.md; runs.py and machine.py stand on this."""
import rules
from reading import Refused, compact

SCHEDULE_BYTES = 64 * 2**20


# The numbers of a schedule's lines.
def read_schedule(data):
    if len(data) > SCHEDULE_BYTES:
        raise Refused("too long")
    lines = data.split(b"\n")
    if not lines[-1]:
        lines.pop()
    numbers = []
    for number, line in enumerate(lines, 1):
        digits = line.removesuffix(b"\r")
        if not 1 <= len(digits) <= 10 or digits.strip(b"0123456789") or int(digits) >= 2**32:
            raise Refused("Line %d" % number)
        numbers.append(int(digits))
    return numbers


# Whether an action runs, once all that it waits for has ended.
def is_met(action, rows):
    needs = action.get("runAfter", {})
    return all(any(rules.low(one) == rows[other]["status"].lower() for one in listed) for other, listed in needs.items())


# The events in the order in which they come, each with how many actions are running behind it: turn k takes the enabled event at the place
# that the schedule has for it, counted around, in byte order of the names; after the schedule's end the first.
def events(actions, rows, schedule):
    waiting = {name: set(action.get("runAfter", {})) for name, action in actions.items()}
    enabled = {name for name, others in waiting.items() if not others}
    running, turn = set(), 0
    while enabled:
        place = schedule[turn] % len(enabled) if turn < len(schedule) else 0
        name, turn = sorted(enabled, key=str.encode)[place], turn + 1
        if name not in running and is_met(actions[name], rows):
            running.add(name)
            yield "Start", name, len(running)
            continue
        kind = "End" if name in running else "Skip"
        running.discard(name)
        enabled.remove(name)
        del waiting[name]
        for other, others in waiting.items():
            if name in others:
                others.remove(name)
                enabled |= set() if others else {other}
        yield kind, name, len(running)


# What is told of an event, behind its name.
def told(kind, row):
    if kind == "Start":
        return " " + (compact(row["inputs"]) if row["error"] is None else "!" + row["error"])
    return " %s %s" % (row["status"], compact(row["outputs"])) if kind == "End" else ""


# The lines of the events, how many there are, and how many actions were running at a time at most.
def happened(actions, rows, schedule):
    lines, peak = [], 0
    for number, (kind, name, running) in enumerate(events(actions, rows, schedule), 1):
        lines.append("# %d %s %s%s\n" % (number, kind, name, told(kind, rows[name])))
        peak = max(peak, running)
    return lines, len(lines), peak
