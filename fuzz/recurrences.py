#!/usr/bin/env python3
"""Runs the row program of recurrences on random triggers, and compares each answer with the one that is owed.

  fuzz/recurrences.py [--count N] [--seed N] [--program PATH]
  fuzz/recurrences.py --owed <crates/recurrence_rows/stdin >crates/recurrence_rows/stdout
  fuzz/recurrences.py --rows [--count N] [--seed N]

The first makes rows and runs crates/recurrence_rows/out/recurrence_rows, or the program of PATH, once on all of them. The second writes
what the rows owe, the third random rows. What a row means stands at the head of crates/recurrence_rows/src/main.rt. The judge, which is
apart from the program, counts with Python's datetime: it goes over days, hours and minutes, and over months by their names, from the
start on or from shortly before the moment that is asked for. The last line is 'N passed, M failed'."""
import argparse
import calendar
import collections
import datetime
import json
import os
import random
import re
import subprocess
import sys

TOP = os.path.dirname(os.path.dirname(os.path.abspath(__file__)))
FREQUENCIES = ("Second", "Minute", "Hour", "Day", "Week", "Month")
WEEKDAYS = ("sunday", "monday", "tuesday", "wednesday", "thursday", "friday", "saturday")
STEPS = {"second": 1, "minute": 60, "hour": 3600, "day": 86400, "week": 604800}
DAY = datetime.timedelta(days=1)
WRITTEN = re.compile(r"(\d{4})-(\d\d)-(\d\d)(?:T(\d\d):(\d\d)(?::(\d\d)(?:\.(\d{1,7}))?)?(?:Z|([+-])(\d\d):(\d\d))?)?\Z", re.ASCII)


class Refused(Exception):
    """A trigger has no recurrence whose moments can be told."""


# A moment: a datetime in whole seconds, and the ticks of 100 ns behind them.
def moment_of(text):
    found = WRITTEN.match(text) if isinstance(text, str) else None
    if not found:
        return None
    year, month, day, hour, minute, second, fraction, sign, offset_hours, offset_minutes = found.groups()
    try:
        when = datetime.datetime(int(year), int(month), int(day), int(hour or 0), int(minute or 0), int(second or 0))
        offset = datetime.timedelta(hours=int(offset_hours or 0), minutes=int(offset_minutes or 0))
        if int(offset_hours or 0) > 14 or int(offset_minutes or 0) > 59:
            return None
        return (when - offset if sign == "+" else when + offset), int((fraction or "0").ljust(7, "0"))
    except (ValueError, OverflowError):
        return None


def printed(moment):
    return "%s.%07dZ" % (moment[0].isoformat(), moment[1])


def number_below(value, end):
    if isinstance(value, str) and re.fullmatch("[0-9]{1,2}", value):
        value = int(value)
    return value if isinstance(value, int) and not isinstance(value, bool) and 0 <= value < end else None


def weekday_of(value):
    return WEEKDAYS.index(value.lower()) if isinstance(value, str) and value.isascii() and value.lower() in WEEKDAYS else None


PLACES = {
    "hours": lambda value: number_below(value, 24), "minutes": lambda value: number_below(value, 60), "weekDays": weekday_of}


def named(value, names):
    return value.lower() if isinstance(value, str) and value.isascii() and value.lower() in names else None


# What is amiss in a recurrence, as pointers.
def flaws(recurrence):
    if not isinstance(recurrence, dict):
        return [""]
    found = []
    if named(recurrence.get("frequency"), [name.lower() for name in FREQUENCIES]) is None:
        found.append("/frequency")
    interval = recurrence.get("interval")
    if not isinstance(interval, int) or isinstance(interval, bool) or not 1 <= interval <= 9999999:
        found.append("/interval")
    if "startTime" in recurrence and moment_of(recurrence["startTime"]) is None:
        found.append("/startTime")
    if "timeZone" in recurrence and not isinstance(recurrence["timeZone"], str):
        found.append("/timeZone")
    schedule = recurrence.get("schedule", {})
    if not isinstance(schedule, dict):
        return found + ["/schedule"]
    for name, place_of in PLACES.items():
        value = schedule.get(name, [])
        if isinstance(value, list):
            found += ["/schedule/%s/%d" % (name, place) for place, item in enumerate(value) if place_of(item) is None]
        elif place_of(value) is None:
            found.append("/schedule/" + name)
    return found


# The numbers that a schedule names.
def places(schedule, name):
    value = schedule.get(name, [])
    return sorted({PLACES[name](item) for item in (value if isinstance(value, list) else [value])})


# So many months later, on the same day of the month or on its last.
def months_later(moment, months):
    year, month = divmod(moment.year * 12 + moment.month - 1 + months, 12)
    if year > 9999:
        return None
    return moment.replace(year=year, month=month + 1, day=min(moment.day, calendar.monthrange(year, month + 1)[1]))


# The moments due from the start on: all of them, in their order, but those long before `least`.
def by_months(start, interval, least):
    count = max(0, ((least[0].year - start[0].year) * 12 + least[0].month - start[0].month) // interval - 1)
    while (when := months_later(start[0], count * interval)) is not None:
        yield when, start[1]
        count += 1


def by_steps(start, step, least):
    seconds = (least[0] - start[0]).days * 86400 + (least[0] - start[0]).seconds
    count = max(0, seconds // step - 1)
    while True:
        try:
            yield start[0] + datetime.timedelta(days=count * step // 86400, seconds=count * step % 86400), start[1]
        except OverflowError:
            return
        count += 1


def by_schedule(start, interval, least, hours, minutes, weekdays):
    first = start[0].date()
    if weekdays is not None:
        first -= first.weekday() * DAY
    day, unit = least[0].date(), 1 if weekdays is None else 7
    while True:
        passed = (day - first).days // unit
        if passed % interval == 0 and (weekdays is None or (day.weekday() + 1) % 7 in weekdays):
            for hour in hours:
                for minute in minutes:
                    yield datetime.datetime(day.year, day.month, day.day, hour, minute), 0
        try:
            day += DAY if passed % interval == 0 else (first - day) + DAY * unit * (passed + interval - passed % interval)
        except OverflowError:
            return


def candidates(recurrence, start, least):
    frequency, interval, schedule = recurrence["frequency"].lower(), recurrence["interval"], recurrence.get("schedule", {})
    hours, minutes, weekdays = (places(schedule, name) for name in PLACES)
    own = [start[0].hour], [start[0].minute], [(start[0].weekday() + 1) % 7]
    if frequency == "month":
        return by_months(start, interval, least)
    if frequency == "day" and (hours or minutes):
        return by_schedule(start, interval, least, hours or own[0], minutes or own[1], None)
    if frequency == "week" and (hours or minutes or weekdays):
        return by_schedule(start, interval, least, hours or own[0], minutes or own[1], weekdays or own[2])
    return by_steps(start, interval * STEPS[frequency], least)


def read(trigger):
    if not isinstance(trigger, dict) or named(trigger.get("type"), ["recurrence"]) is None:
        raise Refused("NotRecurrence")
    found = flaws(trigger.get("recurrence"))
    if found:
        raise Refused("Form " + json.dumps("/recurrence" + min(found, key=str.encode)))
    recurrence = trigger["recurrence"]
    if named(recurrence.get("timeZone", "UTC"), ["utc"]) is None:
        raise Refused("Zone " + json.dumps(recurrence["timeZone"], ensure_ascii=False))
    return recurrence


def moments(recurrence, moment, count):
    start = moment_of(recurrence["startTime"]) if "startTime" in recurrence else moment
    least, listed = max(start, moment), []
    for one in candidates(recurrence, start, least):
        if len(listed) == count:
            break
        if one >= least:
            listed.append(one)
    return listed


def owed(row):
    try:
        trigger, moment, count = row.decode().split("\t")
        trigger, moment, count = json.loads(trigger), moment_of(moment), int(count)
    except ValueError:
        return "unread"
    if moment is None:
        return "unread"
    try:
        return " ".join(map(printed, moments(read(trigger), moment, count))) or "none"
    except Refused as refused:
        return str(refused)


# ---- random rows

def any_moment(rng):
    year = rng.choice([1, 4, 1900, 2000, 2023, 2024, 2024, 2024, 2025, 2100, 9998, 9999]) if rng.random() < 0.9 else rng.randrange(1, 10000)
    month = rng.choice([1, 2, 3, 12, rng.randrange(1, 13)])
    last = calendar.monthrange(year, month)[1]
    text = "%04d-%02d-%02d" % (year, month, rng.choice([1, last, rng.randrange(1, last + 1)]))
    if rng.random() < 0.2:
        return text
    text += "T%02d:%02d" % (rng.choice([0, 23, rng.randrange(24)]), rng.choice([0, 59, rng.randrange(60)]))
    if rng.random() < 0.7:
        text += ":%02d" % rng.choice([0, 0, 59, rng.randrange(60)])
        if rng.random() < 0.3:
            text += "." + rng.choice(["5", "0000001", "123", "9999999"])
    return text + rng.choice(["", "Z", "Z", "+02:00" if year > 1 else "Z", "-08:30" if year < 9999 else "Z"])


def near(rng, text):
    """A moment not far from another one."""
    when = moment_of(text)
    if when is None or rng.random() < 0.3:
        return any_moment(rng)
    days = rng.choice([0, 0, 1, 6, 7, 30, 31, 366, rng.randrange(4000)]) * rng.choice([1, 1, -1])
    try:
        return printed((when[0] + datetime.timedelta(days=days, seconds=rng.choice([0, 0, 1, -1, rng.randrange(86400)])), when[1]))
    except OverflowError:
        return text


def any_places(rng, name, odd):
    if name == "weekDays":
        one = lambda: rng.choice([str.title, str.lower, str.upper])(rng.choice(WEEKDAYS))
    else:
        end = 24 if name == "hours" else 60
        one = lambda: rng.choice([int, int, int, str, "{:02d}".format])(rng.choice([0, end - 1, rng.randrange(end)]))
    if rng.random() < odd:
        return rng.choice([None, True, -1, 24, 60, "", "x", "100", "Mon", {}, [one(), "x"], [[0]], [None]])
    return one() if rng.random() < 0.2 else [one() for _ in range(rng.choice([0, 1, 1, 2, 3, 5]))]


def any_recurrence(rng, odd):
    frequency = rng.choice(FREQUENCIES)
    made = {
        "frequency": rng.choice([str, str, str.lower, str.upper])(frequency),
        "interval": rng.choice([1, 1, 1, 2, 2, 3, 5, 7, 12, 30, 90, 1000, 9999999, rng.randrange(1, 10000000)])}
    if rng.random() < 0.7:
        made["startTime"] = any_moment(rng)
    if rng.random() < 0.2:
        made["timeZone"] = rng.choice(["UTC", "utc", "Utc", "UTC", "Pacific Standard Time"] if odd else ["UTC", "utc"])
    if rng.random() < (0.85 if frequency in ("Day", "Week") else 0.2):
        made["schedule"] = {name: any_places(rng, name, odd) for name in PLACES if rng.random() < 0.6}
    if rng.random() < odd * 2:
        name = rng.choice(["frequency", "interval", "startTime", "timeZone", "schedule"])
        made[name] = rng.choice([None, "", "Year", "Day ", 0, -1, 10000000, [], "2024-02-30", 5, {}])
    return made if rng.random() > odd / 2 else rng.choice([None, [], "Day"])


def any_trigger(rng):
    odd = rng.choice([0, 0, 0, 0, 0.2])
    made = {"type": rng.choice(["Recurrence", "Recurrence", "recurrence", "RECURRENCE"])}
    if rng.random() > odd / 2:
        made["recurrence"] = any_recurrence(rng, odd)
    if rng.random() < odd / 2:
        made["type"] = rng.choice(["Request", "Recurrences", None])
    return made


def any_row(rng):
    trigger = any_trigger(rng)
    recurrence = trigger.get("recurrence")
    start = recurrence.get("startTime") if isinstance(recurrence, dict) else None
    count = rng.choice([1, 2, 3, 3, 4, 8])
    return ("%s\t%s\t%d" % (json.dumps(trigger, separators=(",", ":")), near(rng, start), count)).encode()


def main():
    parser = argparse.ArgumentParser(description=__doc__, formatter_class=argparse.RawDescriptionHelpFormatter)
    parser.add_argument("--count", type=int, default=3000)
    parser.add_argument("--seed", type=int, default=1)
    parser.add_argument("--program", default=os.path.join(TOP, "crates", "recurrence_rows", "out", "recurrence_rows"))
    parser.add_argument("--owed", action="store_true")
    parser.add_argument("--rows", action="store_true")
    words = parser.parse_args()
    if words.owed:
        for row in sys.stdin.buffer.read().split(b"\n"):
            if row:
                print(row.decode() if row.startswith(b"#") else owed(row))
        return 0
    rng = random.Random(words.seed)
    rows = [any_row(rng) for _ in range(words.count)]
    if words.rows:
        sys.stdout.buffer.write(b"".join(row + b"\n" for row in rows))
        return 0
    ended = subprocess.run([words.program], input=b"\n".join(rows), capture_output=True, timeout=600)
    got = ended.stdout.decode().splitlines()
    wanted = [owed(row) for row in rows]
    failed = abs(len(got) - len(wanted)) + (ended.returncode != 0)
    for row, one, other in zip(rows, got, wanted):
        if one != other:
            failed += 1
            print("%s\n  answered %s\n  and owed %s" % (row.decode(), one, other))
    counts = collections.Counter("moments" if answer[0].isdigit() else answer.split(" ")[0] for answer in wanted)
    print("seed %d, owed %s" % (words.seed, dict(sorted(counts.items()))))
    print("%d passed, %d failed" % (max(words.count - failed, 0), failed))
    return 1 if failed else 0


if __name__ == "__main__":
    sys.exit(main())
