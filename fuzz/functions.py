"""What the functions of the expression language give, decided apart from the program: templates.py stands on this.

Written from docs/FUNCTIONS.md, by Python's own means. `give` answers for every function that takes values alone; those that ask for
rows, the moment or words are in templates.py. Of URLs it reads only plain ones, of a scheme, a host of letters, and what stands
behind it in unreserved characters: of another text `Unknown` is raised where a part of the URL is asked for."""
import base64
import calendar
import datetime
import re

LEAST, MOST = -(2**63), 2**63 - 1
DEEP, HEAVY = 64, 2**20


class Fault(Exception):
    """A value isn't there; the words are the fault as it is printed."""


class Unknown(Exception):
    """This judge doesn't know what the function gives."""


# ---- values

def depth(value):
    parts = value.values() if isinstance(value, dict) else value if isinstance(value, list) else None
    return 0 if parts is None else 1 + max(map(depth, parts), default=0)


def weight(value):
    if isinstance(value, dict):
        return 1 + sum(1 + len(name.encode()) + weight(part) for name, part in value.items())
    if isinstance(value, list):
        return 1 + sum(map(weight, value))
    return 1 + len(value.encode()) if isinstance(value, str) else 1


def fitting(value):
    if depth(value) > DEEP or weight(value) > HEAVY:
        raise Fault("TooBig %d %d" % (depth(value), weight(value)))
    return value


def kind(value):
    if value is None:
        return "N"
    return "B" if isinstance(value, bool) else {int: "I", str: "T", list: "L", dict: "O"}[type(value)]


# Each argument is of one of the kinds of its place, of which V is any; the last place stands for those behind it too.
def typed(name, values, places):
    for place, value in enumerate(values):
        wanted = places[min(place, len(places) - 1)]
        if wanted != "V" and kind(value) not in wanted:
            raise Fault("WrongType %s %d" % (name, place + 1))
    return values


def needs(holds, fault, name):
    if not holds:
        raise Fault("%s %s" % (fault, name))


def lower(text):
    return "".join(chr(ord(c) + 32) if "A" <= c <= "Z" else c for c in text)


def upper(text):
    return "".join(chr(ord(c) - 32) if "a" <= c <= "z" else c for c in text)


# ---- numbers

def number(name, value):
    needs(LEAST <= value <= MOST, "Range", name)
    return value


def arithmetic(name, values, compact):
    left, right = typed(name, values, "I")
    if name in ("div", "mod"):
        needs(right != 0, "Range", name)
        quotient = abs(left) // abs(right) * (1 if (left < 0) == (right < 0) else -1)
        return number(name, quotient) if name == "div" else left - quotient * right
    return number(name, {"add": left + right, "sub": left - right, "mul": left * right}[name])


def extreme(name, values, compact):
    items = values
    if len(values) == 1 and isinstance(values[0], list):
        items = values[0]
        if any(kind(item) != "I" for item in items):
            raise Fault("WrongType %s 1" % name)
    typed(name, items, "I")
    needs(items, "Range", name)
    return min(items) if name == "min" else max(items)


def equals(name, values, compact):
    numbers = all(isinstance(value, int) for value in values)
    return values[0] == values[1] if numbers else compact(values[0]) == compact(values[1])


def compared(name, values, compact):
    typed(name, values[:1], ["IT"])
    left, right = typed(name, values, [kind(values[0])])
    if isinstance(left, str):
        left, right = left.encode(), right.encode()
    return {"greater": left > right, "greaterOrEquals": left >= right, "less": left < right, "lessOrEquals": left <= right}[name]


def whole_of(text):
    made = int(text) if re.fullmatch("-?[0-9]+", text) else None
    return made if made is not None and LEAST <= made <= MOST else None


def converted(name, values, compact):
    value, = typed(name, values, {"int": ["IT"], "bool": ["BIT"], "isInt": ["T"], "not": ["B"]}[name])
    if name == "not":
        return not value
    if name == "isInt":
        return whole_of(value) is not None
    if name == "bool" and isinstance(value, str):
        needs(lower(value) in ("true", "false"), "BadText", name)
        return lower(value) == "true"
    if name == "bool":
        return bool(value)
    made = value if isinstance(value, int) else whole_of(value)
    needs(made is not None, "BadText", name)
    return made


# ---- texts

WHITE = "\t\n\v\f\r \x85\xa0\u1680\u2028\u2029\u202f\u205f\u3000" + "".join(map(chr, range(0x2000, 0x200b)))


def text_of(value, compact):
    return value if isinstance(value, str) else "" if value is None else compact(value)


def concat(name, values, compact):
    return "".join(text_of(value, compact) for value in values)


def substring(name, values, compact):
    text, start, *more = typed(name, values, ["T", "I"])
    count = more[0] if more else max(len(text) - start, 0)
    needs(0 <= start and 0 <= count and start + count <= len(text), "Range", name)
    return text[start:start + count]


def sliced(name, values, compact):
    text, *places = typed(name, values, ["T", "I"])
    start, end = [min(max(place + len(text) if place < 0 else place, 0), len(text)) for place in (places + [len(text)])[:2]]
    return text[start:end]


# The text with another in each place, which is measured before it is made.
def replaced(name, values, compact):
    text, old, new = typed(name, values, "T")
    needs(old, "Range", name)
    size = 1 + len(text.encode()) + text.count(old) * (len(new.encode()) - len(old.encode()))
    if size > HEAVY:
        raise Fault("TooBig 0 %d" % size)
    return text.replace(old, new)


def split(name, values, compact):
    text, separator = typed(name, values, "T")
    needs(separator, "Range", name)
    return text.split(separator)


def turned(name, values, compact):
    text, = typed(name, values, "T")
    return {"toLower": lower, "toUpper": upper, "trim": lambda t: t.strip(WHITE)}[name](text)


def found(name, values, compact):
    text, part = map(lower, typed(name, values, "T"))
    if name in ("startsWith", "endsWith"):
        return text.startswith(part) if name == "startsWith" else text.endswith(part)
    if not part:
        return 0 if name == "indexOf" else max(len(text) - 1, 0)
    return text.find(part) if name == "indexOf" else text.rfind(part)


# ---- lists and objects

def measured(name, values, compact):
    value, = typed(name, values, ["TL" if name == "length" else "TLON"])
    return len(value) if name == "length" else not value


def contains(name, values, compact):
    typed(name, values[:1], ["TLO"])
    whole, part = typed(name, values, ["TLO", "V" if isinstance(values[0], list) else "T"])
    return compact(part) in map(compact, whole) if isinstance(whole, list) else part in whole


def ended(name, values, compact):
    whole, = typed(name, values, ["TL"])
    if not whole:
        return "" if isinstance(whole, str) else None
    return whole[0 if name == "first" else -1]


def parted(name, values, compact):
    whole, count = typed(name, values, ["TL", "I"])
    needs(count >= (1 if name == "chunk" else 0), "Range", name)
    if name == "chunk":
        return [whole[place:place + count] for place in range(0, len(whole), min(count, len(whole) or 1))]
    return whole[:count] if name == "take" else whole[count:]


def joined(name, values, compact):
    items, between = typed(name, values, ["L", "T"])
    texts = [text_of(item, compact) for item in items]
    size = 1 + sum(len(text.encode()) for text in texts) + max(len(texts) - 1, 0) * len(between.encode())
    if size > HEAVY:
        raise Fault("TooBig 0 %d" % size)
    return between.join(texts)


def taken_together(name, values, compact):
    typed(name, values[:1], ["LO"])
    typed(name, values, [kind(values[0])])
    if isinstance(values[0], dict):
        names = set(values[0]).intersection(*values[1:]) if name == "intersection" else set().union(*values)
        last = {key: value for whole in values for key, value in whole.items()}
        return {key: last[key] for key in sorted(names)}
    keys = [set(map(compact, items)) for items in values]
    made = {}
    for item in values[0] if name == "intersection" else sum(values, []):
        if name == "union" or all(compact(item) in there for there in keys):
            made.setdefault(compact(item), item)
    return list(made.values())


def numbers_from(name, values, compact):
    first, count = typed(name, values, "I")
    needs(count >= 0 and first + count - 1 <= MOST, "Range", name)
    if count >= HEAVY:
        raise Fault("TooBig 1 %d" % (count + 1))
    return list(range(first, first + count))


def in_order(name, values, compact):
    items, *more = typed(name, values, ["L", "T"])
    if more and not all(isinstance(item, dict) and more[0] in item for item in items):
        raise Fault("WrongType sort 1")
    keys = [item[more[0]] for item in items] if more else items
    if any(kind(key) != "I" for key in keys) and any(kind(key) != "T" for key in keys):
        raise Fault("WrongType sort 1")
    by = [key.encode() if isinstance(key, str) else key for key in keys]
    return [items[place] for place in sorted(range(len(items)), key=by.__getitem__)]


def with_member(name, values, compact):
    whole, key, *more = typed(name, values, ["O", "T", "V"])
    needs(name != "addProperty" or key not in whole, "Range", name)
    rest = {other: value for other, value in whole.items() if other != key}
    return dict(sorted((rest | {key: more[0]} if more else rest).items()))


# ---- time: a moment is a number of ticks of 100 ns since 0001-01-01T00:00:00Z

SECOND, DAY, LAST = 10**7, 864 * 10**9, 3155378975999999999
STAMP = re.compile(
    r"(\d{4})-(\d\d)-(\d\d)(?:T(\d\d):(\d\d)(?::(\d\d)(?:\.(\d{1,7}))?)?(?:(Z)|([+-])(\d\d):(\d\d))?)?", re.ASCII)
UNITS = {"second": SECOND, "minute": 60 * SECOND, "hour": 3600 * SECOND, "day": DAY, "week": 7 * DAY}
SHORT = {"o": "yyyy-MM-ddTHH:mm:ss.fffffffZ", "D": "dddd, MMMM d, yyyy", "s": "yyyy-MM-ddTHH:mm:ss", "u": "yyyy-MM-dd HH:mm:ssZ",
         "r": "ddd, dd MMM yyyy HH:mm:ss 'GMT'"}
SHORT |= {"O": SHORT["o"], "R": SHORT["r"]}
PART = re.compile("'[^']*'|([a-zA-Z])\\1*|[^a-zA-Z'\"\\\\%]", re.DOTALL)
MONTHS = ("January", "February", "March", "April", "May", "June", "July", "August", "September", "October", "November", "December")
WEEKDAYS = ("Sunday", "Monday", "Tuesday", "Wednesday", "Thursday", "Friday", "Saturday")


# The moment that a timestamp writes, or None.
def moment_of(text):
    stamp = STAMP.fullmatch(text)
    if not stamp:
        return None
    year, month, day, hour, minute, second = (int(part or 0) for part in stamp.groups()[:6])
    ahead, behind = int(stamp.group(10) or 0), int(stamp.group(11) or 0)
    if year < 1 or not 1 <= month <= 12 or not 1 <= day <= calendar.monthrange(year, month)[1]:
        return None
    if hour > 23 or minute > 59 or second > 59 or ahead > 14 or behind > 59:
        return None
    clock = ((hour * 60 + minute) * 60 + second) * SECOND + int((stamp.group(7) or "0").ljust(7, "0"))
    off = (ahead * 60 + behind) * 60 * SECOND * (-1 if stamp.group(9) == "-" else 1)
    moment = (datetime.date(year, month, day).toordinal() - 1) * DAY + clock - off
    return moment if 0 <= moment <= LAST else None


# The parts of a pattern, or None where it is refused.
def parts_of(pattern):
    pattern = SHORT.get(pattern, "" if len(pattern) == 1 else pattern)
    parts, place = [], 0
    while place < len(pattern):
        part = PART.match(pattern, place)
        if not part or part.group(1) and part.group() not in (
                "yyyy yy MMMM MMM MM M dddd ddd dd d HH H hh h mm m ss s f ff fff ffff fffff ffffff fffffff tt T Z").split():
            return None
        parts.append(part.group())
        place = part.end()
    return parts or None


def printed(moment, parts):
    date = datetime.date.fromordinal(moment // DAY + 1)
    clock, fraction = divmod(moment % DAY, SECOND)
    hour, minute, second = clock // 3600, clock // 60 % 60, clock % 60
    half, weekday = (hour + 11) % 12 + 1, WEEKDAYS[date.isoweekday() % 7]
    month = MONTHS[date.month - 1]
    shown = {"yyyy": "%04d" % date.year, "yy": "%02d" % (date.year % 100), "MMMM": month, "MMM": month[:3], "dddd": weekday,
             "ddd": weekday[:3], "tt": "PM" if hour >= 12 else "AM"}
    for letter, value in (("M", date.month), ("d", date.day), ("H", hour), ("h", half), ("m", minute), ("s", second)):
        shown |= {letter: str(value), letter * 2: "%02d" % value}
    shown |= {"f" * count: ("%07d" % fraction)[:count] for count in range(1, 8)}
    return "".join(part[1:-1] if part[0] == "'" else shown.get(part, part) for part in parts)


def moved(name, moment, count, unit):
    unit = lower(unit)
    needs(unit in UNITS or unit in ("month", "year"), "Range", name)
    if unit in UNITS:
        moment += count * UNITS[unit]
    else:
        date = datetime.date.fromordinal(moment // DAY + 1)
        months = date.year * 12 + date.month - 1 + count * (12 if unit == "year" else 1)
        year, month = months // 12, months % 12 + 1
        needs(1 <= year <= 9999, "Range", name)
        day = min(date.day, calendar.monthrange(year, month)[1])
        moment = (datetime.date(year, month, day).toordinal() - 1) * DAY + moment % DAY
    needs(0 <= moment <= LAST, "Range", name)
    return moment


def stamp_and_pattern(name, text, pattern):
    moment = moment_of(text)
    needs(moment is not None, "BadText", name)
    return moment, pattern_of(name, pattern)


def pattern_of(name, pattern):
    parts = parts_of(pattern[0] if pattern else "o")
    needs(parts, "BadText", name)
    return parts


def shifted(name, values, compact):
    by_unit = name in ("addToTime", "subtractFromTime")
    text, count, *more = typed(name, values, ["T", "I", "T", "T"])
    moment, parts = stamp_and_pattern(name, text, more[1:] if by_unit else more)
    unit = more[0] if by_unit else name[3:-1]
    return printed(moved(name, moment, -count if name[0] == "s" else count, unit), parts)


def formatted(name, values, compact):
    text, *pattern = typed(name, values, "T")
    moment, parts = stamp_and_pattern(name, text, pattern)
    if name == "startOfMonth":
        moment = (datetime.date.fromordinal(moment // DAY + 1).replace(day=1).toordinal() - 1) * DAY
    elif name != "formatDateTime":
        moment -= moment % (DAY if name == "startOfDay" else 3600 * SECOND)
    return printed(moment, parts)


def placed(name, values, compact):
    text, = typed(name, values, "T")
    moment = moment_of(text)
    needs(moment is not None, "BadText", name)
    date = datetime.date.fromordinal(moment // DAY + 1)
    return {"dayOfMonth": date.day, "dayOfYear": date.timetuple().tm_yday, "dayOfWeek": date.isoweekday() % 7, "ticks": moment}[name]


def difference(name, values, compact):
    typed(name, values, "T")
    first, second = map(moment_of, values)
    needs(first is not None and second is not None, "BadText", name)
    days, rest = divmod(abs(second - first), DAY)
    clock, fraction = divmod(rest, SECOND)
    return "".join([
        "-" if second < first else "", "%d." % days if days else "", "%02d:%02d:%02d" % (clock // 3600, clock // 60 % 60, clock % 60),
        ".%07d" % fraction if fraction else ""])


# ---- URLs

UNRESERVED = set(b"ABCDEFGHIJKLMNOPQRSTUVWXYZabcdefghijklmnopqrstuvwxyz0123456789-._~")
ESCAPE = re.compile(b"%([0-9A-Fa-f]{2})")
PLAIN_URL = re.compile(
    r"(https?|wss?|ftp)://([a-z]+(?:\.[a-z]+)*)(?::([1-9]\d{0,3}))?((?:/[a-z0-9_~-]+)*/?)(\?[a-z0-9_~=&-]*)?(?:#[a-z]*)?", re.ASCII)
PORTS = {"http": 80, "ws": 80, "https": 443, "wss": 443, "ftp": 21}
CARRIED = re.compile("data:[^,]*;base64,([^,]*)", re.DOTALL)


def escaped(name, values, compact):
    text, = typed(name, values, "T")
    return "".join(chr(byte) if byte in UNRESERVED else "%%%02X" % byte for byte in text.encode())


def decoded(name, data):
    try:
        return data.decode()
    except UnicodeDecodeError:
        raise Fault("BadText " + name)


def unescaped(name, values, compact):
    text, = typed(name, values, "T")
    return decoded(name, ESCAPE.sub(lambda escape: bytes([int(escape.group(1), 16)]), text.encode()))


def url_part(name, values, compact):
    text, = typed(name, values, "T")
    url = PLAIN_URL.fullmatch(text)
    if not url or url.group(2).startswith("xn") or ".xn" in url.group(2):
        raise Unknown(name)
    scheme, host, port, path, query = url.groups()
    path, query = path or "/", query or ""
    return {"uriScheme": scheme, "uriHost": host, "uriPath": path, "uriQuery": query, "uriPathAndQuery": path + query,
            "uriPort": int(port) if port else PORTS[scheme]}[name]


def encoded(name, values, compact):
    text, = typed(name, values, "T")
    made = base64.b64encode(text.encode()).decode()
    return made if name == "base64" else "data:text/plain;charset=utf-8;base64," + made


# The text of which a text is the encoding.
def unencoded(name, values, compact):
    text, = typed(name, values, "T")
    if name == "dataUriToString":
        carried = CARRIED.fullmatch(text)
        needs(carried, "BadText", name)
        text = carried.group(1)
    try:
        data = base64.b64decode(text, validate=True)
    except ValueError:
        raise Fault("BadText " + name)
    needs(base64.b64encode(data).decode() == text, "BadText", name)
    return decoded(name, data)


# ---- all of them, with how many arguments they take

FAMILIES = [
    (arithmetic, 2, 2, "add sub mul div mod"), (extreme, 1, None, "min max"), (equals, 2, 2, "equals"),
    (compared, 2, 2, "greater greaterOrEquals less lessOrEquals"), (converted, 1, 1, "not int bool isInt"),
    (concat, 1, None, "concat"), (substring, 2, 3, "substring"), (sliced, 2, 3, "slice"), (replaced, 3, 3, "replace"),
    (split, 2, 2, "split"), (turned, 1, 1, "toLower toUpper trim"), (found, 2, 2, "startsWith endsWith indexOf lastIndexOf"),
    (measured, 1, 1, "length empty"), (contains, 2, 2, "contains"), (ended, 1, 1, "first last"), (parted, 2, 2, "take skip chunk"),
    (joined, 2, 2, "join"), (taken_together, 2, None, "union intersection"), (lambda name, values, compact: values, 0, None, "createArray"),
    (lambda name, values, compact: values[0] if isinstance(values[0], list) else values, 1, 1, "array"), (numbers_from, 2, 2, "range"),
    (in_order, 1, 2, "sort"), (lambda name, values, compact: typed(name, values, "L")[0][::-1], 1, 1, "reverse"),
    (with_member, 3, 3, "addProperty setProperty"), (with_member, 2, 2, "removeProperty"),
    (shifted, 2, 3, "addDays addHours addMinutes addSeconds"), (shifted, 3, 4, "addToTime subtractFromTime"),
    (formatted, 1, 2, "formatDateTime startOfDay startOfHour startOfMonth"), (placed, 1, 1, "dayOfMonth dayOfYear dayOfWeek ticks"),
    (difference, 2, 2, "dateDifference"), (escaped, 1, 1, "uriComponent encodeUriComponent"),
    (unescaped, 1, 1, "uriComponentToString decodeUriComponent"),
    (url_part, 1, 1, "uriScheme uriHost uriPath uriQuery uriPathAndQuery uriPort"), (encoded, 1, 1, "base64 dataUri"),
    (unencoded, 1, 1, "base64ToString decodeBase64 dataUriToString"),
]
GIVEN = {name: (way, least, most) for way, least, most, names in FAMILIES for name in names.split()}


# What a function gives of these values, where `compact` gives the JSON text of one; whether it fits isn't tested.
def give(name, values, compact):
    return GIVEN[name][0](name, values, compact)
