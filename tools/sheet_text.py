#!/usr/bin/env python3
"""A plan as text to a sheet, and a sheet as text.

    tools/sheet_text.py sheet TEXT > SHEET      the sheet's bytes
    tools/sheet_text.py text SHEET              its text; what is no record is written as X with its bytes

A line is a record, `#` opens a comment, and a field at its default is left out:

    P 2024-01-01 data=2024-01-08 must-finish=2024-03-01 lag-calendar=successor float=start progress=override critical=longest-path threshold=1
    C 8h                                # day length
    W mon-fri 08:00 12:00 13:00 17:00   # worked hours by weekday
    E 2024-01-15 0 0                    # a day of its own: no work, or from and to
    A 1 16h kind=task calendar=0 parent=0 actual-start=2024-01-02 remaining=4h     # its name
    A 2 0 kind=finish-milestone constraint=start-on:2024-01-10 second=as-late-as-possible levelled=2024-01-11
    L 1 2 FS basis=working unit=minutes lag=-30

Days are written 2024-01-01 or counted from 1970-01-01, times of day 08:00 or in minutes, spans 16h, 90m or in minutes.
Codes are names or numbers. Nothing here judges a plan: `plan` does.
"""
import datetime
import struct
import sys

ABSENT = -(2**31)
EPOCH = datetime.date(1970, 1, 1).toordinal()
WEEKDAYS = ["mon", "tue", "wed", "thu", "fri", "sat", "sun"]
LAG_CALENDARS = ["predecessor", "successor", "24h", "project"]
FLOAT_KINDS = ["finish", "start", "smallest"]
PROGRESS_MODES = ["retained", "override"]
CRITICAL_BY = ["total-float", "longest-path"]
ACTIVITY_KINDS = ["task", "start-milestone", "finish-milestone"]
LINK_TYPES = ["FS", "SS", "FF", "SF"]
BASES = ["working", "elapsed", "percent"]
UNITS = ["days", "minutes"]
CONSTRAINTS = ["none", "start-on-or-after", "start-on-or-before", "finish-on-or-after", "finish-on-or-before", "start-on",
               "finish-on", "mandatory-start", "mandatory-finish", "as-late-as-possible"]
SIZES = {"P": 20, "C": 2, "W": 5, "E": 8, "A": 44, "L": 15}


class Wrong(Exception):
    """What is wrong with a line of text."""


# ---- words
def integer(word):
    try:
        return int(word)
    except ValueError:
        raise Wrong(f"no such number: {word}") from None


def day_of(word):
    """A day counted from 1970-01-01: absent is `-`."""
    if word == "-":
        return ABSENT
    if word.count("-") == 2 and not word.startswith("-"):
        try:
            return datetime.date.fromisoformat(word).toordinal() - EPOCH
        except ValueError:
            raise Wrong(f"no such day: {word}") from None
    return integer(word)


def day_text(day):
    if day == ABSENT:
        return "-"
    if 1 <= day + EPOCH <= datetime.date.max.toordinal():
        return datetime.date.fromordinal(day + EPOCH).isoformat()
    return str(day)


def time_of(word):
    """Minutes after midnight."""
    if ":" in word:
        hours, minutes = word.split(":")
        return integer(hours) * 60 + integer(minutes)
    return integer(word)


def time_text(minute):
    return f"{minute // 60:02}:{minute % 60:02}"


def span_of(word):
    if word == "-":
        return ABSENT
    if word.endswith("h"):
        return integer(word[:-1]) * 60
    return integer(word[:-1] if word.endswith("m") else word)


def span_text(minutes):
    if minutes == ABSENT:
        return "-"
    return f"{minutes // 60}h" if minutes and minutes % 60 == 0 else str(minutes)


def code_of(names, word):
    return names.index(word) if word in names else integer(word)


def code_text(names, code):
    return names[code] if code < len(names) else str(code)


def mark_of(word):
    kind, _, day = word.partition(":")
    return code_of(CONSTRAINTS, kind), day_of(day or "0")


def mark_text(mark):
    return f"{code_text(CONSTRAINTS, mark[0])}:{day_text(mark[1])}"


def field(names):
    return (lambda word: code_of(names, word)), (lambda code: code_text(names, code))


DAY = day_of, day_text
SPAN = span_of, span_text
INT = integer, str
MARK = mark_of, mark_text

# ---- the fields after a record's head: key, how it is read and written, default
PLAN_FIELDS = [("data", DAY, ABSENT), ("must-finish", DAY, ABSENT), ("lag-calendar", field(LAG_CALENDARS), 0),
               ("float", field(FLOAT_KINDS), 0), ("progress", field(PROGRESS_MODES), 0), ("critical", field(CRITICAL_BY), 0),
               ("threshold", INT, 0)]
ACTIVITY_FIELDS = [("kind", field(ACTIVITY_KINDS), 0), ("calendar", INT, 0), ("parent", INT, 0), ("actual-start", DAY, ABSENT),
                   ("actual-finish", DAY, ABSENT), ("remaining", SPAN, ABSENT), ("expected-finish", DAY, ABSENT),
                   ("constraint", MARK, (0, 0)), ("second", MARK, (0, 0)), ("levelled", DAY, ABSENT)]
LINK_FIELDS = [("basis", field(BASES), 0), ("unit", field(UNITS), 0), ("lag", INT, 0)]


def fields_of(known, words):
    """The values of `key=value` words, in the order of the record's fields."""
    given = dict(word.split("=", 1) for word in words)
    unknown = set(given) - {key for key, _, _ in known}
    if unknown:
        raise Wrong(f"no such field: {sorted(unknown)[0]}")
    return [how[0](given[key]) if key in given else default for key, how, default in known]


def fields_text(known, values):
    return "".join(f" {key}={how[1](value)}" for (key, how, default), value in zip(known, values) if value != default)


# ---- a line to records
def weekdays(word):
    first, _, last = word.partition("-")
    return range(code_of(WEEKDAYS, first), code_of(WEEKDAYS, last or first) + 1)


def records(line):
    words = line.split()
    split = next((i for i, word in enumerate(words) if "=" in word), len(words))
    head, rest = words[:split], words[split:]
    match head:
        case ["P", start]:
            data, must, lag, floats, progress, critical, threshold = fields_of(PLAN_FIELDS, rest)
            yield b"P" + struct.pack("<iiiBBBBi", day_of(start), data, must, lag, floats, progress, critical, threshold)
        case ["C", length]:
            yield b"C" + struct.pack("<H", span_of(length))
        case ["W", days, *times] if times and len(times) % 2 == 0:
            for day in weekdays(days):
                for start, end in zip(times[::2], times[1::2]):
                    yield b"W" + struct.pack("<BHH", day, time_of(start), time_of(end))
        case ["E", day, start, end]:
            yield b"E" + struct.pack("<iHH", day_of(day), time_of(start), time_of(end))
        case ["A", number, minutes]:
            kind, calendar, parent, start, finish, remaining, expected, first, second, levelled = fields_of(ACTIVITY_FIELDS, rest)
            yield b"A" + struct.pack("<IBBIiiiiiBiBii", integer(number), kind, calendar, parent, span_of(minutes), start, finish,
                                     remaining, expected, *first, *second, levelled)
        case ["L", predecessor, successor, kind]:
            basis, unit, lag = fields_of(LINK_FIELDS, rest)
            yield b"L" + struct.pack("<IIBBBi", integer(predecessor), integer(successor), code_of(LINK_TYPES, kind), basis, unit, lag)
        case ["X", *data]:
            yield bytes(int(byte, 16) for byte in data)
        case _:
            raise Wrong("no such record")


def sheet_of(text):
    sheet = b""
    for number, line in enumerate(text.splitlines(), 1):
        words = line.split("#")[0]
        try:
            sheet += b"".join(records(words)) if words.strip() else b""
        except (Wrong, struct.error, ValueError) as wrong:
            raise Wrong(f"line {number}: {wrong}: {line.strip()}") from None
    return sheet


def names_of(text):
    """The comment on an activity's line is its name."""
    names = {}
    for line in text.splitlines():
        words, _, name = line.partition("#")
        if words.split()[:1] == ["A"] and name.strip():
            names[int(words.split()[1])] = name.strip()
    return names


# ---- a sheet to records
def split(sheet):
    """Each record's letter and body; what is no record has none."""
    at = 0
    while at < len(sheet):
        letter = chr(sheet[at])
        end = at + 1 + SIZES.get(letter, 0)
        if letter not in SIZES or end > len(sheet):
            yield "", sheet[at:]
            return
        yield letter, sheet[at + 1:end]
        at = end


def activity_of(body):
    """id, kind, calendar, parent, minutes, the other fields"""
    number, kind, calendar, parent, minutes, start, finish, remaining, expected, k1, d1, k2, d2, levelled = struct.unpack(
        "<IBBIiiiiiBiBii", body)
    return number, kind, calendar, parent, minutes, [start, finish, remaining, expected, (k1, d1), (k2, d2), levelled]


def line_of(letter, body):
    if letter == "P":
        start, *rest = struct.unpack("<iiiBBBBi", body)
        return f"P {day_text(start)}" + fields_text(PLAN_FIELDS, rest)
    if letter == "C":
        return f"C {span_text(struct.unpack('<H', body)[0])}"
    if letter == "W":
        day, start, end = struct.unpack("<BHH", body)
        return f"W {code_text(WEEKDAYS, day)} {time_text(start)} {time_text(end)}"
    if letter == "E":
        day, start, end = struct.unpack("<iHH", body)
        return f"E {day_text(day)} {time_text(start)} {time_text(end)}"
    if letter == "A":
        number, kind, calendar, parent, minutes, rest = activity_of(body)
        return f"A {number} {span_text(minutes)}" + fields_text(ACTIVITY_FIELDS, [kind, calendar, parent] + rest)
    if letter == "L":
        predecessor, successor, kind, basis, unit, lag = struct.unpack("<IIBBBi", body)
        return f"L {predecessor} {successor} {code_text(LINK_TYPES, kind)}" + fields_text(LINK_FIELDS, [basis, unit, lag])
    return "X " + body.hex(" ")


def main(args):
    match args:
        case ["sheet", path]:
            with open(path, encoding="utf-8") as file:
                sys.stdout.buffer.write(sheet_of(file.read()))
        case ["text", path]:
            with open(path, "rb") as file:
                for letter, body in split(file.read()):
                    print(line_of(letter, body))
        case _:
            sys.exit(__doc__)


if __name__ == "__main__":
    try:
        main(sys.argv[1:])
    except (Wrong, OSError) as wrong:
        sys.exit(f"sheet_text.py: {wrong}")
