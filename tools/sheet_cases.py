#!/usr/bin/env python3
"""Writes the sheets that the program sheet_cases reads, and the lines that it must print.

Each case is a sheet, written as its records, with the answer that document 01 gives: READ, or the number of a refusal
(2 unknown, cut, misplaced or missing; 4 beyond a limit; 3 out of range). Nothing here reads a sheet: an answer is stated,
and of a sheet that is read the counts are those of the records that were written down.

    tools/sheet_cases.py          writes crates/sheet_cases/data/sheets and crates/sheet_cases/stdout
    tools/sheet_cases.py --list   prints each case with its number, its answer and what it shows

The data file: for each case u16 the number of its parts, and for each part u16 how often it comes, u16 its length, its bytes.
"""
import os
import struct
import sys

READ = "read"
ABSENT = -(2**31)
FIRST, LAST = -135140, 376199  # 1600-01-01 and 2999-12-31


class Record:
    """The bytes of one record, and its kind's letter."""

    def __init__(self, letter, data):
        self.letter, self.data = letter, data

    def cut(self, n):
        """The record without its last n bytes: no record any more."""
        return Record("?", self.data[:-n])


def P(start=19723, data=ABSENT, must=ABSENT, lag=0, floats=0, progress=0, critical=0, threshold=0):
    return Record("P", b"P" + struct.pack("<iiiBBBBi", start, data, must, lag, floats, progress, critical, threshold))


def C(minutes=480):
    return Record("C", b"C" + struct.pack("<H", minutes))


def W(day, start, end):
    return Record("W", b"W" + struct.pack("<BHH", day, start, end))


def E(day, start, end):
    return Record("E", b"E" + struct.pack("<iHH", day, start, end))


def A(id=1, kind=0, calendar=0, parent=0, minutes=480, actual_start=ABSENT, actual_finish=ABSENT, remaining=ABSENT,
      expected=ABSENT, first=(0, 0), second=(0, 0), levelled=ABSENT):
    return Record("A", b"A" + struct.pack("<IBBIiiiiiBiBii", id, kind, calendar, parent, minutes, actual_start, actual_finish,
                                          remaining, expected, *first, *second, levelled))


def L(before=1, after=2, type=0, basis=0, unit=0, lag=0):
    return Record("L", b"L" + struct.pack("<IIBBBi", before, after, type, basis, unit, lag))


def raw(data):
    return Record("?", bytes(data))


WEEK = [W(day, 480, 960) for day in range(5)]
CALENDAR = [P(), C(), *WEEK]
WORKED = [*CALENDAR, A(1, minutes=960), A(2), L(1, 2)]

cases = []


def case(what, answer, *parts):
    """A part is a record, a list of records, or a record with the number of times that it comes."""
    flat = []
    for part in parts:
        if isinstance(part, Record):
            flat.append((part, 1))
        elif isinstance(part, tuple):
            flat.append(part)
        else:
            flat.extend((record, 1) for record in part)
    cases.append((what, answer, flat))


def days(what, absent, record):
    """A day field: the first and the last day are taken, those beyond are not, and absent has the answer given."""
    for day, answer in ((FIRST, READ), (LAST, READ), (0, READ), (-1, READ), (FIRST - 1, 3), (LAST + 1, 3), (2**31 - 1, 3), (ABSENT + 1, 3),
                        (ABSENT, absent)):
        case(f"{what} {day}", answer, *record(day))


def codes(what, most, record):
    for code in range(most + 1):
        case(f"{what} {code}", READ, *record(code))
    for code in (most + 1, 128, 255):
        case(f"{what} {code}", 3, *record(code))


# ---- the worked sheet, and what is left of it when it is cut
whole = b"".join(record.data for record in WORKED)
ends = {}
for n in range(len(WORKED) + 1):
    ends[sum(len(record.data) for record in WORKED[:n])] = n
for n in range(len(whole)):
    kept = WORKED[:ends[n]] if n in ends else None
    if kept is not None and len(kept) >= 2:
        case(f"the worked sheet's first {len(kept)} records", READ, kept)
    else:
        case(f"the worked sheet cut to {n} bytes", 2, raw(whole[:n]) if n else [])
case("01's worked sheet", READ, WORKED)
case("the same with no activity", READ, CALENDAR)
case("P and C alone", READ, P(), C())

# ---- 2: unknown kinds, and bytes after the last record
for byte in (0x00, 0x01, 0x20, 0x40, 0x42, 0x44, 0x46, 0x4B, 0x4D, 0x4F, 0x51, 0x56, 0x58, 0x63, 0x70, 0x80, 0xFF):
    case(f"a byte {byte:#04x} after the last record", 2, WORKED, raw([byte]))
    case(f"a first byte {byte:#04x}", 2, raw([byte]), WORKED)
case("zeros after the last record", 2, WORKED, (raw([0]), 45))
case("an unknown kind between calendars and activities", 2, CALENDAR, raw([0x5A]), A(), L())
case("a first record that is no P", 2, C(), WORKED)
case("a first record that is no P, with a field out of range", 2, C(1441), P(), C())
case("a first A with id 0", 2, A(0), P(), C())
case("nothing but L", 2, L())

# ---- 2: records out of their place
case("a second P", 2, P(), P(), C())
case("a second P with a field out of range", 2, P(), P(lag=9), C())
case("a second P after C", 2, P(), C(), P())
case("a second P after A", 2, CALENDAR, A(), P())
case("a second P at the end", 2, WORKED, P())
case("W before C", 2, P(), WEEK, C())
case("W before C, with a weekday of 7", 2, P(), W(7, 0, 1), C())
case("E before C", 2, P(), E(0, 0, 0), C())
case("W after its calendar's E", 2, P(), C(), WEEK, E(0, 0, 0), W(5, 480, 960))
case("W after E of a calendar without W", 2, P(), C(), E(0, 0, 0), W(0, 480, 960))
case("W after A", 2, CALENDAR, A(), W(5, 480, 960))
case("E after A", 2, CALENDAR, A(), E(0, 0, 0))
case("C after A", 2, CALENDAR, A(), C())
case("C after L", 2, WORKED, C())
case("W after L", 2, WORKED, W(0, 0, 1))
case("E after L", 2, WORKED, E(0, 0, 0))
case("A after L", 2, WORKED, A(3))
case("A after L, with id 0", 2, WORKED, A(0))
case("L before A", 2, CALENDAR, L(), A())

# ---- 2: no P or no C, found at the end
case("P alone", 2, P())
case("A without C", 2, P(), A())
case("A and L without C", 2, P(), A(1), A(2), L())
case("L without C", 2, P(), L())
case("A without C, with id 0", 3, P(), A(0))
case("L without C, of type 4", 3, P(), L(type=4))
case("A without C, cut", 2, P(), A().cut(1))
case("A without C, then C", 2, P(), A(), C())

# ---- 2, 4, 3 within a record, and the first record that breaks a rule decides
case("P cut, with a field out of range", 2, P(lag=9).cut(1))
case("C cut", 2, P(), C().cut(1))
case("a cut C of 1,441", 2, P(), C(), C(1441).cut(1))
case("W cut", 2, P(), C(), W(0, 480, 960).cut(1))
case("a cut W of weekday 7", 2, P(), C(), W(7, 480, 960).cut(1))
case("E cut", 2, P(), C(), E(0, 0, 0).cut(1))
case("A cut", 2, CALENDAR, A().cut(1))
case("a cut A with id 0", 2, CALENDAR, A(0).cut(1))
case("L cut", 2, CALENDAR, A(1), A(2), L().cut(1))
case("a cut L of type 4", 2, CALENDAR, L(type=4).cut(1))
case("a field out of range, then no C", 3, P(floats=3))
case("a field out of range, then an unknown kind", 3, CALENDAR, A(kind=3), raw([0]))
case("an unknown kind, then a field out of range", 2, CALENDAR, raw([0]), A(kind=3))
case("a field out of range, then a cut record", 3, CALENDAR, A(id=0), A().cut(1))
case("P out of range before all else", 3, P(progress=2), P())
case("C out of range, then a second P", 3, P(), C(1441), P())

# ---- 4: 15 C
case("15 C", READ, P(), (C(), 15))
case("16 C", 4, P(), (C(), 16))
case("a 16th C of 1,441", 4, P(), (C(), 15), C(1441))
case("a 15th C of 1,441", 3, P(), (C(), 14), C(1441), C())
case("a cut 16th C", 2, P(), (C(), 15), C().cut(1))
case("15 C with hours", READ, P(), *[part for _ in range(15) for part in (C(), WEEK, E(0, 0, 0))])
case("16 C with hours", 4, P(), *[part for _ in range(16) for part in (C(), WEEK, E(0, 0, 0))])

# ---- 4: 8 W a weekday
def monday(n, start=0):
    return [W(0, start + 10 * i, start + 10 * i + 5) for i in range(n)]


case("8 W on Monday", READ, P(), C(), monday(8))
case("9 W on Monday", 4, P(), C(), monday(9))
case("10 W on Monday", 4, P(), C(), monday(10))
case("a 9th W that comes out of order", 4, P(), C(), monday(8, 100), W(0, 0, 5))
case("a 9th W with no minute", 4, P(), C(), monday(8), W(0, 500, 500))
case("a 9th W past midnight", 4, P(), C(), monday(8), W(0, 500, 1441))
case("a 9th W after another weekday", 4, P(), C(), monday(8), W(1, 0, 5), W(0, 100, 105))
case("an 8th W after another weekday", 3, P(), C(), monday(7), W(1, 0, 5), W(0, 100, 105))
case("a cut 9th W", 2, P(), C(), monday(8), W(0, 100, 105).cut(1))
case("8 W on each weekday", READ, P(), C(), [W(day, 10 * i, 10 * i + 5) for day in range(7) for i in range(8)])
case("a 9th W on Sunday", 4, P(), C(), [W(day, 10 * i, 10 * i + 5) for day in range(7) for i in range(8)], W(6, 100, 105))
case("8 W on Monday in each of two calendars", READ, P(), C(), monday(8), C(), monday(8))
case("9 W on Monday in the second calendar", 4, P(), C(), monday(8), C(), monday(9))
case("8 W on Monday, then a weekday of 7", 3, P(), C(), monday(8), W(7, 100, 105))
case("nine W of weekday 7", 3, P(), C(), (W(7, 100, 105), 9))

# ---- 4: 256 E a calendar
case("256 E", READ, P(), C(), [E(day, 0, 0) for day in range(256)])
case("257 E", 4, P(), C(), [E(day, 0, 0) for day in range(257)])
case("a 257th E with a falling day", 4, P(), C(), [E(day, 0, 0) for day in range(256)], E(3, 0, 0))
case("a 256th E with a falling day", 3, P(), C(), [E(day, 0, 0) for day in range(255)], E(3, 0, 0))
case("a 257th E without a day", 4, P(), C(), [E(day, 0, 0) for day in range(256)], E(ABSENT, 0, 0))
case("a cut 257th E", 2, P(), C(), [E(day, 0, 0) for day in range(256)], E(300, 0, 0).cut(1))
case("256 E in each of two calendars", READ, P(), C(), [E(day, 0, 0) for day in range(256)], C(), [E(day, 0, 0) for day in range(256)])
case("257 E in the second calendar", 4, P(), C(), [E(day, 0, 0) for day in range(256)], C(), [E(day, 0, 0) for day in range(257)])
case("256 E on one day", READ, P(), C(), [E(7, 4 * i, 4 * i + 2) for i in range(256)])
case("257 E on one day", 4, P(), C(), [E(7, 4 * i, 4 * i + 2) for i in range(257)])

# ---- 4: 4,096 A and 16,384 L
case("4,096 A", READ, CALENDAR, (A(), 4096))
case("4,097 A", 4, CALENDAR, (A(), 4097))
case("a 4,097th A with id 0", 4, CALENDAR, (A(), 4096), A(0))
case("a 4,096th A with id 0", 3, CALENDAR, (A(), 4095), A(0))
case("a cut 4,097th A", 2, CALENDAR, (A(), 4096), A().cut(1))
case("4,097 A without C", 4, P(), (A(), 4097))
case("16,384 L", READ, CALENDAR, A(1), A(2), (L(), 16384))
case("16,385 L", 4, CALENDAR, A(1), A(2), (L(), 16385))
case("a 16,385th L of type 4", 4, CALENDAR, A(1), A(2), (L(), 16384), L(type=4))
case("a 16,384th L of type 4", 3, CALENDAR, A(1), A(2), (L(), 16383), L(type=4))
case("a cut 16,385th L", 2, CALENDAR, A(1), A(2), (L(), 16384), L().cut(1))
case("4,096 A and 16,384 L", READ, CALENDAR, (A(), 4096), (L(), 16384))

# ---- 3: P
days("start", 3, lambda day: [P(start=day), C()])
days("data day", READ, lambda day: [P(data=day), C()])
days("must-finish day", READ, lambda day: [P(must=day), C()])
codes("lag calendar", 3, lambda code: [P(lag=code), C()])
codes("float kind", 2, lambda code: [P(floats=code), C()])
codes("progress mode", 1, lambda code: [P(progress=code), C()])
codes("critical by", 1, lambda code: [P(critical=code), C()])
for critical in (0, 1):
    for threshold in (ABSENT, -1, 1, 2**31 - 1):
        case(f"threshold {threshold}, critical by {critical}", READ, P(critical=critical, threshold=threshold), C())

# ---- 3: C
for minutes, answer in ((0, READ), (1, READ), (1440, READ), (1441, 3), (65535, 3)):
    case(f"day length {minutes}", answer, P(), C(minutes))

# ---- 3: W
codes("weekday", 6, lambda code: [P(), C(), W(code, 480, 960)])
for start, end, answer in ((0, 1, READ), (0, 1440, READ), (1439, 1440, READ), (0, 0, 3), (480, 480, 3), (481, 480, 3), (0, 1441, 3), (1440, 1440, 3),
                           (1440, 1441, 3), (255, 256, READ), (256, 255, 3), (0, 65535, 3)):
    case(f"W {start} to {end}", answer, P(), C(), W(3, start, end))
case("W that touch", READ, P(), C(), W(0, 480, 720), W(0, 720, 960))
case("W that overlap", 3, P(), C(), W(0, 480, 720), W(0, 719, 960))
case("W twice", 3, P(), C(), W(0, 480, 720), W(0, 480, 720))
case("W within another", 3, P(), C(), W(0, 480, 960), W(0, 600, 700))
case("W in falling time", 3, P(), C(), W(0, 720, 960), W(0, 480, 600))
case("W in falling weekday", 3, P(), C(), W(1, 480, 960), W(0, 480, 960))
case("W earlier on a later weekday", READ, P(), C(), W(0, 720, 960), W(1, 0, 1))
case("weekdays with gaps", READ, P(), C(), W(1, 480, 960), W(4, 480, 960), W(6, 0, 1440))
case("W again in the next calendar", READ, P(), C(), W(6, 480, 960), C(), W(0, 480, 960))

# ---- 3: E
days("E", 3, lambda day: [P(), C(), E(day, 480, 960)])
for start, end, answer in ((0, 0, READ), (0, 1, READ), (0, 1440, READ), (1439, 1440, READ), (1, 1, 3), (480, 480, 3), (1, 0, 3), (0, 1441, 3), (1440, 1440, 3),
                           (256, 0, 3), (0, 256, READ)):
    case(f"E {start} to {end}", answer, P(), C(), E(20000, start, end))
case("E of a calendar without W", READ, P(), C(), E(20000, 480, 960))
case("E days rising", READ, P(), C(), WEEK, E(19999, 0, 0), E(20000, 480, 960), E(20001, 0, 0))
case("E days falling", 3, P(), C(), WEEK, E(20000, 0, 0), E(19999, 0, 0))
case("E days rising from before 1970", READ, P(), C(), E(-2, 0, 0), E(-1, 480, 960), E(0, 0, 0), E(1, 480, 960))
case("E days falling to before 1970", 3, P(), C(), E(0, 0, 0), E(-1, 0, 0))
case("E that touch", READ, P(), C(), E(20000, 480, 720), E(20000, 720, 960))
case("E that overlap", 3, P(), C(), E(20000, 480, 720), E(20000, 719, 960))
case("E in falling time", 3, P(), C(), E(20000, 720, 960), E(20000, 480, 600))
case("E twice", 3, P(), C(), E(20000, 480, 720), E(20000, 480, 720))
case("a day without work twice", 3, P(), C(), E(20000, 0, 0), E(20000, 0, 0))
case("a day without work, then its hours", 3, P(), C(), E(20000, 0, 0), E(20000, 480, 960))
case("hours, then a day without work", 3, P(), C(), E(20000, 480, 960), E(20000, 0, 0))
case("nine E on one day", READ, P(), C(), [E(20000, 100 * i, 100 * i + 50) for i in range(9)])
case("E again in the next calendar", READ, P(), C(), E(20001, 0, 0), C(), E(20000, 0, 0))

# ---- 3: A
for id, answer in ((0, 3), (1, READ), (256, READ), (2**31, READ), (2**32 - 1, READ)):
    case(f"id {id}", answer, CALENDAR, A(id))
case("two equal ids", READ, CALENDAR, A(4), A(4))
codes("kind", 2, lambda code: [CALENDAR, A(kind=code, minutes=0)])
for calendar in (0, 1, 3, 15, 255):
    case(f"calendar {calendar} of 1", READ, CALENDAR, A(calendar=calendar))
for parent in (0, 1, 9, 2**32 - 1):
    case(f"parent {parent}", READ, CALENDAR, A(parent=parent))
for minutes in (0, 1, -1, 48000001, 144000001, 2**31 - 1, ABSENT):
    case(f"a task of {minutes}", READ, CALENDAR, A(minutes=minutes))
    for kind in (1, 2):
        case(f"a milestone of kind {kind} and {minutes} minutes", READ if minutes == 0 else 3, CALENDAR, A(kind=kind, minutes=minutes))
for what in ("actual_start", "actual_finish", "expected", "levelled"):
    days(what, READ, lambda day: [CALENDAR, A(**{what: day})])
for remaining in (ABSENT, ABSENT + 1, -1, 0, 144000001, 2**31 - 1):
    case(f"remaining {remaining}", READ, CALENDAR, A(remaining=remaining))
for which in ("first", "second"):
    for kind in (0, 9):
        for day in (0, ABSENT, FIRST - 1, LAST + 1, 2**31 - 1):
            case(f"{which} constraint {kind}, whose day {day} is unread", READ, CALENDAR, A(**{which: (kind, day)}))
    for kind in range(1, 9):
        case(f"{which} constraint {kind}", READ, CALENDAR, A(**{which: (kind, 20000)}))
        case(f"{which} constraint {kind} without a day", 3, CALENDAR, A(**{which: (kind, ABSENT)}))
        case(f"{which} constraint {kind} past the last day", 3, CALENDAR, A(**{which: (kind, LAST + 1)}))
        case(f"{which} constraint {kind} before the first day", 3, CALENDAR, A(**{which: (kind, FIRST - 1)}))
    for kind in (10, 11, 128, 255):
        case(f"{which} constraint {kind}", 3, CALENDAR, A(**{which: (kind, 20000)}))
case("a second A out of range", 3, CALENDAR, A(1), A(2, kind=3))

# ---- 3: L
for before, after in ((0, 0), (1, 9), (9, 1), (1, 1), (2**32 - 1, 2**32 - 1)):
    case(f"link {before} to {after}", READ, CALENDAR, A(1), L(before, after))
codes("link type", 3, lambda code: [CALENDAR, A(1), A(2), L(type=code)])
codes("lag basis", 2, lambda code: [CALENDAR, A(1), A(2), L(basis=code)])
for basis in (0, 1):
    codes(f"lag unit on basis {basis}", 1, lambda code: [CALENDAR, A(1), A(2), L(basis=basis, unit=code)])
for unit in (0, 1, 2, 128, 255):
    case(f"a percent's unit {unit}, unread", READ, CALENDAR, A(1), A(2), L(basis=2, unit=unit))
for lag in (ABSENT, -144000001, -1, 1, 1000001, 144000001, 2**31 - 1):
    for basis in (0, 1, 2):
        case(f"lag {lag} on basis {basis}", READ, CALENDAR, A(1), A(2), L(basis=basis, lag=lag))
case("type 4 of a percent", 3, CALENDAR, A(1), A(2), L(type=4, basis=2, unit=9))
case("a second L out of range", 3, CALENDAR, A(1), A(2), L(), L(basis=3))

# ---- several calendars
case("two calendars", READ, P(), C(480), WEEK, E(20000, 0, 0), C(600), W(5, 0, 600), A(1), A(2, calendar=1), L())
case("a calendar without hours between two", READ, P(), C(), WEEK, C(0), C(1440), [W(day, 0, 1440) for day in range(7)], A())
case("W of the second calendar out of order", 3, P(), C(), WEEK, C(), W(1, 0, 1), W(0, 0, 1))


def line(number, answer, parts):
    if answer != READ:
        return f"{number} refused {answer}\n"
    count = {letter: sum(n for record, n in parts if record.letter == letter) for letter in "PCWEAL"}
    at = sum(len(record.data) * n for record, n in parts if record.letter in "PCWE")
    return f"{number} read {count['C']} {at} {count['A']} {count['L']}\n"


def main():
    if sys.argv[1:] == ["--list"]:
        for number, (what, answer, parts) in enumerate(cases):
            print(number, answer, what)
        return
    folder = os.path.join(os.path.dirname(os.path.abspath(__file__)), "..", "crates", "sheet_cases")
    with open(os.path.join(folder, "data", "sheets"), "wb") as f:
        for what, answer, parts in cases:
            # neighbours that come once each are one part
            joined = []
            for record, n in parts:
                if n == 1 and joined and joined[-1][1] == 1:
                    joined[-1] = (joined[-1][0] + record.data, 1)
                else:
                    joined.append((record.data, n))
            f.write(struct.pack("<H", len(joined)))
            for data, n in joined:
                f.write(struct.pack("<HH", n, len(data)) + data)
    with open(os.path.join(folder, "stdout"), "w") as f:
        for number, (what, answer, parts) in enumerate(cases):
            f.write(line(number, answer, parts))


if __name__ == "__main__":
    main()
