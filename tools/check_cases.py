#!/usr/bin/env python3
"""Writes the sheets that the program check_cases reads, and the lines that it must print.

Each case is a sheet, written as its records, with the answer that document 01 gives rows 5 to 15: the row's number, its id and the loop's ids for rows 12
and 15; or the number of kept links, the positions of the ignored ones, and the number of open ends. Where 01 leaves room, the answer is what docs/DECISIONS.md
says: the longest task is 48,000,000 minutes on any calendar; the loop of row 15 is the one behind the first activity that waits, back along each one's first waiting
predecessor, and reversed; that of row 12 is the first activity on a loop of parents and then upward. Nothing here checks a plan: an answer is stated.

    tools/check_cases.py          writes crates/check_cases/data/sheets and crates/check_cases/stdout
    tools/check_cases.py --list   prints each case with its number, its answer and what it shows

The data file: for each case u16 the length of its sheet, then the sheet.
"""
import os
import struct
import sys

sys.dont_write_bytecode = True  # no folder of compiled files beside the tools
from sheet_cases import ABSENT, A, C, CALENDAR, E, L, P, Record, W, WEEK, WORKED

NO_ROOM = "no room"
START, FINISH = 1, 2  # the kinds of milestones
SS, FF, SF = 1, 2, 3  # the types of links
ELAPSED, PERCENT = 1, 2  # the bases of a lag
MINUTES = 1  # the unit of a lag
LAST_ID = 2**32 - 1

CLOCK = [P(), C(1440), *[W(day, 0, 1440) for day in range(7)]]
cases = []


def fine(kept, ignored, open_ends):
    """A plan that no row refuses: kept links, the ignored ones' positions, open ends."""
    return " ".join(str(n) for n in ("fine", kept, len(ignored), open_ends, *ignored))


def refused(number, id, *names):
    return " ".join(str(n) for n in ("refused", number, id, *names))


def case(what, answer, *parts):
    """A part is a record or a list of records."""
    records = []
    for part in parts:
        records.extend([part] if isinstance(part, Record) else part)
    cases.append((what, answer, records))


def task(id, **fields):
    return A(id, **fields)


def milestone(id, kind=START, **fields):
    return A(id, kind=kind, minutes=0, **fields)


PAIR = [*CALENDAR, task(1), task(2)]
THREE = [*PAIR, task(3)]
LOOP = [L(1, 2), L(2, 3), L(3, 1)]


# ---- plans that are fine
case("01's worked sheet", fine(1, [], 2), WORKED)
case("no activity", fine(0, [], 0), CALENDAR)
case("the rows before 5 are the reading's", refused(2, 0), P())

# ---- 5: calendar with no weekly hours
case("row 5: P, C alone", refused(5, 0), P(), C())
case("hours on an E day only are no weekly hours", refused(5, 0), P(), C(), E(19723, 480, 960), task(1))
case("one minute a week, and its day of this week without work", fine(0, [], 1), P(), C(), W(6, 0, 1), E(19729, 0, 0), task(1, minutes=1))
case("weekly hours and a day length of 0", fine(0, [], 1), P(), C(0), WEEK, task(1))
case("a second calendar without hours, which no activity names", refused(5, 0), CALENDAR, C(), task(1))
case("15 calendars, the last without hours", refused(5, 0), P(), *[[C(), W(0, 480, 960)] for _ in range(14)], C())
case("15 calendars", fine(0, [], 1), P(), *[[C(), W(0, 480, 960)] for _ in range(15)], task(1, calendar=14))
case("5 of a later calendar before 6", refused(5, 0), CALENDAR, C(), task(4), task(4))

# ---- 6: id met before
case("row 6: ids 4, 4", refused(6, 4), CALENDAR, task(4), task(4))
case("ids 4, 5, 5, 4: the first that was met before", refused(6, 5), CALENDAR, task(4), task(5), task(5), task(4))
case("the greatest id twice", refused(6, LAST_ID), CALENDAR, task(LAST_ID), task(LAST_ID))
case("ids that leave the same rest by the number of activities", fine(0, [], 5), CALENDAR, [task(id) for id in (7, 67, 127, 187, 247)])
case("those and the second again", refused(6, 67), CALENDAR, [task(id) for id in (7, 67, 127, 187, 67)])
case("6 before 7, 8 and 9 of the same activity", refused(6, 4), CALENDAR, task(4), task(4, minutes=-1, calendar=9))
case("7 of an earlier activity before 6", refused(7, 1), CALENDAR, task(1, minutes=-1), task(2), task(2))
case("9 of an earlier activity before 6", refused(9, 1), CALENDAR, task(1, calendar=1), task(1))
case("6 before 10", refused(6, 2), CALENDAR, task(1, parent=9), task(2), task(2))

# ---- 7: negative minutes
case("row 7: a task of -1", refused(7, 1), CALENDAR, task(1, minutes=-1))
case("a task of 0", fine(0, [], 1), CALENDAR, task(1, minutes=0))
case("the absent mark as minutes is a number", refused(7, 11), CALENDAR, task(12), task(11, minutes=ABSENT))
case("a summary's minutes are judged", refused(7, 1), CALENDAR, task(1, minutes=-1), task(2, parent=1))
case("7 before 9 of the same activity", refused(7, 1), CALENDAR, task(1, minutes=-1, calendar=3))

# ---- 8: too long, a task
case("row 8: a task of 144,000,001", refused(8, 0), CALENDAR, task(1, minutes=144000001))
case("a task of 48,000,001", refused(8, 0), CALENDAR, task(1, minutes=48000001))
case("a task of 48,000,000", fine(0, [], 1), CALENDAR, task(1, minutes=48000000))
case("48,000,001 minutes of a day length of 1,440", refused(8, 0), CLOCK, task(1, minutes=48000001))
case("48,000,000 minutes of a day length of 1,440", fine(0, [], 1), CLOCK, task(1, minutes=48000000))
case("a summary's minutes are judged too", refused(8, 0), CALENDAR, task(1, minutes=48000001), task(2, parent=1))
case("8 before 9 of the same activity", refused(8, 0), CALENDAR, task(1, minutes=48000001, calendar=3))
case("a remaining beyond the limit is no refusal", fine(0, [], 1), CLOCK, task(1, actual_start=19723, remaining=144000001))

# ---- 9: no such calendar
case("row 9: calendar 3 of 1", refused(9, 1), CALENDAR, task(1, calendar=3))
case("the number at the count: the round-the-clock calendar can't be named", refused(9, 7), CALENDAR, task(7, calendar=1))
case("calendar 1 of 2", fine(0, [], 1), CALENDAR, C(), WEEK, task(7, calendar=1))
case("calendar 2 of 2", refused(9, 7), CALENDAR, C(), WEEK, task(7, calendar=2))

# ---- 10: no such parent
case("row 10: parent 9 alone", refused(10, 1), CALENDAR, task(1, parent=9))
case("parent 0 is none", fine(0, [], 1), CALENDAR, task(1, parent=0))
case("a parent that stands later", fine(0, [], 1), CALENDAR, task(1, parent=2), task(2))
case("10 after all 9", refused(9, 2), CALENDAR, task(1, parent=9), task(2, calendar=1))
case("10 for all before 11", refused(10, 3), CALENDAR, milestone(1), task(2, parent=1), task(3, parent=9))

# ---- 11: a milestone is a parent
case("row 11: 2 under milestone 1", refused(11, 1), CALENDAR, milestone(1), task(2, parent=1))
case("2 under finish milestone 1", refused(11, 1), CALENDAR, milestone(1, FINISH), task(2, parent=1))
case("milestones under a task", fine(0, [], 2), CALENDAR, task(1), milestone(2, START, parent=1), milestone(3, FINISH, parent=1))
case("two milestone parents: the first in sheet order, not the first that is named", refused(11, 3), CALENDAR, milestone(3), milestone(4), task(1, parent=4), task(2, parent=3))
case("a milestone under itself: 11 before 12 of the same activity", refused(11, 1), CALENDAR, milestone(1, parent=1))
case("11 of an earlier activity before 12", refused(11, 2), CALENDAR, milestone(2), task(3, parent=2), task(1, parent=1))
case("12 of an earlier activity before 11", refused(12, 1, 1, 1), CALENDAR, task(1, parent=1), milestone(2), task(3, parent=2))
case("a task and a milestone that are each other's parents: the task comes first", refused(12, 1, 1, 2, 1), CALENDAR, task(1, parent=2), milestone(2, parent=1))

# ---- 12: parents close a loop
case("row 12: 1 under 1", refused(12, 1, 1, 1), CALENDAR, task(1, parent=1))
case("a loop of 2 parents", refused(12, 1, 1, 2, 1), CALENDAR, task(1, parent=2), task(2, parent=1))
case("a loop of 3 parents", refused(12, 1, 1, 2, 3, 1), CALENDAR, task(1, parent=2), task(2, parent=3), task(3, parent=1))
case("a loop of 3 parents from the first in sheet order, upward", refused(12, 7, 7, 3, 5, 7), CALENDAR, task(7, parent=3), task(5, parent=7), task(3, parent=5))
case("one that hangs below a loop of 2 is passed over", refused(12, 2, 2, 3, 2), CALENDAR, task(1, parent=2), task(2, parent=3), task(3, parent=2))
case("one that hangs below a loop of 1", refused(12, 2, 2, 2), CALENDAR, task(1, parent=2), task(2, parent=2))
case("two that hang below a loop", refused(12, 3, 3, 3), CALENDAR, task(1, parent=2), task(2, parent=3), task(3, parent=3))
case("two loops: the first in sheet order", refused(12, 4, 4, 1, 4), CALENDAR, task(4, parent=1), task(2, parent=3), task(3, parent=2), task(1, parent=4))
case("the greatest ids in a loop", refused(12, LAST_ID, LAST_ID, LAST_ID - 1, LAST_ID), CALENDAR, task(LAST_ID, parent=LAST_ID - 1), task(LAST_ID - 1, parent=LAST_ID))
case("parents four deep close none", fine(0, [], 1), CALENDAR, task(1, parent=2), task(2, parent=3), task(3, parent=4), task(4))
case("64 parents in a loop", refused(12, 1, *range(1, 65), 1), CALENDAR, [task(id, parent=id % 64 + 1) for id in range(1, 65)])
case("12 before 13", refused(12, 1, 1, 1), CALENDAR, task(1, parent=1), L(9, 1))

# ---- 13: link to an unknown id
case("row 13: link 1 to 9", refused(13, 9), CALENDAR, task(1), L(1, 9))
case("both unknown: the predecessor first", refused(13, 8), CALENDAR, task(1), L(8, 7))
case("9 to 9 with 9 unknown is no link to itself", refused(13, 9), CALENDAR, task(1), L(9, 9))
case("a predecessor of 0", refused(13, 0), CALENDAR, task(1), L(0, 1))
case("a successor of 0", refused(13, 0), CALENDAR, task(1), L(1, 0))
case("a link without any activity", refused(13, 1), CALENDAR, L(1, 2))
case("from a summary to an unknown id", refused(13, 9), CALENDAR, task(1), task(2, parent=1), L(1, 9))
case("13 on the first link before 8 on the second", refused(13, 9), PAIR, L(1, 9), L(1, 2, lag=100001))
case("13 before 15", refused(13, 9), PAIR, L(1, 2), L(2, 1), L(1, 9))
case("13 after an ignored link: no position is left in names", refused(13, 9), PAIR, task(3, parent=2), L(2, 1), L(1, 2), L(1, 9))

# ---- 14: link to itself
case("row 14: link 1 to 1", refused(14, 1), CALENDAR, task(1), L(1, 1))
case("a link to itself on a summary is never ignored", refused(14, 1), CALENDAR, task(1), task(2, parent=1), L(1, 1))
case("a link to itself with a lag too long", refused(14, 1), CALENDAR, task(1), L(1, 1, lag=100001))
case("a link to itself of type SF, after a kept one", refused(14, 2), PAIR, L(1, 2), L(2, 2, type=SF))
case("14 on the first link before 13 on the second", refused(14, 2), PAIR, L(2, 2), L(1, 9))

# ---- 8: too long, a kept link's lag; before conversion
PAIR_CLOCK = [*CLOCK, task(1), task(2)]
for sign in (1, -1):
    for name, basis in (("a working", 0), ("an elapsed", ELAPSED)):
        case(f"{name} lag of {sign * 100000} days", fine(1, [], 2), PAIR, L(basis=basis, lag=sign * 100000))
        case(f"{name} lag of {sign * 100001} days", refused(8, 0), PAIR, L(basis=basis, lag=sign * 100001))
        case(f"{name} lag of {sign * 144000000} minutes", fine(1, [], 2), PAIR_CLOCK, L(basis=basis, unit=MINUTES, lag=sign * 144000000))
        case(f"{name} lag of {sign * 144000001} minutes", refused(8, 0), PAIR_CLOCK, L(basis=basis, unit=MINUTES, lag=sign * 144000001))
    case(f"a working lag of {sign * 100000} days of 1,440 minutes", fine(1, [], 2), PAIR_CLOCK, L(lag=sign * 100000))
case("the absent mark as a lag in days is a number", refused(8, 0), PAIR, L(lag=ABSENT))
case("the absent mark as a lag in minutes is a number", refused(8, 0), PAIR, L(unit=MINUTES, lag=ABSENT))

# ---- 8: after conversion. A percent is clamped to 1,000,000, a hundred times the predecessor's minutes, and divided toward zero
for sign in (1, -1):
    long = [*CLOCK, task(1, minutes=1440000), task(2)]
    longer = [*CLOCK, task(1, minutes=1440001), task(2)]
    case(f"a percent of {sign * 1000000} of 1,440,000 minutes", fine(1, [], 2), long, L(basis=PERCENT, lag=sign * 1000000))
    case(f"a percent of {sign * 1000001} of 1,440,000 minutes is clamped", fine(1, [], 2), long, L(basis=PERCENT, lag=sign * 1000001))
    case(f"a percent of {sign * 1000000} of 1,440,001 minutes", refused(8, 0), longer, L(basis=PERCENT, lag=sign * 1000000))
    # 144,000,000.9696 and 144,000,001.5603 minutes
    case(f"a percent of {sign * 30012} of 47,980,808 minutes", fine(1, [], 2), CLOCK, task(1, minutes=47980808), task(2), L(basis=PERCENT, lag=sign * 30012))
    case(f"a percent of {sign * 30003} of 47,995,201 minutes", refused(8, 0), CLOCK, task(1, minutes=47995201), task(2), L(basis=PERCENT, lag=sign * 30003))
    case(f"a percent of {sign * 144000001} is checked only after", fine(1, [], 2), PAIR, L(basis=PERCENT, lag=sign * 144000001))
case("the absent mark as a percent is a number, clamped", fine(1, [], 2), CLOCK, task(1, minutes=1440000), task(2), L(basis=PERCENT, lag=ABSENT))
case("a percent is of the predecessor's minutes", fine(1, [], 2), CLOCK, task(1), task(2, minutes=48000000), L(basis=PERCENT, lag=1000000))
case("a percent's unit is unread", fine(1, [], 2), PAIR, L(basis=PERCENT, unit=255, lag=100001))

# ---- 8 and the order of links; ignored links
case("8 on the first link before 13 on the second", refused(8, 0), PAIR, L(lag=100001), L(1, 9))
case("8 before 15", refused(8, 0), PAIR, L(1, 2), L(2, 1, lag=100001))
case("a lag too long from a summary: ignored", fine(0, [0], 2), CALENDAR, task(1), task(2), task(3, parent=1), L(1, 2, lag=100001))
case("a lag too long to a summary: ignored", fine(0, [0], 2), CALENDAR, task(1), task(2), task(3, parent=1), L(2, 1, unit=MINUTES, lag=-144000001))
case("a lag too long on a link that is ignored, then on one that is kept", refused(8, 0), CALENDAR, task(1), task(2), task(3, parent=1), L(1, 2, lag=100001), L(2, 3, lag=100001))
case("an activity is a summary by a child that stands later", fine(1, [0, 2], 2), CALENDAR, task(1), task(2), task(3, parent=1), L(1, 2), L(2, 3), L(3, 1))
case("ignored at the positions 1, 3 and 4", fine(3, [1, 3, 4], 2), CALENDAR, task(1), task(2), task(3), task(4), task(5, parent=4),
     L(1, 2), L(4, 1), L(2, 5), L(3, 4), L(4, 3), L(5, 3))

# ---- 15: kept links close a loop
case("row 15: 1 to 2, 2 to 1", refused(15, 2, 2, 1, 2), PAIR, L(1, 2), L(2, 1))
case("the same in the other order of activities", refused(15, 1, 1, 2, 1), CALENDAR, task(2), task(1), L(1, 2), L(2, 1))
case("a loop of 3", refused(15, 2, 2, 3, 1, 2), THREE, LOOP)
case("one that leads into the loop", refused(15, 2, 2, 3, 1, 2), CALENDAR, task(4), task(1), task(2), task(3), L(4, 1), LOOP)
case("one that leads out of the loop and stands first", refused(15, 3, 3, 1, 2, 3), CALENDAR, task(4), task(1), task(2), task(3), LOOP, L(2, 4))
case("one that leads in and one that leads out of a loop of 2", refused(15, 2, 2, 3, 2), CALENDAR, task(1), task(4), task(2), task(3), L(1, 2), L(3, 4), L(2, 3), L(3, 2))
case("the loop behind the first that waits", refused(15, 3, 3, 2, 3), THREE, L(3, 2), L(2, 3), L(2, 1))
case("among waiting predecessors the first in link order", refused(15, 3, 3, 1, 3), THREE, L(3, 1), L(2, 1), L(1, 2), L(1, 3))
case("two loops apart: that of the first that waits", refused(15, 4, 4, 1, 4), CALENDAR, task(1), task(2), task(3), task(4), L(2, 3), L(3, 2), L(1, 4), L(4, 1))
case("a loop of all types", refused(15, 2, 2, 3, 4, 1, 2), THREE, task(4), L(1, 2, type=SS), L(2, 3, type=FF), L(3, 4, type=SF), L(4, 1))
case("a loop beside ignored links: names holds the loop alone", refused(15, 2, 2, 1, 2), PAIR, task(3), task(4, parent=3), L(1, 3), L(1, 3), L(3, 1), L(3, 2), L(1, 2), L(2, 1))
case("the greatest ids in a loop of links", refused(15, LAST_ID - 1, LAST_ID - 1, LAST_ID, LAST_ID - 1), CALENDAR, task(LAST_ID), task(LAST_ID - 1), L(LAST_ID, LAST_ID - 1), L(LAST_ID - 1, LAST_ID))
case("64 in a loop of links", refused(15, 2, *range(2, 65), 1, 2), CALENDAR, [task(id) for id in range(1, 65)], [L(id, id % 64 + 1) for id in range(1, 65)])
case("1 to 2, 2 to 1, where 2 is a summary: both ignored", fine(0, [0, 1], 2), PAIR, task(3, parent=2), L(1, 2), L(2, 1))
case("a loop of 3 through a summary", fine(1, [1, 2], 3), THREE, task(4, parent=3), LOOP)

# ---- open ends: non-summaries with no kept incoming or no kept outgoing link
case("three in a row", fine(2, [], 2), THREE, L(1, 2), L(2, 3))
case("three without links", fine(0, [], 3), THREE)
case("1 to 2 and 3, both to 4", fine(4, [], 2), THREE, task(4), L(1, 2), L(1, 3), L(2, 4), L(3, 4))
case("an ignored link leaves an end open", fine(1, [1], 3), THREE, task(4, parent=3), L(1, 2), L(2, 3))
case("a summary is no open end, its child is", fine(1, [], 3), PAIR, task(3, parent=4), task(4), L(1, 2))
case("a child with links on both sides is none", fine(2, [], 2), PAIR, task(3, parent=4), task(4), L(1, 3), L(3, 2))

# ---- the room that is lent: 64 activities and 128 links
FULL = [*CALENDAR, *[task(id) for id in range(1, 65)]]
case("64 activities and 128 links", fine(128, [], 2), FULL, [L(id, id + 1, type=k) for id in range(1, 64) for k in (0, SS)], L(1, 3), L(2, 4))
case("64 activities, 128 links, all ignored", fine(0, list(range(128)), 63), CALENDAR, [task(id, parent=64 if id == 1 else 0) for id in range(1, 65)], [L(64, 2)] * 128)
case("65 activities", NO_ROOM, FULL, task(65))
case("129 links", NO_ROOM, PAIR, [L()] * 129)


def main():
    if sys.argv[1:] == ["--list"]:
        for number, (what, answer, records) in enumerate(cases):
            print(f"{number} {answer}: {what}")
        return
    folder = os.path.join(os.path.dirname(os.path.abspath(__file__)), "..", "crates", "check_cases")
    os.makedirs(os.path.join(folder, "data"), exist_ok=True)
    with open(os.path.join(folder, "data", "sheets"), "wb") as f:
        for what, answer, records in cases:
            sheet = b"".join(record.data for record in records)
            f.write(struct.pack("<H", len(sheet)) + sheet)
    with open(os.path.join(folder, "stdout"), "w") as f:
        for number, (what, answer, records) in enumerate(cases):
            f.write(f"{number} {answer}\n")


if __name__ == "__main__":
    main()
