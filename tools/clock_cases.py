#!/usr/bin/env python3
"""Makes the cases of the program clock_cases: its file data/cases and the lines that it must write, its stdout.

The answers come from scanning minute by minute as document 01 words the clock. Nothing here is taken from the program's code:
a day is read by looking at its records, a minute by looking whether a period of its day holds it, and a walk goes from one minute
to the next. A day outside the years -9999 to 9999 that a walk reads is its refusal, number 8.

A calendar in the file is its W records, then its E records, as the sheet has them; a mark (1: round the clock, with no records; else 0);
the number of its cases, u16; and the cases: the function's number, u8, and two times, each a day, i32, and a minute of the day, u16.
For a function of a number the first four bytes of the second time are the number.
"""
import os
import struct

FUNCTIONS = ["", "next_start", "previous_finish", "next_finish", "previous_start", "start_by", "working_at", "worked_before", "day_work",
             "advance", "retreat", "shift", "between"]
OF_TIME = FUNCTIONS[1:9]


class Refused(Exception):
    pass


def leap(year):
    return year % 4 == 0 and (year % 100 != 0 or year % 400 == 0)


def new_year(year):
    """1 January of a year, in days from 1 January 1970."""
    days = 0
    for y in range(1970, year):
        days += 366 if leap(y) else 365
    for y in range(year, 1970):
        days -= 366 if leap(y) else 365
    return days


FIRST, END = new_year(-9999), new_year(10000)


class Calendar:
    """`week`: the periods of each weekday, 0 Monday; `days`: the E records, (day, from, to), in the sheet's order."""

    def __init__(self, week, days=(), always=False):
        self.week, self.days, self.always, self.cases = week, list(days), always, []
        self.own = {}
        for day, a, b in self.days:
            self.own.setdefault(day, []).append((a, b))

    def hours(self, day):
        if self.always:
            return [(0, 1440)]
        if day in self.own:
            return self.own[day]
        return self.week.get((day + 3) % 7, [])      # day 0 is a Thursday

    def read(self, day):
        if day < FIRST or END <= day:
            raise Refused()
        return self.hours(day)

    def worked(self, t):
        return any(a <= t % 1440 < b for a, b in self.read(t // 1440))

    # ---- 01's words

    def next_start(self, t):
        while not self.worked(t):
            t += 1
        return t

    def previous_finish(self, t):
        self.read(t // 1440)
        while not self.worked(t - 1):
            t -= 1
        return t

    def next_finish(self, t):
        self.read(t // 1440)
        return t if self.worked(t - 1) else self.next_start(t)

    def previous_start(self, t):
        return t if self.worked(t) else self.next_start(t)

    def start_by(self, t):
        return t if self.worked(t) else self.previous_finish(t) - 1

    def working_at(self, t):
        return self.worked(t)

    def worked_before(self, t):
        return self.count(t // 1440 * 1440, t)

    def day_work(self, t):
        day = t // 1440
        return self.count(day * 1440, day * 1440 + 1440)

    def count(self, a, b):
        self.read(a // 1440)
        return sum(self.worked(u) for u in range(a, b))

    def advance(self, t, n):
        if n <= 0:
            return t
        self.read(t // 1440)
        while n > 0:
            n -= self.worked(t)
            t += 1
        return t

    def retreat(self, t, n):
        if n <= 0:
            return t
        self.read(t // 1440)
        while n > 0:
            t -= 1
            n -= self.worked(t)
        return t

    def shift(self, t, n):
        return self.advance(t, n) if n >= 0 else self.retreat(t, -n)

    def between(self, a, b):
        self.read(a // 1440)
        self.read(b // 1440)
        return self.count(a, b) if a <= b else -self.count(b, a)

    # ---- the cases

    def on(self, names, *times):
        """Each function of a time named, on each time."""
        for t in times:
            for name in names.split():
                self.cases.append((name, t, None))

    def of(self, name, *pairs):
        for t, n in pairs:
            self.cases.append((name, t, n))

    def lines(self):
        if self.always:
            yield "round the clock"
        else:
            yield "calendar of %d W and %d E, weekly hours: %s" % (
                sum(len(r) for r in self.week.values()), len(self.days), "yes" if any(self.week.values()) else "no")
        for name, t, n in self.cases:
            arguments = (t,) if n is None else (t, n)
            try:
                answer = getattr(self, name)(*arguments)
                answer = {True: "yes", False: "no"}[answer] if name == "working_at" else answer
            except Refused:
                answer = "refused 8"
            yield "%s %s: %s" % (name, " ".join(map(str, arguments)), answer)

    def bytes(self):
        out = b""
        for k in sorted(self.week):
            for a, b in self.week[k]:
                out += struct.pack("<BBHH", 0x57, k, a, b)
        for day, a, b in self.days:
            out += struct.pack("<BiHH", 0x45, day, a, b)
        out += struct.pack("<BH", 1 if self.always else 0, len(self.cases))
        for name, t, n in self.cases:
            out += struct.pack("<BiH", FUNCTIONS.index(name), t // 1440, t % 1440)
            if name in ("advance", "retreat"):
                out += struct.pack("<IH", n, 0)
            elif name == "shift":
                out += struct.pack("<iH", n, 0)
            elif name == "between":
                out += struct.pack("<iH", n // 1440, n % 1440)
            else:
                out += bytes(6)
        return out


MONDAY = new_year(2024)      # 1 January 2024


def at(day, minute, week=MONDAY):
    """A minute of a day of the week that begins on 1 January 2024, 0 Monday."""
    return (week + day) * 1440 + minute


WALKS = "next_start previous_finish next_finish previous_start start_by"
ALL = " ".join(OF_TIME)


def five_days():
    """01's week: Monday to Friday, 480 to 960."""
    c = Calendar({k: [(480, 960)] for k in range(5)})
    c.on("next_start", at(4, 960), at(0, 959))                                       # 01's (1), (2)
    c.of("advance", (at(4, 960), 1), (at(5, 0), 0))                                  # (4), (5)
    c.on("previous_finish", at(7, 480))                                              # (3)
    c.of("retreat", (at(7, 480), 1))                                                 # (6)
    c.of("between", (at(1, 480), at(0, 480)))                                        # (7)
    c.on("start_by", at(5, 720))                                                     # (8)
    c.on("next_finish", at(4, 960))                                                  # (9)
    c.on(ALL, at(0, 479), at(0, 480), at(0, 960), at(5, 720))
    c.on(WALKS, at(1, 0), at(4, 961))
    c.of("advance", (at(0, 480), 480), (at(0, 480), 481), (at(0, 700), 260), (at(4, 959), 2), (at(5, 720), 1), (at(0, 480), 2400), (at(0, 480), 2401))
    c.of("retreat", (at(0, 960), 480), (at(0, 960), 481), (at(7, 481), 1), (at(7, 481), 2), (at(5, 720), 480), (at(4, 960), 2400), (at(4, 960), 2401),
         (at(5, 0), 0))
    c.of("shift", (at(4, 960), 1), (at(7, 480), -1), (at(5, 3), 0), (at(0, 480), -480), (at(2, 700), 960), (at(2, 700), -960))
    c.of("between", (at(0, 480), at(0, 480)), (at(0, 0), at(7, 0)), (at(7, 0), at(0, 0)), (at(0, 700), at(3, 500)), (at(3, 500), at(0, 700)),
         (at(4, 960), at(7, 480)), (at(5, 0), at(6, 1439)))
    # before 1970, where a day is rounded down
    c.on(ALL, -1)
    c.on(WALKS, -1440, 0)
    c.of("shift", (480, 480), (480, -480), (0, -1))
    c.of("between", (-1, 1), (2000, -2000))
    return c


def shifts():
    """Split and touching shifts, and a lone hour on Saturday."""
    day = [(480, 720), (780, 1020)]
    c = Calendar({0: day, 1: day, 2: [(0, 60), (60, 120), (600, 601)], 3: day, 4: day, 5: [(540, 600)]})
    c.on(WALKS, at(0, 720), at(0, 750), at(2, 60), at(2, 601))
    c.on("worked_before day_work working_at", at(0, 900), at(2, 60), at(5, 570))
    c.of("advance", (at(0, 600), 120), (at(0, 600), 121), (at(0, 750), 1), (at(2, 0), 61), (at(2, 0), 121), (at(2, 0), 122), (at(4, 1000), 81), (at(4, 1000), 80))
    c.of("retreat", (at(0, 900), 120), (at(0, 900), 121), (at(0, 780), 1), (at(2, 120), 61), (at(2, 601), 2), (at(7, 481), 2), (at(7, 481), 61), (at(7, 481), 62))
    c.of("between", (at(0, 700), at(0, 800)), (at(2, 601), at(2, 59)), (at(6, 0), at(0, 0)))
    return c


def nights():
    """Work that runs to 24:00 and from 0:00 on."""
    c = Calendar({0: [(0, 1440)], 1: [(1320, 1440)], 2: [(0, 360), (1439, 1440)], 6: [(0, 1)]})
    c.on(ALL, at(2, 0), at(7, 0))
    c.on(WALKS, at(1, 0), at(3, 0), at(6, 1))
    c.of("advance", (at(0, 0), 1440), (at(0, 0), 1441), (at(1, 1439), 1), (at(1, 1439), 2), (at(2, 359), 2), (at(2, 359), 3))
    c.of("retreat", (at(2, 0), 120), (at(2, 0), 121), (at(1, 0), 1440), (at(3, 0), 1), (at(3, 0), 2), (at(0, 0), 1), (at(7, 0), 1), (at(7, 0), 2))
    c.of("shift", (at(2, 0), 1), (at(2, 0), -1), (at(3, 0), -361))
    c.of("between", (at(1, 0), at(0, 0)), (at(1, 1439), at(2, 1)))
    return c


def exceptions():
    """E before, on and after: no work, more work, many periods, one minute at midnight, and E at both ends of their years."""
    many = [(MONDAY + 5, 60 * k, 60 * k + 10) for k in range(24)]
    days = [(new_year(1600), 0, 0), (MONDAY - 1, 1439, 1440), (MONDAY, 0, 1), (MONDAY + 2, 0, 0)] + many + [
        (MONDAY + 6, 0, 1440), (MONDAY + 8, 700, 720), (MONDAY + 8, 720, 721), (new_year(3000) - 1, 600, 1440)]
    c = Calendar({k: [(480, 960)] for k in range(5)}, days)
    c.on(ALL, at(0, 0), at(2, 500), at(5, 70))
    c.on(WALKS, at(0, 1), at(1, 960), at(5, 1390))
    c.on("next_start previous_finish", at(-1, 1439), at(0, 700), at(3, 480), at(6, 0), at(7, 0), at(8, 720), at(8, 721))
    c.of("advance", (at(-1, 0), 1), (at(-1, 0), 2), (at(-1, 0), 3), (at(1, 959), 2), (at(5, 0), 11), (at(5, 0), 240), (at(5, 0), 241), (at(5, 0), 2160),
         (at(5, 0), 2161), (at(8, 0), 22))
    c.of("retreat", (at(0, 1), 1), (at(0, 1), 2), (at(0, 1), 3), (at(3, 480), 1), (at(6, 0), 11), (at(6, 0), 240), (at(6, 0), 241), (at(9, 480), 22))
    c.of("between", (at(-7, 0), at(7, 0)), (at(5, 5), at(5, 125)), (at(9, 0), at(2, 0)))
    last, first = new_year(3000) - 1, new_year(1600)
    c.on("next_start previous_finish day_work", first * 1440, first * 1440 + 700, last * 1440 + 599, last * 1440 + 1440)
    return c


def thursdays():
    """One minute a week."""
    c = Calendar({3: [(700, 701)]})
    c.on(WALKS, at(3, 700), at(3, 701), at(6, 0))
    c.of("advance", (at(0, 0), 1), (at(0, 0), 2), (at(3, 700), 1), (at(3, 701), 1), (at(0, 0), 60))
    c.of("retreat", (at(7, 0), 1), (at(7, 0), 2), (at(3, 701), 1), (at(3, 700), 1), (at(7, 0), 60))
    c.of("shift", (at(3, 700), 10), (at(3, 700), -10))
    c.of("between", (at(0, 0), at(70, 0)), (at(70, 0), at(0, 0)))
    return c


def starved():
    """One minute a week, at its first midnight, and 256 weeks in which that day is off."""
    c = Calendar({0: [(0, 1)]}, [(MONDAY + 7 * k, 0, 0) for k in range(1, 257)])
    c.on("next_start next_finish", at(0, 0), at(0, 1), at(0, 2))
    c.on("previous_finish start_by", at(7 * 257, 0), at(7 * 257, 1))
    c.of("advance", (at(0, 0), 1), (at(0, 0), 2), (at(0, 1), 2))
    c.of("retreat", (at(7 * 257, 1), 2), (at(7 * 257, 0), 2))
    c.of("between", (at(0, 0), at(7 * 258, 0)))
    return c


def eights():
    """Eight periods on every weekday, of one minute to eight."""
    day = [(150 * k + 100, 150 * k + 101 + k) for k in range(8)]
    c = Calendar({k: day for k in range(7)})
    c.on("next_start previous_finish worked_before day_work", at(0, 1157), at(0, 1158), at(1, 99), at(1, 405))
    c.of("advance", (at(0, 0), 36), (at(0, 0), 37), (at(0, 250), 35), (at(0, 250), 36))
    c.of("retreat", (at(1, 0), 36), (at(1, 0), 37), (at(1, 0), 8), (at(1, 0), 9))
    return c


def no_week():
    """Hours on E days only: no weekly hours."""
    c = Calendar({}, [(MONDAY, 10, 20), (MONDAY + 3, 0, 0), (MONDAY + 400, 0, 5)])
    c.on("next_start", at(-1, 0), at(0, 19), at(0, 20))
    c.on("previous_finish", at(1, 0), at(400, 0))
    c.of("advance", (at(0, 0), 11))
    c.of("between", (at(500, 0), at(-500, 0)))
    return c


def long_walks(c, times, *works):
    """Works of many weeks from each time, forward and back."""
    for t in times:
        c.of("advance", *((t, n) for n in works))
        c.of("retreat", *((t, n) for n in works))
    return c


def holidays():
    """Weeks with E days so far apart that none, one or some whole weeks lie between, and works that end within them, with them and after."""
    days, day = [], MONDAY
    for gap in (6, 7, 8, 13, 14, 15, 1, 22, 7, 49):
        day += gap
        days.append((day, 0, 600 if gap % 2 else 0))
    c = Calendar({k: [(480, 960)] for k in range(5)} | {5: [(0, 1440)]}, days)      # 3,840 minutes a week
    long_walks(c, (at(-30, 0), at(0, 480), at(35, 700)), 10080, 10081, 19200, 38400, 57601)
    long_walks(c, (at(143, 0), at(150, 1)), 10081, 15360, 26880, 26881, 61440)
    return c


def ends(c, few=False):
    """Both ends of the years that a walk may read, with a calendar that works there."""
    first, end = FIRST * 1440, END * 1440
    c.on(WALKS, first - 1, first, end - 1, end)
    c.on("working_at worked_before day_work", first - 1, end - 1, end)
    if not few:
        c.on(WALKS, first + 480, first + 4000, end - 480)
    c.of("advance", (first - 1, 1), (first - 1, 0), (first, 1), (end - 1, 1), (end - 1, 2), (end, 1), (end, 0), (end - 1440, 480), (end - 1440, 481))
    c.of("retreat", (first, 1), (first + 1, 1), (first + 1, 2), (first + 1440, 480), (first + 1440, 481), (first - 1, 0), (end, 1), (end - 1, 1), (end, 0))
    c.of("shift", (first, -1), (end - 1, 2), (end - 481, 1))
    # the years end within the weeks passed at once, with them, and after
    c.of("advance", (end - 70 * 1440, 10081), (end - 70 * 1440, 24000), (end - 70 * 1440, 24001), (end - 71 * 1440, 100800), (end - 71 * 1440, 100801))
    c.of("retreat", (first + 70 * 1440, 10081), (first + 70 * 1440, 24000), (first + 70 * 1440, 24001), (first + 71 * 1440, 100800), (first + 71 * 1440, 100801))
    c.of("between", (first, first - 1), (first, first + 1440), (end - 1440, end - 1), (end - 1, end), (end, end - 1), (first - 1, first - 1))
    return c


def round_the_clock():
    c = Calendar({}, always=True)
    c.on(ALL, at(0, 0), at(6, 1439))
    c.of("advance", (at(0, 0), 0), (at(0, 0), 1), (at(0, 0), 1440), (at(0, 0), 100000))
    c.of("retreat", (at(0, 0), 0), (at(0, 0), 1), (at(0, 0), 1440), (at(0, 0), 100000))
    c.of("shift", (at(0, 0), 1441), (at(0, 0), -1441))
    c.of("between", (at(0, 0), at(0, 1)), (at(1, 0), at(0, 0)), (0, 0))
    return ends(c, few=True)


def main():
    five = long_walks(five_days(), (at(0, 480), at(4, 960), at(5, 720)), 10080, 10081, 23999, 24000, 24001)
    calendars = [ends(five), shifts(), nights(), exceptions(), holidays(), thursdays(), starved(), eights(), no_week(), round_the_clock()]
    crate = os.path.join(os.path.dirname(os.path.abspath(__file__)), "..", "crates", "clock_cases")
    with open(os.path.join(crate, "data", "cases"), "wb") as out:
        for c in calendars:
            out.write(c.bytes())
    with open(os.path.join(crate, "stdout"), "w") as out:
        for c in calendars:
            for line in c.lines():
                out.write(line + "\n")


if __name__ == "__main__":
    main()
