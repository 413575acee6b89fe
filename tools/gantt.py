#!/usr/bin/env python3
"""The answer of `plan` as a table with dates, and as a Gantt picture.

    plan < SHEET | tools/gantt.py SHEET [--names TEXT] [--svg FILE]

prints the table; with --svg it draws the picture: a bar from early start to early finish (red where critical), below it a thin
bar from late start to late finish, a dotted line over the total float, arrows for links, diamonds for milestones, a
bracket for a summary. Names are the comments on the activities' lines of TEXT.
"""
import argparse
import datetime
import html
import struct
import sys

import sheet_text
from sheet_text import ABSENT, EPOCH, LINK_TYPES

FIELDS = ["id", "es", "ef", "ls", "lf", "total", "free", "total_minutes", "free_minutes", "critical", "path", "status",
          "remaining", "es_minute", "ef_minute"]
STATUS = ["not started", "in progress", "completed"]
ROWS = ["a lent slice is too short: more than 64 activities or 128 links", "unknown kind, cut record, wrong order, no P or no C", "field out of range",
        "record beyond a limit", "calendar with no weekly hours", "id met before", "negative minutes", "too long", "no such calendar",
        "no such parent", "a milestone is a parent", "parents close a loop", "link to an unknown id", "link to itself", "kept links close a loop"]


def date(day):
    return datetime.date.fromordinal(day + EPOCH).isoformat()


class Plan:
    """The sheet's records that a picture shows."""

    def __init__(self, sheet):
        self.activities, self.links, self.data = [], [], ABSENT
        for letter, body in sheet_text.split(sheet):
            if letter == "P":
                self.data = struct.unpack("<iiiBBBBi", body)[1]
            elif letter == "A":
                self.activities.append(sheet_text.activity_of(body))
            elif letter == "L":
                self.links.append(struct.unpack("<IIBBBi", body)[:3])
        self.parent = {a[0]: a[3] for a in self.activities}
        self.summaries = set(self.parent.values()) - {0}

    def depth(self, number):
        depth = 0
        while self.parent.get(number):
            number, depth = self.parent[number], depth + 1
        return depth

    def kind(self, number):
        return next(a[1] for a in self.activities if a[0] == number)


def refusal(text, names):
    """A refusal in document 01's words, with the activity that it names."""
    words = text.split()
    if len(words) != 3 or words[0] != "refused":
        return text.strip() or "no answer"
    row, number = int(words[1]), int(words[2])
    name = f" ({names[number]})" if number in names else ""
    return f"refused by row {row}, {ROWS[row - 1]}" + (f": {number}{name}" if number else "")


def answer(text):
    """The words after `plan`, and each activity's row; or None twice where it says something else."""
    lines = text.splitlines()
    if not lines or not lines[0].startswith("plan "):
        return None, None
    head = [int(word) for word in lines[0].split()[1:]]
    return head, [dict(zip(FIELDS, map(int, line.split()))) for line in lines[1:]]


# ---- the table
def table(plan, head, rows, names):
    finish, count, ignored, opened = head
    lines = [["id", "name", "early start", "early finish", "late start", "late finish", "total", "free", "critical", "status"]]
    for row in rows:
        lines.append([str(row["id"]), "  " * plan.depth(row["id"]) + names.get(row["id"], ""), date(row["es"]), date(row["ef"]),
                      date(row["ls"]), date(row["lf"]), str(row["total"]), str(row["free"]),
                      "yes" if row["critical"] else "", "" if row["id"] in plan.summaries else STATUS[row["status"]]])
    widths = [max(len(line[k]) for line in lines) for k in range(len(lines[0]))]
    right = {0, 6, 7}
    for line in lines:
        print("  ".join(c.rjust(w) if k in right else c.ljust(w) for k, (c, w) in enumerate(zip(line, widths))).rstrip())
    print(f"\nfinish {date(finish)}, {count} activities, {ignored} links ignored, {opened} open ends; floats in days")


# ---- the picture
ROW, TOP, LEFT = 26, 44, 230
RED, BLUE, GREY, LINE = "#c0392b", "#2e6da4", "#b8c4ce", "#5b6770"


def ticks(first, last):
    """Days at which the axis has a line: not more than about twenty."""
    step = next(s for s in (1, 2, 7, 14, 28, 56, 91, 182, 365, 3650, 36500) if (last - first) / s <= 20)
    start = first - (first + EPOCH - 1) % 7 if step % 7 == 0 else first
    return [day for day in range(start, last + 1, step) if day >= first]


def picture(plan, head, rows, names):
    first = min(min(r["es"], r["ls"]) for r in rows) - 1
    last = max([head[0]] + [max(r["ef"], r["lf"]) for r in rows]) + 2
    width = 900
    scale = width / (last - first)
    bottom = TOP + ROW * len(rows) + 8
    height = bottom + 28
    at = {row["id"]: k for k, row in enumerate(rows)}
    svg = []

    def x(day):
        return LEFT + (day - first) * scale

    def middle(number):
        return TOP + ROW * at[number] + ROW / 2 - 3

    def ends(row, early=True):
        """Where a row's bar begins and ends: a milestone is a moment, a summary whole days."""
        start, finish = ("es", "ef") if early else ("ls", "lf")
        if row["id"] not in plan.summaries and early:
            return x(row["es_minute"] / 1440), x(row["ef_minute"] / 1440)
        if plan.kind(row["id"]) != 0 and row["id"] not in plan.summaries:
            return x(row[start]), x(row[start])
        return x(row[start]), x(row[finish] + 1)

    def line(x1, y1, x2, y2, colour, extra=""):
        svg.append(f'<line x1="{x1:.1f}" y1="{y1:.1f}" x2="{x2:.1f}" y2="{y2:.1f}" stroke="{colour}" {extra}/>')

    def text(px, py, words, extra=""):
        svg.append(f'<text x="{px:.1f}" y="{py:.1f}" {extra}>{html.escape(words)}</text>')

    for day in ticks(first, last):
        line(x(day), TOP - 8, x(day), bottom, "#e3e8ec")
        text(x(day), TOP - 14, date(day)[2:], 'font-size="10" fill="#5b6770" text-anchor="middle"')
    if plan.data != ABSENT:
        line(x(plan.data), TOP - 8, x(plan.data), bottom, "#e67e22", 'stroke-width="1.5"')
        text(x(plan.data) + 3, TOP - 26, "data day", 'font-size="10" fill="#e67e22"')
    line(x(head[0] + 1), TOP - 8, x(head[0] + 1), bottom, "#27632a", 'stroke-dasharray="4 3"')
    text(x(head[0] + 1), TOP - 26, f"finish {date(head[0])}", 'font-size="10" fill="#27632a" text-anchor="end"')

    for row in rows:
        number, y, colour = row["id"], middle(row["id"]), RED if row["critical"] else BLUE
        label = names.get(number, f"activity {number}")
        weight = ' font-weight="bold"' if number in plan.summaries else ""
        text(8 + 12 * plan.depth(number), y + 4, f"{number}  {label}"[:36], f'font-size="12" fill="#20282e"{weight}')
        start, finish = ends(row)
        late_start, late_finish = ends(row, early=False)
        if number in plan.summaries:
            svg.append(f'<path d="M{start:.1f} {y + 5:.1f} V{y - 3:.1f} H{finish:.1f} V{y + 5:.1f}" fill="none" stroke="#20282e" stroke-width="3"/>')
            continue
        if row["total_minutes"] > 0 and late_finish > finish:
            line(finish, y, late_finish, y, colour, 'stroke-dasharray="1 3"')
        if plan.kind(number) != 0:
            line(late_start - 4, y + 9, late_start + 4, y + 9, GREY, 'stroke-width="4"')
            svg.append(f'<path d="M{start:.1f} {y - 7:.1f} l7 7 l-7 7 l-7 -7 z" fill="{colour}"/>')
            continue
        svg.append(f'<rect x="{late_start:.1f}" y="{y + 7:.1f}" width="{max(late_finish - late_start, 1):.1f}" height="4" fill="{GREY}"/>')
        opacity = ' fill-opacity="0.45"' if row["status"] == 2 else ""
        svg.append(f'<rect x="{start:.1f}" y="{y - 6:.1f}" width="{max(finish - start, 1.5):.1f}" height="12" rx="2" fill="{colour}"{opacity}/>')

    for predecessor, successor, kind in plan.links:
        if predecessor not in at or successor not in at or {predecessor, successor} & plan.summaries:
            continue
        source, target = rows[at[predecessor]], rows[at[successor]]
        from_finish, to_start = LINK_TYPES[kind][0] == "F", LINK_TYPES[kind][1] == "S"
        x1, y1 = ends(source)[1 if from_finish else 0], middle(predecessor)
        x2, y2 = ends(target)[0 if to_start else 1], middle(successor)
        turn = max(x1, x2) + 6 if from_finish and not to_start else min(x1, x2) - 6 if not from_finish and to_start else x1 + (6 if from_finish else -6)
        into = y2 - 7 if y2 > y1 else y2 + 7
        if to_start and from_finish and x2 >= x1 - 1:
            svg.append(f'<path d="M{x1:.1f} {y1:.1f} H{x2 + 3:.1f} V{into:.1f}" class="link"/>')
        else:
            svg.append(f'<path d="M{x1:.1f} {y1:.1f} H{turn:.1f} V{y2:.1f} H{x2:.1f}" class="link"/>')

    y, px = bottom + 14, LEFT
    for colour, thick, dash, words in ((BLUE, 12, "", "early dates"), (RED, 12, "", "critical"), (GREY, 4, "", "late dates"),
                                       (BLUE, 1, 'stroke-dasharray="1 3"', "total float"), ("#20282e", 3, "", "summary")):
        line(px, y, px + 24, y, colour, f'stroke-width="{thick}" {dash}')
        text(px + 30, y + 4, words, 'font-size="10" fill="#5b6770"')
        px += 110
    svg.append(f'<path d="M{px:.1f} {y - 7:.1f} l7 7 l-7 7 l-7 -7 z" fill="{BLUE}"/>')
    text(px + 14, y + 4, "milestone", 'font-size="10" fill="#5b6770"')

    return (f'<svg xmlns="http://www.w3.org/2000/svg" width="{LEFT + width + 20}" height="{height}" font-family="sans-serif">'
            f'<style>.link{{fill:none;stroke:{LINE};stroke-width:1;marker-end:url(#tip)}}</style>'
            f'<defs><marker id="tip" viewBox="0 0 6 6" refX="5" refY="3" markerWidth="6" markerHeight="6" orient="auto">'
            f'<path d="M0 0 L6 3 L0 6 z" fill="{LINE}"/></marker></defs><rect width="100%" height="100%" fill="white"/>'
            + "\n".join(svg) + "</svg>\n")


def main():
    parser = argparse.ArgumentParser(description="The answer of `plan` as a table and a picture.")
    parser.add_argument("sheet")
    parser.add_argument("--names", help="the plan as text, whose comments name the activities")
    parser.add_argument("--svg", help="where the picture goes")
    args = parser.parse_args()
    with open(args.sheet, "rb") as file:
        plan = Plan(file.read())
    names = {}
    if args.names:
        with open(args.names, encoding="utf-8") as file:
            names = sheet_text.names_of(file.read())
    said = sys.stdin.read()
    head, rows = answer(said)
    if head is None:
        sys.exit(refusal(said, names))
    table(plan, head, rows, names)
    if args.svg and rows:
        with open(args.svg, "w", encoding="utf-8") as file:
            file.write(picture(plan, head, rows, names))


if __name__ == "__main__":
    main()
