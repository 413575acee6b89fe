#!/usr/bin/env python3
"""Writes the sheets that the program replay reads, and what it must print: the Rust's answers, from recorded/answers.bin.

    tools/replay_cases.py    writes crates/replay/data/sheets and crates/replay/stdout

The data file: for each sheet u32 its length, then the sheet. For each sheet the text is what `plan` prints and, where the call leaves names, a line
`names` with them: the positions of an accepted plan's ignored links, or the ids of a refusal's loop.
"""
import os
import struct

ROOT = os.path.join(os.path.dirname(os.path.abspath(__file__)), "..")


def part(data, at):
    """The bytes that follow their length, and where they end."""
    (n,) = struct.unpack_from("<I", data, at)
    return data[at + 4 : at + 4 + n], at + 4 + n


def entries(data):
    """Each sheet with its text and its names."""
    at = 0
    while at < len(data):
        sheet, at = part(data, at)
        text, at = part(data, at)
        (n,) = struct.unpack_from("<I", data, at)
        yield sheet, text.decode(), list(struct.unpack_from(f"<{n}I", data, at + 4))
        at += 4 + 4 * n


def main():
    with open(os.path.join(ROOT, "recorded", "answers.bin"), "rb") as file:
        recorded = list(entries(file.read()))
    folder = os.path.join(ROOT, "crates", "replay")
    os.makedirs(os.path.join(folder, "data"), exist_ok=True)
    with open(os.path.join(folder, "data", "sheets"), "wb") as file:
        for sheet, _, _ in recorded:
            file.write(struct.pack("<I", len(sheet)) + sheet)
    with open(os.path.join(folder, "stdout"), "w") as file:
        for _, text, names in recorded:
            file.write(text)
            if names:
                file.write(" ".join(["names", *map(str, names)]) + "\n")


if __name__ == "__main__":
    main()
