#!/usr/bin/env python3
"""Brings the repository's own words in specs, proofs, clauses, must-fail edits and documents to snake case.

usage: tools/respell.py            at the top of the repository, once, after the toolchain's port.py
       tools/respell.py --list     prints old and new names and changes nothing

Words of the toolchain's library, types, modules and functions of src/ keep their names. A lemma that would
have the name of a definition beside it gets `_lem`.
"""

import glob
import re
import sys

TOKEN = re.compile(r"(?<![A-Za-z0-9_'₀-₉ℕℤ≢⊎-])[a-z][A-Za-z0-9_'₀-₉]*(?:-[A-Za-z0-9_'₀-₉]+)*(?![A-Za-z0-9_'₀-₉ℕℤ≢⊎])")
USE = re.compile(r"^\s*(?:pub )?(?:ghost )?use ([\w.'+-]+?)(?:\.\{([^}]*)\})?(?: as [\w-]+)?;?\s*$")
GENERATED = re.compile(r"\.proofs\.(?:[\w+-]+\.)*[\w+-]+\.(?:Statement|Tie|Given|Goals|Lts|Reads)$")


def snake(t):
    s = re.sub(r"(?<=[a-z0-9])(?=[A-Z])", "_", t)
    s = re.sub(r"(?<=[A-Z])(?=[A-Z][a-z])", "_", s)
    return s.replace("-", "_").lower()


def odd(t):
    return "-" in t or t != t.lower()


def crates():
    return [line.split("#")[0].split(":")[0].split()[0] for line in open("crates.txt", encoding="utf-8") if line.split("#")[0].strip()]


def is_own(module, own):
    parts = module.split(".")
    return parts[0] == "Rattle" and len(parts) > 1 and parts[1] in own and not GENERATED.search(module)


def kept(text, own):
    """The words that a file takes from the library or from what the toolchain generates."""
    out = set()
    for line in text.split("\n"):
        m = USE.match(line)
        if m and m.group(2) and not is_own(m.group(1), own):
            out |= {w.strip().split(" as ")[0] for w in m.group(2).split(",")}
    return out


def taken(text, own):
    """The words that a file takes from the repository's own definitions and lemmas."""
    out = set()
    for line in text.split("\n"):
        m = USE.match(line)
        if m and m.group(2) and is_own(m.group(1), own):
            out |= {w.strip() for w in m.group(2).split(",")}
    return out


def split_comment(line, mark):
    if line.lstrip().startswith(mark):
        k = line.index(mark)
        return line[:k], line[k:]
    k = line.find(" " + mark + " ")
    return (line[:k], line[k:]) if k >= 0 else (line, "")


def clause(line):
    s = line.lstrip()
    return s.startswith(("ghost ", "requires", "ensures", "×", "pub ghost ", "#[tactic", "#![tactic"))


def words(text, mark):
    out = set()
    for line in text.split("\n"):
        code, _ = split_comment(line, mark)
        if mark == "//" and not clause(code):
            continue
        out |= set(TOKEN.findall(code))
    return out


def fields(text):
    """The fields of the records that a file declares."""
    out = set()
    lines = text.split("\n")
    for i, line in enumerate(lines):
        m = re.match(r"(\s*)(?:pub )?record \S.*where\s*$", line)
        if not m:
            continue
        for inner in lines[i + 1 :]:
            if inner.strip() and len(inner) - len(inner.lstrip()) <= len(m.group(1)):
                break
            f = re.match(r"\s*((?:[^\s:()]+ )+): ", inner)
            if f and not inner.lstrip().startswith("--"):
                out |= set(f.group(1).split())
    return out


def defined(text):
    """The words that a file defines at its top or in a section."""
    return {w for line in text.split("\n") for m in [re.match(r"\s*(?:abbrev |unfoldable )?pub ((?:[^\s:(){}]+ )+): ", line)] if m for w in m.group(1).split()}


def main():
    own = set(crates())
    specs = sorted(glob.glob("crates/*/specs/**/*.antt", recursive=True) + glob.glob("crates/*/proofs/*.antt"))
    walks = sorted(set(glob.glob("crates/*/proofs/**/*.antt", recursive=True)) - set(specs))
    rust = sorted(glob.glob("crates/*/src/**/*.rt", recursive=True))
    edits = sorted(glob.glob("crates/*/must-fail/*.edit"))
    pages = sorted(glob.glob("docs/*.md") + glob.glob("*.md") + glob.glob("compare/*.md") + glob.glob("recorded/*.md"))
    text = {f: open(f, encoding="utf-8").read() for f in specs + walks + rust + edits + pages}
    keep = {f: kept(text[f], own) for f in specs + walks + rust}

    parts = set().union(*(fields(text[f]) for f in specs))
    given = {snake(w) for f in specs for w in defined(text[f]) if "-" not in w}
    found = {}
    for f in specs + rust:
        for w in words(text[f], "--" if f.endswith(".antt") else "//") - keep[f]:
            found.setdefault(w, set()).add(f)
    names = {}
    for w in sorted(found):
        if odd(w):
            new = snake(w)
            # a dashed word beside a definition of the same words is the lemma about it
            beside = any(new in {snake(v) for v in words(text[f], "--") if v != w and "-" not in v and (w not in parts or odd(v))} for f in found[w] if f.endswith(".antt"))
            beside = beside or (w not in parts and new in given)
            names[w] = new + "_lem" if "-" in w and beside else new
    if "--list" in sys.argv:
        for w in sorted(names):
            print(w, names[w])
        return

    def turn(line, keep, allowed=None):
        return TOKEN.sub(lambda m: names[m.group(0)] if m.group(0) in names and m.group(0) not in keep and (allowed is None or m.group(0) in allowed) else m.group(0), line)

    def remark(line):
        line = TOKEN.sub(lambda m: names.get(m.group(0), m.group(0)) if "-" not in m.group(0) else m.group(0), line)
        return re.sub(r"`([^`]+)`", lambda m: "`" + turn(m.group(1), ()) + "`", line)

    for f in specs + walks:
        allowed = None if f in specs else taken(text[f], own)
        local = {line.split(" : ")[0].split()[-1] for line in text[f].split("\n") if re.match(r"(?:pub |abbrev )*\S+ : ", line)}
        lines = []
        for line in text[f].split("\n"):
            code, note = split_comment(line, "--")
            if allowed is not None:
                # what stands behind a dot is a field: of a record of ours, or a step that the toolchain names
                code = re.sub(r"(?<![\w.])" + TOKEN.pattern, lambda m: names[m.group(0)] if m.group(0) in names and m.group(0) in allowed else m.group(0), code)
                code = re.sub(r"(?<=\.)" + TOKEN.pattern, lambda m: names[m.group(0)] if m.group(0) in names and m.group(0) in parts else m.group(0), code)
                code = re.sub(TOKEN.pattern + r"(?= = )", lambda m: names[m.group(0)] if m.group(0) in names and m.group(0) in parts and m.group(0) not in local else m.group(0), code)
            else:
                code = turn(code, keep[f])
            lines.append(code + remark(note))
        text[f] = "\n".join(lines)
    for f in rust:
        lines = []
        for line in text[f].split("\n"):
            code, note = split_comment(line, "//")
            lines.append((turn(code, keep[f]) if clause(code) else code) + remark(note))
        text[f] = "\n".join(lines)
    for f in edits:
        in_specs = False
        lines = []
        for line in text[f].split("\n"):
            if line.startswith("file:"):
                in_specs = "specs/" in line
            if line.startswith(("old:", "new:")) and (in_specs or clause(line[4:])):
                line = line[:4] + TOKEN.sub(lambda m: names.get(m.group(0), snake(m.group(0)) if "-" not in m.group(0) else m.group(0)), line[4:])
            lines.append(line)
        text[f] = "\n".join(lines)
    every = set(found) | set(names.values())
    for f in pages:

        def page_word(m):
            w = m.group(0)
            return names.get(w, snake(w) if odd(w) and snake(w) in every else w)

        text[f] = re.sub(r"`([^`\n]+)`", lambda m: "`" + re.sub(r"^-(?=[a-z]+$)", "_", TOKEN.sub(page_word, m.group(1))) + "`", text[f])
    for f, t in text.items():
        with open(f, "w", encoding="utf-8") as out:
            out.write(t)


main()
