#!/usr/bin/env python3
"""Brings the repository's own definitions and lemmas to snake case, once, right after port.py.

usage: python3 tools/port_names.py          at the top of the repository; --list prints OLD NEW and writes nothing

A definition in camel case gets underscores. In a lemma's name a dash stays between two names of definitions, as in
length-take; before or behind a plain word it becomes an underscore. A lemma whose new name a definition has already
gets `_lem`. Code, clauses, edits, and names between backticks in comments and documents are turned; strings are not.
"""

import glob
import re
import sys

TOKEN = re.compile(r"[^\s(){}\[\],;.⟨⟩«»`'\"]+'*")
HEAD = re.compile(r"(?:(?:abbrev|unfoldable|pub|record|data)\s+)*([^\s:(){}]+)\s*(?:\([^:]*:.*\)\s*)?:(?!:)")
FIELDS = ["dateIs", "weekdayIs", "nextIs"]
# a law that had the name of a definition but for its spelling
TOGETHER = {"crates/marshal/specs/Laws/Examples.antt": {"falls_out": "falls_out_lem"}}


def own_files():
    return sorted(glob.glob("crates/*/specs/**/*.antt", recursive=True) + glob.glob("crates/*/proofs/*.antt"))


def read(path):
    with open(path, encoding="utf-8") as f:
        return f.read()


def definitions():
    found = []
    for path in own_files():
        for line in read(path).splitlines():
            if line.startswith((" ", "-", "use ", "mod ", "pub mod ")):
                continue
            m = HEAD.match(line)
            if m and m.group(1) not in found:
                found.append(m.group(1))
    return found


def library_words():
    words = set()
    for path in glob.glob("crates/**/*.antt", recursive=True):
        for line in read(path).splitlines():
            m = re.match(r"use (?:Rattle\.std|mathlib|lib|Prim|native)\b[^{]*\{(.*)\}", line)
            if m:
                words |= {w.strip() for w in m.group(1).split(",")}
    return {w for w in words if re.fullmatch(r"[a-zA-Z][a-zA-Z_]*", w)}


def snake(word):
    return re.sub(r"(?<=[a-z0-9])([A-Z])|(?<=[A-Z])([A-Z])(?=[a-z])", lambda m: "_" + m.group(0).lower(), word)


def joined(name, known):
    """The parts of a name with dashes, a dash kept between two known names."""
    parts, groups = [snake(p) for p in name.split("-")], []
    while parts:
        for n in range(len(parts), 0, -1):
            word = "_".join(parts[:n])
            if word in known or n == 1:
                groups.append((word, word in known))
                parts = parts[n:]
                break
    out, last = groups[0]
    for word, is_name in groups[1:]:
        out += ("-" if last and is_name else "_") + word
        last = is_name
    return out


def aliases():
    """Names that a `ghost use` line gives by `as`."""
    found = set()
    for path in glob.glob("crates/*/src/**/*.rt", recursive=True):
        for line in read(path).splitlines():
            if line.startswith("ghost use"):
                found |= set(re.findall(r" as ([a-z]\w*)", line))
    return sorted(found)


def renaming():
    own = definitions()
    plain = [n for n in own if "-" not in n]
    known = {snake(n) if n[0].islower() else n for n in plain} | library_words()
    new = {n: snake(n) for n in plain + FIELDS + aliases() if n[0].islower() and snake(n) != n}
    taken = {new.get(n, n) for n in plain} | library_words()
    for n in own:
        if "-" not in n or not n[0].islower():
            continue
        to = joined(n, known)
        while to != n and to in taken:
            to += "_lem"
        taken.add(to)
        if to != n:
            new[n] = to
    return new


def turn(text, new):
    return TOKEN.sub(lambda m: new.get(m.group(0), m.group(0)), text)


def turn_line(line, new, code):
    """A line of code as a whole; its comment, or a line of a document, between backticks alone."""
    camel = {o: n for o, n in new.items() if "-" not in o}
    mark = {"antt": "--", "rt": "//"}.get(code)
    at = len(line)
    if mark is not None:
        m = re.search(r"(?:^|(?<=\s))" + re.escape(mark) + r"(?:\s|$)", line)
        at = m.start() if m else at
    elif code == "edit":
        at = len(line) if re.match(r"(old|new): ", line) else 0
    else:
        at = 0
    head, tail = line[:at], line[at:]
    if code == "rt":
        head = '"'.join(turn(p, new) if i % 2 == 0 else p for i, p in enumerate(head.split('"')))
    else:
        head = turn(head, new)
    tail = re.sub(r"`[^`]*`", lambda m: turn(m.group(0), new), tail)
    return head + (turn(tail, camel) if code in ("antt", "rt") else tail)


def main():
    if "--help" in sys.argv:
        print(__doc__)
        return
    if not any(n[0].islower() and "-" not in n and snake(n) != n for n in definitions()):
        print("port_names: no definition is in camel case: there is nothing to do")
        return
    new = renaming()
    if "--list" in sys.argv:
        for o, n in new.items():
            print(o, n)
        return
    for path in sorted(set(glob.glob("crates/**/*.antt", recursive=True) + glob.glob("crates/*/src/**/*.rt", recursive=True)
                           + glob.glob("crates/*/must-fail/*.edit") + glob.glob("mutations/**/*.edit", recursive=True)
                           + glob.glob("docs/*.md") + glob.glob("*.md"))):
        code = path.rsplit(".", 1)[1]
        was = read(path)
        names = new | TOGETHER.get(path, {})
        now = "\n".join(turn_line(line, names, code) for line in was.split("\n"))
        if now != was:
            with open(path, "w", encoding="utf-8") as f:
                f.write(now)


if __name__ == "__main__":
    main()
