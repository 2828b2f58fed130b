#!/usr/bin/env python3
"""Brings the repository's own names to the spelling of today's Rattle: words joined by `_`, types in camel case.

usage: tools/spelling.py [--dry]     at the top of the repository, once, on what port.py left

A name is the repository's own where a file of specs/, or a file right in proofs/, declares or binds it.
Names of the toolchain's libraries and names that Rattle makes keep their dashes. Functions of src/, strings, inputs
and outputs are not touched. The script prints names that fall together.
"""

import collections
import os
import re
import sys

STOP = "\\s(){}\\[\\];,.\"«»`"
TOKEN = re.compile("[^" + STOP + "]+")
DECLARES = re.compile(r"^\s*(?:abbrev |unfoldable |pub |private |mutual )*([^\s(){}:«»\"]+)(?: \{[^}]*\})? :(?:\s|$)")
USE = re.compile(r"^\s*(?:pub |ghost )*use ([^\s{;]+?)(?:\.\{(.*)\})?(?: as ([^\s;]+))?;?\s*$")
TYPES = re.compile(r"^\s*(?:abbrev |unfoldable |pub |private )*([^\s(){}:«»\"]+)(?: \{[^}]*\})? :.*Type \d\s*$")


def files(top, ends):
    for folder, dirs, names in os.walk(top):
        dirs[:] = sorted(d for d in dirs if d not in ("out", "target", ".git"))
        for n in sorted(names):
            if n.endswith(ends):
                yield os.path.join(folder, n)


def read(path):
    with open(path, encoding="utf-8") as f:
        return f.read()


def in_function(path):
    """A file of one function's proof: crates/NAME/proofs/FUNCTION/.."""
    return re.search(r"/proofs/[^/]+/", path) is not None


def dashed(name):
    return re.search(r"[^\W\d_]['\w]*-\w|\w-[^\W\d_]|\w-\d", name) is not None and not re.search(r"[^\w'₀-₉-]", name)


def imports(text):
    """Names that a file takes from the toolchain, and its short names of modules of the repository."""
    kit, alias = set(), set()
    for line in text.splitlines():
        m = USE.match(line)
        if not m:
            continue
        path, items, name = m.groups()
        own = path.startswith("Rattle.") and path.split(".")[1] in CRATES
        if items is not None:
            for it in items.split(","):
                words = it.split()
                if words and not own:
                    kit.add(words[-1].strip("«»"))
        elif own:
            alias.add(name or path.split(".")[-1])
    return kit, alias


# names that would fall together with a name of the toolchain, or with another of the repository's own
APART = {"bit-and": "bitwise_and", "bit-or": "bitwise_or", "bit-xor": "bitwise_xor", "loadFound": "loads_found", "stateWords": "words_of_state", "walkLeft": "left_by_walk"}


def respelled(name, types):
    if name in APART:
        return APART[name]
    if re.fullmatch(r"[a-z]+[A-Z][A-Za-z]*", name):
        return re.sub(r"[A-Z]", lambda m: "_" + m.group(0).lower(), name)
    if name in types:
        words = re.split("[-_]", name)
        return "".join(w[:1].upper() + w[1:] for w in words)
    return name.replace("-", "_")


def code_of(line):
    """The part of a line of antt before its comment."""
    m = re.search(r"(?:^|\s)--(?:\s|$)", line)
    return (line, "") if not m else (line[: m.start()], line[m.start():])


def turn(line, names, skip, alias=None):
    """alias: in a function's proof a name behind a dot is Rattle's own, but behind the short name of a module."""

    quoted = [m.span() for m in re.finditer(r'"[^"]*"', line)]

    def one(m):
        t = m.group(0)
        if any(a < m.start() < b for a, b in quoted):
            return t
        if t not in names or t in skip:
            return t
        if alias is not None and m.start() and line[m.start() - 1] == ".":
            before = re.search(r"([^" + STOP + r"]+)\.$", line[: m.start()])
            if not before or before.group(1) not in alias:
                return t
        return names[t]

    return TOKEN.sub(one, line)


def unquoted(line):
    """«a_b» as a_b, where it is no reserved word."""
    words = {"as", "in", "data", "open", "record", "ruleset", "use", "mod", "pub", "let", "where", "elim", "module", "return", "while", "if", "else", "match", "for", "type", "move", "ref"}
    return re.sub(r"«([a-z_][\w']*)»", lambda m: m.group(0) if m.group(1) in words else m.group(1), line)


def main(dry):
    antt = list(files("crates", ".antt"))
    declared, types = collections.defaultdict(set), set()
    for p in antt:
        t = read(p)
        kit = imports(t)[0]
        if in_function(p):
            continue
        for line in t.splitlines():
            m = DECLARES.match(line)
            if m and m.group(1) not in kit:
                declared[m.group(1)].add(p)
                if TYPES.match(line) and ("-" in m.group(1) or m.group(1)[0].islower()):
                    types.add(m.group(1))
            code = code_of(line)[0]
            if USE.match(line):
                m = USE.match(line)
                if m.group(3):
                    declared[m.group(3)].add(p)
                continue
            for m in TOKEN.finditer(code):
                if dashed(m.group(0)) and m.group(0) not in kit and not (m.start() and code[m.start() - 1] == "."):
                    declared[m.group(0)].add(p)
    # `fine` is a fact in one crate, and a constructor in another
    types.discard("fine")
    camel = {n for n in declared if re.fullmatch(r"[a-z]+[A-Z][A-Za-z]*", n)}
    names = {n: respelled(n, types) for n in declared if (dashed(n) or n in types or n in camel)}
    names = {a: b for a, b in names.items() if a != b}
    said = []
    for p in antt:
        text = read(p)
        kit, alias = imports(text)
        inside = in_function(p)
        own = {}
        if inside:
            # the names that a proof's own file declares
            for line in text.splitlines():
                m = DECLARES.match(line)
                if m and dashed(m.group(1)) and m.group(1) not in kit:
                    own[m.group(1)] = m.group(1).replace("-", "_")
        table = dict(names)
        if "crates/x_grammar/specs/Automaton" in p:
            table["fine"] = "Fine"
        table.update(own)
        before = set(TOKEN.findall(text))
        for a in sorted(before & set(table)):
            if table[a] in before and a not in kit:
                said.append(f"{p}: {a} and {table[a]} fall together")
        lines = []
        for line in text.split("\n"):
            code, comment = code_of(line)
            m = USE.match(line)
            if m and not (m.group(1).startswith("Rattle.") and m.group(1).split(".")[1] in CRATES):
                lines.append(line)
                continue
            code = turn(code, table, kit, alias if inside else None)
            comment = re.sub(r"`[^`]*`", lambda q: turn(q.group(0), names, kit), comment)
            lines.append(unquoted(code) + comment)
        new = "\n".join(lines)
        if new != text and not dry:
            with open(p, "w", encoding="utf-8") as f:
                f.write(new)
    for p in files("crates", ".rt"):
        text = read(p)
        before = set(re.findall(r"[^\W\d][\w'-]*", text))
        for a in sorted(before & set(names)):
            if names[a] in before:
                said.append(f"{p}: {a} and {names[a]} fall together")
        lines = []
        for line in text.split("\n"):
            if re.match(r"\s*//", line):
                lines.append(re.sub(r"`[^`]*`", lambda q: turn(q.group(0), names, set()), line))
                continue
            m = USE.match(line)
            if m and line.startswith("ghost use") and not (m.group(1).startswith("Rattle.") and m.group(1).split(".")[1] in CRATES):
                lines.append(line)
                continue
            lines.append(unquoted(turn(line, names, set())))
        new = "\n".join(lines)
        if new != text and not dry:
            with open(p, "w", encoding="utf-8") as f:
                f.write(new)
    now = {names.get(n, n) for n in declared}

    def page(m):
        """Pages have names in back quotes; what an earlier script respelled is known by its new spelling."""

        def one(q):
            t = q.group(0)
            snake = re.sub(r"(?<=[a-z])[A-Z]", lambda c: "_" + c.group(0).lower(), t.replace("-", "_"))
            return names.get(t) or (snake if t not in now and snake in now else t)

        return TOKEN.sub(one, m.group(0))

    for p in sorted(set(os.path.normpath(q) for q in list(files("crates", ".md")) + list(files("docs", ".md")) + list(files(".", ".md")))):
        text = read(p)
        new = re.sub(r"`[^`\n]*`", page, text)
        if new != text and not dry:
            with open(p, "w", encoding="utf-8") as f:
                f.write(new)
    for line in said:
        print(line)
    back = collections.defaultdict(set)
    for a, b in names.items():
        back[b].add(a)
    for b, many in sorted(back.items()):
        if len(many) > 1:
            print(f"{sorted(many)} are both {b}")
        if b in declared:
            print(f"{sorted(many)[0]} becomes {b}, which is declared too: {sorted(declared[b])[:2]} {sorted(declared[sorted(many)[0]])[:2]}")
    print(f"{len(names)} names, {len([n for n in names if n in types])} of them types")


CRATES = set(os.listdir("crates")) if os.path.isdir("crates") else set()

if __name__ == "__main__":
    main("--dry" in sys.argv[1:])
