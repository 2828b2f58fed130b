#!/usr/bin/env python3
"""Counts the places of src/ that docs/DESIGN-PASS.md speaks of, a line each: point, crate and line, what.

    tools/places.py [POINT..]
"""
import re
import sys
from collections import defaultdict
from pathlib import Path

ROOT = Path(__file__).resolve().parent.parent


def sources():
    for path in sorted(ROOT.glob("crates/*/src/*.rt")):
        lines = path.read_text().split("\n")
        yield path.relative_to(ROOT / "crates"), [line.split("//")[0] if line.strip().startswith("//") else line for line in lines]


def blocks(lines, start):
    """The lines from one that opens a block to the one that closes it."""
    depth, opened = 0, False
    for n in range(start, len(lines)):
        text = re.sub(r"b?'(\\.|[^'\\])'|b?\"(\\.|[^\"\\])*\"", "", lines[n])
        depth += text.count("{") - text.count("}")
        opened = opened or "{" in text
        if opened and depth == 0 and (n + 1 == len(lines) or not re.match(r"\s*(ensures|requires|\{)", lines[n + 1])):
            return lines[start:n + 1]
    return lines[start:]


def functions():
    for path, lines in sources():
        for n, line in enumerate(lines):
            found = re.match(r"\s*(?:pub )?(?:extern \"C\" )?fn (\w+)", line)
            if found:
                yield path, n + 1, found.group(1), blocks(lines, n)


def parameters(block):
    head = " ".join(block).split("{")[0]
    inside = head[head.index("(") + 1:head.rindex(")")]
    return [p.split(":")[0].strip().removeprefix("mut ") for p in inside.split(",") if ":" in p]


def body(block):
    """A function's body, without its clauses."""
    at = max([n for n, line in enumerate(block) if re.match(r"\s*\{$", line)] + [0], key=lambda n: (n != 0, -n))
    return [line.strip() for line in block[at + 1:-1] if line.strip()]


def first_point():
    for path, lines in sources():
        for n, line in enumerate(lines):
            enum = re.match(r"pub enum (\w+)", line)
            if enum:
                cases = [c.strip() for c in blocks(lines, n)[1:-1] if c.strip()]
                if len(cases) == 2 and any("(" not in c for c in cases) or any(re.match("(Bad|Refused|Failed|Broken)", c) for c in cases):
                    yield path, n + 1, "enum " + enum.group(1)
            if re.match(r"pub struct \w+", line):
                fields = " ".join(blocks(lines, n))
                if re.search(r"pub (status|number|mode|mark|sort|pops): ", fields):
                    yield path, n + 1, "record with a number or flag beside a value: " + line.split()[2]
        numbers = [n for n, line in enumerate(lines) if re.match(r"pub const \w+: u(8|32|64) = (\d+|row::\w+);", line)]
        if numbers:
            yield path, numbers[0] + 1, f"{len(numbers)} numbers for kinds"
    for path, n, name, block in functions():
        head = " ".join(block).split("ensures")[0]
        text = "\n".join(body(block))
        if re.search(r"-> u(8|32)\b", head) and re.search(r"(^|[{\s>(])0[\s,})]*$|return 0;|=> 0,", text, re.M) and re.search(r"refus|complain|unless|only|double|single|escape_value|name", name):
            yield path, n, "0 for none: " + name
        if re.search(r"\b(name|mode|item|status|sort|mark|form): u(8|32|64)\b", head):
            yield path, n, "a number that says which: " + name


def second_point():
    seen = defaultdict(list)
    for path, n, name, block in functions():
        text = " ".join(body(block))
        if len(text) < 12 or "main" in str(path):
            continue
        shape = re.sub(r"b\"[^\"]*\"|b'(\\.|.)'", "s", text)
        shape = re.sub(r"\b(u8|u16|u32|u64|usize)\b", "t", shape)
        shape = re.sub(r"\b(?!if|else|match|while|loop|return|let|mut|as)[A-Za-z_]\w*(::\w+)*\b", "x", shape)
        seen[re.sub(r"\b(0x)?[0-9][0-9A-Fa-f_]*\b", "n", shape)].append((path, n, name))
    for shape, places in seen.items():
        if len(places) > 1 and len(shape) > 16:
            for path, n, name in places:
                yield path, n, f"{name}: {shape[:60]}"


def third_point():
    for path, lines in sources():
        for n, line in enumerate(lines):
            if re.match(r"\s*(while|loop)\b", line):
                yield path, n + 1, line.strip()


def fourth_point():
    """Equality, order, conversions and defaults by hand; plain types that aren't copied."""
    by_hand = r"(equal|differ|within|between|larger|one_less|wide|core|whole|no_flags|zeros|known|sort_of|row_of|word_of|bit|truth|feed"
    by_hand += r"|number|kind_at|word_at|item_at|byte|half|state_of|state_words|apsr_flags|apsr_word|instruction|instruction_words|decoded_words)"
    for path, n, name, block in functions():
        if re.fullmatch(by_hand, name):
            yield path, n, "by hand: " + name
    for path, lines in sources():
        for n, line in enumerate(lines):
            if line == "#[derive(Drop)]":
                yield path, n + 2, "moved, not copied: " + " ".join(lines[n + 1].split()[1:3])


def fifth_point():
    for path, n, name, block in functions():
        count = len(parameters(block))
        if count > 5:
            yield path, n, f"{name}: {count} parameters"



def sixth_point():
    """Arrays with a length beside them, parallel arrays: records of an array and a count, functions that make or take two arrays and more."""
    for path, lines in sources():
        for n, line in enumerate(lines):
            if re.match(r"pub struct \w+", line) and re.search(r": \[\w+; \w+\].*: usize", " ".join(blocks(lines, n))):
                yield path, n + 1, "an array and its length: " + line.split()[2]
    for path, n, name, block in functions():
        text = " ".join(block)
        arrays = len(re.findall(r"= \[0\w*; ", text)) + len(re.findall(r"\w+: &(?:'a )?(?:mut )?\[u(?:8|16|32|64)(?:; \d+)?\]", text.split("ensures")[0].split("requires")[0]))
        if arrays > 2:
            yield path, n, f"{arrays} arrays beside one another: {name}"


def seventh_point():
    """Functions that are handed a number that says which of several steps to take, or which text to write."""
    for path, n, name, block in functions():
        head = " ".join(block).split("ensures")[0].split("requires")[0]
        if re.search(r"\b(name|item|op|o|mode|kind|k): u(8|32|64)\b", head) and len(re.findall(r"if \w+ == |=> ", " ".join(body(block)))) > 2:
            yield path, n, "by number: " + name


def eighth_point():
    """Answers to goals, by file."""
    for path in sorted(ROOT.glob("crates/*/proofs/**/Answers.antt")):
        count = len(re.findall(r"^pub ", path.read_text(), re.M))
        yield path.relative_to(ROOT / "crates"), count, "answers"


POINTS = {
    "1": first_point, "2": second_point, "3": third_point, "4": fourth_point, "5": fifth_point, "6": sixth_point, "7": seventh_point, "8": eighth_point
}

if __name__ == "__main__":
    for point in sys.argv[1:] or POINTS:
        places = list({(path, n): (path, n, what) for path, n, what in POINTS[point]()}.values())
        for path, n, what in places:
            print(f"{point} {path}:{n}: {what}")
        print(f"point {point}: {len(places)}")
