#!/usr/bin/env python3
"""Counts in crates/*/src what docs/DESIGN-PASS.md counts, a row for each point. Run it at the top of the repository; --list names each place.

Points 1 to 7 are counted by the text of the sources, 8 by that of the proofs. What a count says and what it cannot see stands in the page."""
import collections
import pathlib
import re
import sys

KEYWORDS = set(
    "as break const continue else enum false fn for if impl in let loop match mod mut pub ref return self Self struct trait true type use where while".split()
)


def sources(pattern="crates/*/src/**/*.rt"):
    for path in sorted(pathlib.Path(".").glob(pattern)):
        yield path, path.read_text()


def bare(text):
    """The text without comments."""
    return re.sub(r"//[^\n]*", "", text)


def functions(text):
    """Each function with a body: its name and the body's text."""
    for m in re.finditer(r"\bfn\s+(\w+)", text):
        # the body is the first brace at a line's start or after a signature without clauses
        rest = text[m.end():]
        body = re.search(r"(?m)^\s*\{\s*$|\)\s*(?:->\s*[^{;\n]+)?\{\s*$", rest)
        if not body:
            continue
        at = m.end() + body.end()
        depth, i = 1, at
        while i < len(text) and depth:
            depth += {"{": 1, "}": -1}.get(text[i], 0)
            i += 1
        yield m.group(1), text[at:i - 1], text[m.start():m.end() + body.start()]


def shape(body):
    """A body with each name and number as one sign: what is left is its form."""
    out = []
    for word in re.findall(r"[A-Za-z_]\w*|\d+|b'[^']*'|\S", body):
        if re.match(r"[A-Za-z_]", word) and word not in KEYWORDS:
            out.append("n")
        elif re.match(r"\d|b'", word):
            out.append("0")
        else:
            out.append(word)
    return " ".join(out)


def counts():
    found = collections.OrderedDict()

    def add(row, path, text, m):
        line = text.count("\n", 0, m) + 1
        found.setdefault(row, []).append(f"{path}:{line}")

    rows = [
        ("1a enums with a refusing or an empty variant", r"(?m)^\s*(?:pub )?enum \w+[^{]*\{(?:[^{}]|\{[^{}]*\})*\b(?:Refused|Nothing|Formless|Missing|None|Broken|Failed|Unreadable)\b"),
        ("1b values of a variant `Refused`", r"\bRefused\s*\{"),
        ("1c numbers of refusals and kinds as constants", r"(?m)^\s*(?:pub )?const [A-Z_]+: u(?:8|16|32|64) = \d+;"),
        ("3a loops that count by hand (`while`, `loop`)", r"\b(?:while|loop)\b"),
        ("3b loops by `for`", r"\bfor\s+[\w(&][^;{]*\sin\s"),
        ("4a the smaller or larger of two by hand", r"if (\S+) < (\S+) \{\s*(?:\1|\2)(?: as \w+)?\s*\} else \{\s*(?:\1|\2)(?: as \w+)?\s*\}"),
        ("4b byte constants by number", r"(?m)^\s*(?:pub )?const [A-Z_]+: u8 = (?:4[3568]|9|10|1[12]\d);"),
        ("6 lent cells by number", r"\b(?:slot_of|current_of)\([^()]*, \d+\)"),
        ("7 switches on a mode or a kind by `if .. ==`", r"\bif \(?(?:kind|mode|k|part|state) == "),
    ]
    for path, text in sources():
        text = bare(text)
        for row, pattern in rows:
            for m in re.finditer(pattern, text):
                add(row, path, text, m.start())
        for name, body, head in functions(text):
            names = head.count(":") - head.count("::") * 2
            params = re.search(r"\((.*?)\)\s*(?:->|$|\n)", head, re.S)
            if params and len([p for p in params.group(1).split(",") if p.strip()]) >= 5:
                found.setdefault("5 functions of five or more parameters", []).append(f"{path}: {name}")
    shapes = collections.defaultdict(list)
    for path, text in sources():
        for name, body, _ in functions(bare(text)):
            s = shape(body)
            if len(s.split()) >= 20:
                shapes[s].append(f"{path}: {name}")
    for s, where in shapes.items():
        if len(where) > 1:
            found.setdefault("2 functions whose bodies have one form (twenty signs or more)", []).extend(where)
    for path, text in sources("crates/*/proofs/**/Answers.antt"):
        for m in re.finditer(r"(?m)^(?:abbrev )?pub \S+ : goal", text):
            add("8 proof answers", path, text, m.start())
    return found


def main():
    found = counts()
    for row in sorted(found):
        print(f"{len(found[row]):6}  {row}")
        if "--list" in sys.argv and not row.startswith("8"):
            for place in found[row]:
                print("          ", place)


main()
