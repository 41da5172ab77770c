#!/usr/bin/env python3
"""Counts places of older forms in crates/*/src and crates/*/proofs, a line for each form; with -v the places too.

usage: forms.py [-v]   (at the top of the repository)
"""

import collections
import glob
import os
import re
import sys


def sources():
    for path in sorted(glob.glob("crates/*/src/*.rt")):
        yield path, open(path, encoding="utf-8").read()


def lines_with(pattern, comments=False):
    found = []
    for path, text in sources():
        for number, line in enumerate(text.split("\n"), 1):
            if line.lstrip().startswith("//") == comments and re.search(pattern, line):
                found.append(f"{path}:{number}: {line.strip()}")
    return found


def functions():
    """Path, name, parameters and body of each function."""
    head = re.compile(r"^ *(?:#\[.*\n *)?(?:pub(?:\(crate\))? )?(?:extern \"C\" )?fn (\w+)(?:<[^(]*>)?\(", re.M)
    for path, text in sources():
        text = re.sub(r"//.*", "", text)
        for match in head.finditer(text):
            end, depth = match.end(), 1
            while depth:
                depth += {"(": 1, ")": -1}.get(text[end], 0)
                end += 1
            params = [p for p in re.split(r",(?![^<\[]*[>\]])", text[match.end():end - 1]) if p.strip()]
            start = re.compile(r"^ *\{$|\{$", re.M).search(text, end)
            while text[start.start():start.end()].strip() == "{" and "ensures" in text[text.rfind("\n", 0, start.start()) + 1:start.start()]:
                start = re.compile(r"^ *\{$|\{$", re.M).search(text, start.end())
            stop, depth = start.end(), 1
            while depth:
                depth += {"{": 1, "}": -1}.get(text[stop], 0)
                stop += 1
            yield path, match.group(1), params, text[start.end():stop - 1]


WORDS = set("let mut while for in if else return match as true false break self Self u8 u16 u32 u64 usize bool Ok Err Some None".split())


def shape(body):
    """A body with its names and numbers left out."""
    tokens = re.findall(r"[A-Za-z_]\w*|\d+|[^\s\w]", body)
    return " ".join("name" if re.match(r"[A-Za-z_]", t) and t not in WORDS else "0" if t.isdigit() else t for t in tokens), len(tokens)


def twins():
    groups = collections.defaultdict(list)
    for path, name, _, body in functions():
        form, size = shape(body)
        if size >= 12:
            groups[form].append(f"{path}: {name}")
    return [", ".join(g) for g in groups.values() if len(g) > 1]


NONE = r"(\b0|`DIGITS`|\bn|\bt|length|number of rows|`FIELDS`),? where (there|it|no|none|the search|they)|; none where it is no|from 1; 0|or 0 where"

FORMS = [
    ("1 enums of the shape of a Result", lambda: lines_with(r"^pub(\(crate\))? enum (Answer|Normalised|Done|Compared|Claimed)\b")),
    ("1 flags with values beside them", lambda: lines_with(r"^ +pub(\(crate\))? (ok|found|fault|failed|good|answer): (bool|Answer),")),
    ("1 numbers that stand for none (comments)", lambda: lines_with(NONE, comments=True)),
    ("1 letters as numbers", lambda: lines_with(r"^ +pub const (ATOM|CONTEXT|FUSION|EDGE|HEAD|NO_LETTER): usize")),
    ("2 functions alike but for names", twins),
    ("3 loops that are no for", lambda: lines_with(r"^\s*('\w+: )?while ")),
    ("3 of them loops that count up by 1", lambda: counted()),
    ("4 conversions by functions of our own", lambda: lines_with(r"fn (wide|counted|before|refusal_number|members|size_of|letter_of)\(")),
    ("5 functions of 6 parameters or more", lambda: [f"{p}: {n} {len(a)}" for p, n, a, _ in functions() if len(a) >= 6]),
    ("6 arrays with a count beside them, in structs", lambda: lines_with(r"^ +pub(\(crate\))? (\w+_)?count: usize,")),
    ("7 matches on a task's name", lambda: lines_with(r'^\s*b"\w+" => ')),
    ("8 proofs by hand over the code (Proof.antt)", lambda: sorted(glob.glob("crates/*/proofs/**/Proof.antt", recursive=True))),
    ("8 lines of proofs", lambda: [line for p in glob.glob("crates/*/proofs/**/*.antt", recursive=True) for line in open(p, encoding="utf-8")]),
]


def counted():
    found = []
    for path, text in sources():
        rows = text.split("\n")
        for number, line in enumerate(rows):
            match = re.match(r"^(\s*)('\w+: )?while (.*) \{$", line)
            if not match:
                continue
            end = next(k for k in range(number + 1, len(rows)) if rows[k] == match.group(1) + "}")
            step = re.match(r"^\s+(\w+) \+= 1;$", rows[end - 1])
            if step and re.search(r"\b" + step.group(1) + r"\b", match.group(3)):
                found.append(f"{path}:{number + 1}: {line.strip()}")
    return found


def main():
    for name, places in FORMS:
        found = places()
        print(f"{len(found):6}  {name}")
        if "-v" in sys.argv[1:] and not name.startswith("8"):
            for place in found:
                print("        ", place)


main()
