#!/usr/bin/env python3
"""Brings the names of this repository's own definitions and lemmas to the spelling of today's Rattle.

Run once, at the top of the repository, after the toolchain's own port script. A name in lower camel case becomes snake
case, part by part where dashes join names; a fact that was spelled in lower case is spelled as a type. Types, modules
and names from .rt code are left alone. It turns .antt and .rt files, the edits that must fail, and the names between
backticks in the documents. It stops, writing nothing, where two names would fall together.
"""

import collections
import glob
import re
import sys

# What ends a name of antt, with the dots between a module, a value and its parts.
WORD = re.compile(r"[^\s(){}\[\],;.@\"⌜⌝«»⟦⟧λ:=→`|]+")
CAMEL = re.compile(r"^[a-z][a-z0-9]*[A-Z]")

# Facts, that is definitions of `Type 0`, in lower case.
FACTS = {
    "sortedTo": "SortedTo",
    "portOfSet": "PortOfSet",
    "portOfRow": "PortOfRow",
    "portOfNumber": "PortOfNumber",
    "portOf": "IsPortOf",
    "portFrom": "PortFrom",
    "mayLink": "MayLink",
    "mayAtom": "MayAtom",
    "goesTo": "SentTo",
    "barredBy": "BarredBy",
    "atPort": "IsAtPort",
}

# Where a fact's name is that of a value: the port that a link has; the test of a candidate.
VALUES = {"portOf": ("crates/hyperlmntal/",), "mayAtom": ("crates/placing/",)}

# Definitions that would fall together with a parameter, a field or another definition.
APART = {
    "atomCount": "atom_total",
    "linkCount": "link_total",
    "classCount": "class_total",
    "contextCount": "context_total",
    "markCount": "mark_total",
    "atomTo": "atom_target",
    "linkTo": "link_target",
    "atomBack": "atom_source",
    "linkBack": "link_source",
    "sheetLinks": "sheet_link_limit",
    "sheetAtoms": "sheet_atom_limit",
    "figureLinks": "figure_link_limit",
    "figureAtoms": "figure_atom_limit",
    "tooLarge": "is_too_large",
    "numbersOf": "held_numbers",
    "oneMore": "one_over",
    "oneLink": "one_link_test",
    "oneEach": "one_each_placing",
    "normalText": "normal_text_of",
    "isTaken": "is_taken",
}

# Lemmas that had the name of their definition but for its spelling.
LEMMAS = "before_head blank_of found_in given_below given_to joined_at node_in placed_by same_test spot_in stands_at swap_answer".split()

# Names that the port script turned already, and names that a definition shares with the function, or with the local
# variable, whose value it is: there the two never meet in one scope.
SHARED = """cell_at steps_of places_of is_taken
    answer_row atom_of atoms_of atoms_to column_at context_numbered count_with early_answer figure_rows filling_of first_differing first_from first_lacking
    first_link head_at hint_at is_context is_exact is_list is_passed laid_atom last_link letter_of limits_of link_numbers
    links_of links_to mark_links numbered_links own_labels port_rows port_table ports_of ports_with refusal_number
    row_links same_marks sheet_rows shown_atoms stands_on swap_read verdict_row with_atom with_context with_link
    with_links with_mark without_link""".split()


def snake(part, path):
    if part in FACTS and not path.startswith(VALUES.get(part, ("-",))):
        return FACTS[part]
    if part in APART:
        return APART[part]
    if not CAMEL.match(part):
        return part
    return re.sub(r"(?<=[a-z0-9'])([A-Z])", lambda m: "_" + m.group(1).lower(), part)


def turned(word, path):
    if word in LEMMAS:
        return word + "_lem" if path.endswith(".antt") else word
    return "-".join(snake(p, path) for p in word.split("-"))


def turn_line(line, path):
    return WORD.sub(lambda m: turned(m.group(0), path), line)


def turn_document(text, path):
    return re.sub(r"`[^`\n]+`", lambda m: turn_line(m.group(0), path), text)


def files():
    for pattern in ("crates/*/specs/**/*.antt", "crates/*/proofs/**/*.antt", "crates/*/src/**/*.rt", "crates/*/must-fail/*.edit"):
        for path in glob.glob(pattern, recursive=True):
            yield path, turn_line
    for path in ["README.md"] + glob.glob("docs/*.md"):
        yield path, turn_document


def main():
    texts = {}
    for path, turn in files():
        with open(path, encoding="utf-8") as f:
            texts[path] = (f.read(), turn)
    words = collections.Counter()
    for path, (text, turn) in texts.items():
        if not path.endswith(".md"):
            words.update((word, path) for word in WORD.findall(text))
    fresh = collections.defaultdict(collections.Counter)
    for (word, path), n in words.items():
        fresh[turned(word, path)][word] += n
    clashes = {new: old for new, old in fresh.items() if len(old) > 1 and new not in SHARED}
    if clashes:
        for new, old in sorted(clashes.items()):
            print(f"falls together: {new}: " + ", ".join(f"{w} ({old[w]})" for w in sorted(old)))
        return 1
    count = 0
    for path, (text, turn) in texts.items():
        out = turn(text, path)
        if out != text:
            count += 1
            with open(path, "w", encoding="utf-8") as f:
                f.write(out)
    print(f"turned {sum(1 for new, old in fresh.items() for w in old if w != new)} names in {count} files")
    return 0


if __name__ == "__main__":
    sys.exit(main())
