#!/usr/bin/env python3
"""Turns the numbered parts of what branches give, in a crate's hand-written proofs, to their names.

usage: turn_branches.py CRATE NAMES.json GENERATED

GENERATED is what `rt check --generated GENERATED` writes in the crate's folder. Where branches join, an older Rattle gave
each branch as a tuple, `w.0.taken`, `w.2`; today's gives a record, whose fields come in the same order. It prints the
declarations that it cannot tell.
"""

import json
import os
import re
import sys

from turn_proofs import Names, by_parameter


def joins(lts):
    """Pairs of a join's name and its branches' fields."""
    out = []
    for m in re.finditer(r"(?m)^ +pub data Came-Joined-?(\S+) : Type 0 where\n((?: +.*\n)+)", lts):
        records = re.findall(r"(?m)^ +\S+ :\s+(By-\d+-Joined\S*)", m.group(2))
        each = []
        for r in records:
            k = re.search(r"pub record " + re.escape(r) + r" : Type 0 where\n((?:            +.*\n|\n)+)", lts)
            fields = re.findall(r"(?m)^            pub (\S+) :", k.group(1)) if k else []
            # an older Rattle did not have these
            each.append([f for f in fields if not f.startswith("way_told")])
        out.append((m.group(1), each))
    return out


def closing(text, m):
    """Where the body of a lambda ends: at the bracket that closes the one in front of it."""
    if text[m.start() - 1:m.start()] != "(":
        return len(text)
    depth = 1
    for at in range(m.end(), len(text)):
        depth += (text[at] == "(") - (text[at] == ")")
        if depth == 0:
            return at
    return len(text)


def declarations(text):
    parts = re.split(r"(?m)^(?=\S)", text)
    return parts


def main(crate, names, generated):
    with open(names) as f:
        entries = json.load(f)
    top = f"crates/{crate}/proofs"
    for key, entry in entries.items():
        if not key.startswith(f"Rattle-{crate}-proofs."):
            continue
        way = key.split(".", 1)[1].rsplit(".", 1)[0].split(".")
        proof = os.path.join(top, *way, "Proof.antt")
        lts = os.path.join(generated, f"Rattle-{crate}-proofs", *way, "Lts.antt")
        if not os.path.exists(proof) or not os.path.exists(lts):
            continue
        with open(proof) as f:
            text = f.read()
        if ".branch-raw" not in text:
            continue
        with open(lts) as f:
            all_joins = dict(joins(f.read()))
        calls = Names(entry)
        raw = {}
        for p in entry["places"]:
            if p[4]:
                raw[p[2][1]] = dict(p[4])
        out = []
        for part in declarations(text):
            steps = re.findall(r"\.([^\s().,]+)\.branch-raw", part)
            if not steps:
                out.append(part)
                continue
            lambdas = []
            for m in re.finditer(r"λ (\w+)( \w+)*\.", part):
                body = part[m.end():closing(part, m)]
                if re.search(r"(?<![\w.])" + m.group(1) + r"\.(\d|taken|left|true|false|result|ensures)", body) and "⊎_elim" in part[:m.start()]:
                    lambdas.append(m)
            wanted = []
            for s in steps:
                name = s.split("-", 1)[1] if "-" in s else s
                each = all_joins.get(name) or all_joins.get(name + "-unread") or all_joins.get(s)
                if each is None:
                    print(f"{proof}: no join {s} among {list(all_joins)}")
                    each = []
                wanted.append(each)
            flat = [f for each in wanted for f in each]
            if len(flat) != len(lambdas):
                print(f"{proof}: {part.split()[0]}: {len(lambdas)} branches, {len(flat)} records: {wanted}")
                out.append(part)
                continue
            pieces, at = [], 0
            for k, m in enumerate(lambdas):
                pieces.append(part[at:m.end()])
                at = m.end()
                end = closing(part, m)
                body = part[at:end]

                def name(n, fields=flat[k], var=m.group(1)):
                    if n.group(1) is None:
                        rest = {".taken": ".true", ".left": ".false"}.get(n.group(3), n.group(3))
                        return f"{var}.{fields[0]}.{raw.get(fields[0], {}).get(rest[1:], rest[1:])}"
                    i = int(n.group(1))
                    if i >= len(fields):
                        print(f"{proof}: {var}.{i} past {fields}")
                        return n.group(0)
                    field = fields[i]
                    rest = n.group(2) or ""
                    rest = {".taken": ".true", ".left": ".false"}.get(rest, rest)
                    rest = "." + raw.get(field, {}).get(rest[1:], rest[1:]) if rest else ""
                    return f"{var}.{field}{rest}"

                one = r"|(\.(?:taken|left|true|false|result|ensures)\b)" if len(flat[k]) == 1 else r"|(?!)()"
                body = re.sub(r"(?<![\w.])" + m.group(1) + r"(?:\.(\d+)(\.[a-z]+)?" + one + ")", name, body)
                pieces.append(by_parameter(body, calls))
                at = end
            pieces.append(part[at:])
            out.append("".join(pieces))
        new = "".join(out)
        if new != text:
            with open(proof, "w") as f:
                f.write(new)


if __name__ == "__main__":
    main(*sys.argv[1:])
