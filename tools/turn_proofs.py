#!/usr/bin/env python3
"""Turns the names in a crate's hand-written proofs (proofs/F/Proof.antt) to those that today's check gives.

usage: turn_proofs.py CRATE NAMES.json

NAMES.json is what `rt check --generated DIR --old-names` writes, run in the crate's folder: for each function the old and
the new name of each goal, place, step and loop. A proof keeps its text but for these names; what they don't settle the
check says.
"""

import glob
import json
import os
import re
import sys


def norm(name):
    return name.replace("_", "-").lower()


class Names:
    def __init__(self, entry):
        self.needs = {norm(a): b for a, b in entry["needs"]}
        self.loops = {norm(l[0][0]): l[0][1] for l in entry["loops"]}
        self.places, self.steps, self.fields = {}, {}, {}
        for place, new in zip(entry["places"], entry["places_by_name"]):
            self.places[norm(place[0])] = new
            old_step, new_step = place[2]
            if old_step:
                self.steps[norm(old_step)] = new_step
            if place[4]:
                self.fields.setdefault(norm(old_step), {}).update({norm(a): b for a, b in place[4]})
        # An argument that had no name, and an arm's facts.
        self.texts, self.arms = {}, {}
        # The place of each goal, and how many places lie between one and another above it.
        self.at = {need[1]: at[1] for need, at in zip(entry["needs"], entry["asked_at"])}
        by_old = dict(zip((p[0] for p in entry["places"]), entry["places_by_name"]))
        parents = {p[0]: p[1] for p in entry["places"]}
        self.above = {}
        for place, arm in zip(entry["places"], entry["arms"] + [None] * len(entry["places"])):
            up = place[0]
            for _ in range(arm[1] if arm else 1):
                up = parents.get(up)
            self.above[by_old[place[0]]] = by_old.get(up)
        self.settled = {norm(n) for n in entry["settled"]}
        # What a call wrote or kept, by the names of the callee's parameters.
        self.calls = {p[2][1]: entry["params"].get(p[3], []) for p in entry["places"] if p[3]}
        for old, new in entry["args"]:
            self.texts["." + old.replace(" ", "").lstrip(".")] = "." + new.replace(" ", "").lstrip(".")
            if re.fullmatch(r"\.args \.t\d+", old):
                self.texts[old.split()[1]] = new.split()[1]
        for arm in entry["arms"]:
            for new_field, old_step, old_path in arm[2] if arm else []:
                if old_path:
                    self.arms[f"{norm(old_step)}.{'.'.join(old_path)}"] = f".{arm[0]}.{new_field}"
                    if old_step == "match":
                        self.arms[f"in-default.{'.'.join(old_path)}"] = f".{arm[0]}.{new_field}"
                else:
                    self.arms["in-default.rest"] = f".in_default.{new_field}.rest"

    def ups(self, place, above):
        """How many ways up lead from a place to another one, or None."""
        count = 0
        while place is not None:
            if place == above:
                return count
            place, count = self.above.get(place), count + 1
        return None

    def of_tie(self, name, own):
        for head in ("invariant-", "decreases-"):
            if name.startswith(head):
                loop = norm(name[len(head):])
                return head + self.loops[loop] if loop in self.loops else None
        if name.startswith("Need-"):
            need = norm(name[5:])
            for form in (need, re.sub(r"^(overflow|nonzero|bounds)-", "", need), norm(own)):
                if form in self.needs:
                    return "Need-" + self.needs[form]
            return None
        return self.places.get(norm(name))


# Fields that the port script left where it could not tell whose they are.
OLDER = {"inv": "invariant", "taken": "true", "left": "false", "kept": "auto", "last": "new", "pre": "requires", "came": "branch", "good": "ensures", "gave": "result"}

RUST = set()
for _path in glob.glob("crates/*/src/**/*.rt", recursive=True):
    with open(_path) as _f:
        RUST.update(re.findall(r"[a-z]\w*", _f.read()))

# Fields of records of our own with a dash in their names.
FIELDS = set()
for _path in glob.glob("crates/*/specs/**/*.antt", recursive=True) + glob.glob("crates/*/proofs/**/*.antt", recursive=True):
    with open(_path) as _f:
        FIELDS.update(re.findall(r"(?m)^\s+(?:pub )?([a-z]\w*(?:-\w+)+) :", _f.read()))

WORD = r"[^\s(){}\[\],;.@\"λ:=]+"


def place_variables(text, known):
    """The variables of a declaration that stand for a place: its own, and what is let to be a way up from one."""
    found = {"c"}
    for m in re.finditer(r"\((" + WORD + r"(?: " + WORD + r")*) : tie\.", text):
        found.update(m.group(1).split())
    for name in known:
        for n in re.finditer(r"(?m)^\s*" + re.escape(name) + r"((?: " + WORD + r")+) =", text):
            found.update(n.group(1).split())
    ways = {name for name, (_, gives) in known.items() if gives}
    for _ in range(4):
        for m in re.finditer(r"let (" + WORD + r") = (" + WORD + r")((?:\.before)*| [^\n=]*?)? in\b", text):
            head, rest = m.group(2), m.group(3) or ""
            if (head in found and not rest.startswith(" ")) or (head in ways and rest.startswith(" ") and not re.search(r"\)\.(?!before\b)", rest)):
                found.add(m.group(1))
    return found


# In a cycle, whose declarations are turned one by one: the lemmas of the whole file.
CYCLE = {}


def helpers(text):
    """The lemmas whose first argument is a place, with it, and with the place that they give, if so."""
    found = dict(CYCLE)
    for m in re.finditer(r"(?m)^\s*(?:abbrev |pub |unfoldable )*(" + WORD + r") : \(?(?:" + WORD + r" : )?tie\.(" + WORD + r")([^\n]*)", text):
        if not m.group(2).startswith(("Need-", "invariant-", "decreases-")):
            gives = re.search(r"→ tie\.(" + WORD + r")", m.group(3))
            found[m.group(1)] = (m.group(2), gives.group(1) if gives else None)
    return found


def flat(text, names):
    """A place has the steps of all before it: no way up in front of a step; in front of a lemma, as many as lead to its place."""
    text = re.sub(r"(?:\.before)+(?=\.(?!before\b))", "", text)
    known = helpers(text)
    parts = re.split(r"(?m)^(?=\S)", text)
    place, owner = None, None
    for k, part in enumerate(parts):
        head = re.match(r"(?:abbrev |pub |unfoldable )*(" + WORD + r") :", part)
        if head:
            owner = head.group(1)
            need = re.match(r"(?:abbrev |pub |unfoldable )*" + WORD + r" : tie\.Need-(" + WORD + ")", part)
            place = names.at.get(need.group(1)) if need else known.get(owner, (None,))[0]
            continue
        body = re.match(re.escape(owner or "?") + r" (" + WORD + r")\b", part)
        if not body or place is None:
            continue
        at = {body.group(1): place}
        for m in list(re.finditer(r"let (" + WORD + r") = (" + WORD + r")((?:\.before)*) in", part)):
            name = re.escape(m.group(1))
            uses = re.findall(r"(" + WORD + r" )?(?<![\w.'₀-₉-])" + name + r"(?![\w'₀-₉-])(\.?)", part.split(m.group(0), 1)[1])
            if m.group(2) in at and all(u[1] or u[0].strip() in known for u in uses):
                part = part.replace(m.group(0), f"let {m.group(1)} = {m.group(2)} in")
                at[m.group(1)] = at[m.group(2)]

        def call(m):
            count = names.ups(at.get(m.group(2)), known[m.group(1)][0])
            return m.group(0) if count is None else f"{m.group(1)} {m.group(2)}" + ".before" * count

        if known:
            words = "|".join(re.escape(h) for h in sorted(known, key=len, reverse=True))
            part = re.sub(r"(?<![\w.'-])(" + words + r") (" + WORD + r")(?:\.before)*(?![\w.'-])", call, part)
        gives = known.get(owner, (None, None))[1]
        if gives:
            count = names.ups(place, gives)
            if count is not None:
                part = re.sub(r"= " + re.escape(body.group(1)) + r"(?:\.before)*(?=\s*$)", "= " + body.group(1) + ".before" * count, part, flags=re.M)
        parts[k] = part
    return "".join(parts)


def by_parameter(text, names):
    def name(m, step):
        given = names.calls.get(step) or []
        at = len(re.findall(r"\.1", m.group("ones")))
        if at >= len(given):
            return m.group(0)
        return m.group("head") + "." + {"last": "new"}.get(m.group("kind"), m.group("kind")) + "." + given[at]

    tail = r"\.(?P<kind>new|last|auto)(?P<ones>(?:\.1)*)\.0(?!\d)"
    text = re.sub(r"(?P<head>\.(?P<step>[^\s().,]+))" + tail, lambda m: name(m, m.group("step")), text)
    parts = re.split(r"(?m)^(?=\S)", text)
    for k, part in enumerate(parts):
        for m in re.finditer(r"let (" + WORD + r") = [^\n=]*?\.(" + WORD + r")(?:\.(?:new|last))? in", part):
            if m.group(2) in names.steps.values():
                part = re.sub(r"(?<![\w.])(" + re.escape(m.group(1)) + r")\.(inv|taken|kept|last)(?![\w'-])", lambda n: n.group(1) + "." + OLDER[n.group(2)], part)
            for n in re.finditer(r"let (" + WORD + r") = [^\n=]*?\.(" + WORD + r")\.(?:new|last) in", part):
                given = names.calls.get(n.group(2))
                if given:
                    part = re.sub(r"(?<![\w.])" + re.escape(n.group(1)) + r"((?:\.1)*)\.0(?!\d)", lambda o, g=given, n=n: n.group(1) + "." + g[len(o.group(1)) // 2] if len(o.group(1)) // 2 < len(g) else o.group(0), part)
            if m.group(2) in names.calls:
                part = re.sub(r"(?P<head>(?<![\w.])" + re.escape(m.group(1)) + r")" + tail, lambda n, s=m.group(2): name(n, s), part)
        parts[k] = part
    return "".join(parts)


def turn(text, names, missing):
    def tie(m):
        name = m.group(2)
        if name in ("close", "spec"):
            return m.group(0)
        new = names.of_tie(name, m.group(1) or "")
        if new is None:
            if name.startswith("Need-"):
                gone.append(m.group(1))
            missing.append("tie." + name)
            return m.group(0)
        return (f"{m.group(1)} : " if m.group(1) else "") + "tie." + new

    gone = []
    # What a step gave, under a name of its own: its parts have names now.
    for m in list(re.finditer(r"let (" + WORD + r") = (" + WORD + r"[^\s()]*\.given) in\s*", text)):
        end = re.search(r"\n(?=\S)", text[text.index(m.group(0)) + len(m.group(0)):])
        at = text.index(m.group(0))
        stop = at + len(m.group(0)) + (end.start() if end else len(text))
        body = re.sub(r"(?<![\w.'])" + re.escape(m.group(1)) + r"(?=\.)", m.group(2), text[at + len(m.group(0)):stop])
        text = text[:at] + body + text[stop:]
    text = re.sub(r"(?<![\w.])(?:(" + WORD + r") : )?tie\.(" + WORD + r")", tie, text)
    for name in gone:
        # A goal that is settled now: its answer goes.
        text = re.sub(r"(?ms)^" + re.escape(name) + r" : .*?(?=^(?:pub |abbrev |unfoldable )*(?!" + re.escape(name) + r"\b)\S+ :|^-- )", "", text)
        text = re.sub(r"(?m)(?<=[\s(])" + re.escape(name) + r"(?=[\s)])[ ]?", "", text)
    for old, new in sorted(names.arms.items(), key=lambda it: -len(it[0])):
        form = "".join("[-_]" if ch == "-" else re.escape(ch) for ch in old)
        text = re.sub(r"\." + form + r"(?![\w'-])", lambda m, new=new: new, text, flags=re.I)

    known = helpers(text)
    ways = {name for name, (_, gives) in known.items() if gives}

    def step(m, variables):
        head, ups, name, field = m.group(1), m.group(2), m.group(3), m.group(4)
        if head == ")":
            depth, at = 0, m.start()
            while at >= 0:
                depth += (m.string[at] == ")") - (m.string[at] == "(")
                if depth == 0:
                    break
                at -= 1
            if m.string[at + 1:m.start()].split(" ")[0] not in ways:
                return m.group(0)
        elif not ups and head not in variables:
            return m.group(0)
        old = norm(name)
        if old not in names.steps and old.endswith("-lem"):
            old = old[:-4]
        if old not in names.steps:
            return m.group(0)
        fields = names.fields.get(old, {})
        if field:
            if not (names.steps[old].startswith("loop-") and not names.steps[old].endswith("-test") and field != ".inv"):
                field = "." + OLDER.get(field[1:], field[1:])
            field = "." + fields.get(norm(field[1:]), field[1:])
        return head + ups + "." + names.steps[old] + (field or "")

    parts = re.split(r"(?m)^(?=(?:abbrev |pub |unfoldable )*\S+ :)", text)
    for k, part in enumerate(parts):
        variables = place_variables(part, known)
        parts[k] = re.sub(r"(" + WORD + r"|\))((?:\.before)*)\.(" + WORD + r")(\." + WORD + r")?", lambda m, v=variables: step(m, v), part)
    text = re.sub(r"\.pre(?![\w'-])", ".requires", "".join(parts).replace(".type-inv", ".type_inv"))
    text = by_parameter(flat(text, names), names)
    for old in sorted(names.texts, key=len, reverse=True):
        text = re.sub(re.escape(old) + r"(?![\w'-])", lambda m: names.texts[old], text)
    # Names from .rt code, in which a dash came to stand.
    def from_code(m):
        name = m.group(2).replace("-", "_")
        if name not in RUST or m.group(2) in names.steps.values() or (m.group(2) in FIELDS and m.group(1) != "args."):
            return m.group(0)
        return m.group(1) + name

    parts = re.split(r"(?m)^(?=(?:abbrev |pub |unfoldable )*\S+ :)", text)
    for k, part in enumerate(parts):
        for m in re.finditer(r"let (" + WORD + r") = [^\n=]*?\.args in", part):
            part = re.sub(r"(?<![\w.'])(" + re.escape(m.group(1)) + r"\.)([a-z]\w*(?:-\w+)+)(?![\w'-])", lambda n: n.group(1) + (n.group(2).replace("-", "_") if n.group(2).replace("-", "_") in RUST else n.group(2)), part)
        parts[k] = re.sub(r"((?:args)?\.)([a-z]\w*(?:-\w+)+)(?![\w'-])", from_code, part)
    text = "".join(parts)
    return text.replace(".branch", ".branch-raw") if ".branch-raw" not in text else text


def turn_cycle(text, entries, missing):
    """A cycle of functions: each declaration names its function's steps by an alias of that function's module."""
    aliases = {}
    for m in re.finditer(r"(?m)^use \S+\.Lts-(\S+) as (\S+)$", text):
        aliases[m.group(2)] = Names(entries[m.group(1)])
    for alias, names in aliases.items():
        for name, (place, gives) in helpers(re.sub(r"(?<![\w.])" + re.escape(alias) + r"\.", "tie.", text)).items():
            if norm(place) in names.places:
                CYCLE[name] = (names.places[norm(place)], names.places.get(norm(gives)) if gives else None)
    parts = re.split(r"(?m)^(?= *(?:abbrev |pub )*\S+ : )", text)
    for k, part in enumerate(parts):
        used = [a for a in aliases if re.search(r"^ *(?:abbrev |pub )*\S+ : (?:\S+ → )?\(?(?:\w+ : )?" + re.escape(a) + r"\.", part)]
        if len(used) != 1:
            continue
        indent = re.match(r" *", part).group(0)
        body = re.sub(r"(?m)^" + indent, "", part) if indent else part
        body = body.replace(used[0] + ".", "tie.")
        body = turn(body, aliases[used[0]], missing)
        body = re.sub(r"(?<![\w.])tie\.", used[0] + ".", body)
        parts[k] = re.sub(r"(?m)^(?=.)", indent, body) if indent else body
    CYCLE.clear()
    return "".join(parts)


def main(crate, path):
    with open(path) as f:
        entries = json.load(f)
    top, done = f"crates/{crate}/proofs", set()
    for key, entry in entries.items():
        if not key.startswith(f"Rattle-{crate}-proofs."):
            continue
        way, last = key.split(".", 1)[1].rsplit(".", 1)
        proof = os.path.join(top, *way.split("."), "Proof.antt")
        if not os.path.exists(proof):
            continue
        with open(proof) as f:
            text = f.read()
        missing = []
        name = way.split(".")[-1]
        if last.startswith("Lts-"):
            if proof in done:
                continue
            done.add(proof)
            head = key.rsplit("Lts-", 1)[0] + "Lts-"
            out = turn_cycle(text, {k[len(head):]: v for k, v in entries.items() if k.startswith(head)}, missing)
        else:
            out = turn(text, Names(entry), missing)
        out = re.sub(r"(?m)^(pub )?" + re.escape(norm(name)) + r"-spec\b", lambda m: (m.group(1) or "") + name + "_spec", out)
        if missing:
            print(f"{proof}: no new name for {', '.join(missing)}")
        if out != text:
            with open(proof, "w") as f:
                f.write(out)


if __name__ == "__main__":
    main(*sys.argv[1:])
