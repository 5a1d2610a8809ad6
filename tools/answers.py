#!/usr/bin/env python3
"""Turns a function's older proof, proofs/F/Proof.antt, into Invariants.antt and Answers.antt.

usage: python3 tools/answers.py CRATE_FOLDER NAMES.json [F ..]

NAMES.json is what `rt check --generated FOLDER --old-names` writes: for each function the older names of its goals and
of the steps of its code beside today's. What was answered by `search rules` alone is left out: the check tries that
itself. The older file goes where the turned ones are written.
"""

import json
import os
import re
import sys

FIELD = r"[\w'₀-₉-]+"


def same(name):
    return name.replace("_", "-").replace("overflow-", "").replace("offset-bounds", "mul").replace("slice-bounds-", "part-")


def clauses(root):
    """For each function, as `crate::f` or `crate::Type::f`, the names of its `ensures`, where it has two or more."""
    out = {}
    crates = os.path.join(root, "crates")
    for crate in sorted(os.listdir(crates)):
        src = os.path.join(crates, crate, "src")
        for file in sorted(os.listdir(src)) if os.path.isdir(src) else []:
            with open(os.path.join(src, file), encoding="utf-8") as f:
                kind, now = "", None
                for line in f:
                    if m := re.match(r"impl(?:<[^>]*>)? (\w+)", line):
                        kind = m.group(1) + "::"
                    elif line.startswith("}"):
                        kind = ""
                    elif m := re.match(r'\s*(?:pub )?(?:extern "C" )?fn (\w+)', line):
                        now = out.setdefault(f"{crate}::{kind}{m.group(1)}", [])
                    elif (m := re.match(r"\s*ensures (\w+) \{", line)) and now is not None:
                        now.append(m.group(1))
    return {k: v for k, v in out.items() if len(v) > 1}


def named(steps, names):
    """`ensures.1.0` by the names of the clauses, which were a nest of pairs."""
    level, i = 0, 1
    while i < len(steps) and steps[i] in ("0", "1"):
        if steps[i] == "0":
            return ["ensures", names[level]] + steps[i + 1 :]
        level += 1
        i += 1
        if level == len(names) - 1:
            return ["ensures", names[level]] + steps[i:]
    if i == 1 and len(steps) > 1 and steps[1].isdigit() and int(steps[1]) < len(names):
        return ["ensures", names[int(steps[1])]] + steps[2:]
    return steps


def parts(text):
    """The parts of a tuple `(a, b)`, or None."""
    text = text.strip()
    if not text.startswith("("):
        return None
    depth, at, out = 0, 1, []
    for i, ch in enumerate(text):
        if ch in "([{":
            depth += 1
        elif ch in ")]}":
            depth -= 1
            if depth == 0:
                if i != len(text) - 1:
                    return None
                last = text[at:i].strip()
                return out + ([last] if last else [])
        elif ch == "," and depth == 1:
            out.append(text[at:i].strip())
            at = i + 1
    return None


def recorded(body, names):
    """An answer of several clauses by their names: a nest of pairs behind its last `in`, or a lemma that gives one."""

    def nest(text):
        found = parts(text)
        while found and len(found) < len(names):
            more = parts(found[-1])
            if not more:
                return None
            found = found[:-1] + more
        return found if found and len(found) == len(names) else None

    def written(values):
        return "record {\n" + "".join(f"      {n} = {t};\n" for n, t in zip(names, values)) + "    }"

    for at in [0] + [m.end() for m in re.finditer(r"\bin\s", body)]:
        values = nest(body[at:])
        if values:
            lead = body[:at].rstrip()
            return (lead + "\n    " if lead else "") + written(values)
    last = len(names) - 1
    return f"\n    let all = ({body.strip()}) in " + written(["all" + ".1" * k + (".0" if k < last else "") for k in range(len(names))])


class Function:
    def __init__(self, names):
        self.ensures = names["clauses_of"]
        self.own = names["own"]
        self.callee = {p[0]: p[3] for p in names["places"]}
        self.places = {}
        for i, (old, parent, field, _, _) in enumerate(names["places"]):
            self.places[old] = (parent, field, names["arms"][i])
        self.goals = {}
        for (old, new), (place, _) in zip(names["needs"], names["asked_at"]):
            self.goals[same(old)] = (new, place)
        self.loops = {}
        for (loop, variables), changed in zip(names["loops"], names["changed"]):
            self.loops[same(loop[0])] = (loop[1], variables, changed)

    def path(self, place, steps):
        """The path `steps` of fields from the record of a place, in today's names. A step's field is found by its name, which is its own along
        a way through the code: how many steps lie between is another number today."""
        while steps and steps[0] == "before":
            steps = steps[1:]
        if not steps:
            return place, None
        while place:
            parent, field, arm = self.places[place]
            if parent and same(steps[0]) == same(field[0]):
                if arm:
                    for sub, old, below in arm[2]:
                        if same(old) == same(steps[0]) and [same(x) for x in steps[1 : 1 + len(below)]] == [same(x) for x in below]:
                            return place, [arm[0], sub] + steps[1 + len(below) :]
                    return place, [arm[0]] + steps[1:]
                rest = steps[1:]
                if rest and rest[0] == "ensures" and self.callee[place] in self.ensures:
                    rest = named(rest, self.ensures[self.callee[place]])
                return place, [field[1]] + ["type_inv" if x == "type-inv" else x for x in rest]
            place = parent
        return place, steps


def blocks(text):
    """Top-level pieces: comment lines, use lines, declarations with their clauses."""
    out, now = [], []
    for line in text.split("\n"):
        if line.strip() == "":
            if now:
                out.append(now)
                now = []
            continue
        if now and not line.startswith((" ", "\t")) and now[-1].startswith("use ") and not line.startswith("use "):
            out.append(now)
            now = []
        now.append(line)
    if now:
        out.append(now)
    return out


def turn_paths(body, function, place):
    known = {"c": place}
    # a name for a place
    again = True
    while again:
        again = False
        for m in re.finditer(r"let (" + FIELD + r") = (" + FIELD + r")((?:\.before)*) in\s*", body):
            if m.group(2) in known and m.group(1) not in known:
                at, rest = function.path(known[m.group(2)], [x for x in m.group(3).split(".") if x])
                if rest is None:
                    known[m.group(1)] = at
                    body = body[: m.start()] + body[m.end() :]
                    again = True
                    break

    def word(m):
        if m.group(1) not in known:
            return m.group(0)
        steps = [x for x in m.group(2).split(".") if x]
        at, rest = function.path(known[m.group(1)], steps)
        if rest is None:
            return "c"
        return "c." + ".".join(rest)

    return re.sub(r"(?<![\w'₀-₉.-])(" + "|".join(re.escape(k) for k in known) + r")((?:\." + FIELD + r")*)(?![\w'₀-₉-])", word, body)


def turn_invariant(lines, function, name, at):
    kind, loop = re.match(r"(invariant|decreases)-(.*)", name).groups()
    new, variables, changed = function.loops[same(loop)]
    head = next(i for i, l in enumerate(lines) if re.match(re.escape(name) + r"(?: |$)", l) and "=" in l)
    left, right = re.match(r"(.*?) =(?: |$)(.*)", lines[head]).groups()
    given = left.split()[1:]
    wanted = ["l.initial." + v if c else "l." + v for v, c in zip(variables, changed)]
    wanted += ["l." + v for v, c in zip(variables, changed) if c]
    if len(given) != len(wanted):
        raise ValueError(f"{name}: {given} against {wanted}")
    body = right + "".join("\n" + l for l in lines[head + 1 :])
    value = {old: now for old, now in zip(given, wanted) if old != "_"}
    body = re.sub(r"(?<![\w'₀-₉.-])(" + "|".join(re.escape(v) for v in value) + r")(?![\w'₀-₉-])", lambda m: value[m.group(1)], body)
    between = [l for l in lines[1:head] if l.startswith("unfolding")]
    return [f"abbrev pub {kind}-{new} : goal.{kind}-{new}"] + between + [f"{kind}-{new} l = {body}".replace("=  ", "= ").rstrip()]


def turn(crate, key, names):
    name = os.path.basename(os.path.abspath(crate))
    at = re.sub(r"\.Lts.*$", "", key.split("-proofs.", 1)[1])
    folder = os.path.join(crate, "proofs", *at.split("."))
    path = os.path.join(folder, "Proof.antt")
    if not os.path.exists(path):
        return
    with open(path, encoding="utf-8") as f:
        text = f.read()
    if "WpFn" in text or "/+" in path:
        print("by hand:", path)
        return
    names["clauses_of"] = clauses(os.path.join(crate, "..", ".."))
    names["own"] = names["clauses_of"].get(name + "::" + at.replace(".", "::"))
    function = Function(names)
    comments, uses, helpers, invariants, answers = [], [], [], [], []
    renamed = {}
    pieces = []
    for piece in blocks(text):
        while piece and piece[0].startswith("--") and any(l.startswith("use ") for l in piece):
            comments.append(piece.pop(0))
        if piece and piece[0].startswith("use "):
            uses += piece
            continue
        lead = [l for l in piece if l.startswith("--")]
        code = [l for l in piece if not l.startswith("--")]
        if not code:
            comments += lead
            continue
        sig = code[0]
        m = re.match(r"(?:abbrev )?(" + FIELD + r") : (?:\(t : ℕ\) → )?[\w'-]*\.?Need-(" + FIELD + r")", sig)
        pieces.append((lead, code, m))
        if m and same(m.group(2)) in function.goals:
            renamed[m.group(1)] = function.goals[same(m.group(2))][0]
    for lead, code, m in pieces:
        sig = code[0]
        declared = re.match(r"(?:pub |abbrev )*(" + FIELD + r") :", sig)
        if re.match(r"pub \S+-spec :", sig) or re.match(r"pub \S+_spec :", sig):
            continue
        if declared and re.match(r"(invariant|decreases)-", declared.group(1)) and "tie." in sig:
            invariants += lead + turn_invariant(code, function, declared.group(1), at) + [""]
            continue
        if m:
            old, need = m.group(1), same(m.group(2))
            if need not in function.goals:
                print("no such goal:", path, m.group(2))
                answers += lead + code + [""]
                continue
            new, place = function.goals[need]
            clause = next(i for i, l in enumerate(code) if re.match(re.escape(old) + r"(?: .*)? =(?: |$)", l))
            left, right = re.match(r"(.*?) =(?: |$)(.*)", code[clause]).groups()
            variables = [v for v in left.split()[1:] if v != "κs"]
            body = right + "".join("\n" + l for l in code[clause + 1 :])
            unfolding = [l for l in code[1:clause] if l.startswith("unfolding")]
            if body.strip() == "search rules" and not unfolding:
                continue
            if new.startswith("shape_of-") and ".auto." in body:
                continue
            body = turn_paths(body, function, place)
            # of `if !x` the fact is now about x itself
            body = re.sub(r"\((?:not-true|not-false) _ (c\.if-not-[\w'-]+\.(?:true|false))\)", r"\1", body)
            body = re.sub(r"(?:not-true|not-false) _ (c\.if-not-[\w'-]+\.(?:true|false))", r"\1", body)
            if new.startswith("returns") and function.own:
                body = recorded(body, function.own)
            answers += lead + [f"pub {new} : goal.{new}"] + unfolding + [f"{new} {' '.join(variables)} = {body}".replace(" = \n", " =\n").rstrip()] + [""]
            continue
        helpers += lead + code + [""]
    skip = re.compile(r"use (Rattle\." + name + r"\.proofs\." + re.escape(at) + r"\.|borrow\.Fn\.)")
    uses = [u for u in uses if not skip.match(u)]
    whole = f"Rattle.{name}.proofs.{at}"
    if invariants:
        with open(os.path.join(folder, "Invariants.antt"), "w", encoding="utf-8") as f:
            f.write("\n".join(comments + uses + [f"use {whole}.Given as goal", ""] + invariants).rstrip() + "\n")
    if answers:
        with open(os.path.join(folder, "Answers.antt"), "w", encoding="utf-8") as f:
            f.write("\n".join(comments + uses + [f"use {whole}.Goals as goal", ""] + helpers + answers).rstrip() + "\n")
    elif helpers:
        print("helpers alone:", path)
    os.remove(path)


def main(crate, names, wanted):
    with open(names, encoding="utf-8") as f:
        table = json.load(f)
    for key in table:
        if "-proofs." not in key or ".Lts" not in key:
            continue
        at = re.sub(r"\.Lts.*$", "", key.split("-proofs.", 1)[1])
        if wanted and at not in wanted:
            continue
        try:
            turn(crate, key, table[key])
        except (ValueError, KeyError, StopIteration) as e:
            print("left:", key, repr(e))


if __name__ == "__main__":
    main(sys.argv[1], sys.argv[2], sys.argv[3:])
