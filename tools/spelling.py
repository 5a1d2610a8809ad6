#!/usr/bin/env python3
"""Brings the repository's own definitions and lemmas to one spelling: words joined by `_`, as in `has_copy`.

usage: python3 tools/spelling.py [FOLDER]      the repository's top, or FOLDER

It goes by text, over crates/*/{specs,proofs,src} and the edits that must fail. A name is the repository's own where a file
of specs/ or a lemma file of proofs/ declares it. Names of the library and of generated modules stay, and so does each name
of KEPT: with `_` it would be another name that is used here, or the library's own.
"""

import os
import re
import sys

NAME = r"[A-Za-zα-ωΑ-Ω][\w'₀-₉-]*"
TOKEN = re.compile(r"(?<![\w'₀-₉◌-])" + NAME)
DECLARED = re.compile(r"^\s*(?:abbrev |unfoldable )*(?:pub )?(?:abbrev |unfoldable )*(" + NAME + r"(?: " + NAME + r")*) ?:(?= |$)", re.M)
# Variables of lemmas and definitions, which the pattern above does not see.
BOUND = {"read-session", "all-granted", "open-yet", "bytes-are", "x-in-front", "x-in-queue", "save-2", "taking-last"}
KEPT = {"append-nil", "bit-and", "bit-or", "bit-xor"}
# The worked session and its parts: no type, so in small letters.
SMALL = {"W": "w", "W-36": "w_36", "W-38": "w_38", "W-43": "w_43", "W-end": "w_end", "W-36-answers": "w_36_answers"}
FUNCTION = ("Proof.antt", "Answers.antt", "Invariants.antt")


def in_function(path):
    """A function's proof: proofs/F/Answers.antt, and not a lemma file or definitions of that name."""
    above = os.path.basename(os.path.dirname(path))
    return os.path.basename(path) in FUNCTION and above not in ("specs", "proofs")


def bare(text):
    """Without comments and texts."""
    return re.sub(r'"[^"]*"', '""', re.sub(r"--.*", "", text))


def files(root):
    for folder, dirs, names in os.walk(os.path.join(root, "crates")):
        dirs[:] = sorted(d for d in dirs if d != "out")
        for name in sorted(names):
            yield os.path.join(folder, name)


def own_names(root):
    found, fields, aliases = set(), set(), set()
    for path in files(root):
        if not path.endswith(".antt"):
            continue
        with open(path, encoding="utf-8") as f:
            text = bare(f.read())
        for use in re.finditer(r"^use Rattle\.(?!std\.)[\w.+]+ as (" + NAME + r")", text, re.M):
            aliases.add(use.group(1))
        if in_function(path):
            continue
        for line in DECLARED.finditer(text):
            names = line.group(1).split()
            found.update(names)
            if line.group(0)[0] in " \t":
                fields.update(names)
    turned = {n: n.replace("-", "_") for n in found | BOUND if "-" in n and n not in KEPT}
    turned.update(SMALL)
    # an edit has the older spelling of names that were turned before, too
    edits = {n.replace("_", "-"): n for n in found if "_" in n} | turned
    return turned, fields, aliases, edits


def turn_code(code, turned, after_dot):
    def word(m):
        name = m.group(0)
        if name not in turned:
            return name
        if m.start() and code[m.start() - 1] == "." and not after_dot(code, m.start() - 1, name):
            return name
        return turned[name]

    return TOKEN.sub(word, code)


def turn_line(line, turned, after_dot, comment):
    """Code outside texts; in a comment what stands between backquotes."""
    at = line.find(comment)
    quoted = [m.span() for m in re.finditer(r'"[^"]*"', line)]
    while at >= 0 and any(a <= at < b for a, b in quoted):
        at = line.find(comment, at + 1)
    code, rest = (line, "") if at < 0 else (line[:at], line[at:])
    parts = re.split(r'("[^"]*")', code)
    code = "".join(p if p.startswith('"') else turn_code(p, turned, after_dot) for p in parts)
    rest = re.sub(r"`[^`]*`", lambda m: turn_code(m.group(0), turned, lambda c, i, n: True), rest)
    return code + rest


def main(root):
    turned, fields, aliases, edits = own_names(root)

    def known(code, dot, name):
        before = re.search(r"([\w'#₀-₉-]+)$", code[:dot])
        return name in fields or bool(before and before.group(1) in aliases)

    for path in files(root):
        folder = os.path.basename(os.path.dirname(path))
        with open(path, encoding="utf-8", errors="surrogateescape") as f:
            text = f.read()
        if path.endswith(".antt"):
            rule = known if in_function(path) else (lambda c, i, n: True)
            new = "\n".join(turn_line(l, turned, rule, "--") for l in text.split("\n"))
        elif path.endswith(".rt"):
            # a clause or an import: no Rust word has a dash, so W alone needs care, and no clause names it
            rust = {n: t for n, t in turned.items() if "-" in n}
            new = "\n".join(turn_line(l, rust, lambda c, i, n: True, "//") for l in text.split("\n"))
        elif path.endswith(".edit") and folder == "must-fail":
            new = []
            for line in text.split("\n"):
                if re.match(r"(old|new): ", line):
                    line = line[:5] + turn_line(line[5:], edits, lambda c, i, n: True, "\0")
                new.append(line)
            new = "\n".join(new)
        else:
            continue
        if new != text:
            with open(path, "w", encoding="utf-8", errors="surrogateescape") as f:
                f.write(new)


if __name__ == "__main__":
    main(sys.argv[1] if len(sys.argv) > 1 else ".")
