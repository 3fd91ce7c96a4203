#!/usr/bin/env python3
"""Brings the repository's own definitions and lemmas to snake case, after port.py.

usage: python3 tools/respell.py [--dry]     at the top of the repository

Own names are what specs/ and proofs/ declare: definitions, lemmas, fields of records, local lemmas of a `where`, and helper
lemmas in the answers. Names that Rattle makes (goals, loops, calls) keep their dashes, and so do names of the library.
Comments, strings and code are left alone: in a .rt file only ghost lines and clauses are turned.
It prints each name that falls together with another one.
"""

import collections
import glob
import re
import sys

TOKEN = re.compile(r"[^\W\d][\w'₂]*(?:-[\w'₂]+)*")
DECLARED = re.compile(r"^(\s*)((?:abbrev|unfoldable|pub|record|data)\s+)*([^\W\d][\w'₂-]*)((?:\s*(?:\{[^}]*\}|\([^)]*\)))*)\s*:(?!=)(.*)$")


def files():
    return sorted(set(glob.glob("crates/*/specs/**/*.antt", recursive=True) + glob.glob("crates/*/proofs/**/*.antt", recursive=True)))


def is_answers(path):
    return path.endswith(("/Answers.antt", "/Invariants.antt", "/Proof.antt"))


def snake(name):
    return name.replace("-", "_")


def declared():
    """Own names with a dash, and those of them that are fields of a record."""
    own, fields = collections.defaultdict(set), set()
    for path in files():
        in_record = False
        for line in open(path, encoding="utf-8").read().split("\n"):
            code = line.split("--")[0].rstrip()
            if re.match(r"^\S", code):
                in_record = bool(re.match(r"^(pub\s+)?record\b.*\bwhere$", code))
            m = DECLARED.match(code)
            if not m or "-" not in m.group(3):
                continue
            name, kind = m.group(3), m.group(5)
            if is_answers(path) and ("goal." in kind or "given." in kind):
                continue
            own[name].add(path)
            if in_record and m.group(1):
                fields.add(name)
    return own, fields


def turned(text, own, fields, made=False):
    """The text with own names in snake case. In answers (made) what stands right behind the facts of a goal is Rattle's."""
    out, end = [], 0
    for m in TOKEN.finditer(text):
        name = m.group(0)
        if name not in own:
            continue
        before = text[: m.start()]
        if before.endswith(".") and name not in fields:
            continue
        if re.search(r"(?:^|[^\w'.])(?:goal|given)\.$", before) or made and re.search(r"(?:^|[^\w'.])[cl]\.$", before):
            continue
        out += [text[end : m.start()], snake(name)]
        end = m.end()
    return "".join(out) + text[end:]


def antt(text, own, fields, made):
    lines = []
    for line in text.split("\n"):
        code, dashes, said = line.partition("--")
        lines.append(turned(code, own, fields, made) + dashes + said)
    return "\n".join(lines)


def source(text, own, fields):
    lines = []
    depth = 0
    for line in text.split("\n"):
        code = line.split("//")[0]
        ghost = depth > 0 or re.match(r"\s*(pub\s+)?(ghost|requires|ensures|law)\b", code)
        if ghost:
            depth += code.count("{") - code.count("}")
            depth = max(depth, 0)
            lines.append(turned(code, own, fields) + line[len(code) :])
        else:
            lines.append(line)
    return "\n".join(lines)


def main():
    dry = "--dry" in sys.argv
    own, fields = declared()
    sources = sorted(glob.glob("crates/*/src/**/*.rt", recursive=True))
    for path in files() + sources:
        text = open(path, encoding="utf-8").read()
        words = set(TOKEN.findall("\n".join(l.split("//" if path.endswith(".rt") else "--")[0] for l in text.split("\n"))))
        for name in sorted(own):
            if name in words and snake(name) in words:
                print(f"{path}: {name} falls together with {snake(name)}")
    for path in files() + sources:
        text = open(path, encoding="utf-8").read()
        if path.endswith(".rt"):
            new = source(text, own, fields)
        else:
            local = own
            if is_answers(path):
                goals = {m.group(3) for m in map(DECLARED.match, text.split("\n")) if m and ("goal." in m.group(5) or "given." in m.group(5))}
                local = {k: v for k, v in own.items() if k not in goals}
            new = antt(text, local, fields, is_answers(path))
        if new != text and not dry:
            open(path, "w", encoding="utf-8").write(new)
    print(f"{len(own)} names, {len(fields)} of them fields")


main()
