#!/usr/bin/env python3
"""Spells the names that this repository declares for its definitions and lemmas as today's library does.

usage: python3 tools/respell.py [--check]      at the top of the repository, after the toolchain's own script

A fact or a type is in upper camel case, and every other name in snake case. Functions, fields and labels of src/ keep
their names, and so do the names that the check makes. With --check nothing is written: the table of names is printed,
and so is every pair of names that would fall together. A second run changes nothing more.
"""

import collections
import os
import re
import sys

WORD = r'[^\s(){}.;,@"«»`|:=]+'
NAME = r'[^\s(){}.;,@"«»]+'
HEAD = re.compile(r"^(?:[A-Z][\w']*-[\w'-]+|[a-z][\w']*(?:-[\w'-]+)+)$")
DECLARED = re.compile(
    rf"^ *(?:(?:abbrev|pub|unfoldable|data|record|mutual) +)*({NAME})((?: +(?:\((?:[^()]|\([^()]*\))*\)|\{{[^{{}}]*\}}))*) +:(?= |$)(.*)$",
    re.M,
)
BOUND = re.compile(rf"\b(?:as|let) ({NAME})")
MADE = re.compile(r"^\s*goal\.")
USE = re.compile(r"\buse (Rattle\.(?:std|core)[^\n]*)")
ANSWERS = re.compile(r"/proofs/.*/")
CLAUSE = re.compile(r"(?:requires|ensures)\s*\*?\s*(?:\w+\s*)?\{|ghost\s*(?:\w+\s*[:=]\s*)?\{|ghost\s+use\b")
SPAN = re.compile(r"`[^`\n]+`")


def files(*endings):
    for top in ("crates", "docs"):
        for folder, dirs, names in os.walk(top):
            dirs[:] = sorted(d for d in dirs if d != "out")
            for name in sorted(names):
                if name.endswith(endings):
                    yield os.path.join(folder, name)
    if ".md" in endings:
        yield "README.md"


def read(path):
    with open(path, encoding="utf-8") as f:
        return f.read()


def new_spelling(name):
    if name[0].isupper():
        return "".join(part[0].upper() + part[1:] for part in name.split("-"))
    return name.replace("-", "_")


def code_of(text):
    """The text of an antt file without its comments."""
    return re.sub(r"(?m)(^|\s)--.*$", r"\1", text)


def declared():
    """Each name with a dash that a definition, a lemma, a field or a constructor declares, or a variable of one, with its files."""
    found = collections.defaultdict(set)
    imported = set()
    for path in files(".antt", ".rt"):
        for m in USE.finditer(read(path)):
            imported.update(re.findall(WORD, m[1]))
    for path in files(".antt"):
        code = code_of(read(path))
        if not ANSWERS.search(path):
            for w in re.findall(rf"(?<![\w.]){WORD}", code):
                if HEAD.match(w) and w not in imported:
                    found[w].add(path)
        for m in DECLARED.finditer(code):
            if HEAD.match(m[1]) and not MADE.match(m[3]):
                found[m[1]].add(path)
        for m in BOUND.finditer(code):
            if HEAD.match(m[1]):
                found[m[1]].add(path)
    return found


def turn_words(text, table):
    return re.sub(WORD, lambda m: table.get(m[0], m[0]), text)


def turn_antt(text, table):
    out = []
    for line in text.split("\n"):
        m = re.search(r"(^|\s)--.*$", line)
        code, note = (line[: m.start()], line[m.start() :]) if m else (line, "")
        # a name behind goal. or c. is the check's own
        code = re.sub(
            rf"((?<![^\s(){{}};,])(?:goal|c|l)(?:\.{WORD})+)|({WORD})",
            lambda k: k[1] if k[1] else table.get(k[2], k[2]),
            code,
        )
        note = SPAN.sub(lambda k: turn_words(k[0], table), note)
        out.append(code + note)
    return "\n".join(out)


def closing(text, at):
    """The place after the clause or import that begins at `at`."""
    if re.match(r"ghost\s+use\b", text[at:]):
        return text.index(";", at) + 1
    depth = 0
    for i in range(text.index("{", at), len(text)):
        depth += {"{": 1, "}": -1}.get(text[i], 0)
        if depth == 0:
            return i + 1
    return len(text)


def turn_rt(text, table):
    out, at = [], 0
    for m in CLAUSE.finditer(text):
        if m.start() < at:
            continue
        end = closing(text, m.start())
        out.append(text[at : m.start()])
        out.append(turn_words(text[m.start() : end], table))
        at = end
    out.append(text[at:])
    text = "".join(out)
    return re.sub(r"//[^\n]*", lambda k: SPAN.sub(lambda s: turn_words(s[0], table), k[0]), text)


def turn_md(text, table):
    fenced = re.split(r"(^ *```.*?^ *```$)", text, flags=re.M | re.S)
    return "".join(
        turn_words(part, table) if i % 2 else SPAN.sub(lambda k: turn_words(k[0], table), part)
        for i, part in enumerate(fenced)
    )


def main():
    found = declared()
    table = {name: new_spelling(name) for name in found}
    words = collections.defaultdict(set)
    for path in files(".antt", ".rt"):
        text = read(path)
        for w in re.findall(WORD, code_of(text) if path.endswith(".antt") else text):
            words[w].add(path)
    meeting = collections.defaultdict(list)
    for old, new in table.items():
        meeting[new].append(old)
    for new, olds in sorted(meeting.items()):
        if len(olds) > 1:
            print(f"meet: {', '.join(sorted(olds))} are both {new}")
        for old in olds:
            both = words[old] & words[new]
            if both:
                print(f"meet: {old} and {new} both stand in {', '.join(sorted(both))}")
    if "--check" in sys.argv[1:]:
        for old, new in sorted(table.items()):
            print(f"{old}\t{new}")
        return
    turns = {".antt": turn_antt, ".rt": turn_rt, ".md": turn_md}
    for path in files(*turns):
        text = read(path)
        turned = turns[os.path.splitext(path)[1]](text, table)
        if turned != text:
            with open(path, "w", encoding="utf-8") as f:
                f.write(turned)


main()
