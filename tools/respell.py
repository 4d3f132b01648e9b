#!/usr/bin/env python3
"""Spells the repository's own definitions and lemmas in snake case, by the table respell.tsv beside this file.

usage: respell.py [FOLDER]      the repository; this one, if left out

A row of the table is an old name, a tab and a new one. Whole words alone turn: in specs/ and proofs/ everywhere but in
comments, in src/ in clauses, ghost blocks and `ghost use` lines, in a must-fail edit in the lines of its text, and in
README.md and docs/ in code spans. In comments a name turns that has a capital letter inside, or stands in a code span.
A label that Rattle makes stays: a name behind `goal.`, and in a function's own proof files each name behind a dot that
is no field of a record of ours.
A row with a third column, `text`, is for edits and documents alone: the toolchain's own script, its port.py, has turned that
name everywhere else. Run this script once, right after that one.
"""

import os
import re
import sys

HERE = os.path.dirname(os.path.realpath(__file__))
WORD = re.compile(r'[^\s(){}.;,@"«»]+')
COMMENT = re.compile(r"(?m)(?<!\S)(?:--|//)[^\n]*")
SPAN = re.compile(r"`[^`\n]+`")
CLAUSE = re.compile(r"\b(?:requires|ensures)\*?(?: \w+)? \{|\bghost(?: \w+ ?[:=]?)? \{")
GHOST_USE = re.compile(r"\bghost use [^;]*;")
FIELDS = re.compile(r"(?m)^pub record [^\n]*where\n((?:  [^\n]*\n|\n)*)")
FIELD = re.compile(r'(?m)^  (?:pub )?([^\s(){}.;,@"«»:]+) :')
OF_FUNCTION = re.compile(r"/proofs/.+/(?:Answers|Invariants|Proof)\.antt$")


def rows():
    """The table for code, and the one for edits and documents."""
    with open(os.path.join(HERE, "respell.tsv"), encoding="utf-8") as f:
        all_rows = [line.rstrip("\n").split("\t") for line in f]
    return {r[0]: r[1] for r in all_rows if len(r) == 2}, {r[0]: r[1] for r in all_rows}


def files(root):
    for top in ("crates", "docs"):
        for folder, dirs, names in os.walk(os.path.join(root, top)):
            dirs[:] = sorted(d for d in dirs if d != "out")
            for name in sorted(names):
                if name.endswith((".antt", ".rt", ".edit", ".md")):
                    yield os.path.join(folder, name)
    yield os.path.join(root, "README.md")


def fields_of(paths):
    found = set()
    for path in paths:
        if path.endswith(".antt"):
            with open(path, encoding="utf-8") as f:
                for block in FIELDS.finditer(COMMENT.sub("", f.read())):
                    found.update(m[1] for m in FIELD.finditer(block[1]))
    return found


def turn_words(text, table, fields=None):
    """The words of the text, each by the table. Where fields is given, a name behind a dot turns only if it is one of them."""

    def turn(m):
        word = m[0]
        if word not in table:
            return word
        behind = text[max(0, m.start() - 5) : m.start()]
        if behind.endswith("goal.") or (behind.endswith(".") and fields is not None and word not in fields):
            return word
        return table[word]

    return WORD.sub(turn, text)


def turn_comment(text, table):
    inner = {old: new for old, new in table.items() if re.search(r"[a-z0-9][A-Z]", old)}
    text = SPAN.sub(lambda m: turn_words(m[0][:1] + " " + m[0][1:-1] + " " + m[0][-1:], table).replace("` ", "`", 1)[:-2] + "`", text)
    return re.sub(r"(?<![\w`-])[A-Za-z][\w]*(?![\w`-])", lambda m: inner.get(m[0], m[0]), text)


def turn_antt(text, table, fields):
    out, at = [], 0
    for m in COMMENT.finditer(text):
        out.append(turn_words(text[at : m.start()], table, fields))
        out.append(turn_comment(m[0], table))
        at = m.end()
    out.append(turn_words(text[at:], table, fields))
    return "".join(out)


def end_of_block(text, start):
    depth, i = 1, start
    while depth:
        depth += {"{": 1, "}": -1}.get(text[i], 0)
        i += 1
    return i


def turn_source(text, table):
    out, at = [], 0
    marks = sorted([(m.start(), m) for p in (COMMENT, CLAUSE, GHOST_USE) for m in p.finditer(text)], key=lambda x: x[0])
    for start, m in marks:
        if start < at:
            continue
        out.append(text[at:start])
        if m.re is COMMENT:
            out.append(turn_comment(m[0], table))
            at = m.end()
        else:
            at = end_of_block(text, m.end()) if m.re is CLAUSE else m.end()
            out.append(turn_words(text[start:at], table))
    out.append(text[at:])
    return "".join(out)


def turned(path, text, table, fields):
    if path.endswith(".antt"):
        return turn_antt(text, table, fields if OF_FUNCTION.search(path) else None)
    if path.endswith(".rt"):
        return turn_source(text, table)
    if path.endswith(".edit"):
        return turn_words(text, table)
    return SPAN.sub(lambda m: "`" + turn_words(m[0][1:-1], table) + "`", text)


def main(argv):
    root = argv[0] if argv else os.path.dirname(HERE)
    code, text_table = rows()
    paths = list(files(root))
    fields = fields_of(paths)
    changed = 0
    for path in paths:
        with open(path, encoding="utf-8") as f:
            text = f.read()
        new = turned(path, text, code if path.endswith((".antt", ".rt")) else text_table, fields)
        if new != text:
            changed += 1
            with open(path, "w", encoding="utf-8") as f:
                f.write(new)
    print(f"respell: {changed} of {len(paths)} files changed")
    return 0


if __name__ == "__main__":
    raise SystemExit(main(sys.argv[1:]))
