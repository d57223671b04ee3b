#!/usr/bin/env python3
"""Spells the project's own definitions and lemmas as today's library does: words in snake case.

usage: tools/respell.py        at the top of the repository, once, after the kit's port.py

A name is respelled if a file of specs/ or proofs/ declares it: `zeroFill` becomes `zero_fill` and `front-more` becomes
`front_more`, in every file of specs/ and proofs/, in the clauses and comments of src/, in must-fail/, and between the
backticks of pages. What stays: names that begin with a capital (types, modules, facts, and the sources' own names, as E,
Cx, SubBytes), but for their dashes; the functions of src/; names that Rattle makes (the goals that a Proof.antt answers,
and what stands behind a dot there). Two names that would fall together stop the script before it writes anything.
"""

import collections
import glob
import os
import re
import sys

NAME = r"[^\s(){}.;,@\"«»`]+"
TOKEN = re.compile(NAME)
DECLARED = re.compile(
    rf"^\s*(?:(?:unfoldable|abbrev|data|record|pub)\s+)*({NAME})((?: \([^()]*\)| \{{[^{{}}]*\}})*) : (.*)"
)
LET = re.compile(rf"\blet ({NAME}) : ")
RECORD = re.compile(r"^(?:pub )?record .*\n((?:[ \t]+.*\n|\n)*)", re.M)
ALIAS = re.compile(rf"^use {NAME}(?:\.{NAME})* as ({NAME})", re.M)
# Of the library, in its older spelling, as a part of a name.
OLDER = {"getD": "get_or"}


def is_snake(name):
    return "-" not in name and not re.search(r"[a-z0-9][A-Z]", name)


def respelled(name):
    parts = []
    for part in name.split("-"):
        if part in OLDER:
            part = OLDER[part]
        elif part[:1].islower():
            part = re.sub(r"(?<=[a-z0-9])[A-Z]", lambda found: "_" + found[0].lower(), part)
        parts.append(part)
    return "_".join(parts) if all(parts) else name


def read(path):
    with open(path, encoding="utf-8") as file:
        return file.read()


def declared(texts):
    """The names that these texts declare, but for answers to goals, which Rattle names."""
    names, goals = set(), set()
    for path, text in texts.items():
        for line in text.split("\n"):
            if line.lstrip().startswith("--"):
                continue
            found = DECLARED.match(line)
            if found and found[1] not in ("use", "mod", "let", "in", "|"):
                answers = path.endswith("/Proof.antt") and re.match(r"tie\.(Need|invariant|decreases|Inv|Measure)", found[3])
                (goals if answers else names).add(found[1])
            names.update(LET.findall(line))
    return names - goals


def standing(text):
    """The words that stand behind no dot, outside comments and the lists of modules."""
    lines = [line for line in text.split("\n") if not re.match(r"\s*--|\s*(pub )?mod ", line)]
    return set(re.findall(rf"(?<![.\w]){NAME}", "\n".join(lines)))


def meeting(old, new, words):
    return [path for path, these in words.items() if old in these and new in these and new != old + "_lem"]


def fields(texts):
    """The fields of the project's own records."""
    found = set()
    for text in texts.values():
        for body in RECORD.findall(text):
            found |= {field[1] for field in map(DECLARED.match, body.split("\n")) if field}
    return found


def in_antt(text, table, own):
    aliases = set(ALIAS.findall(text)) - {"tie"}
    out, end = [], 0
    for found in TOKEN.finditer(text):
        new = table.get(found[0])
        if new is None:
            continue
        before = text[: found.start()]
        comment = before[before.rfind("\n") + 1 :].lstrip().startswith("--")
        if comment and ("-" in found[0] or is_snake(found[0])) and not before.endswith(("`", "`.")):
            continue
        if before.endswith(".") and found[0] not in own and ("-" in found[0] or is_snake(found[0])):
            qualifier = re.search(rf"({NAME})\.$", before)
            if not qualifier or not (qualifier[1] in aliases or re.fullmatch(r"[A-Z]\w*", qualifier[1]) and comment):
                continue
        out.append(text[end : found.start()] + new)
        end = found.end()
    return "".join(out) + text[end:]


def in_rust(text, table):
    camel = {old: new for old, new in table.items() if "-" not in old and not is_snake(old)}
    return TOKEN.sub(lambda found: camel.get(found[0], found[0]), in_ticks(text, table))


def in_ticks(text, table):
    def turned(word):
        return word[0] if is_snake(word[0]) else table.get(word[0], word[0])

    return re.sub(r"`[^`\n]+`", lambda found: TOKEN.sub(turned, found[0]), text)


def main():
    antt = glob.glob("crates/*/specs/**/*.antt", recursive=True) + glob.glob("crates/*/proofs/**/*.antt", recursive=True)
    texts = {path: read(path) for path in sorted(antt)}
    names = declared(texts)
    table = {name: respelled(name) for name in names if respelled(name) != name}
    words = {path: standing(text) for path, text in texts.items()}
    # A lemma that would have the name of a function, here or in the library, gets the ending that the library gives it.
    functions = {new for old, new in table.items() if "-" not in old}
    for old in sorted(table):
        if "-" in old and (table[old] in functions or meeting(old, table[old], words)):
            table[old] += "_lem"
    table.update({old: old + "_lem" for old in functions & names})
    together = []
    for old, new in sorted(table.items()):
        both = [] if new in table else meeting(old, new, words)
        together += [f"{new}: {old} meets it in {path}" for path in both]
    spelled = collections.defaultdict(set)
    for old, new in table.items():
        spelled[new].add(old)
    together += [f"{new}: {' '.join(sorted(olds))}" for new, olds in sorted(spelled.items()) if len(olds) > 1]
    if together:
        sys.exit("names that fall together:\n" + "\n".join(together))
    sources = glob.glob("crates/*/src/**/*.rt", recursive=True)
    edits = glob.glob("crates/*/must-fail/*.edit")
    pages = glob.glob("docs/**/*.md", recursive=True) + ["README.md"] + glob.glob("rust/**/*.rs", recursive=True)
    own = fields(texts)
    for paths, turn in ((antt, lambda text, table: in_antt(text, table, own)), (sources, in_rust), (edits, in_rust), (pages, in_ticks)):
        for path in paths:
            text = read(path)
            turned = turn(text, table)
            if turned != text:
                with open(path, "w", encoding="utf-8") as file:
                    file.write(turned)
    for old in sorted(table):
        print(f"{old}\t{table[old]}")


if __name__ == "__main__":
    main()
