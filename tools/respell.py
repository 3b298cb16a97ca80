#!/usr/bin/env python3
"""Spells the repository's own definitions and lemmas as the library does: words in snake case, types in
camel case, and an apostrophe for a prime.

usage: tools/respell.py [--list]      at the top of the repository, once; --list only prints old and new names

A name is turned where it is declared in an .antt file of the repository (a definition, a lemma, a record, a
field, a parameter or a local name), and then wherever that name stands in .antt files, in the ghost parts of
.rt files and, between backticks, in the pages. Names that the check makes for goals, names of the library and
of src/, comments, strings, inputs and outputs stay.
"""

import os
import re
import sys

WORD = r"[A-Za-z_\u03b1-\u03c9\u2115\u2119][\w'\u2032\u2192]*(?:-[\w'\u2032\u2192]+)*"
TOKEN = re.compile(r"(?<![\w'\u2032\u2192-])" + WORD + r"(?![\w'\u2032\u2192-])")
# Words of texts that the pages quote.
QUOTED = {"release-acquire"}
# What would fall together with another name of the repository.
BY_HAND = {"No-shape": "UnreadShape"}
# What the check names itself: these stand in Answers and Invariants after `goal.` and in paths from `c` or `l`.
MADE = re.compile(r"\bgoal\.([\w'+-]+)")
DECLARED = re.compile(r"^\s*(?:(?:pattern|unfoldable|abbrev|pub|record|let) +)*(" + WORD + r")(?: *[({][^:]*[)}])* *:(?![=])")
RECORD = re.compile(r"^\s*(?:pub )?record (" + WORD + r")\b")
ALIAS = re.compile(r"\bas (" + WORD + r")")
CLAUSE = re.compile(r"^\s*(" + WORD + r")\b[^:=]* = ")
BOUND = re.compile(r"[({]((?:" + WORD + r" )+):")
LET = re.compile(r"\blet +(" + WORD + r")(?: :[^=]*)? = ")
LAMBDA = re.compile(r"\u03bb ((?:" + WORD + r" ?)+)\.")


def files(ending):
    for folder, dirs, names in os.walk("crates"):
        dirs[:] = sorted(d for d in dirs if d != "out")
        for n in sorted(names):
            if n.endswith(ending):
                yield os.path.join(folder, n)


def parts(text, antt):
    """The text as pieces (is code, piece): comments and strings are no code."""
    mark = "--" if antt else "//"
    out, at, start = [], 0, 0
    while at < len(text):
        comment = text.startswith(mark, at) and (not antt or at == 0 or text[at - 1] in " \n")
        if comment or text[at] == '"':
            out.append((True, text[start:at]))
            if comment:
                end = text.find("\n", at)
                end = len(text) if end < 0 else end
            else:
                end = at + 1
                while end < len(text) and text[end] != '"':
                    end += 2 if text[end] == "\\" else 1
                end += 1
            out.append((False, text[at:end]))
            at = start = end
        else:
            at += 1
    out.append((True, text[start:]))
    return out


def spelled(name, is_type):
    if name in BY_HAND:
        return BY_HAND[name]
    name = name.replace("\u2032", "'")
    if "-" not in name:
        return name
    words = name.split("-")
    if is_type:
        return "".join(w[:1].upper() + w[1:] for w in words)
    return "_".join(w if re.search(r"[a-z]", w) is None and len(w) > 1 else w[:1].lower() + w[1:] for w in words)


def declared():
    """The names with a dash or a prime that the repository declares, and whether each is a type's or a variant's."""
    found = {}
    library = set()
    for p in files(".antt"):
        for m in re.finditer(r"^use (?:Rattle\.std|lib|borrow|mathlib)\b[^{\n]*\{([^}]*)\}", open(p, encoding="utf-8").read(), re.M):
            library.update(re.split(r",\s*", m.group(1)))
    for p in files(".rt"):
        for m in re.finditer(r"^ghost use [^;]*;", open(p, encoding="utf-8").read(), re.M):
            for n in ALIAS.findall(m.group(0)):
                if "-" in n:
                    found[n] = n[0].isupper()
    for p in files(".antt"):
        code = "".join(piece for is_code, piece in parts(open(p, encoding="utf-8").read(), True) if is_code)
        made = set(MADE.findall(code))
        in_answers = os.path.basename(p) in ("Answers.antt", "Invariants.antt")
        for line in code.split("\n"):
            names = set()
            for pattern in (DECLARED, CLAUSE, RECORD):
                m = pattern.match(line)
                if m:
                    names.add(m.group(1))
            left = re.match(r"^\s*([^:=]*) =(?: |$)", line)
            if left and not re.match(r"\s*(let|use|record)\b", line):
                names.update(TOKEN.findall(re.sub(r"\.[\w'-]+", " ", left.group(1))))
            for m in BOUND.finditer(line):
                names.update(m.group(1).split())
            for m in ALIAS.finditer(line):
                names.add(m.group(1))
            for m in LET.finditer(line):
                names.add(m.group(1))
            for m in LAMBDA.finditer(line):
                names.update(m.group(1).split())
            for n in names:
                if ("-" in n or "\u2032" in n) and not (in_answers and n in made) and n not in library:
                    # a lemma on the word T is no type
                    found[n] = n[0].isupper() and not n.startswith("T-")
    return found


def ghost_lines(text):
    """Of a .rt file, which lines lie in ghost use items, in clauses, ghost members or attributes."""
    lines, on, depth = [], False, 0
    for line in text.split("\n"):
        bare = line.strip()
        if not on and re.match(r"(ghost\b|requires\b|ensures\b|decreases\b|#\[tactic|pub ghost\b)", bare):
            on, depth = True, 0
        here = on
        if on:
            depth += sum(line.count(c) for c in "{([") - sum(line.count(c) for c in "})]")
            on = depth > 0
        lines.append(here)
    return lines


def main():
    names = declared()
    turned = {n: spelled(n, t) for n, t in names.items()}
    turned = {n: s for n, s in turned.items() if n != s}
    back = {}
    for n, s in turned.items():
        back.setdefault(s, []).append(n)
    everything = set()
    for p in files(".antt"):
        everything.update(TOKEN.findall(open(p, encoding="utf-8").read()))
    for s, old in sorted(back.items()):
        if len(old) > 1 or s in everything:
            print("falls together:", s, old, "stands already" if s in everything else "", file=sys.stderr)
    if "--list" in sys.argv:
        for n in sorted(turned):
            print(n, turned[n])
        return

    def turn(code, made):
        def one(m):
            name = m.group(0)
            before = code[: m.start()]
            if name in made and (before.endswith("goal.") or re.search(r"^(?:abbrev )?(?:pub )?$", before.rsplit("\n", 1)[-1])):
                return name
            # a path from a goal's context: its members are the check's
            if before.endswith(".") and re.search(r"\b[cl](?:\.[\w'+-]+)*\.$", before) and name in CONTEXT:
                return name
            return turned.get(name, name)

        return TOKEN.sub(one, code)

    CONTEXT = set()
    for p in files(".antt"):
        if os.path.basename(p) in ("Answers.antt", "Invariants.antt"):
            for m in re.finditer(r"\b[cl]((?:\.[\w'+-]+)+)", open(p, encoding="utf-8").read()):
                CONTEXT.update(m.group(1).split("."))
    for p in files(".antt"):
        text = open(p, encoding="utf-8").read()
        answers = os.path.basename(p) in ("Answers.antt", "Invariants.antt")
        made = set(MADE.findall(text)) if answers else set()
        pieces = parts(text, True)
        new = "".join(turn(piece, made) if is_code else piece for is_code, piece in pieces)
        if new != text:
            open(p, "w", encoding="utf-8").write(new)
    for p in files(".rt"):
        text = open(p, encoding="utf-8").read()
        marks = ghost_lines(text)
        lines = text.split("\n")
        new = "\n".join(
            "".join(turn(piece, set()) if is_code else piece for is_code, piece in parts(line, False)) if mark else line
            for mark, line in zip(marks, lines)
        )
        if new != text:
            open(p, "w", encoding="utf-8").write(new)
    for p in ["README.md"] + [os.path.join("docs", n) for n in sorted(os.listdir("docs")) if n.endswith(".md")]:
        text = open(p, encoding="utf-8").read()
        new = re.sub(r"`[^`\n]+`", lambda m: TOKEN.sub(lambda w: w.group(0) if w.group(0) in QUOTED else turned.get(w.group(0), w.group(0)), m.group(0)), text)
        if new != text:
            open(p, "w", encoding="utf-8").write(new)


main()
