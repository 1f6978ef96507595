#!/usr/bin/env python3
"""Respells the repository's own definitions, lemmas and record fields of specs/ and proofs/: snake case throughout.

Run once, at the top, right after port.py. A name is turned if it is declared at the head of a line (or as a field) in a file of specs/ or in a
lemma file of proofs/, begins with a small letter and has a capital or a dash: `sameText` and `same-text` become `same_text`. Types, modules and
constructors keep their capitals. What Rattle makes (proofs/F/) keeps its names, but for the name of the proof of a function f, which is `f_spec`.
Text in quotes keeps its bytes; in comments and documents names are turned between backquotes.
"""

import collections
import glob
import os
import re
import sys

DECLARED = re.compile(r"^(?:(?:abbrev|unfoldable|mutual|pub) )*([^\s:{}().]+)\s*:(?!=)")
FIELD = re.compile(r"^  (?:pub )?([^\s:{}().]+) :(?!=)")
SPEC = re.compile(r"^pub ([^\s:{}().]+) :")
BREAK = re.compile(r"([\s(){}\[\].,;:|/`\"]+)")
# names that fall together with one that was there
OTHERS = {"read-code": "read_code_lem", "is_digit": "is_digit_lem", "same_code": "same_code_lem", "tail_of": "tail_of_lem", "digits_in": "digits_in_lem", "roomFits": "has_room"}
# the words of Rattle's own goals and steps
MADE = re.compile(r"^(loop|returns|invariant|decreases|overflow)(-|$)")


def snake(name):
    t = re.sub(r"(?<=[a-z0-9'])(?=[A-Z])", "_", name).lower() if name[0].islower() else name
    t = t.replace("-", "_")
    return re.sub(r"__+", "_", t)


def lemma_files():
    for p in sorted(glob.glob("crates/*/specs/**/*.antt", recursive=True)) + sorted(glob.glob("crates/*/proofs/*.antt") + glob.glob("crates/*/proofs/Lemmas/**/*.antt", recursive=True)):
        yield p


def walked():
    for p in sorted(glob.glob("crates/*/proofs/**/*.antt", recursive=True)):
        if os.path.dirname(p).count("/") > 2 and "/proofs/Lemmas/" not in p:
            yield p


def names():
    found = set()
    for p in lemma_files():
        for line in open(p, encoding="utf-8"):
            for it in (DECLARED.match(line), FIELD.match(line)):
                if it and it.group(1)[0].islower() and re.search("[A-Z-]", it.group(1)) and not MADE.match(it.group(1)):
                    found.add(it.group(1))
    table = {n: snake(n) for n in found}
    for p in walked():
        f = p.split("/proofs/")[1].split("/")[-2]
        if os.path.basename(p) == "Proof.antt":
            old = f.replace("_", "-") + "-spec"
            if old != f + "_spec":
                table[old] = f + "_spec"
    for same in together(table).values():
        for n in same:
            if "-" in n:
                table[n] += "_lem"
    return table | OTHERS


def together(table):
    back = collections.defaultdict(set)
    for a, b in table.items():
        back[b].add(a)
    return {b: a for b, a in back.items() if len(a) > 1}


def turn(text, table):
    return "".join(table.get(w, w) for w in BREAK.split(text))


def quoted(text, table):
    """Names between backquotes."""
    return re.sub(r"`[^`\n]*`", lambda m: turn(m.group(0), table), text)


def code(line, table, mark):
    """A line of code: text in double quotes stays, what follows `mark` is a comment."""
    out = []
    i = 0
    while i < len(line):
        if line.startswith(mark, i) and (i == 0 or line[i - 1] == " "):
            out.append(quoted(line[i:], table))
            break
        if line[i] == '"':
            j = line.find('"', i + 1)
            j = len(line) if j < 0 else j + 1
            out.append(line[i:j])
            i = j
            continue
        j = i
        while j < len(line) and line[j] != '"' and not (line.startswith(mark, j) and (j == 0 or line[j - 1] == " ")):
            j += 1
        out.append(turn(line[i:j], table))
        i = j
    return "".join(out)


def antt(text, table):
    return "".join(code(l, table, "--") for l in text.splitlines(keepends=True))


def rt(text, table):
    """Only what is ghost: `ghost use`, clauses, comments."""
    out = []
    depth = 0
    for l in text.splitlines(keepends=True):
        s = l.strip()
        if depth == 0 and re.match(r"(ghost |requires\b|ensures\b)", s):
            out.append(code(l, table, "//"))
            depth = l.count("{") - l.count("}") if not s.startswith("ghost use") else (0 if ";" in l else 1)
        elif depth > 0:
            out.append(code(l, table, "//"))
            depth = depth + l.count("{") - l.count("}") if not s.endswith(";") else 0
        elif "//" in l:
            at = l.find("//")
            out.append(l[:at] + quoted(l[at:], table))
        else:
            out.append(l)
    return "".join(out)


def main():
    table = names()
    fell = together(table)
    if "--list" in sys.argv:
        for a in sorted(table):
            print(a, table[a])
        print("together:", {b: sorted(a) for b, a in fell.items()})
        return
    todo = [(p, antt) for p in sorted(glob.glob("crates/*/specs/**/*.antt", recursive=True) + glob.glob("crates/*/proofs/**/*.antt", recursive=True))]
    todo += [(p, rt) for p in sorted(glob.glob("crates/*/src/**/*.rt", recursive=True))]
    todo += [(p, quoted) for p in ["README.md"] + sorted(glob.glob("docs/*.md"))]
    for p, how in todo:
        old = open(p, encoding="utf-8").read()
        new = how(old, table)
        if new != old:
            open(p, "w", encoding="utf-8").write(new)


main()
