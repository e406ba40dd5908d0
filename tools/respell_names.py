#!/usr/bin/env python3
"""Turns the names of the repository's own definitions, lemmas and fields to today's spelling: words in snake case, joined by `_`.

usage: python3 tools/respell_names.py [--dry]      at the top of the repository, once, after the port of the toolchain's spelling

Own names are those that a file of crates/*/specs or a lemma file of crates/*/proofs declares; besides, any word in camel case in those files is one of ours, as the
library has none. Types, facts and modules begin with a capital and keep their spelling, and so do names of document 01 (N0, L) and names from the Rattle source.
Only antt is turned: .antt files without their comments' prose, and in .rt files the clauses and the `ghost use` lines. Must-fail edits are turned by the same rules.
Two names of one file that would become one are reported, and nothing is written.
"""

import collections
import glob
import os
import re
import sys

TOKEN = re.compile(r"[^\s(){}\[\];,.λ\"`:]+")
CAMEL = re.compile(r"^[a-z_].*[a-z0-9][A-Z]")
FUNCTION = re.compile(r"/proofs/.+/[^/]+\.antt$")
# a lemma that has its definition's name since the port turned it
LEMMAS = {"sum_over": "sum_over_lem"}
# names that only look like ours: those that the toolchain makes
KEPT = re.compile(r"^(loop|returns|overflow|invariant|decreases|the|the_row)-")


def antt_files():
    for f in sorted(glob.glob("crates/*/specs/**/*.antt", recursive=True) + glob.glob("crates/*/proofs/**/*.antt", recursive=True)):
        yield f


def imported(text):
    """The names that a file takes from the library: those stay as they are in it, whatever ours are called."""
    own = {os.path.basename(c) for c in glob.glob("crates/*")}
    kept = set()
    for m in re.finditer(r"(?m)^\s*(?:pub |ghost )?use ([^\s{;]+)\.\{([^}]*)\}", text):
        path = m.group(1).split(".")
        if path[0] != "Rattle" or path[1] not in own:
            kept |= {w.strip().split(" as ")[0] for w in m.group(2).split(",")}
    return kept


def split_comment(line):
    """The code of a line and its comment."""
    m = re.search(r"(^|\s)--(\s|$)", line)
    return (line, "") if not m else (line[: m.start()], line[m.start():])


def declared():
    names = set()
    for f in antt_files():
        if FUNCTION.search(f):
            continue
        with open(f, encoding="utf-8") as it:
            for line in it:
                m = re.match(r"^\s*(?:(?:abbrev|unfoldable|pub)\s+)*([^\s:(){}\[\],;]+) :(?:\s|$)", split_comment(line)[0])
                if m:
                    names.add(m.group(1))
    return names


def snake(word):
    word = word.replace("′", "'").replace("-", "_")
    return re.sub(r"(?<=[a-z0-9])([A-Z])", lambda m: ("_" + m.group(1).lower()) if m.group(0) else "", word)


def table(names):
    t = dict(LEMMAS)
    words = [n for n in names if re.match(r"^[a-z_]", n) and not KEPT.match(n) and n not in LEMMAS]
    taken = {snake(n) for n in words if "-" not in n}
    for n in words:
        new = snake(n)
        if "-" in n and new in taken:
            new += "_lem"  # a lemma that would have its definition's name
        if new != n:
            t[n] = new
    return t


def turn_code(text, t):
    def one(m):
        w = m.group(0)
        if w in t:
            return t[w]
        if CAMEL.match(w) and "-" not in w:
            return snake(w)
        return w

    return TOKEN.sub(one, text)


def turn_comment(text, t):
    # in a comment only names between backquotes are names for sure
    return re.sub(r"`[^`]*`", lambda m: "`" + turn_code(m.group(0)[1:-1], t) + "`", text)


def turn_antt(text, t):
    out = []
    for line in text.split("\n"):
        code, comment = split_comment(line)
        out.append(turn_code(code, t) + turn_comment(comment, t))
    return "\n".join(out)


def turn_rt(text, t):
    """The `ghost use` lines and the clauses between a signature and its body."""
    text = re.sub(r"(?m)^ghost use [^;]*;", lambda m: turn_code(m.group(0), t), text)

    def clause(m):
        at, depth = m.end(), 1
        while depth:
            depth += {"{": 1, "}": -1}.get(text[at], 0)
            at += 1
        return m.start(), at

    spans = [clause(m) for m in re.finditer(r"(?m)^\s+(?:requires|ensures)(?: \w+)? \{|^\s+ghost (?:invariant )?\w+: \{", text)]
    out, at = [], 0
    for a, b in spans:
        out += [text[at:a], turn_code(text[a:b], t)]
        at = b
    return "".join(out) + text[at:]


def turn_edit(text, t):
    out, antt = [], False
    for line in text.split("\n"):
        m = re.match(r"(file|old|new): (.*)", line)
        if m and m.group(1) == "file":
            antt = m.group(2).strip().endswith(".antt")
        elif m and antt:
            line = m.group(1) + ": " + turn_antt(m.group(2), t)
        elif m and re.match(r"\s*(requires|ensures) ", m.group(2)):
            line = m.group(1) + ": " + turn_code(m.group(2), t)
        out.append(line)
    return "\n".join(out)


def together(path, before, t, names):
    """Names of one file that become one name. In a function's proof the function's own name stands in paths alone."""
    seen = collections.defaultdict(set)
    for line in before.split("\n"):
        for m in TOKEN.finditer(split_comment(line)[0]):
            w = m.group(0)
            if w in names or not FUNCTION.search(path):
                seen[turn_code(w, t)].add(w)
    return [(path, new, sorted(olds)) for new, olds in seen.items() if len(olds) > 1]


def main():
    names = declared()
    t = table(names)
    changes, falls = [], []
    for f in antt_files():
        with open(f, encoding="utf-8") as it:
            before = it.read()
        kept = imported(before)
        here = {k: v for k, v in t.items() if k not in kept}
        falls += together(f, before, here, names)
        changes.append((f, before, turn_antt(before, here)))
    for f in sorted(glob.glob("crates/*/src/**/*.rt", recursive=True)):
        with open(f, encoding="utf-8") as it:
            before = it.read()
        changes.append((f, before, turn_rt(before, t)))
    for f in sorted(glob.glob("crates/*/must-fail/*.edit")):
        with open(f, encoding="utf-8") as it:
            before = it.read()
        changes.append((f, before, turn_edit(before, t)))
    for path, new, olds in falls:
        print(f"{path}: {' and '.join(olds)} would both be {new}")
    if falls or "--dry" in sys.argv:
        print(f"{len(t)} names, {sum(a != b for _, a, b in changes)} files; nothing was written")
        return 1 if falls else 0
    for f, before, after in changes:
        if after != before:
            with open(f, "w", encoding="utf-8") as it:
                it.write(after)
    print(f"{len(t)} names, {sum(a != b for _, a, b in changes)} files")
    return 0


if __name__ == "__main__":
    os.chdir(os.path.join(os.path.dirname(os.path.abspath(__file__)), ".."))
    sys.exit(main())
