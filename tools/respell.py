#!/usr/bin/env python3
"""Brings the names that port.py left as they were to today's spelling: words in snake case, a prime as an apostrophe.

usage: python3 tools/respell.py [--list]     at the top of the repository, once, after port.py

It goes through the definitions, fields, constructors and lemmas of specs/ and proofs/ (but for the proofs of functions, whose names are
made by Rattle), and writes each one's new name wherever it is used: in .antt files, in clauses, in `backquotes` of comments. A capital in front of a dash stays,
as in `Bytes-append`, and so do the letters of document 01 (E, C, X1, LF, P1). Types keep theirs. --list prints the names alone.
"""
import os
import re
import sys

# Where the rule would give a name that says less, or that stands already in a file that uses both.
BY_HAND = {"answerAt": "answer_of_line", "getD-finer": "get_or_finer"}

# Stand in modules that no file uses together.
APART = {"oneMore", "noLine", "tooLong", "headAt"}

DECLARED = re.compile(r"^ *(?:(?:abbrev|unfoldable|pub) +)*((?:[^\s(){}\[\];,.:\"]+ +)*[^\s(){}\[\];,.:\"]+) *(?:\([^()]*\) *|\{[^{}]*\} *)*: ")
WORD = re.compile(r"[^\s(){}\[\];,.\"`]+")


def texts(root):
    for folder, dirs, files in os.walk(os.path.join(root, "crates")):
        dirs[:] = sorted(d for d in dirs if d not in ("out", "target", "must-fail"))
        for f in sorted(files):
            if f.endswith((".rt", ".antt")):
                yield os.path.join(folder, f)


def of_function(path):
    """A proof of a function, as it stands in a folder of its own."""
    return os.path.basename(path) in ("Proof.antt", "Answers.antt", "Invariants.antt")


def parts(line, mark):
    """A line as (kind, text): code, string, comment; and `quoted` words of a comment, as code."""
    out, i, code = [], 0, ""
    while i < len(line):
        if line.startswith(mark, i) and (i == 0 or line[i - 1] in " \t") and line[i + 2 : i + 3] in ("", " ", "\n", "/", "!"):
            rest = line[i:]
            out.append(("code", code))
            for k, piece in enumerate(rest.split("`")):
                out.append(("quoted" if k % 2 else "comment", piece))
            return out, True
        if line[i] == '"':
            j = i + 1
            while j < len(line) and line[j] != '"':
                j += 2 if line[j] == "\\" else 1
            out += [("code", code), ("string", line[i : j + 1])]
            code, i = "", j + 1
            continue
        code += line[i]
        i += 1
    out.append(("code", code))
    return out, False


def rewritten(text, mark, names):
    lines = []
    for line in text.split("\n"):
        pieces, commented = parts(line, mark)
        made, first = "", True
        for kind, piece in pieces:
            if kind in ("code", "quoted"):
                piece = WORD.sub(lambda m: names.get(m.group(0), m.group(0)), piece)
            if kind == "quoted" or (kind == "comment" and not first):
                made += "`"
            if kind in ("quoted", "comment"):
                first = False
            made += piece
        lines.append(made)
    return "\n".join(lines)


def words(text, mark):
    """The words of the code, but for those behind a dot, which are fields and parts of paths."""
    for line in text.split("\n"):
        for kind, piece in parts(line, mark)[0]:
            if kind == "code":
                yield from (m.group(0) for m in WORD.finditer(piece) if not piece[: m.start()].endswith("."))


def snake(part):
    part = part.replace("KGs", "Kgs").replace("KG", "Kg")
    part = re.sub(r"(?<=[a-z0-9])([A-Z])", r"_\1", part)
    return part.lower()


def respelled(name):
    if name in BY_HAND:
        return BY_HAND[name]
    first, *rest = name.split("-")
    if first[:1].isupper() and rest:
        return first + "-" + "_".join(snake(r) for r in rest)
    if first[:1].isupper():
        return name
    return "_".join(snake(p) for p in [first, *rest])


def declared(root):
    names = {}
    for path in texts(root):
        if not path.endswith(".antt") or of_function(path):
            continue
        with open(path, encoding="utf-8") as f:
            for line in f:
                code = parts(line.rstrip("\n"), "--")[0][0][1]
                m = DECLARED.match(code + " ")
                if not m or code.lstrip().startswith(("use ", "let ", "where", "|")):
                    continue
                for n in m.group(1).split():
                    if re.match(r"^[A-Za-z][A-Za-z0-9_'\-]*$", n):
                        names.setdefault(n, os.path.relpath(path, root))
    return names


def imported(root):
    """The names that the files take from a library: one of the repository's own that is spelled alike stays."""
    own = {c for c in os.listdir(os.path.join(root, "crates"))}
    found = set()
    for path in texts(root):
        with open(path, encoding="utf-8") as f:
            for m in re.finditer(r"(?m)^\s*(?:ghost )?use ([^\s{};]+)\.\{([^}]*)\}", f.read()):
                words = m.group(1).split(".")
                if not (words[0] == "Rattle" and words[1] in own):
                    found |= {w.split(" as ")[0].strip() for w in m.group(2).split(",")}
    return found


def main():
    root = os.getcwd()
    theirs = imported(root)
    names = {n: p for n, p in declared(root).items() if n not in theirs}
    table = {n: respelled(n) for n in names if respelled(n) != n}
    if "--list" in sys.argv:
        for n in sorted(table):
            print(n, table[n])
        return 0
    used = set()
    for path in texts(root):
        with open(path, encoding="utf-8") as f:
            if path.endswith(".antt"):
                used |= set(words(f.read(), "--"))
    # A lemma that would have the name of its definition.
    for n, m in table.items():
        if "-" in n and (m in used or any(o != n and "-" not in o and p == m for o, p in table.items())):
            table[n] = m + "_lem"
    made, bad = {}, False
    for n, m in sorted(table.items()):
        if n not in APART and (m in used or m in made):
            print(f"falls together: {n} ({names[n]}) with {m}" + (f", made of {made[m]}" if m in made else f" ({names.get(m, 'used')})"))
            bad = True
        made[m] = n
    if bad:
        return 1
    for path in texts(root):
        with open(path, encoding="utf-8") as f:
            text = f.read()
        to = table
        if of_function(path):
            own = {m.group(1) for m in re.finditer(r"(?m)^ *(?:(?:abbrev|unfoldable|pub) +)*([^\s(){}\[\];,.:]+) *: ", text)}
            to = {n: m for n, m in table.items() if n not in own}
        new = rewritten(text, "--" if path.endswith(".antt") else "//", to)
        if new != text:
            with open(path, "w", encoding="utf-8") as f:
                f.write(new)
    print(f"{len(table)} names")
    return 0


if __name__ == "__main__":
    raise SystemExit(main())
