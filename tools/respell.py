#!/usr/bin/env python3
"""Respells the repository's own definitions and lemmas: words in snake case, types and modules in camel case, a prime as an apostrophe.

    python3 tools/respell.py        at the top of the repository, once, right after /opt/rattle/port/port.py and before any edit by hand

A name with a dash that is not the library's and not one that Rattle makes is ours. In specs/ and in the lemmas of proofs/ every such name is respelled;
in the answers and invariants of a function, where most names with a dash are made by Rattle, the names declared by us, and the names of src/ (labels of clauses,
functions, variables), which keep the spelling that they have there. Clauses of src/ and names in backquotes in README.md and docs/ follow.
Nothing else is touched: functions of src/, inputs, outputs and must-fail edits keep their names.

It goes by text and was meant for one run. What it does not see: a name that falls together with a variant of src/ or with another import, a name behind two dashes within a string,
and names in pages that the kit's scripts have respelled before it. docs/PORT.md says where that was mended by hand.
"""

import os
import re
import sys

ROOT = "crates"
LIBRARY = re.compile(r"^(?:ghost )?use (Rattle\.std\.|native|lib\.|mathlib|borrow|Prim)[^{\n]*\{([^}]*)\}", re.M)
TOKEN = re.compile(r"[^\s(){}\[\],;.«»λ∥:=|]+")
DECLARED = re.compile(r"^\s*(?:(?:abbrev|unfoldable|pub) )*(?:(?:data|record|ruleset) )?([^\s:(){}]+)(?: [({][^:]*:[^:]*[)}])* :\s*(.*)$")
HEADED = re.compile(r"^\s*(?:pub )?(?:record|data) ([^\s:(){}]+)")
LISTED = re.compile(r"^\s+((?:[^\s:(){}=]+ )+):\s")
SOURCE = re.compile(r"\b[A-Za-z][A-Za-z0-9]*(?:_[A-Za-z0-9]+)+\b")
MADE = ("Answers.antt", "Invariants.antt")


def read(path):
    with open(path, encoding="utf-8") as f:
        return f.read()


def write(path, text):
    with open(path, "w", encoding="utf-8") as f:
        f.write(text)


def files(ending):
    for folder, dirs, names in os.walk(ROOT):
        dirs[:] = sorted(d for d in dirs if d != "out")
        for name in sorted(names):
            if name.endswith(ending):
                yield os.path.join(folder, name)


def respelled(name):
    if name[0].isupper():
        name = "".join(part[:1].upper() + part[1:] for part in name.split("-"))
    return name.replace("-", "_").replace("′", "'")


def library_names():
    names = set()
    for path in list(files(".antt")) + list(files(".rt")):
        for m in LIBRARY.finditer(read(path)):
            names |= {n.strip().split(" as ")[0] for n in m.group(2).split(",")}
    return names


def declared_names():
    names = set()
    for path in files(".antt"):
        for line in read(path).split("\n"):
            m = DECLARED.match(line)
            if m and not m.group(2).startswith("goal."):
                names.add(m.group(1))
            m = HEADED.match(line)
            if m:
                names.add(m.group(1))
            m = LISTED.match(line)
            if m:
                names |= set(m.group(1).split())
    return {n for n in names if "-" in n or "′" in n}


def source_names():
    """Names of src/ by the spelling that an older Rattle gave them in proof files."""
    names = {}
    for path in files(".rt"):
        for name in SOURCE.findall(read(path)):
            names[name.replace("_", "-")] = name
    return names


def in_answers(token, ours, source):
    if token in ours:
        return respelled(token)
    if token in source:
        return source[token]
    parts, out, i = token.split("-"), [], 0
    while i < len(parts):
        for j in range(len(parts), i + 1, -1):
            word = "-".join(parts[i:j])
            if word in source:
                out.append(source[word])
                i = j
                break
        else:
            out.append(parts[i])
            i += 1
    return "-".join(out)


def split_comment(line):
    at = line.find("--")
    return (line, "") if at < 0 else (line[:at], line[at:])


def main():
    if not os.path.isdir(ROOT):
        sys.exit("respell: no folder crates here")
    library, ours, source = library_names(), declared_names(), source_names()
    ours -= library
    together = {}
    for name in ours:
        together.setdefault(respelled(name), []).append(name)
    for new, old in together.items():
        if len(old) > 1 or new in library:
            print(f"look: {', '.join(sorted(old))} fall together as {new}")

    def turn(text, rule):
        lines = []
        for line in text.split("\n"):
            code, comment = split_comment(line)
            pieces = re.split(r'("[^"]*")', code)
            pieces = [p if p.startswith('"') else TOKEN.sub(lambda m: rule(m.group(0)), p) for p in pieces]
            comment = re.sub(r"`([^`]+)`", lambda m: "`" + TOKEN.sub(lambda n: respelled(n.group(0)) if n.group(0) in ours else n.group(0), m.group(1)) + "`", comment)
            lines.append("".join(pieces) + comment)
        return "\n".join(lines)

    def is_name(token):
        return len(token) > 1 and not token.startswith("-") and "◌" not in token and token not in library and ("-" in token or "′" in token) and token[0].isalpha()

    changed = 0
    for path in list(files(".antt")):
        old = read(path)
        if path.endswith(MADE):
            new = turn(old, lambda t: in_answers(t, ours, source) if is_name(t) else t)
        else:
            new = turn(old, lambda t: respelled(t) if is_name(t) else t)
        if new != old:
            write(path, new)
            changed += 1
        folder, name = os.path.split(path)
        if "-" in name[:-5] and not path.endswith(MADE):
            os.rename(path, os.path.join(folder, respelled(name[:-5]) + ".antt"))
    for path in list(files(".rt")):
        old = read(path)
        new = "\n".join(
            line if line.lstrip().startswith("//") else TOKEN.sub(lambda m: respelled(m.group(0)) if m.group(0) in ours else m.group(0), line)
            for line in old.split("\n"))
        if new != old:
            write(path, new)
            changed += 1
    pages = ["README.md"] + [os.path.join("docs", n) for n in sorted(os.listdir("docs")) if n.endswith(".md")]
    for path in pages:
        old = read(path)
        new = re.sub(r"`([^`\n]+)`", lambda m: "`" + TOKEN.sub(lambda n: respelled(n.group(0)) if n.group(0) in ours else n.group(0), m.group(1)) + "`", old)
        if new != old:
            write(path, new)
            changed += 1
    print(f"respell: {len(ours)} names of ours, {changed} files changed")


main()
