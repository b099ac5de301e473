#!/usr/bin/env python3
"""Lists the places in src/ that docs/DESIGN-PASS.md counts, point by point, with file and line.

    tools/places.py            the working tree
    tools/places.py COMMIT     that commit

It goes by text: what it lists is to be read, and what only reading finds is in the page.
"""
import collections
import re
import subprocess
import sys
from pathlib import Path


def sources(commit):
    """Each file of src/ by its short name (crate/path), with its text."""
    if commit:
        names = subprocess.check_output(["git", "ls-tree", "-r", "--name-only", commit], text=True).split()
        for name in names:
            if re.match(r"crates/[^/]+/src/.*\.rt$", name):
                yield name[7:].replace("/src/", "/"), subprocess.check_output(["git", "show", f"{commit}:{name}"], text=True)
    else:
        for path in sorted(Path("crates").glob("*/src/**/*.rt")):
            yield str(path)[7:].replace("/src/", "/"), path.read_text()


def functions(text):
    """Each function: its line, its name, its head up to the body, and its body."""
    for match in re.finditer(r"^( *)(?:pub(?:\(crate\))? )?(?:const )?fn (\w+)", text, re.M):
        indent = match.group(1)
        end = re.search(rf"^{indent}\}}$|;$", text[match.start():], re.M)
        whole = text[match.start():match.start() + end.end()] if end else ""
        cut = whole.find("\n" + indent + "{\n")
        if cut < 0:
            cut = whole.find("{\n")
        yield text.count("\n", 0, match.start()) + 1, match.group(2), whole[:cut], whole[cut:] if cut >= 0 else ""


def show(title, places):
    print(f"{title}: {len(places)}")
    for place in places:
        print("   ", place)


def lines_with(files, pattern):
    return [f"{name}:{number}: {line.strip()}" for name, text in files for number, line in enumerate(text.split("\n"), 1)
            if re.search(pattern, line) and not line.strip().startswith("//")]


def twins(files):
    """Functions whose bodies have the same form once names, numbers and texts are taken out."""
    forms = collections.defaultdict(list)
    for name, text in files:
        for line, function, head, body in functions(text):
            form = re.sub(r'b?"[^"]*"|\b\d\w*\b|\b[A-Za-z_]\w*\b', "_", re.sub(r"//.*", "", body))
            form = re.sub(r"\s+", "", form)
            if len(form) > 12:
                forms[form].append(f"{name}:{line} {function}")
    return [", ".join(places) for places in forms.values() if len(places) > 1]


def facts(files):
    """Clauses with the same text in three functions or more."""
    found = collections.defaultdict(set)
    for name, text in files:
        for line, function, head, body in functions(text):
            for clause in re.findall(r"(?:requires|ensures)(?: \w+)? \{ (.*) \}", head):
                found[re.sub(r"\.(old|new|now|entry)\b", "", clause)].add(f"{name} {function}")
    return [f"{clause}: {', '.join(sorted(places))}" for clause, places in found.items() if len(places) > 2]


def companions(files):
    """Two parameters with the same names and types in three functions or more of one crate."""
    found = collections.defaultdict(set)
    for name, text in files:
        for line, function, head, body in functions(text):
            inside = re.search(r"\((.*?)\)\s*(?:->|\n|$)", head, re.S)
            parts = sorted(re.sub(r"\s+|\bmut\b(?=\w+:)", "", p) for p in inside.group(1).split(",")) if inside else []
            parts = [p for p in parts if ":" in p and "HostRuntime" not in p]
            for i, first in enumerate(parts):
                for second in parts[i + 1:]:
                    found[name.split("/")[0], first, second].add(function)
    return [f"{crate}: {first}, {second}: {', '.join(sorted(names))}" for (crate, first, second), names in found.items() if len(names) > 2]


def counted_buffers(files):
    """Structs with a row or an array and a number beside it."""
    found = []
    for name, text in files:
        for struct in re.finditer(r"struct (\w+)[^{;]*\{(.*?)\n\}", text, re.S):
            fields = re.sub(r"ghost .*|//.*", "", struct.group(2))
            if re.search(r": (&'a mut )?\[", fields) and re.search(r": (usize|u8),", fields):
                rows = re.findall(r"(\w+): (?:&'a mut )?\[", fields)
                found.append(f"{name} {struct.group(1)}: {', '.join(rows)}")
    return found


def main():
    files = list(sources(sys.argv[1] if len(sys.argv) > 1 else None))
    show("1. own enums", lines_with(files, r"^\s*(pub(\(crate\))? )?enum "))
    show("1. an error handed on by hand, or told by an Option", lines_with(files, r"Err\((stop|flaw|e)\) => (return )?Err\(|-> Option<Flaw>|if let Err\(\w+\) = "))
    show("1. numbers of refusals and kinds, one by one", lines_with(files, r"^\s*\S+::\w+(\(_\))? => \d+,$|^\s*\d => Some\("))
    show("2. functions of one form", twins(files))
    show("3. loops that count", lines_with(files, r"for \w+ in [^{]*\.\.|for \(\w+, \w+\) in .*enumerate|while |\bloop \{"))
    show("3. loops that stop or sum over the elements of a row", lines_with(files, r"for \w+ in &?[a-z_.]+ \{"))
    show("4. equality by codes, conversions and texts of values", lines_with(files, r"\.code\(\) == |fn (code|from_code|no_packet|to_\w+|\w+_text|\w+_letter|\w+_name|yes_or_no|push_number)\b|number: \w+\.number\(\)"))
    show("5. facts in three contracts or more", facts(files))
    show("5. parameters that travel together", companions(files))
    show("6. rows and arrays with a number beside them", counted_buffers(files))
    show("7. switches on which step to run", lines_with(files, r"match (fault|step|kind|mode|action)\b"))


main()
