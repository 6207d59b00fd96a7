#!/usr/bin/env python3
"""Counts places of the older language's forms in crates/*/src of a commit: forms.py [--list FORM] [COMMIT]

Without a commit it reads HEAD. Each form is a pattern over lines of source; --list prints the lines that one form
matches. What a line of a form is, is judged by hand: docs/DESIGN-PASS.md says what became of each.
"""
import re
import subprocess
import sys

FORMS = [
    # 1: Option and Result by another name, flags with a value beside them, numbers for kinds
    ("own-enums", r"^(pub(\(crate\))? )?enum "),
    ("none-arms", r"None => None|None => return None"),
    ("flags", r"^    (pub )?[a-z_]+: bool,$"),
    ("codes", r"fn [a-z_]*code[a-z_]*\(|\b_code\("),
    # 2: twins, found by their names
    ("twin-names", r"fn [a-z_]+_(one|two|first|second|near|far|left|right|a|b)\("),
    # 3: loops that count an index
    ("labelled-loops", r"^ *'[a-z_]+: (for|while|loop)"),
    ("range-loops", r"for [a-z_]+ in [^{]*\.\."),
    ("while-loops", r"^ *('[a-z_]+: )?while "),
    # 4: equality, order, copying, conversion and printing by hand
    ("by-hand", r"fn (same|equal|is_same|eq|cmp|fmt|from_[a-z_]+|to_[a-z_]+)[a-z_]*\("),
    ("derives", r"#\[derive\("),
    # 5: facts that stand in many contracts, parameters that travel together
    ("requires", r"^ *requires "),
    ("program-and-map", r"^ *(p|program): &\[u32\],|map: &(mut )?Map"),
    ("records-and-lines", r"(processes|lines|ready): &(mut )?\[u32\]"),
    # 6: buffers with a length beside them, arrays beside each other, places computed by hand
    ("fixed-buffers", r": \[[a-zA-Z0-9_]+; [A-Za-z0-9_]+\]"),
    ("offsets", r"\b(64|2) \* [a-z]|\b[a-z_]+ \* (64|2)\b"),
    # 7: switches on a step, tables of functions
    ("function-values", r"\bdyn |: fn\(|Box<"),
]


def lines(commit):
    names = subprocess.run(
        ["git", "ls-tree", "-r", "--name-only", commit, "crates"],
        capture_output=True, text=True, check=True).stdout.split()
    for name in names:
        if re.search(r"^crates/[^/]+/src/.*\.rt$", name):
            text = subprocess.run(["git", "show", f"{commit}:{name}"], capture_output=True, text=True, check=True).stdout
            for number, line in enumerate(text.splitlines(), 1):
                if not line.lstrip().startswith("//"):
                    yield name, number, line


def main():
    words = sys.argv[1:]
    wanted = None
    if words[:1] == ["--list"]:
        wanted, words = words[1], words[2:]
    commit = words[0] if words else "HEAD"
    found = {form: [] for form, _ in FORMS}
    for name, number, line in lines(commit):
        for form, pattern in FORMS:
            if re.search(pattern, line):
                found[form].append(f"{name}:{number}: {line.strip()}")
    if wanted:
        print("\n".join(found[wanted]))
        return
    for form, places in found.items():
        print(f"{form:18} {len(places)}")


main()
