#!/usr/bin/env python3
"""Respells the names of definitions and lemmas as the library spells its own.

usage: python3 tools/respell.py [--list]      at the top of the repository

A word is in snake case (first-row, rowE: first_row, row_e), a type in upper camel case (Never-jams: NeverJams). Respelled are
the names that specs/ and proofs/ declare: definitions, lemmas, records with their fields, data with their constructors; and in
files other than answers what is bound there. Functions of src/, strings, inputs and outputs, names of the library, and names that
the check makes of the code (goals, steps) stay as they are.
With --list nothing is written, and each name is printed with its new spelling. Names that fall together are named on standard error.
"""

import os
import re
import sys

WORD = r"[^\s(){}\[\].,;:λ«»@|`]+"
DECLARED = re.compile(r"(?:abbrev |unfoldable |opaque )?(?:pub )?(?:abbrev |unfoldable )?(?:data |record |ruleset )?(" + WORD + r")(?: [^:=]*)? : (.*)$")
NAMED = re.compile(r"(?:pub )?(?:abbrev )?(?:pub )?(?:data|record|ruleset) (" + WORD + r")")
MEMBER = re.compile(r"  +(?:\| )?(?:pub )?(" + WORD + r") : ")
TOKEN = re.compile(r"[^\s(){}\[\],;`\"]+")
# what a path begins with that the check makes: the goals, what is known at a goal, live variables, a branch
MADE = ("goal", "c", "l", "w")
DASHED = re.compile(r"[A-Za-z][A-Za-z0-9_'?]*(-[A-Za-z0-9_'?]+)+")
# names that would be another name of the same file, or say little
SPECIAL = {"getD-nth": "get_or_nth", "getD-zeros": "get_or_zeros", "No-program": "NotAProgram", "Holds-end": "HoldsAnEnd"}


def files(*ends):
    for folder, dirs, names in os.walk("crates"):
        dirs[:] = sorted(d for d in dirs if d != "data" and not (d == "out" and folder.count(os.sep) == 1))
        for name in sorted(names):
            if name.endswith(ends):
                yield os.path.join(folder, name)


def read(path):
    with open(path, encoding="utf-8") as f:
        return f.read()


def declared():
    """The names that the repository declares, each with the files that do."""
    found = {}
    for path in files(".antt"):
        for line in read(path).splitlines():
            if line.startswith(("use ", "--")):
                continue
            m = None
            if not line.startswith(" "):
                m = DECLARED.match(line)
                if m and m.group(2).startswith("goal."):
                    continue
                m = m or NAMED.match(line)
            else:
                m = MEMBER.match(line)
            if m:
                found.setdefault(m.group(1), set()).add(path)
    return found


def respelled(name):
    if name in SPECIAL:
        return SPECIAL[name]
    name = name.replace("′", "'")
    if name[0].isupper() and len(name.split("-")[0]) > 1:
        return "".join(p[:1].upper() + p[1:] for p in name.split("-"))
    name = re.sub(r"(?<=[a-z0-9])([A-Z])", r"_\1", name)
    return name.replace("-", "_").lower()


def wanted(name):
    return bool(re.fullmatch(r"[A-Za-z0-9_'′?-]+", name)) and ("-" in name or "′" in name or (name[0].islower() and re.search(r"[a-z0-9][A-Z]", name)))


def turned(names, token, answers, foreign):
    """A token with each part of its path respelled, but for what the check made and what another library declares."""
    parts = token.split(".")
    for i, part in enumerate(parts):
        if i == 1 and parts[0] in MADE and answers:
            continue
        if part in names:
            parts[i] = names[part]
        elif not answers and part not in foreign and DASHED.fullmatch(part):
            parts[i] = respelled(part)
    return ".".join(parts)


def foreign_names(text):
    """The names that a file imports from a library, or from what the check makes."""
    found = set()
    for path, names in re.findall(r"^use ([^\s{]+?)\.?\{([^}]*)\}", text, re.M):
        own = re.match(r"Rattle\.(\w+)\.", path)
        if own and os.path.isdir(os.path.join("crates", own.group(1))) and not re.search(r"\.(declared|contracts|Goals|Given|Choices|Lts)\b", path):
            continue
        found |= {n.strip().split(" as ")[0] for n in names.split(",")}
    return found


def turn_code(names, text, comment, types, answers=True):
    lines = []
    foreign = set() if answers else foreign_names(text)
    for line in text.split("\n"):
        code, mark, said = line, "", ""
        at = re.search(comment, line)
        if at:
            code, mark, said = line[: at.start()], at.group(0), line[at.end():]
        code = "".join(t if t.startswith('"') else TOKEN.sub(lambda m: turned(names, m.group(0), answers, foreign), t) for t in re.split(r'("(?:[^"\\]|\\.)*")', code))
        said = re.sub(r"[A-Za-z][A-Za-z0-9'-]*", lambda m: types.get(m.group(0), m.group(0)), said)
        lines.append(code + mark + said)
    return "\n".join(lines)


def main(argv):
    found = declared()
    names = {n: respelled(n) for n in found if wanted(n)}
    names = {n: r for n, r in names.items() if n != r}
    if argv == ["--list"]:
        for n in sorted(names):
            print(n, names[n])
    # names that fall together: two that are respelled alike, or one that is respelled as another that stands
    together = {}
    for n in found:
        together.setdefault(names.get(n, n), set()).add(n)
    clash = {r: ns for r, ns in together.items() if len(ns) > 1}
    for r, ns in sorted(clash.items()):
        print("together:", r, *sorted(ns), *sorted(p for n in ns for p in found[n]), file=sys.stderr)
    if argv == ["--list"]:
        return 0
    types = {n: r for n, r in names.items() if n[0].isupper()}
    for path in files(".antt"):
        old = read(path)
        new = turn_code(names, old, r"--(?= |$)", types, path.endswith(("Answers.antt", "Invariants.antt")))
        if new != old:
            with open(path, "w", encoding="utf-8") as f:
                f.write(new)
    for path in files(".rt", ".edit"):
        old = read(path)
        new = turn_source(names, old, types, path.endswith(".edit"))
        if new != old:
            with open(path, "w", encoding="utf-8") as f:
                f.write(new)
    return 0


def turn_source(names, text, types, edit):
    """In a source only ghost lines, clauses and comments speak of these names."""
    lines = []
    depth = 0
    for line in text.split("\n"):
        bare = re.sub(r"^(?:old|new): ", "", line) if edit else line
        start = re.match(r"\s*(?:pub )?(?:ghost|requires|ensures)\b", bare)
        if start or depth:
            line = turn_code(names, line, r"//", types)
            depth = depth + bare.count("{") - bare.count("}") if start or depth else 0
            depth = max(depth, 0)
        else:
            at = line.find("//")
            if at >= 0:
                line = line[:at] + re.sub(r"[A-Za-z][A-Za-z0-9'-]*", lambda m: types.get(m.group(0), m.group(0)), line[at:])
        lines.append(line)
    return "\n".join(lines)


if __name__ == "__main__":
    raise SystemExit(main(sys.argv[1:]))
