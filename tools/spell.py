#!/usr/bin/env python3
"""Gives the repository's own names of specs/ and proofs/ today's spelling: snake case for all but types and modules.

usage: python3 tools/spell.py [--say]     at the top of the repository, once, after the kit's port.py

A name of ours in camel or kebab case, as `movedOn` or `earlier-one-way`, is written in snake case wherever it stands in a .antt file, in
the ghost text of a .rt file, in an edit, or between backticks in a page. Where two of ours would fall together, the definition of specs/
has the plain name and the lemma of proofs/ gets `_lem`. Names that a file imports from the kit, names that Rattle makes for a function's
goals, and words of comments stay as they are. With --say nothing is written, and what would change is printed.
"""
import collections
import glob
import os
import re
import sys

LETTER = "A-Za-z0-9_'\\-₀-₉ᴰκ#"
WORD = re.compile(rf"(?<![{LETTER}])[A-Za-z_#][{LETTER}]*")
SIGNATURE = re.compile(
    r"^\s*((?:pub |abbrev |unfoldable |ruleset |data |record |mutual )*)([^\s(){}\[\].,;:=]+(?: +[^\s(){}\[\].,;:=]+)*) +[:=](?:\s+(.*)|)$"
)
USE = re.compile(r"^\s*(?:ghost |pub )*use (\S+?)(?:\.\{(.*)\})?(?: as (\S+?))?;?$")


def snake(name):
    # a type or a module
    if not name[0].islower():
        return name
    name = re.sub(r"(?<=[a-z0-9'])([A-Z])", lambda m: "_" + m.group(1).lower(), name)
    return name.replace("-", "_").lower()


def files(*patterns):
    return sorted(p for pattern in patterns for p in glob.glob(pattern, recursive=True))


def code(line):
    """The line up to its comment."""
    found = re.search(r"(^|\s)--(\s|$)", line)
    return line if not found else line[: found.start()]


def imported(text, crates):
    """The names that a file brings in from outside the repository."""
    names = set()
    for line in text.splitlines():
        found = USE.match(line)
        if not found:
            continue
        path, items, alias = found.groups()
        parts = path.split(".")
        if parts[0] == "Rattle" and len(parts) > 1 and parts[1] in crates and "TheVariants" not in parts:
            continue
        for item in (items or parts[-1]).split(","):
            names.add(item.split(" as ")[-1].strip())
        if alias:
            names.add(alias)
    return names


def made(text):
    """The names of a function's goals in a file of its proof: Rattle makes them."""
    return {m.group(1) for m in re.finditer(r"^(?:pub |abbrev )*(\S+) : (?:tie|goal)\.", text, re.M)}


def declared(crates):
    ours = collections.defaultdict(set)
    for path in files("crates/*/specs/**/*.antt", "crates/*/proofs/**/*.antt"):
        with open(path) as f:
            text = f.read()
        skip = made(text)
        for line in text.splitlines():
            found = SIGNATURE.match(code(line))
            if not found:
                continue
            for name in found.group(2).split():
                if name not in skip and re.fullmatch(rf"[A-Za-z_#][{LETTER}]*", name):
                    ours[name].add(path)
    return ours


def below():
    """Each crate with the crates that it stands on, itself among them."""
    uses = {}
    with open("crates.txt") as f:
        for line in f:
            if ":" in line and not line.startswith("#"):
                name, rest = line.split(":", 1)
                uses[name.split()[0]] = rest.split()

    def all_of(name):
        return {name}.union(*(all_of(u) for u in uses.get(name, [])))

    return {name: all_of(name) for name in uses}


def meet(ours, a, b, under):
    """Whether two names can stand in one file."""
    own = [{p.split("/")[1] for p in ours[name]} for name in (a, b)]
    return any(x in under.get(y, {y}) or y in under.get(x, {x}) for x in own[0] for y in own[1])


def new_names(ours):
    under = below()
    by_new = collections.defaultdict(list)
    for name in ours:
        by_new[snake(name)].append(name)
    names = {}
    for new, olds in by_new.items():
        # the plain name goes to the definition of specs/, and among lemmas to what has it, or has no dash
        olds.sort(key=lambda o: (not any("/specs/" in p for p in ours[o]), o != new, "-" in o))
        for i, old in enumerate(olds):
            to = new + "_lem" if any(meet(ours, old, other, under) for other in olds[:i]) else new
            if to != old:
                names[old] = to
        if len(olds) > 1:
            together.append((new, {o: names.get(o, o) for o in olds}))
    return names


def turned(line, names, skip):
    return WORD.sub(lambda m: m.group(0) if m.group(0) in skip else names.get(m.group(0), m.group(0)), line)


def turn_text(path, text, names, ours, crates):
    lines = []
    if path.endswith(".antt"):
        aliases = {a for a in re.findall(r" as ([a-z][A-Za-z0-9\-]*)", text) if snake(a) != a and snake(a) not in WORD.findall(text)}
        names = names | {a: snake(a) for a in aliases}
        skip = (imported(text, crates) - aliases) | (made(text) if "/proofs/" in path else set())
        for line in text.splitlines(keepends=True):
            kept = code(line)
            comment = re.sub(r"`[^`]*`", lambda m: turned(m.group(0), names, skip), line[len(kept) :])
            lines.append(turned(kept, names, skip) + comment)
    elif path.endswith(".rt"):
        skip = imported(text, crates)
        for line in text.splitlines(keepends=True):
            found = re.search(r"(^|\s)//", line)
            at = found.start() if found else len(line)
            lines.append(turned(line[:at], names, skip) + line[at:])
    elif path.endswith(".edit"):
        for line in text.splitlines(keepends=True):
            lines.append(turned(line, names, set()) if line.startswith(("old:", "new:")) else line)
    else:
        # what port.py has spelled anew stands in the pages as it was
        spelt = set(names.values()) | set(ours)
        old = {w for w in WORD.findall(text) if w not in names and snake(w) != w and snake(w) in spelt}
        names = names | {w: snake(w) for w in old}
        text = re.sub(r"`[^`\n]*`", lambda m: turned(m.group(0), names, set()), text)
        return re.sub(rf"(?<![{LETTER}`])[a-z][a-z\-]*-unique(?![{LETTER}])", lambda m: names.get(m.group(0), m.group(0)), text)
    return "".join(lines)


together = []


def main():
    say = "--say" in sys.argv[1:]
    crates = {os.path.basename(os.path.dirname(p)) for p in glob.glob("crates/*/src")}
    ours = declared(crates)
    names = new_names(ours)
    if say:
        for new, olds in sorted(together):
            print(new, {o: (n, sorted(ours[o])) for o, n in olds.items()})
        return
    changed = 0
    for path in files(
        "crates/*/specs/**/*.antt", "crates/*/proofs/**/*.antt", "crates/*/src/**/*.rt", "crates/*/must-fail/*.edit", "crates/*/more-edits/*.edit", "*.md", "docs/**/*.md"
    ):
        with open(path) as f:
            text = f.read()
        new = turn_text(path, text, names, ours, crates)
        if new != text:
            changed += 1
            with open(path, "w") as f:
                f.write(new)
    print(f"spell: {len(names)} names, {changed} files")
    for new, olds in sorted(together):
        print("spell: together:", new, olds)


main()
