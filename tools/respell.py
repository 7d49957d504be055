#!/usr/bin/env python3
"""Brings the repository's own definitions and lemmas to one spelling: functions and lemmas in snake case, types and
facts in upper camel case. A dash stays only between two names, as in `length-obligations`.

    python3 tools/respell.py [FOLDER] [--write]

Names are read off specs/ and proofs/ of FOLDER (default: here), and the ghost members of traits off src/; goals keep the
names that the checker gives them, and so does all else that is declared in src/. Without --write it prints the names and what would fall together, and writes nothing.
It runs once, after the kit's own script."""
import re
import sys
from pathlib import Path

WRITE = "--write" in sys.argv
FOLDERS = [a for a in sys.argv[1:] if not a.startswith("--")]
ROOT = Path(FOLDERS[0] if FOLDERS else ".")
STD = {"length", "get_or", "map", "take", "drop", "sum", "sum_by", "append", "set", "reverse", "decimal"}
OLDER = {"getD": "get_or", "sumBy": "sum_by"}
NAME = r"[^\s(){}.,;:\"«»]+"
DECLARED = re.compile(rf"^\s*((?:pub |abbrev |unfoldable |record |data |ruleset )*)({NAME})\s*(?:[({{].*)?:(?![:=])")
TOKEN = re.compile(r"[\w'◌-]+(?:-[\w'◌]+)*")


def snake(word):
    word = OLDER.get(word, word)
    return re.sub(r"(?<=[a-z0-9])([A-Z])", lambda m: "_" + m.group(1), word).lower()


def is_type(name):
    return name[0].isupper()


def declared_names():
    names, own = {}, set()
    for path in sorted(ROOT.glob("crates/*/specs/**/*.antt")) + sorted(ROOT.glob("crates/*/proofs/**/*.antt")):
        inside = path.relative_to(ROOT).parts
        of_function = inside[2] == "proofs" and len(inside) > 4
        if path.name == "Invariants.antt":
            continue
        for line in path.read_text().split("\n"):
            m = DECLARED.match(line)
            if not m or line.lstrip().startswith(("--", "use ", "let ", "pub use", "module")):
                continue
            if of_function and re.search(r":\s*(\(.*\) → )?goal\.", line):
                continue
            if of_function and (line.startswith(" ") or m.group(2).startswith(("returns", "loop-", "ensures-"))):
                continue
            names.setdefault(m.group(2), set()).add(str(path.relative_to(ROOT)))
            if inside[2] == "specs":
                own.add(m.group(2))
    return names, own


def plan():
    names, own = declared_names()
    known = {snake(n) for n in own if "-" not in n} | STD
    new = {}
    for name in names:
        if not re.fullmatch(r"[A-Za-z][\w'-]*", name):
            continue
        parts = name.split("-")
        if is_type(name):
            to = "".join(p[0].upper() + p[1:] for p in parts)
        else:
            parts = [snake(p) for p in parts]
            to = parts[0]
            for left, right in zip(parts, parts[1:]):
                to += ("-" if left in known and right in known else "_") + right
        if to != name:
            new[name] = to
    # a trait's ghost member is a name of clauses too
    for path in ROOT.glob("crates/*/src/**/*.rt"):
        for name in re.findall(r"^\s*ghost ([a-z]+[A-Z]\w*)", path.read_text(), re.M):
            new[name] = snake(name)
            names.setdefault(name, set()).add(str(path.relative_to(ROOT)))
    # a lemma that would have the name of a definition ends in _lem
    for name in list(names):
        to = new.get(name, name)
        if name not in own and (to in own or to in {new.get(n) for n in own}):
            new[name] = to + "_lem"
    return names, new


def respelled(text, new, rust):
    def one(m):
        return new.get(m.group(0), m.group(0))

    if not rust:
        return TOKEN.sub(one, text)
    # in a source file only the ghost lines and the clauses speak of definitions
    out = []
    for line in text.split("\n"):
        s = line.lstrip()
        if s.startswith(("ghost ", "requires", "ensures", "pub ghost ", "///", "//!", "//", "#![tactic", "#[tactic")):
            line = TOKEN.sub(one, line)
        out.append(line)
    return "\n".join(out)


def main():
    names, new = plan()
    files = sorted(ROOT.glob("crates/*/specs/**/*.antt")) + sorted(ROOT.glob("crates/*/proofs/**/*.antt"))
    files += sorted(ROOT.glob("crates/*/src/**/*.rt"))
    files += sorted(ROOT.glob("crates/*/must-fail/*.edit")) + sorted(ROOT.glob("planted/*/*.edit"))
    for name, to in sorted(new.items()):
        print(f"{name} -> {to}")
    taken = {}
    for name, to in new.items():
        taken.setdefault(to, []).append(name)
    for to, froms in sorted(taken.items()):
        if len(froms) > 1 or to in names:
            places = {f: sorted(names[f]) for f in froms + ([to] if to in names else [])}
            print(f"together: {to}: {places}")
    for path in files:
        text = path.read_text()
        tokens = set(TOKEN.findall(text))
        for name in sorted(tokens & set(new)):
            if new[name] in tokens:
                print(f"beside: {path.relative_to(ROOT)}: {name} and {new[name]}")
        if WRITE:
            after = respelled(text, new, path.suffix == ".rt" or path.suffix == ".edit")
            if path.suffix == ".edit":
                after = "\n".join(
                    TOKEN.sub(lambda m: new.get(m.group(0), m.group(0)), line)
                    if "≡" in line or "ghost " in line else line
                    for line in text.split("\n")
                )
            if after != text:
                path.write_text(after)


main()
