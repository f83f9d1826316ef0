#!/usr/bin/env python3
"""Brings the repository's own definitions and lemmas to the kit's spelling: types in camel case, all else in snake case.

A name is renamed where specs/ or proofs/ define it with a dash, and then as a whole word in every .antt file and in the ghost
items and clauses of every .rt file. Names that the kit makes of the code (goals, steps, arms) keep their dashes: a name that a
proof file answers as a goal is left alone. Run it once, at the top, after the kit's own port script.
"""
import os
import re
import sys

WORD = re.compile(r"(?<![\w'-])[A-Za-z_][\w'-]*(?:-[\w'-]+)*")
GENERATED = {"Answers.antt", "Invariants.antt", "Proof.antt", "Choices.antt"}


def sources():
    for folder, folders, names in os.walk("crates"):
        folders[:] = [f for f in folders if f != "out"]
        for name in sorted(names):
            if name.endswith((".antt", ".rt")):
                yield os.path.join(folder, name)


def respelled(name):
    parts = name.split("-")
    if name[0].isupper():
        return "".join(p[:1].upper() + p[1:] for p in parts)
    return "_".join(parts) + ("_lem" if name in {"figures-stand"} else "")


def defined(path, text):
    goals = set(re.findall(r"goal\.([\w'-]+)", text)) if os.path.basename(path) in GENERATED else set()
    for line in text.split("\n"):
        if line.strip().startswith("--"):
            continue
        found = re.match(r"\s*(?:abbrev |unfoldable |pub )*([A-Za-z][\w'-]*) :(?: |$)", line) or re.match(
            r"\s*(?:pub )?(?:record|data|ruleset) ([A-Za-z][\w'-]*)", line
        )
        if found and "-" in found.group(1) and found.group(1) not in goals:
            yield found.group(1)


def main():
    texts = {path: open(path, encoding="utf-8").read() for path in sources()}
    names = {}
    for path, text in texts.items():
        if path.endswith(".antt"):
            for name in defined(path, text):
                names[name] = respelled(name)
    taken = set()
    for path, text in texts.items():
        taken.update(WORD.findall(text))
    clash = {old: new for old, new in names.items() if new in taken}
    if clash:
        print("these fall together with names that stand already:", clash, file=sys.stderr)
    if len(set(names.values())) < len(names):
        print("two names become one", file=sys.stderr)
        return 1

    def turn(found):
        return names.get(found.group(0), found.group(0))

    for path, text in texts.items():
        new = WORD.sub(turn, text)
        if new != text:
            with open(path, "w", encoding="utf-8") as out:
                out.write(new)
    print(len(names), "names")
    return 0


sys.exit(main())
