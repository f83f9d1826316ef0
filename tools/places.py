#!/usr/bin/env python3
"""Counts the places of src/ and proofs/ that may be written in a plainer form.

usage: tools/places.py [--list] [ROOT]

A count is of candidates, found by the text alone: which of them stay, and why, is for a reader to say.
"""

import collections
import itertools
import pathlib
import re
import sys

LIST = "--list" in sys.argv
PLACES = [a for a in sys.argv[1:] if not a.startswith("--")]
ROOT = pathlib.Path(PLACES[0] if PLACES else pathlib.Path(__file__).resolve().parent.parent)

SOURCES = {p: p.read_text() for p in sorted(ROOT.glob("crates/*/src/**/*.rt"))}
ANSWERS = {p: p.read_text() for p in sorted(ROOT.glob("crates/*/proofs/**/*.antt"))}


def where(path, text, at):
    return f"{path.relative_to(ROOT)}:{text.count(chr(10), 0, at) + 1}"


def show(name, found):
    print(f"{len(found):4}  {name}")
    if LIST:
        for place in found:
            print(f"          {place}")


def grep(name, pattern, files=SOURCES):
    found = []
    for path, text in files.items():
        for m in re.finditer(pattern, text, re.M):
            found.append(f"{where(path, text, m.start())}: {' '.join(m.group(0).split())}")
    show(name, found)


FUNCTION = re.compile(r"^[ \t]*(?:pub(?:\(crate\))? )?fn (\w+)", re.M)


def close(text, at, opens, closes):
    depth = 0
    for i in range(at, len(text)):
        depth += (text[i] in opens) - (text[i] in closes)
        if depth == 0 and text[i] in closes:
            return i + 1
    return len(text)


def functions():
    """Each function as (place, name, parameters, clauses, body)."""
    for path, text in SOURCES.items():
        for m in FUNCTION.finditer(text):
            opened = text.index("(", m.end())
            end = close(text, opened, "(", ")")
            parameters = [" ".join(p.split()) for p in re.split(r",(?![^<\[(]*[>\])])", text[opened + 1:end - 1]) if p.strip()]
            clauses, at = [], end
            while True:
                c = re.compile(r"\s*(?:->[^{;]*?)?\s*(requires|ensures)\*?\s*(\w*)\s*\{").match(text, at)
                if not c:
                    break
                at = close(text, c.end() - 1, "{", "}")
                clauses.append((c.group(1), " ".join(text[c.end():at - 1].split())))
            b = re.compile(r"[^{;]*([{;])").match(text, at)
            body = "" if not b or b.group(1) == ";" else text[b.end() - 1:close(text, b.end() - 1, "{", "}")]
            yield where(path, text, m.start()), m.group(1), parameters, clauses, body


KEEP = set("if else match for in while loop return let mut Ok Err Some None true false self Self as".split())


def shape(body):
    body = re.sub(r"//.*", "", body)
    out = []
    for t in re.findall(r"b?\"[^\"]*\"|b?'[^']*'|\w+|[^\s\w]", body):
        out.append(t if t in KEEP or not re.match(r"[\w\"']", t) else "x")
    return " ".join(out)


def twins():
    alike = collections.defaultdict(list)
    for place, name, _, _, body in functions():
        if "tests" not in place and len(shape(body).split()) >= 12:
            alike[shape(body)].append(f"{place} {name}")
    show("2. groups of functions outside tests whose bodies have one shape", [", ".join(v) for v in alike.values() if len(v) > 1])
    same = collections.defaultdict(list)
    for path, text in SOURCES.items():
        lines = [(i, " ".join(l.split())) for i, l in enumerate(text.split("\n"), 1) if len(l.strip()) > 1 and not re.match(r"\s*(//|use|ghost use|ghost \w+ = \{ Prim)", l)]
        for w in range(len(lines) - 7):
            same["\n".join(l for _, l in lines[w:w + 8])].append(f"{path.relative_to(ROOT)}:{lines[w][0]}")
    pairs = collections.defaultdict(list)
    for v in same.values():
        for a, b in itertools.combinations(v, 2):
            pairs[(a.split(":")[0], b.split(":")[0])].append(f"{a} ~ {b}")
    show("2. pairs of files that share a run of eight lines, or one file with itself", [f"{v[0]} ({len(v)} runs)" for v in pairs.values()])


def together():
    clauses, groups = collections.defaultdict(list), collections.defaultdict(list)
    for place, name, parameters, cs, _ in functions():
        for c in set(cs):
            if len(c[1]) > 12:
                clauses[c].append(f"{place} {name}")
        ps = [p for p in parameters if ":" in p and not p.startswith(("&self", "self"))]
        for n in (2, 3):
            for g in itertools.combinations(sorted(ps), n):
                groups[g].append(f"{place} {name}")
    show("5. clauses that stand to the letter in three or more functions", [f"{k[0]} {k[1]}: {', '.join(v)}" for k, v in clauses.items() if len(v) > 2])
    show("5. pairs and threes of parameters that stand together in four or more functions", [f"{'; '.join(k)}: {len(v)}" for k, v in groups.items() if len(v) > 3])


grep("1. own enums", r"^\s*(pub(\(crate\))? )?enum \w+")
grep("1. refusals handed on by hand", r"(Err\(_?\w*\) => \{?\s*(return )?(Ok\()?(Some\()?Err\(\w|Some\(why\) => |if let Some\(why\) =|let Some\([^=]*\) = [^;]* else \{\s*return Err\()")
grep("1. results that are a bare byte", r"-> u8\b")
twins()
grep("3. while and loop", r"^\s*(while|loop)\b[^{]*")
grep("3. for over a range of numbers", r"^\s*for [^{]* in [^{]*\.\.[^{]*")
grep("3. for over elements that only looks for one", r"^\s*for [^{]* in [^{.]*(\.iter\(\)[^{.]*(\.\w+\([^{]*\))?)?\{\s*if [^{]*\{\s*return\b")
grep("4. order, conversion, naming and printing as functions", r"fn (eq|cmp|precedes|meaning|number|clone|default|fmt|from\w*|into\w*|to_\w+|\w+_of|or_zero|say\w*)\b[^{;]*")
grep("4. casts", r"\w[\w.()]* as [ui]\w+")
together()
grep("6. arrays in types and their making", r"\[[\w{}:, ]+; [\w* ]+\]")
grep("7. closures, function pointers and trait objects", r"(\bdyn \w+|impl Fn\w*|: fn\(|Box<)")
grep("7. matches on what to do next", r"match (call|command|opening|source|kind|step)\b")
grep("8. answers", r"^pub (returns|overflow|loop|bounds|l\.|[\w-]+) : goal\.", {p: t for p, t in ANSWERS.items() if p.name == "Answers.antt"})
print(f"{sum(t.count(chr(10)) for p, t in ANSWERS.items() if p.name == 'Answers.antt'):4}  8. lines of answers")
print(f"{sum(t.count(chr(10)) for p, t in ANSWERS.items()):4}  8. lines of all proofs")
