#!/usr/bin/env python3
"""Brings the repository's own definitions and lemmas to snake case, and its own types to camel case.

Run once, at the repository's top, after the toolchain's own port script and before any edit by hand:
    python3 tools/respell.py            rewrites the files in place, and prints each name that it turns
A name is the repository's own where an .antt file declares it: at the head of a line with a type, as a field or a
constructor, in a `where`, or by a `let`. Names that the checker makes (an answer's `goal.NAME`), names that are imported from a
library, and everything in src/ outside `ghost` lines and clauses stay as they are.
"""
import re
from pathlib import Path

NAME = r"[A-Za-z_][\w']*(?:-[\w']+)+"
DECLARED = re.compile(rf"^\s*(?:pub |abbrev |unfoldable |abbrev pub |unfoldable pub |data |record |pub data |pub record )*({NAME})\s*(?::(?!=)|\(|\{{)")
LET = re.compile(rf"\blet ({NAME}) (?::|=)")
LETS = re.compile(rf"^\s*let ({NAME}) ")
BINDER = re.compile(rf"[({{ ]({NAME}) :(?!=)")
GOAL = re.compile(rf"^\s*(?:pub |abbrev |abbrev pub )*({NAME}) : goal\.")
USE = re.compile(r"^\s*(?:pub )?(?:ghost )?use ([\w.«»]+)\.\{(.*)\}")


def new(name):
    if name[0].isupper():
        return "".join(p[0].upper() + p[1:] for p in name.split("-"))
    return name.replace("-", "_")


antt = sorted(p for c in Path("crates").iterdir() for f in ("specs", "proofs") for p in (c / f).rglob("*.antt"))
rt = sorted(p for c in Path("crates").iterdir() for p in (c / "src").rglob("*.rt"))
own, kept, every = {"short-of"}, set(), set()
crates = {c.name for c in Path("crates").iterdir()}
for p in antt + rt:
    for line in p.read_text().split("\n"):
        every |= set(re.findall(r"[A-Za-z_][\w']*", line))
        m = USE.match(line)
        if m:
            parts = m.group(1).split(".")
            ours = parts[0] == "Rattle" and len(parts) > 1 and parts[1] in crates
            made = ours and len(parts) > 2 and parts[2] == "proofs" and parts[-1] in ("Goals", "Given")
            if not ours or made:
                kept |= {n.strip().split(" as ")[0] for n in m.group(2).split(",")}
        m = GOAL.match(line)
        if m:
            kept.add(m.group(1))
for p in antt:
    for line in p.read_text().split("\n"):
        for pattern in (DECLARED, LETS):
            m = pattern.match(line)
            if m:
                own.add(m.group(1))
        own |= set(LET.findall(line)) | set(BINDER.findall(line))
turned = {n: new(n) for n in own - kept}
for n in sorted(turned):
    clash = " (a name of that spelling stands already)" if turned[n] in every else ""
    print(f"{n} -> {turned[n]}{clash}")
TOKEN = re.compile(rf"(?<![\w'\-«])({NAME})(?![\w'\-])")


def turn(text):
    return TOKEN.sub(lambda m: turned.get(m.group(1), m.group(1)), text)


CLAUSE = re.compile(r"^\s*(ghost\b|requires\b|ensures\b)")
for p in antt:
    p.write_text(turn(p.read_text()))
for p in rt:
    out, depth = [], 0
    for line in p.read_text().split("\n"):
        if depth > 0 or CLAUSE.match(line):
            out.append(turn(line))
            depth += line.count("{") - line.count("}")
            depth = max(depth, 0)
        else:
            out.append(line)
    p.write_text("\n".join(out))
