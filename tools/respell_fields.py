#!/usr/bin/env python3
"""Brings the fields of the repository's own antt records to snake case, after tools/respell.py: a field that was given `_lem` there loses it.

usage: tools/respell_fields.py
"""

import os
import re

ROOT = os.path.dirname(os.path.dirname(os.path.abspath(__file__)))
ALL = []
for folder, dirs, names in os.walk(os.path.join(ROOT, "crates")):
    dirs[:] = [d for d in dirs if d != "out"]
    ALL += [os.path.join(folder, n) for n in names if n.endswith((".antt", ".rt"))]
TEXT = {p: open(p, encoding="utf-8").read() for p in ALL}
FIELD = re.compile(r"^\s+(?:pub )?((?:[a-z][A-Za-z0-9_'-]*\s+)*[a-z][A-Za-z0-9_'-]*)\s*:(?:\s|$)")
fields, lems = set(), set()
for p, t in TEXT.items():
    if not p.endswith(".antt"):
        continue
    inside = False
    for line in t.split("\n"):
        if re.match(r"\s*(?:pub |abbrev )*record\s+\S+.*\bwhere", line) or re.match(r"\s*(?:pub )?record\s+\S+", line):
            inside = True
            indent = len(line) - len(line.lstrip())
            continue
        if inside:
            if line.strip() and len(line) - len(line.lstrip()) <= indent:
                inside = False
            else:
                m = FIELD.match(line)
                if m and "=" not in line.split(":")[0]:
                    for w in m.group(1).split():
                        if "-" in w:
                            fields.add(w)
                        if w.endswith("_lem"):
                            lems.add(w)
print(sorted(fields))
print(sorted(lems))
new = {w: w.replace("-", "_") for w in fields} | {w: w[:-4] for w in lems} | {w[:-4].replace("_", "-"): w[:-4] for w in lems}
n = 0
for p, t in TEXT.items():
    if not p.endswith(".antt"):
        continue

    def dot(m):
        return "." + new.get(m.group(1), m.group(1))

    u = re.sub(r"(?<=[A-Za-z0-9_')])\.([a-z][A-Za-z0-9_']*(?:-[A-Za-z0-9_']+)*)", dot, t)
    lines = u.split("\n")
    out = []
    for line in lines:
        if line.startswith("use "):
            out.append(line)
            continue
        # a declaration within a record, or an equation of one
        m = FIELD.match(line)
        if line[:1].isspace() and m and "=" not in line.split(":")[0]:
            head = line[: m.end(1)]
            pre = line[: m.start(1)]
            line = pre + " ".join(new.get(w, w) for w in m.group(1).split()) + line[m.end(1) :]
        line = re.sub(r"(?<=[{; ])([a-z][A-Za-z0-9_']*(?:-[A-Za-z0-9_']+)*)(?= = )", lambda m: new.get(m.group(1), m.group(1)), line) if line[:1].isspace() or "{" in line else line
        out.append(line)
    u = "\n".join(out)
    if u != t:
        n += 1
        open(p, "w", encoding="utf-8").write(u)
print(n, "files")
