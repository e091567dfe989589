#!/usr/bin/env python3
"""Brings the repository's own names to the spelling of today's Rattle: functions, lemmas, fields and variables in snake case; a dash joins two
names and `_` adds a plain word; no middle dot. Run once, at the top of the repository, after the kit's port.py. It goes by text.

usage: tools/respell.py [--dry]     writes crates/, docs/, README.md and tests/ in place; --dry lists the names alone
"""

import os
import re
import sys

ROOT = os.path.dirname(os.path.dirname(os.path.abspath(__file__)))
PART = r"[A-Za-z0-9_'µμ₀-₉]+"
NAME = re.compile(r"(?<![A-Za-z0-9_'’·\-µμ₀-₉<>≤≡+*→∷=])[A-Za-zµμ][A-Za-z0-9_'µμ₀-₉]*(?:[-·+]?[A-Za-z0-9_'µμ₀-₉]+)*")
# a name as it stands in a text: parts joined by - or ·
TOKEN = re.compile(r"[A-Za-zµμ_][A-Za-z0-9_'µμ₀-₉]*(?:[-·]+[A-Za-z0-9_'µμ₀-₉≤<=≡+*→∷∙]+)*")
OWN = re.compile(r"^\s*(?:ghost )?use Rattle\.(\w+)\.")
DECLARED = re.compile(r"^(?:(?:unfoldable|abbrev|pub|mutual)\s+)*(?:data\s+|record\s+)?([^\s:(){}]+)\s*(?:[({].*)?:(?:\s|$)")
# plain words of std that lemma names join with a dash, beside the repository's own definitions
STD = set("length take drop append reverse map replicate get_or set sum elim replicate".split())


def files(*tops, ends):
    for top in tops:
        for folder, dirs, names in os.walk(os.path.join(ROOT, top)):
            dirs[:] = sorted(d for d in dirs if d not in ("out", "target", ".git", "__pycache__"))
            for n in sorted(names):
                if n.endswith(ends):
                    yield os.path.join(folder, n)


def read(p):
    with open(p, encoding="utf-8") as f:
        return f.read()


def snake(word):
    """camelCase to camel_case; a word that begins with a capital stays."""
    if not word or not (word[0].islower() or word[0] == "_"):
        return word
    word = re.sub(r"(?<=[a-z0-9'])([A-Z]+)(?![a-z])", lambda m: "_" + m.group(1).lower(), word)
    return re.sub(r"(?<=[a-z0-9'])([A-Z])", lambda m: "_" + m.group(1).lower(), word).lower()


crates = [l.split(":")[0].split()[0] for l in read(os.path.join(ROOT, "crates.txt")).splitlines() if ":" in l and not l.startswith("#")]
shared, local, outside, camel = {}, set(), set(), set()
functions = set()
for p in files("crates", ends=".antt"):
    rel = os.path.relpath(p, os.path.join(ROOT, "crates")).split(os.sep)
    inner = rel[1] == "proofs" and len(rel) > 3
    for line in read(p).splitlines():
        bare = line.split("--")[0] if line.lstrip().startswith("--") else line
        if not bare.strip():
            continue
        m = OWN.match(bare)
        if bare.startswith("use "):
            own = m and m.group(1) in crates
            for w in re.findall(r"[^\s{},]+", bare[bare.find("{") :] if "{" in bare else ""):
                if not own:
                    outside.add(w)
            continue
        if not line[0].isspace():
            m = DECLARED.match(bare)
            if m and not re.search(r":\s*(tie|goal)\.", bare):
                (local.add if inner else shared.setdefault)(*([m.group(1)] if inner else [m.group(1), rel]))
        camel.update(w for w in re.findall(r"(?<![\w'’·\-.])[a-z][A-Za-z0-9_']*(?![\w'·-])", bare) if re.search(r"[a-z0-9'][A-Z]", w))
for p in files("crates", ends=".rt"):
    functions.update(re.findall(r"\bfn (\w+)", read(p)))
    for line in read(p).splitlines():
        m = OWN.match(line)
        if line.startswith("ghost use ") and not (m and m.group(1) in crates):
            outside.update(re.findall(r"[^\s{},;]+", line[line.find("{") :]))

outside -= {"as"}
camel = {w for w in camel if w not in outside and not re.match(r"[bx]'|x[0-9A-F]+$|0x", w)}
camel |= {n for n in shared if re.fullmatch(r"[a-z]\w*", n) and re.search(r"[a-z0-9'][A-Z]", n) and n not in outside}
known = {snake(n) for n in shared if re.fullmatch(r"[A-Za-z][A-Za-z0-9_']*", n)} | STD | functions


def dashes(name):
    """A hyphenated lemma's name: names that are known joined by a dash, plain words added with _."""
    if "·" in name:
        head, tail = name.split("·", 1)
        if head[0].isupper():
            return snake(head[0].lower() + head[1:]) + "_" + snake(tail.replace("-", "_"))
        return head.replace("-", "_") + "-" + snake(tail.replace("-", "_").replace("·", "_"))
    parts = [snake(w) for w in name.split("-")]
    if not all(re.fullmatch(r"[A-Za-z0-9_'µμ₀-₉]+", w) for w in parts):
        return name
    out, i, was = "", 0, False
    while i < len(parts):
        j = next((j for j in range(len(parts), i, -1) if "_".join(parts[i:j]) in known), None)
        word, is_known = ("_".join(parts[i:j]), True) if j else (parts[i], False)
        out += ("" if not out else "-" if was and is_known else "_") + word
        was, i = is_known, j or i + 1
    return out


new = {}
for n in sorted(camel):
    new[n] = snake(n)
for n in sorted(set(shared) | local):
    if "-" in n or "·" in n:
        if n in outside or re.match(r"(returns|loop-|add-one$)", n) and n in local or n.endswith("-spec"):
            continue
        new[n] = dashes(n)
for p in files("crates", ends=(".antt", ".rt")):  # aliases and imports with a middle dot
    for m in re.findall(r"[A-Za-z_][A-Za-z_-]*·[A-Za-z_·-]+", re.sub(r"(--|//).*", "", read(p))):
        if not m.startswith("Rattle"):
            new.setdefault(m, dashes(m))
new = {a: b for a, b in new.items() if a != b}

# where a lemma would have a definition's name, it gets _lem
taken, lemmas = {}, {}
for n in set(shared) | local | camel:
    taken.setdefault(new.get(n, n), set()).add(n)
together = {b: a for b, a in taken.items() if len(a) > 1}
for b, olds in sorted(together.items()):
    firsts = [o for o in sorted(olds) if o in camel] or [o for o in sorted(olds) if "-" not in o] or sorted(olds)[:1]
    for o in sorted(olds - set(firsts[:1])):
        if "-" in o or "·" in o:
            new[o] = b + "_lem"
        elif o in shared and "proofs" in shared[o]:
            lemmas[o] = b + "_lem"
new = {a: b for a, b in new.items() if a != b}
if "--dry" in sys.argv:
    for b, a in sorted(together.items()):
        print("together:", b, [(x, shared.get(x), x in local, x in functions, new.get(x), lemmas.get(x)) for x in sorted(a)])
    for a, b in sorted(new.items()):
        print(a, b)
    raise SystemExit


def respell(text, code):
    def put(m):
        w = m.group(0)
        before = text[max(0, m.start() - 1) : m.start()]
        if code and w in lemmas and before != ".":
            return lemmas[w]
        if w not in new:
            return w
        if before in ("'", "/", "-", "·") or before == "." and not w_is_camel(w):
            return w
        return new[w]

    return TOKEN.sub(put, text)


def w_is_camel(w):
    return w in camel


n = 0
for p in list(files("crates", ends=(".antt", ".rt", ".edit"))) + list(files("docs", ends=".md")) + [os.path.join(ROOT, "README.md")]:
    t = read(p)
    if p.endswith((".antt", ".rt", ".edit")):
        u = respell(t, p.endswith(".antt"))
    else:  # in a page only what stands between backquotes
        u = re.sub(r"`[^`\n]*`", lambda m: respell(m.group(0), False), t)
    if u != t:
        n += 1
        with open(p, "w", encoding="utf-8") as f:
            f.write(u)
print(f"respelled {len(new)} names in {n} files")
