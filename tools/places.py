#!/usr/bin/env python3
"""Lists the places in src/ that an older Rattle shaped, point by point: what docs/DESIGN-PASS.md counts.
  tools/places.py           the number of places of each point, and how many of them have a line that says why they stay
  tools/places.py POINT..   the places themselves, as file:line: what
A place that stays has a comment line that begins `// Kept: ` above it (or above the item that it stands in)."""
import collections
import glob
import os
import re
import sys

ROOT = os.path.join(os.path.dirname(os.path.abspath(__file__)), "..")
FN = re.compile(r'^ *(?:pub(?:\(crate\))? )?(?:const )?(?:extern "C" )?fn (\w+)(?:<[^>]*>)?\(([^)]*)\)', re.M)


def sources():
    for path in sorted(glob.glob(os.path.join(ROOT, "crates", "*", "src", "**", "*.rt"), recursive=True)):
        with open(path, encoding="utf-8") as f:
            yield os.path.relpath(path, ROOT), f.read()


def line_of(text, at):
    return text.count("\n", 0, at) + 1


def is_kept(text, line):
    """Whether a line `// Kept: ` stands above: in the comment over the place, over a line or two of it, or over its item."""
    lines = text.split("\n")
    i = line - 2
    steps = 0
    while i >= 0 and steps < 60:
        s = lines[i].strip()
        if s.startswith("// Kept: "):
            return True
        # over the place itself: a comment block right above
        if steps == 0 and s.startswith("//"):
            i -= 1
            continue
        steps += 1
        # out to the item that the place stands in
        if re.match(r"^(pub|fn|struct|enum|const|impl|type|trait|extern|mod|macro|#!|ghost use|use)\b", lines[i]):
            j = i - 1
            while j >= 0 and (lines[j].startswith("//") or lines[j].startswith("#[")):
                if lines[j].startswith("// Kept: "):
                    return True
                j -= 1
            return False
        i -= 1
    return False


def enums(text):
    for m in re.finditer(r"^( *)(?:pub(?:\(crate\))? )?enum (\w+)(?:<[^>]*>)? \{\n(.*?)^\1\}", text, re.M | re.S):
        body = re.sub(r"//.*", "", m.group(3))
        cases, depth, cur = [], 0, ""
        for ch in body:
            depth += ch in "({["
            depth -= ch in ")}]"
            if ch == "," and depth == 0:
                cases.append(cur.strip())
                cur = ""
            else:
                cur += ch
        if cur.strip():
            cases.append(cur.strip())
        yield m.start(), m.group(2), [c for c in cases if c]


def own_options():
    """1: own enums of the shape of Option or Result; refusals by number; a match that only hands an error on; flags beside a value."""
    for path, text in sources():
        for at, name, cases in enums(text):
            bare = [c for c in cases if re.fullmatch(r"\w+", c)]
            wrong = [c for c in cases if re.search(r"\((?:.*\b)?(?:Refusal|Error)\b.*\)", c)]
            if (len(cases) == 2 and len(bare) <= 1) or len(wrong) == 1:
                yield path, line_of(text, at), "enum " + name
        for m in re.finditer(r"\banswer::refuse\(\d+|\bno: \d+\b", text):
            yield path, line_of(text, m.start()), "a refusal by number"
        for m in re.finditer(r"((?:\w+::)?(?:Refused|Err|Failed))\((\w+)\) => (?:return )?(?:\w+::)?(?:Refused|Err|Failed)\(\2\)", text):
            yield path, line_of(text, m.start()), "a match that hands an error on"
        for m in re.finditer(r"^((?: *//.*\n)+)(?: *#\[.*\n)* *(?:pub(?:\(crate\))? )?(?:extern \"C\" )?fn (\w+)", text, re.M):
            if re.search(r"\b\d[\d,]* where (?:there|it|none|no|neither|each|they|a byte|the record|b can't)\b", m.group(1)):
                yield path, line_of(text, m.start(2)), "fn %s answers a number for none" % m.group(2)


def twins():
    """2: pairs of functions of one crate with the same text but for names and numbers, six lines or more."""
    by = collections.defaultdict(list)
    for path, text in sources():
        for m in re.finditer(r"^(?:pub(?:\(crate\))? )?fn (\w+).*?^\}", text, re.M | re.S):
            body = m.group(0)[m.group(0).find("\n{\n"):] if "\n{\n" in m.group(0) else m.group(0)
            lines = [l for l in body.split("\n") if l.strip() and not l.strip().startswith("//")]
            if len(lines) < 8:
                continue
            shape = re.sub(r"0x[0-9A-Fa-f]+|\b\d+\b", "9", "\n".join(lines))
            shape = re.sub(r"\b(?!let|mut|if|else|while|for|in|loop|match|return|break|as|usize|u8|u16|u32|u64|true|false|len\b)[A-Za-z_]\w*", "n", shape)
            by[shape].append((path, line_of(text, m.start()), m.group(1)))
    for shape, places in by.items():
        if len(places) > 1:
            first = places[0]
            for p in places[1:]:
                yield p[0], p[1], "%s as %s of %s" % (p[2], first[2], first[0])


def loops():
    """3: loops by `while` and `loop`."""
    for path, text in sources():
        for m in re.finditer(r"^ *(?:'\w+: )?(while|loop)\b.*$", text, re.M):
            yield path, line_of(text, m.start()), m.group(0).strip()


HAND = re.compile(r"^(?:same|is_same\w*|is_equal\w*|equal\w*|begins|starts|holds|copy\w*|fill|byte_at|put_decimal|put_number|decimal\w*|put_hex|hex\w*|minimum|lesser|greater|within|code_of|form_of|kind_of)$")


def by_hand():
    """4: functions whose name says that they compare, copy, convert or print by hand."""
    for path, text in sources():
        for m in FN.finditer(text):
            if HAND.match(m.group(1)):
                yield path, line_of(text, m.start()), "fn " + m.group(1)


def together():
    """5: two or more parameters of which, in three or more functions of a crate, none stands without the others; a part of three or more `requires`."""
    crates = collections.defaultdict(list)
    clauses = collections.defaultdict(lambda: collections.defaultdict(list))
    for path, text in sources():
        crate = path.split(os.sep)[1]
        for m in FN.finditer(text):
            names = [re.sub(r"^mut ", "", p.strip()) for p in m.group(2).replace("\n", " ").split(",") if ":" in p]
            crates[crate].append((path, line_of(text, m.start()), m.group(1), names))
        for m in re.finditer(r"^ *requires(?: \w+)? \{ (.*?) \}$", text, re.M):
            for part in m.group(1).split(" × "):
                clauses[crate][part.strip("() ")].append((path, line_of(text, m.start())))
    for fns in crates.values():
        where = collections.defaultdict(set)
        for i, f in enumerate(fns):
            for name in f[3]:
                where[name].add(i)
        groups = collections.defaultdict(list)
        for name, users in where.items():
            if len(users) >= 3:
                groups[frozenset(users)].append(name)
        for users, names in groups.items():
            if len(names) >= 2:
                first = fns[min(users)]
                yield first[0], first[1], "%s in %s" % (", ".join(names), ", ".join(fns[i][2] for i in sorted(users)))
    for parts in clauses.values():
        for part, places in parts.items():
            if len(places) >= 3:
                yield places[0][0], places[0][1], "requires %s, %d times" % (part, len(places))


def beside():
    """6: structs that hold or borrow bytes with a length beside them; pairs of arrays."""
    for path, text in sources():
        for m in re.finditer(r"^(?:pub(?:\(crate\))? )?struct (\w+)(?:<[^>]*>)? \{\n(.*?)^\}", text, re.M | re.S):
            arrays = len(re.findall(r": (?:&'?\w* ?(?:mut )?)?\[u\w+(?:; \w+)?\]", m.group(2)))
            counts = len(re.findall(r": usize", m.group(2)))
            if (arrays and counts) or arrays > 1:
                yield path, line_of(text, m.start()), "struct " + m.group(1)


def switches():
    """7: a chain that picks by a number which step to run."""
    for path, text in sources():
        for m in FN.finditer(text):
            end = text.find("\n}\n", m.start())
            body = text[m.start():end]
            n = len(re.findall(r"if (?:op|kind|step|stage|letter|code) == ", body))
            if n >= 3:
                yield path, line_of(text, m.start()), "fn %s, %d steps" % (m.group(1), n)


def answers():
    """8: answers of a function that repeat the same `let` of a fact."""
    for path in sorted(glob.glob(os.path.join(ROOT, "crates", "*", "proofs", "**", "Answers.antt"), recursive=True)):
        with open(path, encoding="utf-8") as f:
            text = f.read()
        lets = collections.Counter(re.findall(r"^    let (\w[\w-]*-c) :", text, re.M))
        for name, n in lets.items():
            if n >= 2:
                yield os.path.relpath(path, ROOT), 1, "%s, %d times" % (name, n)


POINTS = [own_options, twins, loops, by_hand, together, beside, switches, answers]


def main():
    asked = [int(a) for a in sys.argv[1:]]
    texts = dict(sources())
    for i, point in enumerate(POINTS, 1):
        if asked and i not in asked:
            continue
        found = sorted(set(point()))
        kept = [p for p in found if p[0] in texts and is_kept(texts[p[0]], p[1])]
        if asked:
            for path, line, what in found:
                print("%s%s:%d: %s" % ("kept " if (path, line, what) in kept else "", path, line, what))
        else:
            print("%d  %4d  kept %4d  %s" % (i, len(found), len(kept), point.__doc__[3:].split("\n")[0]))


if __name__ == "__main__":
    main()
