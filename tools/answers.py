#!/usr/bin/env python3
"""Turns a Proof.antt of the older form (tie.close (tie.spec ..)) to Invariants.antt and Answers.antt, by the names that
`rattle check --generated DIR --old-names` writes. It goes by text; what it can't turn it marks with TODO.

usage: tools/answers.py NAMES.json CRATE..
"""

import json
import os
import re
import sys

ROOT = os.path.dirname(os.path.dirname(os.path.abspath(__file__)))
IDENT = r"[A-Za-zµμκ_+][A-Za-z0-9_'µμ₀-₉κ+-]*"
PATH = re.compile(r"(?<![A-Za-z0-9_'.\-])(" + IDENT + r")((?:\.[A-Za-z0-9_][A-Za-z0-9_'\-]*)+)")


def norm(s):
    s = s.replace("-", "_")
    return re.sub(r"^(overflow|nonzero)_", "", s)


def loose(s):
    s = re.sub(r"_lem$", "", s.replace("-", "_").lower())
    return re.sub(r"^(enum_told|enum_known|known_told)", "told", s)


def clauses():
    out = {}
    for folder, dirs, names in os.walk(os.path.join(ROOT, "crates")):
        if "/src" not in folder:
            continue
        for n in names:
            if n.endswith(".rt"):
                t = open(os.path.join(folder, n), encoding="utf-8").read()
                crate = os.path.relpath(folder, os.path.join(ROOT, "crates")).split("/")[0]
                mod = n[:-3]
                for m in re.finditer(r"\bfn (\w+)", t):
                    e = t.find("\n{", m.start())
                    if e < 0:
                        continue
                    h = t[m.start() : e]
                    key = f"{crate}::{m.group(1)}" if mod in ("lib", "main") else f"{crate}::{mod}::{m.group(1)}"
                    out[key] = ([x for x in re.findall(r"\n\s*ensures\*? ?(\w*) ?\{", h)], [x for x in re.findall(r"\n\s*requires\*? ?(\w*) ?\{", h)])
    return out


CLAUSES = clauses()


def named(rest, names):
    """A path .1.0.x into nested pairs as the names of clauses."""
    if len(names) < 2:
        return rest
    segs = rest.split(".")[1:]
    i = 0
    while i < len(names) - 1:
        if not segs or segs[0] not in ("0", "1"):
            return None
        s = segs.pop(0)
        if s == "0":
            return "." + ".".join([names[i]] + segs)
        i += 1
    return "." + ".".join([names[-1]] + segs)


class Fn:
    def __init__(self, key, info):
        self.key, self.info = key, info
        self.places = {p[0]: i for i, p in enumerate(info["places"])}
        self.todo = []

    def parent(self, i):
        p = self.info["places"][i][1]
        return self.places[p] if p is not None else None

    def up(self, i, want):
        while i is not None:
            if loose(self.info["places"][i][2][0]) == loose(want) and self.info["places"][i][2][0]:
                return i
            i = self.parent(i)
        return None

    def walk(self, place, segs, fn):
        """The new text of c followed by segs, from a place."""
        i = place
        segs = list(segs)
        while segs and segs[0] == "before":
            segs.pop(0)
            j = self.parent(i)
            if j is not None:
                i = j
        if not segs:
            return None, i
        step, rest = segs[0], segs[1:]
        tail = "".join("." + s for s in rest)
        if step in ("args", "ranges", "lifetimes"):
            return "c." + step + tail, i
        if step in ("well-formed", "well_formed"):
            return "c.well_formed" + tail, i
        if step in ("requires", "pre"):
            names = CLAUSES.get(fn, ([], []))[1]
            t = named(tail, names) if tail else tail
            return "c.requires" + (t if t is not None else tail), i
        j = self.up(i, step)
        if j is None:
            j = self.up(place, step)
        if j is None:
            j = self.up(place, re.sub(r"\d+$", "", step))
        if j is None:
            self.todo.append(f"{step} at {self.info['places'][i][0]}")
            return "c." + step + tail, i
        # an arm
        arm = self.info["arms"][j] if j < len(self.info["arms"]) else None
        arms = [a for a in [arm] if a]
        k = i
        for a in arms:
            for new, old, path in a[2]:
                if loose(old) == loose(step) and path and rest[: len(path)] == path:
                    more = "".join("." + s for s in rest[len(path) :])
                    callee = None
                    return f"c.{a[0]}.{new}" + self.ensures(new, more, j), i
        typed = self.info["typed"][j] if j < len(self.info["typed"]) else []
        if rest[:1] == ["given"]:
            for var, st in typed:
                if loose(st) == loose(step):
                    return f"c.type_inv.{var}" + "".join("." + s for s in rest[1:]), i
        new = self.info["places"][j][2][1]
        if rest and rest[0] == "ensures":
            callee = self.info["places"][j][3]
            names = CLAUSES.get(callee, ([], []))[0]
            t = "".join("." + s for s in rest[1:])
            if t and len(names) > 1:
                n = named(t, names)
                if n is not None:
                    t = n
                else:
                    self.todo.append(f"clauses of {callee}: {t}")
            return f"c.{new}.ensures{t}", i
        return f"c.{new}{tail}", i

    def ensures(self, new, more, j):
        if new != "ensures" or not more:
            return more
        # the callee whose result the arm is on
        k = j
        while k is not None:
            callee = self.info["places"][k][3]
            if callee:
                names = CLAUSES.get(callee, ([], []))[0]
                n = named(more, names)
                return n if n is not None else more
            k = self.parent(k)
        return more

    def body(self, text, place, fn, base="c"):
        alias = {base: place}

        def take(m):
            b = m.group(2)
            if b not in alias:
                return m.group(0)
            i = alias[b]
            for _ in range(m.group(3).count(".before")):
                j = self.parent(i)
                i = j if j is not None else i
            alias[m.group(1)] = i
            return ""

        while True:
            t = re.sub(r"let\s+(" + IDENT + r")\s*(?::[^=\n]*)?=\s*(" + IDENT + r")((?:\.before)*)\s+in\b\s*", take, text, count=1)
            # only aliases of places are taken out: a let that stays is put back
            m = re.search(r"let\s+(" + IDENT + r")\s*(?::[^=\n]*)?=\s*(" + IDENT + r")((?:\.before)*)\s+in\b\s*", text)
            if t == text:
                if not m or m.group(2) not in alias:
                    break
            text = t

        def put(m):
            b, segs = m.group(1), m.group(2)[1:].split(".")
            if b not in alias:
                return m.group(0)
            t, i = self.walk(alias[b], segs, fn)
            if t is None:
                return "c" + "".join(".before" for s in segs) if False else "c"
            return t

        text = PATH.sub(put, text)
        text = re.sub(r"\(?not-(?:true|false) (?:[^\s()]+|\([^()]*\)) (c\.[\w.\-]*if-not-[\w\-]+\.(?:true|false))\)?", lambda m: ("(" if m.group(0)[0] == "(" and m.group(0)[-1] != ")" else "") + m.group(1) + (")" if m.group(0)[-1] == ")" and m.group(0)[0] != "(" else ""), text)
        for a in alias:
            if a != "c":
                text = re.sub(r"(?<![A-Za-z0-9_'.\-])" + re.escape(a) + r"(?![A-Za-z0-9_'\-])", "c", text)
        return text


def split_top(s, sep):
    out, depth, cur = [], 0, ""
    for ch in s:
        if ch in "([{":
            depth += 1
        elif ch in ")]}":
            depth -= 1
        if ch == sep and depth == 0:
            out.append(cur)
            cur = ""
        else:
            cur += ch
    return out + [cur]


def closing_tuple(text):
    """The place of the last top-level tuple that ends the text, or None."""
    t = text.rstrip()
    if not t.endswith(")"):
        return None
    depth = 0
    for i in range(len(t) - 1, -1, -1):
        if t[i] in ")]}":
            depth += 1
        elif t[i] in "([{":
            depth -= 1
            if depth == 0:
                before = t[:i].rstrip()
                if before == "" or re.search(r"(\bin|=)$", before):
                    return i
                return None
    return None


def recorded(text, names):
    i = closing_tuple(text)
    if i is not None:
        inner = text.rstrip()[i + 1 : -1]
        parts = []
        rest = inner
        for k in range(len(names) - 1):
            p = split_top(rest, ",")
            if len(p) < 2:
                return None
            parts.append(p[0])
            rest = ",".join(p[1:]).rstrip().rstrip(",")
            if k < len(names) - 2:
                r = rest.strip()
                if r.startswith("(") and closing_tuple(r) == 0 and len(split_top(r[1:-1], ",")) > 1:
                    rest = r[1:-1]
        parts.append(rest)
        return text[:i] + "record {\n" + "".join(f"      {n} = {p.strip()};\n" for n, p in zip(names, parts)) + "    }\n"
    return None


def words_of(crate):
    out = set()
    for folder, dirs, fs in os.walk(os.path.join(ROOT, "crates")):
        if "/src" in folder:
            for n in fs:
                if n.endswith(".rt"):
                    out.update(re.findall(r"\b[a-z][a-z0-9]*(?:_[a-z0-9]+)+\b", open(os.path.join(folder, n), encoding="utf-8").read()))
    return out


WORDS = None


def source_names(text):
    """A field that is a name of the source keeps its underscores."""
    global WORDS
    if WORDS is None:
        WORDS = words_of("")

    def put(m):
        w = m.group(1).replace("-", "_")
        return "." + w if w in WORDS else m.group(0)

    return re.sub(r"(?<=[A-Za-z0-9_'])\.([a-z][a-z0-9]*(?:-[a-z][a-z0-9]*)+)(?![A-Za-z0-9_'\-])", put, text)


def last_in(text):
    """What stands behind the last `in` that is in no bracket."""
    depth, last = 0, 0
    for m in re.finditer(r"[(\[{]|[)\]}]|(?<![\w'-])in(?![\w'-])", text):
        t = m.group(0)
        if t in "([{":
            depth += 1
        elif t in ")]}":
            depth -= 1
        elif depth == 0:
            last = m.end()
    return text[last:]


def inlined(text, lemmas):
    """Lemmas of a place that the text calls, as lets in front."""
    out, more = "", True
    done = []
    scan = text
    while True:
        fresh = [n for n in lemmas if n not in done and re.search(r"(?<![\w'.-])" + re.escape(n) + r" c(?![\w'-])", scan)]
        if not fresh:
            break
        done += fresh
        scan = "".join(lemmas[n][1] + lemmas[n][2] for n in fresh)
    unf = []
    for n in lemmas:  # in their order
        if n in done:
            unf += lemmas[n][0]
            out += f"\n    let {n}-c : ({lemmas[n][1].strip()}) = ({lemmas[n][2].strip()}) in"
    for n in done:
        out = re.sub(r"(?<![\w'.-])" + re.escape(n) + r" c(?![\w'.-])", n + "-c", out)
        text = re.sub(r"(?<![\w'.-])" + re.escape(n) + r" c(?![\w'.-])", n + "-c", text)
        text = re.sub(r"(?<![\w'.-])\(" + re.escape(n) + r"-c\)", n + "-c", text)
        out = re.sub(r"(?<![\w'.-])\(" + re.escape(n) + r"-c\)", n + "-c", out)
    if out and not text.startswith("\n"):
        text = "\n   " + text
    return out + text, unf


def turn(crate, folder, names):
    path = os.path.join(folder, "Proof.antt")
    text = open(path, encoding="utf-8").read()
    text = "\n".join(l if l.startswith("use ") else source_names(l) for l in text.split("\n"))
    rel = os.path.relpath(folder, os.path.join(ROOT, "crates", crate, "proofs"))
    dotted = rel.replace("/", ".")
    key = f"Rattle-{crate}-proofs.{dotted}.Lts"
    if key not in names or "tie.close" not in text:
        print("passed over", path)
        return
    info = names[key]
    f = Fn(key, info)
    fn = f"{crate}::{rel.replace('/', '::')}"
    lines = text.split("\n")
    head, uses, blocks, cur = [], [], [], None
    pend = []
    for l in lines:
        if l.startswith("--") and not blocks and not uses and cur is None:
            head.append(l)
        elif l.startswith("use "):
            uses.append(l)
        elif l.startswith("--"):
            pend.append(l)
        elif l and not l[0].isspace():
            m = re.match(r"(?:(?:abbrev|unfoldable|pub)\s+)*(\S+)\s*:", l)
            if m or l.startswith(("ruleset", "data", "record")):
                cur = {"name": m.group(1) if m else None, "lines": [l], "pre": pend}
                pend = []
                blocks.append(cur)
            elif cur is not None:
                cur["lines"].append(l)
        elif cur is not None:
            cur["lines"].append(l)
    need = {norm(a): b for a, b in info["needs"]}
    order = [b for a, b in info["needs"]]
    at = {b: f.places[info["asked_at"][i][0]] for i, (a, b) in enumerate(info["needs"])}
    loops = {}
    for i, (lab, vs) in enumerate(info["loops"]):
        loops[norm(lab[0])] = (lab[1], vs, info["changed"][i])
    inv, ans, locals_ = [], [], []
    goals = {}
    for b in blocks:
        t = "\n".join(b["lines"]).rstrip()
        b["text"] = t
        m = re.match(r"(?:abbrev\s+)?(?:pub\s+)?(\S+)\s*:\s*tie\.(invariant|decreases)-(\S+)", t)
        if m:
            b["kind"] = m.group(2)
            b["loop"] = m.group(3)
            continue
        m = re.match(r"(?:pub\s+)?(\S+)\s*:\s*tie\.Need-([A-Za-z0-9_\-']+)", t)
        if m:
            b["kind"] = "goal"
            b["goal"] = need.get(norm(m.group(2)))
            if b["goal"] is None:
                b["goal"] = next((new for old, new in info["needs"] if norm(new) == norm(m.group(2))), None)
            if b["goal"] is None:
                cands = [v for k, v in need.items() if k.replace("shared_", "") == norm(m.group(2)).replace("shared_", "")]
                b["goal"] = cands[0] if cands else None
            b["wanted"] = m.group(2)
            goals[b["name"]] = b
            continue
        if "tie.close" in t:
            b["kind"] = "spec"
            continue
        b["kind"] = "local"
    out_inv, out_ans = [], []
    lemmas = {}
    for b in blocks:
        t = b["text"]
        pre = "".join(x + "\n" for x in b["pre"])
        if b["kind"] in ("invariant", "decreases"):
            lp = loops.get(norm(b["loop"]))
            if lp is None:
                out_inv.append(f"-- TODO no loop {b['loop']}\n" + t)
                continue
            lab, vs, ch = lp
            m = re.search(r"\n((?:unfolding [^\n]*\n)?)(\S+)\s+([^=]*?)=(.*)$", t, re.S)
            if not m:
                out_inv.append("-- TODO unread\n" + t)
                continue
            params = m.group(3).split()
            want = vs + [v for v, c in zip(vs, ch) if c]
            body = m.group(4)
            if len(params) != len(want):
                f.todo.append(f"{b['kind']} {lab}: {len(params)} parameters for {want}")
            env = {}
            for k, p in enumerate(params[: len(want)]):
                if p == "_":
                    continue
                if k < len(vs):
                    env[p] = f"l.initial.{vs[k]}" if ch[k] else f"l.{vs[k]}"
                else:
                    env[p] = f"l.{want[k]}"
            for p in env:
                if re.search(r"λ[^.]*[\s(]" + re.escape(p) + r"[\s:)]", body):
                    f.todo.append(f"{p} is bound again in {b['kind']} {lab}")
            body = re.sub(r"(?<![A-Za-z0-9_'.\-₀-₉])(" + IDENT + r")(?![A-Za-z0-9_'\-₀-₉])", lambda m: env.get(m.group(1), m.group(1)) if not re.match(r"\s*\.", "") else m.group(1), body)
            n = f"{b['kind']}-{lab}"
            out_inv.append(f"{pre}abbrev pub {n} : goal.{n}\n{m.group(1)}{n} l ={body}")
        elif b["kind"] == "goal":
            g = b["goal"]
            if g is None:
                f.todo.append("no goal " + b["wanted"])
                continue
            m = re.search(r"\n((?:unfolding [^\n]*(?:\n  +[^\n=]*)*\n)?)(\S+)\s+([^=]*?)=(.*)$", t, re.S)
            if not m:
                f.todo.append("unread " + b["name"])
                continue
            params = m.group(3).split()
            base = params[0] if params else "c"
            body = f.body(m.group(4), at[g], fn, base)
            body, unf = inlined(body, lemmas)
            unfold = m.group(1)
            if unf:
                had = unfold.replace("unfolding", "").split()
                unfold = "unfolding " + " ".join(had + [u for u in unf if u not in had]) + "\n"
            if body.strip() == "search rules" and not m.group(1):
                continue
            names_ = info["asked"].get(g) or info["asked"].get(b["wanted"])
            if names_ and len(names_) > 1:
                r = recorded(body, names_)
                if r is None:
                    # only a term that is one application
                    if True:
                        e = last_in(body)
                        front = body[: len(body) - len(e)] if e != body else ""
                        e = e.strip()
                        acc = "it"
                        fields = []
                        p = ""
                        for k, n_ in enumerate(names_):
                            if k < len(names_) - 1:
                                fields.append(f"{n_} = it{p}.0")
                                p += ".1"
                            else:
                                fields.append(f"{n_} = it{p}")
                        body = front.rstrip() + "\n    let it = " + e + " in\n    record { " + "; ".join(fields) + " }"
                else:
                    body = r.rstrip()
            out_ans.append(f"{pre}pub {g} : goal.{g}\n{unfold}{g} c ={body}")
        elif b["kind"] == "spec":
            m = re.search(r"tie\.spec(.*)\)\s*$", t, re.S)
            if not m:
                continue
            args = [a for a in split_args(m.group(1))]
            skip = 2 * len(info["loops"])
            args = [a for a in args]
            while args and (args[0].startswith("invariant") or args[0].startswith("decreases") or args[0] in [x["name"] for x in blocks if x["kind"] in ("invariant", "decreases")]):
                args.pop(0)
            if len(args) != len(order):
                if any(a.startswith("(") and "search rules" not in a for a in args):
                    f.todo.append(f"{len(args)} answers for {len(order)} goals")
                    # align by the named answers
            for k, a in enumerate(args):
                m2 = re.match(r"\(λ\s+([^.]*)\.\s*(.*)\)$", a, re.S)
                if not m2 or m2.group(2).strip() == "search rules":
                    continue
                g = order[k] if len(args) == len(order) else None
                if g is None:
                    f.todo.append("inline " + a[:80])
                    continue
                body = f.body(" " + m2.group(2), at[g], fn, m2.group(1).split()[0])
                body, unf = inlined(body, lemmas)
                names_ = info["asked"].get(g)
                if names_ and len(names_) > 1:
                    r = recorded(body, names_)
                    if r:
                        body = " " + r.strip()
                    else:
                        f.todo.append(f"{g}: clauses {names_}")
                out_ans.append(f"pub {g} : goal.{g}\n{g} c ={body}")
        else:
            m = re.search(r"\((" + IDENT + r")\s*:\s*tie\.([A-Za-z0-9_\-]+)([^)]*)\)\s*→", t)
            if m:
                pl = next((i for p, i in f.places.items() if loose(p) == loose(m.group(2))), None)
                if pl is None:
                    f.todo.append("no place " + m.group(2))
                else:
                    q = re.search(r"\n((?:unfolding [^\n]*(?:\n  +[^\n=]*)*\n)?)" + re.escape(b["name"]) + r"\s+([^\n=]*?)=(.*)$", t, re.S)
                    params = q.group(2).split()
                    sig = f.body(t[m.end() : q.start()], pl, fn, m.group(1))
                    bod = f.body(q.group(3), pl, fn, params[0])
                    if len(params) != 1 or re.search(r"tie\.", t[: m.start()]) or t[: m.start()].count("→"):
                        f.todo.append(f"lemma {b['name']} has {len(params)} parameters")
                        if len(params) > 1:
                            bod = " λ " + " ".join(params[1:]) + ". " + bod.strip()
                    lemmas[b["name"]] = ([x for x in q.group(1).replace("unfolding", "").split()], sig, bod)
                    continue
            out_ans.append(pre + t)
    base = [u for u in uses if not re.search(r"\.(Statement|Tie|Lts|Reads)\b", u)]
    me = f"Rattle.{crate}.proofs.{dotted}"
    # local definitions that invariants use
    inv_text = "\n".join(out_inv)
    if out_inv:
        for b in blocks:
            if b["kind"] == "local" and re.search(r"(?<![\w'-])" + re.escape(b["name"]) + r"(?![\w'-])", inv_text):
                f.todo.append(f"{b['name']} is used by an invariant")
                out_inv.insert(0, b["text"])
        with open(os.path.join(folder, "Invariants.antt"), "w", encoding="utf-8") as o:
            o.write("\n".join(head) + ("\n" if head else "") + "\n".join(used(base, inv_text + "".join(b["text"] for b in blocks if b["kind"] == "local" and b["name"] in inv_text))) + f"\nuse {me}.Given as goal\n\n" + "\n\n".join(x.rstrip() for x in out_inv) + "\n")
    if out_ans:
        at_ = "\n\n".join(x.rstrip() for x in out_ans)
        hd = head if not out_inv else ["-- The answers that `" + fn + "` wants beside its invariants. Assumes nothing."]
        with open(os.path.join(folder, "Answers.antt"), "w", encoding="utf-8") as o:
            o.write("\n".join(hd) + ("\n" if hd else "") + "\n".join(used(base, at_)) + f"\nuse {me}.Goals as goal\n\n" + at_ + "\n")
    os.remove(path)
    for x in f.todo:
        print(f"{crate}/{rel}: {x}")


def split_args(s):
    out, depth, cur = [], 0, ""
    for ch in s:
        if ch in "([{":
            depth += 1
        elif ch in ")]}":
            depth -= 1
        if ch.isspace() and depth == 0:
            if cur.strip():
                out.append(cur.strip())
            cur = ""
        else:
            cur += ch
    if cur.strip():
        out.append(cur.strip())
    return out


def used(uses, text):
    """The use lines with only the names that the text has."""
    toks = set(re.findall(r"[^\s(){}\[\],;.]+", text))
    keep = []
    for u in uses:
        m = re.match(r"use (\S+)\.\{(.*)\}$", u)
        if not m:
            keep.append(u)
            continue
        names = []
        for n in m.group(2).split(","):
            n = n.strip()
            last = n.split(" as ")[-1]
            parts = [p for p in last.split("◌") if p]
            if "◌" in last:
                if all(any(p in t for t in toks) for p in parts):
                    names.append(n)
            elif last in toks or re.search(r"(?<![\w'-])" + re.escape(last) + r"(?![\w'-])", text):
                names.append(n)
        if names:
            keep.append(f"use {m.group(1)}.{{{', '.join(names)}}}")
    return keep


if __name__ == "__main__":
    names = json.load(open(sys.argv[1]))
    for crate in sys.argv[2:]:
        for folder, dirs, fs in sorted(os.walk(os.path.join(ROOT, "crates", crate, "proofs"))):
            if "Proof.antt" in fs:
                turn(crate, folder, names)
