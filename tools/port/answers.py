#!/usr/bin/env python3
"""Turns the Proof.antt files of a crate's functions, as an older Rattle took them, to Invariants.antt and Answers.antt.

usage: tools/port/answers.py NAME..     at the top of the repository; the crates below NAME have to prove

It reads the names that `rt check --generated --old-names` lists: of each goal, and of each place in the code. What it cannot turn is
listed. Cycles of calls and walks by hand (no `tie.`) stay.
"""
import json
import os
import re
import subprocess
import sys
import tempfile

TOP = os.path.dirname(os.path.dirname(os.path.dirname(os.path.realpath(__file__))))
NAME = r"[^\s(){}.;,@\"«»\[\]|`]+"
AT_START = {"args", "requires", "ranges", "well_formed", "lifetimes", "utf8", "pre", "entry"}


def plain(s):
    return re.sub(r"-lem$", "", s.replace("_", "-").lower())


def goal_key(s):
    s = plain(s)
    return re.sub(r"^(overflow|nonzero)-", "", s)


class Function:
    def __init__(self, data):
        self.needs = [(o, n) for o, n in data["needs"]]
        self.asked = data["asked_at"]
        self.places = data["places"]
        self.names = data["places_by_name"]
        self.loops = data["loops"]
        self.changed = data["changed"]
        self.at = {p[0]: k for k, p in enumerate(self.places)}
        self.new_at = {n: k for k, n in enumerate(self.names)}
        self.arms = data["arms"]
        self.params = data["params"]
        self.args = {o.split(".")[-1]: n.split(".")[-1] for o, n in data["args"]}
        self.cycle = False
        self.typed = [bool(t) for t in data["typed"]]
        self.parent = [self.at.get(p[1]) if p[1] is not None else None for p in self.places]

    def step(self, k):
        return self.places[k][2]

    def added(self, k):
        """Whether the place is one that the older Rattle did not have."""
        old = self.step(k)[0]
        return old.startswith("way_told") or old.startswith("told-") or self.places[k][0] == "Untold"

    def before(self, k):
        k = self.parent[k]
        while k is not None and self.added(k) and self.parent[k] is not None:
            k = self.parent[k]
        return k

    def count(self, a, b):
        n = 0
        while a is not None and a != b:
            up = self.parent[a]
            # the places of one arm of a match are one
            n += not (up is not None and self.arms[a] and self.arms[up] and self.arms[a][0] == self.arms[up][0])
            a = up
        return n if a is not None else None

    def place(self, name):
        for k, p in enumerate(self.places):
            if plain(p[0]) == plain(name):
                return k
        return None

    def find(self, k, field):
        """The place at or before k, or any, whose step has the old name."""
        at = k
        while at is not None:
            if plain(self.step(at)[0]) == plain(field):
                return at
            at = self.parent[at]
        hits = {self.step(i)[1]: i for i in range(len(self.places)) if plain(self.step(i)[0]) == plain(field)}
        return next(iter(hits.values())) if len(hits) == 1 else None


log_nots = []


FIELDS = re.compile(r"(?:\.[^\s(){}.;,@\"\[\]|]+)+")


class Text:
    """Rewrites a term. Each place that is known is (root, k): what is known there, root has too, under its own name."""

    def __init__(self, f, env, helpers, results, renamed, log, subst=None):
        self.f, self.env, self.helpers, self.results, self.renamed, self.log = f, dict(env), helpers, results, renamed, log
        self.subst = subst or {}
        self.nots = log_nots
        self.used = {}

    def arm(self, k, words):
        """A field of an arm of a match, under its new name: old step and fields, from the place k up."""
        best, at = None, k
        while at is not None:
            arms = self.f.arms[at]
            if arms:
                for new, step, path in arms[2]:
                    if plain(step) == plain(words[0]) and words[1 : 1 + len(path)] == path and (best is None or len(path) > best[0]):
                        best = (len(path), [arms[0], new] + words[1 + len(path):])
            at = self.f.parent[at]
        return best[1] if best else None

    def use(self, root, k):
        """Notes the deepest place of which a root's steps are used."""
        was = self.used.get(root)
        if was is None or self.f.count(k, was) is not None:
            self.used[root] = k

    def whole(self, known, target):
        """A place as an argument: the root, as many places up as the callee's parameter is."""
        root, _ = known
        top, view = self.roots[root]
        if target is not None:
            self.use(root, target)
        n = self.f.count(top, target) if target is not None else None
        if n is None:
            self.log.append(f"place {target} of {root}")
            return root
        return root + ".before" * (n + view)

    def chain(self, known, fields):
        """The term of a known place and fields behind it, or a further place."""
        f, (root, at) = self.f, known
        i = 0
        while i < len(fields) and fields[i] == "before":
            at = f.before(at) if at is not None else None
            i += 1
        if i == len(fields):
            return None, (root, at)
        rest = fields[i:]
        if rest[0] in AT_START:
            self.use(root, f.at.get("Start", 0))
            if rest[0] in ("args", "ranges") and len(rest) > 1:
                rest[1] = f.args.get(rest[1], rest[1])
            rest = ["requires" if rest[0] == "pre" else rest[0]] + rest[1:]
            if self.f.cycle and rest[:2] in (["requires", "0"], ["requires", "1"]):
                rest = ["decreases" if rest[1] == "0" else "requires"] + rest[2:]
            return root + "." + ".".join(rest), None
        top = self.roots[root][0]
        arm = self.arm(top, rest)
        if arm:
            self.use(root, top)
            return root + "." + ".".join(arm), None
        if rest[0].startswith(("told-", "fits-")):
            return root + "." + ".".join([f.args.get(rest[0], rest[0])] + rest[1:]), None
        q = f.find(at if at is not None else top, rest[0])
        if q is None:
            q = f.find(top, rest[0])
        if q is None:
            self.log.append(f"step {rest[0]} of {root}")
            return root + "." + ".".join(rest), None
        self.use(root, q)
        new = f.step(q)[1]
        callee = f.places[q][3]
        if len(rest) > 2 and rest[1] == "auto" and rest[2].isdigit() and f.params.get(callee):
            rest[2] = f.params[callee][int(rest[2])]
        if len(rest) > 2 and rest[1] == "new" and rest[2] in ("0", "1") and f.params.get(callee):
            n = 0
            while 2 + n < len(rest) and rest[2 + n] == "1":
                n += 1
            rest[2 : 2 + n + (rest[2 + n : 3 + n] == ["0"])] = [f.params[callee][n]]
        tested = re.search(r"(?:^|-)not-([\w]+)", new)
        denied = tested and not re.search(r"!(?:\w+::)*" + tested[1] + r"\.", f.source)
        denied = denied or new.endswith("-test") and re.search(r"while !(?:\w+::)*\w+\(", f.source)
        if len(rest) == 2 and rest[1] in ("true", "false") and denied:
            # the older Rattle said of a test !f(..) what the negation is, and today's says what f(..) is
            self.nots.append(new)
            return f"(ap not {root}.{new}.{rest[1]})", None
        return root + "." + ".".join([new] + rest[1:]), None

    def turn(self, s):
        self.roots = {root: (k, view) for root, k, view in [(r, k if k >= 0 else -1 - k, k < 0) for r, k in self.env.items()]}
        self.env = {r: (r, k if k >= 0 else -1 - k) for r, k in self.env.items()}
        out, _ = self.run(s)
        return out

    def again(self, s):
        out, _ = self.run(s)
        return out

    def run(self, s):
        """The text turned, and the place that it is, where the whole is one term for a place."""
        out, i, n = [], 0, len(s)
        words = []
        pending = []

        def callee():
            for w in reversed(words):
                if w[0] in self.helpers:
                    return w
            return None

        def put_place(known):
            w = callee()
            if w is None:
                return None
            wanted = self.helpers[w[0]]
            used = w[2]
            target = wanted[used[0]] if used[0] < len(wanted) else None
            used[0] += 1
            return self.whole(known, target)

        while i < n:
            ch = s[i]
            if s.startswith("--", i) and (i == 0 or s[i - 1].isspace()):
                j = s.find("\n", i)
                j = n if j < 0 else j
                out.append(s[i:j])
                i = j
                continue
            if ch == "(":
                j, depth = i + 1, 1
                while j < n and depth:
                    depth += {"(": 1, ")": -1}.get(s[j], 0)
                    j += 1
                inner, known = self.run(s[i + 1 : j - 1])
                m = FIELDS.match(s, j)
                fields = m[0][1:].split(".") if m else []
                if known is not None:
                    term, known = self.chain(known, fields) if fields else (None, known)
                    if term is None:
                        term = put_place(known)
                        if term is None:
                            term = known[0]
                else:
                    term = ".".join(["(" + inner + ")"] + fields)
                out.append(term)
                words.append((term, known, [0]))
                i = m.end() if m else j
                continue
            m = re.compile(NAME).match(s, i)
            if m:
                head = m[0]
                k = FIELDS.match(s, m.end())
                fields = k[0][1:].split(".") if k else []
                if head == "let":
                    d = re.compile(r"let\s+(" + NAME + r")\s*=\s*").match(s, i)
                    if d:
                        end = self.end_of_let(s, d.end())
                        term, known = self.run(s[d.end() : end])
                        self.env.pop(d[1], None)
                        words.append(("let", None, [0]))
                        if known is not None:
                            # where the let binds a place, what is known there is known of the root
                            self.env[d[1]] = known
                            i = re.compile(r"in\s*").match(s, end).end()
                            continue
                        out.append(s[i : d.end()] + term)
                        i = end
                        continue
                if head in self.env:
                    known = self.env[head]
                    term, known = self.chain(known, fields)
                    if term is None:
                        w = callee()
                        if w is not None and w[0] in self.helpers:
                            term = put_place(known)
                        else:
                            term = known[0]
                        words.append((head, known, [0]))
                    else:
                        words.append((term, None, [0]))
                    out.append(term)
                elif head in self.subst:
                    out.append(".".join([self.subst[head]] + fields))
                    words.append((head, None, [0]))
                else:
                    term = ".".join([self.renamed.get(head, head) if not fields else head] + fields)
                    out.append(term)
                    words.append((head if not fields else term, None, [0]))
                i = k.end() if k else m.end()
                continue
            out.append(ch)
            i += 1
        place = None
        if len(words) == 1:
            place = words[0][1]
        elif len(words) >= 2 and words[0][0] in self.results:
            args = [w[1] for w in words[1:] if w[1] is not None]
            if args:
                place = (args[-1][0], self.results[words[0][0]])
        elif words and words[0][0] == "let" and all(w[0] == "let" for w in words[:-1]):
            place = words[-1][1]
        return "".join(out), place

    def end_of_let(self, s, i):
        depth = 0
        while i < len(s):
            if s[i] in "([{":
                depth += 1
            elif s[i] in ")]}":
                depth -= 1
            elif depth == 0 and re.compile(r"in(?=\s)").match(s, i) and s[i - 1].isspace():
                return i
            i += 1
        return i


def declarations(text):
    """The head of a file, and its declarations: comment, marks, name, type, unfolding line, clauses."""
    lines = text.split("\n")
    blocks, cur, head = [], None, []
    i = 0
    sig = re.compile(r"^((?:(?:pub|abbrev|unfoldable)\s+)*)(" + NAME + r")\s+:\s?(.*)$")
    comment = []
    while i < len(lines):
        line = lines[i]
        m = sig.match(line)
        if m and not line.startswith("use "):
            cur = {"comment": comment, "marks": m[1].split(), "name": m[2], "lines": [line]}
            comment = []
            blocks.append(cur)
        elif line.startswith("--"):
            if cur is None and not blocks and not comment and not head:
                head.append(line)
                while i + 1 < len(lines) and lines[i + 1].startswith("--"):
                    i += 1
                    head.append(lines[i])
            else:
                comment = comment + [line]
        elif cur is None:
            head.append(line)
        elif line.strip():
            cur["lines"] += comment + [line] if comment else [line]
            comment = []
        i += 1
    return head, blocks


def split_type(t):
    """The parameters of a type: (name or None, type) for each explicit one, and the result."""
    parts, depth, last, i = [], 0, 0, 0
    while i < len(t):
        if t[i] in "({[":
            depth += 1
        elif t[i] in ")}]":
            depth -= 1
        elif t[i] == "→" and depth == 0:
            parts.append(t[last:i].strip())
            last = i + 1
        i += 1
    parts.append(t[last:].strip())
    return parts[:-1], parts[-1]


def binders(segment):
    """The explicit binders of a segment such as (a b : T) (c : U), or one without a name."""
    found, i = [], 0
    if not segment.startswith(("(", "{")):
        return [(None, segment)]
    while i < len(segment):
        if segment[i] in "({":
            j, depth = i + 1, 1
            while j < len(segment) and depth:
                depth += {"(": 1, "{": 1, ")": -1, "}": -1}.get(segment[j], 0)
                j += 1
            inner = segment[i + 1 : j - 1]
            m = re.match(r"([^:()]+?)\s:\s(.*)$", inner, re.S)
            if not m:
                return [(None, segment)]
            if segment[i] == "(":
                found += [(n, m[2]) for n in m[1].split()]
            i = j
        elif segment[i].isspace():
            i += 1
        else:
            return [(None, segment)] if not found else found
    return found


def whole_names(text, field):
    """The text with no let for a term that ends in a field of which today's names are others."""
    while True:
        d = re.search(r"let (" + NAME + r") = ((?:" + NAME + r"|\([^()]*\))(?:\.[\w-]+)*\." + field + r"(?:\.0)?) in\s*", text)
        if not d:
            return text
        text = text[: d.start()] + re.sub(r"(?<![\w.-])" + re.escape(d[1]) + r"(?=\.)", lambda _: d[2], text[d.end():])


def convert(path, f, module, log):
    text = open(path, encoding="utf-8").read()
    for old, new in f.args.items():
        if re.fullmatch(r"t\d+", old):
            text = re.sub(r"\." + old + r"(?![\w-])", "." + new, text)
    if any("kept" in variables for _, variables in f.loops):
        # port.py takes a variable of this name for what an older Rattle called so
        text = text.replace(".auto", ".kept")
    for was, now in (("inv", "invariant"), ("pre", "requires"), ("taken", "true"), ("left", "false")):
        steps = r"(?:loop-test\d*|if\d+)" if was in ("taken", "left") else ""
        text = re.sub(r"(?<=[^\s(])(\." + steps + r")?\." + was + r"(?=[\s.),;]|$)" if not steps else r"(\." + steps + r")\." + was + r"(?=[\s.),;]|$)",
            lambda m: (m[1] or "") + "." + now, text, flags=re.M)
    head, blocks = declarations(text)
    log_nots.clear()
    for b in blocks:
        parts = re.split(r"\n(?=" + re.escape(b["name"]) + r"(?:\s|$))", "\n".join(b["lines"]))
        b["lines"] = "\n".join(whole_names(part, "given") for part in parts).split("\n")
    comments = [l for l in head if l.startswith("--")]
    uses = [l for l in head if l.startswith("use ") or (l.startswith("  ") and l.strip())]
    uses = "\n".join(uses)
    uses = "\n".join(u for u in re.split(r"\n(?=use )", uses) if not re.search(r"\.(Statement\.\{statement\}|Tie as tie)$", u.strip()))
    goals, used = {}, {}
    invariants, answers, renamed, results, helpers = [], [], {}, {}, {}
    inlines = {}
    keys = {}
    for k, (o, n) in enumerate(f.needs):
        keys.setdefault(goal_key(o), k)
    loops = {plain(o): (n, k) for k, ((o, n), _) in enumerate(f.loops)}
    # the new names of the goals that the file answers
    for b in blocks:
        t = "\n".join(b["lines"])
        m = re.match(r"^.*?:\s+tie\.Need-(" + NAME + ")", b["lines"][0])
        if m and "→" not in b["lines"][0]:
            k = keys.get(goal_key(m[1]))
            b["need"] = k
            if k is not None:
                renamed[b["name"]] = f.needs[k][1]
            else:
                b["gone"] = True
    places_used, tied = set(), []

    def place_type(t):
        m = re.match(r"^\s*tie\.(" + NAME + r")", t)
        if not m or m[1].startswith(("Need-", "invariant-", "decreases-")):
            return None
        k = f.place(m[1])
        if k is None:
            log.append(f"place {m[1]}")
        return k

    def types(t):
        """The places of a type under their new names, without the invariants."""
        def one(m):
            k = f.place(m[1])
            if k is None:
                return m[0]
            if f.typed[k]:
                tied.append(k)
                claims = " tie.the-claims" if any(p[3] for p in f.places) else ""
                return " ".join([f"lts.{f.places[k][0]}{claims} reads.Pre reads.Post"] + [f"goal.the-{w}-{n}" for (_, n), _ in f.loops for w in ("invariant", "decreases")])
            places_used.add(f.names[k])
            return f.names[k]
        return re.sub(r"tie\.(" + NAME + r")((?:\s+(?:invariant|decreases)-" + NAME + r")*)", one, t)

    inv_names = {}
    for b in blocks:
        if re.search(r"[-_]spec$", b["name"]) and "pub" in b["marks"] and "statement M" in b["lines"][0]:
            continue
        first = b["lines"][0]
        if re.search(r":\s+tie\.(invariant|decreases)-", first):
            m = re.search(r":\s+tie\.(invariant|decreases)-(" + NAME + ")", first)
            hit = loops.get(plain(m[2]))
            if hit is None:
                log.append(f"loop {m[2]}")
                continue
            new, k = hit
            variables, changed = f.loops[k][1], f.changed[k]
            body = "\n".join(b["lines"][1:])
            marks = ""
            d = re.match(r"^(unfolding [^\n]*\n)?" + re.escape(b["name"]) + r"[ \t]+([^=\n]*?)[ \t]*=[ \t]?(.*)$", body, re.S)
            if not d:
                log.append(f"clauses of {b['name']}")
                continue
            params = d[2].split()
            slots = ["l." + v if not c else "l.initial." + v for v, c in zip(variables, changed)] + ["l." + v for v, c in zip(variables, changed) if c]
            if len(params) != len(slots):
                log.append(f"{b['name']} takes {len(params)}, and the loop has {len(slots)}: {' '.join(params)} / {' '.join(slots)}")
                slots = slots + ["l.MISSING"] * len(params)
            t = Text(f, {}, {}, {}, {}, log, dict(zip(params, slots)))
            invariants.append("\n".join(b["comment"] + [f"abbrev pub {m[1]}-{new} : goal.{m[1]}-{new}", f"{d[1] or ''}{m[1]}-{new} l = {t.turn(d[3])}"]))
            inv_names[b["name"]] = f"{m[1]}-{new}"
            continue
        if b.get("gone"):
            log.append(f"no goal for {first}")
            continue
        if "need" in b:
            k = b["need"]
            new = f.needs[k][1]
            body = "\n".join(b["lines"][1:])
            d = re.match(r"^(unfolding [^\n]*\n)?" + re.escape(b["name"]) + r"((?:[ \t]+[^\s(){}.;,@=]+)*)[ \t]*=(.*)$", body, re.S)
            if not d:
                log.append(f"clauses of {b['name']}")
                continue
            if d[3].strip() in ("search rules", "search needs") and not d[1]:
                continue
            params = d[2].split()
            var = params[0] if params else "c"
            more = "".join(" " + v for v in params[1:] if v != "κs")
            place = f.place(f.asked[k][0])
            view = place is not None and f.typed[place]
            t = Text(f, {var: -1 - place if view else place} if place is not None else {}, helpers, results, renamed, log)
            term, lets, seen, again = d[3], "", [], True
            while again:
                again = False
                for h, (pt, ty, pl, others, body_of) in inlines.items():
                    pattern = r"\(" + re.escape(h) + r" (?:[^\s()]+|\((?:[^()]|\([^()]*\))*\)[\w.-]*)\)(?=[\s.),;]|$)|(?<![\w-])" + re.escape(h) + r" (?:[^\s(),]+|\((?:[^()]|\([^()]*\))*\)[\w.-]*)"
                    if re.search(pattern, term + lets):
                        term, lets = re.sub(pattern, h, term), re.sub(pattern, h, lets)
                        again = True
                        if h not in seen:
                            seen.append(h)
                            lam = "λ " + " ".join(others) + ". " if others else ""
                            ty2 = re.sub(r"(?<![\w.-])" + re.escape(pt) + r"(?=[.\s),;]|$)", var, ty) if pt else ty
                            bo2 = re.sub(r"(?<![\w.-])" + re.escape(pl) + r"(?=[.\s),;]|$)", var, body_of)
                            lets = f"\n    let {h} : {ty2} = {lam}{bo2} in" + lets
            d = {1: d[1], 3: lets + ("\n    " if lets and not term.startswith("\n") else "") + term}
            answers.append("\n".join(b["comment"] + [f"pub {new} : goal.{new}", f"{d[1] or ''}{new} {var}{more} ={t.turn(d[3])}"]))
            continue
        # a lemma of the file's own
        whole = "\n".join(b["lines"])
        m = re.match(r"^((?:(?:pub|abbrev|unfoldable)\s+)*)" + re.escape(b["name"]) + r"\s+:\s?", whole)
        rest = whole[m.end():]
        d = re.search(r"^(unfolding [^\n]*\n)?" + re.escape(b["name"]) + r"((?:\s+[^=\n]+?)?)\s*=", rest, re.M)
        if not d:
            answers.append("\n".join(b["comment"]) + "\n" + whole)
            log.append(f"clauses of the lemma {b['name']}")
            continue
        typ, clauses = rest[: d.start()].rstrip("\n"), rest[d.start():]
        params, result = split_type(typ)
        first = None
        while True:
            env, order = {}, []
            for p in params:
                for n, ty in binders(p):
                    k = place_type(ty)
                    order.append(k)
                    if n and k is not None:
                        env[n] = k
            k = place_type(result)
            if k is not None:
                break
            lhs = d[2].split()
            head_len = d.end() - d.start()
            if first is not None:
                env = {n: first for n in env}
                order = [first if k is not None else None for k in order]
            env2 = {v: k for v, k in zip(lhs, order) if k is not None} if all(re.fullmatch(NAME, v) for v in lhs) else {}
            typed = Text(f, env, helpers, results, renamed, log)
            new_type = typed.turn(typ)
            t = Text(f, env2, helpers, results, renamed, log)
            term = t.turn(clauses[head_len:])
            if first is not None:
                new_type = re.sub(r"tie\.(?!Need|invariant|decreases)" + NAME, "tie." + f.places[first][0], new_type, count=1)
                break
            if sum(k is not None for k in order) != 1:
                break
            # the lemma speaks of the first place that knows what it needs
            if re.search(r"\b(omega|search|grind|cc)\b", term):
                # a tactic reads what is known at the place itself
                name = f.places[next(k for k in order if k is not None)]
                if any(p[0].startswith(name[0] + "-unread") for p in f.places):
                    first = f.at[name[1]]
                    continue
                break
            deep = None
            for k in list(typed.used.values()) + list(t.used.values()):
                if deep is None or f.count(k, deep) is not None:
                    deep = k
            declared = next(k for k in order if k is not None)
            if deep is None or deep == declared or f.count(declared, deep) is None:
                break
            first = deep
        if k is not None and place_type(result) is not None:
            # a name for a place further up: what is known there is known at the root, so no such name is needed
            results[b["name"]] = place_type(result)
            continue
        if any(k is not None and f.arms[k] for k in order):
            # said anew, with a let, in each answer that wants it
            segments, bound = split_type(typ)
            pname = [n for q in segments for n, ty in binders(q) if place_type(ty) is not None]
            rest_of = [q for q in segments if not any(place_type(ty) is not None for n, ty in binders(q))]
            inlines[b["name"]] = (pname[0] if pname else None, " → ".join(rest_of + [bound]), next(v for v in lhs if env2.get(v) is not None),
                [v for v in lhs if env2.get(v) is None], clauses[head_len:].strip())
            continue
        if any(k is not None for k in order):
            helpers[b["name"]] = [k for k in order if k is not None]
        answers.append("\n".join(b["comment"] + [f"{m[1]}{b['name']} : {types(new_type)}", types(clauses[:head_len] + term)]))
    # the old names of invariants, where a lemma speaks of them
    folder = os.path.dirname(path)
    def names_in(body, line):
        """A use line with only what the body names."""
        m = re.match(r"^(use [^{]+)\.\{(.*)\}$", line, re.S)
        return line
    if invariants:
        body = "\n\n".join(invariants)
        text = "\n".join(comments if not answers else []) + ("\n" if comments and not answers else "") + uses + f"\nuse {module}.Given as goal\n\n" + body + "\n"
        open(os.path.join(folder, "Invariants.antt"), "w", encoding="utf-8").write(pruned(text))
    if answers:
        body = "\n\n".join(answers)
        extra = f"\nuse {module}.Goals as goal"
        if tied:
            extra = f"\nuse {module}.Lts as lts\nuse {module}.Reads as reads\nuse {module}.Tie as tie" + extra
        if places_used:
            extra += f"\nuse {module}.Goals.{{{', '.join(sorted(places_used))}}}"
        if log_nots:
            for name, module_of in (("not", "mathlib.Core.Bool"), ("ap", "mathlib.Core.Path")):
                if not re.search(r"[{ ]" + name + r"[,}]", uses):
                    uses += f"\nuse {module_of}.{{{name}}}"
        text = "\n".join(comments) + ("\n" if comments else "") + uses + extra + "\n\n" + body + "\n"
        open(os.path.join(folder, "Answers.antt"), "w", encoding="utf-8").write(pruned(text))
    os.remove(path)
    try:
        os.removedirs(folder)
    except OSError:
        pass


def convert_cycle(path, functions, module, sources, log):
    """The same for a cycle of calls: each function's goals have its name before theirs, and each answer takes the measure first."""
    text = open(path, encoding="utf-8").read()
    for was, now in (("inv", "invariant"), ("pre", "requires"), ("taken", "true"), ("left", "false")):
        steps = r"(?:loop-test\d*|if\d+)" if was in ("taken", "left") else ""
        text = re.sub(r"(?<=[^\s(])(\." + steps + r")?\." + was + r"(?=[\s.),;]|$)" if not steps else r"(\." + steps + r")\." + was + r"(?=[\s.),;]|$)",
            lambda m: (m[1] or "") + "." + now, text, flags=re.M)
    head, blocks = declarations(text)
    comments = [l for l in head if l.startswith("--")]
    uses = [l for l in head if l.startswith("use ") or (l.startswith("  ") and l.strip())]
    uses = "\n".join(uses)
    uses = "\n".join(u for u in re.split(r"\n(?=use )", uses) if not re.search(r"(\.\{statement\}|\.Tie\.\{close\}| as \S+|^use borrow\.Fn\..*)$", u.strip()))
    invariants, answers, renamed, results, helpers = [], [], {}, {}, {}
    inlines = {}
    # a cycle of one function has no name before its goals
    front = {n: n + "-" if len(functions) > 1 else "" for n in functions}
    log_nots.clear()
    applied = re.compile(r"(" + NAME + r")-lts\.(" + NAME + r")((?: (?:\([^()]*\)|" + NAME + r"\.Post|[^\s()]*(?:Inv|inv|μ|decreases|invariant)[^\s()]*))*)")
    kept = []
    for b in blocks:
        whole = "\n".join(b["lines"])
        m = applied.search(b["lines"][0] if ":" in b["lines"][0] else whole)
        if re.search(r"statement M", b["lines"][0]) or re.search(r"Measures|: ℕ → In |Claims$", b["lines"][0]):
            d = re.match(r"abbrev μ-(\S+) : Measures", b["lines"][0])
            if d:
                body = " ".join(b["lines"][1:]).split("=", 1)[1].strip()
                def arg(m):
                    k = m[1].count(".1")
                    names = sources[d[1]]
                    return "l." + names[k][0]
                body = re.sub(r"\ba((?:\.1)*)(?:\.0)?(?=[\s.)]|$)", arg, body)
                invariants.append(f"abbrev pub decreases-{d[1]} : goal.decreases-{d[1]}\ndecreases-{d[1]} l = {body}")
            continue
        if not m:
            answers.append("\n".join(b["comment"] + [whole]))
            continue
        b["f"] = m[1]
        b["text"] = applied.sub(lambda t: "tie." + t[2], whole)
        # what is required had the measure beside it
        while True:
            d = re.search(r"let (" + NAME + r") = (" + NAME + r"(?:\.[\w-]+)*\.requires|\([^()]*\)\.requires) in\s*", b["text"])
            if not d:
                break
            end = re.search(r"\n(?=\S)", b["text"][d.end():])
            b["text"] = b["text"][: d.start()] + re.sub(r"(?<![\w.-])" + re.escape(d[1]) + r"(?![\w-])(?! :)", lambda _: d[2], b["text"][d.end():])
        kept.append(b)
    keys = {}
    for name, f in functions.items():
        f.cycle = True
        keys[name] = {}
        for k, (o, n) in enumerate(f.needs):
            keys[name].setdefault(goal_key(o), k)
    for b in kept:
        m = re.match(r"^.*?:\s+\(t : ℕ\) → tie\.Need-(" + NAME + r")\s*$", b["text"].split("\n")[0])
        if m:
            b["need"] = keys[b["f"]].get(goal_key(m[1]))
            if b["need"] is None:
                log.append(f"no goal for {b['text'].splitlines()[0]}")
                b["gone"] = True
            else:
                renamed[b["name"]] = front[b["f"]] + functions[b["f"]].needs[b["need"]][1]
    places_used = set()
    for b in kept:
        if b.get("gone"):
            continue
        f, name = functions[b["f"]], b["f"]

        def types(t):
            def one(m):
                k = f.place(m[1])
                if k is None:
                    log.append(f"place {m[1]}")
                    return m[0]
                places_used.add(f"{front[name]}{f.names[k]}")
                return f"{front[name]}{f.names[k]} t"
            return re.sub(r"tie\.(" + NAME + r")", one, t)

        first = b["text"].split("\n")[0]
        body = "\n".join(b["text"].split("\n")[1:])
        m = re.search(r":\s+tie\.(invariant|decreases)-(" + NAME + ")", first)
        if m:
            loops = {plain(o): (n, k) for k, ((o, n), _) in enumerate(f.loops)}
            hit = loops.get(plain(m[2]))
            if hit is None:
                log.append(f"loop {m[2]}")
                continue
            new, k = hit
            variables, changed = f.loops[k][1], f.changed[k]
            d = re.match(r"^(unfolding [^\n]*\n)?" + re.escape(b["name"]) + r"[ \t]+([^=\n]*?)[ \t]*=[ \t]?(.*)$", body, re.S)
            params = d[2].split()
            slots = ["l." + v if not c else "l.initial." + v for v, c in zip(variables, changed)] + ["l." + v for v, c in zip(variables, changed) if c]
            if len(params) != len(slots):
                log.append(f"{b['name']} takes {len(params)}, and the loop has {len(slots)}: {' '.join(params)} / {' '.join(slots)}")
                slots += ["l.MISSING"] * len(params)
            t = Text(f, {}, {}, {}, {}, log, dict(zip(params, slots)))
            invariants.append("\n".join(b["comment"] + [f"abbrev pub {m[1]}-{front[name]}{new} : goal.{m[1]}-{front[name]}{new}", f"{d[1] or ''}{m[1]}-{front[name]}{new} l = {t.turn(d[3])}"]))
            continue
        if "need" in b:
            k = b["need"]
            new = front[name] + f.needs[k][1]
            d = re.match(r"^(unfolding [^\n]*\n)?" + re.escape(b["name"]) + r"((?:[ \t]+[^\s(){}.;,@=]+)*)[ \t]*=(.*)$", body, re.S)
            if d[3].strip() in ("search rules", "search needs") and not d[1]:
                continue
            var = d[2].split()[1]
            place = f.place(f.asked[k][0])
            view = f.typed[place]
            at = {var: -1 - place if view else place}
            term = d[3]
            lets = ""
            again = True
            seen = []
            while again:
                again = False
                for h, (of, pt, ty, pl, others, body_of, _) in inlines.items():
                    pattern = r"\(" + re.escape(h) + r" t (?:[^\s()]+|\([^()]*\))\)|(?<![\w-])" + re.escape(h) + r" t (?:[^\s(),]+|\([^()]*\))"
                    if of == b["f"] and re.search(pattern, term + lets):
                        term = re.sub(pattern, h, term)
                        lets = re.sub(pattern, h, lets)
                        if h not in seen:
                            seen.append(h)
                            lam = "λ " + " ".join(others) + ". " if others else ""
                            ty2 = re.sub(r"(?<![\w.-])" + re.escape(pt) + r"(?=\.)", var, ty) if pt else ty
                            bo2 = re.sub(r"(?<![\w.-])" + re.escape(pl) + r"(?=[.\s),;]|$)", var, body_of)
                            lets = f"\n    let {h} : {ty2} = {lam}{bo2} in" + lets
                        again = True
            t = Text(f, at, helpers, results, renamed, log)
            whole_term = t.turn(lets + (" " if lets and not term.startswith("\n") else "") + term)
            answers.append("\n".join(b["comment"] + [f"pub {new} : goal.{new}", f"{d[1] or ''}{new} t {var} ={whole_term}"]))
            continue
        whole = b["text"]
        m = re.match(r"^((?:(?:pub|abbrev|unfoldable)\s+)*)" + re.escape(b["name"]) + r"\s+:\s?", whole)
        rest = whole[m.end():]
        d = re.search(r"^(unfolding [^\n]*\n)?" + re.escape(b["name"]) + r"((?:\s+[^=\n]+?)?)\s*=", rest, re.M)
        typ, clauses = rest[: d.start()].rstrip("\n"), rest[d.start():]
        params, result = split_type(typ)

        def place_type(t):
            q = re.match(r"^\s*tie\.(" + NAME + r")", t)
            return f.place(q[1]) if q and not q[1].startswith(("Need-", "invariant-", "decreases-")) else None

        if place_type(result) is not None:
            results[b["name"]] = place_type(result)
            continue
        deep = None
        while True:
            env, order = {}, []
            for p in params:
                for n, ty in binders(p):
                    k = place_type(ty)
                    k = deep if k is not None and deep is not None else k
                    order.append(k)
                    if n and k is not None:
                        env[n] = k
            lhs = d[2].split()
            env2 = {v: k for v, k in zip(lhs, order) if k is not None}
            typed = Text(f, env, helpers, results, renamed, log)
            new_type = typed.turn(typ)
            t = Text(f, env2, helpers, results, renamed, log)
            head_len = d.end() - d.start()
            term = t.turn(clauses[head_len:])
            if deep is not None or re.search(r"\b(omega|search|grind|cc)\b", term):
                break
            for k in list(typed.used.values()) + list(t.used.values()):
                if deep is None or f.count(k, deep) is not None:
                    deep = k
            if deep is None:
                break
        if deep is not None:
            new_type = re.sub(r"tie\.(?!Need|invariant|decreases)" + NAME, "tie." + f.places[deep][0], new_type, count=1)
        order = [k for k in order if k is not None]
        if any(f.typed[k] for k in order):
            # said anew, with a let, in each answer that wants it
            segments, bound = split_type(typ)
            pname = [n for q in segments for n, ty in binders(q) if place_type(ty) is not None]
            rest_of = [q for q in segments if not any(place_type(ty) is not None or ty == "ℕ" and n == "t" for n, ty in binders(q))]
            others = [v for v in lhs if v != "t" and env2.get(v) is None]
            inlines[b["name"]] = (b["f"], pname[0] if pname and pname[0] else None, " → ".join(rest_of + [bound]),
                next(v for v in lhs if env2.get(v) is not None), others, clauses[head_len:].strip(), b["comment"])
            continue
        helpers[b["name"]] = order
        answers.append("\n".join(b["comment"] + [f"{m[1]}{b['name']} : {types(new_type)}", types(clauses[:head_len] + term)]))
    folder = os.path.dirname(path)
    text = uses + f"\nuse {module}.Given as goal\n\n" + "\n\n".join(invariants) + "\n"
    open(os.path.join(folder, "Invariants.antt"), "w", encoding="utf-8").write(pruned(text))
    extra = f"\nuse {module}.Goals as goal"
    if places_used:
        extra += f"\nuse {module}.Goals.{{{', '.join(sorted(places_used))}}}"
    if log_nots:
        for name, module_of in (("not", "mathlib.Core.Bool"), ("ap", "mathlib.Core.Path")):
            if not re.search(r"[{ ]" + name + r"[,}]", uses):
                uses += f"\nuse {module_of}.{{{name}}}"
    text = "\n".join(comments) + "\n" + uses + extra + "\n\n" + "\n\n".join(answers) + "\n"
    open(os.path.join(folder, "Answers.antt"), "w", encoding="utf-8").write(pruned(text))
    os.remove(path)


def parameters(crate, name):
    """The parameters of a function, and whether each is a reference."""
    for folder, _, files in os.walk(os.path.join(TOP, "crates", crate, "src")):
        for n in files:
            m = re.search(r"fn " + name + r"(?:<[^>]*>)?\(([^{]*?)\)\s*(?:->|requires|ensures|\{|where)", open(os.path.join(folder, n), encoding="utf-8").read(), re.S)
            if m:
                return [(p.split(":")[0].strip(), p.split(":", 1)[1].strip().startswith("&")) for p in m[1].split(",") if ":" in p]
    return []


def source_of(crate, name):
    """The text of a function."""
    for folder, _, files in os.walk(os.path.join(TOP, "crates", crate, "src")):
        for n in files:
            text = open(os.path.join(folder, n), encoding="utf-8").read()
            m = re.search(r"\bfn " + name + r"\b.*?\n}\n", text, re.S)
            if m:
                return m[0]
    return ""


def pruned(text):
    """The file without the names that it imports and does not use."""
    m = re.search(r"\n\n(?!use )", text)
    top, body = text[: m.start()], text[m.start():]
    words = set(re.findall(r"[^\s(){}.;,@\"«»\[\]|`]+", re.sub(r"(?m)(?:^|\s)--(?:\s.*)?$", "", body)))
    out = []
    for line in re.split(r"\n(?=use |--)", top):
        u = re.match(r"^(use [^{]+)\.\{(.*)\}\s*$", line, re.S)
        if not u:
            a = re.match(r"^use \S*?([^\s.]+)(?: as (\S+))?$", line)
            if a and (a[2] or a[1]) not in words and not re.search(re.escape(a[2] or a[1]) + r"\.", body):
                continue
            out.append(line)
            continue
        kept = []
        for item in u[2].split(","):
            item = item.strip()
            name = item.split(" as ")[-1].strip()
            if not name:
                continue
            op = name.replace("◌", "")
            if name == "[]":
                if "[]" in body:
                    kept.append(item)
                continue
            if "◌" in name:
                if op in words or (op in ("∙", "∷") and op in body) or op in body:
                    kept.append(item)
            elif name in words:
                kept.append(item)
        if kept:
            out.append(f"{u[1]}.{{{', '.join(kept)}}}")
    return "\n".join(out) + body


def main():
    for crate in sys.argv[1:]:
        folder = os.path.join(TOP, "crates", crate)
        to = os.path.join(tempfile.mkdtemp(), "names")
        r = subprocess.run(["rt", "check", "--generated", to, "--old-names"], cwd=folder, capture_output=True, text=True)
        if not os.path.exists(to + "/names.json"):
            print(r.stdout[-3000:], r.stderr[-3000:])
            raise SystemExit(f"{crate}: no names")
        data = json.load(open(to + "/names.json"))
        cycles = {}
        for key, d in data.items():
            m = re.match(r"Rattle-" + crate + r"-proofs\.(.*\+[^.]*)\.Lts-(.*)$", key)
            if m:
                cycles.setdefault(m[1], {})[m[2]] = Function(d)
                cycles[m[1]][m[2]].source = source_of(crate, m[2])
        for name, functions in cycles.items():
            path = os.path.join(folder, "proofs", *name.split("."), "Proof.antt")
            if os.path.exists(path):
                log = []
                convert_cycle(path, functions, f"Rattle.{crate}.proofs.{name}", {n: parameters(crate, n) for n in functions}, log)
                for line in log:
                    print(f"{crate}: {name}: {line}")
        for key, d in data.items():
            m = re.match(r"Rattle-" + crate + r"-proofs\.(.*)\.Lts$", key)
            if not m:
                continue
            path = os.path.join(folder, "proofs", *m[1].split("."), "Proof.antt")
            if not os.path.exists(path):
                continue
            if "tie." not in open(path, encoding="utf-8").read():
                print(f"{crate}: {m[1]}: by hand")
                continue
            log = []
            try:
                f = Function(d)
                f.source = source_of(crate, m[1].split(".")[-1])
                convert(path, f, f"Rattle.{crate}.proofs.{m[1]}", log)
            except Exception as e:
                print(f"{crate}: {m[1]}: {type(e).__name__} {e}")
                raise
            for line in log:
                print(f"{crate}: {m[1]}: {line}")


main()
