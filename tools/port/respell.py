#!/usr/bin/env python3
"""Spells the project's own definitions, lemmas and fields as Rattle's library does: words in snake case, types and modules in
camel case, a dash only between two names.

usage: tools/port/respell.py            at the top of the repository, once, after port.py

It renames what .antt files of specs/ and proofs/ declare, in these files, in the clauses and ghost items of .rt files, and in the
pages of docs/ and README.md where a name stands between backquotes. Proof.antt files of functions declare labels of their own:
these stay. A name that would meet another one gets `_lem`, or stays, and is listed.
"""
import collections
import os
import re
import sys

TOP = os.path.dirname(os.path.dirname(os.path.dirname(os.path.realpath(__file__))))
CRATES = os.path.join(TOP, "crates")
NAME = r'[^\s(){}.;,@"«»\[\]|`]+'
TOKEN = re.compile(NAME)
DECL = re.compile(r"^(\s*)(?:(?:pub|abbrev|unfoldable|pattern)\s+)*(" + NAME + r")((?:\s+\{[^{}]*\})*)\s+:(?:\s|$)")
WORDS = {
    "le", "lt", "zero", "suc", "add", "sub", "mul", "div", "mod", "pow", "length", "get_or", "set", "take", "drop", "map", "cond",
    "not", "and", "or", "eqb", "leb", "ltb", "ones", "min", "max", "true", "false", "append", "snoc", "reverse", "member", "getD",
}


def files(ends):
    for folder, dirs, names in os.walk(CRATES):
        dirs[:] = sorted(d for d in dirs if d not in ("out", ".git"))
        for n in sorted(names):
            if n.endswith(ends):
                yield os.path.join(folder, n)


def of_function(path):
    return os.path.basename(path) in ("Proof.antt", "Answers.antt", "Invariants.antt")


def snake(word):
    return re.sub(r"(?<=[a-z0-9])([A-Zℕℤ])", lambda m: "_" + m[1].lower(), word)


def respelled(name, kind, names):
    """The new spelling of a name."""
    if name[0].isupper():
        return name.replace("′", "'")
    parts = [snake(p) for p in name.replace("′", "'").split("-")]
    if kind == "field":
        return "_".join(parts)
    out, left = parts[0], parts[0]
    for p in parts[1:]:
        if left in names and p in names:
            out, left = out + "-" + p, p
        else:
            out, left = out + "_" + p, left + "_" + p
    return out


def spans(text):
    """The clauses, ghost items and ghost uses of a .rt file, as (start, end)."""
    found = []
    for m in re.finditer(r"\bghost use\b[^;]*;", text):
        found.append(m.span())
    for m in re.finditer(r"^[ \t]*(?:pub )?(?:requires|ensures|ghost)\b(?! use)[^\n{;]*\{", text, re.M):
        depth, i = 1, m.end()
        while i < len(text) and depth:
            depth += {"{": 1, "}": -1}.get(text[i], 0)
            i += 1
        found.append((m.start(), i))
    found.sort()
    return found


def turn(text, table, comments):
    """The text with each name of the table renamed; in comments only names in camel case."""
    def lines():
        for line in text.split("\n"):
            code, dash, rest = line, "", ""
            m = re.search(r"(?:^|\s)--(?:\s|$)", line)
            if m and comments:
                code, rest = line[: m.start()], line[m.start():]
            code = TOKEN.sub(lambda t: table.get(t[0], t[0]), code)
            rest = TOKEN.sub(lambda t: table.get(t[0], t[0]) if re.search("[a-z][A-Z]", t[0]) else t[0], rest)
            yield code + rest
    return "\n".join(lines())


def main():
    declared, at, beside = collections.defaultdict(set), collections.defaultdict(set), collections.defaultdict(set)
    for path in files(".antt"):
        if of_function(path):
            continue
        where = "spec" if "/specs/" in path else "proof"
        for line in open(path, encoding="utf-8"):
            beside[path].update(re.findall(r"(?<![.])" + NAME, line))
            m = DECL.match(line)
            if m:
                at[m[2]].add(path)
            if m and m[2] not in ("use", "where"):
                declared[m[2]].add("field" if m[1] and where == "spec" else "local" if m[1] else where)
    present = collections.Counter()
    for path in files(".antt"):
        for line in open(path, encoding="utf-8"):
            for m in re.finditer(r"(?<![.])" + NAME, re.sub(r"(?:^|\s)--(?:\s.*|$)", "", line)):
                present[m[0]] += 1
    for path in files(".rt"):
        text = open(path, encoding="utf-8").read()
        for m in re.finditer(r"\b(\w+)\s*:(?!:)|\blet (?:mut )?(\w+)|\bfor (\w+) in|\|(\w+)\|", text):
            present[next(g for g in m.groups() if g)] += 1
    names = WORDS | {snake(n) for n, kinds in declared.items() if "spec" in kinds and not n[0].isupper()}
    table, taken = {}, {}
    order = sorted(declared, key=lambda n: (0 if "spec" in declared[n] else 1 if "field" in declared[n] else 2, n))
    for name in order:
        kinds = declared[name]
        kind = "field" if "field" in kinds and "spec" not in kinds and "proof" not in kinds else "name"
        new = respelled(name, kind, names)
        if new == name:
            taken.setdefault(new, name)
            continue
        # a field stands behind a dot, so it may have the name of a definition, but in the file that declares it
        apart = kind == "field" and not any(taken.get(new) in beside[f] or new in beside[f] for f in at[name])
        if (new in taken or (present[new] and new not in table)) and not apart:
            if new + "_lem" in taken or present[new + "_lem"]:
                print(f"stays: {name}: {new} is there", file=sys.stderr)
                continue
            print(f"look: {name}: {new} is there, so {new}_lem", file=sys.stderr)
            new += "_lem"
        taken.setdefault(new, name)
        table[name] = new
    for path in files(".antt"):
        text = open(path, encoding="utf-8").read()
        new = turn(text, table, True).replace("′", "'")
        if new != text:
            open(path, "w", encoding="utf-8").write(new)
    for path in files(".rt"):
        text = open(path, encoding="utf-8").read()
        out, at = [], 0
        for a, b in spans(text):
            if a < at:
                continue
            out += [text[at:a], turn(text[a:b], table, False)]
            at = b
        new = "".join(out) + text[at:]
        if new != text:
            open(path, "w", encoding="utf-8").write(new)
    pages = [os.path.join(TOP, "README.md")]
    pages += [os.path.join(f, n) for f, _, ns in os.walk(os.path.join(TOP, "docs")) for n in ns if n.endswith(".md")]
    for path in sorted(pages):
        text = open(path, encoding="utf-8").read()
        new = re.sub(r"`[^`\n]+`", lambda m: TOKEN.sub(lambda t: table.get(t[0], t[0]), m[0]), text)
        if new != text:
            open(path, "w", encoding="utf-8").write(new)
    with open(os.path.join(TOP, "tools", "port", "respelled.tsv"), "w", encoding="utf-8") as f:
        for name in sorted(table):
            f.write(f"{name}\t{table[name]}\n")
    print(f"{len(table)} names respelled")


main()
