#!/usr/bin/env python3
"""Spells the repository's own definitions and lemmas as today's Rattle does.

usage: tools/respell.py      at the top, once, after port.py

A function, a field, a constructor or a lemma is in snake case, a type or a fact in upper camel case. A dash stays where it
joins two names of definitions or types, as in `xor_all-append`; before a plain word it becomes `_`. A middle dot becomes a
dash. A lemma that would get its function's name gets `_lem`. Turned are .antt files, the clauses and comments of .rt files,
and the code spans of README.md and docs/. Labels that Rattle makes, as goals and steps, and names of Rust keep their spelling.
It prints each name that would meet another one of the same file.
"""
import collections
import os
import re
import sys

WORD = re.compile(r'[^\s(){}.;,@"«»`]+')
SIGN = re.compile(r"^(\s*)((?:(?:abbrev|pub|unfoldable|opaque|data|record|ruleset|let)\s+)*)([^\s(){}.;,@\"«»:]+(?:\s+[^\s(){}.;,@\"«»:]+)*)\s+:\s+(.*)$")
CAMEL = re.compile(r"^[a-z][a-z0-9_]*[A-Z]")
# Lemmas whose name a definition of their own file gets.
LEMMAS = {
    "crates/codes/proofs/Laws.antt": ["found_after"],
    "crates/demands/proofs/HostMoves.antt": ["ends_by", "moved_by"],
    "crates/image_back/proofs/Split.antt": ["starts_fit"],
    "crates/line/proofs/Streams.antt": ["with_byte", "at_mark"],
    "crates/small_receiver/proofs/Small.antt": ["at_mark"],
}
STD = set(
    "length take drop set get_or append map each replicate zero suc eqb leb ltb flatten reverse min max mem concat cond"
    " sum filter zip fold xor".split()
)


def snake(part):
    return re.sub(r"(?<=[a-z0-9])([A-Z])", lambda m: "_" + m.group(1).lower(), part) if CAMEL.match(part) else part


def files(kinds):
    for d, ds, fs in os.walk("crates"):
        ds[:] = sorted(x for x in ds if x != "out")
        for f in sorted(fs):
            if f.endswith(kinds):
                yield os.path.join(d, f)


def declared():
    """The names that specs/ and proofs/ declare: all, and those of specs/."""
    names, specs = collections.defaultdict(set), set()
    for p in files((".antt",)):
        for line in open(p, encoding="utf-8"):
            if line.lstrip().startswith("--"):
                continue
            for n in re.findall(r" as ([^\s,}]+)", line if line.startswith(("use ", "pub use ")) else ""):
                names[n].add(p)
            m = SIGN.match(line)
            if not m:
                m2 = re.match(r"^\s*(?:pub\s+)?(?:data|record)\s+(\S+)", line)
                if m2:
                    names[m2.group(1)].add(p)
                    specs.add(m2.group(1))
                continue
            if m.group(4).startswith(("tie.", "goal.")):
                continue
            for n in m.group(3).split():
                if n in ("abbrev", "pub", "let", "data", "record"):
                    continue
                names[n].add(p)
                if "/specs/" in p:
                    specs.add(n)
    return names, specs


def table():
    names, specs = declared()
    known = {snake(n) for n in specs} | STD
    rows = {}
    for n in names:
        if n.endswith("-spec"):
            rows[n] = n.replace("-", "_")
            continue
        if "·" in n:
            rows[n] = n.replace("·", "-")
            continue
        parts = [snake(p) for p in n.split("-")] if not n.startswith("-") else [n]
        new = parts[0]
        for before, part in zip(parts, parts[1:]):
            new += ("-" if before in known and part in known else "_") + part
        if new != n:
            rows[n] = new
    taken = collections.defaultdict(set)
    for n in names:
        taken[rows.get(n, n)].add(n)
    for new, olds in taken.items():
        if len(olds) > 1:
            for o in olds:
                if "-" in o and o in rows:
                    rows[o] = new + "_lem"
    return rows, names


def turned(word, rows, dotted):
    if word in rows and not (dotted and "-" in word):
        return rows[word]
    if CAMEL.match(word) and "-" not in word and "·" not in word:
        return snake(word)
    return word


def antt(text, rows):
    out, at, use = [], 0, False
    for line in text.split("\n"):
        use = line.lstrip().startswith(("use ", "pub use ")) or (use and "}" not in previous)
        previous = line
        code, comment = line, ""
        m = re.search(r"(^|\s)--(\s|$)", line)
        if m:
            code, comment = line[: m.start()], line[m.start() :]
        res, last = [], 0
        for m in WORD.finditer(code):
            dotted = m.start() > 0 and code[m.start() - 1] == "." and not use
            res.append(code[last : m.start()] + turned(m.group(), rows, dotted))
            last = m.end()
        res.append(code[last:])
        out.append("".join(res) + prose(comment, rows))
    return "\n".join(out)


def prose(text, rows):
    return WORD.sub(lambda m: turned(m.group(), rows if "·" in m.group() else {}, False), text)


RT = re.compile(r'//[^\n]*|b?"(?:\\.|[^"\\])*"|' + WORD.pattern)


def rt(text, rows):
    def one(m):
        w = m.group()
        if w.startswith("//"):
            return prose(w, rows)
        if w.startswith(('"', 'b"')):
            return w
        dotted = m.start() > 0 and text[m.start() - 1] == "."
        return turned(w, rows if not dotted else {}, dotted)

    return RT.sub(one, text)


def md(text, rows):
    return re.sub(r"`[^`\n]+`", lambda m: WORD.sub(lambda w: turned(w.group(), rows, False), m.group()), text)


def words(text):
    return set(WORD.findall(re.sub(r"(?m)(^|\s)--.*$", "", text)))


def renamed():
    """The kit has a library named hex: the crate of that name is hex_digits."""
    if not os.path.isdir("crates/hex"):
        return
    os.rename("crates/hex", "crates/hex_digits")
    for p in [*files((".antt", ".rt")), "crates.txt"]:
        old = open(p, encoding="utf-8").read()
        if p == "crates.txt":
            new = re.sub(r"\bhex\b", "hex_digits", old)
        else:
            new = re.sub(r"(?<![\w:])hex::(?=\w)", "hex_digits::", old).replace("Rattle.hex.", "Rattle.hex_digits.")
        if new != old:
            open(p, "w", encoding="utf-8").write(new)


def main():
    renamed()
    rows, names = table()
    camel = set()
    for p in files((".antt", ".rt")):
        old = open(p, encoding="utf-8").read()
        text = old
        for n in LEMMAS.get(p, []):
            text = re.sub(rf"(?<![\w.-]){n}(?![\w-])", n + "_lem", text)
        new = antt(text, rows) if p.endswith(".antt") else rt(old, rows)
        here = words(text)
        for w in here:
            n = turned(w, rows, False)
            if n != w and n in here and "-" not in w:
                print(f"meets: {p}: {w} -> {n}")
        came = collections.defaultdict(set)
        for w in here:
            came[turned(w, rows, False)].add(w)
        for n, ws in came.items():
            if len(ws) > 1 and not (n in ws):
                print(f"two: {p}: {sorted(ws)} -> {n}")
        if new != old:
            open(p, "w", encoding="utf-8").write(new)
    for p in ["README.md"] + sorted(os.path.join("docs", f) for f in os.listdir("docs") if f.endswith(".md")):
        if os.path.exists(p):
            old = open(p, encoding="utf-8").read()
            new = md(old, rows)
            if new != old:
                open(p, "w", encoding="utf-8").write(new)


if __name__ == "__main__":
    main()
