#!/usr/bin/env python3
"""Brings this repository's own definitions and lemmas to the kit's spelling: words in snake case; a dash stays where it joins two functions.

usage: python3 tools/snake.py        once, at the top of the repository, after port.py
       python3 tools/snake.py -n     prints the renaming and what falls together, and writes nothing

It renames in crates/ (.rt, .antt and .edit) and in the back-quoted names of README.md, CONTRIBUTING.md and docs/.
"""
import os
import re
import sys

# What a lemma's name may join by a dash: words of std, and definitions of this repository that are plainly functions.
WORDS = set("length cond set put paste take drop append map get_or eqb ltb leb true false bits field replicate".split())
# Names that no rule gives: of an equality of integers.
GIVEN = {"eqZ": "eq_ℤ", "eqZ→eq": "eq_ℤ→eq", "eqZ-of": "eq_ℤ_of", "eqZ-refl": "eq_ℤ_refl", "eqZ-true": "eq_ℤ-true", "getD-dwords": "get_or_dwords"}
NAME = r"[^\s:(){}|=,;\[\]?.«»`\"\\λ¬]+"
DEFINED = re.compile(r"^[ ]*(?:(?:abbrev|unfoldable|pub) )*(" + NAME + r") :(?: |$)|^(?:pub )?ruleset (" + NAME + r") =", re.M)


def texts():
    for folder, dirs, files in os.walk("crates"):
        dirs[:] = sorted(d for d in dirs if d != "out")
        for f in sorted(files):
            if f.endswith((".antt", ".rt", ".edit")):
                yield os.path.join(folder, f)


def of_function(path):
    parts = path.split("/")
    return "proofs" in parts and len(parts) - parts.index("proofs") > 2


def snake(word):
    word = re.sub(r"([a-z0-9])([A-Z])", r"\1_\2", word)
    return word.lower() if re.match(r"^[a-z]", word) else word


def defined():
    """Each own name, and the files that define it."""
    own, functions = {}, set()
    for p in texts():
        if not p.endswith(".antt") or of_function(p):
            continue
        with open(p, encoding="utf-8") as f:
            text = f.read()
        for m in DEFINED.finditer(text):
            own.setdefault(m.group(1) or m.group(2), set()).add(p)
        functions |= {m.group(1) for m in re.finditer(r"^(?:abbrev|unfoldable) (?:pub )?(" + NAME + r") :", text, re.M)}
    return own, {snake(n) for n in functions if re.search(r"[A-Z_]", n)} | WORDS


def renaming():
    own, functions = defined()
    to = {}
    for n in own:
        if not re.match(r"^[a-z]", n) or not re.search(r"[A-Z-]", n[1:]) or n.endswith("-"):
            continue
        if n in GIVEN:
            to[n] = GIVEN[n]
            continue
        parts = [snake(x) for x in n.split("-")]
        name = parts[0]
        for last, part in zip(parts, parts[1:]):
            name += ("-" if last in functions and part in functions else "_") + part
        if name != n:
            to[n] = name
    # Where a lemma would have the name of a definition in scope beside it, the lemma's gets `_lem`.
    while True:
        found = {lemma(olds, own): n for _, n, olds in together(own, to) if len([o for o in olds if o in own]) > 1}
        if not found:
            return own, to
        for n, name in found.items():
            to[n] = name + "_lem"


def lemma(olds, own):
    """Of names that fall together the one to move: a lemma, which stands in proofs/ and mostly has a dash."""
    olds = [o for o in olds if o in own]
    return max(olds, key=lambda o: ("-" in o, all("/proofs/" in p for p in own[o]), o))


def tokens(text):
    return set(re.findall(NAME, text))


def together(own, to):
    """Names that become one with another name of the same file."""
    for p in texts():
        with open(p, encoding="utf-8") as f:
            there = tokens(f.read())
        seen = {}
        for n in there:
            seen.setdefault(to.get(n, n), set()).add(n)
        for n, olds in seen.items():
            if len(olds) > 1:
                yield p, n, sorted(olds)


class Known(dict):
    """The renaming for pages and edits, which port.py leaves: there a name that it has turned goes the same way."""

    def __init__(self, own, to):
        super().__init__(to)
        self.there = {to.get(n, n) for n in own}

    def get(self, name, other=None):
        if name in self or name in self.there or not re.match(r"^[a-z]\S*[A-Z-]", name):
            return super().get(name, other)
        found = snake(name).replace("-", "_")
        return found if found in self.there else other


def turned(line, to, code):
    """A line with its names changed: all of them in code, the back-quoted ones in prose."""
    if not code:
        return re.sub(r"`([^`]*)`", lambda m: "`" + re.sub(NAME, lambda n: to.get(n.group(0), n.group(0)), m.group(1)) + "`", line)
    parts = re.split(r'("(?:[^"\\]|\\.)*"|«[^»]*»)', line)
    return "".join(x if i % 2 else re.sub(NAME, lambda n: to.get(n.group(0), n.group(0)), x) for i, x in enumerate(parts))


def rewrite(p, text, to):
    lines = []
    for line in text.split("\n"):
        if p.endswith(".edit"):
            code = line.startswith(("old:", "new:"))
            lines.append(line[:4] + turned(line[4:], to, True) if code else turned(line, to, False))
            continue
        if p.endswith(".md"):
            lines.append(turned(line, to, False))
            continue
        at = re.search(r"(^|\s)--(\s|$)" if p.endswith(".antt") else r"(^|\s)//", line)
        cut = at.start() if at else len(line)
        head = line[:cut]
        # In Rust's own code a dash is a minus and no name has capitals inside: names are those of clauses.
        names = to if p.endswith(".antt") else {a: b for a, b in to.items() if "-" not in a}
        lines.append(turned(head, names, True) + turned(line[cut:], to, False))
    return "\n".join(lines)


def main():
    own, to = renaming()
    clashes = sorted(together(own, to))
    for p, n, olds in clashes:
        print(f"together: {p}: {' and '.join(olds)} are {n}")
    if sys.argv[1:] == ["-n"]:
        for a in sorted(to):
            print(a, to[a])
        return 0
    known = Known(own, to)
    pages = ["README.md", "CONTRIBUTING.md"] + sorted("docs/" + f for f in os.listdir("docs") if f.endswith(".md"))
    for p in list(texts()) + pages:
        with open(p, encoding="utf-8") as f:
            text = f.read()
        new = rewrite(p, text, known if p.endswith((".edit", ".md")) else to)
        if new != text:
            with open(p, "w", encoding="utf-8") as f:
                f.write(new)
    print(f"{len(to)} names")
    return 0


if __name__ == "__main__":
    raise SystemExit(main())
