#!/usr/bin/env python3
"""Spells the repository's own definitions and lemmas in snake case, as today's Rattle does.

usage: python3 tools/spell_names.py [--list]      at the top of the repository, once, right after port.py

Types and modules keep their upper camel case. Every other name that an .antt file of this repository declares
(definitions, lemmas, fields, constructors) loses its inner capitals and its dashes: `callOf` becomes `call_of`,
`next-number` becomes `next_number`. Rust code keeps its names: in an .rt file only what is ghost is read, and
comments. A clause is renamed in place, so that nothing has to be proved twice.
"""

import os
import re
import sys

TOKEN = re.compile(r"(?<![\w'′-])[^\W\d][\w'′-]*", re.UNICODE)
DECLARED = re.compile(r"^(?:(?:abbrev|unfoldable|pub|data|record|axiom|mutual)\s+)*([^\W\d][\w'′-]*)\s*(?:\(|\{|:)", re.UNICODE)
CRATES = set(os.listdir("crates")) if os.path.isdir("crates") else set()
# What Rattle itself makes, and what its library declares, keeps its spelling.
MADE = re.compile(r"^(Need|Start|After|Then|Else|At|In|Point)(-|$)")


def snake(name):
    if name[0].isupper():
        return name
    name = name.replace("′", "'").replace("-", "_")
    return re.sub(r"(?<=[a-z0-9'])([A-Z])", lambda m: "_" + m.group(1).lower(), name)


def files(root, ends):
    for folder, dirs, names in os.walk(os.path.join(root, "crates")):
        dirs[:] = sorted(d for d in dirs if d != "out")
        for n in sorted(names):
            if n.endswith(ends):
                yield os.path.join(folder, n)


def read(path):
    with open(path, encoding="utf-8") as f:
        return f.read()


def walked(path):
    """Whether a file is the walk through one function: its goals and places have Rattle's names."""
    return os.path.basename(path) == "Proof.antt"


def imported(text):
    """The names that a file takes from the library."""
    names = set()
    for path, items in re.findall(r"^(?:ghost )?(?:pub )?use ([^{\n;]+?)(?:\.\{([^}]*)\})?;?$", text, re.M):
        own = re.match(r"Rattle\.(\w+)", path)
        if own and own.group(1) in CRATES:
            continue
        names.update(TOKEN.findall(re.sub(r"(\S+) as \S+", r"\1", items or "")))
        names.update(TOKEN.findall(path))
    return names


def declared(root):
    """The names of this repository's own: of a lemma file or a file of specs/ every one that it does not import, with the place; of a walk
    through a function what it declares beside the goals."""
    names, taken = {}, set()
    for path in files(root, ".antt"):
        taken |= imported(read(path))
    for path in files(root, ".antt"):
        lines = [line for line in read(path).splitlines() if not re.match(r"--|(pub )?use |(pub )?mod ", line)]
        for line in lines:
            if not walked(path):
                for word in TOKEN.findall(line):
                    if word not in taken:
                        names.setdefault(word, path)
                continue
            found = DECLARED.match(line)
            if found and not re.search(r":\s*tie\.", line):
                names.setdefault(found.group(1), path)
    return names


def ghost_parts(text):
    """The pieces of an .rt file that are ghost or a comment: (start, end)."""
    parts = []
    for m in re.finditer(r"//[^\n]*|\bghost\b[^;{\n]*;|\b(?:requires|ensures|ghost)\b[^{\n]*\{", text):
        if not m.group(0).endswith("{"):
            parts.append((m.start(), m.end()))
            continue
        depth, at = 1, m.end()
        while depth and at < len(text):
            depth += {"{": 1, "}": -1}.get(text[at], 0)
            at += 1
        parts.append((m.start(), at))
    return parts


def turning(own):
    """Which name becomes which. Where two would fall together the definition has the plain name, and the lemma or the variable `_lem`."""
    together, turned = {}, {}
    for n in own:
        together.setdefault(snake(n), set()).add(n)
    for plain, names in together.items():
        if len(names) == 1:
            turned[next(iter(names))] = plain
            continue
        capital = [n for n in names if "-" not in n and n != plain]
        first = capital[0] if capital else plain if plain in names else sorted(names)[0]
        for n in names:
            turned[n] = plain if n == first else plain + "_lem"
    return {n: t for n, t in turned.items() if n != t and not MADE.match(n)}


def main(argv):
    root = os.getcwd()
    own = declared(root)
    turned = turning(own)
    if "--list" in argv:
        for n in sorted(turned):
            print(n, turned[n], os.path.relpath(own[n], root))
        return 0
    spelled = {snake(n) for n in own}

    def turn(text):
        return TOKEN.sub(lambda m: turned.get(m.group(0), m.group(0)), text)

    def turn_walk(text):
        # What stands behind a dot in a walk is a step of Rattle's own, or a field that has one spelling.
        return TOKEN.sub(lambda m: turned.get(m.group(0), m.group(0)) if "_lem" not in turned.get(m.group(0), "") or text[m.start() - 1 : m.start()] != "." else m.group(0), text)

    def turn_old(text):
        # Pages and edits still have the names from before port.py.
        def one(m):
            n = m.group(0)
            if n in turned:
                return turned[n]
            return snake(n) if snake(n) in spelled and snake(n) != n else n
        return TOKEN.sub(one, text)

    def said(text, how):
        # In prose a name stands between backquotes.
        return re.sub(r"`[^`\n]+`", lambda m: how(m.group(0)), text)

    changed = 0
    for path in files(root, (".antt", ".rt", ".edit")):
        text = read(path)
        if path.endswith(".antt"):
            new = "".join(said(p, turn_old) if p.startswith("--") else (turn_walk if walked(path) else turn)(p) for p in re.split(r"((?<![^\s])--[^\n]*)", text))
        elif path.endswith(".edit"):
            new = "".join(turn_old(line) if line.startswith(("old:", "new:")) else said(line, turn_old) for line in text.splitlines(keepends=True))
        else:
            new, at = [], 0
            for start, end in ghost_parts(text):
                if start < at:
                    continue
                new += [text[at:start], said(text[start:end], turn_old) if text.startswith("//", start) else turn(text[start:end])]
                at = end
            new = "".join(new) + text[at:]
        if new != text:
            changed += 1
            with open(path, "w", encoding="utf-8") as f:
                f.write(new)
    for page in ["README.md"] + [os.path.join(d, n) for d, _, ns in os.walk("docs") for n in sorted(ns) if n.endswith(".md") and not n.startswith("PORT")]:
        text = read(page)
        new = said(text, turn_old)
        if new != text:
            changed += 1
            with open(page, "w", encoding="utf-8") as f:
                f.write(new)
    print(f"{len(turned)} names, {changed} files")
    return 0


if __name__ == "__main__":
    raise SystemExit(main(sys.argv[1:]))
