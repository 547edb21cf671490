#!/usr/bin/env python3
"""Spells the names that this repository declares in its specs/ and proofs/ as today's Rattle does.

usage: python3 tools/respell.py          at the top of the repository, right after the kit's port.py
       python3 tools/respell.py --list   prints the renamings and writes nothing

A definition, a lemma, a field or a constructor is written in snake case: `readNet` becomes `read_net`, `first-at` becomes `first_at`. A dash
stays beside a part that begins with a capital or is no plain word, since it joins a name there. What names of Rust's a file has stays as it is.
Where a new name would meet another one in some file, the definition gets `_lem` behind it.

It also writes the names that port.py turned, and its own, in the must-fail edits, and in the pages between backquotes: tools/respelled.tsv
has them all, the old name and the new one on a line.
"""

import os
import re
import sys

TOKEN = re.compile(r"[^\s(){}.;,:@\"«»`|]+")
ALONE = re.compile(rf"(?<![.\w]){TOKEN.pattern}(?!\.[A-Za-z])")
DECLARED = re.compile(r"(?m)^ *(?:(?:pub|abbrev|unfoldable|ruleset|record|data) )*([^\s(){}.;,:@\"«»`|]+)(?: \{[^{}\n]*\})* :(?= |$)")
HERE = os.path.dirname(os.path.abspath(__file__))
TABLE = os.path.join(HERE, "respelled.tsv")
PAGES = ["README.md", "docs"]


def files(folder, endings):
    for top, folders, names in os.walk(folder):
        folders[:] = sorted(it for it in folders if it not in ("out", ".git", "target"))
        for name in sorted(names):
            if name.endswith(endings):
                yield os.path.join(top, name)


def read(path):
    with open(path, encoding="utf-8") as it:
        return it.read()


def write(path, text):
    with open(path, "w", encoding="utf-8") as it:
        it.write(text)


def is_proof(path):
    return os.path.basename(path) == "Proof.antt"


def respelled(name):
    """The name in snake case."""
    if not re.match(r"[a-z]", name):
        return name
    parts = name.split("-")
    parts = [re.sub(r"(?<=[a-z0-9])([A-Z])", lambda m: "_" + m[1].lower(), it) for it in parts]
    out = parts[0]
    for left, right in zip(parts, parts[1:]):
        plain = all(re.fullmatch(r"[a-z0-9_]+[₀-₉']*", it) for it in (left, right))
        out += ("_" if plain else "-") + right
    return out


def renamings(root):
    declared = {}
    tokens = {}
    for path in files(os.path.join(root, "crates"), (".antt", ".rt")):
        text = read(path)
        tokens[path] = {it[0] for it in ALONE.finditer(re.sub(r"(?m)(^|\s)(--|//)\s.*$", "", text))}
        if path.endswith(".antt") and not is_proof(path):
            for name in DECLARED.findall(text):
                declared.setdefault(name, []).append(path)
    table = {}
    for name in sorted(declared):
        new = respelled(name)
        if new == name:
            continue
        table[name] = new
    # Names that fall together: a definition goes before a lemma, and what stands already before both.
    taken, swapped = {}, {}
    for old, new in sorted(table.items(), key=lambda it: ("-" in it[0], it[0])):
        taken.setdefault(new, []).append(old)
    for new, olds in taken.items():
        for old in olds:
            first = old == olds[0] and new not in declared
            if old == olds[0] and new in declared and "-" not in old:
                # A lemma of port.py's has the definition's name.
                swapped[new] = new + "_lem"
                first = True
            beside = new not in swapped and any(old in tokens[p] and new in tokens[p] for p in tokens if p.endswith(".antt"))
            if not first or beside:
                table[old] = new + "_lem"
                if new + "_lem" in declared:
                    raise SystemExit(f"{old}: both {new} and {new}_lem stand already")
    return table, swapped


def turned(text, table, mark):
    """The text with the names of the table turned; in a comment only between backquotes."""

    def word(m):
        return table.get(m[0], m[0])

    def quoted(m):
        return TOKEN.sub(word, m[0])

    out = []
    for line in text.split("\n"):
        at = re.search(rf"(?:^|\s){mark}(?=\s|$)", line)
        code, comment = (line[: at.start()], line[at.start() :]) if at else (line, "")
        out.append(TOKEN.sub(word, code) + re.sub(r"`[^`]*`", quoted, comment))
    return "\n".join(out)


def swap(text, swapped):
    """The text with the lemmas' names turned that a definition takes: where they stand alone, and no function of Rust's is meant."""
    out = []
    for line in text.split("\n"):
        code = line.startswith("-- ") and "In order:" not in line and line or None
        out.append(line if code else ALONE.sub(lambda m: swapped.get(m[0], m[0]), line))
    return "\n".join(out)


def without_steps(text, table):
    """As turned, of a Proof.antt: what stands behind a dot of `c` is a name that Rattle made, but for what has a capital within."""
    kept = re.compile(r"\bc(?:\.[^\s(){}.;,:@\"«»`|]+)+")
    out, at = [], 0
    for m in kept.finditer(text):
        out.append(turned_keeping(text[at : m.start()], table))
        out.append(re.sub(r"[^.]+", lambda it: table.get(it[0], it[0]) if re.search("[a-z0-9][A-Z]", it[0]) else it[0], m[0]))
        at = m.end()
    out.append(turned_keeping(text[at:], table))
    return "".join(out)


def turned_keeping(text, table):
    return turned(text, table, "--")


def main(argv):
    root = os.getcwd()
    table, swapped = renamings(root)
    if argv == ["--list"]:
        for old, new in sorted({**table, **swapped}.items()):
            print(old + "\t" + new)
        return 0
    known = {}
    if os.path.exists(TABLE):
        known = dict(line.split("\t") for line in read(TABLE).splitlines() if "\t" in line)
    for path in files(os.path.join(root, "crates"), (".antt", ".rt")):
        text = read(path)
        if path.endswith(".antt"):
            text = swap(text, swapped)
        if is_proof(path):
            new = without_steps(text, table)
        else:
            new = turned(text, table, "--" if path.endswith(".antt") else "//")
        if new != read(path):
            write(path, new)
    every = {old: table.get(new, swapped.get(new, new)) for old, new in known.items()}
    every.update(table)
    for path in files(os.path.join(root, "crates"), (".edit",)):
        text = read(path)
        new = turned(text, every, "--")
        if new != text:
            write(path, new)
    for page in PAGES:
        paths = [page] if page.endswith(".md") else list(files(page, (".md",)))
        for path in paths:
            if os.path.basename(path).startswith("PORT"):
                continue
            text = read(path)
            new = re.sub(r"`[^`\n]*`", lambda m: TOKEN.sub(lambda w: every.get(w[0], w[0]), m[0]), text)
            if new != text:
                write(path, new)
    write(TABLE, "".join(f"{old}\t{new}\n" for old, new in sorted(every.items())))
    return 0


if __name__ == "__main__":
    raise SystemExit(main(sys.argv[1:]))
