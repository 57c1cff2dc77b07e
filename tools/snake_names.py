#!/usr/bin/env python3
"""Respells the definitions and lemmas that this repository declares: words in snake case, types in camel case.

usage: python3 tools/snake_names.py [--dry]      at the top of the repository

A name counts that a file of specs/ or proofs/ declares by a signature and that has a dash. It is respelled wherever it
stands as a whole word: in specs/ and proofs/, in the clauses and imports of src/, in planted bugs and in docs/. Names of
the library, goals and steps that the checker names, strings and the code of src/ are left alone.
A name that meets its new spelling in the same file is reported; OTHERWISE has those for which another word was chosen.
"""
import os
import re
import sys

# a field of a node's progress already has the plain name
OTHERWISE = {"first-failed": "first_failed_child"}
WORD = re.compile(r"[^\s(){}\[\],;.«»\"`|:]+")
SIGNATURE = re.compile(r"^(\s*)((?:(?:abbrev|unfoldable|pub|data|record)\s+)*)([^\s:({},;=.]+)((?:\s+[({].*?[)}])*)\s*:(?:\s|$)(.*)$")
IMPORT = re.compile(r"(?:ghost )?use ([^\s{;]+?)(?:\.\{([^}]*)\})?(?: as (\S+?))?;?\s*$")


def files(root, ends):
    for folder, dirs, names in os.walk(root):
        dirs[:] = sorted(d for d in dirs if d not in ("out", ".git"))
        for name in sorted(names):
            if name.endswith(ends):
                yield os.path.join(folder, name)


def read(path):
    with open(path, encoding="utf-8") as f:
        return f.read()


def respelled(name):
    if name in OTHERWISE:
        return OTHERWISE[name]
    parts = name.split("-")
    if name[0].isupper():
        return "".join(p[:1].upper() + p[1:] for p in parts)
    return "_".join(parts)


def declared(text):
    """The names with a dash that a file declares, and those of them that are fields of records."""
    names, fields, block = set(), set(), None
    for line in text.split("\n"):
        indent = len(line) - len(line.lstrip())
        if line.strip() and indent == 0:
            block = "record" if re.match(r"(pub )?record\b", line) else None
        m = SIGNATURE.match(line)
        if not m or "-" not in m.group(3) or line.lstrip().startswith("--"):
            continue
        if re.match(r"\(*(need|goal|choice|given)s?\.", m.group(5)):
            continue
        names.add(m.group(3))
        if block == "record" and indent:
            fields.add(m.group(3))
    return names, fields


def foreign(text):
    """The names that a file brings in from elsewhere than specs/ and proofs/ of the repository, and aliases of modules."""
    names, aliases = set(), set()
    for line in text.split("\n"):
        m = IMPORT.match(line.strip())
        if not m:
            continue
        path, items, alias = m.groups()
        own = any(path.startswith(f"Rattle.{c}.") for c in CRATES)
        made = re.search(r"\.(Goals|Needs|Given|Choices|TheVariants)$", path)
        if own and not made and not items:
            aliases.add(alias or path.split(".")[-1])
        if items and (not own or made):
            names |= {w.split(" as ")[0].strip() for w in items.split(",")}
    return names, aliases


def turned(text, renames, fields, aliases, ghost_only):
    def line_of(line):
        end = len(line)
        if ghost_only:
            comment = line.find("//")
            end = comment if comment >= 0 else end

        def word(m):
            w = m.group(0)
            if w not in renames or m.start() >= end:
                return w
            if ghost_only and line[:m.start()].count('"') % 2:
                return w
            before = line[:m.start()]
            if before.endswith("."):
                owner = re.search(r"([^\s(){}\[\],;.]+)\.$", before)
                path = re.search(r"Rattle\.[\w.+]+\.$", before)
                if not (w in fields or path or (owner and owner.group(1) in aliases)):
                    return w
            return renames[w]

        return WORD.sub(word, line)

    return "\n".join(line_of(line) for line in text.split("\n"))


def main():
    names, fields = set(), set()
    antt = list(files("crates", ".antt"))
    texts = {p: read(p) for p in antt + list(files("crates", ".rt"))}
    for p in antt:
        n, f = declared(texts[p])
        names |= n
        fields |= f
    renames = {n: respelled(n) for n in sorted(names)}
    changed = 0
    for p, text in texts.items():
        words = set(WORD.findall(text))
        skip, aliases = foreign(text)
        here = {}
        for w in sorted(words & renames.keys() - skip):
            if renames[w] in words:
                print(f"falls together: {p}: {w} with {renames[w]}")
            here[w] = renames[w]
        new = turned(text, here, fields, aliases, p.endswith(".rt"))
        if new != text:
            changed += 1
            if "--dry" not in sys.argv:
                with open(p, "w", encoding="utf-8") as f:
                    f.write(new)
    for p in list(files("crates", ".edit")) + list(files("docs", ".md")) + ["README.md"]:
        text = read(p)
        new = turned(text, renames, fields, set(), False)
        if new != text:
            changed += 1
            if "--dry" not in sys.argv:
                with open(p, "w", encoding="utf-8") as f:
                    f.write(new)
    print(f"{len(renames)} names, {changed} files")


CRATES = sorted(os.listdir("crates"))
if __name__ == "__main__":
    main()
