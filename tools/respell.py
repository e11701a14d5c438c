#!/usr/bin/env python3
"""Brings the repository's own words, lemmas and types to one spelling: words and lemmas in snake case, types in camel case.

usage: python3 tools/respell.py [--dry] [ROOT]

It goes over the .antt and .rt files of crates/ and over the edits of definitions. A name is the repository's own where one of its .antt files
defines it: at the head of a signature, as a record, a field or a constructor, or by a `let`. Names of goals, which the check makes from the source,
stay as they are. Run it once.
"""

import os
import re
import sys

# Characters that end a name.
NAME = re.compile(r"[^\s.;(){}\[\]@\",`|λ◌⌜⌝×⊎]+")
STEP = re.compile(r"(?<![\w.'])[clw]\.\Z")
# Names whose plain respelling is taken by the library or by another name of the repository.
TAKEN = {
    "getD-same": "same_elements",
    "bit-and": "bit_of_and",
    "bit-or": "bit_of_or",
}
# Words that open a line and are no names.
WORDS = {"let", "in", "pub", "use", "open", "abbrev", "unfoldable", "record", "data", "where", "module", "_", "mutual"}


def files(root, ends):
    for folder, dirs, names in os.walk(os.path.join(root, "crates")):
        dirs[:] = sorted(d for d in dirs if d != "out")
        for name in sorted(names):
            if name.endswith(ends):
                yield os.path.join(folder, name)


def defined(text):
    """The names that a file of specs/ or proofs/ defines, without those of goals."""
    for line in text.splitlines():
        if line.lstrip().startswith("--"):
            continue
        head = re.match(r"\s*(?:(?:abbrev|unfoldable|pub)\s+)*(?:record|data)\s+(\S+)", line)
        if head:
            yield head.group(1)
        head = re.match(r"\s*(?:(?:abbrev|unfoldable|pub)\s+)*((?:[^\s(){}:=;,λ→]+ )*[^\s(){}:=;,λ→]+)\s+:\s*(\S*)", line)
        if head and not head.group(2).startswith(("goal.", "need.", "given.")):
            yield from (n for n in head.group(1).split() if n not in WORDS)
        for bound in re.finditer(r"\blet ([^\s:=(]+)\s*[:=]", line):
            yield bound.group(1)


def respelled(name):
    if name in TAKEN:
        return TAKEN[name]
    if name[0].isupper():
        return "".join(part[:1].upper() + part[1:] for part in name.split("-"))
    return name.replace("-", "_")


def main(argv):
    dry = "--dry" in argv
    root = next((a for a in argv if not a.startswith("--")), ".")
    texts = {p: open(p, encoding="utf-8").read() for p in files(root, (".antt", ".rt", ".edit"))}
    own = {n for p, t in texts.items() if p.endswith(".antt") for n in defined(t) if "-" in n.strip("-") and not n.startswith("-")}
    to = {n: respelled(n) for n in own}
    # two names that fall together
    used = {}
    for p, t in texts.items():
        for n in NAME.findall(t):
            used.setdefault(n, set()).add(p)
    for n, new in sorted(to.items()):
        if new in used:
            print(f"look: {n} becomes {new}, which stands in {', '.join(sorted(os.path.relpath(p, root) for p in used[new])[:6])}")
    seen = {}
    for n, new in to.items():
        if seen.setdefault(new, n) != n:
            print(f"look: {n} and {seen[new]} both become {new}")
    changed = 0
    for p, t in texts.items():
        if p.endswith(".edit") and "file: specs/" not in t:
            continue
        # In a function's own proof a name behind `c.`, `l.` or `w.` is that of a step, which the check makes from the source.
        steps = os.path.basename(p) in ("Answers.antt", "Invariants.antt")
        new = NAME.sub(lambda m: m.group() if steps and STEP.search(t, 0, m.start()) else to.get(m.group(), m.group()), t)
        if new != t:
            changed += 1
            if not dry:
                open(p, "w", encoding="utf-8").write(new)
    print(f"{len(to)} names, {changed} files")
    return 0


if __name__ == "__main__":
    raise SystemExit(main(sys.argv[1:]))
