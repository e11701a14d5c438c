#!/usr/bin/env python3
"""Lists the places in src/ at which older forms of the language may stand, by point: tools/places.py [COMMIT] [-v].

It finds candidates and decides nothing: docs/DESIGN-PASS.md says of each what became of it.
"""
import collections
import re
import subprocess
import sys

commit = next((word for word in sys.argv[1:] if word != "-v"), "HEAD")
verbose = "-v" in sys.argv


def git(*words):
    return subprocess.run(["git", *words], check=True, capture_output=True, text=True).stdout


def sources():
    for path in git("ls-tree", "-r", "--name-only", commit, "crates").splitlines():
        if "/src/" in path and path.endswith(".rt"):
            yield path, git("show", f"{commit}:{path}")


FILES = [(path, text) for path, text in sources() if not path.endswith("tests.rt")]


def lines(pattern):
    found = re.compile(pattern)
    return [f"{path}:{number}: {line.strip()}"
            for path, text in FILES
            for number, line in enumerate(text.splitlines(), 1)
            if found.search(line) and not line.strip().startswith("//")]


def names_defined_twice():
    defined = collections.defaultdict(list)
    for path, text in FILES:
        for name in re.findall(r"\bfn ([a-z_0-9]+)", text):
            defined[name].append(path)
    return [f"{name}: {' '.join(paths)}" for name, paths in sorted(defined.items()) if len(paths) > 1]


def groups(text):
    """The parts in parentheses, and the whole, of a clause."""
    starts = []
    for at, char in enumerate(text):
        if char == "(":
            starts.append(at)
        elif char == ")" and starts:
            yield text[starts.pop():at + 1]


def clauses_repeated():
    """Phrases of five words or more that stand in the clauses of three functions or more, whatever is before or after."""
    where = collections.defaultdict(set)
    for path, text in FILES:
        for function in re.split(r"(?=\bfn [a-z_0-9]+)", text)[1:]:
            name = re.match(r"fn ([a-z_0-9]+)", function)[1]
            for clause in re.findall(r"^\s*(?:requires|ensures)\*?.*?\{(.*)\}$", function, re.M):
                clause = re.sub(r"\.(old|new|now|entry)\b", "", clause)
                words = clause.split()
                for size in (5, 6, 7, 8):
                    for at in range(len(words) - size + 1):
                        where[" ".join(words[at:at + size])].add(f"{path}:{name}")
                for group in groups(clause):
                    if len(group.split()) >= 3:
                        where[group].add(f"{path}:{name}")
    often = {phrase: places for phrase, places in where.items() if len(places) >= 3}
    return [f"{len(places)} functions: {phrase}" for phrase, places in sorted(often.items(), key=lambda item: -len(item[1]))
            if not any(phrase != other and phrase in other and often[other] == places for other in often)]


POINTS = [
    ("1 enums, codes, flags", lambda: lines(
        r"\benum |Option<Option|pub value: Option|\(bool,|, bool\)|fn (number|row|line|byte|count)\(self\)|fn numbered|const LAST_|\bsize: &mut")),
    ("2 names defined more than once", names_defined_twice),
    ("3 loops and counters", lambda: lines(r"\bfor \w+ in \d|\bwhile\b|\.enumerate\(\)|\+= 1\b|\bfor \(")),
    ("4 comparisons, conversions, printing", lambda: lines(
        r"matches!|impl.*(From|Display|PartialEq|Ord|Clone|Copy)\b.* for |fn (is_\w+|name|reason|alike|numbered|of|call)\(|\bas (u8|u16|u32|u64|i32|usize)\b")),
    ("5 phrases in the clauses of three functions or more", clauses_repeated),
    ("6 arrays, and counts beside them", lambda: lines(
        r"^\s*(pub(\(crate\))? )?\w+: \[.*; ?\w+\],|^\s*(pub )?(count|depth|rows|length|end|size): usize|\[0u8; |&mut \[u8\]")),
    ("7 functions as values, and switches", lambda: lines(r"\bfn\(|\bdyn\b|Box<|\bFn(Mut|Once)?\b|match (self|call|row|kind|operation|answer)\b")),
]

for title, find in POINTS:
    found = find()
    print(f"{title}: {len(found)}")
    if verbose:
        for place in found:
            print(f"    {place}")
proofs = [path for path in git("ls-tree", "-r", "--name-only", commit, "crates").splitlines() if "/proofs/" in path]
total = sum(len(git("show", f"{commit}:{path}").splitlines()) for path in proofs)
print(f"8 files of proofs, and their lines: {len(proofs)}, {total}")
