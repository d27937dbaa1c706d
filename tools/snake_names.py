#!/usr/bin/env python3
"""Brings the names of definitions, constructors, fields and lemmas below crates/ to snake case: `countAt` and `count-at` become `count_at`.

usage: python3 tools/snake_names.py [--look]       at the top of the repository; with --look nothing is written, and clashes are listed

Types, modules, functions of src/, strings and most local names stay as they are. What proofs/FUNCTION/ holds is respelled where it names one of
these, and its own names are left: they are the prover's.
"""

import collections
import os
import re
import sys

# a name of antt, in whole: letters of any alphabet, digits, and the signs that a name may have
TOKEN = re.compile(r"[^\W_][\w'₀-₉-]*|_[\w'₀-₉-]+")
# a signature, at the top or within a module, a field, or a constructor; and a name that a `let` binds
SIGNATURE = re.compile(r"^ *(?:abbrev |unfoldable )?(?:pub )?([^\s:{}()]+)((?: \{[^}]*\}| \([^)]*\))*) :(?= |$)")
LET = re.compile(r"\blet ([^\s:{}()=]+) ")
# two lemmas whose names differ in one letter's case, and two that name a word of the library by its old name
BY_HAND = {"case-O": "case_o_bytes", "case-o": "case_o_read", "getD-there": "get_or_there", "get_d_past": "get_or_past"}
# variables whose names stand in definitions
VARIABLES = {"tileRow": "tile_row", "tileCol": "tile_col", "tileRows": "tile_rows", "tileCols": "tile_cols", "hT": "told_counts"} | {
    n: n.replace("-", "_")
    for n in (
        "loop-place", "next-other", "next-t", "sheet-free", "sheet-counts", "is-p", "says-count", "says-way", "says-code", "no-mark", "not-inside",
        "top-is", "side-is", "on-to", "some-height", "some-width", "tile-counts", "no-border", "count-ends", "mend-ends", "record-ends", "finish-ends",
        "join-ends",
    )
}


def snake(name):
    if name in BY_HAND:
        return BY_HAND[name]
    out = re.sub(r"(?<=[a-z0-9])(?=[A-Z])", "_", name)
    return out.replace("-", "_").lower()


def files(root, endings):
    for folder, dirs, names in os.walk(os.path.join(root, "crates")):
        dirs[:] = sorted(d for d in dirs if d != "out")
        for n in sorted(names):
            if n.endswith(endings):
                yield os.path.join(folder, n)


def is_walk(path):
    """A file of the proof of one function, whose own names are the prover's."""
    return os.path.basename(path) in ("Proof.antt", "Answers.antt", "Invariants.antt") and os.path.basename(os.path.dirname(path)) != "proofs"


def own_names(root):
    found = collections.defaultdict(set)
    for path in files(root, ".antt"):
        if is_walk(path):
            continue
        with open(path, encoding="utf-8") as f:
            for line in f:
                m = SIGNATURE.match(line)
                for name in ([m.group(1)] if m else []) + LET.findall(line):
                    if "◌" not in name and re.match(r"[a-zα-ω]", name):
                        found[name].add(path)
    return found


def from_outside(root, text):
    """The names that a file imports from another library than the repository's crates."""
    own = set(os.listdir(os.path.join(root, "crates")))
    found = set()
    for module, names in re.findall(r"^(?:ghost )?use ([^{\s]*)\.\{([^}]*)\}", text, re.M):
        crate = re.match(r"Rattle\.(\w+)\.", module)
        if not crate or crate.group(1) not in own:
            found |= {n.strip() for n in names.split(",")}
    return found


def respell(text, names, rust):
    out = []
    for line in text.split("\n"):
        if rust and "//" in line:
            code, rest = line.split("//", 1)
            rest = "//" + rest
        else:
            code, rest = line, ""
        parts = re.split(r'("(?:[^"\\]|\\.)*")', code)
        for i in range(0, len(parts), 2):
            parts[i] = TOKEN.sub(lambda m: names.get(m.group(0), m.group(0)), parts[i])
        rest = re.sub(r"`[^`]*`", lambda b: TOKEN.sub(lambda m: names.get(m.group(0), m.group(0)), b.group(0)), rest)
        out.append("".join(parts) + rest)
    return "\n".join(out)


def main(argv):
    root = "."
    look = "--look" in argv
    owned = own_names(root)
    names = {n: snake(n) for n in owned if snake(n) != n}
    # A lemma that would have the name of a definition gets `_lem`. Definitions are those of specs/, and what was written as `countAt`.
    groups = collections.defaultdict(set)
    for n in owned:
        groups[names.get(n, n)].add(n)
    for new, olds in sorted(groups.items()):
        defined = {o for o in olds if "-" not in o and (o != new or any("/specs/" in p for p in owned[o]))}
        if len(olds) > 1 and defined:
            for o in olds - defined:
                names[o] = new + "_lem"
    names |= VARIABLES
    by_new = collections.defaultdict(set)
    for n in owned:
        by_new[names.get(n, n)].add(n)
    for new, olds in sorted(by_new.items()):
        if len(olds) > 1:
            print(f"together: {new}: " + "; ".join(f"{o} in {', '.join(sorted(owned[o]))}" for o in sorted(olds)))
    changed = 0
    for path in files(root, (".antt", ".rt")):
        with open(path, encoding="utf-8") as f:
            text = f.read()
        tokens = set(TOKEN.findall(text))
        for new, olds in by_new.items():
            here = tokens & (olds - {new})
            if (here and new in tokens) or len(here) > 1:
                print(f"clash: {path}: {', '.join(sorted(here))} becomes {new}, which stands there too")
        outside = from_outside(root, text)
        after = respell(text, {o: n for o, n in names.items() if o not in outside}, path.endswith(".rt"))
        if after != text:
            changed += 1
            if not look:
                with open(path, "w", encoding="utf-8") as f:
                    f.write(after)
    print(f"{len(names)} names, {changed} files")


if __name__ == "__main__":
    main(sys.argv[1:])
