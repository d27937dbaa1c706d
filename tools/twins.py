#!/usr/bin/env python3
"""Lists functions of src/ that are alike: their bodies are the same once each name that is not a word of the language, each number and each
string is replaced by one sign.    tools/twins.py [COMMIT]    (no commit: the files as they stand)"""
import re
import subprocess
import sys
from collections import defaultdict

WORDS = set("if else match while for loop in let mut return fn pub const struct enum impl trait as ref move true false self Self".split())


def files(commit):
    if commit:
        names = subprocess.run(["git", "ls-tree", "-r", "--name-only", commit, "crates"], capture_output=True, text=True, check=True).stdout.split("\n")
        for name in names:
            if re.fullmatch(r"crates/[^/]+/src/.*\.rt", name):
                yield name, subprocess.run(["git", "show", f"{commit}:{name}"], capture_output=True, text=True, check=True).stdout
    else:
        names = subprocess.run(["git", "ls-files", "crates/*/src/*.rt"], capture_output=True, text=True, check=True).stdout.split("\n")
        for name in filter(None, names):
            yield name, open(name).read()


def block(text, start):
    depth, i = 0, start
    while i < len(text):
        if text[i] == "{":
            depth += 1
        elif text[i] == "}":
            depth -= 1
            if depth == 0:
                return text[start + 1 : i]
        i += 1
    return ""


def functions(text):
    text = re.sub(r"//[^\n]*", "", text)
    for found in re.finditer(r"^[ ]*(?:pub(?:\(crate\))? )?(?:extern \"C\" )?fn (\w+)", text, re.M):
        # the body is the block that begins a line by itself, or follows the signature where there is no clause
        rest = text[found.end() :]
        body = re.search(r"^[ ]*\{[ ]*$|\{[ ]*\n", rest, re.M)
        own = re.search(r"^[ ]*\{[ ]*$", rest, re.M)
        clause = re.search(r"^\s+(requires|ensures)", rest, re.M)
        start = own if clause and own and clause.start() < own.start() and (not body or clause.start() < body.start()) else body
        # a member of a trait that ends in a semicolon has none
        member = re.search(r";[ ]*$", rest, re.M)
        if start and not (member and member.start() < start.start()):
            yield found.group(1), block(rest, rest.index("{", start.start()))


def shape(body):
    body = re.sub(r'b?"(\\.|[^"])*"|b?\'(\\.|[^\'])\'', "S", body)
    body = re.sub(r"\b\d\w*", "N", body)
    body = re.sub(r"\b[A-Za-z_]\w*\b", lambda m: m.group(0) if m.group(0) in WORDS else "x", body)
    return re.sub(r"\s+", "", body)


def main():
    alike = defaultdict(list)
    for name, text in files(sys.argv[1] if len(sys.argv) > 1 else None):
        for fn, body in functions(text):
            alike[shape(body)].append(f"{name[7:]} {fn}")
    places = 0
    for form, names in sorted(alike.items(), key=lambda x: x[1]):
        if len(names) > 1 and len(form) > 12:
            places += len(names)
            print(len(names), "; ".join(names))
    print("functions that are alike:", places)


main()
