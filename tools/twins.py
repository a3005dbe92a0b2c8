#!/usr/bin/env python3
"""Lists functions of crates/*/src that are alike but for names, numbers and texts.

usage: tools/twins.py [COMMIT]     the working tree, or that commit
"""
import collections
import pathlib
import re
import subprocess
import sys

KEYWORDS = set("fn pub let mut if else match for in while loop return self Self Ok Err Some None true false as impl struct enum".split())


def sources(commit):
    if commit is None:
        for path in sorted(pathlib.Path("crates").glob("*/src/*.rt")):
            yield str(path), path.read_text()
        return
    names = subprocess.run(["git", "ls-tree", "-r", "--name-only", commit, "crates"], capture_output=True, text=True, check=True)
    for name in names.stdout.split():
        if re.fullmatch(r"crates/\w+/src/\w+\.rt", name):
            yield name, subprocess.run(["git", "show", f"{commit}:{name}"], capture_output=True, text=True, check=True).stdout


def functions(text):
    lines = text.split("\n")
    for start, line in enumerate(lines):
        head = re.match(r"( *)(?:pub(?:\(crate\))? )?fn (\w+)", line)
        if not head:
            continue
        end = next((i for i in range(start, len(lines)) if lines[i] == head[1] + "}"), None)
        if end is not None:
            yield start + 1, head[2], [l for l in lines[start:end] if not re.match(r" *(ensures|requires|//)", l)]


def shape(body):
    text = re.sub(r'b?"(\\.|[^"\\])*"|b?\'(\\.|[^\'\\])+\'|\b\d[\d_]*\b', "0", " ".join(body))
    words = re.findall(r"[A-Za-z_]\w*|[^\sA-Za-z_]", text)
    return tuple(w if w in KEYWORDS or not (w[0].isalpha() or w[0] == "_") else "x" for w in words)


def main():
    groups = collections.defaultdict(list)
    for name, text in sources(sys.argv[1] if len(sys.argv) > 1 else None):
        for line, function, body in functions(text):
            if len(body) > 2:
                groups[shape(body)].append(f"{name}:{line} {function}")
    twins = [g for g in groups.values() if len(g) > 1]
    for group in sorted(twins):
        print("; ".join(group))
    print(len(twins), "groups,", sum(map(len, twins)), "functions")


main()
