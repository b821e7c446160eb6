#!/usr/bin/env python3
"""Lists functions and impl blocks of crates/*/src whose bodies differ only in names, types, numbers and texts.

Usage: tools/twins.py [LINES]   bodies of at least LINES lines (3 where it is left out)
"""
import glob
import re
import sys
from collections import defaultdict

KEEP = set("fn let mut if else match for while loop in return impl pub struct enum self Self Ok Err Some None true false as break".split())


def shape(body):
    body = re.sub(r"//[^\n]*", "", body)
    body = re.sub(r'b?"(\\.|[^"])*"|b?\'(\\.|[^\'\\])\'', "T", body)
    body = re.sub(r"\b[A-Za-z_]\w*", lambda m: m.group() if m.group() in KEEP else "x", body)
    body = re.sub(r"\b[0-9][0-9_]*\w*", "0", body)
    body = re.sub(r"x(\s*::\s*x)+", "x", body)
    return re.sub(r"\s+", " ", body).strip()


def block(text, at):
    """The text from the brace at `at` to its partner, and where it ends."""
    depth = 0
    for i in range(at, len(text)):
        depth += {"{": 1, "}": -1}.get(text[i], 0)
        if depth == 0:
            return text[at : i + 1], i + 1
    return text[at:], len(text)


def functions(text):
    for found in re.finditer(r"^[ ]*(?:pub(?:\(crate\))? )?(?:const )?fn (\w+)", text, re.M):
        at = found.end()
        # clauses stand in braces too: the body is the last brace that begins a line or ends the signature's line
        body = re.compile(r"^[ ]*\{$|\) (?:-> [^{;]*)?\{$|\{\}$", re.M).search(text, at)
        end = text.find(";\n", at)
        if body is None or (0 <= end < body.start() and "\n" not in text[at:end].strip()):
            continue
        yield found.group(1), text.count("\n", 0, found.start()) + 1, block(text, body.end() - 1 if text[body.end() - 1] == "{" else body.end() - 2)[0]


def main():
    least = int(sys.argv[1]) if len(sys.argv) > 1 else 3
    groups = defaultdict(list)
    for path in sorted(glob.glob("crates/*/src/**/*.rt", recursive=True)):
        text = open(path).read()
        for name, line, body in functions(text):
            if body.count("\n") - 1 >= least:
                groups[shape(body)].append(f"{path[7:]}:{line} {name}")
    twins = [places for places in groups.values() if len(places) > 1]
    for places in twins:
        print("  ".join(places))
    print(f"{len(twins)} groups, {sum(map(len, twins))} functions")


main()
