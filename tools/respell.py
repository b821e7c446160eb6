#!/usr/bin/env python3
"""Brings the repository's own definitions and lemmas to one spelling.

Run once at the top of the repository, after the toolchain's own porting script. Facts, records of facts and other types
become camel case, every other name of specs/ and proofs/ snake case, and the prime an apostrophe. Names of the toolchain
(the goals of a function, the steps of its code, its library) keep theirs, as do all names of the Rust code: a name is
respelled only where a file of specs/ or proofs/ declares it. It prints the names that would fall together.
"""

import pathlib
import re
import sys

TOP = pathlib.Path(sys.argv[1] if len(sys.argv) > 1 else ".")
PRIME, APOSTROPHE = "\u2032", "'"
WORD = re.compile(r"(?<![\w'\u2032-])[A-Za-z][\w'\u2032]*(?:-[\w'\u2032]+)+")
HEAD = re.compile(r"^\s*(?:(?:abbrev|unfoldable|pub|record|data|ruleset)\s+)+([A-Za-z][\w'\u2032-]*)")
PLAIN = re.compile(r"^\s*([A-Za-z][\w'\u2032-]*)\s*(?:[({][^)}]*[)}]\s*)*:\s")
BOUND = re.compile(r"(?:\blet\s+|\u03bb\s*|[({|;\[]\s*)([A-Za-z][\w'\u2032-]*)\s*(?::|=|\.|,|\u21a6)")


def antt_files():
    return [f for folder in ("specs", "proofs") for f in sorted(TOP.glob(f"crates/*/{folder}/**/*.antt"))]


def foreign_names(text):
    """What a file imports from elsewhere, and the names that the toolchain gives goals."""
    names = set()
    for path, listed in re.findall(r"^(?:ghost )?use ([\w.+'-]+)\.\{([^}]*)\}", text, re.M):
        crate = path.split(".")[1] if path.startswith("Rattle.") else ""
        if not (TOP / "crates" / crate).is_dir() or not crate:
            names.update(re.split(r"\s+as\s+|,\s*|\s+", listed))
    names.update(re.findall(r"\bgoal\.([\w'-]+)", text))
    return names


def declared(text):
    """Every name that stands where a name is declared: at the head of a signature, in a record, in a let or a case."""
    names = set()
    for line in text.split("\n"):
        if line.startswith("use ") or line.lstrip().startswith("--"):
            continue
        for form in (HEAD, PLAIN):
            found = form.match(line)
            if found:
                names.add(found.group(1))
        names.update(BOUND.findall(line))
        names.update(re.findall(r"^([A-Za-z][\w'\u2032-]*)\b", line))
    return names


def respelled(name):
    parts = name.replace(PRIME, APOSTROPHE).split("-")
    if parts[0][:1].isupper():
        return "".join(p[:1].upper() + p[1:] for p in parts)
    return "_".join(parts)


def renamed(text, table):
    return WORD.sub(lambda m: table.get(m.group(0), m.group(0)), text)


def in_ghost(text, table):
    """A Rust file: the words outside of comments and strings."""
    piece = re.compile(r'//[^\n]*|b?"(?:[^"\\]|\\.)*"', re.S)
    out, at = [], 0
    for m in piece.finditer(text):
        out.append(renamed(text[at : m.start()], table))
        out.append(m.group(0))
        at = m.end()
    return "".join(out) + renamed(text[at:], table)


def main():
    texts = {f: f.read_text() for f in antt_files()}
    own, foreign = set(), set()
    for text in texts.values():
        own |= declared(text)
        foreign |= foreign_names(text)
    for f in TOP.glob("crates/*/src/**/*.rt"):
        foreign |= foreign_names(f.read_text())
    table = {n: respelled(n) for n in own - foreign if "-" in n}
    words = set()
    for text in texts.values():
        words.update(re.findall(r"[A-Za-z][\w'\u2032-]*", text))
    for old, new in sorted(table.items()):
        if new in words:
            print(f"falls together: {old} and {new}")
    for f, text in texts.items():
        new = renamed(text, table).replace(PRIME, APOSTROPHE)
        if new != text:
            f.write_text(new)
    for f in sorted(TOP.glob("crates/*/src/**/*.rt")):
        text = f.read_text()
        new = in_ghost(text, table).replace(PRIME, APOSTROPHE)
        if new != text:
            f.write_text(new)
    for f in sorted(TOP.glob("docs/*.md")) + [TOP / "README.md"]:
        text = f.read_text()
        new = re.sub(r"`[^`\n]+`", lambda m: renamed(m.group(0), table), text)
        if new != text:
            f.write_text(new)
    print(f"{len(table)} names respelled")


main()
