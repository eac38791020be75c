#!/usr/bin/env python3
"""Spells the repository's own definitions, lemmas, fields and labels as Rattle's library spells names.

usage: python3 tools/snake_names.py [--dry]      at the top, once, right after port.py

A name with dashes that a file of specs/ or proofs/ declares gets underscores, or, where it begins with a capital,
becomes one word in camel case. Names that Rattle makes (goals, steps) and names of the library keep their dashes.
It stops, and writes nothing, where two names would fall together.
"""
import glob
import os
import re
import sys

BEGIN = r"(?<![\w'.\u25cc-])"
END = r"(?![\w'\u25cc-])"
SIGNATURE = re.compile(r"^\s*(?:(?:abbrev|unfoldable|pub)\s+)*([A-Za-z][\w'-]*(?:\s+[A-Za-z][\w'-]*)*)\s*:(?:\s|$)")
DATA = re.compile(r"^\s*(?:(?:abbrev|unfoldable|pub)\s+)*(?:data|record|ruleset)\s+([A-Za-z][\w'-]*)")
WORDS = {"abbrev", "unfoldable", "pub", "data", "record", "ruleset", "use", "mod", "module", "where", "unfolding"}
ALIAS = re.compile(r"\bas ([A-Za-z][\w'-]*)")


def files(pattern):
    return sorted(f for f in glob.glob("crates/*/" + pattern, recursive=True) if "/out/" not in f)


def read(path):
    with open(path, encoding="utf-8") as f:
        return f.read()


def code_of(line):
    return "" if line.lstrip().startswith("--") else line


def declared():
    names = set()
    for path in files("specs/**/*.antt") + files("proofs/**/*.antt"):
        for line in read(path).split("\n"):
            line = code_of(line)
            for found in ALIAS.findall(line) if line.startswith("use ") else []:
                names.add(found)
            record = DATA.match(line)
            plain = SIGNATURE.match(line)
            if record:
                names.add(record[1])
            elif plain:
                for name in plain[1].split():
                    if name not in WORDS and not re.search(r":\s*goal\." + re.escape(name) + r"\s*$", line):
                        names.add(name)
    return {n for n in names if "-" in n}


def spelled(name):
    if name[0].isupper():
        return "".join(part[:1].upper() + part[1:] for part in name.split("-"))
    return name.replace("-", "_")


def pieces(text, source):
    """The text in turns: what may hold names, and what may not (strings and comments of a source file, comments of the others)."""
    apart = r'(//[^\n]*|"(?:\\.|[^"\\])*")' if source else r"((?m:^[ \t]*--[^\n]*))"
    return re.split(apart, text)


def main():
    names = {n: spelled(n) for n in declared()}
    texts = {p: read(p) for p in files("specs/**/*.antt") + files("proofs/**/*.antt") + files("src/**/*.rt")}
    tokens = {}
    for path, text in texts.items():
        for piece in pieces(text, path.endswith(".rt"))[::2]:
            for token in re.findall(r"[\w'-]+", piece):
                tokens.setdefault(token, set()).add(path)
    together = {}
    for old, new in names.items():
        together.setdefault(new, set()).add(old)
    bad = [f"{sorted(olds)} fall together in {new}" for new, olds in together.items() if len(olds) > 1]
    functions = {f for p, t in texts.items() if p.endswith(".rt") for f in re.findall(r"\bfn (\w+)", t)}
    for old, new in sorted(names.items()):
        # a definition may have the name of the function that it defines: antt and Rattle keep the two apart
        both = set() if new in functions else tokens.get(old, set()) & tokens.get(new, set())
        if both:
            bad.append(f"{old}: {new} stands beside it in {sorted(both)}")
    if bad:
        print("\n".join(bad))
        raise SystemExit(1)
    print(f"{len(names)} names")
    if "--dry" in sys.argv:
        return
    one = re.compile(BEGIN + "(" + "|".join(re.escape(n) for n in sorted(names, key=len, reverse=True)) + ")" + END)
    member = re.compile(r"(?<=\.)(" + "|".join(re.escape(n) for n in sorted(names, key=len, reverse=True)) + ")" + END)
    for path, text in texts.items():
        parts = pieces(text, path.endswith(".rt"))
        for k in range(0, len(parts), 2):
            parts[k] = one.sub(lambda m: names[m[1]], parts[k])
            parts[k] = member.sub(lambda m: names[m[1]], parts[k])
        new = "".join(parts)
        if new != text:
            with open(path, "w", encoding="utf-8") as f:
                f.write(new)


if __name__ == "__main__":
    os.chdir(os.popen("git rev-parse --show-toplevel").read().strip())
    main()
