#!/usr/bin/env python3
"""Brings this repository's own definitions and lemmas to today's spelling, after the kit's port.py has run: lower-case
names are in snake case (littleBytes and little-bytes-length become little_bytes and little_bytes_length). Two names that
would fall together stay apart: the lemma, which was written with dashes, gets '_lem' behind it. Names that the kit's
library has too are left alone.

usage: tools/respell.py [FOLDER]      the repository's top, this one where none is named; prints each name that changed"""
import collections
import glob
import os
import re
import sys

ROOT = sys.argv[1] if len(sys.argv) > 1 else os.path.dirname(os.path.dirname(os.path.abspath(__file__)))
NAME = r"[^\s(){}\[\];,.`:λ]+"
DECLARED = re.compile(r"\s*(?:(?:abbrev|unfoldable|pub)\s+)*(" + NAME + r")\s*:\s")
GROUPED = re.compile(r"(?:pub )?use (\S+?)\.\{(.*)\}")
EDGE = r"[\w'\-≡≢₀₁₂₃₄◌]"


def read(path):
    with open(path, encoding="utf-8") as f:
        return f.read()


def files(*endings):
    found = glob.glob(os.path.join(ROOT, "crates", "*", "**", "*"), recursive=True)
    return sorted(p for p in found if p.endswith(endings) and f"{os.sep}out{os.sep}" not in p)


def snake(name):
    return re.sub(r"(?<=[a-z0-9'])([A-Z])", lambda m: "_" + m.group(1).lower(), name).replace("-", "_")


def names(crates):
    """The lower-case names that files of specs/ and proofs/ declare, and those that they take from the library."""
    own, taken = set(), set()
    for path in files(".antt", ".rt"):
        for line in read(path).splitlines():
            if re.match(r"(pub )?(ghost )?use ", line):
                own |= set(re.findall(r" as ([a-z][A-Za-z0-9]*)\b", line))
            if path.endswith(".rt"):
                continue
            declared, grouped = DECLARED.match(line), GROUPED.match(line)
            if declared and not line.lstrip().startswith(("--", "let ")):
                own.add(declared.group(1))
            if grouped:
                crate = re.match(r"Rattle\.(\w+)\.", grouped.group(1))
                if not (crate and crate.group(1) in crates):
                    taken |= {name.strip().split(" as ")[0] for name in grouped.group(2).split(",")}
    return {name for name in own if re.match(r"[a-z]", name)}, taken


def spelling(own, taken):
    """Each name that changes with its new one."""
    together = collections.defaultdict(list)
    for name in own:
        together[snake(name)].append(name)
    new = {}
    for word, olds in together.items():
        lemmas = sorted(name for name in olds if "-" in name)
        others = [name for name in olds if "-" not in name]
        for name in olds:
            apart = name in lemmas and (others or word in taken or name != lemmas[0])
            if name not in taken and name != (word + "_lem" if apart else word):
                new[name] = word + "_lem" if apart else word
    return new


def main():
    crates = set(re.findall(r"^([a-z0-9_]+):", read(os.path.join(ROOT, "crates.txt")), re.M))
    new = spelling(*names(crates))
    word = re.compile(rf"(?<!{EDGE})(" + "|".join(re.escape(n) for n in sorted(new, key=len, reverse=True)) + rf")(?!{EDGE})")
    for path in files(".antt", ".rt"):
        before = read(path)
        # what stands between quotes is printed or read, and stays
        parts = re.split(r'("(?:[^"\\\n]|\\.)*")', before)
        after = "".join(p if p.startswith('"') else word.sub(lambda m: new[m.group(1)], p) for p in parts)
        if after != before:
            with open(path, "w", encoding="utf-8") as f:
                f.write(after)
    for old in sorted(new):
        print(old, new[old])


main()
