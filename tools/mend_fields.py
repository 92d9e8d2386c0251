#!/usr/bin/env python3
"""Reads what 'rt check' said of a crate (FILE) and puts the names of fields where proof files still have their numbers.

usage, in the crate's folder: tools/mend_fields.py FILE"""
import collections
import re
import sys

said = open(sys.argv[1], encoding="utf-8").read().split("\n")
wanted = collections.defaultdict(list)
for k, line in enumerate(said):
    at = re.match(r"(?:so far: )?\./(\S+\.antt):(\d+):(\d+): error: ", line)
    if not at:
        continue
    text = line
    for more in said[k + 1:k + 4]:
        if re.match(r"(so far: )?\./", more):
            break
        text += "\n" + more
    fields = re.search(r"has no field `(\d)`(?: — the fields that can be named here are|\n\s*(?:so far:\s+)?its fields are|\n\s*(?:so far:\s+)?the fields that can be named here are) ((?:`[^`]*`(?:, )?)+)", text)
    if fields:
        names = re.findall(r"`([^`]*)`", fields.group(2))
        wanted[at.group(1)].append((int(at.group(2)), int(at.group(3)), fields.group(1), names))
done = 0


def wide(path, row, names):
    """Writes the line 'unfolding NAMES' under the signature of the declaration whose body stands at this row."""
    lines = open(path, encoding="utf-8").read().split("\n")
    at = row - 1
    while at > 0 and not re.match(r"(\s*)(?:(?:abbrev|unfoldable|pub) )*[^\s(]+ : ", lines[at]):
        at -= 1
    deep = re.match(r"\s*", lines[at]).group(0)
    end = at + 1
    while end < row - 1 and not lines[end].startswith(deep + "unfolding ") and lines[end].startswith(deep + "    "):
        end += 1
    if lines[end].startswith(deep + "unfolding "):
        lines[end] = deep + names
    else:
        lines.insert(end, deep + names)
    text = "\n".join(lines)
    open(path, "w", encoding="utf-8").write(text)


opened = {}
for line in said:
    at = re.match(r"(?:so far: )?\./(\S+\.antt):(\d+):(\d+): note: (?:a trial run of this declaration was admitted by the kernel|the last of \d+ trial runs of this declaration was admitted by the kernel)\. That run had the line `(unfolding [^`]*)`", line)
    if at:
        opened[at.group(1), int(at.group(2))] = (at.group(4), re.findall(r"`([^`]+)` \(`([^`]+)\.([^`.]+)`\)", line))
for (path, row), (names, added) in sorted(opened.items(), reverse=True):
    wide(path, row, names)
    done += 1
for path in {p for p, _ in opened}:
    text = open(path, encoding="utf-8").read()
    for (p, _), (_, added) in opened.items():
        for short, module, name in added if p == path else []:
            if "." in short or "·" in short or re.search(r"(?m)^use .*[{ ]" + re.escape(name) + r"[,}]", text):
                continue
            line = f"use {module}.{{{name}}}\n"
            where = text.index("use ")
            text = text[:where] + line + text[where:]
    open(path, "w", encoding="utf-8").write(text)
if opened:
    print(f"{done} places mended")
    raise SystemExit
for k, line in enumerate(said):
    at = re.match(r"(?:so far: )?\./(\S+\.antt):(\d+):(\d+): error: .*has no field `(taken|left)`", line)
    if at:
        lines = open(at.group(1), encoding="utf-8").read().split("\n")
        row = int(at.group(2)) - 1
        new = {"taken": "true", "left": "false"}
        lines[row] = re.sub(r"\.(taken|left)(?![\w'-])", lambda m: "." + new[m.group(1)], lines[row])
        open(at.group(1), "w", encoding="utf-8").write("\n".join(lines))
        done += 1
for path, places in wanted.items():
    lines = open(path, encoding="utf-8").read().split("\n")
    for row, col, first, names in sorted(set((r, c, f, tuple(n)) for r, c, f, n in places), reverse=True):
        line = lines[row - 1]
        spots = [m for m in re.finditer(r"\.([01])((?:\.[01])*)(?![\w'-])", line) if abs(m.start() + 1 - col) <= 1 or abs(m.start() + 2 - col) <= 1]
        # the error may stand at the start of the path
        if not spots:
            spots = [m for m in re.finditer(r"\.([01])((?:\.[01])*)(?![\w'-])", line) if m.start() + 1 >= col][:1]
        if not spots:
            continue
        m = spots[0]
        steps = re.findall(r"[01]", m.group(0))
        auto = line[:m.start()].endswith((".auto", ".new"))
        i = 0
        while steps and steps[0] == "1" and (auto or i < len(names) - 1):
            i, steps = i + 1, steps[1:]
        if auto or i < len(names) - 1:
            if not steps or steps[0] != "0":
                continue
            steps = steps[1:]
        if i >= len(names):
            continue
        lines[row - 1] = line[:m.start()] + "." + names[i] + "".join("." + s for s in steps) + line[m.end():]
        done += 1
    open(path, "w", encoding="utf-8").write("\n".join(lines))
print(f"{done} places mended")
