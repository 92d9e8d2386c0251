#!/usr/bin/env python3
"""Brings the wrong versions to today's spelling: the edits under crates/*/must-fail/ and wrong/.

    tools/turn_edits.py                       turns those that nobody has turned yet
    tools/turn_edits.py EDIT...               turns these anew
    tools/turn_edits.py --check [EDIT]...     writes nothing: says which fit, and which mean what they meant

An edit is turned from what it was at the commit OLD, the last in the older spelling: its texts are turned as the
sources were, clauses and names. An import that it adds goes into today's import of the same file. What no rule
turns stands in BY_HAND.

An edit fits where it can be applied. It means what it meant where the lines that it takes out and puts in, in the
same functions, are those of the older one, turned; lines that another layout broke are compared as they run on.
"""
import difflib
import functools
import glob
import os
import re
import subprocess
import sys

sys.dont_write_bytecode = True
ROOT = os.path.dirname(os.path.dirname(os.path.abspath(__file__)))
OLD = "6a87efa"
LIBRARY = ("mathlib.", "lib.", "Prim.")
PRELUDE = "Rattle.std.specs.Prelude"
OPERATORS = {"_∷_": "◌∷◌"}

# What no rule turns: of an edit some pairs, by their older first text.
BY_HAND = {
    # The clause is not at the line's start.
    "crates/books/must-fail/other_row_rewritten.edit": {
        "(now (list .exit) ≡ withDayRow (at .0) row": [("list.new ≡ with_day_row at.0 row", "list.new ≡ with_day_row 0 row")],
    },
    # A table of constants has several of them on a line now.
    "wrong/sha256/round_constant_one_too_high.edit": {
        "    0x06ca6351,": [(" 0x06ca6351,", " 0x06ca6352,")],
    },
    # The clause, which comes first, has the same words.
    **{
        f"wrong/units/{name}.edit": {"self.0": [("        self.0", f"        self.0 {less}")]}
        for name, less in {
            "index_divided_by_32": "/ 32",
            "index_one_byte": "% 256",
            "zatoshi_upper_half_lost": "% 4294967296",
            "zatoshi_whole_coins": "/ 100000000",
        }.items()
    },
}


def git(*words):
    return subprocess.run(["git", "-C", ROOT, *words], capture_output=True, text=True, check=True).stdout


@functools.cache
def old_text(path):
    return git("show", f"{OLD}:{path}")


def now_text(path):
    with open(os.path.join(ROOT, path), encoding="utf-8") as f:
        return f.read()


# How a text is turned.


@functools.cache
def words_of_today():
    """All words of the sources as they are."""
    found = set()
    for path in glob.glob(os.path.join(ROOT, "crates", "*", "s*", "**", "*.*t*"), recursive=True):
        if path.endswith((".rt", ".antt")):
            with open(path, encoding="utf-8") as f:
                found |= set(re.findall(r"[\w']+", f.read()))
    return found


def snake(word):
    return re.sub(r"(?<=[a-z0-9])([A-Z])", lambda m: "_" + m[1].lower(), word)


def names(text, here=""):
    """A lower-case word with capitals within is a definition's name, which is in snake case now, but where the file has it
    as it was."""

    def turned(m):
        kept = re.search(rf"(?<![\w']){m[0]}(?![\w'])", here) or snake(m[0]) not in words_of_today()
        return m[0] if kept else snake(m[0])

    return re.sub(r"(?<![\w'])[a-z][a-z0-9]*(?:[A-Z][a-z0-9]*)+(?![\w'])", turned, text)


def paths(text):
    text = re.sub(r"Rattle·(\w+)(?:·specs)?\.specs\.", r"Rattle.\1.specs.", text)
    return text.replace(".the-variants.", ".TheVariants.")


def fields(text):
    """A projection is written tight."""
    before = None
    while before != text:
        before = text
        text = re.sub(r"\(([\w']+(?:\.\w+)*) \.(\w+)\)", r"\1.\2", text)
        text = re.sub(r"(?<=[\w)]) \.(\w+)", r".\1", text)
    return re.sub(r"\(([a-z][\w']*(?:\.\w+)+)\)", r"\1", text)


def values(text, lent):
    """Values of what is lent, before and after the call; a parameter that is lent to be changed is one of `lent`."""
    text = re.sub(r"\(now \((\w+) \.entry\)\)|now \((\w+) \.entry\)", lambda m: f"{m[1] or m[2]}.{'old' if (m[1] or m[2]) in lent else 'now'}", text)
    text = re.sub(r"\(now \((\w+) \.exit\)\)|now \((\w+) \.exit\)", lambda m: f"{m[1] or m[2]}.new", text)
    return re.sub(r"\(now (\w+)\)|(?<!\.)\bnow (\w+)", lambda m: f"{m[1] or m[2]}.now", text)


def clauses(text):
    """The clauses of a text on one line. Where a function has two of a kind, each has a name."""
    lent = set(re.findall(r"(\w+): &mut ", text))

    def turned(m):
        kind, bound, fact = m[1], m[2], m[3]
        fact = values(fact, lent)
        if bound and bound != "_":
            fact = re.sub(rf"(?<![\w.]){bound}(?!\w)", "result", fact)
        return f"{kind} {{ {fields(fact)} }}"

    text = re.sub(r"(requires|ensures) \{ (?:λ (\w+)\. )?⌜ (.*?) ⌝ \}", turned, text)
    several = list(re.finditer(r"ensures \{ (.*?) \}(?= ensures| \{)", text))
    if len(several) > 1:
        for m in reversed(several):
            text = text[: m.start()] + f"ensures {clause_name(m[1])} {{" + text[m.start() + len("ensures {") :]
    return text


def clause_name(fact):
    """As in the sources: what the clause tells of."""
    told = re.match(r"(\w+)\.(new|\w+)\b", fact)
    return "value" if not told else f"{told[1]}_after" if told[2] == "new" else {"0": "first_value", "1": "second_value"}.get(told[2], f"{told[2]}_value")


def derives(text):
    """A type that is given out, or taken, says that it can be copied."""
    m = re.match(r"struct (\w+)\(", text)
    return "#[derive(Clone, Copy)] " + text if m and re.search(rf"-> {m[1]} |\(self\)", text) else text


def turned(text, here=""):
    """Text of a file, which is `here` as it is now."""
    is_proof = bool(re.search(r"⌜|ghost use|Rattle·|∷|≡|→| \.[a-z]|\b(?:ltb|cond) ", text))
    text = names(paths(derives(clauses(text))), here)
    # What C calls stands in crates of its own now, which only hand on.
    text = text if 'extern "C" ' in here else text.replace('extern "C" ', "")
    return fields(text) if is_proof and not re.search(r"\bfn |^//", text) else text


def imports(text):
    """The imports of a line, by file."""
    found = {}
    for path, listed in re.findall(r"use (\S+)\.\{([^}]*)\};?", paths(text)):
        path = PRELUDE if path.startswith(LIBRARY) else path
        found.setdefault(path, []).extend(OPERATORS.get(n, n) for n in (names(n.strip()) for n in listed.split(",")))
    return found


def turned_import(old, new, here):
    """The pairs for an import that gains names: the first word of today's, and with them before it. Imports of other
    files stand on the same line."""
    before, after = imports(old), imports(new)
    (home,) = before
    more = {path: [n for n in listed if n not in before.get(path, [])] for path, listed in after.items()}
    others = "".join(f"ghost use {path}.{{{', '.join(listed)}}}; " for path, listed in more.items() if path not in (home, PRELUDE))
    for path in dict.fromkeys((home, PRELUDE)):
        gained, added = more.pop(path, []), others if path == home else ""
        if gained or added:
            first = re.search(rf"^(?:ghost )?use {re.escape(path)}\.\{{([^,}}]+)", here, re.M)
            yield first[0], added + first[0].replace("{" + first[1], "{" + ", ".join([*gained, first[1]]))


# The edits.


def lines_of(text):
    """An edit's words, and its pairs: file, text that stands before, old text, new text."""
    why, found, file, after, old = None, [], None, None, None
    for line in text.split("\n"):
        if line.startswith(("why: ", "# why: ")):
            why = line.removeprefix("# ")
        elif line.startswith("file: "):
            file, after = line[6:], None
        elif line.startswith("after: "):
            after = line[7:]
        elif line.startswith("old: "):
            old = line[5:]
        elif line.startswith("new:"):
            found.append((file, after, old, line[4:].removeprefix(" ")))
        elif line:
            raise ValueError(f"a line that is none of an edit: {line}")
    return why, found


def text_of(why, found, gate):
    """The edit's text. The toolchain reads those of the gate too, and takes a line with # for a comment."""
    lines, file, after = [("# " if gate else "") + why], None, None
    for pair in found:
        if pair[0] != file:
            file, after = pair[0], None
            lines.append(f"file: {file}")
        if pair[1] != after:
            after = pair[1]
            lines.append(f"after: {after}")
        lines += [f"old: {pair[2]}", f"new: {pair[3]}"]
    return "\n".join(lines) + "\n"


def applied(found, read):
    """The texts that an edit leaves, by file; read gives a file's text."""
    texts = {}
    for file, after, old, new in found:
        text = texts.setdefault(file, read(file))
        start = 0
        if after is not None:
            if text.count(after) != 1:
                raise ValueError(f"its text after which is {text.count(after)} times in {file}: {after}")
            start = text.index(after) + len(after)
        at = text.find(old, start)
        if at < 0 or after is None and text.count(old) != 1:
            raise ValueError(f"its old text is {text.count(old)} times in {file}: {old}")
        texts[file] = text[:at] + new + text[at + len(old) :]
    return texts


def turned_edit(path):
    crate = path.split("/")[1]
    why, found = lines_of(old_text(path))
    by_hand, pairs = BY_HAND.get(path, {}), []
    for file, after, old, new in found:
        here = now_text(f"crates/{crate}/{file}")
        if old in by_hand:
            pairs += [(file, after, *pair) for pair in by_hand[old]]
        elif re.match(r"(ghost )?use .*\{.*\}", old) and re.match(r"(ghost )?use ", new):
            pairs += [(file, after, *pair) for pair in turned_import(old, new, here)]
        else:
            pairs.append((file, after and turned(after, here), turned(old, here), turned(new, here)))
    return text_of(why, pairs, path.startswith("crates/"))


# What an edit means: by function, what it takes out and what it puts in.


def in_one_line(text):
    """Text as it runs on, whatever its layout."""
    text = re.sub(r"\s+", " ", text)
    return re.sub(r",? ?([()\[\]{}]) ?", r"\1", text).strip(" ,")


def is_import(line):
    return re.match(r"(pub )?(ghost )?use ", line.strip())


def meaning(before, after, turn):
    """Each function's text, by name and as it runs on, where an edit changes it; and the same with the edit."""

    def parts(text):
        found, name, owner = {}, "", ""
        for line in text.split("\n"):
            impl = re.match(r"impl (\w+) \{$", line)
            head = re.match(r"\s*(?:#\[[^]]*\] )?(?:pub )?(?:extern \"C\" )?(?:fn|const|struct|enum) (\w+)|(?:(?:abbrev|unfoldable|pub|record|data) )*([\w']+) :", line)
            owner = impl[1] + "::" if impl else "" if line == "}" else owner
            if head:
                name = owner + (head[1] or head[2])
            if is_import(line):
                found.setdefault("use", []).append(line)
            elif not line.strip().startswith(("//", "--")) and not re.fullmatch(r"\s*#!?\[.*\]", line):
                found.setdefault(turn(name), []).append(line)
        return {n: in_one_line(" ".join(turn(x) for x in lines)) for n, lines in found.items()}

    one, two = parts(before), parts(after)
    return {n: change(one.get(n, ""), two.get(n, "")) for n in {*one, *two} if n != "use" and one.get(n) != two.get(n)}


def change(one, two):
    """What is taken out of a text and what is put in, by whole words."""
    one, two = one.split(" "), two.split(" ")
    blocks = difflib.SequenceMatcher(None, one, two, autojunk=False).get_opcodes()
    return [(" ".join(one[a:b]), " ".join(two[c:d])) for kind, a, b, c, d in blocks if kind != "equal"]


def unlike(path):
    """Where an edit does not mean what it meant: what it changes by each."""
    crate = path.split("/")[1]
    old_pairs, pairs = lines_of(old_text(path))[1], lines_of(now_text(path))[1]
    read_old, read = (lambda file: old_text(f"crates/{crate}/{file}")), (lambda file: now_text(f"crates/{crate}/{file}"))
    was, now = applied(old_pairs, read_old), applied(pairs, read)
    if set(was) != set(now):
        return [("files", set(was), set(now))]
    found = []
    for file in was:
        one, two = meaning(read_old(file), was[file], lambda text: turned(text, read(file))), meaning(read(file), now[file], lambda text: text)
        found += [(name, one.get(name), two.get(name)) for name in sorted({*one, *two}) if one.get(name) != two.get(name)]
    return found


def main(asked):
    check = "--check" in asked
    asked = [os.path.relpath(os.path.abspath(a), ROOT) for a in asked if a != "--check"]
    every = [p for p in git("ls-tree", "-r", "--name-only", OLD, "crates", "wrong").split("\n") if re.fullmatch(r"(crates/\w+/must-fail|wrong/\w+)/\w+\.edit", p)]
    edits = [p for p in every if not asked or p in asked]
    written = fit = alike = 0
    for path in edits:
        if not check and (path in asked or now_text(path) == old_text(path)):
            text = turned_edit(path)
            if text != now_text(path):
                written += 1
                with open(os.path.join(ROOT, path), "w", encoding="utf-8") as f:
                    f.write(text)
        try:
            crate = path.split("/")[1]
            pairs = lines_of(now_text(path))[1]
            applied(pairs, lambda file: now_text(f"crates/{crate}/{file}"))
            fit += 1
            other = unlike(path)
            alike += not other
            for name, one, two in other:
                print(f"{path}: in {name}:\n    was {one}\n    is  {two}")
        except ValueError as bad:
            print(f"{path}: does not fit: {bad}")
    print(f"{len(edits)} edits: {written} written, {fit} fit, {alike} change what they changed, word for word")
    return 0 if fit == len(edits) else 1


if __name__ == "__main__":
    sys.exit(main(sys.argv[1:]))
