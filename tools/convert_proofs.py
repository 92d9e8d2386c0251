#!/usr/bin/env python3
"""Turns the Proof.antt files of one crate, which name each part that a function's proof leaves open by a number, into
today's Invariants.antt and Answers.antt. It reads what 'rt check --generated FOLDER --old-names' says of the crate's
functions in FOLDER/names.json. What it cannot turn it names, and leaves that file as it is.

usage: tools/convert_proofs.py CRATE_FOLDER NAMES_JSON"""
import json
import os
import re
import sys

FOLDER, NAMES = sys.argv[1], sys.argv[2]
CRATE = os.path.basename(os.path.abspath(FOLDER))
SEARCHES = re.compile(r"\(λ [^.]*\. search rules\)|search rules")


def clauses_of():
    """The names of the clauses of each function of the repository, by its crate, type and name."""
    found = {}
    crates = os.path.join(FOLDER, "..")
    for crate in os.listdir(crates):
        folder = os.path.join(crates, crate, "src")
        for base, _, names in os.walk(folder):
            for name in names:
                kind = None
                current = None
                for line in open(os.path.join(base, name), encoding="utf-8"):
                    m = re.match(r"impl(?:<[^>]*>)? (\w+)", line)
                    kind = m.group(1) if m else (None if line.startswith("}") else kind)
                    m = re.match(r"\s*(?:pub(?:\(\w+\))? )?(?:const )?(?:extern \"C\" )?fn (\w+)", line)
                    if m:
                        current = (crate, (kind + "::" if kind and line.startswith(" ") else "") + m.group(1))
                        found.setdefault(current, {"requires": [], "ensures": []})
                    m = re.match(r"\s*(requires|ensures) (\w+) \{", line)
                    if m and current:
                        found[current][m.group(1)].append(m.group(2))
    return found


CLAUSES = clauses_of()


def by_name(path, kind, names):
    """A path behind .ensures or .requires with the clause's name for its number."""
    if kind not in path or not names:
        return path
    k = path.index(kind) + 1
    steps, i = path[k:], 0
    if not steps or steps[0] not in ("0", "1"):
        return path
    while steps and steps[0] == "1" and i < len(names) - 1:
        i, steps = i + 1, steps[1:]
    if i < len(names) - 1:
        if not steps or steps[0] != "0":
            return path
        steps = steps[1:]
    return path[:k] + [names[i]] + steps


def called(callee):
    """The clauses of a callee, as names.json names it."""
    parts = (callee or "").split("::")
    for n in (2, 1):
        names = CLAUSES.get((parts[0], "::".join(parts[-n:])))
        if names and len(parts) > n - 0 - (n == 1):
            return names["ensures"]
    return []


def fold(name):
    """A step's name by its words alone, whatever an earlier respelling made of it."""
    name = re.sub(r"_lem(?=[0-9]*$)", "", name.replace("-", "_").replace("is_IsLeaf", "is_leaf"))
    return re.sub(r"_(?=[0-9]+$)", "", name).lower()


class Trouble(Exception):
    pass


def blocks_of(text):
    """The declarations of a file, each with the comment above it."""
    found, now = [], []
    for line in text.split("\n"):
        starts = line and not line.startswith((" ", "unfolding ")) and not line.startswith("--")
        now.append(line)
        if line == "":
            found.append(now)
            now = []
    found.append(now)
    joined = []
    for lines in found:
        lines = [l for l in lines if l != ""]
        if lines:
            joined.append(lines)
    return joined


def split_args(text):
    """The arguments of an application, at its top level."""
    args, depth, start = [], 0, None
    for i, ch in enumerate(text):
        if ch in "([{":
            if depth == 0 and start is None:
                start = i
            depth += 1
        elif ch in ")]}":
            depth -= 1
            if depth == 0 and (i + 1 == len(text) or text[i + 1] in " \n)"):
                args.append(text[start:i + 1])
                start = None
        elif ch in " \n":
            if depth == 0 and start is not None:
                args.append(text[start:i])
                start = None
        elif start is None:
            start = i
    if start is not None:
        args.append(text[start:])
    return args


def matching(text, at):
    depth = 0
    for i in range(at, len(text)):
        depth += {"(": 1, ")": -1}.get(text[i], 0)
        if depth == 0:
            return i
    raise Trouble("a bracket is not closed")


class Function:
    def __init__(self, path, entry):
        self.entry = entry
        self.places = {p[0]: p for p in entry["places"]}
        self.path = path
        inner = os.path.relpath(os.path.dirname(path), os.path.join(FOLDER, "proofs")).split(os.sep)
        own = next((CLAUSES[CRATE, "::".join(inner[-n:])] for n in (2, 1) if (CRATE, "::".join(inner[-n:])) in CLAUSES), None)
        self.requires = own["requires"] if own else []
        self.today = dict(zip([p[0] for p in entry["places"]], entry["places_by_name"]))

    def above(self, place):
        """The place and those before it, up to the start."""
        chain = []
        while place is not None:
            chain.append(place)
            place = self.places[place][1]
        return chain

    def context(self, place, fields):
        """The fields behind a context at this place, as today's path, or nothing where they only lead to an earlier one."""
        while fields and fields[0] == "before":
            fields = fields[1:]
        if not fields:
            return None
        first, rest = fields[0], fields[1:]
        steps = [self.places[p][2] for p in self.above(place)]
        order = list(self.places)
        for p in self.above(place):
            arm = self.entry["arms"][order.index(p)]
            for name, of, way in arm[2] if arm else []:
                if fold(first) == fold(of) and rest[:len(way)] == way and name.endswith("-own") == (way == []):
                    return [arm[0]] + ([] if way == [] else [name]) + rest[len(way):]
        callees = {self.places[p][2][1]: self.places[p][3] for p in self.above(place)}
        for k, (old, new) in enumerate(steps):
            if old and fold(first) == fold(old):
                if "-arg" in new and rest == ["given", "0"]:
                    rest = ["given"]
                return by_name([new] + rest, "ensures", called(callees[new]))
        # a step that has a number today, or had one
        like = [new for old, new in steps if old and re.sub(r"[0-9]+$", "", fold(first)) == re.sub(r"[0-9]+$", "", fold(old))]
        if len(like) == 1:
            return by_name([like[0]] + rest, "ensures", called(callees[like[0]]))
        if first in ("args", "requires", "ranges", "type_inv", "auto", "lifetimes"):
            return by_name([first] + rest, "requires", self.requires)
        return ["?" + first] + rest


    def whole(self, place, path):
        """The clauses of a path that has all of them, where there are several."""
        if not path:
            return None
        if path == ["requires"]:
            names = self.requires
        elif path[-1] == "ensures" and len(path) == 2:
            names = called({self.places[p][2][1]: self.places[p][3] for p in self.above(place)}.get(path[0]))
        else:
            return None
        return names if len(names) > 1 else None


PATH = r"((?:\.[A-Za-z_][\w'-]*|\.[0-9]+)*)"


class Texts:
    """The names of a function's proof: contexts, what leads from one context to another, and helpers that take a context."""

    def __init__(self, fn):
        self.fn, self.leads, self.helpers, self.trouble = fn, set(), {}, []

    def context_end(self, text, i, known):
        """Where a term that is a context ends, if one begins at i."""
        if text.startswith("(", i):
            j = self.context_end(text, i + 1, known)
            if j is None or not text.startswith(")", j):
                return None
            j += 1
        else:
            m = IDENT.match(text, i)
            if not m:
                return None
            if m.group(0) in self.leads:
                j = m.end()
                while j < len(text) and text[j] in " \n":
                    j += 1
                return self.context_end(text, j, known)
            if m.group(0) not in known:
                return None
            j = m.end()
        while text.startswith(".before", j) and not re.match(r"[\w'-]", text[j + 7:j + 8]):
            j += 7
        return j

    def path_end(self, text, i, known):
        """Where a field of a context ends, if one begins at i, and its fields."""
        e = self.context_end(text, i, known)
        p = re.compile(PATH).match(text, e) if e else None
        fields = [f for f in p.group(1).split(".") if f] if p else []
        return (p.end(), fields) if fields else None

    def turn(self, place, text, known):
        """A term with today's paths; the helpers that it needs."""
        known, out, i, needs, records = set(known), [], 0, [], {}
        while i < len(text):
            m = re.compile(r"let ([A-Za-z_][\w'-]*)(?: : [^=]*?)? = ").match(text, i)
            if m and (i == 0 or text[i - 1] in " \n(,;"):
                j = self.context_end(text, m.end(), known)
                k = re.compile(r"\s+in\s+").match(text, j) if j else None
                if k:
                    known.add(m.group(1))
                    i = k.end()
                    continue
                known.discard(m.group(1))
                name = m.group(1)
                records.pop(name, None)
                if name == "c":
                    # the context's own name
                    text = text[:i] + re.sub(r"(?<![\w'.\-])c(?![\w'\-])", "these", text[i:])
                    name = "these"
                w = re.compile(r"let [\w'-]+ = ").match(text, i)
                e = self.path_end(text, w.end(), known) if w else None
                if e and re.compile(r"\s+in\s").match(text, e[0]):
                    path = self.fn.context(place, e[1])
                    several = self.fn.whole(place, path)
                    if several:
                        records[name] = several
                        out.append(f"let {name} = c." + ".".join(path))
                        i = e[0]
                        continue
                out.append("let " + name)
                i += len("let " + name)
                continue
            at_start = i == 0 or not re.match(r"[\w'.\-]", text[i - 1])
            if at_start and (text[i] == "(" or IDENT.match(text, i)):
                word = IDENT.match(text, i)
                if word and word.group(0) in self.helpers:
                    j = word.end()
                    while j < len(text) and text[j] in " \n":
                        j += 1
                    e = self.context_end(text, j, known)
                    if e is not None and re.match(r"\.[A-Za-z]", text[e:]):
                        e = None
                    if e is None and self.helpers[word.group(0)]["inner"]:
                        e = word.end()
                    if e is not None:
                        out.append(word.group(0))
                        needs.append(word.group(0))
                        i = e
                        continue
                e = self.context_end(text, i, known)
                if e is not None:
                    p = re.compile(PATH).match(text, e)
                    fields = [f for f in p.group(1).split(".") if f]
                    if fields:
                        path = self.fn.context(place, fields)
                        several = self.fn.whole(place, path)
                        if any("?" in f for f in path):
                            self.trouble.append("c." + ".".join(path))
                        if several:
                            parts = ["c." + ".".join(path + [w]) for w in several]
                            out.append("(" + ", (".join(parts[:-1]) + ", " + parts[-1] + ")" * (len(parts) - 1))
                        elif path[0].startswith("if-not-") and path[1:] in (["true"], ["false"]):
                            out.append("(ap not c." + ".".join(path) + ")")
                        else:
                            out.append("c." + ".".join(path))
                        i = p.end()
                        continue
                    if word and re.match(r"\s*=\s", text[e:]):
                        out.append(word.group(0))
                        i = word.end()
                        continue
                    if text[i] == "(" or word and word.group(0) in known | self.leads:
                        out.append("c")
                        self.trouble.append("the whole context in: " + text[max(0, i - 30):e + 10].replace("\n", " "))
                        i = e
                        continue
                if word and word.group(0) in records:
                    p = re.compile(PATH).match(text, word.end())
                    fields = [f for f in p.group(1).split(".") if f]
                    out.append(word.group(0) + "".join("." + f for f in by_name(["ensures"] + fields, "ensures", records[word.group(0)])[1:]))
                    i = p.end()
                    continue
                if word:
                    out.append(word.group(0))
                    i = word.end()
                    continue
            out.append(text[i])
            i += 1
        return "".join(out), needs

    def add(self, lines, inside):
        """Takes a definition of the older file: True where it takes a context."""
        text = "\n".join(l[2:] if inside else l for l in lines if not l.strip().startswith("--"))
        m = re.match(r"((?:(?:abbrev|unfoldable|pub) )*)([\w'-]+) : (.*?)\n((?:unfolding [^\n]*\n)?)\2((?: [^\s=]+)*) =(?=\s)(.*)\Z", text, re.S)
        if not m:
            if "tie." in text or inside:
                self.trouble.append("a helper that is not one clause: " + text.split("\n")[0])
            return False
        _, name, kind, unfold, params, body = m.groups()
        params = params.split()
        lead = re.match(r"tie\.[\w'-]+(?: [\w'-]+)* → tie\.[\w'-]+(?: [\w'-]+)*\Z", kind.strip())
        if lead:
            self.leads.add(name)
            return True
        known, k = set(), 0
        while True:
            b = re.match(r"\s*\((\w+) : tie\.[\w'-]+(?: [\w'-]+)*\)\s*(?:→\s*)?|\s*tie\.[\w'-]+(?: [\w'-]+)*\s*→\s*", kind)
            if not b:
                break
            if b.group(1):
                known.add(b.group(1))
            if k < len(params):
                known.add(params[k])
            k += 1
            kind = kind[b.end():]
        if k == 0 and not inside:
            return False
        if k > 1 or "tie." in kind:
            self.trouble.append("a helper with more contexts: " + name)
        known |= {inside} if inside else set()
        self.helpers[name] = {"kind": kind, "unfold": unfold.strip(), "params": params[k:], "body": body.strip(), "known": known, "inner": bool(inside)}
        return True

    def lets(self, place, names):
        """The helpers that these need, as lets in their order, and what they unfold."""
        order, wanted = list(self.helpers), []
        turned = {}

        def want(name):
            if name in turned:
                return
            h = self.helpers[name]
            kind, n1 = self.turn(place, h["kind"], h["known"])
            body, n2 = self.turn(place, h["body"], h["known"])
            turned[name] = (kind, body)
            for n in n1 + n2:
                if n != name:
                    want(n)

        for name in names:
            want(name)
        text, unfold = "", []
        for name in order:
            if name in turned:
                h = self.helpers[name]
                kind, body = turned[name]
                given = "".join(f"λ {p}. " for p in h["params"])
                text += f"let {name} : {kind.strip()} = {given}{body} in\n    "
                unfold += h["unfold"].split()[1:]
        return text, unfold


IDENT = re.compile(r"[A-Za-z_][\w'₀₁₂]*(?:-[\w'₀₁₂]+)*")


def strip(text):
    return "\n".join(line.rstrip() for line in text.split("\n"))


def asked_of(goal):
    """The clauses that a call's goal asks for, where there are several."""
    m = re.match(r"(\w+?)(?:-[\w-]*)?-requires(?:-|$)", goal)
    if not m:
        return None
    found = [names["requires"] for (crate, name), names in CLAUSES.items() if name.split("::")[-1] == m.group(1)]
    found = [names for names in found if len(names) > 1]
    return found[0] if len(found) == 1 or found and all(f == found[0] for f in found) else None


def last_in(body):
    """Where a body goes on behind its lets."""
    depth, last = 0, 0
    for m in re.finditer(r"[([{]|[)\]}]|(?<![\w'-])in(?![\w'-])", body):
        if m.group(0) == "in":
            last = m.end() if depth == 0 else last
        else:
            depth += 1 if m.group(0) in "([{" else -1
    return last


def labelled(body, clauses):
    """A tuple at the end of a body, as a record of the clauses; one term may stand for the last of them."""
    if not clauses or len(clauses) == 1:
        return body
    last = last_in(body)
    tail, parts = body[last:].strip(), []
    while len(parts) < len(clauses) - 1 and tail.startswith("(") and matching(tail, 0) == len(tail) - 1:
        inner, depth, cut = tail[1:-1], 0, None
        for j, ch in enumerate(inner):
            depth += {"(": 1, "[": 1, "{": 1, ")": -1, "]": -1, "}": -1}.get(ch, 0)
            if ch == "," and depth == 0:
                cut = j
                break
        if cut is None:
            break
        parts.append(inner[:cut].strip())
        tail = inner[cut + 1:].strip().rstrip(",").strip()
    fields = [f"{name} = {part}" for name, part in zip(clauses, parts)]
    left, both = clauses[len(parts):], ""
    if len(left) == 1:
        fields.append(f"{left[0]} = {tail}")
    elif tail == "search rules":
        fields += [f"{name} = search rules" for name in left]
    else:
        both, path = f"let all = {tail} in\n    ", "all"
        for k, name in enumerate(left):
            fields.append(f"{name} = {path}" + (".0" if k < len(left) - 1 else ""))
            path += ".1"
    return body[:last] + ("\n    " if last else "") + both + "record {\n    " + ";\n    ".join(fields) + ";\n  }"


def with_not(uses, text):
    """The imports with those that '(ap not e)' needs."""
    if "(ap not " not in text:
        return uses
    uses = list(uses)
    for module, name in (("mathlib.Core.Path", "ap"), ("mathlib.Core.Bool", "not")):
        line = next((k for k, u in enumerate(uses) if u.startswith(f"use {module}.{{")), None)
        if any(re.search(r"[{ ]" + name + r"[,}]", u) for u in uses):
            continue
        if line is None:
            uses.insert(0, f"use {module}.{{{name}}}")
        else:
            uses[line] = uses[line][:-1] + f", {name}" + "}"
    return uses


def turn(path, entry, module):
    text = open(path, encoding="utf-8").read()
    fn = Function(path, entry)
    blocks = blocks_of(text)
    head, uses, decls, spec = [], [], [], None
    for lines in blocks:
        if lines[0].startswith(("use ", "--")) and any(l.startswith("use ") for l in lines):
            head += [l for l in lines if l.startswith("--")]
            uses += [l for l in lines if l.startswith("use ")]
            continue
        joined = "\n".join(lines)
        if "tie.spec" in joined:
            spec = joined
            continue
        decls.append(lines)
    if spec is None:
        raise Trouble("no tie.spec")
    uses = [u for u in uses if not re.search(r"\.(Tie as tie|Statement\.\{statement\})", u)]
    at = spec.index("(tie.spec")
    args = split_args(spec[at + 9:matching(spec, at)].strip())
    loops, needs = entry["loops"], entry["needs"]
    marks = args[:2 * len(loops)]
    answers = args[2 * len(loops):]
    named = {}
    for lines in decls:
        for line in lines:
            m = re.match(r"(?:(?:abbrev|unfoldable|pub) )*([A-Za-z_#][\w'#·-]*) : ", line)
            if m:
                named[m.group(1)] = lines
                break
    invariants, rest, used, trouble = [], [], set(), []
    if len(answers) != len(needs):
        known = {}
        for arg in answers:
            kind = re.search(r"(?m)^" + re.escape(arg) + r" : tie\.Need-([\w'-]+)", "\n".join(named.get(arg, [])))
            if kind:
                known[fold(kind.group(1))] = arg
            elif not SEARCHES.fullmatch(arg):
                trouble.append("an answer without a name: " + arg[:60])
        answers = [known.pop(fold(old), "search rules") for old, new in needs]
        trouble += [f"no goal for {arg} (today's: {[n[1] for n in needs]}, older: {[n[0] for n in needs]})" for arg in known.values()]
    for k, loop in enumerate(loops):
        (old, new), variables = loop
        changed = entry["changed"][k]
        for kind, arg in zip(("invariant", "decreases"), marks[2 * k:2 * k + 2]):
            if arg not in named:
                raise Trouble(f"{kind} is {arg}")
            used.add(arg)
            lines = named[arg]
            comment = [l for l in lines if l.startswith("--")]
            body = "\n".join(l for l in lines if not l.startswith("--"))
            unfold = re.search(r"\nunfolding [^\n]*", body)
            m = re.search(r"\n" + re.escape(arg) + r"((?: [^\s=]+)*) =\s*(.*)\Z", body, re.S)
            params, term = m.group(1).split(), m.group(2)
            names = [(p, f"l.initial.{v}" if c else f"l.{v}") for p, v, c in zip(params, variables, changed)]
            names += [(p, f"l.{v}") for p, v in zip(params[len(variables):], [v for v, c in zip(variables, changed) if c])]
            if len(names) != len(params):
                raise Trouble(f"{arg} has {len(params)} parameters for {variables} {changed}")
            table = dict(names)
            term = re.sub(r"(?<![\w'.\-])([A-Za-z_][\w'₀₁₂-]*)", lambda q: table.get(q.group(1), q.group(1)), term)
            if kind == "decreases" and not any(True for _ in [0]):
                continue
            invariants.append((comment, f"abbrev pub {kind}-{new} : goal.{kind}-{new}" + (unfold.group(0) if unfold else "") + f"\n{kind}-{new} l = {term}"))
    texts, others, inside = Texts(fn), [], None
    for lines in decls:
        if any(named.get(a) is lines for a in used | {a for a in answers}):
            continue
        first = next((l for l in lines if not l.startswith("--")), "")
        m = re.match(r"module _ \((\w+) : tie\.", first)
        if m:
            inside = m.group(1)
            lines = lines[lines.index(first) + 1:]
        elif not first.startswith("  "):
            inside = None
        if not texts.add(lines, inside):
            others.append("\n".join(lines))
            if "tie." in others[-1]:
                trouble.append("helper: " + lines[0][:80])
    for arg, (old, new), place in zip(answers, needs, [p[0] for p in entry["asked_at"]]):
        if SEARCHES.fullmatch(arg):
            continue
        clauses = entry["asked"].get(old) or asked_of(new)
        comment, unfold = [], []
        if arg in named:
            used.add(arg)
            lines = named[arg]
            comment = [l for l in lines if l.startswith("--")]
            body = "\n".join(l for l in lines if not l.startswith("--"))
            u = re.search(r"\nunfolding ([^\n]*)", body)
            unfold = u.group(1).split() if u else []
            m = re.search(r"\n" + re.escape(arg) + r"((?: [^\s=]+)*) =\s*(.*)\Z", body, re.S)
            if not m:
                raise Trouble(f"{arg} is not one clause")
            params, term = m.group(1).split(), m.group(2)
        else:
            m = re.fullmatch(r"\(λ ([^.]*)\. (.*)\)", arg, re.S)
            if not m:
                raise Trouble(f"an answer is {arg}")
            params, term = m.group(1).split(), m.group(2)
        if not params:
            raise Trouble(f"{arg} has no parameter")
        texts.trouble = []
        body, wanted = texts.turn(place, term, {params[0]})
        lets, more = texts.lets(place, wanted)
        body = lets + body
        trouble += [f"{new}: {s}" for s in texts.trouble]
        unfold = [u for u in dict.fromkeys(unfold + more) if u not in texts.helpers]
        done = labelled(body, clauses)
        if done.strip() == "search rules" and not unfold:
            continue
        sep = "\n    " if "\n" in done else " "
        line = ("\nunfolding " + " ".join(unfold)) if unfold else ""
        rest.append((comment, f"pub {new} : goal.{new}{line}\n{new} c ={sep}{done.strip()}"))
    folder = os.path.dirname(path)

    def write(name, given, parts, helpers):
        lines = list(head) + with_not(uses, "\n".join(p[1] for p in parts) + "\n".join(helpers)) + [f"use {module}.{given} as goal", ""]
        for helper in helpers:
            lines += [helper, ""]
        for comment, part in parts:
            lines += comment + [part, ""]
        with open(os.path.join(folder, name), "w", encoding="utf-8") as f:
            f.write(strip("\n".join(lines)).rstrip("\n") + "\n")

    helpers_inv = [o for o in others if any(re.search(r"(?<![\w'-])" + re.escape(n) + r"(?![\w'-])", p[1]) for p in invariants for n in re.findall(r"(?m)^(?:(?:abbrev|unfoldable|pub) )*([\w'-]+) : ", o))]
    if invariants:
        write("Invariants.antt", "Given", invariants, helpers_inv)
    if rest:
        write("Answers.antt", "Goals", rest, others)
    elif others:
        trouble.append("helpers that no answer needs: " + "; ".join(o.split("\n")[0] for o in others))
    os.remove(path)
    return trouble


def main():
    names = json.load(open(NAMES, encoding="utf-8"))
    done = 0
    for key, entry in sorted(names.items()):
        m = re.fullmatch(rf"Rattle-{CRATE}-proofs\.(.*)\.Lts", key)
        if not m:
            continue
        path = os.path.join(FOLDER, "proofs", *m.group(1).split("."), "Proof.antt")
        if not os.path.isfile(path):
            continue
        try:
            trouble = turn(path, entry, f"Rattle.{CRATE}.proofs.{m.group(1)}")
            done += 1
            for t in trouble:
                print(f"look: {m.group(1)}: {t}")
        except Trouble as t:
            print(f"left: {m.group(1)}: {t}")
    print(f"{done} turned")


main()
