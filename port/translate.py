"""Rattle's sources as plain Rust.

What the prover reads goes: ghost lines, `requires`, `ensures`. What is left of a crate is a module of one
Rust crate, in which a function may have several bodies: the player chooses one by a number, so that one
build holds every variant. Beside its functions a module gets CALLS, a list of calls with drawn arguments, one
for each function that asks nothing of its caller.
"""
import os
import re
from dataclasses import dataclass

FUNCTION = re.compile(r'(\s*)(pub )?(?:extern "C" )?fn (\w+)')
CONSTANT = re.compile(r"(?:pub )?const (\w+)\b")
ADDED_TYPE = re.compile(r"struct (\w+)\(.*\); impl \1 \{ fn ")
ONE_LINE = re.compile(r"^(fn .*?\)(?: -> [^{\n]+?)?)((?:\nrequires)*) \{ (.*) \}$", re.M)
CLAUSE = re.compile(r"[ \n]+(requires|ensures)(?: \w+)? \{")
COUNTED = {("judge", "compare")}  # functions whose calls are counted, each by its crate
ENDLESS = {("slices", "ancestor"), ("packing", "word")}  # functions that take as many turns as they are told, so that none is drawn
MODEL = re.compile(r"^use std::marker::Model;\n|^impl\b[^\n{]* Model for [^\n{]*\{\n.*?^\}\n", re.M | re.S)  # what a struct means to the prover
SIZED = "200"  # the size of a type that has one, where its functions are called by themselves
NUMBER = re.compile(r"^(?:pub )?const (\w+): \w+ = (\d+);", re.M)


@dataclass
class Item:
    """A function, a constant, or text between them."""

    name: str  # of a function, with its type's before it; of a constant, or of a type that is added; else empty
    head: str  # of a function, up to its opening brace; of others all
    body: str = ""
    public: bool = False
    asks: bool = False  # whether it has a `requires`

    @property
    def is_function(self):
        return bool(self.body)

    @property
    def is_of_trait(self):
        """A trait's function has the name of the type and of the trait before its own."""
        return self.name.startswith("<")


def crates_of(root):
    """The crates that have code, in the order of crates.txt."""
    with open(os.path.join(root, "crates.txt"), encoding="utf-8") as f:
        names = [re.split(r"[ :]", line)[0] for line in f if ":" in line.split("#")[0]]
    return [n for n in names if os.path.isdir(os.path.join(root, "crates", n, "src"))]


def sources_of(root, crate):
    """The files of a crate: name, with lib.rt or main.rt as the empty name, and text."""
    folder = os.path.join(root, "crates", crate, "src")
    found = {}
    for file in sorted(os.listdir(folder)):
        with open(os.path.join(folder, file), encoding="utf-8") as f:
            found["" if file in ("lib.rt", "main.rt") else file.removesuffix(".rt")] = f.read()
    return found


def numbers_of(texts):
    """The numbers that have a name, in all crates."""
    return {m[1]: int(m[2]) for files in texts.values() for text in files.values() for m in NUMBER.finditer(text)}


def without_clauses(text):
    """A text whose contracts leave nothing but a line `requires` where there is one; a clause ends with its bracket."""
    kept, at = "", 0
    while m := CLAUSE.search(text, at):
        depth, end = 1, m.end()
        while depth:
            depth += {"{": 1, "}": -1}.get(text[end], 0)
            end += 1
        kept += text[at : m.start()] + ("\nrequires" if m[1] == "requires" else "")
        at = end
    return kept + text[at:]


def without_proofs(text):
    """The lines of a file but for ghost lines, attributes, contracts and comments; a contract leaves `requires` or nothing."""
    # A wrong version may have a whole function on one line, or a type with one function of its own.
    text = re.sub(r"(ghost use [^;]*;|^#\[[^]]*\]) +(?=\S)", r"\1\n", text, flags=re.M)
    text = MODEL.sub("", text)
    text = re.sub(r"^struct .*$", lambda m: without_clauses(m[0]).replace("\nrequires", ""), text, flags=re.M)
    text = ONE_LINE.sub(r"\1\2\n{\n\3\n}", without_clauses(text))
    return [line for line in text.split("\n") if not re.match(r"\s*(ghost |//|#!?\[)", line)]


def items_of(text):
    """The items of a file."""
    items, lines, owner, at = [], without_proofs(text), "", 0
    while at < len(lines):
        line = lines[at]
        m = FUNCTION.match(line)
        end = at
        if m:
            while not lines[end].endswith("{"):
                end += 1
            last = next(i for i in range(end, len(lines)) if lines[i] == m[1] + "}")
            head = "\n".join(x for x in lines[at : end + 1] if x != "requires")
            body = "\n".join(lines[end + 1 : last])
            items.append(Item(owner + m[3], head, body, bool(m[2]), "requires" in lines[at:end]))
            at = last + 1
            continue
        impl = re.match(r"impl(?:<[^>]*>)? (?:(\w.*) for )?(\w+)(?:<[^>]*>)? \{", line)
        if impl:
            owner = f"<{impl[2]} as {impl[1]}>::" if impl[1] else impl[2] + "::"
        elif line == "}":
            owner = ""
        constant = CONSTANT.match(line)
        if constant:
            while not lines[end].endswith(";"):
                end += 1
        named = constant or ADDED_TYPE.match(line)
        items.append(Item(named[1] if named else "", "\n".join(lines[at : end + 1])))
        at = end + 1
    return items


def difference(items, changed):
    """What a changed file changes: new bodies by function, and functions and types to be added. Nothing else may change."""
    old = {i.name: i for i in items if i.name}
    constants = [i for i in changed if i.name in old and not i.is_function and i.head != old[i.name].head]
    bodies, added = {}, ""
    for item in changed:
        was = old.get(item.name)
        # Whoever uses a changed constant has it in its own body.
        used = [c.head for c in constants if re.search(rf"\b{c.name}\b", item.body)]
        body = "\n".join(used + [item.body])
        if was and was.head == item.head and was.body != body:
            bodies[item.name] = body
        elif not was and item.name:
            added += item.head + "\n" + (body + "\n}\n" if item.is_function else "")
    if [i.head for i in changed if not i.name] != [i.head for i in items if not i.name]:
        raise ValueError("it changes more than functions and constants")
    return bodies, added


def split_list(text):
    """The parts between the commas of a list, where no bracket is open."""
    parts, depth, part = [], 0, ""
    for c in text:
        depth += (c in "([{<") - (c in ")]}>")
        if c == "," and depth == 0:
            parts.append(part.strip())
            part = ""
        else:
            part += c
    return [p for p in parts + [part.strip()] if p]


def drawn_type(kind, text):
    """How a value of a type is drawn at random."""
    if kind == "struct" and "{" not in text and "(" not in text:
        return "Self"
    if kind == "struct":
        body = re.search(r"\((.*)\);", text, re.S)
        if body:
            return f"Self({', '.join('d.draw()' for _ in split_list(body[1]))})"
        fields = re.findall(r"(?:pub )?(\w+):", text)
        return "Self { " + ", ".join(f"{f}: d.draw()" for f in fields) + " }"
    cases = split_list(text[text.index("{") + 1 : text.rindex("}")])
    arms = []
    for number, case in enumerate(cases):
        name, _, inside = case.partition("(")
        values = ", ".join("d.draw()" for _ in split_list(inside.rstrip(")")))
        arms.append(f"{number} => Self::{name}{f'({values})' if inside else ''},")
    return f"match d.below({len(cases)}) {{ {' '.join(arms)} _ => unreachable!() }}"


# A page, which never has its place past its end, is drawn with a text on it.
PAGE = """impl<const N: usize> crate::Draw for Page<N> { fn draw(d: &mut crate::Dice) -> Self {
let text: Vec<u8> = d.draw(); let at = text.len().min(N); let mut bytes = [0; N]; bytes[..at].copy_from_slice(&text[..at]); Page { bytes, at } } }
"""


def drawn_types(text):
    """For each type of a module how its values are drawn."""
    found = ""
    if re.search(r"^(?:pub )?struct Page<", text, re.M):
        found = PAGE
    for m in re.finditer(r"^(?:pub )?(struct|enum) (\w+)(?:\([^)]*\);|;| \{.*?^\})", text, re.M | re.S):
        found += f"impl crate::Draw for {m[2]} {{ fn draw(d: &mut crate::Dice) -> Self {{ {drawn_type(m[1], m[0])} }} }}\n"
    return found


def call_of(item, sized):
    """A call of a function on drawn arguments, which tells what was given, what came back and what is left. What has
    a size of its own, as a type that is among the sized ones, is called with one."""
    lets, given = "", []
    owner, _, method = item.name.rpartition("::")
    sizes = re.findall(r"const (\w+): usize", item.head.partition("(")[0])
    name = f"{owner}::<{SIZED}>::{method}" if owner in sized else item.name + (f"::<{', '.join(SIZE for _ in sizes)}>" if sizes else "")
    for number, parameter in enumerate(split_list(parameters_of(item.head))):
        kind = parameter.partition(": ")[2] or parameter.removeprefix("mut ").replace("self", f"{owner}<{SIZED}>" if owner in sized else owner)
        kind = kind.replace("<N>", f"<{SIZED}>") if owner in sized else kind
        for size in sizes:
            kind = re.sub(rf"\b{size}\b", SIZE, kind)
        lent = re.match(r"&(?:'a )?(mut )?", kind)
        kind = re.sub(r"^\[(\[.*\]|[^;]*)\]$", r"Vec<\1>", kind[lent.end() :]) if lent else kind
        lets += f"let mut a{number}: {HANDED.get(kind, kind)} = d.draw(); "
        given.append(f"&{lent[1] or ''}a{number}" if lent else f"a{number}")
    told = f"crate::told(&({''.join(f'&a{n}, ' for n in range(len(given)))}))"
    result = f"crate::told(&{name}({', '.join(given)}))"
    return f'("{item.name}", {str(item.public).lower()}, |d| {{ {lets}let lent = {told}; let r = {result}; [lent, r, {told}] }}),'


def parameters_of(head):
    """What stands between the first brackets of a function's head."""
    start = head.index("(") + 1
    depth, end = 1, start
    while depth:
        depth += {"(": 1, ")": -1}.get(head[end], 0)
        end += 1
    return head[start : end - 1]


# What a size that is a parameter is in a call: that of a node.
SIZE = "32"

# What stands for the handles that a program is given, and for what it reads from.
HANDED = {"(impl Print + Eprint)": "crate::HostRuntime", "R": "crate::io::Stdin"}

# A program that reads its input is called on a drawn one; the functions within are left to its runs.
MAIN = """("main", true, |d| { let a0: Vec<u8> = d.draw(); let lent = crate::told(&a0);
let r = crate::told(&crate::io::play(|| main(crate::HostRuntime), &a0)); [lent, r, crate::told(&())] }),"""


def plain(crate, modules, text):
    """Text of a crate, which has some modules, as Rust: all is public, paths start at the port, loops count their turns."""
    text = re.sub(r"\bcrate::", f"crate::{crate}::", text)
    for module in modules:
        text = re.sub(rf"^use {module or '-'}::", f"use crate::{crate}::{module}::", text, flags=re.M)
    text = re.sub(r"^use (?!crate|std)(\w+)::", r"use crate::\1::", text, flags=re.M)
    text = text.replace("std::num::wrapping_add_u64(", "u64::wrapping_add(")
    text = re.sub(r"std::num::nearest_u64_to_f64\((.*)\);", r"(\1) as f64;", text)
    text = re.sub(r"^(\s*)while (?!let )(.*) \{$", r"\1while crate::turn() && (\2) {", text, flags=re.M)
    text = re.sub(r"^(\s*(?:for _ in 0\.\.u64::MAX|while let .*) \{)$", r"\1 crate::turn();", text, flags=re.M)
    text = text.replace('extern "C" ', "")
    text = re.sub(r"^(\s*)(?:pub )?(struct|enum|fn|const|mod) ", r"\1pub \2 ", text, flags=re.M)
    return re.sub(r"^pub (struct|enum) ", r"#[derive(Clone, Copy, Debug)]\npub \1 ", text, flags=re.M)


def rust_of(crate, modules, items, variants, added):
    """A module's text, and for each line of it the variant that it belongs to."""
    lines, owners = [], []

    def put(text, owner=0):
        lines.extend(text.split("\n"))
        owners.extend([owner] * (len(lines) - len(owners)))

    put("use crate::*;")
    for item in items:
        head = plain(crate, modules, item.head)
        put(re.sub(r"^(\s*)pub fn ", r"\1fn ", head) if item.is_of_trait else head)
        if not item.is_function:
            continue
        bodies = variants.get(item.name, {})
        if (crate, item.name) in COUNTED:
            put("crate::count();")
        put("match crate::variant() {")
        for number, body in bodies.items():
            put(f"{number} => {{\n{plain(crate, modules, body)}\n}}", number)
        put(f"_ => {{\n{plain(crate, modules, item.body)}\n}} }} }}")
    put(plain(crate, modules, added))
    put(drawn_types("\n".join(i.head for i in items if not i.name)))
    sized = set(re.findall(r"struct (\w+)<const", "\n".join(i.head for i in items)))
    calls = [call_of(i, sized) for i in items if i.is_function and not i.asks and (crate, i.name) not in ENDLESS]
    if any(i.name == "main" for i in items):
        calls = [MAIN] if any(".stdin()" in i.body for i in items) else []
    put("pub const CALLS: &[crate::Call] = &[\n" + "\n".join(calls) + "\n];")
    return "\n".join(lines) + "\n", owners
