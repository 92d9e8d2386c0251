"""Small changes of a function's body, one at a time: a number, a comparison, an operand, an argument, a statement."""
import re

NUMERAL = re.compile(r"(?<!\w)(?<![^.]\.)(0x[0-9a-f_]+|\d[\d_]*)((?:u8|u16|u32|u64|usize|i64)?)(?!\w)(?!\.\d)")
OPERATOR = re.compile(r" (<=|>=|<|>|==|!=|\+|-|\*|/|%|&&|\|\||&|\||\^|<<|>>) ")
INSTEAD = {
    "<": ["<=", ">="], "<=": ["<", ">"], ">": [">=", "<="], ">=": [">", "<"], "==": ["!=", "<=", ">="], "!=": ["==", "<", ">"],
    "+": ["-"], "-": ["+"], "*": ["+"], "/": ["%", "*"], "%": ["/"], "&&": ["||"], "||": ["&&"],
    "&": ["|"], "|": ["&"], "^": ["|"], "<<": [">>"], ">>": ["<<"],
}  # fmt: skip
WORDS = {"Which::First": "Which::Second", "Which::Second": "Which::First", "true": "false", "false": "true"}
LONG = 20  # numerals; of a longer table every 61st is changed


def numerals(text):
    found = [m for m in NUMERAL.finditer(text) if not re.search(r"[;_\w]\s*$|b\"[^\"]*$", text[: m.start()])]
    for m in found if len(found) < LONG else found[::61]:
        value = int(m[1].replace("_", ""), 0)
        for other in (value + 1, value - 1):
            if other >= 0:
                yield m.span(), f"{other}{m[2]}"
    for m in re.finditer(r"(?<![\w.])\d+\.\d+(?!\w)", text):
        yield m.span(), str(float(m[0]) + 1)


def named(text, numbers):
    """A number that has a name, as another number."""
    for m in re.finditer(r"\b[A-Z][A-Z_]+\b", text):
        if m[0] in numbers:
            yield m.span(), str(numbers[m[0]] + 1)
            yield m.span(), str(numbers[m[0]] - 1)


def operators(text):
    for m in OPERATOR.finditer(text):
        for other in INSTEAD[m[1]]:
            yield m.span(1), other
    for m in re.finditer(r"(\w[\w.]*) [-+*/%&|^] (\w[\w.]*)", text):
        yield m.span(), m[1]
        yield m.span(), m[2]
    for m in re.finditer(r"(?<![\w)])!(?=[\w(])", text):
        yield m.span(), ""


def words(text):
    for word, other in WORDS.items():
        for m in re.finditer(rf"\b{word}\b", text):
            yield m.span(), other


def arguments(text):
    """Two neighbouring arguments exchanged."""
    for m in re.finditer(r"(?<=[(\s])(&?[a-z_]\w*),(\s+)(?=(&?[a-z_]\w*)[,)])", text):
        yield (m.start(), m.end() + len(m[3])), f"{m[3]},{m[2]}{m[1]}"


def conditions(text):
    for m in re.finditer(r"\b(?:if|while) (.*) \{", text):
        if m[1] not in WORDS and not m[1].startswith("let "):
            yield m.span(1), "true"
            yield m.span(1), "false"


def statements(text):
    """A statement of one line left out."""
    for m in re.finditer(r"^ *(?!let |const |\]|\)|\}).*;\n", text + "\n", re.M):
        if text[: m.start()].rstrip()[-1:] in ("", ";", "{", "}"):
            yield m.span(), "\n"


def changed_lines(body, changed):
    """The lines that differ, before and after; where the same line stands more than once, which of them it is."""
    old, new = body.split("\n"), changed.split("\n")
    start = next(i for i, pair in enumerate(zip(old, new)) if pair[0] != pair[1])
    kept = 0
    while kept < min(len(old), len(new)) - start - 1 and old[-1 - kept] == new[-1 - kept]:
        kept += 1
    before, after = (" ".join(x.strip() for x in lines[start : len(lines) - kept]) for lines in (old, new))
    alike = [i for i, line in enumerate(old) if line == old[start]]
    return before, after, f" (the {alike.index(start) + 1}. of {len(alike)})" if len(alike) > 1 else ""


def variants_of(body, numbers):
    """The changed bodies: the lines before, the lines after, which of equal lines, and the whole."""
    seen = {body}
    for kind in (numerals, lambda text: named(text, numbers), operators, words, arguments, conditions, statements):
        for (start, end), new in kind(body):
            changed = body[:start] + new + body[end:]
            if changed not in seen:
                seen.add(changed)
                yield *changed_lines(body, changed), changed
