"""Writes the port of a repository, with variants, builds it, and plays variants on it.

The port is a Rust crate in target/port: the crates as modules (translate.py), the player beside this file, and
the second judge, which says what the C functions must answer.
"""
import json
import os
import re
import select
import subprocess
import sys
import tempfile

import translate

HERE = os.path.dirname(os.path.abspath(__file__))
ROOT = os.path.dirname(HERE)
FOLDER = os.path.join(ROOT, "target", "port")
SILENCE = 120  # seconds after which a variant counts as one that does not end

CARGO = """[package]
name = "port"
version = "0.1.0"
edition = "2021"
[dependencies]
second = { path = "%s", optional = true }
[[bin]]
name = "port"
path = "src/main.rs"
required-features = ["second"]
[[bin]]
name = "search"
path = "src/search.rs"
[profile.release]
overflow-checks = true
opt-level = 1
incremental = true
[workspace]
"""


def say(text):
    print(text, file=sys.stderr, flush=True)


class Port:
    """All crates as items, and the variants that the next build has."""

    def __init__(self):
        self.crates = translate.crates_of(ROOT)
        self.programs = [c for c in self.crates if os.path.exists(os.path.join(ROOT, "crates", c, "src", "main.rt"))]
        self.texts = {c: translate.sources_of(ROOT, c) for c in self.crates}
        self.numbers = translate.numbers_of(self.texts)
        self.items = {(c, f): translate.items_of(t) for c in self.crates for f, t in self.texts[c].items()}
        self.variants = {}  # by number: the crate, and for each changed file its bodies and what is added

    def add(self, crate, changes):
        """A variant's number."""
        number = len(self.variants) + 1
        self.variants[number] = (crate, changes)
        return number

    def edges_of(self, crate):
        """The numbers that stand in a crate's code, by themselves or by a name."""
        text = "\n".join(i.body for (c, _), items in self.items.items() if c == crate for i in items)
        found = {int(n.replace("_", ""), 0) for n in re.findall(r"(?<![\w.])(?:0x[0-9a-f_]+|[1-9][\d_]*)", text)}
        found |= {n for name, n in self.numbers.items() if re.search(rf"\b{name}\b", text)}
        return sorted(n for n in found if n < 1 << 64)

    def bodies_of(self, crate, file):
        """The bodies that a file's functions have in the variants, and what these add."""
        bodies, added = {}, ""
        for number, (name, changes) in self.variants.items():
            changed, more = changes.get(file, ({}, "")) if name == crate else ({}, "")
            added += more
            for function, body in changed.items():
                bodies.setdefault(function, {})[number] = body
        return bodies, added

    def write(self):
        """Writes the crate; gives for each file the variant of each line."""
        owners, modules = {}, []
        for (crate, file), items in self.items.items():
            path = f"src/{crate}/{file}.rs" if file else f"src/{crate}.rs"
            text, owners[path] = translate.rust_of(crate, self.texts[crate], items, *self.bodies_of(crate, file))
            put(path, text)
            modules.append(f'("{crate}", &{self.edges_of(crate)}, {crate}{"::" + file if file else ""}::CALLS),')
        put(
            "src/modules.rs",
            "".join(f"pub mod {c};\n" for c in self.crates)
            + "pub const PROGRAMS: &[(&str, fn())] = &[\n" + "".join(f'("{p}", || {p}::main(HostRuntime)),\n' for p in self.programs) + "];\n"
            + "pub const MODULES: &[(&str, &[u64], &[Call])] = &[\n" + "\n".join(modules) + "\n];\n",
        )
        for name in os.listdir(os.path.join(HERE, "player")):
            with open(os.path.join(HERE, "player", name), encoding="utf-8") as f:
                put(f"src/{name}", f.read())
        put("Cargo.toml", CARGO % os.path.join(ROOT, "rust", "second"))
        return owners

    def build(self):
        """Builds the player, without the variants that do not compile, and gives their numbers."""
        left_out = set()
        while True:
            owners = self.write()
            wrong, others = errors_of("check", owners)
            if others:
                sys.exit("the port does not compile:\n" + "\n".join(others))
            if not wrong:
                break
            for number in wrong:
                del self.variants[number]
            left_out |= wrong
        _, others = errors_of("build", owners)
        if others:
            sys.exit("the port does not compile:\n" + "\n".join(others))
        return left_out

    def test(self, crates):
        """Ends the program where the code of some crates, as it is, does not say what it must."""
        for crate, (_, told) in zip(crates, play([(0, crate) for crate in crates])):
            if told != "nothing":
                sys.exit(f"the port of {crate} is not the code: {told}")

    def play(self):
        """For each variant what tells it, as it becomes known."""
        return play([(number, crate) for number, (crate, _) in self.variants.items()])


def play(waiting):
    """Plays variants, given as number and crate, by as many players as it takes."""
    while waiting:
        with tempfile.TemporaryFile() as asked:
            asked.write("".join(f"{number} {crate}\n" for number, crate in waiting).encode())
            asked.seek(0)
            command = [os.path.join(FOLDER, "target", "release", "port"), ROOT]
            player = subprocess.Popen(command, stdin=asked, stdout=subprocess.PIPE, bufsize=0)
            yield from answers_of(player, waiting)


def put(path, text):
    """Writes a file of the port, where it is not so already: cargo goes by the time of a change."""
    path = os.path.join(FOLDER, path)
    os.makedirs(os.path.dirname(path), exist_ok=True)
    if os.path.exists(path):
        with open(path, encoding="utf-8") as f:
            if f.read() == text:
                return
    with open(path, "w", encoding="utf-8") as f:
        f.write(text)


def errors_of(command, owners):
    """The variants whose lines do not compile, and all other errors."""
    command = ["cargo", command, "--release", "--offline", "--quiet", "--features=second", "--message-format=json"]
    run = subprocess.run(command, cwd=FOLDER, capture_output=True, text=True)
    wrong, others = set(), []
    for line in run.stdout.split("\n"):
        message = json.loads(line).get("message") if line.startswith("{") else None
        if not isinstance(message, dict) or message["level"] != "error" or not message["spans"]:
            continue
        spans = [s for s in message["spans"] if s["is_primary"]]
        numbers = {owners[s["file_name"]][s["line_start"] - 1] if s["file_name"] in owners else 0 for s in spans}
        if numbers == {0}:
            others.append(message["rendered"])
        wrong |= numbers - {0}
    if run.returncode and not wrong and not others:
        others.append(run.stderr)
    return wrong, others


def answers_of(player, waiting):
    """The player's answers up to the first variant that ends it; what was answered is taken from the waiting."""
    try:
        while waiting:
            ready, _, _ = select.select([player.stdout], [], [], SILENCE)
            line = player.stdout.readline().decode() if ready else ""
            number, _ = waiting.pop(0)
            yield number, line.rstrip("\n").split(" ", 1)[1] if line else "stops" if ready else "does not end"
            if not line:
                return
    finally:
        player.kill()
        player.wait()
