#!/usr/bin/env python3
"""Puts today's spelling of definitions and lemmas (tools/names.txt: the older name, today's, and the crates that have it) where the papers name
them, between backticks. Runs of tapes, as `replay:some-run case 8 1`, keep their names.

usage: tools/respell_papers.py FILE.."""
import re
import sys
from pathlib import Path

NAMES = dict(line.split()[:2] for line in (Path(__file__).parent / "names.txt").read_text(encoding="utf-8").splitlines())
WORD = re.compile(r"(?<![\w'\-/.:·])([a-z][\w'′-]*)(?![\w'\-])")

for path in sys.argv[1:]:
    text = Path(path).read_text(encoding="utf-8")

    def turn(m):
        inside = m.group(1)
        if re.match(r"[a-z]+:[a-z0-9-]+ ", inside) or "://" in inside:
            return m.group(0)
        return "`" + WORD.sub(lambda w: NAMES.get(w.group(1), w.group(1)), inside) + "`"

    parts = re.split(r"(```.*?```)", text, flags=re.S)
    new = "".join(p if p.startswith("```") else re.sub(r"`([^`\n]+)`", turn, p) for p in parts)
    if new != text:
        Path(path).write_text(new, encoding="utf-8")
