#!/usr/bin/env python3
"""Prints where the instructions of an accepted case go, and writes parts.tsv for bench/plot.py.

parts.py FOLDER PROGRAM FILL.. : FOLDER has, for each fill of the table, blocks.FILL, the blocks that ran within the
calls, as count.c writes them, and accepted.FILL, a line of how many calls these were and where `by_proved` stood.
A part is what runs in functions of the proved library by themselves, without what they call.
"""
import bisect
import subprocess
import sys
from collections import Counter
from pathlib import Path

ABSORB = "sha256::absorb"  # called once for each compression
PARTS = {  # as the table calls it, and the functions: the first one always runs, the others may be compiled into it
    "four searches": ("judge::table::search", "judge::order::compare_words"),
    "look for damage": ("judge::asking::sound", "judge::table::is_rising", "judge::table::rises_to"),
    "moving rows": ("judge::table::enter_one", "judge::table::shift", "judge::table::shift_eights", "judge::table::shift_four", "judge::table::shift_bytes"),
    "compressions": (ABSORB,),
}


class Symbols:
    """The program's functions by address."""

    def __init__(self, program):
        said = subprocess.run(["nm", "-n", "--defined-only", program], capture_output=True, text=True, check=True).stdout
        rows = [line.split(" ", 2) for line in said.splitlines()]
        found = [(int(address, 16), name) for address, kind, name in rows if kind in "tT"]
        self.addresses = [address for address, _ in found]
        self.names = [name for _, name in found]
        self.anchor = next(address for address, name in found if "by_proved" in name)

    def name_at(self, address):
        """The function that an address is in; of another file's, as the C library's, the last one of this."""
        return self.names[bisect.bisect(self.addresses, address) - 1]


def cost_of(folder, symbols, fill):
    """By part what a case takes, how many compressions, and what it takes in all."""
    cases, anchor = (folder / f"accepted.{fill}").read_text().split()
    base = int(anchor, 16) - symbols.anchor
    cost, compressions = Counter(), 0
    for line in (folder / f"blocks.{fill}").read_text().splitlines():
        address, instructions, runs, _ = line.split()
        at = int(address, 16) - base
        cost[symbols.name_at(at)] += int(instructions) * int(runs)
        if at in symbols.addresses and symbols.name_at(at) == ABSORB:
            compressions += int(runs)
    missing = [name for names in PARTS.values() for name in names[:1] if not cost[name]]
    if missing:
        sys.exit(f"parts.py: nothing ran in {', '.join(missing)}, which may have another name now")
    parts = {part: sum(cost[name] for name in names) / int(cases) for part, names in PARTS.items()}
    return parts, compressions / int(cases), sum(cost.values()) / int(cases)


def main():
    folder, symbols = Path(sys.argv[1]), Symbols(sys.argv[2])
    costs = {fill: cost_of(folder, symbols, fill) for fill in sys.argv[3:]}
    print("\nWhere the instructions of an accepted case go:\n")
    print("| rows | " + " | ".join(PARTS) + " | their number | all others | in all |")
    print("| --- " * (len(PARTS) + 4) + "|")
    with open(folder / "parts.tsv", "w", encoding="utf-8") as out:
        print("fill", *PARTS, sep="\t", file=out)
        for fill, (parts, compressions, whole) in costs.items():
            cells = [*parts.values(), compressions, whole - sum(parts.values()), whole]
            print(f"| {int(fill):,} | " + " | ".join(f"{cell:,.0f}" for cell in cells) + " |")
            print(fill, *(f"{cell:.0f}" for cell in parts.values()), sep="\t", file=out)


main()
