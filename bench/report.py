#!/usr/bin/env python3
"""Prints the tables of bench/judge.sh, and writes figures.tsv for bench/plot.py.

report.py FOLDER UNIT FILL.. : FOLDER has, for each fill of the table, answers.FILL (a line for each case:
number, place and the file's length) and costs.FILL (lines of round, side, and the cost of each case). The tables are of the
fills that are named; figures.tsv has all that the folder has.
"""
import statistics
import sys
from collections import defaultdict
from pathlib import Path

SIDES = ("proved", "plain", "words", "second")
OTHERS = {"plain": "plain", "words": "tuned", "second": "second"}  # as the tables call them
COMPRESSION = 3553  # instructions of one proved compression, from the bench of the hashes
TIMES, ABOVE = 1.5, 150  # each kind of answer: at most so many times plain Rust's instructions, or so many above them
EDITIONS = {4210: "first", 4106: "second"}  # by the length of the file
COMPRESSIONS = 74  # of a case with two old notes of value: 58 for paths, 8 for commitments, 8 more


class Fill:
    """What was measured with so many rows in the table."""

    def __init__(self, folder, fill):
        self.fill = fill
        answers = (folder / f"answers.{fill}").read_text().splitlines()
        self.kinds = defaultdict(list)
        self.editions = {length: set() for length in EDITIONS}
        for index, line in enumerate(answers):
            number, place, length = map(int, line.split())
            self.kinds[number, place].append(index)
            if length in EDITIONS:
                self.editions[length].add(index)
        self.all = list(range(len(answers)))
        rounds = defaultdict(list)
        for line in (folder / f"costs.{fill}").read_text().splitlines():
            _, side, *costs = line.split()
            rounds[side].append(list(map(int, costs)))
        self.rounds = {side: [self.less_call(cost, rounds["nothing"]) for cost in rounds[side]] for side in SIDES}

    @staticmethod
    def less_call(costs, nothing):
        """Takes off what a call that does nothing costs."""
        call = min(min(cost) for cost in nothing)
        return [max(cost - call, 0) for cost in costs]

    def mean(self, side, cases):
        """A case's cost, the median over the rounds."""
        return statistics.median(sum(cost[i] for i in cases) / len(cases) for cost in self.rounds[side])

    def ratio(self, other, cases):
        return self.mean("proved", cases) / max(self.mean(other, cases), 1)

    def spread(self, other, cases):
        """Least and most ratio: of the rounds where there are several, else of the single cases."""
        pairs = list(zip(self.rounds["proved"], self.rounds[other]))
        if len(pairs) > 1:
            ratios = [sum(a[i] for i in cases) / max(sum(b[i] for i in cases), 1) for a, b in pairs]
        else:
            ratios = [a[i] / b[i] for a, b in pairs for i in cases if b[i]]
        return min(ratios), max(ratios)


def row(*cells):
    print("| " + " | ".join(str(cell) for cell in cells) + " |")


def overall(fills, unit):
    counted = unit == "instructions"
    print("\nAll cases of a fill together, half of them accepted; then the accepted alone:\n")
    row("rows", "cases", *(f"proved / {name}" for name in OTHERS.values()), "accepted, proved", "plain", "tuned", "proved / plain",
        "least to most", "proved / tuned", *(["over 74 compressions"] if counted else []))
    row(*["---"] * (12 if counted else 11))
    for fill in fills:
        accepted = fill.kinds[0, 0]
        least, most = fill.spread("plain", accepted)
        proved = fill.mean("proved", accepted)
        row(f"{fill.fill:,}", f"{len(fill.all):,}", *(f"{fill.ratio(other, fill.all):.3f}" for other in OTHERS), f"{proved:,.0f}",
            f"{fill.mean('plain', accepted):,.0f}", f"{fill.mean('words', accepted):,.0f}",
            f"{fill.ratio('plain', accepted):.3f}", f"{least:.3f} to {most:.3f}", f"{fill.ratio('words', accepted):.3f}",
            *([f"{proved / (COMPRESSIONS * COMPRESSION):.3f}"] if counted else []))
    total = {side: sum(fill.mean(side, fill.all) for fill in fills) for side in SIDES}
    print("\nAll fills together: " + ", ".join(f"proved / {name} {total['proved'] / total[other]:.3f}" for other, name in OTHERS.items()))


def by_edition(fills, unit):
    sides = ("proved", "plain", "tuned")
    print(f"\nBy edition, {unit} of a case; the cases are the same in both:\n")
    row("rows", "edition", "accepted", *sides, "refused", *sides)
    row(*["---"] * 10)
    for fill in fills:
        for length, name in EDITIONS.items():
            accepted = sorted(fill.editions[length] & set(fill.kinds[0, 0]))
            refused = sorted(fill.editions[length] - set(accepted))
            row(f"{fill.fill:,}", name, *(cell for cases in (accepted, refused)
                                          for cell in (len(cases), *(f"{fill.mean(side, cases):,.0f}" for side in SIDES[:3]))))


def by_kind(fills, unit):
    print(f"\nBy kind of answer, {unit} of a case: proved, plain, and their ratio with its least and most:\n")
    row("answer", *(f"{fill.fill:,} rows" for fill in fills))
    row(*["---"] * (1 + len(fills)))
    for kind in sorted({kind for fill in fills for kind in fill.kinds}):
        cells = []
        for fill in fills:
            cases = fill.kinds.get(kind)
            if not cases:
                cells.append("")
                continue
            least, most = fill.spread("plain", cases)
            cells.append(f"{fill.mean('proved', cases):,.0f}, {fill.mean('plain', cases):,.0f}: "
                         f"{fill.ratio('plain', cases):.2f} ({least:.2f} to {most:.2f})")
        row(f"{kind[0]} {kind[1]}", *cells)


def kept_to(fills):
    """Says which kinds of answer miss the goal, if any does."""
    missed = [f"{kind[0]} {kind[1]} with {fill.fill:,} rows ({proved - plain:+,.0f})" for fill in fills for kind, cases in sorted(fill.kinds.items())
              for proved, plain in [(fill.mean("proved", cases), fill.mean("plain", cases))]
              if proved > TIMES * plain and proved > plain + ABOVE]
    print(f"\nEach kind at most {TIMES} times plain Rust, or {ABOVE} above it: " + (f"missed by {', '.join(missed)}." if missed else "met."))


def write_figures(folder, unit):
    fills = sorted(int(path.name.split(".")[1]) for path in folder.glob("costs.*"))
    with open(folder / "figures.tsv", "w") as out:
        print("fill", "number", "place", "cases", *SIDES, unit, sep="\t", file=out)
        for fill in (Fill(folder, fill) for fill in fills):
            for kind, cases in sorted(fill.kinds.items()):
                print(fill.fill, *kind, len(cases), *(f"{fill.mean(side, cases):.0f}" for side in SIDES), sep="\t", file=out)


def main():
    folder, unit = Path(sys.argv[1]), sys.argv[2]
    fills = [Fill(folder, int(word)) for word in sys.argv[3:]]
    overall(fills, unit)
    by_edition(fills, unit)
    by_kind(fills, unit)
    if unit == "instructions":
        kept_to(fills)
    write_figures(folder, unit)


main()
