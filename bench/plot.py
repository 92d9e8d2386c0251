#!/usr/bin/env python3
"""Draws what a case costs, or what parts of it cost, against how full the nullifier table is.

plot.py FIGURES.TSV >SVG, plot.py PARTS.TSV >SVG : what bench/judge.sh left. Nothing but Python is needed.
"""
import csv
import sys

HASHING = 74 * 3_553  # instructions of the 74 proved compressions that a case with two old notes of value takes
COMPRESSIONS = "74 proved compressions"  # as their line is called
WIDTH, HEIGHT = 760, 440
LEFT, RIGHT, TOP, BOTTOM = 80, 190, 44, 56
LINES = (  # answer, column, what the line is called, colour, dashes
    ((0, 0), "proved", "accepted: proved", "#0b6e4f", ""),
    ((0, 0), "plain", "accepted: plain Rust", "#b5541c", ""),
    ((0, 0), "words", "accepted: tuned Rust", "#b5541c", "6 4"),
    ((7, 0), "proved", "refused by 7: proved", "#2f8f74", "2 3"),
    ((7, 0), "plain", "refused by 7: plain", "#c46a36", "2 3"),
)
ROWS = (0, 2_046, 16_384, 32_768, 49_152, 65_534)  # marks on the axis of the rows
PARTS = (("look for damage", "#0b6e4f"), ("moving rows", "#b5541c"), ("four searches", "#33508c"))  # column, colour


def points(rows, column):
    return sorted((int(row["fill"]), float(row[column])) for row in rows)


def read(path):
    """The title, whether there is the cost of the hashes to be shown, and the lines."""
    with open(path) as file:
        rows = list(csv.DictReader(file, delimiter="\t"))
    if "number" not in rows[0]:
        return "instructions of one accepted case that grow with the table", False, [(name, colour, "", points(rows, name)) for name, colour in PARTS]
    unit = [name for name in rows[0] if name in ("instructions", "nanoseconds")][0]
    lines = []
    for answer, column, name, colour, dashes in LINES:
        answered = [row for row in rows if (int(row["number"]), int(row["place"])) == answer]
        lines.append((name, colour, dashes, points(answered, column)))
    return f"{unit} of one case", unit == "instructions", lines


def scales(lines):
    """From rows and costs to places in the picture, and the marks on the axis of the costs."""
    most_rows = max(x for *_, points in lines for x, _ in points)
    most_cost = max(y for *_, points in lines for _, y in points)
    step = next(n * 10**k for k in range(3, 9) for n in (1, 2, 5) if most_cost / (n * 10**k) <= 7)
    top = (int(most_cost / step) + 1) * step
    across = lambda x: LEFT + x / most_rows * (WIDTH - LEFT - RIGHT)
    up = lambda y: HEIGHT - BOTTOM - y / top * (HEIGHT - TOP - BOTTOM)
    return across, up, range(0, top + 1, step)


def text(x, y, words, more=""):
    print(f'<text x="{x:.1f}" y="{y:.1f}" {more}>{words}</text>')


def axes(across, up, marks, title):
    for cost in marks:
        print(f'<line x1="{LEFT}" x2="{WIDTH - RIGHT}" y1="{up(cost):.1f}" y2="{up(cost):.1f}" stroke="#ddd"/>')
        text(LEFT - 8, up(cost) + 4, f"{cost:,}", 'text-anchor="end"')
    last = -WIDTH
    for rows in ROWS:  # a mark right beside the last one stands lower
        low = 16 if across(rows) - last < 40 else 0
        text(across(rows), HEIGHT - BOTTOM + 20 + low, f"{rows:,}", 'text-anchor="middle"')
        last = across(rows)
    text((LEFT + WIDTH - RIGHT) / 2, HEIGHT - 12, "nullifiers in the table", 'text-anchor="middle"')
    text(LEFT, TOP - 20, title, 'font-weight="bold"')


def hashing(up, height):
    """What no judge of these hashes can be below."""
    print(f'<line x1="{LEFT}" x2="{WIDTH - RIGHT}" y1="{up(HASHING):.1f}" y2="{up(HASHING):.1f}" stroke="#888" stroke-dasharray="3 4"/>')
    text(WIDTH - RIGHT + 10, height, COMPRESSIONS, 'fill="#555"')


def labels(ends, up):
    """The height of each name: at the end of its line, but never on the name above it."""
    low = {}
    last = 0
    for name, cost in sorted(ends, key=lambda end: -end[1]):
        last = low[name] = max(up(cost) + 4, last + 16)
    return low


def main():
    title, has_hashing, lines = read(sys.argv[1])
    across, up, marks = scales(lines)
    print(f'<svg xmlns="http://www.w3.org/2000/svg" width="{WIDTH}" height="{HEIGHT}" viewBox="0 0 {WIDTH} {HEIGHT}" '
          'font-family="sans-serif" font-size="13">')
    print(f'<rect width="{WIDTH}" height="{HEIGHT}" fill="white"/>')
    axes(across, up, marks, title)
    heights = labels([(name, points[-1][1]) for name, *_, points in lines] + [(COMPRESSIONS, HASHING)] * has_hashing, up)
    if has_hashing:
        hashing(up, heights[COMPRESSIONS])
    for name, colour, dashes, points in lines:
        path = " ".join(f"{across(x):.1f},{up(y):.1f}" for x, y in points)
        print(f'<polyline points="{path}" fill="none" stroke="{colour}" stroke-width="2" stroke-dasharray="{dashes}"/>')
        for x, y in points:
            print(f'<circle cx="{across(x):.1f}" cy="{up(y):.1f}" r="3" fill="{colour}"/>')
        text(WIDTH - RIGHT + 10, heights[name], name, f'fill="{colour}"')
    print("</svg>")


main()
