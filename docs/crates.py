#!/usr/bin/env python3
"""Draws the picture of the crates from crates.txt, floor by floor, as SVG on standard output.

    docs/crates.py >docs/crates.svg

A floor is the crates below a heading, a comment of a few words without a full stop; the first stands at the
bottom. An arrow leads from a crate to one that it knows, and is left out where others imply it. The thick ones
are the way of a case: from the scanner down to what is asked of it, and the answer's way to the printed line.
"""
import os
import re

ROOT = os.path.dirname(os.path.dirname(os.path.abspath(__file__)))
WAY = """scanner scanning, scanning bag, bag seal, bag judge, judge statement, judge ledgerbytes, ledgerbytes ledger, statement casefile,
    statement sprout, statement tree, ledger tree, tree nodes, nodes sha256, sprout sha256, sprout blake2b,
    scanning text, scanner lines"""
BOX, TALL, GAP, LANE, STEP, LEFT, TOP = 92, 26, 14, 12, 60, 160, 62
WIDTH = 1180


def floors_of(text):
    """The floors, each with its heading and its crates, and what each crate knows."""
    floors, knows = [], {}
    for line in text.split("\n"):
        heading = re.fullmatch(r"# (.*[^.:])", line)
        crate = re.fullmatch(r"(\w+)(?: staticlib)?:(.*)", line)
        if heading:
            floors.append((heading[1], []))
        elif crate:
            floors = floors or [("crates", [])]
            floors[-1][1].append(crate[1])
            knows[crate[1]] = crate[2].split()
    return floors, {c: [d for d in ds if d in knows] for c, ds in knows.items()}


def arrows_of(knows):
    """The arrows that no others imply."""
    below = {}

    def reach(crate):
        if crate not in below:
            below[crate] = set(knows[crate]).union(*(reach(d) for d in knows[crate]))
        return below[crate]

    return [(c, d) for c in knows for d in knows[c] if not any(d in reach(e) for e in knows[c])]


def rows_of(floors, arrows):
    """Each crate's row, the lowest 0: within a floor a crate stands above those of it that it knows."""
    row, first = {}, 0
    for _, crates in floors:
        for _ in range(len(crates)):
            for crate in crates:
                row[crate] = max([first] + [row.get(d, first) + 1 for c, d in arrows if c == crate and d in crates])
        first = max(row[c] for c in crates) + 1
    for c, d in arrows:
        if row[c] <= row[d]:
            raise SystemExit(f"docs/crates.py: {c} knows {d}, which stands on a higher floor of crates.txt")
    return row


def with_lanes(row, arrows):
    """The rows with a lane for each arrow that passes through, and each arrow's stations from top to bottom."""
    lines = [[] for _ in range(max(row.values()) + 1)]
    for crate in row:
        lines[row[crate]].append(crate)
    stations = {}
    for c, d in arrows:
        passed = [(c, d, k) for k in range(row[c] - 1, row[d], -1)]
        for lane in passed:
            lines[lane[2]].append(lane)
        stations[c, d] = [c, *passed, d]
    return lines, stations


def size_of(station):
    return BOX if isinstance(station, str) else LANE


def spread(line, wish):
    """Places for the stations of a row, in order, as near as may be to where they would like to be."""
    groups = []
    for station in line:
        groups.append([[station], wish[station] - size_of(station) / 2])
        while len(groups) > 1 and end_of(groups[-2]) > groups[-1][1]:
            last = groups.pop()
            groups[-1][0] += last[0]
            at, starts = 0, []
            for s in groups[-1][0]:
                starts.append(wish[s] - size_of(s) / 2 - at)
                at += size_of(s) + GAP
            groups[-1][1] = sum(starts) / len(starts)
    place = {}
    for members, at in groups:
        for s in members:
            place[s] = at + size_of(s) / 2
            at += size_of(s) + GAP
    return place


def end_of(group):
    return group[1] + sum(size_of(s) + GAP for s in group[0])


def placed(lines, stations):
    """Where each station stands from left to right, after some sweeps up and down that shorten the arrows."""
    near = {s: ([], []) for line in lines for s in line}
    for way in stations.values():
        for upper, lower in zip(way, way[1:]):
            near[upper][0].append(lower)
            near[lower][1].append(upper)
    x = {s: (i + 0.5) * WIDTH / len(line) for line in lines for i, s in enumerate(line)}
    for sweep in range(60):
        side = sweep % 2
        for line in lines if side == 0 else reversed(lines):
            wish = {}
            for s in line:
                seen = near[s][side] if sweep < 40 and near[s][side] else near[s][0] + near[s][1]
                wish[s] = sum(x[n] for n in seen) / len(seen) if seen else x[s]
            line.sort(key=lambda s: wish[s])
            x.update(spread(line, wish))
    return x


def path_of(way, x, y):
    """An arrow's line: straight through its lanes, curved between the rows."""
    points = [(x[s], y[s]) for s in way]
    d = f"M{points[0][0]:.0f} {points[0][1] + TALL / 2:.0f}"
    at = (points[0][0], points[0][1] + TALL / 2)
    for i, (px, py) in enumerate(points[1:], 1):
        top = py - TALL / 2 - (4 if i == len(points) - 1 else 0)
        middle = (at[1] + top) / 2
        d += f"C{at[0]:.0f} {middle:.0f} {px:.0f} {middle:.0f} {px:.0f} {top:.0f}"
        at = (px, top)
        if i < len(points) - 1:
            d += f"V{py + TALL / 2:.0f}"
            at = (px, py + TALL / 2)
    return d


def drawing(floors, knows):
    arrows = arrows_of(knows)
    way = {tuple(pair.split()) for pair in WAY.split(",")}
    if not way <= set(arrows):
        raise SystemExit(f"docs/crates.py: the way of a case has arrows that are not in crates.txt: {sorted(way - set(arrows))}")
    row = rows_of(floors, arrows)
    lines, stations = with_lanes(row, arrows)
    x = placed(lines, stations)
    shift = LEFT + BOX / 2 - min(x[c] for c in row)
    x = {s: at + shift for s, at in x.items()}
    high = max(row.values())
    y = {s: TOP + (high - k) * STEP for k, line in enumerate(lines) for s in line}
    width, height = max(x.values()) + BOX / 2 + 20, TOP + high * STEP + TALL / 2 + 24
    out = [f'<svg xmlns="http://www.w3.org/2000/svg" viewBox="0 0 {width:.0f} {height:.0f}" font-family="sans-serif" font-size="13">']
    out.append("<title>The crates of Snaldrek, and the way of a case</title>")
    out.append('<defs><marker id="end" viewBox="0 0 8 8" refX="6" refY="4" markerWidth="8" markerHeight="8" markerUnits="userSpaceOnUse" orient="auto"><path d="M0 0L8 4L0 8z" fill="#456"/></marker></defs>')
    out.append(f'<rect width="{width:.0f}" height="{height:.0f}" fill="#fff"/>')
    out.append(f'<text x="12" y="22" fill="#333">An arrow leads to a crate that is known. The thick ones are the way of a case from the scanner to its answer.</text>')
    for number, (heading, crates) in enumerate(floors):
        ys = [y[c] for c in crates]
        top, tall = min(ys) - STEP / 2 + 1, max(ys) - min(ys) + STEP - 2
        out.append(f'<rect x="6" y="{top:.0f}" width="{width - 12:.0f}" height="{tall:.0f}" rx="6" fill="{("#f3f6fa", "#fbf8f1")[number % 2]}"/>')
        words = heading.split(" ")
        half = [" ".join(words[:3]), " ".join(words[3:])] if len(words) > 3 else [heading]
        for i, part in enumerate(half):
            out.append(f'<text x="16" y="{(min(ys) + max(ys)) / 2 + 5 + 16 * (i - (len(half) - 1) / 2):.0f}" font-style="italic" fill="#555">{part}</text>')
    for pair in sorted(stations, key=lambda p: (p in way, p)):
        look = 'stroke="#1f4e8c" stroke-width="3.2"' if pair in way else 'stroke="#9ab" stroke-width="1.1"'
        out.append(f'<path d="{path_of(stations[pair], x, y)}" fill="none" {look} marker-end="url(#end)"/>')
    on_way = {crate for pair in way for crate in pair}
    for crate in row:
        look = 'fill="#dce8f7" stroke="#1f4e8c" stroke-width="1.6"' if crate in on_way else 'fill="#fff" stroke="#678"'
        out.append(f'<rect x="{x[crate] - BOX / 2:.0f}" y="{y[crate] - TALL / 2:.0f}" width="{BOX}" height="{TALL}" rx="4" {look}/>')
        out.append(f'<text x="{x[crate]:.0f}" y="{y[crate] + 4.5:.0f}" text-anchor="middle" fill="#111">{crate}</text>')
    return "\n".join(out + ["</svg>"])


def main():
    with open(os.path.join(ROOT, "crates.txt"), encoding="utf-8") as f:
        floors, knows = floors_of(f.read())
    print(drawing(floors, knows))


if __name__ == "__main__":
    main()
