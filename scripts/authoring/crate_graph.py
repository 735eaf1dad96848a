#!/usr/bin/env python3
"""Draws the crates and what stands on what: docs/crates.svg, from crates.txt. scripts/checks/pages.py sees that it is today's.

usage: scripts/authoring/crate_graph.py

A crate stands as high as those that name it let it. A line is left out where a longer way says the same. Crates of the kit aren't drawn, and
neither are tests, examples and wrong bodies. It also prints how many crates, edges and levels there are.
"""
import os

TOP = os.path.dirname(os.path.dirname(os.path.dirname(os.path.realpath(__file__))))
GRAPH = f"{TOP}/docs/crates.svg"
WIDE, HIGH, GAP, STEP, MARGIN = 172, 26, 14, 66, 16
KINDS = {"laws": ("#fff4dc", "#b0811d"), "programs": ("#e6f4ea", "#3c8a55"), "": ("#eef3fb", "#4a6fa5")}


def edges_of(path):
    """For each crate of the repository those that it names."""
    with open(path, encoding="utf-8") as file:
        named = {line.split(":")[0]: line.split(":")[1].split() for line in file if ":" in line and not line.startswith("#")}
    return {crate: [it for it in below if it in named] for crate, below in named.items()}


def levels_of(below):
    """For each crate its level, from 0: the longest way down from a crate that nothing names, counted from the foot."""
    above = {crate: [it for it in below if crate in below[it]] for crate in below}
    depths = {}

    def depth(crate):
        if crate not in depths:
            depths[crate] = 1 + max((depth(it) for it in above[crate]), default=-1)
        return depths[crate]

    deepest = max(depth(crate) for crate in below)
    return {crate: deepest - depths[crate] for crate in below}


def reduced(below):
    """The edges without those that a longer way says."""
    reach = {}

    def reached(crate):
        if crate not in reach:
            reach[crate] = set(below[crate]).union(*(reached(it) for it in below[crate]))
        return reach[crate]

    for crate in below:
        reached(crate)
    return {crate: [it for it in names if not any(it in reach[other] for other in names)] for crate, names in below.items()}


def rows_of(levels, lines):
    """The crates of each level, in an order with few crossings."""
    rows = [sorted(it for it in levels if levels[it] == n) for n in range(max(levels.values()) + 1)]
    above = {crate: [it for it in lines if crate in lines[it]] for crate in lines}
    for turn in range(24):
        place = {crate: (at + 0.5) / len(row) for row in rows for at, crate in enumerate(row)}
        near = lines if turn % 2 == 0 else above
        for row in rows:
            row.sort(key=lambda it: (sum(place[n] for n in near[it]) / len(near[it]) if near[it] else place[it], it))
    return rows


def kind_of(crate):
    if crate.endswith("_laws"):
        return "laws"
    return "programs" if crate in ("uaserver", "commands") else ""


def drawn(rows, lines):
    """The picture, the lowest level at its foot."""
    wide = max(len(row) for row in rows) * (WIDE + GAP) - GAP + 2 * MARGIN
    high = len(rows) * STEP - (STEP - HIGH) + 2 * MARGIN
    at = {}
    for level, row in enumerate(rows):
        left = (wide - len(row) * (WIDE + GAP) + GAP) / 2
        for place, crate in enumerate(row):
            at[crate] = left + place * (WIDE + GAP), high - MARGIN - HIGH - level * STEP
    parts = [f'<svg xmlns="http://www.w3.org/2000/svg" viewBox="0 0 {wide} {high}" font-family="sans-serif" font-size="12">',
             f'<rect width="{wide}" height="{high}" fill="#ffffff"/>']
    for crate, names in lines.items():
        x, y = at[crate]
        for below in names:
            u, v = at[below]
            a, b, c, d = x + WIDE / 2, y + HIGH, u + WIDE / 2, v
            bend = (d - b) / 2
            parts.append(f'<path d="M{a:.0f} {b:.0f}C{a:.0f} {b + bend:.0f} {c:.0f} {d - bend:.0f} {c:.0f} {d:.0f}" fill="none" stroke="#9aa7b8"/>')
    for crate, (x, y) in at.items():
        fill, line = KINDS[kind_of(crate)]
        parts.append(f'<rect x="{x:.0f}" y="{y:.0f}" width="{WIDE}" height="{HIGH}" rx="4" fill="{fill}" stroke="{line}"/>')
        parts.append(f'<text x="{x + WIDE / 2:.0f}" y="{y + HIGH / 2 + 4:.0f}" text-anchor="middle" fill="#1d2733">{crate}</text>')
    return "\n".join([*parts, "</svg>", ""])


def graph():
    """All crates, those that are drawn, and the picture of these."""
    every = edges_of(f"{TOP}/crates.txt")
    below = {crate: names for crate, names in every.items() if not (crate.endswith(("_tests", "_examples")) or crate.startswith("wrong_"))}
    lines = reduced(below)
    return every, lines, drawn(rows_of(levels_of(below), lines), lines)


def main():
    every, lines, picture = graph()
    with open(GRAPH, "w", encoding="utf-8") as file:
        file.write(picture)
    print(f"{len(every)} crates, {sum(map(len, every.values()))} edges; drawn are {len(lines)} crates and {sum(map(len, lines.values()))} lines")


if __name__ == "__main__":
    main()
