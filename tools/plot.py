#!/usr/bin/env python3
"""Draws docs/performance.svg from a table of docs/PERFORMANCE.md: time a line and bytes a record, beside the peers.

    tools/plot.py           at the top of the repository
    tools/plot.py --check   status 1 where the picture is not the one that it would draw
It stands below the heading TABLE: a row for each key set and number of records, and for each of PANELS a column for
each program, the first of which begins with its name.
"""
import math
import os
import re
import sys

PAGE, PICTURE = "docs/PERFORMANCE.md", "docs/performance.svg"
TABLE = "A `get` line, and memory"
PANELS = (("ns", "a get line, ns"), ("bytes", "peak memory, bytes a record"))
KEY_SETS = ("rand8", "url", "tenants")
COLOURS = {"btree": "#888888", "art": "#c9a227", "art-vec": "#2a9d8f", "art-list": "#7a5195", "here": "#d62828"}
NAMES = {"btree": "BTreeMap", "art": "art, raw pointers", "here": "art_index"}
WIDTH, HEIGHT, LEFT, TOP, GAP_X, GAP_Y = 230, 150, 60, 40, 62, 62


def table_of(panel):
    """The programs of the panel's columns, and their numbers: by key set and program, a list of (records, number)."""
    with open(PAGE, encoding="utf-8") as file:
        part = file.read().split(f"\n### {TABLE}\n")[1].split("\n#")[0]
    rows = [[it.strip() for it in line.strip("|").split("|")] for line in part.split("\n") if line.startswith("|")]
    columns, found, group = {}, {}, ""
    for at, head in enumerate(rows[0]):
        name, _, program = head.rpartition(": ")
        group = name or group
        if group == panel:
            columns[program] = at
    for row in rows[2:]:
        for program, at in columns.items():
            found.setdefault((row[0], program), []).append((int(row[1]), float(row[at])))
    return [*columns], found


def round_up(number):
    step = 10 ** math.floor(math.log10(number)) / 2
    return math.ceil(number / step) * step


def text(x, y, words, size=11, anchor="middle", more=""):
    return f'<text x="{x:.0f}" y="{y:.0f}" font-size="{size}" text-anchor="{anchor}"{more}>{words}</text>'


def panel(x, y, title, programs, numbers, most):
    """A panel with records across, by their logarithm, and the numbers upwards from 0."""
    sizes = [it for it, _ in numbers[programs[0]]]
    low, high = math.log10(sizes[0]), math.log10(sizes[-1])
    across = lambda it: x + (math.log10(it) - low) / (high - low) * WIDTH
    up = lambda it: y + HEIGHT - it / most * HEIGHT
    yield text(x + WIDTH / 2, y - 8, title)
    yield f'<rect x="{x}" y="{y}" width="{WIDTH}" height="{HEIGHT}" fill="none" stroke="#bbbbbb"/>'
    for part in range(5):
        number = most * part / 4
        yield f'<line x1="{x}" x2="{x + WIDTH}" y1="{up(number):.1f}" y2="{up(number):.1f}" stroke="#eeeeee"/>'
        yield text(x - 6, up(number) + 4, f"{number:g}", 10, "end")
    for it in sizes:
        power = f'10<tspan dy="-5" font-size="8">{math.log10(it):.0f}</tspan>'
        yield text(across(it), y + HEIGHT + 15, power, 10)
    for program in programs:
        points = " ".join(f"{across(n):.1f},{up(it):.1f}" for n, it in numbers[program])
        width = 2.5 if program == "here" else 1.5
        colour = COLOURS[program]
        yield f'<polyline points="{points}" fill="none" stroke="{colour}" stroke-width="{width}"/>'
        for n, it in numbers[program]:
            yield f'<circle cx="{across(n):.1f}" cy="{up(it):.1f}" r="2.5" fill="{colour}"/>'


def drawn():
    width = LEFT + len(KEY_SETS) * (WIDTH + GAP_X)
    height = TOP + len(PANELS) * (HEIGHT + GAP_Y) + 20
    size = f'viewBox="0 0 {width} {height}"'
    yield f'<svg xmlns="http://www.w3.org/2000/svg" {size} font-family="sans-serif" fill="#222">'
    yield f'<rect width="{width}" height="{height}" fill="#ffffff"/>'
    for row, (columns, title) in enumerate(PANELS):
        programs, found = table_of(columns)
        most = round_up(max(it for k in KEY_SETS for p in programs for _, it in found[k, p]))
        for column, key_set in enumerate(KEY_SETS):
            numbers = {it: found[key_set, it] for it in programs}
            x, y = LEFT + column * (WIDTH + GAP_X), TOP + row * (HEIGHT + GAP_Y)
            yield from panel(x, y, f"{key_set}: {title}", programs, numbers, most)
    for at, program in enumerate(programs):
        x = LEFT + at * 160
        colour = COLOURS[program]
        yield f'<line x1="{x}" x2="{x + 24}" y1="{height - 20}" y2="{height - 20}" stroke="{colour}" stroke-width="3"/>'
        yield text(x + 30, height - 16, NAMES.get(program, program), 11, "start")
    yield "</svg>"


def main():
    os.chdir(os.path.dirname(os.path.dirname(os.path.realpath(__file__))))
    picture = "\n".join(drawn()) + "\n"
    if sys.argv[1:] == ["--check"]:
        with open(PICTURE, encoding="utf-8") as file:
            sys.exit(0 if file.read() == picture else f"plot: {PICTURE} is not drawn from {PAGE}: run tools/plot.py")
    if sys.argv[1:]:
        sys.exit(__doc__)
    with open(PICTURE, "w", encoding="utf-8") as file:
        file.write(picture)


if __name__ == "__main__":
    main()
