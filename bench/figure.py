#!/usr/bin/env python3
"""figure.py TIMES..: draws time by length from the numbers of a run, as an SVG on the standard output.

TIMES are the files bench/out/times-*.tsv that run.sh leaves, one for each layout; of each number their median is drawn.
"""
import math
import statistics
import sys

WIDTH, HEIGHT = 900, 420
TOP, BOTTOM, GAP = 64, 52, 132
LEFT = 58
PANEL = (WIDTH - LEFT - 2 * GAP) / 2
LEAST, GREATEST = 8, 9000
FASTEST, SLOWEST = 1, 1000
INK, PALE, GRID = "#1f2328", "#59636e", "#e4e7eb"
# Name, column of the file, colour; the limit is computed.
CURVES = [("Rust crate", 2, "#b35900"), ("Linux", 4, "#6e40c9"), ("proved", 5, "#0a6cbd")]
PANELS = [
    ("Lengths vary by a quarter, at random places", "sum of 64 bits, checksum, around"),
    ("One slice over and over", "sum of 64 bits, checksum, constant"),
]


def numbers(files):
    """Of each row and column the median over the files."""
    found = {}
    for file in files:
        for line in open(file, encoding="utf-8"):
            row = line.rstrip("\n").split("\t")
            for column, text in enumerate(row[2:], 2):
                if text != "-":
                    found.setdefault((row[0], row[1], column), []).append(float(text))
    return {key: statistics.median(values) for key, values in found.items()}


def part(value, least, greatest):
    """Where a value stands between two others, by its logarithm."""
    return math.log(value / least) / math.log(greatest / least)


def panel(out, left, title, what, found, cycle):
    """One panel: axes, curves, and the name of each curve at its end."""
    height = HEIGHT - TOP - BOTTOM

    def x(length):
        return left + PANEL * part(length, LEAST, GREATEST)

    def y(nanoseconds):
        return TOP + height * (1 - part(nanoseconds, FASTEST, SLOWEST))

    def text(at_x, at_y, words, colour, anchor="start", size=12):
        out.append(f'<text x="{at_x:.1f}" y="{at_y:.1f}" fill="{colour}" font-size="{size}" text-anchor="{anchor}">{words}</text>')

    text(left, TOP - 14, title, INK, size=13)
    for nanoseconds in (1, 10, 100, 1000):
        out.append(f'<line x1="{left:.1f}" x2="{left + PANEL:.1f}" y1="{y(nanoseconds):.1f}" y2="{y(nanoseconds):.1f}" stroke="{GRID}"/>')
        text(left - 8, y(nanoseconds) + 4, f"{nanoseconds} ns", PALE, "end", 11)
    for length in (8, 20, 64, 256, 1500, 9000):
        out.append(f'<line x1="{x(length):.1f}" x2="{x(length):.1f}" y1="{TOP}" y2="{TOP + height}" stroke="{GRID}"/>')
        text(x(length), TOP + height + 18, length, PALE, "middle", 11)
    text(left + PANEL / 2, TOP + height + 40, "bytes", PALE, "middle", 11)
    curves = []
    for name, column, colour in CURVES:
        points = sorted((int(key[1]), value) for key, value in found.items() if key[0] == what and key[2] == column)
        curves.append((name, colour, "", [point for point in points if LEAST <= point[0] <= GREATEST]))
    lengths = [length for length, _ in curves[-1][3]]
    # Two loads a cycle, and ten loads for 96 bytes.
    limit = [(length, length * 10 / 96 / 2 * cycle) for length in lengths]
    curves.append(("limit", PALE, ' stroke-dasharray="4 4"', [point for point in limit if point[1] >= FASTEST]))
    ends = []
    for name, colour, dashes, points in curves:
        if not points:
            continue
        line = " ".join(f"{x(length):.1f},{y(nanoseconds):.1f}" for length, nanoseconds in points)
        out.append(f'<polyline points="{line}" fill="none" stroke="{colour}" stroke-width="2"{dashes}/>')
        ends.append([y(points[-1][1]), x(points[-1][0]), name, colour])
    # Names that would stand over one another are moved apart.
    ends.sort()
    for above, below in zip(ends, ends[1:]):
        below[0] = max(below[0], above[0] + 14)
    for at_y, at_x, name, colour in ends:
        text(at_x + 8, at_y + 4, name, colour)


def main():
    found = numbers(sys.argv[1:])
    cycle = found[("clock", "", 2)]
    out = [
        f'<svg xmlns="http://www.w3.org/2000/svg" viewBox="0 0 {WIDTH} {HEIGHT}" font-family="sans-serif">',
        "<title>Time of a checksum by the length of the slice</title>",
        f'<rect width="{WIDTH}" height="{HEIGHT}" fill="#ffffff"/>',
        f'<text x="{LEFT}" y="26" fill="{INK}" font-size="16">Time of a checksum by the length of the slice</text>',
    ]
    for number, (title, what) in enumerate(PANELS):
        panel(out, LEFT + number * (PANEL + GAP), title, what, found, cycle)
    out.append("</svg>")
    print("\n".join(out))


main()
