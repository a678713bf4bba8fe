#!/usr/bin/env python3
"""peers.py TABLE: draws packets a second of programs that do the same work, as an SVG on the standard output.

TABLE is docs/performance/peers.tsv, with nanoseconds a packet from runs of the other scripts here.
"""
import itertools
import math
import sys

WIDTH, LEFT, RIGHT = 900, 250, 90
ROW, GAP, TOP, BOTTOM = 20, 34, 58, 40
LEAST, GREATEST = 5e4, 4e7
INK, PALE, GRID = "#1f2328", "#59636e", "#e4e7eb"
COLOURS = {"ours": "#0a6cbd", "peer": "#b35900"}


def x(rate):
    """where a rate stands, by its logarithm"""
    return LEFT + (WIDTH - LEFT - RIGHT) * math.log(rate / LEAST) / math.log(GREATEST / LEAST)


def words(rate):
    return f"{rate / 1e6:.1f} M" if rate >= 1e6 else f"{rate / 1e3:.0f} k"


def main():
    lines = open(sys.argv[1], encoding="utf-8").read().splitlines()[1:]
    tasks = [(task, list(rows)) for task, rows in itertools.groupby((line.split("\t") for line in lines), lambda row: row[0])]
    height = TOP + sum(GAP + ROW * len(rows) for _, rows in tasks) + BOTTOM
    out = [
        f'<svg xmlns="http://www.w3.org/2000/svg" viewBox="0 0 {WIDTH} {height}" font-family="sans-serif" font-size="12">',
        "<title>Packets a second beside peers</title>",
        f'<rect width="{WIDTH}" height="{height}" fill="#ffffff"/>',
        f'<text x="20" y="26" fill="{INK}" font-size="16">Packets a second beside peers, one processor, on a logarithmic scale</text>',
    ]
    for rate in (1e5, 1e6, 1e7):
        out.append(f'<line x1="{x(rate):.1f}" x2="{x(rate):.1f}" y1="{TOP - 14}" y2="{height - BOTTOM}" stroke="{GRID}"/>')
        out.append(f'<text x="{x(rate):.1f}" y="{height - BOTTOM + 18}" fill="{PALE}" text-anchor="middle">{words(rate)}</text>')
    y = TOP
    for task, rows in tasks:
        out.append(f'<text x="20" y="{y + 4}" fill="{INK}" font-weight="bold">{task}</text>')
        y += 14
        for _, program, nanoseconds, whose in rows:
            rate = 1e9 / float(nanoseconds)
            out.append(f'<text x="{LEFT - 8}" y="{y + 12}" fill="{INK}" text-anchor="end">{program}</text>')
            out.append(f'<line x1="{LEFT}" x2="{x(rate):.1f}" y1="{y + 9}" y2="{y + 9}" stroke="{GRID}"/>')
            out.append(f'<circle cx="{x(rate):.1f}" cy="{y + 9}" r="5" fill="{COLOURS[whose]}"/>')
            out.append(f'<text x="{x(rate) + 10:.1f}" y="{y + 13}" fill="{PALE}">{words(rate)}</text>')
            y += ROW
        y += GAP - 14
    out.append("</svg>")
    print("\n".join(out))


main()
