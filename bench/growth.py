"""growth.py OUT PROGRAM TABLE PICTURE: counts, the files TABLE and PICTURE, and the fitted lines."""
import math
import os
import sys

import count

out, program, table, picture = sys.argv[1:]
LENGTHS = (25, 50, 100, 150, 300, 1000, 3000, 10000, 40000)
OPERATIONS = (1, 3, 9, 21, 41, 61, 81, 101)
ZEROS = (16, 64, 256, 1000, 4000, 16000)
RECORDS = (2, 4, 8, 16, 32, 64, 128, 256)


SIDES = ("ours",) if count.ALONE else ("rust", "ours")


def pairs(prefix, sizes):
    return {side: [(n, count.side(out, side, f"{prefix}{n}")) for n in sizes] for side in SIDES}


groups = {"rust": [(n, n * count.side(out, "rust", f"W6-{n}")) for n in RECORDS]} if "rust" in SIDES else {}
if os.access(program, os.X_OK):
    groups["ours"] = [(n, n * count.program(out, program, n)) for n in RECORDS]
# title, what n is, by powers of ten or evenly, points by side
PANELS = [
    ("a pair, plain, wholly overlapping", "l_seq", True, pairs("L", LENGTHS)),
    ("a pair of 300 bases", "operations a read", False, pairs("OPS", OPERATIONS)),
    ("a pair of 100 bases", "operations of length 0 a read", True, pairs("ZEROS", ZEROS)),
    ("a group", "records", True, groups),
]


def fit(points):
    """a + b n with the least sum of squared relative deviations; the largest of these and where it is."""
    rows = [(1 / y, n / y) for n, y in points]
    uu, uv, vv = (sum(x[i] * x[j] for x in rows) for i, j in ((0, 0), (0, 1), (1, 1)))
    u, v = (sum(x[i] for x in rows) for i in (0, 1))
    det = uu * vv - uv * uv
    a, b = (u * vv - v * uv) / det, (v * uu - u * uv) / det
    worst, where = max((abs(a + b * n - y) / y, n) for n, y in points)
    return a, b, worst, where


with open(table, "w") as f:
    f.write("against\tn\tside\tinstructions\n")
    for _, against, _, sides in PANELS:
        for side, points in sides.items():
            f.writelines(f"{against}\t{n}\t{side}\t{y:.0f}\n" for n, y in points)

print("| instructions against n | | the line | largest deviation |\n|---|---|---|---|")
for title, against, _, sides in PANELS:
    for side, points in sides.items():
        a, b, worst, where = fit(points)
        who = "ours" if side == "ours" else "the Rust"
        sign = "+" if b >= 0 else "-"
        print(f"| {title}: {against} {points[0][0]:,} to {points[-1][0]:,} | {who} "
              f"| {a:,.0f} {sign} {abs(b):,.1f} n | {100 * worst:.1f}% at {where:,} |")

# The picture: a panel for each, each WIDE by HIGH inside its axes.
WIDE, HIGH, LEFT, TOP, STEP = 250, 230, 70, 50, 350
STYLE = {"rust": ("#b5451b", "the Rust"), "ours": ("#0b5f8a", "ours")}
svg = []


def text(x, y, words, anchor="middle", more=""):
    svg.append(f'<text x="{x:.1f}" y="{y:.1f}" text-anchor="{anchor}"{more}>{words}</text>')


def line(x1, y1, x2, y2, color):
    svg.append(f'<line x1="{x1:.1f}" y1="{y1:.1f}" x2="{x2:.1f}" y2="{y2:.1f}" stroke="{color}"/>')


def short(n):
    for size, letter in ((1e6, "M"), (1e3, "k")):
        if n >= size:
            return f"{n / size:g}{letter}"
    return f"{n:g}"


def axis(values, powers):
    """A map of values onto 0 to 1, and the ticks."""
    if powers:
        lo, hi = math.floor(math.log10(min(values))), math.ceil(math.log10(max(values)))
        return (lambda v: (math.log10(v) - lo) / (hi - lo)), [10 ** k for k in range(lo, hi + 1)]
    unit = 10 ** math.floor(math.log10(max(values)))
    unit = unit / 4 if max(values) / unit < 2 else unit
    steps = math.ceil(max(values) / unit)
    return (lambda v: v / (unit * steps)), [unit * k for k in range(steps + 1)]


for i, (title, against, powers, sides) in enumerate(PANELS):
    x0, y0 = LEFT + i * STEP, TOP + HIGH
    xs, xticks = axis([n for p in sides.values() for n, _ in p], powers)
    ys, yticks = axis([y for p in sides.values() for _, y in p], powers)
    for t in xticks:
        x = x0 + WIDE * xs(t)
        line(x, y0, x, TOP, "#e4e4e4")
        text(x, y0 + 17, short(t))
    for t in yticks:
        y = y0 - HIGH * ys(t)
        line(x0, y, x0 + WIDE, y, "#e4e4e4")
        text(x0 - 7, y + 4, short(t), "end")
    line(x0, y0, x0 + WIDE, y0, "#444")
    line(x0, y0, x0, TOP, "#444")
    text(x0 + WIDE / 2, TOP - 14, title, more=' font-weight="bold"')
    text(x0 + WIDE / 2, y0 + 38, against)
    for side, points in sides.items():
        color, name = STYLE[side]
        at = [(x0 + WIDE * xs(n), y0 - HIGH * ys(y)) for n, y in points]
        path = " ".join(f"{x:.1f},{y:.1f}" for x, y in at)
        svg.append(f'<polyline points="{path}" fill="none" stroke="{color}" stroke-width="2"/>')
        svg.extend(f'<circle cx="{x:.1f}" cy="{y:.1f}" r="3" fill="{color}"/>' for x, y in at)
        text(at[-1][0], at[-1][1] + (20 if side == "ours" else -10), name, "end", f' fill="{color}"')
text(16, TOP + HIGH / 2, "instructions", more=f' transform="rotate(-90 16 {TOP + HIGH / 2})"')
width, height = LEFT + (len(PANELS) - 1) * STEP + WIDE + 20, TOP + HIGH + 50
with open(picture, "w") as f:
    f.write(f'<svg xmlns="http://www.w3.org/2000/svg" viewBox="0 0 {width} {height}" width="{width}" height="{height}" '
            'font-family="sans-serif" font-size="12">\n<title>Instructions against l_seq, operations, operations of length 0 and records</title>\n'
            f'<rect width="{width}" height="{height}" fill="white"/>\n' + "\n".join(svg) + "\n</svg>\n")
