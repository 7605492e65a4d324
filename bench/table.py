"""table.py OUT PROGRAM: the table of docs/SPEED.md, from OUT/time.tsv, OUT/program.tsv and counts;
of instructions alone, without the Rust, where count.py takes no others."""
import os
import sys

import count

# Instructions at most, times the Rust at least. W6 by records.
LIMITS = {"W1": (1100, 20), "W2": (1260, 20), "W3": (13600, 6.5), "W4": (275000, 30), "W5": (275, 3),
          "W6 2 records": (950, 11), "W6 16 records": (870, 11), "W6 64 records": (870, 11), "W6 256 records": (850, 11)}
MORE = 0.01  # what another strategy may take above Consensus
WORDS = {
    "W1": "W1 2x150, overlap 0 to 150", "W2": "W2 2x100, full overlap", "W3": "W3 21 to 61 operations",
    "W4": "W4 40,000 bases", "W5": "W5 mapped apart",
}
HEAD = ("a pair", "ours", "limit", "the Rust", "C, plain loop", "C, blocks", "SSE2 by hand", "SSE2 / ours", "ours a position",
        "times the Rust: ours", "limit", "C, plain loop", "C, blocks", "SSE2 by hand")
COLUMNS = (0, 1, 2, 4, 5, 6, 7, 8) if count.ALONE else range(len(HEAD))
out, program = sys.argv[1:]
ratio, positions = {}, {}
ours = {}  # instructions of the archive and the program, by workload


def read_times():
    with open(f"{out}/time.tsv") as f:
        for line in f:
            workload, side, _, times, counted = line.split("\t")
            ratio[workload, side] = float(times)
            positions[workload] = float(counted)
    with open(f"{out}/program.tsv") as f:
        for line in f:
            path, times = line.split("\t")
            ratio["W6", "ours" if path == program else "c-block"] = float(times)


def whole(n):
    return "-" if n is None else f"{n:,.0f}"


def tenth(n):
    return "-" if n is None else f"{n:.1f}"


def by_count(rust, n):
    return "-" if rust is None or n is None else f"{rust / n:.1f} \\*"


def row(*cells):
    print("|", " | ".join(str(cells[i]) for i in COLUMNS), "|", flush=True)


def pair(w, words):
    n = {side: count.side(out, side, w) for side in ("ours", "rust", "c-run", "c-block", "sse2")}
    counted = count.positions(w) if count.ALONE else positions[w]
    ours[w] = n["ours"]
    row(words, whole(n["ours"]), whole(LIMITS[w][0]), whole(n["rust"]), whole(n["c-run"]), whole(n["c-block"]), whole(n["sse2"]),
        f"{n['sse2'] / n['ours']:.0%}", tenth(n["ours"] / counted if counted else None), tenth(ratio.get((w, "ours"))), LIMITS[w][1],
        *(tenth(ratio.get((w, side))) for side in ("c-run", "c-block", "sse2")))


def record(n):
    w = f"W6 {n} records"
    mine = count.program(out, program, n) if os.access(program, os.X_OK) else None
    rust, c = count.side(out, "rust", f"W6-{n}"), count.program(out, f"{out}/c-program", n)
    ours[w] = mine
    row(w, whole(mine), whole(LIMITS[w][0]), whole(rust), "-", whole(c), "-", "-", "-",
        by_count(rust, mine), LIMITS[w][1], "-", by_count(rust, c), "-")


def strategies():
    """The archive under other strategies, each at most a little above Consensus."""
    print("| ours, instructions a pair under strategies | 0 0 | 1 1 | 2 2 |\n|---|--:|--:|--:|")
    above = []
    for w in WORDS:
        others = {how: count.side(out, "ours", w, how) for how in ("11", "22")}
        growth = {how: n / ours[w] - 1 for how, n in others.items()}
        cells = [f"{whole(n)} ({growth[how]:+.1%})" for how, n in others.items()]
        print(f"| {w} | {whole(ours[w])} | {' | '.join(cells)} |", flush=True)
        above += [f"{w} under {how[0]} {how[1]}" for how in others if growth[how] > MORE]
    print(f"\nMore than {MORE:.0%} above 0 0: {', '.join(above) or 'none'}.")


if not count.ALONE:
    read_times()
row(*HEAD)
print("|---" + "|--:" * (len(COLUMNS) - 1) + "|")
for name, title in WORDS.items():
    pair(name, title)
print("| **a record** |" + " |" * (len(COLUMNS) - 1))
for size in (2, 16, 64, 256):
    record(size)
print()
if not count.ALONE:
    print("\\* by instructions. In processor time of whole runs on 256 records less runs on none, the system's reading "
          f"and writing included, times the Rust: ours {tenth(ratio.get(('W6', 'ours')))}, C {tenth(ratio['W6', 'c-block'])}.")
if ours["W6 256 records"]:
    larger = ours["W6 256 records"] / ours["W6 16 records"]
    print(f"A record in a group of 256 costs {larger:.2f} times one in a group of 16 (limit 1.1).")
over = [w for w, n in ours.items() if n and n > LIMITS[w][0]]
print(f"Above their limits of instructions: {', '.join(over) or 'none'}.\n")
strategies()
