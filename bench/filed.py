"""filed.py OUT PROGRAM PROGRAM_FILED FILE: what a record of a filed group costs beside one of a group.
FILE is the tool of hosts/c/file.c; OUT has the groups of W6, in their order and with mates side by side."""
import glob
import subprocess
import sys

import count

LIMITS = {"beside": 1250, "w6": 1950}  # of a record in a filed group of LARGEST
SIZES, LARGEST = (2, 16, 64, 128), 128
ORDERS = {"beside": "mates side by side", "w6": "mates shuffled, as in W6"}
out, program, program_filed, tool = sys.argv[1:]


def cost(path, data):
    with open(f"{out}/filed.in", "wb") as f:
        f.write(data)
    return count.whole(out, path, f"{out}/filed.in")


def both(name):
    """Instructions of a run of each program on one group: two digits, then frames."""
    with open(name, "rb") as f:
        group = f.read()
    filed = subprocess.run([tool, chr(group[0]), chr(group[1])], input=group[2:], capture_output=True, check=True).stdout
    return cost(program, group), cost(program_filed, filed)


none = both(f"{out}/empty.in")
rows = {(order, n): [both(name) for name in glob.glob(f"{out}/{order}-{n}-*.in")] for order in ORDERS for n in SIZES}
above = []
print(f"| instructions a record, in a group of | {' | '.join(map(str, SIZES))} | limit of {LARGEST} |")
print("|---" + "|--:" * (len(SIZES) + 1) + "|")
for side, title in enumerate(("the group call", "the call on a filed group")):
    for order, words in ORDERS.items():
        costs = {n: (sum(r[side] for r in rows[order, n]) / len(rows[order, n]) - none[side]) / n for n in SIZES}
        limit = LIMITS[order] if side else None
        if limit and costs[LARGEST] > limit:
            above.append(words)
        cells = [f"{c:,.0f}" for c in costs.values()] + [f"{limit:,}" if limit else "-"]
        print(f"| {title}, {words} | {' | '.join(cells)} |")
print(f"\nFiled groups above their limit: {'; '.join(above) or 'none'}.")
