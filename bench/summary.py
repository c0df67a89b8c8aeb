#!/usr/bin/env python3
"""The table of docs/SPEED.md from what run.sh printed: summary.py FILE. A row for each case, a column for each size, in each cell the ratio
ours/original, plain and then with lto = "fat"."""
import re
import sys

SIZES = ["n=32 sliced", "n=192 scalar", "n=64 scalar", "n=65 scalar"]


def rows(text):
    """Case, size and both ratios of each line that has them."""
    for line in text.split("\n"):
        cells = [c.strip() for c in line.strip("|").split("|")]
        if len(cells) != 5 or not re.match(r"^[\d.]+$", cells[3]):
            continue
        yield cells[0], cells[3], cells[4]


def placed(name):
    """The case without its size, and the size; gates name no form."""
    found = re.search(r", (n=\d+(?: sliced| scalar)?)", name)
    size = found.group(1)
    whole = next((s for s in SIZES if s.split()[0] == size.split()[0]), size) if " " not in size else size
    return name.replace(found.group(0), "", 1), whole


def main():
    table, others = {}, []
    for name, plain, fat in rows(open(sys.argv[1]).read()):
        case, size = placed(name)
        if size in SIZES:
            table.setdefault(case, {})[size] = f"{plain} / {fat}"
        else:
            others.append((name, plain, fat))
    print("| case | " + " | ".join(SIZES) + " |")
    print("|---" * (len(SIZES) + 1) + "|")
    for case, cells in table.items():
        print(f"| {case} | " + " | ".join(cells.get(s, "") for s in SIZES) + " |")
    for name, plain, fat in others:
        print(f"\n{name}: {plain} / {fat}")


main()
