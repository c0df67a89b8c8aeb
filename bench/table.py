#!/usr/bin/env python3
# table.py PLAIN FAT: the lines of two runs of the benchmark as one table in Markdown. The ratios are of the least times.
import sys


def lines(path):
    with open(path) as f:
        return [line.rstrip("\n").split("\t") for line in f if line.strip()]


def shown(ns):
    return f"{ns:,.0f}" if ns >= 1000 else f"{ns:.1f}"


def main():
    plain = lines(sys.argv[1])
    fat = {row[0]: row for row in lines(sys.argv[2])} if len(sys.argv) > 2 else {}
    print("| case | ours ns | original ns | ratio | ratio, lto fat |")
    print("|---|--:|--:|--:|--:|")
    for name, ours, theirs, *_ in plain:
        other = fat.get(name)
        second = f"{float(other[1]) / float(other[2]):.2f}" if other else ""
        print(f"| {name} | {shown(float(ours))} | {shown(float(theirs))} | {float(ours) / float(theirs):.2f} | {second} |")


main()
