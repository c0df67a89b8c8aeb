"""Helps with the proof files. Run it in the root of the repository.

    python3 tools/proofs.py twice     laws of proofs/*.antt that say the same but for the names of variables

What else it did for the older kit, today's does itself: `rt check` prints each open goal with the facts that it has, and `rt tidy` drops names that a
file brings in and does not use.
"""
import collections
import glob
import re
import sys


def twice():
    laws = collections.defaultdict(list)
    for file in sorted(glob.glob("crates/*/proofs/*.antt")):
        for law in re.finditer(r"^\s*(?:pub )?([\w·′₀-₉-]+) : (.+?)(?=\n\s*(?:unfolding|[\w·′₀-₉-]+ .*=))", open(file).read(), re.M | re.S):
            statement, names = re.sub(r"\s+", " ", law.group(2)), {}
            if len(statement) < 45 or "module" in statement:
                continue
            short = r"(?<![\w·.-])[a-zA-Zα-ω][\w′₀-₉]{0,2}(?![\w·-])"
            shape = re.sub(short, lambda v: names.setdefault(v.group(0), f"v{len(names)}"), statement)
            laws[shape].append(f"{file}: {law.group(1)}")
    for shape, found in laws.items():
        if len(found) > 1:
            print("\n".join(found), f"    {shape[:150]}", sep="\n")


if __name__ == "__main__":
    if sys.argv[1:] != ["twice"]:
        sys.exit(__doc__)
    twice()
