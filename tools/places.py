#!/usr/bin/env python3
"""Counts, point by point, the places in src/ that docs/DESIGN-PASS.md speaks of.

    tools/places.py [FOLDER]      FOLDER is a checkout; this one where none is given
    tools/places.py -l [FOLDER]   each place too

A place is found by its form alone; docs/DESIGN-PASS.md says of each that is still found why it stays.
"""
import collections
import glob
import os
import re
import sys

ABSENT = {"Bad", "No", "Lost", "Miss", "Unknown", "Wrong", "Unfit", "Short", "Nothing", "Refused", "Stop"}
FN = re.compile(r"fn ([a-z_0-9]+)(?:<[^(]*>)?\(((?:[^()]|\([^()]*\))*)\)(?:\s*->\s*([^\n{]*))?", re.S)


def code(text):
    """The text with its comments blanked."""
    return re.sub(r"//[^\n]*", lambda m: " " * len(m.group(0)), text)


def functions(text):
    """Name, parameters, result and body of each function."""
    found = []
    for m in FN.finditer(text):
        at = text.find("\n{", m.end() - 1)
        brace = text.find("{", m.end())
        depth, i = 0, m.end()
        # a body starts at a brace that no clause opens
        while i < len(text):
            line_start = text.rfind("\n", 0, i) + 1
            head = text[line_start:i].lstrip()
            if text[i] == "{" and not head.startswith(("requires", "ensures", "ghost")):
                break
            if text[i] == "{":
                depth = 1
                i += 1
                while depth and i < len(text):
                    depth += {"{": 1, "}": -1}.get(text[i], 0)
                    i += 1
                continue
            if text[i] == ";":
                break
            i += 1
        start, depth = i, 0
        while i < len(text):
            depth += {"{": 1, "}": -1}.get(text[i], 0)
            i += 1
            if depth == 0:
                break
        params = [p.strip() for p in re.split(r",(?![^(\[<]*[)\]>])", m.group(2)) if p.strip()]
        found.append((m.group(1), params, (m.group(3) or "").strip(), text[start:i], text[m.start():start]))
    return found


def places(root):
    """Each kind of place, with those found."""
    found = collections.OrderedDict()

    def add(kind, place):
        found.setdefault(kind, []).append(place)

    facts = collections.Counter()
    for path in sorted(glob.glob(os.path.join(root, "crates/*/src/*.rt"))):
        crate = path.split(os.sep)[-3]
        name = crate + "/" + os.path.basename(path)
        text = code(open(path, encoding="utf-8").read())
        for m in re.finditer(r"enum (\w+) \{(.*?)\n\}", text, re.S):
            variants = re.findall(r"^    (\w+)", m.group(2), re.M)
            if ABSENT & set(variants):
                add("1a enums with a variant for what is absent, refused or bad", f"{name}: {m.group(1)}")
        for derive in re.findall(r"#\[derive\(([^)]*)\)\]", text):
            if "Debug" not in derive:
                add("4a types without Debug or comparison", f"{name}: {derive}")
        for m in re.finditer(r"[A-Z]\w*::Refused\(\d+\)", text):
            add("1d refusals by a literal number", f"{name}: {m.group(0)}")
        for fname, params, result, body, head in functions(text):
            where = f"{name}: {fname}"
            if result == "bool" and any("&mut" in p for p in params):
                add("1b bool for whether a call that writes succeeded", where)
            if result == "u32" and crate != "host" and re.search(r"return [1-9];|^\s*[1-9]\n", body, re.M):
                add("1c numbers for refusals", where)
            for p in params:
                if re.match(r"of_x: bool", p):
                    add("1e a bool for a kind of row", where)
            for _ in re.finditer(r"\bwhile\b", body):
                add("3 loops by while", where)
            if re.search(r"fn \w*(_named|form_at|form_code|kind_of|letter_of|same|number)\b", "fn " + fname):
                add("4b conversions and comparisons written by hand", where)
            if len(params) >= 6:
                add("5a functions of six parameters or more", f"{where} {len(params)}")
            for m in re.finditer(r"14 \+ \(2 \* n \* \(2 \* l \+ 1\)|\(cap \+ 63\) / 64 \* \(2 \* n\)|2 \+ \d \* cap|2 \* n \* \(2 \* l \+ 1\)", body):
                add("5b places of rooms as literals", where)
            for m in re.finditer(r"match k \{|== \d+ \{\s*return|== b'.' \{\s*return", body):
                add("7 switches on a number or a byte", where)
            for clause in re.findall(r"requires(?: \w+)? \{(.*)\}", head):
                for part in clause.split(" × "):
                    part = re.sub(r"\b[shf]\.(old|now)\b", "S", part.strip().strip("()"))
                    facts[re.sub(r"\.(old|now)\b", "", part)] += 1
    for fact, times in facts.most_common():
        if times >= 3:
            add("5c facts that three or more contracts require", f"{times} times: {fact}")
    return found


def main():
    args = [a for a in sys.argv[1:] if a != "-l"]
    root = args[0] if args else os.path.dirname(os.path.dirname(os.path.abspath(__file__)))
    for kind, those in sorted(places(root).items()):
        print(f"{len(those):4d}  {kind}")
        if "-l" in sys.argv:
            for place, times in collections.Counter(those).items():
                print("        " + place + (f" ({times})" if times > 1 else ""))


if __name__ == "__main__":
    main()
