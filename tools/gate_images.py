#!/usr/bin/env python3
"""Where the gate images in crates/model/proofs/Cases.antt and the tables in crates/paper/proofs/Cases.antt come from, independently of 01, of the
paper and of our definitions.

Each gate G is a matrix on two qubits, and so is each Pauli product P. The first file: G†PG for the generators, as i^p times X on a set, then Z on
a set. The second: GPG† for all letters, as a sign bit and two sets of bits, and U†PU for some rows of gates. The script looks for each result
in its file and says which are not there. It proves nothing: the theorems are `computed` of each crate.

  python3 tools/gate_images.py            compare
  python3 tools/gate_images.py --print    print the lines of the second file
"""
import math
import os
import re
import sys

I, X, Z = [[1, 0], [0, 1]], [[0, 1], [1, 0]], [[1, 0], [0, -1]]
Y = [[0, -1j], [1j, 0]]
R = 1 / math.sqrt(2)
H = [[R, R], [R, -R]]
S, SDG = [[1, 0], [0, 1j]], [[1, 0], [0, -1j]]
SX = [[(1 + 1j) / 2, (1 - 1j) / 2], [(1 - 1j) / 2, (1 + 1j) / 2]]
SWAP = [[1, 0, 0, 0], [0, 0, 1, 0], [0, 1, 0, 0], [0, 0, 0, 1]]


def mul(*ms):
    out = ms[0]
    for b in ms[1:]:
        out = [[sum(out[i][k] * b[k][j] for k in range(len(b))) for j in range(len(b[0]))] for i in range(len(out))]
    return out


def dagger(a):
    return [[complex(a[j][i]).conjugate() for j in range(len(a))] for i in range(len(a))]


def on(q, g):
    """g on qubit q; qubit 0 is the low digit of a basis state."""
    a, b = (I, g) if q == 0 else (g, I)
    return [[x * y for x in r for y in s] for r in a for s in b]


def controlled(c, t, g):
    off, on_ = on(c, [[1, 0], [0, 0]]), mul(on(c, [[0, 0], [0, 1]]), on(t, g))
    return [[x + y for x, y in zip(u, v)] for u, v in zip(off, on_)]


def rotation(axis, k):
    """The rotation about an axis by k eighths of a turn: 2 about Z is s up to a global phase."""
    c, s = math.cos(k * math.pi / 8), math.sin(k * math.pi / 8)
    return [[c * (i == j) - 1j * s * axis[i][j] for j in range(2)] for i in range(2)]


def row(m):
    """The p, x and z of a matrix that is i^p X^x Z^z."""
    for x in range(4):
        for z in range(4):
            b = mul(*([on(q, X) for q in (0, 1) if x >> q & 1] + [on(q, Z) for q in (0, 1) if z >> q & 1] + [on(0, I)]))
            for p in range(4):
                if all(abs(m[i][j] - 1j**p * b[i][j]) < 1e-9 for i in range(4) for j in range(4)):
                    return p, x, z
    sys.exit("no Pauli product")


def text(rows):
    """As Cases.antt writes the rows x[0], x[1], z[0], z[1]."""
    t = ["(%d ∷ %d ∷ %d ∷ [])" % r for r in rows]
    if rows[1] == (0, 2, 0) and rows[3] == (0, 0, 2):
        return "besides %s %s" % (t[0], t[2])
    return " ∷ ".join(t) + " ∷ []"


def letters(m):
    """The r, x and z of a matrix that is (-1)^r times letters: each qubit in both sets is Y = iXZ."""
    p, x, z = row(m)
    r = (p - bin(x & z).count("1")) % 4
    if r % 2:
        sys.exit("no sign")
    return r // 2, x, z


def pauli(x, z):
    """The letters of two sets of bits as a matrix."""
    return mul(*([on(q, {(1, 0): X, (0, 1): Z, (1, 1): Y, (0, 0): I}[x >> q & 1, z >> q & 1]) for q in (0, 1)]))


def triples(rows):
    return " ∷ ".join("(%d ∷ %d ∷ %d ∷ [])" % r for r in rows) + " ∷ []"


def matrices():
    gates = {"h_gate 0": on(0, H), "x_gate 0": on(0, X), "y_gate 0": on(0, Y), "z_gate 0": on(0, Z), "s_gate 0": on(0, S),
             "sdg_gate 0": on(0, SDG), "sx_gate 0": on(0, SX), "cnot_gate 0 1": controlled(0, 1, X), "cz_gate 0 1": controlled(0, 1, Z),
             "swap_gate 0 1": SWAP, "cy_gate 0 1": controlled(0, 1, Y),
             "s_gate 1": on(1, S), "h_gate 1": on(1, H), "cnot_gate 1 0": controlled(1, 0, X)}
    turns = {"turned2 kind_%s %d" % (name, k): on(0, rotation(axis, k)) for name, axis in (("x", X), ("y", Y), ("z", Z)) for k in (2, 4, 6)}
    return gates, turns


def images():
    """The lines of the first file."""
    gates, turns = matrices()
    named = {"through (%s)" % n: gates[n] for n in list(gates)[:11]} | turns
    return ["%s ≡ %s" % (n, text([row(mul(dagger(g), p, g)) for p in (on(0, X), on(1, X), on(0, Z), on(1, Z))])) for n, g in named.items()]


ONE = [(0, 0), (1, 0), (1, 1), (0, 1)]
TWO = [(x, z) for x in range(4) for z in range(4)]
ROWS = [["h_gate 0", "s_gate 0"], ["s_gate 0", "h_gate 0"],
        ["s_gate 0", "cnot_gate 0 1", "h_gate 1", "s_gate 1", "cz_gate 0 1"],
        ["sx_gate 0", "cy_gate 0 1", "swap_gate 0 1", "sdg_gate 0", "cnot_gate 1 0", "h_gate 0"]]


def exponents():
    """The exponent of i in the product of two letters, for all pairs: as g has it, -1 for 3."""
    words = {0: "pos 0", 1: "pos 1", 3: "negsuc 0"}
    out = []
    for x1, z1 in ONE:
        for x2, z2 in ONE:
            p, x, z = row(mul(pauli(x1, z1), pauli(x2, z2)))
            out.append(words[(p - bin(x & z).count("1")) % 4])
    return "factors ≡ " + " ∷ ".join(out) + " ∷ []"


def tables():
    """The lines of the second file."""
    gates, _ = matrices()
    out = [exponents()]
    for n in list(gates)[:11]:
        g = gates[n]
        which = ONE if len(n.split()) == 2 else TWO
        out.append("%s (%s) ≡ %s" % ("one" if which is ONE else "two", n, triples([letters(mul(g, pauli(x, z), dagger(g))) for x, z in which])))
    for names in ROWS:
        u = mul(*[gates[n] for n in reversed(names)])
        back = [letters(mul(dagger(u), p, u)) for p in (on(0, X), on(1, X), on(0, Z), on(1, Z))]
        out.append("through (%s ∷ []) ≡ %s" % (" ∷ ".join(names), triples(back)))
    return out


def main():
    if "--print" in sys.argv:
        print("\n".join(tables()))
        return
    here = os.path.join(os.path.dirname(os.path.abspath(__file__)), "..", "crates")
    missing = total = 0
    for path, lines in (("model/proofs/Cases.antt", images()), ("paper/proofs/Cases.antt", tables())):
        held = re.sub(r"\s+", " ", open(os.path.join(here, path), encoding="utf-8").read())
        for line in lines:
            total += 1
            if line not in held:
                missing += 1
                print("not in %s: %s" % (path, line))
    print("%d of %d lines agree" % (total - missing, total))
    sys.exit(1 if missing else 0)


main()
