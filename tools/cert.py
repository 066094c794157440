#!/usr/bin/env python3
"""Finds the certificate of an inequality of fractions (crates/fraction/proofs/Certificate.antt).

    cert.py 'x y a b A B e f' 'hx: in x-a e' 'hy: in y-b f' 'ha: in a A' 'hb: in b B' 'goal in x*y-a*b A*f+B*e+e*f' [deg=2]

The first argument lists the variables. A hypothesis is 'h: le P Q', 'h: in P B' (|P| <= B), 'h: nn P' (0 <= P) or 'h: eq P Q', with
polynomials that hold no blanks; the goal is 'goal le P Q' or 'goal in P B'. Prints k and the certificates, two for a bound. It solves, in
exact arithmetic, for weights at least 0 of the products of at most deg hypotheses (and for any multiples of the equations).
"""
import itertools
import sys
from fractions import Fraction
from math import lcm

NAMES = sys.argv[1].split()
UNIT = (0,) * len(NAMES)


class Poly(dict):
    """A map from the powers of the variables to a coefficient."""

    @staticmethod
    def of(c):
        return c if isinstance(c, Poly) else Poly({UNIT: Fraction(c)} if c else {})

    def __add__(self, other):
        out = Poly(self)
        for m, c in Poly.of(other).items():
            out[m] = out.get(m, 0) + c
        return Poly({m: c for m, c in out.items() if c})

    def __mul__(self, other):
        out = {}
        for (m, c), (n, d) in itertools.product(self.items(), Poly.of(other).items()):
            k = tuple(a + b for a, b in zip(m, n))
            out[k] = out.get(k, 0) + c * d
        return Poly({m: c for m, c in out.items() if c})

    def __neg__(self):
        return Poly({m: -c for m, c in self.items()})

    def __sub__(self, other):
        return self + -Poly.of(other)

    def __rsub__(self, other):
        return Poly.of(other) - self

    def __pow__(self, n):
        out = Poly.of(1)
        for _ in range(n):
            out = out * self
        return out

    __radd__, __rmul__ = __add__, __mul__


VARS = {n: Poly({tuple(int(i == j) for j in range(len(NAMES))): Fraction(1)}) for i, n in enumerate(NAMES)}


def read(text):
    return Poly.of(eval(text, {}, VARS))


def parse(args):
    deg, hyps, goal = 2, [], None
    for arg in args:
        words = arg.split()
        if arg.startswith("deg="):
            deg = int(arg[4:])
        elif words[0] == "goal":
            goal = (words[1], read(words[2]), read(words[3]))
        else:
            sides = [read(w) for w in words[2:]]
            hyps.append((words[0].rstrip(":"), words[1], sides))
    return deg, hyps, goal


def atoms(hyps):
    for name, kind, sides in hyps:
        if kind == "nn":
            yield name, sides[0]
        elif kind == "le":
            yield f"up {name}", sides[1] - sides[0]
        elif kind == "in":
            yield f"hi {name}", sides[1] - sides[0]
            yield f"lo {name}", sides[0] + sides[1]


def columns(hyps, deg, goal):
    """What may be added up: (label, polynomial); the label of a multiple of an equation is (name, monomial, sign)."""
    yield "num 1", Poly.of(1)
    for d in range(1, deg + 1):
        for some in itertools.combinations_with_replacement(list(atoms(hyps)), d):
            value = Poly.of(1)
            for _, p in some:
                value = value * p
            yield " ⊠ ".join(n for n, _ in some), value
    top = max([sum(m) for m in goal] + [deg])
    for name, kind, sides in hyps:
        if kind == "eq":
            gap = sides[1] - sides[0]
            most = max(0, min(deg, top + 1 - max((sum(m) for m in gap), default=0))) if len(NAMES) <= 8 else 1
            for m in itertools.product(range(most + 1), repeat=len(NAMES)):
                if sum(m) <= most:
                    value = Poly({m: Fraction(1)}) * gap
                    yield (name, m, 1), value
                    yield (name, m, -1), -value


def solve(cols, goal):
    """Weights at least 0 with which the columns add up to the goal: the simplex method, first phase, by Bland's rule."""
    rows = sorted({m for _, v in cols for m in v} | set(goal))
    at = {m: r for r, m in enumerate(rows)}
    width = len(cols)
    table = [[Fraction(0)] * (width + 1) for _ in rows]
    for j, (_, v) in enumerate(cols):
        for m, c in v.items():
            table[at[m]][j] = c
    for m, c in goal.items():
        table[at[m]][width] = c
    table = [[-x for x in row] if row[width] < 0 else row for row in table]
    basis = [None] * len(rows)
    cost = [sum(row[j] for row in table) for j in range(width + 1)]
    while cost[width] > 0:
        j = next((j for j in range(width) if cost[j] > 0), None)
        if j is None:
            return None
        _, r = min(((row[width] / row[j], -1 if basis[r] is None else basis[r]), r) for r, row in enumerate(table) if row[j] > 0)
        pivot = table[r][j]
        table[r] = [x / pivot for x in table[r]]
        for s, row in enumerate(table):
            if s != r and row[j]:
                table[s] = [x - row[j] * y for x, y in zip(row, table[r])]
        cost = [x - cost[j] * y for x, y in zip(cost, table[r])]
        basis[r] = j
    return [(cols[j][0], table[r][width]) for r, j in enumerate(basis) if j is not None and table[r][width]]


def monomial(m, c):
    factors = [n for n, p in zip(NAMES, m) for _ in range(p)]
    if abs(c) != 1 or not factors:
        factors.insert(0, f"nat {abs(c)}")
    text = " *F ".join(factors)
    return f"neg_f ({text})" if c < 0 else text


def render(weights, scale):
    out, multiples = [], {}
    for label, w in weights:
        n = int(w * scale)
        if isinstance(label, tuple):
            of = multiples.setdefault(label[0], {})
            of[label[1]] = of.get(label[1], 0) + label[2] * n
        elif label == "num 1":
            out.append(f"num {n}")
        else:
            out.append(label if n == 1 else f"num {n} ⊠ ({label})" if "⊠" in label else f"num {n} ⊠ {label}")
    terms = []
    for name, of in multiples.items():
        sum_ = " +F ".join(monomial(m, c) for m, c in of.items() if c)
        terms.append(f"({sum_}) · {name}" if " " in sum_ else f"{sum_} · {name}")
    if terms:
        out.append(f"eqn ({' & '.join(terms)})")
    return f"({' ⊞ '.join(out) or 'num 0'})"


def main():
    deg, hyps, (kind, left, right) = parse(sys.argv[2:])
    found = []
    for goal in [right - left] + ([left + right] if kind == "in" else []):
        found.append(solve(list(columns(hyps, deg, goal)), goal))
    if None in found:
        sys.exit("none found: raise deg, or give more hypotheses")
    scale = lcm(*(w.denominator for weights in found for _, w in weights), 1)
    print("k =", scale - 1)
    for weights in found:
        print(render(weights, scale))


main()
