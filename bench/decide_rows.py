#!/usr/bin/env python3
"""Decide of small systems, computed plainly from its definition: fractions, elimination, cuts and cases.

It reads the lines of `number_table` that ask for `plain_and_decide`, and prints them with the answers at the depths 0, 1 and 2, as
crates/number_table/stdout has them, but without limits on numbers:
decide_rows.py < crates/number_table/stdin
"""
import re
from fractions import Fraction
from math import ceil, floor, gcd


class Row:
    """terms: column -> coefficient, none 0; eq: an equality; bound."""

    def __init__(self, terms, eq, bound):
        self.terms = {c: a for c, a in terms.items() if a != 0}
        self.eq = eq
        self.bound = bound


def tightened(row):
    content = 0
    for a in row.terms.values():
        content = gcd(content, abs(a))
    if content == 0:
        return row
    if row.eq and row.bound % content != 0:
        return Row({}, False, -1)
    return Row({c: a // content for c, a in row.terms.items()}, row.eq, row.bound // content)


def plus_times(r, m, e):
    """The rows with their multipliers, added up: r + m * e."""
    (a, by), (b, with_) = r, e
    terms = dict(a.terms)
    for c, x in b.terms.items():
        terms[c] = terms.get(c, 0) + m * x
    sums = dict(by)
    for i, x in with_.items():
        sums[i] = sums.get(i, 0) + m * x
    return (Row(terms, a.eq and b.eq, a.bound + m * b.bound), {i: x for i, x in sums.items() if x != 0})


def is_false(r):
    row = r[0]
    return not row.terms and (row.bound != 0 if row.eq else row.bound < 0)


def refuting(r):
    sign = -1 if r[0].eq and r[0].bound > 0 else 1
    return {i: sign * x for i, x in r[1].items()}


def at(k, r):
    return r[0].terms.get(k, 0)


def as_inequality(r, sign):
    row, by = r
    return (
        Row({c: sign * a for c, a in row.terms.items()}, False, sign * row.bound),
        {i: sign * x for i, x in by.items()},
    )


def step(k, rows):
    """The rows without column k, and what is set aside."""
    pivot = next((i for i, r in enumerate(rows) if r[0].eq and abs(at(k, r)) == 1), None)
    if pivot is not None:
        e = rows[pivot]
        rest = rows[:pivot] + rows[pivot + 1 :]
        return [plus_times(r, -at(k, r) * at(k, e), e) for r in rest], ("forced", e)
    halved = []
    for r in rows:
        halved += [as_inequality(r, 1), as_inequality(r, -1)] if r[0].eq and at(k, r) != 0 else [r]
    uppers = [r for r in halved if at(k, r) > 0]
    lowers = [r for r in halved if at(k, r) < 0]
    kept = [r for r in halved if at(k, r) == 0]
    nothing = (Row({}, False, 0), {})
    for u in uppers:
        for l in lowers:
            g = gcd(at(k, u), -at(k, l))
            kept.append(plus_times(plus_times(nothing, -at(k, l) // g, u), at(k, u) // g, l))
    return kept, ("bounded", lowers, uppers)


def end_of(k, values, r):
    rest = sum((a * values[c] for c, a in r[0].terms.items() if c != k), Fraction(0))
    return (r[0].bound - rest) / Fraction(at(k, r))


def value_of(k, values, aside):
    if aside[0] == "forced":
        return end_of(k, values, aside[1])
    lower = max((end_of(k, values, r) for r in aside[1]), default=None)
    upper = min((end_of(k, values, r) for r in aside[2]), default=None)
    least = None if lower is None else ceil(lower)
    most = None if upper is None else floor(upper)
    if lower is not None and upper is not None and least > most:
        return lower
    if least is not None and least > 0:
        return Fraction(least)
    if most is not None and most < 0:
        return Fraction(most)
    return Fraction(0)


def elimination(n, given):
    """("refuted", multipliers) or ("point", values), of the rows tightened."""
    rows = [(tightened(r), {i: 1}) for i, r in enumerate(given)]
    asides = []
    for k in range(n, -1, -1):
        false = next((r for r in rows if is_false(r)), None)
        if false is not None:
            return ("refuted", refuting(false))
        if k == 0:
            break
        rows, aside = step(k - 1, rows)
        asides.append(aside)
    values = []
    for k, aside in enumerate(reversed(asides)):
        values.append(value_of(k, values, aside))
    return ("point", values)


def beside(parts):
    """Parts are decided in order; after a whole point no more."""
    nodes, gap = [], False
    for part in parts:
        answer = part()
        if answer[0] == "W":
            return answer
        if answer[0] == "G":
            gap = True
        else:
            nodes += answer[1]
    return ("G",) if gap else ("R", nodes)


def under(node, answer):
    return ("R", [node] + answer[1]) if answer[0] == "R" else answer


def decide_rows(n, depth, rows):
    outcome, found = elimination(n, rows)
    if outcome == "refuted":
        return ("R", [("L", sorted(found.items()))])
    broken = next((c for c, v in enumerate(found) if v.denominator != 1), None)
    if broken is None:
        return ("W", [int(v) for v in found])
    if depth == 0:
        return ("G",)
    k = floor(found[broken])
    first = rows + [Row({broken: 1}, False, k)]
    second = rows + [Row({broken: -1}, False, -k - 1)]
    both = beside([lambda: decide_rows(n, depth - 1, first), lambda: decide_rows(n, depth - 1, second)])
    return under(("C", broken, k), both)


def decide(n, depth, rows, groups):
    if not groups:
        return decide_rows(n, depth, rows)
    members = [
        lambda m=m: decide(n, depth, rows + [tightened(r) for r in m[0]], groups[1:] + m[1]) for m in groups[0]
    ]
    return under(("A", len(groups[0])), beside(members))


def shown(answer):
    if answer[0] == "W":
        return " ".join(["point"] + [str(v) for v in answer[1]])
    if answer[0] == "G":
        return "gap"
    words = []
    for node in answer[1]:
        if node[0] == "L":
            words.append(" ".join(["L"] + [f"{i}:{x}" for i, x in node[1]]))
        elif node[0] == "C":
            words.append(f"x{node[1]}<={node[2]}")
        else:
            words.append(f"A{node[1]}")
    return " ".join(words)


def number(word):
    """Digits, or a number as `(2^127-1)`."""
    power = re.fullmatch(r"\(?(-?)2\^(\d+)([+-]\d+)?\)?", word)
    if power is None:
        return int(word)
    sign, exponent, more = power.groups()
    return (-1 if sign else 1) * 2 ** int(exponent) + int(more or 0)


def parsed(words):
    """The rows and groups of the words of a system, up to the end or the parenthesis behind a member."""
    rows, groups, terms, is_equality = [], [], {}, None
    for word in words:
        if word == ")":
            break
        if word == "{":
            groups.append([])
        elif word == "(":
            groups[-1].append(parsed(words))
        elif word in ("<=", "="):
            is_equality = word == "="
        elif "x" in word:
            coefficient, column = word.split("x")
            terms[int(column)] = terms.get(int(column), 0) + number(coefficient)
        elif word != "}" and is_equality is not None:
            rows.append(Row(terms, is_equality, number(word.rstrip(","))))
            terms, is_equality = {}, None
    return rows, groups


if __name__ == "__main__":
    import sys

    for line in sys.stdin:
        function, _, arguments = line.strip().partition(" ")
        if function == "int_decide::plain_and_decide":
            system, columns = arguments.split(";")
            rows, groups = parsed(iter(system.split()))
            answers = [shown(decide(int(columns), d, [tightened(r) for r in rows], groups)) for d in range(3)]
            print(f"{line.strip()} => {' | '.join(answers)} | agrees")
