#!/usr/bin/env python3
"""Tries random changes on each shipped annotation and failure, most of them of a byte, and compares each answer with one that is worked out here: altered.py [PROGRAM [CHANGES [SEED]]]

`check` and `replay` are worked out anew from docs/FORMATS.md, `check` for the automata of the two shipped programs, which stand below as that page
numbers them, and `replay` for the shipped program that fails. So an answer `accepted` or `replayed` to a text that does not deserve it is found, and
so is each wrong line, step or cause. Stops at the first answer that differs, with status 1, and leaves the text in a file that it names. 300 changes
of each text with seed 1 are tried where no numbers are given. It wants the proved program: cd crates/automizer && rt run"""
import math
import pathlib
import random
import re
import subprocess
import sys
import tempfile

TOP = pathlib.Path(__file__).resolve().parent.parent
MOST = 2**127 - 1
NUMBER = r"(?:0|-?[1-9][0-9]*)"
COUNT = r"(?:0|[1-9][0-9]*)"
ID = r"[A-Za-z_.$#'`~^?\\][A-Za-z0-9_.$#'`~^?\\]*"
NAME = rf"(?:(?:m:)?{ID}|h:{COUNT})"


class Rejected(Exception):
    """A line and a cause."""


def row(terms: dict, bound: int, is_equality: bool = False) -> tuple:
    return {column: factor for column, factor in terms.items() if factor}, bound, is_equality


class Graph:
    """The automaton of a program. A column is a name, or a primed one for what is written. Places and letters are numbered."""

    def __init__(self, frames, procedures, entries, errors, insides, calls, backs, edges):
        # The columns of each procedure's frame; the procedure of each place; the places where procedures begin; the error places.
        self.frames, self.procedures, self.entries, self.errors = frames, procedures, entries, errors
        # The procedure, written columns and rows of inside letters; caller, callee and rows of call letters; the call letter and targets of return letters.
        self.insides, self.calls, self.backs = insides, calls, backs
        # A place, a letter and a place; of a return the exit, the place of the call, the letter and the next place.
        self.edges = edges

    def is_constant(self, column):
        return column.startswith("g:") and "o:" + column[2:] not in next(iter(self.frames.values()))


INCREMENT = Graph(
    frames={"main": ["l:x"]},
    procedures=["main"] * 5,
    entries={"main": 1},
    errors={4},
    insides={0: ("main", [], []), 1: ("main", ["l:x"], [row({"l:x'": 1}, 1, True)]), 2: ("main", [], [row({"l:x": -1}, -1)]), 3: ("main", [], [row({"l:x": 1}, 0)])},
    calls={},
    backs={},
    edges=[(0, 0, 1), (1, 1, 2), (2, 2, 3), (2, 3, 4)],
)

# Place 0 is the start, 1 the axiom; fill has 2 for its `if`, 3 for the assignment and 4 for its end; main has 5 for the assignment, 6 for the guard, 7 for
# the call, 8 for the assertion and 9 for its end; 10 is the error place.
LEVELS = ["g:brim", "g:level", "o:level"]
FILL = Graph(
    frames={"fill": LEVELS, "main": LEVELS},
    procedures=["main", "main", "fill", "fill", "fill"] + ["main"] * 6,
    entries={"fill": 2, "main": 5},
    errors={10},
    insides={
        0: ("main", ["o:level"], [row({"o:level'": 1, "g:level": -1}, 0, True)]),
        1: ("main", [], [row({"g:brim": -1}, 0)]),
        2: ("fill", [], [row({"g:level": 1, "g:brim": -1}, -1)]),
        3: ("fill", [], [row({"g:brim": 1, "g:level": -1}, 0)]),
        4: ("fill", ["g:level"], [row({"g:level'": 1, "g:level": -1}, 1, True)]),
        5: ("main", ["g:level"], [row({"g:level'": 1}, 0, True)]),
        6: ("main", [], []),
        9: ("main", [], [row({"g:level": 1, "g:brim": -1}, 0)]),
        10: ("main", [], [row({"g:brim": 1, "g:level": -1}, -1)]),
    },
    calls={7: ("main", "fill", [])},
    backs={8: (7, [])},
    edges=[(0, 0, 1), (1, 1, 5), (2, 2, 3), (2, 3, 4), (3, 4, 4), (5, 5, 6), (6, 6, 7), (6, 6, 8), (7, 7, 2), (4, 7, 8, 6), (8, 9, 9), (8, 10, 10)],
)


# ---------------------------------------------------------------- the grammar of annotations


def pieces(text: str) -> list | None:
    """Words and lists of a text in parentheses, one blank between two of them; none where it is not so."""
    stack = [[]]
    place = 0
    wants_blank = False
    while place < len(text):
        if text[place] == ")":
            if len(stack) == 1 or not stack[-1]:
                return None
            done = stack.pop()
            stack[-1].append(done)
            place, wants_blank = place + 1, True
            continue
        if wants_blank:
            if text[place] != " ":
                return None
            place += 1
        if text[place : place + 1] == "(":
            stack.append([])
            place, wants_blank = place + 1, False
            continue
        word = re.match(r"[^ ()]+", text[place:])
        if not word:
            return None
        stack[-1].append(word[0])
        place, wants_blank = place + len(word[0]), True
    return stack[0] if len(stack) == 1 else None


def is_number(text) -> bool:
    return isinstance(text, str) and re.fullmatch(NUMBER, text) is not None


def predicate(tree, depth=0):
    """(le BOUND PAIRS), (and ..), (or ..), with numbers in place of texts; none where it is no predicate."""
    if not isinstance(tree, list) or not tree:
        return None
    head, parts = tree[0], tree[1:]
    if head == "le":
        if len(parts) < 3 or len(parts) % 2 == 0 or not is_number(parts[0]):
            return None
        pairs = list(zip(parts[1::2], parts[2::2]))
        if not all(is_number(factor) and factor != "0" and isinstance(column, str) and re.fullmatch(rf"[glo]:{NAME}", column) for factor, column in pairs):
            return None
        return "le", int(parts[0]), [(int(factor), column) for factor, column in pairs]
    if head in ("and", "or") and len(parts) >= 2 and depth < 200:
        inner = [predicate(part, depth + 1) for part in parts]
        return None if None in inner else (head, inner)
    return None


def refutation(tree):
    if not isinstance(tree, list) or not tree:
        return None
    head, parts = tree[0], tree[1:]
    if head == "leaf":
        found = [re.fullmatch(rf"({NUMBER}):({NUMBER})", part) if isinstance(part, str) else None for part in parts]
        return ("leaf", [(int(each[1]), int(each[2])) for each in found]) if parts and None not in found else None
    if head == "cut" and len(parts) == 4 and is_number(parts[0]) and is_number(parts[1]):
        inner = [refutation(part) for part in parts[2:]]
        return None if None in inner else ("cut", int(parts[0]), int(parts[1]), inner)
    if head == "cases":
        inner = [refutation(part) for part in parts]
        return None if None in inner else ("cases", inner)
    return None


def item(line: str, preds: int, nodes: int):
    """The stage of a line and what it says; none where it is no item that can stand there."""
    said = pieces(line)
    if not said or not all(isinstance(word, str) for word in said[:1]):
        return None
    kind, rest = said[0], said[1:]
    if kind == "pred" and len(rest) == 3 and rest[0] == str(preds + 2) and isinstance(rest[1], str) and re.fullmatch(NAME, rest[1]):
        tree = predicate(rest[2])
        return None if tree is None else (0, ("pred", rest[1], tree))
    if kind == "triple" and rest and isinstance(rest[0], str):
        wanted = {"in": 3, "call": 3, "ret": 4}.get(rest[0])
        if wanted and len(rest) == wanted + 2 and all(map(is_number, rest[1:-1])):
            tree = refutation(rest[-1])
            return None if tree is None else (1, ("triple", rest[0], [int(each) for each in rest[1:-1]], tree))
        return None
    if kind == "node" and len(rest) >= 3 and rest[0] == str(nodes) and all(map(is_number, rest)):
        numbers = [int(each) for each in rest[1:]]
        claims = numbers[2:]
        if 0 in claims or any(a >= b for a, b in zip(claims, claims[1:])):
            return None
        return 2, ("node", nodes, numbers[0], numbers[1], claims)
    if kind in ("step", "back") and len(rest) == (3 if kind == "step" else 4) and all(map(is_number, rest)):
        return 3, (kind, *[int(each) for each in rest])
    return None


def read(text: bytes) -> list:
    """The items of the text of an annotation."""
    lines = text.split(b"\n")
    # What stands behind the last line feed is a line that cannot stand, unless it is empty.
    whole, last = lines[:-1], lines[-1]
    items, stage, preds, nodes = [], 0, 0, 0
    for number in range(1, len(lines) + 1):
        if number > len(whole):
            raise Rejected(number, "Syntax")
        line = whole[number - 1].decode("latin-1")
        if number <= 3:
            rounds = re.fullmatch(rf"rounds ({COUNT})", line)
            stands = [line == "safe", rounds is not None and int(rounds[1]) < 2**64, line == "annotation 1"][number - 1]
            if not stands:
                raise Rejected(number, "Syntax")
            continue
        if line == "end":
            if number < len(whole) or last:
                raise Rejected(number + 1, "Syntax")
            return items
        found = item(line, preds, nodes)
        if found is None or found[0] < stage:
            raise Rejected(number, "Syntax")
        stage = found[0]
        preds, nodes = preds + (stage == 0), nodes + (stage == 2)
        items.append(found[1])
    raise Rejected(len(lines), "Syntax")


# ---------------------------------------------------------------- the six checks


def fits(number: int) -> bool:
    return -MOST <= number <= MOST


def says(tree, column, opposite):
    """Rows and groups, as a tree of predicates says, over other names of its columns; or as its opposite says."""
    if tree is True or tree is False:
        return ([] if tree != opposite else [row({}, -1)]), []
    if tree[0] == "le":
        terms = {}
        for factor, name in tree[2]:
            terms[column(name)] = -factor if opposite else factor
        return [row(terms, -tree[1] - 1 if opposite else tree[1])], []
    parts = [says(part, column, opposite) for part in tree[1]]
    if (tree[0] == "or") != opposite:
        return [], [parts]
    return [each for rows, _ in parts for each in rows], [each for _, groups in parts for each in groups]


def tightened(it):
    terms, bound, is_equality = it
    if not terms:
        return it
    divisor = math.gcd(*terms.values())
    if is_equality and bound % divisor:
        return row({}, -1)
    return {column: factor // divisor for column, factor in terms.items()}, bound // divisor, is_equality


def refutes(rows, groups, tree) -> bool:
    if tree[0] == "leaf":
        before, total, right = -1, {}, 0
        for number, times in tree[1]:
            if not before < number < len(rows) or times == 0:
                return False
            before = number
            terms, bound, is_equality = tightened(rows[number])
            if times < 0 and not is_equality:
                return False
            for column, factor in terms.items():
                total[column] = total.get(column, 0) + times * factor
                if not fits(times * factor) or not fits(total[column]):
                    return False
            right += times * bound
            if not fits(times * bound) or not fits(right):
                return False
        return not any(total.values()) and right < 0
    if tree[0] == "cut":
        _, column, bound, (low, high) = tree
        if not fits(bound) or not fits(-bound - 1):
            return False
        return refutes(rows + [row({column: 1}, bound)], groups, low) and refutes(rows + [row({column: -1}, -bound - 1)], groups, high)
    if not groups or len(groups[0]) != len(tree[1]):
        return False
    return all(refutes(rows + more, groups[1:] + inner, part) for (more, inner), part in zip(groups[0], tree[1]))


def numbered(it, columns):
    return {columns.index(column): factor for column, factor in it[0].items()}, it[1], it[2]


def renumbered(group, columns):
    return [([numbered(it, columns) for it in rows], [renumbered(inner, columns) for inner in groups]) for rows, groups in group]


class Check:
    """The six checks on the items of an annotation."""

    def __init__(self, graph: Graph, items: list):
        self.graph, self.items = graph, items
        self.preds = {0: (None, True), 1: (None, False)}
        self.nodes = [each[2:] for each in items if each[0] == "node"]
        for number, each in enumerate([each for each in items if each[0] == "pred"], 2):
            self.preds[number] = each[1], each[2]

    def fail_at(self, place, cause):
        raise Rejected(place + 4, cause)

    # -- names

    def is_of(self, number, procedure):
        return number in self.preds and self.preds[number][0] in (None, procedure)

    def procedure_of(self, node):
        return self.graph.procedures[self.nodes[node][0]]

    def is_node(self, number):
        return 0 <= number < len(self.nodes)

    def scopes(self, kind, letter):
        """The procedures of the predicates of a triple by the letter, if there is such a letter."""
        graph = self.graph
        if kind == "in" and letter in graph.insides:
            return [graph.insides[letter][0]] * 2
        if kind == "call" and letter in graph.calls:
            return list(graph.calls[letter][:2])
        if kind == "ret" and letter in graph.backs:
            caller, callee, _ = graph.calls[graph.backs[letter][0]]
            return [callee, caller, caller]
        return None

    def is_named_predicate(self, procedure, tree):
        if tree[0] != "le":
            return all(self.is_named_predicate(procedure, part) for part in tree[1])
        frame = self.graph.frames[procedure]
        places = [frame.index(column) if column in frame else -1 for _, column in tree[2]]
        return fits(tree[1]) and all(fits(factor) for factor, _ in tree[2]) and -1 not in places and all(a < b for a, b in zip(places, places[1:]))

    def is_named_tree(self, tree, columns):
        if tree[0] == "leaf":
            return all(fits(number) and fits(times) for number, times in tree[1])
        if tree[0] == "cut":
            return 0 <= tree[1] < columns and fits(tree[2]) and all(self.is_named_tree(part, columns) for part in tree[3])
        return all(self.is_named_tree(part, columns) for part in tree[1])

    def is_named(self, it):
        graph = self.graph
        if it[0] == "pred":
            return it[1] in graph.frames and self.is_named_predicate(it[1], it[2])
        if it[0] == "triple":
            _, kind, numbers, tree = it
            *sources, letter, target = numbers
            scopes = self.scopes(kind, letter)
            if scopes is None or not all(self.is_of(number, scope) for number, scope in zip(sources + [target], scopes)):
                return False
            return self.is_named_tree(tree, len(self.system(it)[2]))
        if it[0] == "node":
            _, number, place, entry, claims = it
            if not 0 <= place < len(graph.procedures) or not self.is_node(entry):
                return False
            procedure = graph.procedures[place]
            other, its_entry, _ = self.nodes[entry]
            if not 0 <= other < len(graph.procedures) or its_entry != entry or graph.procedures[other] != procedure:
                return False
            if entry == number and place not in (0, graph.entries[procedure]):
                return False
            return all(self.is_of(claim, procedure) for claim in claims)
        kind = "ret" if it[0] == "back" else "in" if it[2] in graph.insides else "call"
        numbers = it[1:3] if it[0] == "back" else it[1:2]
        letter, end = it[-2], it[-1]
        scopes = self.scopes(kind, letter)
        if scopes is None or not all(map(self.is_node, (*numbers, end))):
            return False
        places = [self.nodes[number][0] for number in (*numbers, end)]
        return all(0 <= place < len(graph.procedures) and graph.procedures[place] == scope for place, scope in zip(places, scopes))

    # -- triples

    def system(self, it):
        """The rows, groups and columns of a triple's system."""
        graph = self.graph
        _, kind, numbers, _ = it
        *sources, letter, target = numbers
        trees = [self.preds[number][1] for number in (*sources, target)]
        scopes = self.scopes(kind, letter)
        if kind == "in":
            frame, written, own = graph.frames[scopes[0]], graph.insides[letter][1], graph.insides[letter][2]
            columns = frame + [column + "'" for column in written]
            first, ties = [lambda column: column], []
            behind = lambda column: column + "'" if column in written else column
        else:
            # The callee's columns have a mark in front; those after a return one behind.
            _, callee, own = graph.calls[letter if kind == "call" else graph.backs[letter][0]]
            caller = scopes[0] if kind == "call" else scopes[1]
            callee_columns = ["callee " + column for column in graph.frames[callee]]
            shared = [column for column in graph.frames[callee] if column.startswith("g:")]
            olds = [column for column in graph.frames[callee] if column.startswith("o:")]
            tie = lambda a, b: row({a: 1, b: -1}, 0, True)
            enters = [tie("callee " + column, "g:" + column[2:]) for column in olds]
            if kind == "call":
                columns = graph.frames[caller] + callee_columns
                first = [lambda column: column]
                ties = [tie("callee " + column, column) for column in shared] + enters
                behind = lambda column: "callee " + column
            else:
                globals_after = [column for column in shared if not graph.is_constant(column)]
                columns = callee_columns + graph.frames[caller] + [column + "'" for column in globals_after]
                first = [lambda column: "callee " + column, lambda column: column]
                ties = [tie("callee " + column, column) for column in shared if graph.is_constant(column)] + enters
                own = own + [tie(column + "'", "callee " + column) for column in globals_after]
                behind = lambda column: column + "'" if column in globals_after else column
        rows, groups = [], []
        for tree, name in zip(trees, first):
            more, inner = says(tree, name, False)
            rows, groups = rows + more, groups + inner
        rows = rows + ties + own
        more, inner = says(trees[-1], behind, True)
        rows, groups = rows + more, groups + inner
        return [numbered(each, columns) for each in rows], [renumbered(group, columns) for group in groups], columns

    def is_proved(self, it):
        rows, groups, _ = self.system(it)

        def all_fit(rows, groups):
            return all(fits(bound) and all(map(fits, terms.values())) for terms, bound, _ in rows) and all(all_fit(*member) for group in groups for member in group)

        return all_fit(rows, groups) and refutes(rows, groups, it[3])

    # -- steps and nodes

    def follows(self, claim, letter, sides):
        """Whether a listed triple by the letter leads to the claim from true or from what the nodes have."""
        for it in self.items:
            if it[0] == "triple" and it[2][-2] == letter and it[2][-1] == claim and len(it[2]) == len(sides) + 2:
                if all(source == 0 or source in self.nodes[node][2] for source, node in zip(it[2], sides)):
                    return True
        return False

    def is_sound(self, it):
        graph, nodes = self.graph, self.nodes
        if it[0] == "step":
            _, begin, letter, end = it
            if (nodes[begin][0], letter, nodes[end][0]) not in graph.edges:
                return False
            if letter in graph.insides:
                if nodes[begin][1] != nodes[end][1]:
                    return False
            elif nodes[end][1] != end:
                return False
            return all(self.follows(claim, letter, [begin]) for claim in nodes[end][2])
        _, leave, before, letter, end = it
        if (nodes[leave][0], nodes[before][0], letter, nodes[end][0]) not in graph.edges:
            return False
        if ("step", before, graph.backs[letter][0], nodes[leave][1]) not in self.items or nodes[end][1] != nodes[before][1]:
            return False
        return all(self.follows(claim, letter, [leave, before]) for claim in nodes[end][2])

    def is_covered(self, number):
        graph, nodes = self.graph, self.nodes
        if 1 in nodes[number][2]:
            return True
        for edge in graph.edges:
            if len(edge) == 3 and edge[0] == nodes[number][0]:
                if not any(it[0] == "step" and it[1] == number and it[2] == edge[1] and nodes[it[3]][0] == edge[2] for it in self.items):
                    return False
            if len(edge) == 4 and edge[0] == nodes[number][0]:
                for before, (place, _, claims) in enumerate(nodes):
                    joined = ("step", before, graph.backs[edge[2]][0], nodes[number][1]) in self.items
                    if place == edge[1] and 1 not in claims and joined:
                        if not any(it[0] == "back" and it[1:4] == (number, before, edge[2]) and nodes[it[4]][0] == edge[3] for it in self.items):
                            return False
        return True

    def run(self):
        for place, it in enumerate(self.items):
            if not self.is_named(it):
                self.fail_at(place, "BadName")
        for place, it in enumerate(self.items):
            if it[0] == "triple" and not self.is_proved(it):
                self.fail_at(place, "BadTriple")
        if not any(place == 0 and entry == number and not claims for number, (place, entry, claims) in enumerate(self.nodes)):
            self.fail_at(len(self.items), "NoStart")
        first = next(place for place, it in enumerate(self.items) if it[0] == "node")
        for number, (place, _, claims) in enumerate(self.nodes):
            if place in self.graph.errors and 1 not in claims:
                self.fail_at(first + number, "OpenError")
        for place, it in enumerate(self.items):
            if it[0] in ("step", "back") and not self.is_sound(it):
                self.fail_at(place, "BadStep")
        for number in range(len(self.nodes)):
            if not self.is_covered(number):
                self.fail_at(first + number, "MissingStep")


def checked(graph: Graph):
    """What `check` answers to a text, by this page."""

    def answer(text: bytes) -> str:
        try:
            Check(graph, read(text)).run()
        except Rejected as found:
            return "rejected {} {}".format(*found.args)
        return "accepted"

    return answer


# ---------------------------------------------------------------- failures


def read_failure(text: bytes) -> tuple[int, list[int]]:
    """The steps and the values of a failure."""
    lines = text.split(b"\n")
    whole = [line.decode("latin-1") for line in lines[:-1]]
    values, steps, count = [], 0, 0
    for number in range(1, len(lines) + 1):
        if number > 5 and number == 6 + count:
            if number == len(lines) and not lines[-1]:
                return steps, values
            raise Rejected(number, "Syntax")
        line = whole[number - 1] if number <= len(whole) else "\n"
        forms = ["unsafe", rf"rounds ({COUNT})", rf"assertion ({COUNT}) line ({COUNT})", rf"steps ({COUNT})", rf"values ({COUNT})"]
        found = re.fullmatch(forms[number - 1] if number <= 5 else f"({NUMBER})", line)
        most = {3: 2**32 - 1}.get(number, 2**64 - 1) if number <= 5 else MOST
        if not found or any(abs(int(each)) > most for each in found.groups()):
            raise Rejected(number, "Syntax")
        if number == 4:
            steps = int(found[1])
        if number == 5:
            count = int(found[1])
        if number > 5:
            values.append(int(found[1]))
    raise Rejected(len(lines), "Syntax")


class Run:
    """A run of examples/replay/withdraw.bpl that takes values in order."""

    def __init__(self, steps: int, values: list[int]):
        self.most, self.values, self.made = steps, values, 0

    def step(self) -> None:
        if self.made == self.most:
            raise Rejected(self.made, "Short")
        self.made += 1

    def value(self) -> int:
        self.step()
        if not self.values:
            raise Rejected(self.made, "Short")
        return self.values.pop(0)

    def holds(self, number: int, line: int, condition: bool) -> None:
        self.step()
        if not condition:
            if self.values:
                raise Rejected(self.made, "BadChoice")
            raise Failed(number, line)

    def assigned(self, value: int) -> int:
        self.step()
        if not fits(value):
            raise Rejected(self.made, "Number")
        return value


class Failed(Exception):
    """An assertion and its line."""


def replayed(text: bytes) -> str:
    """What `replay` answers to a text, by docs/FORMATS.md."""
    try:
        run = Run(*read_failure(text))
        # balance, and wanted and paid of main.
        run.value(), run.value(), run.value()
        balance = run.assigned(100)
        wanted = run.value()
        run.step()
        if wanted < 0:
            raise Rejected(run.made, "Blocked")
        # The requires at the call, the entry, and the value that paid of withdraw has before its body.
        run.holds(2, 21, 0 <= wanted)
        run.step()
        run.value()
        paid, old = run.assigned(wanted), balance
        run.step()
        if balance < 0:
            paid = run.assigned(0)
        balance = run.assigned(balance - paid)
        run.holds(1, 7, balance == old - paid)
        run.step()
        run.holds(3, 22, 0 <= balance)
        run.step()
        raise Rejected(run.made, "Ended")
    except Rejected as found:
        return "rejected {} {}".format(*found.args)
    except Failed as found:
        return "replayed assertion {} line {}".format(*found.args)


# ---------------------------------------------------------------- changes


def changed(text: bytes, dice: random.Random) -> bytes:
    """The text with a byte changed, left out or put in; most new bytes are such as the text has. Of ten changes one is that of a line, which is left
    out, doubled or put elsewhere."""
    if dice.random() < 0.1:
        lines = text.splitlines(keepends=True)
        line = lines.pop(dice.randrange(len(lines)))
        for _ in range(dice.randrange(3)):
            lines.insert(dice.randrange(len(lines) + 1), line)
        return b"".join(lines)
    new = bytes([dice.choice(text) if dice.random() < 0.5 else dice.choice(b"0123456789- ") if dice.random() < 0.7 else dice.randrange(256)])
    place = dice.randrange(len(text))
    kind = dice.random()
    if kind < 0.7:
        return text[:place] + new + text[place + 1 :]
    return text[:place] + text[place + 1 :] if kind < 0.85 else text[:place] + new + text[place:]


TEXTS = [("check", "check/increment.bpl", "check/increment.proof", checked(INCREMENT)), ("check", "check/fill.bpl", "check/fill.proof", checked(FILL)),
         ("check", "check/fill.bpl", "check/fill.wrong", checked(FILL)), ("replay", "replay/withdraw.bpl", "replay/withdraw.failure", replayed)]


def main() -> int:
    program = sys.argv[1] if len(sys.argv) > 1 else str(TOP / "crates" / "automizer" / "out" / "automizer")
    changes = int(sys.argv[2]) if len(sys.argv) > 2 else 300
    dice = random.Random(int(sys.argv[3]) if len(sys.argv) > 3 else 1)
    with tempfile.TemporaryDirectory() as work:
        second = pathlib.Path(work) / "q"
        for mode, first, shipped, wanted in TEXTS:
            text = (TOP / "examples" / shipped).read_bytes()
            counts: dict[str, int] = {}
            for number in range(changes + 1):
                new = text
                while number > 0 and new == text:
                    new = changed(text, dice)
                second.write_bytes(new)
                run = subprocess.run([program, mode, str(TOP / "examples" / first), str(second)], capture_output=True)
                answer, right = run.stdout.decode("latin-1"), wanted(new) + "\n"
                status = 1 if right.startswith("rejected") else 0
                if (answer, run.returncode, run.stderr) != (right, status, b""):
                    kept = pathlib.Path(tempfile.gettempdir()) / "altered.text"
                    kept.write_bytes(new)
                    print(f"{mode} {first} {kept}, change {number} of {shipped}: {answer!r}, status {run.returncode}; right is {right!r}, status {status}")
                    return 1
                cause = "as it is shipped" if new == text else right.split()[-1] if status else right.split()[0] + " all the same"
                counts[cause] = counts.get(cause, 0) + 1
            print(f"{shipped}: " + ", ".join(f"{count} {cause}" for cause, count in sorted(counts.items())), flush=True)
    return 0


if __name__ == "__main__":
    sys.exit(main())
