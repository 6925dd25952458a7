#!/usr/bin/env python3
"""Programs with their automata, worked out by hand from the tables of paths, points and edges in docs/FORMATS.md, as what `lowering_table`
reads and prints, and runs that words and points of their rows tell, from the tables of steps and of the rows of a word there:
lowering_rows.py [FOLDER] writes the files stdin and stdout, into crates/lowering_table where no folder is named. What stands in them from the
first line with `#` on stays.

A row: the program; the procedure of each place; of each procedure its frame, entry and exit; the letters; the inside edges; calls; returns;
and of each assertion its line and its place."""
import pathlib
import sys

rows = []


def row(text, owners, procs, letters, insides, calls=(), backs=(), fails=()):
    """A program with its automaton."""
    out = []
    for frame, entry, exit in procs:
        out.append("frame" + words(frame))
        out.append("proc no entry no exit" if entry is None else f"proc entry {entry} exit {exit}")
    out.append("places" + "".join(f" {owner}" for owner in owners))
    out += [f"{number} {letter}" for number, letter in enumerate(letters)]
    out.append("".join(f"{edge} " for edge in insides.split()))
    out += ["call " + call for call in calls]
    out += ["back " + back for back in backs]
    out += [f"fails {number} line {line} at {place}" for number, (line, place) in enumerate(fails, 1)]
    out.append("---")
    rows.append((text.strip("\n"), "---", "\n".join(out)))


def fault(text, said):
    """A program that cannot be lowered."""
    rows.append((text.strip("\n"), "---", said))


def run(text, letters, point, steps, choices, number, line):
    """A program with the run that a word of its automaton, by the numbers of its letters, and a point of the word's rows tell: how many steps it
    has, its choices, and the assertion that fails at its end."""
    rows.append((text, f"run {letters} :{words(point)}", f"steps {steps} choices{words(choices)} fails {number} line {line}"))


def past(text, letters, point, step):
    """A program, a word and a point that tell a run with a value that does not fit, and the step at which that comes."""
    rows.append((text, f"run {letters} :{words(point)}", f"Number at step {step}"))


def none(text, letters, point, said):
    """A program with what is no word of its automaton, or no point of the word's rows."""
    rows.append((text, f"run {letters} :{words(point)}", said))


def words(listed):
    return "".join(" " + each for each in listed.split())


def written(listed):
    return "".join(f" {each.strip()};" for each in listed.split(";") if each.strip())


def IN(proc, writes="", listed="", helpers=0):
    """An inside letter of a procedure: the columns that it writes, its rows, and how many helpers they have."""
    return f"in {proc} +{helpers} writes{words(writes)}:{written(listed)}"


def CALL(caller, callee, listed="", helpers=0):
    """A call letter."""
    return f"call {caller} {callee} +{helpers}:{written(listed)}"


def BACK(call, targets=""):
    """The return letter of a call letter, with the columns that the results go to."""
    return f"back {call} gives{words(targets)}"


# the letter of the start of a program without globals that vary, and a skip
E0 = IN(0)

# ---- single statements
row("procedure main() {\n  var x: int;\n  x := 1;\n  assert x >= 1;\n}", [0]*5, [("l0",1,3)],
    [E0, IN(0,"0","1*1 = 1"), IN(0,"","-1*0 <= -1"), IN(0,"","1*0 <= 0")], "0-0-1 1-1-2 2-2-3 2-3-4", fails=[(4,4)])
row("procedure main() { }", [0,0], [("",1,1)], [E0], "0-0-1")
row("procedure main() { A: }", [0,0], [("",1,1)], [E0], "0-0-1")
# F of false is one empty conjunction, the act of `enter`
row("procedure main() { assert false; }", [0]*4, [("",1,2)], [E0], "0-0-1 1-0-3", fails=[(1,3)])
row("procedure main() { assume false; }", [0]*3, [("",1,2)], [E0], "0-0-1")
# equal acts are one letter
row("procedure main() { var x: int; assume x == 3; assert x == 3; }", [0]*5, [("l0",1,3)],
    [E0, IN(0,"","1*0 = 3"), IN(0,"","1*0 <= 2"), IN(0,"","-1*0 <= -4")], "0-0-1 1-1-2 2-1-3 2-2-4 2-3-4", fails=[(1,4)])
row("procedure main() { var x: int; var y: int; havoc x, y; }", [0]*4, [("l0 l1",1,3)], [E0, IN(0,"0"), IN(0,"1")], "0-0-1 1-1-2 2-2-3")
row("procedure main() { var x: int; var y: int; x, y := y, x; }", [0]*3, [("l0 l1",1,2)],
    [E0, IN(0,"0 1","-1*1 1*2 = 0; -1*0 1*3 = 0")], "0-0-1 1-1-2")
# the targets in their order, not that of the frame
row("procedure main() { var x: int; var y: int; y, x := 1, y; }", [0]*3, [("l0 l1",1,2)],
    [E0, IN(0,"1 0","1*2 = 1; -1*1 1*3 = 0")], "0-0-1 1-1-2")
row("procedure main() { var b: bool; var x: int; b := x < 3; }", [0]*3, [("l0 l1",1,2)],
    [E0, IN(0,"0","1*1 <= 2; 1*2 = 1"), IN(0,"0","-1*1 <= -3; 1*2 = 0")], "0-0-1 1-1-2 1-2-2")
row("procedure main() { var x: int; x := -(2 * x) + 3 * (x - 1); }", [0]*3, [("l0",1,2)],
    [E0, IN(0,"0","-1*0 1*1 = -3")], "0-0-1 1-1-2")

# ---- conditions
row("procedure main() { var x: int; assume x > 5 || x < 0; }", [0]*3, [("l0",1,2)],
    [E0, IN(0,"","-1*0 <= -6"), IN(0,"","1*0 <= 5; 1*0 <= -1")], "0-0-1 1-1-2 1-2-2")
row("procedure main() { var x: int; assert x > 0 && x < 5; }", [0]*4, [("l0",1,2)],
    [E0, IN(0,"","-1*0 <= -1; 1*0 <= 4"), IN(0,"","1*0 <= 0"), IN(0,"","-1*0 <= -1; -1*0 <= -5")], "0-0-1 1-1-2 1-2-3 1-3-3", fails=[(1,3)])
row("procedure main() { var a: bool; var b: bool; assume a <==> b; }", [0]*3, [("l0 l1",1,2)],
    [E0, IN(0,"","1*0 = 1; 1*1 = 1"), IN(0,"","1*0 = 0; 1*1 = 0")], "0-0-1 1-1-2 1-2-2")
row("procedure main() { var a: bool; var b: bool; assume a != b; }", [0]*3, [("l0 l1",1,2)],
    [E0, IN(0,"","1*0 = 1; 1*1 = 0"), IN(0,"","1*0 = 0; 1*1 = 1")], "0-0-1 1-1-2 1-2-2")
row("procedure main() { var a: bool; var b: bool; assume a ==> b; }", [0]*3, [("l0 l1",1,2)],
    [E0, IN(0,"","1*0 = 0"), IN(0,"","1*0 = 1; 1*1 = 1")], "0-0-1 1-1-2 1-2-2")
row("procedure main() { var x: int; assume !(x == 0); }", [0]*3, [("l0",1,2)],
    [E0, IN(0,"","1*0 <= -1"), IN(0,"","-1*0 <= -1")], "0-0-1 1-1-2 1-2-2")
row("procedure main() { var x: int; var y: int; y := x div 3; assert y * 3 <= x; y := x mod 3; }", [0]*6, [("l0 l1",1,4)],
    [E0, IN(0,"1","-1*0 3*3 <= 0; 1*0 -3*3 <= 2; 1*2 -1*3 = 0",1), IN(0,"","-1*0 3*1 <= 0"), IN(0,"","1*0 -3*1 <= -1"),
     IN(0,"1","-1*0 3*3 <= 0; 1*0 -3*3 <= 2; -1*0 1*2 3*3 = 0",1)], "0-0-1 1-1-2 2-2-3 2-3-5 3-4-4", fails=[(1,5)])
row("procedure main() { var x: int; assume x div (-2) == 1; }", [0]*3, [("l0",1,2)],
    [E0, IN(0,"","-1*0 -2*1 <= 0; 1*0 2*1 <= 1; 1*1 = 1",1)], "0-0-1 1-1-2")

# ---- branches and loops
row("procedure main() { var x: int; if (x > 0) { x := 1; } else { x := 2; } assert x > 0; }", [0]*7, [("l0",1,5)],
    [E0, IN(0,"","-1*0 <= -1"), IN(0,"","1*0 <= 0"), IN(0,"0","1*1 = 1"), IN(0,"0","1*1 = 2")],
    "0-0-1 1-1-2 1-2-3 2-3-4 3-4-4 4-1-5 4-2-6", fails=[(1,6)])
# without globals that vary, `enter` and `skip` are one letter; two equal edges
row("procedure main() { if (*) { } else { } }", [0]*3, [("",1,2)], [E0], "0-0-1 1-0-2 1-0-2")
row("var g: int; procedure main() { if (*) { } else { } }", [0]*3, [("g0 o0",1,2)], [IN(0,"1","-1*0 1*2 = 0"), E0], "0-0-1 1-1-2 1-1-2")
row("procedure main() { goto A, A; A: }", [0]*3, [("",1,2)], [E0], "0-0-1 1-0-2 1-0-2")
row("procedure main() { var x: int; x := 0; while (x < 10) { x := x + 1; } assert x == 10; }", [0]*7, [("l0",1,5)],
    [E0, IN(0,"0","1*1 = 0"), IN(0,"","1*0 <= 9"), IN(0,"","-1*0 <= -10"), IN(0,"0","-1*0 1*1 = 1"), IN(0,"","1*0 = 10"), IN(0,"","-1*0 <= -11")],
    "0-0-1 1-1-2 2-2-3 2-3-4 3-4-2 4-5-5 4-2-6 4-6-6", fails=[(1,6)])
# a plain invariant is asserted, a free one assumed; an empty body leads to the loop's head
row("procedure main() {\n  var x: int;\n  while (x < 1)\n    invariant x <= 1;\n    free invariant x >= 0;\n  { }\n}", [0]*6, [("l0",1,4)],
    [E0, IN(0,"","1*0 <= 1"), IN(0,"","-1*0 <= -2"), IN(0,"","-1*0 <= 0"), IN(0,"","1*0 <= 0"), IN(0,"","-1*0 <= -1")],
    "0-0-1 1-1-2 1-2-5 2-3-3 3-4-1 3-5-4", fails=[(4,5)])
row("procedure main() {\n  A: while (*) {\n    while (*) {\n      break A;\n    }\n    break;\n  }\n}", [0]*6, [("",1,5)],
    [E0], "0-0-1 1-0-2 1-0-5 2-0-3 2-0-4 3-0-5 4-0-5")
row("procedure main() {\n  while (*) {\n    while (*) {\n      break;\n    }\n  }\n}", [0]*5, [("",1,4)],
    [E0], "0-0-1 1-0-2 1-0-4 2-0-3 2-0-1 3-0-1")
row("procedure main() {\n  var x: int;\n  while (x > 0) {\n    if (x > 5) {\n      x := 0;\n    }\n  }\n}", [0]*5, [("l0",1,4)],
    [E0, IN(0,"","-1*0 <= -1"), IN(0,"","1*0 <= 0"), IN(0,"","-1*0 <= -6"), IN(0,"","1*0 <= 5"), IN(0,"0","1*1 = 0")],
    "0-0-1 1-1-2 1-2-4 2-3-3 2-4-1 3-5-1")
row("procedure main() {\n  var x: int;\n  A: x := x + 1;\n  goto A, B;\n  B: assert x > 0;\n}", [0]*6, [("l0",1,4)],
    [E0, IN(0,"0","-1*0 1*1 = 1"), IN(0,"","-1*0 <= -1"), IN(0,"","1*0 <= 0")], "0-0-1 1-1-2 2-0-1 2-0-3 3-2-4 3-3-5", fails=[(5,5)])
# `assume true` is a skip; the label at the end of the body leads to the exit
row("procedure main() {\n  while (*) {\n    if (*) {\n      goto done;\n    }\n    assume true;\n  }\n  done:\n}", [0]*6, [("",1,5)],
    [E0], "0-0-1 1-0-2 1-0-5 2-0-3 2-0-4 3-0-5 4-0-1")

# ---- specifications
# the early return leads to the ensures
row("procedure main() returns (r: int)\n  ensures r > 0;\n{\n  if (*) {\n    return;\n  }\n  r := 1;\n}", [0]*7, [("l0",1,5)],
    [E0, IN(0,"0","1*1 = 1"), IN(0,"","-1*0 <= -1"), IN(0,"","1*0 <= 0")],
    "0-0-1 1-0-2 1-0-3 2-0-4 3-1-4 4-2-5 4-3-6", fails=[(2,6)])
row("procedure main() returns (r: int)\n  free ensures r > 0;\n  ensures r > 1;\n{\n}", [0]*5, [("l0",1,3)],
    [E0, IN(0,"","-1*0 <= -1"), IN(0,"","-1*0 <= -2"), IN(0,"","1*0 <= 1")], "0-0-1 1-1-2 2-2-3 2-3-4", fails=[(3,4)])
# axioms, then the plain requires of the entry, then its free ones
row("const c: int;\naxiom c > 0;\nprocedure main(p: int)\n  requires p > c;\n  free requires p > 1;\n{\n  assert p > 0;\n}", [0]*7, [("g0 l0",3,5)],
    [E0, IN(0,"","-1*0 <= -1"), IN(0,"","1*0 -1*1 <= -1"), IN(0,"","-1*1 <= -2"), IN(0,"","-1*1 <= -1"), IN(0,"","1*1 <= 0")],
    "0-0-1 1-1-2 2-2-3 3-3-4 4-4-5 4-5-6", fails=[(7,6)])
row("var g: int;\nprocedure main()\n  modifies g;\n  ensures g == old(g) + 1;\n{\n  g := g + 1;\n}", [0]*5, [("g0 o0",1,3)],
    [IN(0,"1","-1*0 1*2 = 0"), IN(0,"0","-1*0 1*2 = 1"), IN(0,"","1*0 -1*1 = 1"), IN(0,"","1*0 -1*1 <= 0"), IN(0,"","-1*0 1*1 <= -2")],
    "0-0-1 1-1-2 2-2-3 2-3-4 2-4-4", fails=[(4,4)])
row("var g: bool;\nconst c: int;\nvar h: int;\nprocedure main()\n  modifies h;\n{\n  h := c;\n}", [0]*3, [("g0 g1 g2 o0 o2",1,2)],
    [IN(0,"3 4","-1*0 1*5 = 0; -1*2 1*6 = 0"), IN(0,"2","-1*1 1*5 = 0")], "0-0-1 1-1-2")

# ---- calls
row("var g: int;\nprocedure main() modifies g; { g := 0; call inc(); assert g <= 1; }\nprocedure inc() modifies g; { g := g + 1; }",
    [0,0,0,0,0,1,1,0], [("g0 o0",1,4),("g0 o0",5,6)],
    [IN(0,"1","-1*0 1*2 = 0"), IN(0,"0","1*2 = 0"), CALL(0,1), BACK(2), IN(0,"","1*0 <= 1"), IN(0,"","-1*0 <= -2"), IN(1,"0","-1*0 1*2 = 1")],
    "0-0-1 1-1-2 3-4-4 3-5-7 5-6-6", ["2-2-5"], ["6 2-3-3"], [(2,7)])
row("procedure inc(a: int) returns (r: int)\n{\n  r := a + 1;\n}\nprocedure main() {\n  var x: int;\n  call x := inc(2);\n  assert x == 3;\n}",
    [1,0,0,1,1,1,1], [("l0 l1",1,2),("l0",3,5)],
    [IN(1), IN(0,"1","-1*0 1*2 = 1"), CALL(1,0,"1*1 = 2"), BACK(2,"0"), IN(1,"","1*0 = 3"), IN(1,"","1*0 <= 2"), IN(1,"","-1*0 <= -4")],
    "0-0-3 1-1-2 4-4-5 4-5-6 4-6-6", ["3-2-1"], ["2 3-3-4"], [(8,6)])
# each plain requires is asserted at the call, over the arguments; rows without terms stay
row("procedure f(a: int)\n  requires a > 0;\n  free requires a > 1;\n  requires a > 2;\n{\n}\nprocedure main() {\n  call f(5);\n}",
    [1,0,0,1,1,1,1,1,1], [("l0",1,2),("",3,6)],
    [IN(1), IN(0,"","-1*0 <= -2"), IN(1,"","<= 4"), IN(1,"","<= -5"), IN(1,"","<= 2"), IN(1,"","<= -3"), CALL(1,0,"1*0 = 5"), BACK(6)],
    "0-0-3 1-1-2 3-2-4 3-3-7 4-4-5 4-5-8", ["5-6-1"], ["2 5-7-6"], [(8,7),(8,8)])
row("procedure main() {\n  call main();\n}", [0]*3, [("",1,2)], [E0, CALL(0,0), BACK(1)], "0-0-1", ["1-1-1"], ["2 1-2-2"])
# the results go to the targets in their order
row("procedure two() returns (a: int, b: int)\n{\n}\nprocedure main() {\n  var x: int;\n  var y: int;\n  call y, x := two();\n}",
    [1,0,1,1], [("l0 l1",1,1),("l0 l1",2,3)], [IN(1), CALL(1,0), BACK(1,"1 0")], "0-0-2", ["2-1-1"], ["1 2-2-3"])
row("var g: int;\nprocedure f(a: int)\n  requires a + g > 0;\n{\n}\nprocedure main() {\n  var x: int;\n  call f(x + 1);\n}",
    [1,0,1,1,1,1], [("g0 o0 l0",1,1),("g0 o0 l0",2,4)],
    [IN(1,"1","-1*0 1*3 = 0"), IN(1,"","-1*0 -1*2 <= 0"), IN(1,"","1*0 1*2 <= -1"), CALL(1,0,"-1*2 1*5 = 1"), BACK(3)],
    "0-0-2 2-1-3 2-2-5", ["3-3-1"], ["1 3-4-4"], [(8,5)])
# an argument that is a comparison goes through a hidden local
row("procedure f(b: bool)\n{\n}\nprocedure main() {\n  var x: int;\n  call f(x < 3);\n}", [1,0,1,1,1], [("l0",1,1),("l0 l1",2,4)],
    [IN(1), IN(1,"1","1*0 <= 2; 1*2 = 1"), IN(1,"1","-1*0 <= -3; 1*2 = 0"), CALL(1,0,"-1*1 1*2 = 0"), BACK(3)],
    "0-0-2 2-1-3 2-2-3", ["3-3-1"], ["1 3-4-4"])
row("procedure f(b: bool)\n{\n}\nprocedure main() {\n  var b: bool;\n  call f(!b);\n}", [1,0,1,1], [("l0",1,1),("l0",2,3)],
    [IN(1), CALL(1,0,"1*0 1*1 = 1"), BACK(1)], "0-0-2", ["2-1-1"], ["1 2-2-3"])
# two calls with one act: one call letter and, with the same targets, one return letter
row("procedure f()\n{\n}\nprocedure main() {\n  call f();\n  call f();\n}", [1,0,1,1,1], [("",1,1),("",2,4)],
    [IN(1), CALL(1,0), BACK(1)], "0-0-2", ["2-1-1","3-1-1"], ["1 2-2-3","1 3-2-4"])
# equal steps of two procedures are two letters
row("procedure f()\n{\n  var x: int;\n  x := 1;\n}\nprocedure main() {\n  var x: int;\n  x := 1;\n}", [1,0,0,1,1], [("l0",1,2),("l0",3,4)],
    [IN(1), IN(0,"0","1*1 = 1"), IN(1,"0","1*1 = 1")], "0-0-3 1-1-2 3-2-4")

# ---- calls without body
row("var g: int;\nprocedure ext(a: int) returns (r: int);\n  modifies g;\n  ensures r > a;\n  ensures g > old(g);\nprocedure main()\n  modifies g;\n{\n  var x: int;\n  call x := ext(g);\n}",
    [1,1,1], [("g0 o0 l0 l1",None,None),("g0 o0 l0",1,2)],
    [IN(1,"1","-1*0 1*3 = 0"), IN(1,"0 2","1*0 -1*4 <= -1; 1*0 -1*3 <= -1")], "0-0-1 1-1-2")
# the modified global is also the target: its value before the target is written stands in a helper
row("var g: int;\nprocedure ext() returns (r: int);\n  modifies g;\n  ensures g > r;\nprocedure main()\n  modifies g;\n{\n  call g := ext();\n}",
    [1,1,1], [("g0 o0 l0",None,None),("g0 o0",1,2)],
    [IN(1,"1","-1*0 1*2 = 0"), IN(1,"0","1*2 -1*3 <= -1",1)], "0-0-1 1-1-2")
# one letter for each path of all ensures together
row("procedure bit() returns (r: int);\n  ensures r == 0 || r == 1;\nprocedure main() {\n  var x: int;\n  call x := bit();\n  assert x < 2;\n}",
    [1]*5, [("l0",None,None),("l0",1,3)],
    [IN(1), IN(1,"0","1*1 = 0"), IN(1,"0","1*1 <= -1; 1*1 = 1"), IN(1,"0","-1*1 <= -1; 1*1 = 1"), IN(1,"","1*0 <= 1"), IN(1,"","-1*0 <= -2")],
    "0-0-1 1-1-2 1-2-2 1-3-2 2-4-3 2-5-4", fails=[(6,4)])
# without ensures anything may be written; its requires is asserted first
row("procedure ext(a: int) returns (r: int);\n  requires a >= 0;\nprocedure main() {\n  var x: int;\n  call x := ext(x);\n}",
    [1]*5, [("l0 l1",None,None),("l0",1,3)],
    [IN(1), IN(1,"","-1*0 <= 0"), IN(1,"","1*0 <= -1"), IN(1,"0")], "0-0-1 1-1-2 1-2-4 2-3-3", fails=[(5,4)])

# ---- faults
# 4,096 members are not too many: as many letters, and that of the start
fault("procedure main() { var x: int; assume " + " && ".join(["x != 0"]*12) + "; }", "places 3 letters 4097")
fault("procedure main() { var x: int; assume " + " && ".join(["x != 0"]*13) + "; }", "TooWide 1 32")
big = "170141183460469231731687303715884105727"
fault("procedure main() { var x: int; assume x < -" + big + "; }", "TooBig 1 32")
fault("procedure main() { var x: int; assume x < -" + big + ";\n assume " + " && ".join(["x != 0"]*13) + "; }", "TooBig 1 32")
fault("procedure main() { var x: int; assume " + " && ".join(["x != 0"]*13) + " && x < -" + big + "; }", "TooWide 1 32")
# the ensures stands before the statement in the text, and behind it among the places
fault("procedure main() returns (r: int)\n  ensures r < -" + big + ";\n{\n  assume r < -" + big + ";\n}", "TooBig 2 3")
# the specifications of a callee count with the call; those of a procedure without body do not count by themselves
fault("procedure ext(a: int);\n  requires a < -" + big + ";\nprocedure main() {\n  var x: int;\n  x := 0;\n  call ext(x);\n}", "TooBig 6 3")
fault("procedure main() { }\nprocedure ext() returns (r: int);\n  ensures r < -" + big + ";\nprocedure other() {\n  var x: int;\n  call x := ext();\n}", "TooBig 6 3")
# the span of an expression is its first token
fault("axiom 0 < -" + big + ";\nprocedure main() { }", "TooBig 1 7")

# ---- runs that words and points tell
GLOBALS = "var x: int; var b: bool;\nprocedure main() modifies x, b; { "

# a failure without a value to choose
run("procedure main() { assert false; }", "0 0", "", 1, "", 1, 1)
# a value is chosen for x and b first; columns: x, b, their old values, and those that `enter` writes
run(GLOBALS + "assert false; }", "0 1", "5 1 0 0 5 1", 3, "5 1", 1, 2)
run(GLOBALS + "havoc x; assert false; }", "0 1 2", "5 1 0 0 5 1 -8", 4, "5 1 -8", 1, 2)
run(GLOBALS + "havoc b; assume b; assert false; }", "0 1 2 3", "5 0 0 0 5 0 1", 5, "5 0 1", 1, 2)
run(GLOBALS + "if (*) { assert false; } }", "0 1 1", "5 1 0 0 5 1", 4, "5 1 0", 1, 2)
run(GLOBALS + "x := x + x; assert false; }", "0 1 2", "5 1 0 0 5 1 10", 4, "5 1", 1, 2)
run(GLOBALS + "x := x + x - x; assert false; }", "0 1 2", "7 1 0 0 7 1 7", 4, "7 1", 1, 2)
# a callee changes a global: old g at the call, g in the callee
run("var g: int;\nprocedure main() modifies g; { g := 0; call inc(); assert g == 0; }\nprocedure inc() modifies g; { g := g + 1; }",
    "0 1 2 7 3 6", "9 4 9 0 0 1", 6, "9", 1, 2)
# three calls deep: at each call the old value of g, then g where the callee writes it
run("var g: int;\nprocedure main() modifies g; { g := 0; call a(); }\nprocedure a() modifies g; { g := g + 1; call b(); }\n"
    "procedure b() modifies g; { g := g + 1; call c(); }\nprocedure c() { assert g != 2; }",
    "0 1 2 4 5 7 8 12", "-3 7 -3 0 0 1 1 2 2", 8, "-3", 1, 5)
# recursion four calls deep: at each call n, r, t, old g, and then t and g as they are written
run("var g: int;\nprocedure f(n: int) returns (r: int) modifies g; { var t: int; t := n; g := g + t;\n"
    "  if (n > 0) { call r := f(n - 1); } else { assert g != 6; } r := g; }\n"
    "procedure main() modifies g; { var s: int; g := 0; call s := f(3); }",
    "0 11 12 1 2 3 5 1 2 3 5 1 2 3 5 1 2 4 9",
    "1 2 3 1 0 3 10 11 0 3 3 2 12 13 3 2 5 1 14 15 5 1 6 0 16 17 6 0 6", 28, "1 3 10 11 12 13 14 15 16 17", 1, 3)
# a call that returns: its result and its local have start values, which no row mentions
run("procedure f(n: int) returns (r: int) { var t: int; t := n; r := t + 1; }\nprocedure main() { var s: int; call s := f(3); assert s != 4; }",
    "0 3 1 2 4 7", "-1 3 8 9 3 4", 8, "-1 8 9", 1, 2)
# an early return; r is -1 at first
run("procedure main() { var r: int; call r := f(1); }\n"
    "procedure f(n: int) returns (r: int) ensures r == n; { r := n; if (n > 0) { r := 0; return; } }",
    "0 1 3 4 6 7 9", "12 1 -6 1 0", 8, "12 -6", 1, 2)
# start values that no row mentions: constant, global, parameter, result and local of the first procedure
run("const c: int; var u: int;\nprocedure main(a: int) returns (r: bool) {\n  var t: int; assert false; }",
    "0 1", "4 -5 0 6 1 -7 -5", 6, "4 -5 6 1 -7", 1, 3)
# an axiom, a requires and a free requires are a step each
run("const c: int; axiom c > 4;\nprocedure main() requires c < 6; free requires c != 0;\n{ var p: bool; havoc p; assume p; assert c != 5; }",
    "0 1 2 4 5 6 9", "5 0 1", 8, "5 0 1", 1, 3)
# the values of a havoc in the order of its names
run("procedure main() { var x: int; var y: int; havoc y, x; assert y < x; }", "0 1 2 4", "8 -2 3 1", 5, "8 -2 3 1", 1, 1)
# an old value
run("var g: int;\nprocedure main() modifies g; { g := g + 1; assert g == old(g); }", "0 1 4", "7 0 7 8", 3, "7", 1, 2)
# a helper column is no choice: the quotient of 7 by 2 comes last
run("procedure main() { var x: int; havoc x; x := x div 2; assert x != 3; }", "0 1 2 5", "0 7 3 3", 4, "0 7", 1, 1)

# a choice tells the branch, whose letters are all that of the start
run("procedure main() { if (*) { assert false; } else { assert true; } }", "0 0 0", "", 2, "0", 1, 1)
run("procedure main() { if (*) { assert true; } else { assert false; } }", "0 0 0", "", 2, "1", 2, 1)
# two ways to one place: the first
run("procedure main() { if (*) { } else { } assert false; }", "0 0 0", "", 2, "0", 1, 1)
run("procedure main() { goto A, A; A: assert false; }", "0 0 0", "", 2, "0", 1, 1)
# one target is no choice
run("procedure main() { goto A; A: assert false; }", "0 0 0", "", 2, "", 1, 1)
GOTO = "procedure main() {\n  goto A, B, C;\n  A: assert true;\n  B: assert true;\n  C: assert false;\n}"
run(GOTO, "0 0 0 0 0", "", 4, "0", 3, 5)
run(GOTO, "0 0 0 0", "", 3, "1", 3, 5)
run(GOTO, "0 0 0", "", 2, "2", 3, 5)
# a loop: 0 enters and 1 leaves
run("procedure main() { var x: int; x := 0; while (*) { x := x + 1; } assert x != 1; }", "0 1 0 2 0 5", "6 0 1", 6, "6 0 1", 1, 1)
LOOP = ("procedure main() { var x: int; x := 0;\n  while (x < 5) invariant x <= 1; free invariant x >= 0; { x := x + 1;\n"
        "    if (*) { break; } }\n  assert x != 1; }")
run(LOOP, "0 1 2 4 5 7 0 0 9", "-4 0 1", 9, "-4 0", 2, 4)
run(LOOP, "0 1 2 4 5 7 0 2 4 5 7 0 3", "-4 0 1 2", 13, "-4 1 1", 1, 2)

# a call without a body: first the globals that it modifies, then its results; columns: g, old g, r, old g, then g and r
run("var g: int;\nprocedure pick(x: int) returns (y: int);\n  modifies g;\n  ensures y == x + 1;\n  ensures g == 2 * y;\n"
    "procedure main() modifies g; { var r: int; assume g == 5; call r := pick(4); assert r + g == 14; }",
    "0 1 2 5", "5 0 -1 5 10 5", 9, "5 -1 10 5", 1, 6)
# g is a target too: the value that the callee gives it is the helper, which comes last
run("var g: int;\nprocedure pick(x: int) returns (y: int, z: int);\n  modifies g;\n  ensures y == g + 1;\n  ensures z == g - 3;\n"
    "procedure main() modifies g; { var r: int; call g, r := pick(4); assert g != 10; }",
    "0 1 4", "2 0 7 2 10 6 9", 9, "2 7 9 10 6", 1, 6)
# that helper stands before the quotient of the ensures
run("var g: int;\nprocedure pick() returns (y: int);\n  modifies g;\n  ensures y == g div 2;\n"
    "procedure main() modifies g; { call g := pick(); assert g != 4; }",
    "0 1 4", "1 1 1 4 9 4", 6, "1 9 4", 1, 5)
# its requires is a step, and each ensures; the argument has the value of before the call
run("var g: int;\nprocedure bump(x: int) returns (y: int);\n  requires x > 0;\n  modifies g;\n  free ensures y == x + old(g);\n  ensures g == x + 1;\n"
    "procedure main() modifies g; { var r: int; call r := bump(g); assert r == g; }",
    "0 1 3 6", "3 1 0 3 4 6", 9, "3 0 4 6", 2, 7)
# the globals in the order of the modifies lists
run("var g: int; var h: int;\nprocedure pick();\n  modifies h, g;\n  modifies h;\nprocedure main() modifies g, h; { call pick(); assert g == h; }",
    "0 1 4", "1 2 0 0 1 2 3 8", 6, "1 2 3 8", 1, 5)

# hidden locals: a start value for each, and a step for the assignment of each
run("procedure f(p: bool) { assert p; }\nprocedure main() { var x: int; call f(x > 3); }", "0 4 5 2", "1 1 0 0", 5, "1 1", 1, 1)
run("procedure f(p: bool, q: bool) { assert p || q; }\nprocedure main() { var x: int; call f(x > 3, x > 5); }",
    "0 5 7 8 3", "2 1 0 0 0 0 0", 7, "2 1 0", 1, 1)

# no row has the double of a value, which does not fit where the value is 2^126
LARGE = str(1 << 126)
past(GLOBALS + "x := x + x - x; assert false; }", "0 1 2", f"{LARGE} 1 0 0 {LARGE} 1 {LARGE}", 3)
run("procedure main() { var x: int; assert false && x + x > 0; }", "0 0", "3", 2, "3", 1, 1)
past("procedure main() { var x: int; assert false && x + x > 0; }", "0 0", LARGE, 2)
# in an argument, where the call enters, and in an ensures of a callee without a body, behind the choice of its result
past("procedure f(n: int) { assert false; }\nprocedure main() { var x: int; havoc x; call f(x + x - x); }", "0 2 3 1", f"0 {LARGE} {LARGE}", 3)
past("procedure pick() returns (y: int);\n  ensures y + y - y > 2;\nprocedure main() { var r: int; call r := pick(); assert false; }",
     "0 1 0", f"1 {LARGE}", 3)

# old g is not g, where `enter` makes it so; letter 0 alone leads to no error place
none(GLOBALS + "assert false; }", "0 1", "5 1 0 0 4 1", "no point of the rows")
none(GLOBALS + "assert false; }", "0 1", "5 2 0 0 5 2", "no point of the rows")
none(GLOBALS + "assert false; }", "0", "5 1 0 0 5 1", "not accepted")


def write(path: pathlib.Path, text: str, behind: str) -> None:
    """Writes the text in place of what stands before the other cases, which begin with a mark behind a line."""
    old = path.read_text(encoding="ascii") if path.exists() else ""
    at = old.find("\n" + behind)
    path.write_text(text + (old[at + 1 :] if at >= 0 else ""), encoding="ascii")


def main() -> None:
    folder = pathlib.Path(sys.argv[1]) if len(sys.argv) > 1 else pathlib.Path(__file__).resolve().parent.parent / "crates" / "lowering_table"
    write(folder / "stdin", "".join(text + "\n" + end + "\n" for text, end, _ in rows), "\n#")
    write(folder / "stdout", "".join(told + "\n" for _, _, told in rows), "#")
    print(len(rows), "programs")


if __name__ == "__main__":
    main()
