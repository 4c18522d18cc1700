#!/usr/bin/env python3
"""Writes an input of the benchmarks to standard output.

    inputs.py tree N       N statements for examples/live.flow
    inputs.py rules N      a specification with N control rules and 3.5 N rules of a property
    inputs.py pattern N    a specification with one rule whose pattern has N variables, each named in its body
    inputs.py typed        a specification with a signature for trees of `tree N`
"""
import sys

STATEMENTS = [
    'Assign("a",Add(Int({n}),Ref("b")))',
    'Print(Ref("a"))',
    'While(Lt(Ref("a"),Int({n})),[Assign("b",Int({n})),Print(Ref("b"))])',
    "Loop([])",
]

SIGNATURE = """signature start P
  Prog: list(S) -> P
  Fun: list(S) -> S
  While: E * list(S) -> S
  Loop: list(S) -> S
  Assign: str * E -> S
  Print: E -> S
  Lt: E * E -> E
  Add: E * E -> E
  Ref: str -> E
  Int: int -> E
"""


def tree(count):
    statements = (STATEMENTS[n % len(STATEMENTS)].format(n=n) for n in range(count))
    return "Prog([" + ",".join(statements) + "])"


def rules(count):
    control = "".join(f"  C{n}(a, b) = entry -> a -> b -> exit\n" for n in range(count))
    body = "p(next) join {m} join {n}"
    properties = "".join(f"  p(C{n % count}(name m, name n) -> next) = {body}\n" for n in range(count * 7 // 2))
    return f"module bench\ncontrol\n{control}properties p: MaySet(name)\nrules\n{properties}"


def pattern(count):
    variables = ", ".join(f"name v{n}" for n in range(count))
    names = ", ".join(f"v{n}" for n in range(count))
    return f"module bench\ncontrol\nproperties p: MaySet(name)\nrules p(prev -> F({variables})) = {{{names}}}\n"


def typed():
    return f"module bench\n{SIGNATURE}control\n  root Prog(s) = start -> s -> end\n"


def main(words):
    match words:
        case ["tree", count]:
            print(tree(int(count)), end="")
        case ["rules", count]:
            print(rules(int(count)), end="")
        case ["pattern", count]:
            print(pattern(int(count)), end="")
        case ["typed"]:
            print(typed(), end="")
        case _:
            sys.exit(__doc__)


main(sys.argv[1:])
