#!/usr/bin/env python3
"""Compares what the analysis of the stack makes of functions with what a model of its own makes of them (checks/stack_model.py).

    checks/stacks.py [--program crates/asm_calls/out/asm_calls] [--count 1000] [--seed 1]

First the functions of crates/asm_calls/stdin, with what crates/asm_calls/stdout says of them. With the built program `asm_calls` random functions too, which it
reads from its standard input; they have no `pushword`. Prints the first lines that differ, with `<` before what the program says and `>` before what the model says.
Ends with 1 where one differs.
"""
import argparse
import difflib
import itertools
import pathlib
import random
import subprocess
import sys
from collections.abc import Iterator

sys.dont_write_bytecode = True
from stack_model import NAMES, SIX, Analysis, Entry, function_of, highest_slot  # noqa: E402

CALLS = pathlib.Path(__file__).resolve().parent.parent / "crates" / "asm_calls"
MOST_LINES = 20
HEAD = "=== functions"

BASES = (0, 0, 0, 2, 2, 1, 3, 4, 7)
NEAR = (0, 0, 8, -8, 16, -16, 24, -24, 4, -12, 32, -32)
FAR = NEAR + (1073741816, -1073741816, 1073741840, 2**63 - 1, -(2**63))


def part_of(text: str) -> list[str]:
    """The lines of the part of functions."""
    lines = text.removesuffix("\n").split("\n")
    return list(itertools.takewhile(lambda line: not line.startswith("=== "), lines[lines.index(HEAD) + 1 :]))


def shown_item(made: Analysis, at: int) -> str:
    item, succ = f"{at}:", made.successors(at)
    item += "".join(f" {to}" for to in succ) + (" exit" if made.is_exit(at) else "")
    if made.distances[at] is None:
        return f"{item}; no walk"
    known = "".join(f" {NAMES[register]}{distance:+}" for register, distance in enumerate(made.distances[at]) if distance is not None)
    stands = ""
    for register in SIX:
        slot = highest_slot(made.facts[at], register)
        stands += "" if Entry(register) in made.facts[at] else f" -{NAMES[register]}"
        stands += "" if slot is None else f" {NAMES[register]}@{slot}"
    return f"{item};{known};{stands}"


def shown(line: str) -> list[str]:
    """What is said of a line of the part."""
    if not line:
        return []
    if line.startswith("#"):
        return [line]
    made = Analysis(function_of(line))
    if made.fault:
        last = f"fault at {made.fault.item}: {made.fault.words}"
    else:
        last = "table:" + "".join(f" {at}={op.hex()}" for at, ops in made.table() for op in ops)
    return [shown_item(made, at) for at in range(len(made.items))] + [last]


class Maker:
    """Makes functions: of any items, or with a frame that is set up and taken down, so that some have no fault."""

    def __init__(self, rng: random.Random) -> None:
        self.rng = rng

    def amount(self) -> int:
        return self.rng.choice(NEAR if self.rng.random() < 0.95 else FAR)

    def target(self, count: int) -> str:
        kind = self.rng.random()
        if kind < 0.75:
            return f">{self.rng.randrange(count + 1)}"
        if kind < 0.85:
            return f">{self.rng.randrange(count)}w"
        return self.rng.choice([">g", ">g", ""])

    def call(self, count: int) -> str:
        return "call" + (self.rng.choice((">g", ">g", ">g", ">0", "through", "")) if self.rng.random() < 0.95 else f">{self.rng.randrange(count)}")

    def item(self, count: int) -> str:
        choice, register = self.rng.choice, self.rng.randrange(1, 7) if self.rng.random() < 0.3 else self.rng.choice((1, 1, 2))
        kinds = [
            (20, lambda: f"push:{choice((register, register, register, 7, 0))}"),
            (16, lambda: choice((*[f"pop:{register},{1 << register}"] * 4, "pop:7,0"))),
            (10, lambda: f"move:{choice((0, 0, 0, 2, register))},{choice((0, 0, 2, register))},{self.amount()}"),
            (7, lambda: f"store:{choice(BASES)},{self.amount()},{choice((8, 8, 8, 4, 1, 16))},{choice((register, register, 7, 0))}"),
            (7, lambda: f"load:{register},{choice(BASES)},{self.amount()},{1 << register}"),
            (6, lambda: f"write:{choice((2, 4, 8, 6, 2, 4, 1, 1 << register))}"),
            (4, lambda: choice(("leave", "leave", f"popmemory:{choice(BASES)},{self.amount()}"))),
            (6, lambda: self.call(count)),
            (14, lambda: choice(("je", "je", "je", "jmp")) + self.target(count)),
            (5, lambda: "nop"),
            (5, lambda: choice(("ret", "ret", "ret", "ud2", "data", "jmpthrough", "nop"))),
            (1, lambda: choice(("popstack", "retpop"))),
        ]
        return self.rng.choices([make for _, make in kinds], [weight for weight, _ in kinds])[0]()

    def framed(self) -> list[str]:
        saved, room = self.rng.sample(range(1, 7), self.rng.randrange(1, 4)), self.rng.choice((0, 8, 16, 32))
        has_frame = self.rng.random() < 0.5
        saved = [register for register in saved if not (has_frame and register == 2)]
        front = (["push:2", "move:2,0,0"] if has_frame else []) + [f"push:{register}" for register in saved]
        front += ([f"move:0,0,{-room}"] if room else []) + ([f"write:{sum(1 << register for register in saved)}"] if saved else [])
        body = [it for it in (self.item(1) for _ in range(self.rng.randrange(3))) if it.split(":")[0] in ("nop", "write", "store", "load", "call>g")]
        if self.rng.random() < 0.6:
            body.insert(0, f"je>{len(front) + len(body) + 1}")
        back = ([f"move:0,0,{room}"] if room else []) + [f"pop:{register},{1 << register}" for register in reversed(saved)]
        back += [self.rng.choice(("leave", "pop:2,4"))] if has_frame else []
        return front + body + back + [self.rng.choice(("ret", "ret", "ret", "jmp>g"))]

    def function(self) -> str:
        if self.rng.random() < 0.5:
            return " ".join(self.framed())
        count = self.rng.randrange(1, 12)
        return " ".join(self.item(count) for _ in range(count))


def differences(ours: list[str], models: list[str]) -> Iterator[str]:
    for line in difflib.unified_diff(ours, models, n=0, lineterm=""):
        if line[0] in "-+" and not line.startswith(("---", "+++")):
            yield ("< " if line[0] == "-" else "> ") + line[1:]


def report(what: str, ours: list[str], models: list[str]) -> bool:
    found = [] if ours == models else list(differences(ours, models))
    print(f"{what}: {len(models)} lines, {len(found)} differ", *found[:MOST_LINES], sep="\n")
    return bool(found)


def main() -> None:
    parser = argparse.ArgumentParser()
    parser.add_argument("--program", type=pathlib.Path)
    parser.add_argument("--count", type=int, default=1000)
    parser.add_argument("--seed", type=int, default=1)
    options = parser.parse_args()
    functions = part_of((CALLS / "stdin").read_text(encoding="utf-8", errors="replace"))
    stored = part_of((CALLS / "stdout").read_text(encoding="utf-8", errors="replace"))
    differ = report("stored", stored, [text for line in functions for text in shown(line)])
    if options.program:
        maker = Maker(random.Random(options.seed))
        lines = [maker.function() for _ in range(options.count)]
        said = subprocess.run([options.program], input="\n".join([HEAD, *lines, "=== calls", ""]), capture_output=True, text=True, check=True).stdout
        differ |= report("random", part_of(said), [text for line in lines for text in shown(line)])
    sys.exit(differ)


main()
