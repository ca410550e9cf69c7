#!/usr/bin/env python3
"""Frame tables that are worked out, beside what calls really saved: programs are run step by step.

    checks/steps.py --ours build/as [--count 10] [--seed 1] [--keep DIR]

`checks/steps.s`, `checks/functions.c`, `checks/backtrace.c` and the programs of `bench/c_programs.py` from the seed on, as gcc compiles them at -O0 and at -O2 without tables for
unwinding, jump tables, cold parts and sibling calls, are assembled with `--scfi=experimental`, and linked. `checks/steps.c` runs each of them: before every instruction of a
function it works out the row that `.eh_frame` of the linked program has there, and compares the frame address, the return address and the registers that calls keep
with what was there when the function was called.

Prints what was looked at, a line for each place that is wrong, and where that program is kept; ends with 1 where there is one. A source that is refused is counted.

Without gcc or nm nothing is compared.
"""
import argparse
import pathlib
import re
import shutil
import sys
import tempfile

sys.dont_write_bytecode = True
from compare import program  # noqa: E402
from frames import COMPILE, HERE, PLAIN, Kept  # noqa: E402
from programs import c_program, first_error, must, run  # noqa: E402

BARE = [*PLAIN, "-fno-asynchronous-unwind-tables"]
WAYS = [["-O0"], ["-O2"]]
TOLD = re.compile(r"^(\d+) instructions at (\d+) places of (\d+) functions, (\d+) wrong; (.*)$", re.MULTILINE)
NAME = re.compile(r"^[0-9a-f]+ [Tt] (\S+)$", re.MULTILINE)


class Looked:
    """What was looked at in all programs."""

    def __init__(self) -> None:
        self.programs = self.refused = self.instructions = self.places = self.functions = 0

    def fault(self, ours: str, steps: str, folder: pathlib.Path, others: list[str]) -> str | None:
        """Assembles x.s in the folder, links it with others, and runs it step by step. Answers what is wrong with its frame table."""
        self.programs += 1
        assembled = run([ours, "--scfi=experimental", "-o", "x.o", "x.s"], folder)
        if assembled.status != 0:
            self.refused += 1
            return None if "SCFI: " in first_error(assembled) else f"refused: {first_error(assembled)}"
        must(["gcc", "-no-pie", "-o", "x", "x.o", *others, "-lm"], folder)
        names = NAME.findall(run(["nm", "x.o"], folder).printed.decode())
        ran = run([steps, "./x", *dict.fromkeys(names)], folder)
        told = TOLD.search(ran.printed.decode(errors="replace"))
        if not told or ran.status not in (0, 1):
            return f"is not run step by step: {ran.said.strip() or ran.printed.decode(errors='replace').strip()}"
        self.instructions += int(told[1])
        self.places += int(told[2])
        self.functions += int(told[3])
        return None if told[4] == "0" else ran.printed.decode(errors="replace").strip()

    def said(self) -> str:
        """All of it, in one line."""
        return (f"{self.programs} programs, {self.refused} of them refused: {self.instructions} instructions at {self.places} places of {self.functions} functions")


def main() -> int:
    parser = argparse.ArgumentParser(description="Runs programs step by step, and holds their frame tables against what calls saved.")
    parser.add_argument("--ours", type=program, required=True, help="our program, as build/as")
    parser.add_argument("--count", metavar="N", type=int, default=10, help="how many random programs (default 10)")
    parser.add_argument("--seed", metavar="N", type=int, default=1, help="the number of the first program (default 1)")
    parser.add_argument("--keep", metavar="DIR", type=pathlib.Path, help="where programs are kept that differ; else a new folder")
    options = parser.parse_args()
    if not shutil.which("gcc") or not shutil.which("nm"):
        print("no gcc or no nm on PATH: nothing is compared")
        return 0
    kept, looked = Kept(options.keep), Looked()
    with tempfile.TemporaryDirectory() as tools:
        steps = f"{tools}/steps"
        must(["gcc", "-O2", "-Wall", "-o", steps, str(HERE / "steps.c")], pathlib.Path(tools))
        hand = [("steps", HERE / "steps.s", [], [])]
        for way in WAYS:
            hand.append((f"functions{way[0]}", HERE / "functions.c", way, ["-DNO_MAIN"]))
            hand.append((f"backtrace{way[0]}", HERE / "backtrace.c", way, []))
        for name, source, way, words in hand:
            with tempfile.TemporaryDirectory() as made:
                folder = pathlib.Path(made)
                others = []
                if source.suffix == ".s":
                    shutil.copy(source, folder / "x.s")
                else:
                    must([*COMPILE, *way, *BARE, *words, "-o", "x.s", str(source)], folder)
                if words:
                    must(["gcc", "-O2", "-DONLY_MAIN", "-c", "-o", "main.o", str(source)], folder)
                    others = ["main.o"]
                if found := looked.fault(options.ours, steps, folder, others):
                    kept.keep(name, folder, found)
        for number in range(options.seed, options.seed + options.count):
            for way in WAYS:
                with tempfile.TemporaryDirectory() as made:
                    folder = pathlib.Path(made)
                    (folder / "x.c").write_text(c_program(number), encoding="ascii")
                    must([*COMPILE, *way, *BARE, "-o", "x.s", "x.c"], folder)
                    if found := looked.fault(options.ours, steps, folder, []):
                        kept.keep(f"{number}{way[0]}", folder, found)
    print(looked.said())
    return 1 if kept.failed else 0


if __name__ == "__main__":
    sys.exit(main())
