#!/usr/bin/env python3
"""Random C programs through gcc and the built assembler: each is assembled and linked, and prints what it prints where GNU as assembled it.

    checks/programs.py --ours build/as [--gnu /usr/bin/as] [--count 100] [--seed 1] [--keep DIR]

The programs are those of `bench/c_programs.py` from the seed on. gcc compiles each at -O0 and at -O2, with the tables for unwinding that it makes by itself. Both assemblers take what it writes as it is, gcc links each object, and both programs run. Compared are what they print and how they end. Prints a
line for each text that ours refuses, with its message, and for each program that differs, and where they are kept. Ends with 1 where there is one.

Without gcc nothing is compared.
"""
import argparse
import pathlib
import shutil
import subprocess
import sys
import tempfile
from dataclasses import dataclass

sys.dont_write_bytecode = True
from compare import ENVIRONMENT, program  # noqa: E402

sys.path.insert(0, str(pathlib.Path(__file__).resolve().parent.parent / "bench"))
from c_programs import c_program  # noqa: E402

COMPILE = ["gcc", "-S", "-w", "-g0", "-mtune=nehalem"]
LEVELS = ["-O0", "-O2"]
LONGEST = 60  # seconds for each run of any program


@dataclass
class Run:
    """How a command ended, and what it said."""
    status: int
    printed: bytes
    said: str


def run(command: list[str], folder: pathlib.Path) -> Run:
    """Runs a command in the folder. One that takes too long has the status -1."""
    try:
        ran = subprocess.run(command, cwd=folder, stdin=subprocess.DEVNULL, capture_output=True, env=ENVIRONMENT, timeout=LONGEST, check=False)
    except subprocess.TimeoutExpired:
        return Run(-1, b"", f"{command[0]}: no end within {LONGEST} seconds")
    return Run(ran.returncode, ran.stdout, ran.stderr.decode(errors="replace"))


def must(command: list[str], folder: pathlib.Path) -> None:
    """Runs what has nothing to do with our assembler."""
    ran = run(command, folder)
    if ran.status != 0:
        sys.exit(f"status {ran.status} of {' '.join(command)}\n{ran.said}")


def first_error(ran: Run) -> str:
    """The first message that tells of an error, or else the first line."""
    lines = ran.said.splitlines() or ["no message"]
    return next((line for line in lines if "rror: " in line), lines[0])


def fault(ours: str, gnu: str, folder: pathlib.Path) -> str | None:
    """Assembles x.s in the folder with both, links and runs. Answers what is wrong with ours."""
    assembled = run([ours, "-o", "ours.o", "x.s"], folder)
    if assembled.status != 0:
        return f"refused with status {assembled.status}: {first_error(assembled)}"
    must([gnu, "-o", "gnu.o", "x.s"], folder)
    must(["gcc", "-o", "gnu", "gnu.o", "-lm"], folder)
    linked = run(["gcc", "-o", "ours", "ours.o", "-lm"], folder)
    if linked.status != 0 or linked.said:
        return f"does not link: {first_error(linked)}"
    one, other = run(["./ours"], folder), run(["./gnu"], folder)
    if one.status != other.status:
        return f"ends with status {one.status}, and with {other.status} from GNU as"
    if one.printed != other.printed:
        lines = zip(one.printed.splitlines() + [b"nothing"], other.printed.splitlines() + [b"nothing"])
        ours_line, gnu_line = next(pair for pair in lines if pair[0] != pair[1])
        return f"prints {ours_line.decode(errors='replace')!r}, and from GNU as {gnu_line.decode(errors='replace')!r}"
    return None


def main() -> int:
    parser = argparse.ArgumentParser(description="Runs random C programs that gcc compiled and the built assembler assembled.")
    parser.add_argument("--ours", type=program, required=True, help="our program, as build/as")
    parser.add_argument("--gnu", type=program, default="/usr/bin/as", help="GNU as (default /usr/bin/as)")
    parser.add_argument("--count", metavar="N", type=int, default=100, help="how many programs (default 100)")
    parser.add_argument("--seed", metavar="N", type=int, default=1, help="the number of the first program (default 1)")
    parser.add_argument("--keep", metavar="DIR", type=pathlib.Path, help="where the programs are kept that fail; else a new folder")
    options = parser.parse_args()
    if not shutil.which("gcc"):
        print("no gcc on PATH: no program is compared")
        return 0
    kept = options.keep
    lines = failed = 0
    for number in range(options.seed, options.seed + options.count):
        text = c_program(number)
        for level in LEVELS:
            with tempfile.TemporaryDirectory() as name:
                folder = pathlib.Path(name)
                (folder / "x.c").write_text(text, encoding="ascii")
                must([*COMPILE, level, "-o", "x.s", "x.c"], folder)
                lines += (folder / "x.s").read_bytes().count(b"\n")
                found = fault(options.ours, options.gnu, folder)
                if found:
                    failed += 1
                    kept = kept or pathlib.Path(tempfile.mkdtemp(prefix="programs-"))
                    shutil.copytree(folder, kept / f"{number}{level}", dirs_exist_ok=True)
                    print(f"{kept / f'{number}{level}'}: {found}", flush=True)
    print(f"{options.count} programs at {' and '.join(LEVELS)}, {lines} lines of gcc, {failed} faults")
    return 1 if failed else 0


if __name__ == "__main__":
    sys.exit(main())
