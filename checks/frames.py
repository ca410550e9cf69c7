#!/usr/bin/env python3
"""Frame tables of C programs: what they say at each place, beside those of GNU as, and what libgcc finds by them.

    checks/frames.py --ours build/as [--gnu /usr/bin/as] [--count 100] [--seed 1] [--sources DIR ..] [--keep DIR]

gcc compiles the programs of `bench/c_programs.py` from the seed on, at -O0 and at -O2, in AT&T and in Intel syntax, with the tables for unwinding that it
makes by itself. Both assemblers take what it writes as it is. Compared are the rows of all entries as `readelf --debug-dump=frames-interp` has them: from which
place on they hold, the CFA, and the rule of each register. GNU as may have more common entries, so bytes are not compared. Where it lays out a text in another way (over an
alignment a jump may be shorter), the rows are compared without their places. Then `checks/backtrace.c` is
assembled, linked and run, and prints what it prints where GNU as assembled it: who called whom, as libgcc's unwinder finds it.
Last the programs are compiled without jump tables, cold parts and sibling calls, and our assembler works the tables out without gcc's directives
(`--scfi=experimental`). At each instruction the frame address and the slots of registers are those of gcc's table, where both tell them by the same registers.
So are, with `--sources`, the C files of these folders at -O2, as those of zlib, bzip2 and Lua; one that gcc does not take is passed over.
Prints a line for each difference, and where it is kept, and ends with 1 where there is one. A source in Intel syntax that uses `ds:`, or
that GNU as refuses, is passed over.

Without gcc or readelf nothing is compared.
"""
import argparse
import pathlib
import re
import shutil
import sys
import tempfile

sys.dont_write_bytecode = True
from compare import program  # noqa: E402
from programs import c_program, first_error, must, run  # noqa: E402

COMPILE = ["gcc", "-S", "-w", "-g0", "-mtune=nehalem"]
WAYS = [["-O0"], ["-O2"], ["-O0", "-masm=intel"], ["-O2", "-masm=intel"]]
PLAIN = ["-fno-jump-tables", "-fno-reorder-blocks-and-partition", "-fno-optimize-sibling-calls"]
PLAIN_WAYS = [["-O0", *PLAIN], ["-O2", *PLAIN]]
HERE = pathlib.Path(__file__).resolve().parent
ENTRY = re.compile(r"^[0-9a-f]+ [0-9a-f]+ [0-9a-f]+ FDE cie=[0-9a-f]+ pc=([0-9a-f]+)\.\.([0-9a-f]+)")
ROW = re.compile(r"^([0-9a-f]{16}) (.*)$")
INSTRUCTION = re.compile(r"^ *([0-9a-f]+):\t", re.MULTILINE)
DIRECTIVE = re.compile(r"^\t\.cfi_.*\n", re.MULTILINE)

# The row of the common entry.
COMMON = ("0", "rsp+8", "ra=c-8")

# GNU as refuses the text: words of Intel syntax, as `near`, are no names of functions there.
PASSED_OVER = "GNU as refuses it"

Rows = dict[tuple[str, str, int], list[tuple[str, ...]]]


def rows_of(told: str) -> Rows:
    """The rows of each entry, by its range (several sections may have one range): each that says something else than the one before it."""
    entries: Rows = {}
    rows, names = None, []
    for line in told.splitlines():
        entry, row = ENTRY.match(line), ROW.match(line)
        if entry:
            key = (entry[1], entry[2], sum(1 for other in entries if other[:2] == (entry[1], entry[2])))
            rows = entries[key] = []
        elif "CIE" in line:
            rows = None
        elif line.strip().startswith("LOC"):
            names = line.split()[2:]
        elif row and rows is not None:
            cfa, *rules = row[2].split()
            said = (cfa, *sorted(f"{name}={rule}" for name, rule in zip(names, rules) if rule != "u"))
            if not rows or rows[-1][1:] != said:
                rows.append((row[1], *said))
    return entries


def frames_of(name: str, folder: pathlib.Path) -> Rows:
    """The rows of the frame table of an object."""
    told = run(["readelf", "-W", "--debug-dump=frames-interp", name], folder)
    if told.status != 0:
        sys.exit(f"readelf: {told.said}")
    return rows_of(told.printed.decode())


def code_of(name: str, folder: pathlib.Path) -> bytes:
    """The instructions of an object with their places."""
    return run(["objdump", "-d", name], folder).printed.partition(b"Disassembly")[2]


def fault(ours: str, gnu: str, folder: pathlib.Path) -> str | None:
    """Assembles x.s in the folder with both. Answers what is wrong with our frame table."""
    assembled = run([ours, "-o", "ours.o", "x.s"], folder)
    if assembled.status != 0:
        return f"refused with status {assembled.status}: {first_error(assembled)}"
    if run([gnu, "-o", "gnu.o", "x.s"], folder).status != 0:
        return PASSED_OVER
    one, other = frames_of("ours.o", folder), frames_of("gnu.o", folder)
    if one == other:
        return None
    if len(one) != len(other):
        return f"has {len(one)} entries of procedures, and from GNU as {len(other)}"
    if code_of("ours.o", folder) == code_of("gnu.o", folder):
        key = next(key for key in one if one[key] != other.get(key))
        return f"the procedure {key[0]}..{key[1]} has the rows {one[key]}, and from GNU as {other.get(key)}"
    for (key, rows), theirs in zip(one.items(), other.values()):
        if [row[1:] for row in rows] != [row[1:] for row in theirs]:
            return f"the procedure {key[0]}..{key[1]} has the rows {rows}, and from GNU as {theirs}"
    return None


def backtrace_fault(ours: str, gnu: str, way: list[str], folder: pathlib.Path) -> str | None:
    """What is wrong with what libgcc finds by our frame tables of `backtrace.c`."""
    must([*COMPILE, *way, "-o", "x.s", str(HERE / "backtrace.c")], folder)
    found = fault(ours, gnu, folder)
    if found:
        return found
    printed = []
    for name in ("ours", "gnu"):
        must(["gcc", "-o", name, f"{name}.o"], folder)
        ran = run([f"./{name}"], folder)
        printed.append((ran.status, ran.printed))
    if printed[0] != printed[1]:
        return f"libgcc finds {printed[0]}, and by GNU as {printed[1]}"
    return None if b"3 main" in printed[0][1] else f"libgcc finds no way to main: {printed[0]}"


class Worked:
    """What came of tables that were worked out: instructions compared, those whose frame address is told by another register, and sources refused."""

    def __init__(self) -> None:
        self.sources = self.instructions = self.others = self.refused = 0

    def fault(self, ours: str, folder: pathlib.Path) -> str | None:
        """Assembles x.s in the folder with its directives and without them. Answers what is wrong with the table that is worked out."""
        text = (folder / "x.s").read_text(encoding="ascii")
        (folder / "y.s").write_text(DIRECTIVE.sub("", text), encoding="ascii")
        must([ours, "-o", "written.o", "x.s"], folder)
        self.sources += 1
        assembled = run([ours, "--scfi=experimental", "-o", "worked.o", "y.s"], folder)
        if assembled.status != 0:
            self.refused += 1
            return None if "SCFI: " in first_error(assembled) else f"refused without its directives: {first_error(assembled)}"
        code = code_of("written.o", folder)
        if code != code_of("worked.o", folder):
            return "has other code without its directives"
        places = [int(place, 16) for place in INSTRUCTION.findall(code.decode())]
        written, worked = frames_of("written.o", folder), frames_of("worked.o", folder)
        return next(filter(None, (self.rows_fault(key, rows, worked.get(key), places) for key, rows in written.items())), None)

    def said(self) -> str:
        """All of it, in one line."""
        return f"{self.sources} sources without directives: {self.instructions} instructions, {self.others} of them with the frame address by another register, {self.refused} refused"

    def rows_fault(self, key: tuple[str, str, int], written: list[tuple[str, ...]], worked: list[tuple[str, ...]] | None, places: list[int]) -> str | None:
        """What is wrong with the rows of a procedure, at its instructions."""
        if worked is None:
            return f"has no entry {key[0]}..{key[1]} without its directives"
        for place in places:
            if not int(key[0], 16) <= place < int(key[1], 16):
                continue
            # readelf shows no row where an entry has none but that of the common entry.
            one, other = (next((row for row in reversed(rows) if int(row[0], 16) <= place), COMMON) for rows in (written, worked))
            self.instructions += 1
            if one[1].partition("+")[0] != other[1].partition("+")[0]:
                self.others += 1
            elif one[1] != other[1]:
                return f"the procedure {key[0]}..{key[1]} has the frame address {other[1]} at {place:x}, and by its directives {one[1]}"
            slots, theirs = (dict(rule.split("=") for rule in row[2:]) for row in (other, one))
            wrong = [name for name in slots if slots[name] != theirs.get(name, slots[name])]
            if wrong:
                return f"the procedure {key[0]}..{key[1]} has {wrong[0]} at {slots[wrong[0]]} at {place:x}, and by its directives at {theirs[wrong[0]]}"
        return None


class Kept:
    """Where sources are kept that differ, and how many they are."""

    def __init__(self, folder: pathlib.Path | None) -> None:
        self.folder, self.failed = folder, 0

    def keep(self, name: str, folder: pathlib.Path, found: str) -> None:
        """Keeps what is in the folder, and prints what was found."""
        self.failed += 1
        self.folder = self.folder or pathlib.Path(tempfile.mkdtemp(prefix="frames-"))
        place = self.folder / name
        shutil.copytree(folder, place, dirs_exist_ok=True)
        print(f"{place}: {found}", flush=True)


def compare_sources(ours: str, sources: list[pathlib.Path], kept: Kept) -> None:
    """Tables of the C files of these folders that are worked out, beside gcc's own."""
    worked = Worked()
    for source in (file for folder in sources for file in sorted(folder.resolve().glob("*.c"))):
        with tempfile.TemporaryDirectory() as name:
            folder = pathlib.Path(name)
            words = ["-O2", *PLAIN, f"-I{source.parent}", "-DLUA_USE_LINUX", "-D_FILE_OFFSET_BITS=64"]
            if run([*COMPILE, *words, "-o", "x.s", str(source)], folder).status != 0:
                continue
            if found := worked.fault(ours, folder):
                kept.keep(source.name, folder, found)
    if sources:
        print(f"the C files of {len(sources)} folders: {worked.said()}")


def main() -> int:
    parser = argparse.ArgumentParser(description="Compares frame tables of C programs with those of GNU as.")
    parser.add_argument("--ours", type=program, required=True, help="our program, as build/as")
    parser.add_argument("--gnu", type=program, default="/usr/bin/as", help="GNU as (default /usr/bin/as)")
    parser.add_argument("--count", metavar="N", type=int, default=100, help="how many programs (default 100)")
    parser.add_argument("--seed", metavar="N", type=int, default=1, help="the number of the first program (default 1)")
    parser.add_argument("--sources", metavar="DIR", type=pathlib.Path, nargs="*", default=[], help="folders of C files, compiled without directives too")
    parser.add_argument("--keep", metavar="DIR", type=pathlib.Path, help="where the sources are kept that differ; else a new folder")
    options = parser.parse_args()
    if not shutil.which("gcc") or not shutil.which("readelf"):
        print("no gcc or no readelf on PATH: nothing is compared")
        return 0
    kept = Kept(options.keep)
    entries = passed_over = 0
    worked = Worked()
    ways = [(number, way) for number in range(options.seed - 1, options.seed + options.count) for way in WAYS]
    ways += [(number, way) for number in range(options.seed, options.seed + options.count) for way in PLAIN_WAYS]
    for number, way in ways:
        with tempfile.TemporaryDirectory() as name:
            folder = pathlib.Path(name)
            if number < options.seed:
                found = backtrace_fault(options.ours, options.gnu, way, folder)
            else:
                (folder / "x.c").write_text(c_program(number), encoding="ascii")
                must([*COMPILE, *way, "-o", "x.s", "x.c"], folder)
                text = (folder / "x.s").read_text(encoding="ascii")
                if "-masm=intel" in way and re.search(r"\bds:", text):
                    passed_over += 1
                    continue
                if way in PLAIN_WAYS:
                    found = worked.fault(options.ours, folder)
                else:
                    entries += text.count(".cfi_startproc")
                    found = fault(options.ours, options.gnu, folder)
            if found == PASSED_OVER:
                passed_over += 1
            elif found:
                kept.keep(f"{number}{''.join(way)}", folder, found)
    print(f"{options.count} programs and a backtrace, in {len(WAYS)} ways: {entries} procedures, {passed_over} sources passed over, {kept.failed} faults")
    print(worked.said())
    compare_sources(options.ours, options.sources, kept)
    return 1 if kept.failed else 0


if __name__ == "__main__":
    sys.exit(main())
