#!/usr/bin/env python3
"""Line tables for debuggers: for each instruction of a compiled C source the file and the line that `llvm-dwarfdump` reads in our object are those of the object of GNU as.

    checks/lines.py --ours build/as [--gnu /usr/bin/as] [--count 20] [--seed 1] [--keep DIR] [C_FILE..]

The sources are `bench/programs.c`, random programs of `bench/c_programs.py` from the seed on, and the C files that are named (their includes are looked for beside them; a symbol of
another file has to stay open, so that none is hidden). gcc -g compiles each
at -O0 and at -O2, and clang -g, where it is there; thread-local variables are made plain ones before. Each object is linked alone, names that it lacks left open. Compared is, for each
instruction but no-operations, in their order, what the last row at or before it says. So padding is left out, since GNU as keeps a `.loc` before it for the instruction behind it, and that a
jump is near in one object alone; and so is where our object says line 0, no line at all, of which GNU as makes no row. Then `gdb` sets a breakpoint by its line in a program, prints where it
stops and its variables, and `addr2line` names lines, in both objects alike. Prints a line for each source that differs or is refused, and where it is kept. Ends with 1 where there is one.

Without gcc or llvm-dwarfdump nothing is compared.
"""
import argparse
import bisect
import pathlib
import re
import shutil
import sys
import tempfile

sys.dont_write_bytecode = True
from compare import program  # noqa: E402
from programs import first_error, must, run  # noqa: E402

HERE = pathlib.Path(__file__).resolve().parent
sys.path.insert(0, str(HERE.parent / "bench"))
from c_programs import c_program  # noqa: E402

GCC = ["gcc", "-S", "-w", "-g", "-gno-variable-location-views", "-mtune=nehalem"]
CLANG = ["clang", "-S", "-w", "-g", "-gdwarf-4", "-fno-integrated-as", "-fno-verbose-asm", "-fno-addrsig"]
LEVELS = ["-O0", "-O2"]
# A program whose lines are found by their comments.
STEPS = """#include <stdio.h>
struct point { int x, y; };
static int inner(struct point *p, int by) {
    int sum = p->x + p->y;
    sum *= by; /* here */
    return sum;
}
int outer(int n) {
    struct point at = { n, n + 1 };
    int made = 0;
    for (int i = 0; i < n; i++)
        made += inner(&at, i);
    return made;
}
int main(void) { printf("%d\\n", outer(4)); return 0; }
"""
Row = tuple[str, int]


def rows_of(linked: str, folder: pathlib.Path) -> dict[int, Row | None]:
    """What the last row at each address says where a row begins: the file and the line, or None where a sequence ends."""
    dump = must_print(["llvm-dwarfdump", "--debug-line", linked], folder)
    found: dict[int, Row | None] = {}
    ends: set[int] = set()
    for unit in re.split(r"^debug_line\[", dump, flags=re.MULTILINE)[1:]:
        folders = {int(number): name for number, name in re.findall(r'^include_directories\[ *(\d+)\] = "(.*)"$', unit, re.MULTILINE)}
        files = {int(number): pathlib.PurePosixPath(folders.get(int(folder), "")) / name
                 for number, name, folder in re.findall(r'^file_names\[ *(\d+)\]:\n +name: "(.*)"\n +dir_index: (\d+)', unit, re.MULTILINE)}
        for address, line, _, file, rest in re.findall(r"^0x([0-9a-f]{16}) +(\d+) +(\d+) +(\d+) (.*)$", unit, re.MULTILINE):
            if "end_sequence" in rest:
                ends.add(int(address, 16))
            else:
                found[int(address, 16)] = (files[int(file)].name, int(line))
    for address in ends:
        found.setdefault(address, None)
    return found


def must_print(command: list[str], folder: pathlib.Path) -> str:
    ran = run(command, folder)
    if ran.status != 0:
        sys.exit(f"status {ran.status} of {' '.join(command)}\n{ran.said}")
    return ran.printed.decode(errors="replace")


def code_of(linked: str, folder: pathlib.Path) -> list[int]:
    """The addresses of the instructions but no-operations."""
    listing = must_print(["objdump", "-d", "--no-show-raw-insn", linked], folder)
    found = re.findall(r"^ *([0-9a-f]+):\t(.*)$", listing, re.MULTILINE)
    return [int(address, 16) for address, text in found if not re.search(r"\bnop|xchg +%ax,%ax", text)]


def said_at(rows: dict[int, Row | None], addresses: list[int]) -> list[Row | None]:
    """What each of these addresses, which rise, is said to be: by the last row at or before it."""
    starts = sorted(rows)
    said: list[Row | None] = []
    for address in addresses:
        place = bisect.bisect_right(starts, address)
        said.append(rows[starts[place - 1]] if place else None)
    return said


def difference(folder: pathlib.Path) -> str | None:
    """What our object says of an instruction that GNU as's says otherwise."""
    for made in ("ours", "gnu"):
        must(["ld", "-static", "--unresolved-symbols=ignore-all", "-e", "0", "-o", made, f"{made}.o"], folder)
    code, gnu_code = sorted(code_of("ours", folder)), sorted(code_of("gnu", folder))
    if len(code) != len(gnu_code):
        return f"there are {len(code)} instructions, and {len(gnu_code)} by GNU as"
    for address, one, other in zip(code, said_at(rows_of("ours", folder), code), said_at(rows_of("gnu", folder), gnu_code)):
        if one != other and not (one and one[1] == 0):
            return f"{address:#x} is {one}, and {other} by GNU as"
    return None


def fault(ours: str, gnu: str, folder: pathlib.Path) -> str | None:
    """Assembles x.s in the folder with both. Answers what is wrong with ours."""
    assembled = run([ours, "-o", "ours.o", "x.s"], folder)
    if assembled.status != 0:
        return f"refused with status {assembled.status}: {first_error(assembled)}"
    must([gnu, "-o", "gnu.o", "x.s"], folder)
    return difference(folder)


def debugged(linker_input: str, folder: pathlib.Path) -> str:
    """What gdb and addr2line say of the program that is linked of this object, without addresses and process numbers."""
    must(["gcc", "-o", "steps", linker_input], folder)
    line = STEPS.splitlines().index("    sum *= by; /* here */") + 1
    commands = [f"break steps.c:{line}", "run", "backtrace", "info locals", "print *p", "print sum", "up", "print made", "next", "info line inner", "continue 2"]
    said = must_print(["gdb", "-q", "-batch", *(word for command in commands for word in ("-ex", command)), "./steps"], folder)
    places = must_print(["nm", "steps"], folder)
    inner = re.search(r"^([0-9a-f]+) t inner$", places, re.MULTILINE)
    assert inner is not None
    named = must_print(["addr2line", "-f", "-e", "steps", *(hex(int(inner[1], 16) + step) for step in range(40))], folder)
    return re.sub(r"process \d+", "process", said) + named


def main() -> int:
    parser = argparse.ArgumentParser(description="Compares line tables of our objects with those of GNU as.")
    parser.add_argument("--ours", type=program, required=True, help="our program, as build/as")
    parser.add_argument("--gnu", type=program, default="/usr/bin/as", help="GNU as (default /usr/bin/as)")
    parser.add_argument("--count", metavar="N", type=int, default=20, help="how many random programs (default 20)")
    parser.add_argument("--seed", metavar="N", type=int, default=1, help="the number of the first program (default 1)")
    parser.add_argument("--keep", metavar="DIR", type=pathlib.Path, help="where the sources are kept that fail; else a new folder")
    parser.add_argument("files", metavar="C_FILE", type=pathlib.Path, nargs="*", help="C files beside these")
    options = parser.parse_args()
    if not shutil.which("gcc") or not shutil.which("llvm-dwarfdump"):
        print("no gcc or no llvm-dwarfdump on PATH: nothing is compared")
        return 0
    compilers = [GCC] + ([CLANG] if shutil.which("clang") else [])
    sources = [("programs.c", (HERE.parent / "bench" / "programs.c").read_text(encoding="utf-8"), [])]
    sources += [(f"random_{number}.c", c_program(number), []) for number in range(options.seed, options.seed + options.count)]
    sources += [(file.name, file.read_text(encoding="utf-8", errors="replace"), ["-I", str(file.resolve().parent), "-Dvisibility(x)=unused"]) for file in options.files]
    kept, failed, compared, rows = options.keep, 0, 0, 0
    for name, text, includes in sources:
        for compiler in compilers:
            for level in LEVELS:
                with tempfile.TemporaryDirectory() as room:
                    folder = pathlib.Path(room)
                    (folder / name).write_text(re.sub(r"\b(?:_Thread_local|__thread)\b", "", text), encoding="utf-8")
                    compiled = run([*compiler, level, *includes, "-o", "x.s", name], folder)
                    if compiled.status != 0:
                        print(f"{name}: {compiler[0]} {level} does not compile it", flush=True)
                        continue
                    compared += 1
                    rows += len(re.findall(rb"^\t\.loc\t", (folder / "x.s").read_bytes().replace(b".loc ", b".loc\t"), re.MULTILINE))
                    found = fault(options.ours, options.gnu, folder)
                    if found:
                        failed += 1
                        kept = kept or pathlib.Path(tempfile.mkdtemp(prefix="lines-"))
                        shutil.copytree(folder, kept / f"{name}-{compiler[0]}{level}", dirs_exist_ok=True)
                        print(f"{kept / f'{name}-{compiler[0]}{level}'}: {found}", flush=True)
    if shutil.which("gdb"):
        with tempfile.TemporaryDirectory() as room:
            folder = pathlib.Path(room)
            (folder / "steps.c").write_text(STEPS, encoding="ascii")
            must([*GCC, "-O0", "-o", "x.s", "steps.c"], folder)
            must([options.ours, "-o", "ours.o", "x.s"], folder)
            must([options.gnu, "-o", "gnu.o", "x.s"], folder)
            one, other = debugged("ours.o", folder), debugged("gnu.o", folder)
            if one != other or "Breakpoint 1, inner" not in one:
                failed += 1
                print(f"gdb and addr2line:\n{one}and with GNU as:\n{other}")
    print(f"{compared} sources of C compiled, {rows} rows, {failed} faults")
    return 1 if failed else 0


if __name__ == "__main__":
    sys.exit(main())
