#!/usr/bin/env python3
"""Times build/as beside the machine's GNU as on large sources, and prints a table.

Both assemble each source in turn, some times over. The table has the least processor time of each, of the whole program with its reading
and writing, and the most memory that it had resident. Where a run does not exit with 0, the table says `failed`.

This is no test: it does not look at the objects, claims nothing, and ends with 0 whatever it measures, also where there is no GNU as.
"""
import argparse
import ctypes
import functools
import itertools
import os
import pathlib
import re
import shutil
import subprocess
import sys
import tempfile
from collections.abc import Callable, Iterator
from dataclasses import dataclass

sys.dont_write_bytecode = True
from compiled import ENVIRONMENT, code, cxx, debug, frames, functions, intel, programs  # noqa: E402

BUILT = pathlib.Path(__file__).resolve().parent.parent / "build" / "as"
MIB = 1 << 20
MEMORY = pathlib.Path("/dev/shm")  # where Linux keeps files in memory
MANY = 1 << 40  # bytes, more than any source has
ROOM = 1 << 30  # more than a case and its objects take, those of `space` apart


def nops() -> Iterator[str]:
    """`nop` with comments of both kinds, two statements on a line, and blank lines."""
    return itertools.cycle((
        "nop\n", "    nop\n", "\tnop\t# the rest of the line\n", "nop\n", "nop; nop\n", "nop\n", "\n", "/* a block */ nop\n", "nop\n",
        "# a line of its own\n", "\tnop\n", "nop ; nop # two statements\n", "    nop /* behind it */\n", "nop\n", "\n", "\tnop\n",
    ))


def byte_lists() -> Iterator[str]:
    """`.byte` with 16 numbers, decimal and hexadecimal, and a character now and then."""
    state = 1
    while True:
        operands = []
        for _ in range(16):
            state = (state * 1103515245 + 12345) % (1 << 31)
            number, form = state >> 16 & 255, state >> 24 & 7
            is_character = form == 0 and ord("a") <= number <= ord("z")
            operands.append(f"'{number:c}" if is_character else str(number) if form < 4 else hex(number))
        yield f"\t.byte {', '.join(operands)}\n"


def expressions() -> Iterator[str]:
    """`.byte` with four constant expressions, and now and then `.ascii` with two strings."""
    state = 1
    while True:
        numbers = []
        for _ in range(12):
            state = (state * 1103515245 + 12345) % (1 << 31)
            numbers.append(state >> 16 & 255)
        a, b, c, d, e, f, g, h, i, j, k, m = numbers
        yield f"\t.byte ({a}+{b})/2, {c}*{d}&255, -({e}-{f})&{g}|{h}, {i}>{j}\n"
        if m < 32:
            yield f'\t.ascii "string {k}\\n", "{j:x}"\n'


def data() -> Iterator[str]:
    """One item a line: numbers of each size, space, and strings; and now and then another section."""
    state = 1
    sections = itertools.cycle((".data", ".text", ".section .rodata"))
    while True:
        state = (state * 1103515245 + 12345) % (1 << 31)
        number, form = state >> 8 & 0xffff, state >> 24 & 15
        yield (f"\t.long {number}\n", f"\t.quad {number}\n", f"\t.byte {number & 255}\n", f"\t.short {number}\n", f"\t.long {number:#x}\n",
               f"\t.zero {1 + (number & 15)}\n", f'\t.string "text {number}"\n', f"\t.int -{number}\n")[form & 7]
        if number < 64:
            yield f"\t{next(sections)}\n"


def jumps() -> Iterator[str]:
    """Jumps back and forth over one another, 400 between two labels: most of them are near."""
    for n in itertools.count():
        yield f".La{n}:\n" + f"\tjmp\t.La{n}\n\tjne\t.Lb{n}\n" * 200 + f".Lb{n}:\n"


def cascade() -> Iterator[str]:
    """8,000 jumps, each over 125 bytes and the next jump, so that it is short until that one is near; the last one is near at once."""
    steps = [f"\tjmp\t.L{n}\n.L{n - 1}:\n\t.zero\t125\n" for n in range(1, 7999)]
    return itertools.repeat("".join(["\tjmp\t.L0\n\t.zero\t125\n", *steps, "\tjmp\t.L7999\n.L7998:\n\t.zero\t128\n.L7999:\n"]))


def symbols() -> Iterator[str]:
    """A function with its type and size, a local label, a distance, and an assigned number, in turn: a new symbol every other line or so."""
    for n in itertools.count():
        yield f"\t.globl function_{n}\n\t.type function_{n},@function\nfunction_{n}:\n\tnop\n.Lend_{n}:\n\tret\n"
        yield f"\t.size function_{n},.-function_{n}\n\t.set number_{n},{n}*2\n\t.long .Lend_{n}-function_{n}, number_{n}\n1:\t.byte 1b-function_{n}\n"


def relocations() -> Iterator[str]:
    """Data that the linker has to work out: pointers to labels of this file and of others, and distances to them, two a label."""
    for n in itertools.count():
        yield f"label_{n}:\t.quad label_{n >> 1}+8, outside_{n & 1023}\n\t.long outside_{n & 1023}-label_{n}\n"


def distances() -> Iterator[str]:
    """Data of three operands: a distance and a number, within a section and to a symbol of another object."""
    yield "\t.data\nhere:\t.byte 1\nthere:\t.byte 2\n"
    for n in itertools.count():
        yield f"\t.long there-here+{n & 1023}, outside-here+{n & 1023}\n"


def fills() -> Iterator[str]:
    """`.zero` and `.fill` of 1 to 4,096 bytes."""
    state = 1
    while True:
        state = (state * 1103515245 + 12345) % (1 << 31)
        size, value = 1 + (state >> 8 & 4095), state >> 24 & 127
        yield f"\t.zero {size}\n" if value < 64 else f"\t.fill {(size + 3) // 4}, 4, {value}\n"


def alignments() -> Iterator[str]:
    """Code that is aligned as gcc aligns loops and functions."""
    yield "\t.text\n"
    while True:
        yield "\tret\n\t.p2align 4\n\tnop\n\t.p2align 4,,10\n\t.p2align 3\n"


def leb128() -> Iterator[str]:
    """Distances in groups of seven bits over space that ends in an alignment."""
    for n in itertools.count():
        yield f".LB{n}:\n\t.zero {n % 200}\n\t.p2align 3\n.LE{n}:\t.uleb128 .LE{n}-.LB{n}\n"


def sections() -> Iterator[str]:
    """Sections of three lines each."""
    for n in itertools.count():
        yield f'\t.section .text.function_{n},"ax",@progbits\n\tnop\n\tret\n'


def groups() -> Iterator[str]:
    """Groups of two sections each."""
    for n in itertools.count():
        yield f'\t.section .text.f{n},"axG",@progbits,f{n},comdat\n\t.weak f{n}\nf{n}:\tret\n'
        yield f'\t.section .rodata.f{n},"aG",@progbits,f{n},comdat\n\t.byte 1\n'


def chain() -> Iterator[str]:
    """Assigned symbols, each by the one before it; the first by a symbol of another object."""
    for n in itertools.count():
        yield f"\t.set link_{n + 1}, link_{n} + 1\n"


def chain_back() -> Iterator[str]:
    """Assigned symbols, each by the one that is assigned behind it."""
    for n in itertools.count():
        yield f"\t.set link_{n}, link_{n + 1} + 1\n"


def late_chain() -> Iterator[str]:
    """16,000 assigned symbols, each by the one that is assigned behind it; the last is a label."""
    yield "".join(f"\t.set link_{n}, link_{n + 1} + 1\n" for n in range(15_999)) + "link_15999:\n"
    yield from itertools.repeat("# \n")


def sums() -> Iterator[str]:
    """Assigned symbols, each the sum of the next two, which are assigned later."""
    for n in itertools.count():
        yield f"\t.set sum_{n}, sum_{n + 1} + sum_{n + 2}\n"


def calls() -> Iterator[str]:
    """Calls of macros that call others, with arguments, conditions, and values that a name goes through."""
    yield (".macro store value, to=x, wide=0\n\t.if \\wide\n\tmovq $\\value, \\to(%rip)\n\t.else\n\tmovl $\\value, \\to(%rip)\n\t.endif\n.endm\n"
           ".macro pair first, second:req, to=x\n\tstore \\first, \\to\n\tstore \\second, \\to, 1\n"
           "\t.irp reg, rax, rcx\n\tpush %\\reg\n\t.endr\n.endm\n")
    for n in itertools.count():
        yield f"\tpair {n % 100}, {n % 77}\n\tpair second={n % 50}, first=1, to=y\n"


def macros() -> Iterator[str]:
    """Calls of a macro of eight statements, two of which are conditional."""
    yield (".macro frame size, save:req, clear=0\n\tpushq %rbp\n\tmovq %rsp, %rbp\n\tsubq $\\size, %rsp\n\tmovq \\save, 8(%rsp)\n"
           "\t.if \\clear\n\txorl %eax, %eax\n\t.endif\n\tleave\n.endm\n")
    for n in itertools.count():
        yield f"\tframe {16 + n % 50 * 8}, %rbx\n\tframe 64, save=%r12, clear=1\n"


def load_text(functions: int) -> Iterator[str]:
    """The text of `--self-load`: small functions, each with a call of the next one, a branch over it, and a repeat."""
    yield ".text\n"
    for n in range(functions):
        yield (f".type f{n},@function\nf{n}: push %rbp\nmov %rsp,%rbp\npush %rbx\nmov %edi,%ebx\ntest %ebx,%ebx\nje 1f\ncall f{(n + 1) % functions}\n"
               f".rept {(5 * n + functions) % 28}\nmov $4096,%eax\n.endr\n1: pop %rbx\npop %rbp\nret\n.size f{n},.-f{n}\n")


def empty() -> Iterator[str]:
    """No statement at all."""
    return itertools.repeat("# \n")


def copies() -> Iterator[str]:
    """Half a million copies of two instructions, the rest of the lines in comments."""
    yield "\t.rept 500000\n\taddl $1, %eax\n\tmovl %eax, 8(%rdi)\n\t.endr\n"
    yield from itertools.repeat("# \n")


def zeros() -> Iterator[str]:
    """Four million copies of a byte."""
    yield "\t.rept 4000000\n\t.byte 0\n\t.endr\n"
    yield from itertools.repeat("# \n")


def unlettered() -> Iterator[str]:
    """Instructions as people write them, without a letter for their size, half a million of them by `.rept`; the rest of the lines in comments."""
    yield "\t.rept 125000\n\tadd $1, %rax\n\tmov %rsp, %rbp\n\tpush %rbx\n\tlea 8(%rax), %rcx\n\t.endr\n"
    yield from itertools.repeat("# \n")


def cancelling() -> Iterator[str]:
    """Two expressions of numbers a line, in the first of which a name cancels."""
    yield "\t.data\n.L0:\n"
    yield from itertools.repeat("\t.long (7 + 3) * 4 - (.L0 - .L0) | 1 << 3, 7 == 3 || 7 > 2\n")


def assigned() -> Iterator[str]:
    """Symbols that are assigned by `=`, each by the one before it and a number."""
    yield "link_0 = 1\n"
    for n in itertools.count():
        yield f"link_{n + 1} = link_{n}+1\n"


def unsigned_numbers() -> Iterator[str]:
    """A number in groups of seven bits a line, as tables of exceptions and debug information have them."""
    for n in itertools.count():
        yield f"\t.uleb128 {n * 37 % 20000}\n"


def signed_numbers() -> Iterator[str]:
    """The same with a sign."""
    for n in itertools.count():
        yield f"\t.sleb128 -{n * 37 % 20000}\n"


def byte_lines() -> Iterator[str]:
    """A byte a line."""
    for n in itertools.count():
        yield f"\t.byte {n * 37 % 256}\n"


def loc() -> Iterator[str]:
    """An instruction and a row of the line table in turn."""
    yield '\t.file 1 "loc.c"\n'
    for n in itertools.count():
        yield f"\tnop\n\t.loc 1 {n * 37 % 20000 + 1} {n % 50}\n"


def space() -> Iterator[str]:
    """Sections that are one fill of 1 GiB each."""
    for n in itertools.count():
        yield f"\t.section .data.space_{n},\"aw\"\n\t.zero 1073741824\n"


# Each function yields lines without end, the same ones at each run; its name begins those of its cases. The first have so many MiB,
# the others so many lines.
SOURCES_OF_TEXT: list[Callable[[], Iterator[str]]] = [nops, byte_lists, expressions, symbols]
SIZES_IN_MIB = [1, 4, 16]
SIZES_IN_LINES = [10_000, 100_000, 1_000_000]
SOURCES_OF_LINES: list[tuple[Callable[[], Iterator[str]], list[int]]] = [
    (code, SIZES_IN_LINES), (functions, SIZES_IN_LINES), (frames, [100_000]), (intel, [100_000]), (programs, SIZES_IN_LINES), (data, SIZES_IN_LINES), (relocations, SIZES_IN_LINES),
    (distances, [100_000]), (fills, [100_000]), (alignments, [100_000]), (jumps, [400_000]), (cascade, [10_000]), (leb128, [64_000]), (sections, [60_000]), (groups, [50_000]), (cxx, [100_000, 1_000_000]),
    (chain, [20_000]), (chain_back, [20_000]), (late_chain, [16_000]), (sums, [10_000]), (calls, [20_000]), (macros, [40_000]), (copies, [4]), (zeros, [3]),
    (unlettered, [6]), (cancelling, [300_000]), (assigned, [100_000]), (unsigned_numbers, [300_000]), (signed_numbers, [300_000]), (byte_lines, [300_000]), (debug, [100_000, 1_000_000]), (loc, [1_000_000]),
    (empty, [1]), (space, [16]),
]
# Texts of `--self-load` of so many functions.
LOADS = [1_000, 10_000, 100_000]
SYNTHESIS = "--scfi=experimental"
SOURCES_OF_GCC = [code, functions, frames, intel, programs, debug, cxx]


@dataclass
class Size:
    """Of a source, in bytes and lines."""
    bytes: int = 0
    lines: int = 0


@dataclass
class Case:
    """What is assembled: lines until the file has at least this size, or all of them; and the words before its name, or in place of it."""
    lines: Callable[[], Iterator[str]]
    least: Size
    options: tuple[str, ...] = ()
    instead: tuple[str, ...] = ()


def write_source(name: str, lines: Iterator[str], least: Size) -> Size:
    """Writes lines until the file has at least this size, or all of them. Answers the size that it has."""
    size = Size()
    with open(name, "w", encoding="ascii") as source:
        for line in lines:
            size.bytes += source.write(line)
            size.lines += line.count("\n")
            if size.bytes >= least.bytes and size.lines >= least.lines:
                break
    return size


@dataclass
class Measured:
    """The least processor time and the most memory of some runs; or the word that stands for both in the table, and why."""
    seconds: float = float("inf")
    memory: float = 0.0
    instead: str = ""
    reason: str = ""

    def shown(self, number: float, digits: int) -> str:
        return self.instead or f"{number:.{digits}f}"


def start(command: list[str]) -> int:
    """Starts a program in the current directory, with what it says in the file `messages`. Answers its process."""
    streams = [(os.POSIX_SPAWN_OPEN, 1, "messages", os.O_WRONLY | os.O_CREAT | os.O_TRUNC, 0o600), (os.POSIX_SPAWN_DUP2, 1, 2)]
    return os.posix_spawn(command[0], command, ENVIRONMENT, file_actions=streams)


def run_once(command: list[str], measured: Measured, for_memory: bool) -> None:
    """Runs a program for its time or its memory. Memory counts from what the parent has, and Python has much: so a small shell starts
    the program and ends, and the program, an orphan, becomes a child of this process."""
    if for_memory:
        os.waitpid(start(["/bin/sh", "-c", '"$@" &', "sh", *command]), 0)
        _, status, usage = os.wait4(-1, 0)
        measured.memory = usage.ru_maxrss / 1024
    else:
        _, status, usage = os.wait4(start(command), 0)
        measured.seconds = min(measured.seconds, usage.ru_utime + usage.ru_stime)
    if status != 0:
        said = pathlib.Path("messages").read_text(errors="replace").splitlines()
        first = next((line for line in said if not line.endswith("Assembler messages:")), "no message")
        measured.instead, measured.reason = "failed", f"status {os.waitstatus_to_exitcode(status)}, {first}"


def measure(name: str, case: Case, gnu: str | None, runs: int) -> tuple[Measured, Measured]:
    """Runs build/as and GNU as in turn on a source, and once more for the memory. One that failed is not run again."""
    ours, theirs = Measured(), Measured(instead="" if gnu else "-")
    words = case.instead or (*case.options, name)
    programs = [([str(BUILT), *words], "a.out", ours), ([str(gnu), *case.options, "-o", "gnu.o", name], "gnu.o", theirs)]
    for for_memory in [False] * runs + [True]:
        for command, output, measured in programs:
            if not measured.instead:
                pathlib.Path(output).unlink(missing_ok=True)
                run_once(command, measured, for_memory)
    return ours, theirs


def find_gnu() -> tuple[str | None, str]:
    """The first GNU as on PATH and the first line of its version. Any other `as`, such as this one installed, is passed over."""
    for folder in os.get_exec_path():
        if path := shutil.which("as", path=os.path.abspath(folder)):
            answer = subprocess.run([path, "--version"], stdin=subprocess.DEVNULL, capture_output=True, env=ENVIRONMENT, check=False)
            if answer.stdout.startswith(b"GNU assembler"):
                return path, answer.stdout.decode(errors="replace").splitlines()[0]
    return None, "no GNU as on PATH, so build/as is timed alone"


def memory_folder() -> str | None:
    """Where files are kept in memory, if there is room: then no disk shows in the times."""
    return str(MEMORY) if os.access(MEMORY, os.W_OK) and shutil.disk_usage(MEMORY).free >= ROOM else None


def row_of(name: str, size: Size, ours: Measured, theirs: Measured) -> list[str]:
    ratio = "-" if ours.instead or theirs.instead else f"{ours.seconds / max(theirs.seconds, 1e-6):.2f}"
    times = [ours.shown(ours.seconds, 3), ours.shown(ours.seconds / size.lines * 1e9, 0), theirs.shown(theirs.seconds, 3), ratio]
    return [name, f"{size.bytes / MIB:.1f}", f"{size.lines}", *times, ours.shown(ours.memory, 1), theirs.shown(theirs.memory, 1)]


def print_table(rows: list[list[str]], markdown: bool) -> None:
    header = ["case", "MiB", "lines", "build/as s", "build/as ns/line", "GNU as s", "build/as / GNU as", "build/as memory", "GNU as memory"]
    widths = [max(map(len, column)) for column in zip(header, *rows)]
    rule = [["-" * widths[0]] + ["-" * (width - 1) + ":" for width in widths[1:]]] if markdown else []
    for row in [header] + rule + rows:
        cells = [row[0].ljust(widths[0])] + [cell.rjust(width) for cell, width in zip(row[1:], widths[1:])]
        print(f"| {' | '.join(cells)} |" if markdown else "  ".join(cells))


def main() -> None:
    parser = argparse.ArgumentParser(description="Times build/as beside the machine's GNU as. It claims nothing.")
    parser.add_argument("--only", metavar="WORD", default="", help="the cases that have WORD in their name")
    parser.add_argument("--runs", metavar="N", type=int, default=5, help="how often each runs on a case (default 5)")
    parser.add_argument("--markdown", action="store_true", help="print the table as Markdown")
    options = parser.parse_args()
    cases = {f"{source.__name__}-{mib}M": Case(source, Size(bytes=mib * MIB)) for source in SOURCES_OF_TEXT for mib in SIZES_IN_MIB}
    cases |= {f"{source.__name__}-{lines}": Case(source, Size(lines=lines)) for source, sizes in SOURCES_OF_LINES for lines in sizes}
    for functions in LOADS:
        text, whole = functools.partial(load_text, functions), Size(bytes=MANY)
        cases[f"load-{functions}"] = Case(text, whole)
        cases[f"load_scfi-{functions}"] = Case(text, whole, (SYNTHESIS,))
        cases[f"self_load-{functions}"] = Case(text, whole, (SYNTHESIS,), ("--self-load", str(functions)))
    chosen = {name: case for name, case in cases.items() if options.only in name}
    if options.runs < 1 or not chosen or not BUILT.exists():
        parser.error(f"build/as is built first, N is at least 1, and WORD stands in one of: {', '.join(cases)}")
    without_gcc = [name for name, case in chosen.items() if case.lines in SOURCES_OF_GCC and not shutil.which("g++" if case.lines is cxx else "gcc")]
    for name in without_gcc:
        del chosen[name]
    gnu, version = find_gnu()
    print(f"{version}\nleast of {options.runs} processor times, memory in MiB\n", flush=True)
    ctypes.CDLL(None).prctl(36, 1, 0, 0, 0)  # PR_SET_CHILD_SUBREAPER: orphans become children of this process
    rows, reasons = [], [f"{name} is left out: no compiler on PATH" for name in without_gcc]
    for name, case in chosen.items():
        # `space` writes 8 GiB.
        with tempfile.TemporaryDirectory(dir=None if case.lines is space else memory_folder()) as folder:
            os.chdir(folder)
            size = write_source(f"{name}.s", case.lines(), case.least)
            ours, theirs = measure(f"{name}.s", case, gnu, options.runs)
            os.chdir("/")
        rows.append(row_of(name, size, ours, theirs))
        reasons += [f"{who} failed: {it.reason}" for who, it in (("build/as", ours), ("GNU as", theirs)) if it.reason]
    print_table(rows, options.markdown)
    print("", *reasons, sep="\n")


if __name__ == "__main__":
    main()
