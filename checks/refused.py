#!/usr/bin/env python3
"""Memory that is refused: each allocation of a run is refused in turn, one number a run, and the program answers that it has no memory, says nothing and makes no object.

    checks/refused.py --ours build/as [--most 2000] [--jobs N]

The program is run with `refusing.c` before the C library. Of a source with more than so many allocations that many are tried, evenly spread, the first and the last among them. An allocation that is not missed, as
where a list is cut to its size, leaves all as without a refusal: it is shown, and counted apart. Ends with 1 where a run ends otherwise.
"""
import argparse
import os
import pathlib
import subprocess
import sys
import tempfile
from collections import Counter
from concurrent.futures import ThreadPoolExecutor

sys.dont_write_bytecode = True
HERE = pathlib.Path(__file__).resolve().parent
sys.path.insert(0, str(HERE.parent / "bench"))
from compiled import ENVIRONMENT, PROGRAMS, TEMPLATES, compiled  # noqa: E402

NO_MEMORY = 5
SCFI = "--scfi=experimental"
MACROS = """.macro frame size, save:req, clear=0
 pushq %rbp
 subq $\\size, %rsp
 movq \\save, 8(%rsp)
 .if \\clear
 xorl %eax, %eax
 .endif
 leave
.endm
.rept 20
 frame 16, %rbx
 frame 64, save=%r12, clear=1
.endr
.irp reg, rax, rcx
 push %\\reg
.endr
"""
FUNCTION = ".type f,@function\nf: push %rbp\nmov %rsp,%rbp\npush %rbx\ncall g\ntest %eax,%eax\nje 1f\nmov $1,%eax\n1: pop %rbx\npop %rbp\nret\n.size f,.-f\n"
FRAME = ".type f,@function\nf: %spush %%rbp\nmov %%rsp,%%rbp\npop %%rbp\nret\n.size f,.-f\n"
INCLUDED = "nop\n.long a, .-a\n"
SOURCES = {
    "both syntaxes": "mov 8(%rbx,%rcx,4),%rax\n.intel_syntax noprefix\nmov rax, QWORD PTR [rbx+rcx*4+8]\n",
    "two faults": "foo\nbar\n",
    "procedure": ".cfi_startproc; push %rbp; .cfi_def_cfa_offset 16; .cfi_offset 6,-16; mov %rsp,%rbp; .cfi_def_cfa_register 6; pop %rbp; .cfi_def_cfa 7,8; ret; .cfi_endproc\n",
    "included file": "a: .include \"a.inc\"\n",
    "data": ".globl a\na: .byte 1, 2\n.quad a+8, b\n.long b-a\n.section .rodata.x,\"aMS\",@progbits,1\n.string \"text\"\n.comm c,8,8\n.set d,a+4\n.uleb128 2f-1f\n1: .zero 200\n2:\n",
    "code": ".text\nf: push %rbp\nmov %rsp,%rbp\njmp 1f\n.p2align 4\n1: call g@PLT\nmovl $5,x(%rip)\nlea 8(%rax,%rcx,4),%rdx\njne f\nret\n",
    "fault": "nop\n.byte 1/0\n",
    "warning": ".byte 256\n",
    "macros": MACROS,
}


def sources() -> dict[str, tuple[str, tuple[str, ...]]]:
    """The sources, each with the words of the command line."""
    made: dict[str, tuple[str, tuple[str, ...]]] = {name: (text, ("x.s",)) for name, text in SOURCES.items()}
    made["function"] = (FUNCTION, (SCFI, "x.s"))
    made["function with a frame pointer"] = (FRAME % "", (SCFI, "x.s"))
    made["ignored directive"] = (FRAME % ".cfi_startproc; ", (SCFI, "x.s"))
    made["refused warning"] = (FRAME % ".cfi_startproc; ", (SCFI, "--fatal-warnings", "x.s"))
    made["source that the program makes"] = ("", ("--self-load", "7"))
    made["usage"] = ("", ("--no-such-option",))
    made["gcc -g"] = (compiled("-mtune=nehalem", "-g", "-gno-variable-location-views", str(PROGRAMS)), ("x.s",))
    made["gcc, tables worked out"] = (compiled("-mtune=nehalem", str(PROGRAMS)), (SCFI, "x.s"))
    made["gcc -masm=intel"] = (compiled("-mtune=nehalem", "-masm=intel", str(PROGRAMS)), ("x.s",))
    made["g++"] = (compiled("-std=c++17", "-fno-gnu-unique", "-mtune=nehalem", str(TEMPLATES), compiler="g++"), ("x.s",))
    return made


def run(program: str, words: tuple[str, ...], folder: str, refused: int) -> tuple[int, bytes, bytes | None, int]:
    """Runs the program on the source with one allocation refused, or none for 0: its status, what it said, the object, and how many allocations it asked for."""
    place = tempfile.mkdtemp(dir=folder)
    counted, made = f"{place}/counted", f"{place}/x.o"
    environment = {**ENVIRONMENT, "LD_PRELOAD": f"{folder}/refusing.so", "REFUSED": str(refused), "COUNTED": counted}
    ended = subprocess.run([program, "-o", made, *words], cwd=folder, env=environment, stdin=subprocess.DEVNULL, stdout=subprocess.PIPE, stderr=subprocess.STDOUT, check=False)
    data = pathlib.Path(made).read_bytes() if os.path.exists(made) else None
    return ended.returncode, ended.stdout, data, int(pathlib.Path(counted).read_text())


def tried(count: int, most: int) -> list[int]:
    """The numbers of the allocations that are refused."""
    return list(range(1, count + 1)) if count <= most else sorted({1 + (count - 1) * n // (most - 1) for n in range(most)})


def main() -> int:
    parser = argparse.ArgumentParser(description=__doc__, formatter_class=argparse.RawDescriptionHelpFormatter)
    parser.add_argument("--ours", required=True, help="the program")
    parser.add_argument("--most", type=int, default=2000, help="so many allocations of a source are refused at most (default 2000)")
    parser.add_argument("--jobs", type=int, default=os.cpu_count() or 1, help="so many runs at once")
    options = parser.parse_args()
    program, bad = os.path.abspath(options.ours), 0
    for name, (text, words) in sources().items():
        with tempfile.TemporaryDirectory() as folder, ThreadPoolExecutor(options.jobs) as pool:
            subprocess.run(["gcc", "-shared", "-fPIC", "-O1", "-o", f"{folder}/refusing.so", str(HERE / "refusing.c")], check=True)
            pathlib.Path(folder, "x.s").write_text(text)
            pathlib.Path(folder, "a.inc").write_text(INCLUDED)
            status, said, made, count = run(program, words, folder, 0)
            answers: Counter[str] = Counter()
            numbers = tried(count, options.most)
            for number, answer in zip(numbers, pool.map(lambda number: run(program, words, folder, number), numbers)):
                if answer[:3] == (NO_MEMORY, b"", None):
                    answers["no memory"] += 1
                elif answer[:3] == (status, said, made):
                    answers["as without"] += 1
                    print(f"     {name}: the {number}th allocation is not missed")
                else:
                    answers["otherwise"] += 1
                    print(f"bad  {name}: the {number}th allocation refused: status {answer[0]}, said {answer[1][:80]!r}, {'an object' if answer[2] is not None else 'no object'}")
            bad += answers["otherwise"]
            print(f"{'bad ' if answers['otherwise'] else 'ok  '} {name}: {len(numbers)} of {count} allocations refused: {', '.join(f'{number} {word}' for word, number in answers.items())}", flush=True)
    return 1 if bad else 0


if __name__ == "__main__":
    sys.exit(main())
