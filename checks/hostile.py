#!/usr/bin/env python3
"""Hostile sources: random bytes, random tokens, and real sources with parts cut, doubled, moved and exchanged. Whatever the source, the answer is an object or a named fault.

    checks/hostile.py --ours build/as [--gnu /usr/bin/as] [--count 2000] [--seed 1] [--keep DIR]

So many sources are made of bytes and tokens, and as many of what gcc writes of `bench/programs.c` and `bench/c_programs.py`, and g++ of `bench/templates.cc` and `checks/cxx`, in both syntaxes, with debug
information, and under `--scfi=experimental`, also of functions written by hand; each from the seed and its number alone. Looked at is how our program ends: by a status from 0 to 5 within 10 seconds; with 1, by messages of the known form, and no object; with 0,
by an object of which `readelf -a` warns no more than of GNU as's, or of nothing where GNU as makes none; with at most twice the memory of GNU as and of the source, beside 16 MiB. Prints a line for each source that
is answered otherwise, and where it is kept, and how many objects of both say the same (`facts` of checks/compare.py) beside frame tables and line tables: what else they may say otherwise is in docs/COMPATIBILITY.md. Ends with 1 where an answer is wrong.
"""
import argparse
import os
import pathlib
import random
import re
import resource
import shutil
import subprocess
import sys
import tempfile
from collections import Counter
from dataclasses import dataclass

sys.dont_write_bytecode = True
from compare import ENVIRONMENT, facts, program  # noqa: E402

HERE = pathlib.Path(__file__).resolve().parent
sys.path.insert(0, str(HERE.parent / "bench"))
from c_programs import c_program  # noqa: E402

LONGEST = 10  # seconds
ROOM = 16 << 20  # bytes that a program may take whatever the source
MESSAGE = re.compile(rb"x\.s: Assembler messages:\n(?:[^\n]+:\d+: (?:Error|Warning): [^\n]*\n)+")
WORDS = [".byte", ".long", ".quad", ".uleb128", ".sleb128", ".zero", ".skip", ".fill", ".p2align", ".balign", ".org", ".text", ".data", ".bss", ".section", ".pushsection", ".popsection", ".previous",
         ".globl", ".weak", ".local", ".hidden", ".type", ".size", ".set", ".equiv", ".comm", ".lcomm", ".macro", ".endm", ".exitm", ".purgem", ".rept", ".irp", ".irpc", ".endr", ".if", ".ifdef", ".ifc",
         ".elseif", ".else", ".endif", ".include", ".err", ".error", ".warning", ".ident", ".file", ".loc", ".cfi_startproc", ".cfi_endproc", ".cfi_def_cfa", ".cfi_offset", ".cfi_remember_state",
         ".cfi_restore_state", ".intel_syntax", "noprefix", ".att_syntax", ".code64", ".string", ".ascii", "mov", "movq", "lea", "add", "jmp", "jne", "call", "ret", "push", "pop", "xchg", "lock", "rep",
         "movss", "imul", "shl", "nop", "%rax", "%ebx", "%cl", "%xmm7", "%rsp", "%rip", "rax", "dword", "ptr", "a", "b", "f", "x.y", ".Lq", "1f", "1b", "0", "1", "7", "-1", "0x7fffffff", "0xffffffffffffffff",
         "18446744073709551616", "08", "'c", "\"s\\n\"", "\"\\0\"", "\"a\"", "(", ")", "[", "]", "+", "-", "*", "/", "%", "<<", ">>", "&", "|", "^", "~", "!", "==", "&&", "||", ",", ",", ":", "=", "$", "@", "\\", "\\a", "\\@",
         "@PLT", "@GOTPCREL", "@function", "@progbits", "@nobits", "\"aw\"", "\"ax\"", "is_stmt", "discriminator", "view", ";", ";", "\n", "\n", "\n", "#", "/*", "*/", "\r\n", "\t"]
SCFI = "--scfi=experimental"


@dataclass
class Ended:
    """How a program ended: its status, below 0 by a signal or None after too long; what it said, and the most memory that it had, in bytes."""
    status: int | None
    said: bytes
    memory: int


def run(command: list[str], folder: pathlib.Path) -> Ended:
    with (folder / "said").open("wb") as said:
        child = subprocess.Popen(command, cwd=folder, stdin=subprocess.DEVNULL, stdout=said, stderr=said, env=ENVIRONMENT, preexec_fn=limits)
        _, waited, usage = os.wait4(child.pid, 0)
    child.returncode = os.waitstatus_to_exitcode(waited)
    status = None if child.returncode == -24 else child.returncode
    return Ended(status, (folder / "said").read_bytes(), usage.ru_maxrss << 10)


def limits() -> None:
    """Time ends a program by SIGXCPU, and no core is left."""
    resource.setrlimit(resource.RLIMIT_CPU, (LONGEST, LONGEST + 1))
    resource.setrlimit(resource.RLIMIT_CORE, (0, 0))


def random_bytes(rng: random.Random) -> bytes:
    kind = rng.randrange(3)
    if kind == 0:
        return rng.randbytes(rng.randrange(400))
    if kind == 1:
        return bytes(rng.choice(b"abfx.019 \t\n\n;,:()$%\"'\\#/*+-=~!<>&|@[]{}\r\x00\xff") for _ in range(rng.randrange(400)))
    return " ".join(rng.choice(WORDS) for _ in range(rng.randrange(120))).encode()


def real_sources(folder: pathlib.Path) -> list[tuple[bytes, tuple[str, ...]]]:
    """What gcc and g++ write of some programs, and functions written by hand, each with the words that it is assembled with."""
    made: list[tuple[bytes, tuple[str, ...]]] = []
    programs = [(HERE.parent / "bench" / "programs.c").read_text(encoding="utf-8"), c_program(3), c_program(8)]
    debug = ["-O2", "-g", "-gno-variable-location-views"]

    def compile(source: str, *words: str) -> bytes:
        command = ["g++", "-std=c++17", "-fno-gnu-unique"] if source.endswith(".cc") else ["gcc"]
        return subprocess.run([*command, "-S", "-w", "-mtune=nehalem", *words, "-o", "-", source], cwd=folder, capture_output=True, env=ENVIRONMENT, check=True).stdout

    for number, text in enumerate(programs):
        (folder / f"{number}.c").write_text(text, encoding="utf-8")
        for words in (["-O0"], ["-O2"], ["-O2", "-masm=intel"], debug):
            made.append((compile(f"{number}.c", *words), ()))
        made.append((compile(f"{number}.c", "-O2"), (SCFI,)))
    for name in ("bench/templates.cc", "checks/cxx/main.cc", "checks/cxx/throwing.cc"):
        for words in (["-O2"], ["-O2", "-masm=intel"], debug):
            made.append((compile(str(HERE.parent / name), *words), ()))
    made.append(((HERE / "steps.s").read_bytes(), (SCFI,)))
    made.append(((HERE.parent / "examples" / "tables.s").read_bytes(), ()))
    return made


def mutated(rng: random.Random, source: bytes) -> bytes:
    """A source, or some of its lines, of which one or a few are changed."""
    lines = source.splitlines(keepends=True)
    if rng.random() < 0.4:
        begin = rng.randrange(len(lines))
        lines = lines[begin:begin + rng.randrange(20, 800)]
    for _ in range(rng.choice([1, 1, 1, 2, 5])):
        at = rng.randrange(len(lines))
        other = rng.randrange(len(lines))
        kind = rng.randrange(7)
        if kind == 0:
            del lines[at:at + rng.randrange(1, 4)]
        elif kind == 1:
            lines.insert(at, lines[other])
        elif kind == 2:
            lines[at], lines[other] = lines[other], lines[at]
        elif kind == 3 and lines[at]:
            place = rng.randrange(len(lines[at]))
            lines[at] = lines[at][:place] + rng.randbytes(1) + lines[at][place + 1:]
        elif kind == 4:
            lines.insert(at, rng.choice(WORDS).encode() + b" " + rng.choice(WORDS).encode() + b"\n")
        elif kind == 5:
            words = re.split(rb"(\W)", lines[at])
            words[rng.randrange(len(words))] = rng.choice(WORDS).encode()
            lines[at] = b"".join(words)
        else:
            lines[at] = re.sub(rb"\d+", str(rng.choice([0, 1, 127, 128, 255, 2**31, 2**32, 2**63, 2**64])).encode(), lines[at], count=1)
        if not lines:
            return b""
    return b"".join(lines)


def warnings_of(name: str, folder: pathlib.Path) -> list[str]:
    said = subprocess.run(["readelf", "-aW", name], cwd=folder, capture_output=True, env=ENVIRONMENT, check=False).stderr.decode(errors="replace")
    return sorted(re.sub(r"0x[0-9a-f]+|\d+", "N", line).replace(name, "") for line in said.splitlines())


def own_facts(path: pathlib.Path) -> Counter[str]:
    """What an object says, but of the tables that both make in their own way."""
    return Counter({line: times for line, times in facts(path.read_bytes()).items() if ".eh_frame" not in line and ".debug_line" not in line})


def wrong(ours: str, gnu: str, words: tuple[str, ...], folder: pathlib.Path, counts: dict[str, int]) -> str | None:
    """What is wrong with the answer to x.s in the folder."""
    size = (folder / "x.s").stat().st_size
    one = run([ours, *words, "-o", "ours.o", "x.s"], folder)
    made = (folder / "ours.o").exists()
    if one.status is None or not 0 <= one.status <= 5:
        return "does not end in time" if one.status is None else f"ends with status {one.status}"
    if one.status > 1:
        return f"ends with status {one.status}"
    if (one.status == 0) != made:
        return f"ends with status {one.status}, and {'an' if made else 'no'} object"
    if (one.said or one.status == 1) and not MESSAGE.fullmatch(one.said):
        return f"says {one.said[:200]!r}"
    other = run([gnu, "-o", "gnu.o", "x.s"], folder)
    if one.memory > 2 * (other.memory + size) + ROOM:
        return f"takes {one.memory >> 20} MiB of memory, and GNU as {other.memory >> 20}"
    if one.status == 1:
        counts["refused"] += 1
        return None
    both = other.status == 0 and (folder / "gnu.o").exists()
    found = [line for line in warnings_of("ours.o", folder) if not both or line not in warnings_of("gnu.o", folder)]
    if found:
        return f"readelf says {found[0]}"
    counts["objects"] += 1
    if both and not words:
        counts["both"] += 1
        counts["alike"] += own_facts(folder / "ours.o") == own_facts(folder / "gnu.o")
    return None


def main() -> int:
    parser = argparse.ArgumentParser(description="Gives our program hostile sources.")
    parser.add_argument("--ours", type=program, required=True, help="our program, as build/as")
    parser.add_argument("--gnu", type=program, default="/usr/bin/as", help="GNU as (default /usr/bin/as)")
    parser.add_argument("--count", metavar="N", type=int, default=2000, help="how many sources of each kind (default 2000)")
    parser.add_argument("--seed", metavar="N", type=int, default=1, help="the number of the first source (default 1)")
    parser.add_argument("--keep", metavar="DIR", type=pathlib.Path, help="where the sources are kept that fail; else a new folder")
    options = parser.parse_args()
    if not all(shutil.which(name) for name in ("gcc", "g++", "readelf")):
        print("no gcc, g++ or readelf on PATH: no source is made")
        return 0
    kept, failed, counts = options.keep, 0, {"refused": 0, "objects": 0, "both": 0, "alike": 0}
    with tempfile.TemporaryDirectory() as room:
        real = real_sources(pathlib.Path(room))
    for number in range(options.seed, options.seed + options.count):
        rng = random.Random(number)
        source, words = rng.choice(real)
        for kind, text, option in (("bytes", random_bytes(rng), ()), ("real", mutated(rng, source), words)):
            with tempfile.TemporaryDirectory() as name:
                folder = pathlib.Path(name)
                (folder / "x.s").write_bytes(text)
                found = wrong(options.ours, options.gnu, option, folder, counts)
                if found:
                    failed += 1
                    kept = kept or pathlib.Path(tempfile.mkdtemp(prefix="hostile-"))
                    shutil.copytree(folder, kept / f"{number}-{kind}", dirs_exist_ok=True)
                    print(f"{kept / f'{number}-{kind}'}: {found}", flush=True)
    print(f"{2 * options.count} sources, {counts['refused']} refused, {counts['objects']} objects; of {counts['both']} that GNU as makes too {counts['alike']} say the same; {failed} wrong")
    return 1 if failed else 0


if __name__ == "__main__":
    sys.exit(main())
