#!/usr/bin/env python3
"""Compares what the built assembler makes of instructions in Intel syntax with what it makes of them in AT&T syntax.

    checks/intel.py --ours build/as [--gnu /usr/bin/as] [--count 100000] [--seed 1]

The lines in AT&T syntax are those of `checks/instructions.py`. Of each that the program takes and that needs no relocation, the machine's objdump shows the
bytes in Intel syntax, and the program has to make the same bytes of that text. What differs all the same KNOWN explains, and docs/COMPATIBILITY.md; or GNU as
makes other bytes of the text too, or refuses it. Prints the first lines that nothing explains, and how many lines each reason explains, and ends with 1 where
a line is not explained.
"""
import argparse
import pathlib
import random
import re
import subprocess
import sys
import tempfile
from collections import Counter

sys.dont_write_bytecode = True
from compare import ENVIRONMENT, program  # noqa: E402
from instructions import AT_ONCE, SHOWN, Answers, Maker, made_in, messages, run  # noqa: E402
from rows import TOP  # noqa: E402
from instruction_table import TableError, read_names, read_table  # noqa: E402

LABEL, SHOWN_LINE = re.compile(r"^[0-9a-f]+ <i(\d+)>:$"), re.compile(r"^ *[0-9a-f]+:\t(.*?)\s*(#.*)?$")
ABSOLUTE = re.compile(r"\bds:(0x[0-9a-f]+)")
SYNTAX = {"intel": ".intel_syntax noprefix; ", "att": ""}

# What objdump writes in another way than it is read, by a pattern of the text.
KNOWN = [
    (r"\b(stos|movs|cmps|scas|lods|xlat)[bwdq]? ", "operands of string instructions"),
    (r"\bOWORD PTR\b", "a size of 16 bytes is written XMMWORD here"),
    (r"\[rip[+-]0x", "a number as the distance from rip"),
    (r"^(data16|rex|ds|es|cs|ss|repz|repnz|addr32|notrack)\b|\beiz|\briz|<", "prefixes that stand alone, and targets"),
]


def taken(command: str, lines: dict[int, str], syntax: str, folder: pathlib.Path) -> Answers:
    """The bytes of the lines that a program takes in this syntax, which stand in `x.o` then."""
    lines = {number: SYNTAX[syntax] + line for number, line in lines.items()}
    refused = messages(command, lines, folder, AT_ONCE if command != "/usr/bin/as" else len(lines))
    left = {number: line for number, line in lines.items() if not refused.get(number) or not refused[number].error}
    if not run(command, left, folder)[0]:
        raise OSError(f"{command} refuses in one source what it takes in several")
    return made_in(folder / "x.o")


def shown(folder: pathlib.Path) -> dict[int, str]:
    """The instructions of `x.o` in Intel syntax, as objdump shows them: those that are one behind their label. An address alone stands in brackets, in place
    of the `ds:` of objdump."""
    ran = subprocess.run(["objdump", "-d", "-M", "intel", "--no-show-raw-insn", "x.o"], cwd=folder, capture_output=True, env=ENVIRONMENT, text=True, check=True)
    texts: dict[int, list[str]] = {}
    number = None
    for line in ran.stdout.splitlines():
        label, text = LABEL.match(line), SHOWN_LINE.match(line)
        if label:
            number = int(label[1])
        elif text and number is not None:
            texts.setdefault(number, []).append(text[1])
        elif not line.strip():
            number = None
    return {number: ABSOLUTE.sub(r"[\1]", own[0]) for number, own in texts.items() if len(own) == 1}


def main() -> int:
    parser = argparse.ArgumentParser(description="Compares what the built assembler makes of Intel syntax with what it makes of AT&T syntax.")
    parser.add_argument("--ours", type=program, required=True, help="our program, as build/as")
    parser.add_argument("--gnu", type=program, default="/usr/bin/as", help="GNU as (default /usr/bin/as)")
    parser.add_argument("--count", metavar="N", type=int, default=100_000, help="how many lines (default 100000)")
    parser.add_argument("--seed", metavar="N", type=int, default=1, help="where the lines come from (default 1)")
    options = parser.parse_args()
    try:
        maker = Maker(read_table(TOP / "crates/x86_table/src"), read_names(TOP / "crates/x86_lookup/src", "ATT_NAMES"), random.Random(options.seed))
        lines = {number: maker.line(number) for number in range(options.count)}
        with tempfile.TemporaryDirectory() as name:
            folder = pathlib.Path(name)
            wanted = {number: answer.code for number, answer in taken(options.ours, lines, "att", folder).items() if not answer.relocations}
            texts = {number: text for number, text in shown(folder).items() if number in wanted}
            ours = taken(options.ours, texts, "intel", folder)
            others = {number: text for number, text in texts.items() if number not in ours or ours[number].code != wanted[number]}
            gnu = taken(options.gnu, others, "intel", folder) if others else {}
    except (TableError, OSError) as fault:
        print(fault)
        return 1
    used: Counter[str] = Counter()
    unexplained = 0
    for number, text in others.items():
        reason = next((reason for pattern, reason in KNOWN if re.search(pattern, text)), "")
        if not reason and (number not in gnu or gnu[number].code != wanted[number]):
            reason = "GNU as makes other bytes of the text of objdump too, or refuses it"
        used[reason] += bool(reason)
        unexplained += not reason
        if not reason and unexplained <= SHOWN:
            print(lines[number], f"= {text}", f"> {wanted[number].hex(' ')}", f"< {ours[number].code.hex(' ') if number in ours else 'refused'}", sep="\n    ")
    for reason, times in used.items():
        if reason:
            print(f"{times:6} {reason}")
    print(f"{options.count} lines: {len(texts)} in Intel syntax, {len(texts) - len(others)} alike, {sum(used.values())} differ as is known, {unexplained} otherwise")
    return 1 if unexplained else 0


if __name__ == "__main__":
    sys.exit(main())
