#!/usr/bin/env python3
"""Writes docs/INSTRUCTIONS.md from the instruction table.

    tools/instructions.py [--check] [--table crates/x86_table/src] [--names crates/x86_lookup/src] [--document docs/INSTRUCTIONS.md]

With `--check` nothing is written: ends with 1 where the document is not what the table gives.
"""
import argparse
import pathlib
import sys
from collections import defaultdict

sys.dont_write_bytecode = True
from instruction_table import BITS, ESCAPES, Name, Operand, Row, TableError, read_names, read_table  # noqa: E402

TOP = pathlib.Path(__file__).resolve().parent.parent

INTRODUCTION = """\
# Instructions

Forms of instructions: all {count} rows of the table in crate `x86_table`, of which `tools/instructions.py` writes this
document. `docs/LANGUAGE.md` says which of them a source may have. Of the forms that take an instruction the shortest counts,
and of equally short ones the first.

- *Bytes*, as the Intel manual writes them (volume 2, section 3.1.1). `/r` is a ModRM byte with a register and a
  register or memory, `/0` to `/7` one with that digit; `+rb +rw +rd +ro` a register in the opcode's low bits; `ib iw id
  io` an immediate of 1, 2, 4 or 8 bytes, `cb cd` a distance of 1 or 4. REX is also there where a register needs it.
- *Instruction*: name and operands in the manual's words. `m` is memory whose size does not count. An `imm8` beside
  which the same instruction has an `imm16` or `imm32` is sign-extended, and so is the `imm32` of 64-bit operands.
- *AT&T*: its names there, with the operands in the other order. Names that have several sizes are given with the
  letter of the size, `b w l q`. It may be left out where a register says the size, but for the strings, and is `l`
  where it is left out of `cvtsi2ss` and `cvtsi2sd` of memory; a name of one size may have its letter too. Extensions
  are also `movzx` and `movsx`, whose letter is that of the source, and `movzb` and `movzw`. A shift of one operand is
  by 1, and `shld` and `shrd` of two operands are by `%cl`.
- *Words* that may precede it; `lock` where its first operand is memory.
- *Writes*: the operands and registers that it writes beside flags, and what it stores that no operand shows. With a
  repeat prefix it writes rcx too. What `call` and `ret` do to the stack does not count.
"""

REGISTER_NAMES = {"Byte": "r8", "Word": "r16", "Long": "r32", "Quad": "r64", "Xmm": "xmm"}
ACCUMULATORS = {"Byte": "al", "Word": "ax", "Long": "eax", "Quad": "rax"}
IMMEDIATES = {"Byte": "imm8", "Count": "imm8", "Sext16": "imm8", "Sext32": "imm8", "Sext64": "imm8", "Word": "imm16", "Long": "imm32", "LongSext": "imm32",
              "Quad": "imm64", "Rel8": "rel8", "Short": "rel8", "Rel32": "rel32"}
FIELDS = {"imm8": "ib", "imm16": "iw", "imm32": "id", "imm64": "io", "rel8": "cb", "rel32": "cd"}
STRINGS = ["MOVS", "CMPS", "STOS", "LODS", "SCAS"]
INTEL_LETTERS = {8: "b", 16: "w", 32: "d", 64: "q"}
WORDS = {"Absent": "", "Lock": "lock", "Rep": "rep", "Repe": "repe repz, repne repnz", "Notrack": "notrack"}
IMPLIED = {"Absent": [], "Rax": ["rax"], "Rcx": ["rcx"], "Rdx": ["rdx"], "Rsp": ["rsp"], "Rdi": ["rdi"], "RaxRdx": ["rax", "rdx"], "RaxRsi": ["rax", "rsi"],
           "RsiRdi": ["rsi", "rdi"], "RspRbp": ["rsp", "rbp"], "RaxRcxR11": ["rax", "rcx", "r11"], "RaxRbxRcxRdx": ["rax", "rbx", "rcx", "rdx"],
           "Xmm0": ["xmm0"]}
STORES = {"Absent": "", "Operand": "", "BitString": "or the memory of the bit", "PushQuad": "8 bytes of the stack", "PushWord": "2 bytes of the stack",
          "Unfixed": "memory"}


def bytes_text(row: Row) -> str:
    """The bytes as the manual writes them."""
    parts = ["66"] * row.has_66 + [row.repeat] * (row.repeat != "Absent") + ["REX.W"] * row.rex_w + [f"{byte:02X}" for byte in ESCAPES[row.map]]
    code = f"{row.code:02X}"
    if low := row.operand("Low"):
        code += {"Byte": "+rb", "Word": "+rw", "Long": "+rd", "Quad": "+ro"}[low.register]
    parts.append(code)
    parts += {"Slash": ["/r"], "Digit": [f"/{row.digit}"], "Fixed": [f"{row.digit:02X}"]}.get(row.shape, [])
    parts += [FIELDS[IMMEDIATES[row.immediate]]] if row.immediate != "Absent" else []
    return " ".join(parts)


def operand_text(row: Row, operand: Operand) -> str:
    """An operand in the manual's words. Two xmm registers are numbered."""
    name = REGISTER_NAMES.get(operand.register, "")
    xmm = [other for other in row.operands if other.register == "Xmm" and not (other.kind == "RegMem" and row.rm == "Memory")]
    if operand in xmm and len(xmm) > 1:
        name += str(1 + xmm.index(operand))
    if operand.kind == "RegMem":
        bits = 8 * operand.memory
        memory = f"m{bits}" if bits else "m"
        if row.rm == "Register":
            return name
        if row.rm == "Memory":
            return memory
        return f"r/m{bits}" if operand.register != "Xmm" and bits == BITS[operand.register] else f"{name}/{memory}"
    if operand.kind == "Accumulator":
        return ACCUMULATORS[operand.register]
    if operand.kind in ("Cl", "One"):
        return {"Cl": "cl", "One": "1"}[operand.kind]
    if operand.kind in ("Immediate", "Target"):
        return IMMEDIATES[row.immediate]
    return name + (" but eax" if row.shape == "LowNotFirst" else "")


def intel_text(row: Row) -> str:
    """The instruction in Intel syntax."""
    name = row.name.lower().split("_")[0]
    if row.name in STRINGS:
        name += INTEL_LETTERS[row.size]
    return " ".join([name, ", ".join(operand_text(row, operand) for operand in row.operands)]).strip()


def att_names(row: Row, sizes: set[int], names: list[Name]) -> str:
    """The names in AT&T syntax of a row whose name has rows of these sizes: those that fix its size, and those without a size where there is one size, or no
    name fixes it."""
    own = [name for name in names if name.row == row.name and name.size in (0, row.size)]
    fixed = [name for name in own if name.size or row.size == 0]
    if (row.name, row.size) == ("MOV", 64):
        fixed += [name for name in names if name.rule == "OrMove"]
    told = [f"`{name.text}`" for name in (own if len(sizes) == 1 or not fixed else fixed)]
    if row.name == "MOVQ" and row.operand("RegMem").register == "Quad":
        told += [f"`{name.text}` (of a register)" for name in names if name.rule == "QuadIsMovq"]
    if not told:
        raise TableError(f"{row.place} has no name in AT&T syntax: {row.text}")
    return " ".join(told)


def written_text(row: Row) -> str:
    """What it writes."""
    count = {"Nothing": 0, "First": 1, "FirstAndSecond": 2}[row.destinations]
    parts = [operand_text(row, operand).removesuffix(" but eax") for operand in row.operands[:count]] + IMPLIED[row.implied]
    return ", ".join(filter(None, parts + [STORES[row.store]]))


def document(rows: list[Row], names: list[Name]) -> str:
    """The whole document."""
    sizes: dict[str, set[int]] = defaultdict(set)
    chapters: dict[str, list[Row]] = defaultdict(list)
    for row in rows:
        sizes[row.name].add(row.size)
        chapters[row.chapter].append(row)
    lines = [INTRODUCTION.format(count=len(rows))]
    for chapter, inside in chapters.items():
        lines += [f"## {chapter}\n", "| Bytes | Instruction | AT&T | Words | Writes |", "|---|---|---|---|---|"]
        for row in inside:
            att = att_names(row, sizes[row.name], names)
            lines.append(f"| `{bytes_text(row)}` | `{intel_text(row)}` | {att} | {WORDS[row.words]} | {written_text(row)} |")
        lines.append("")
    return "\n".join(lines)[:-1] + "\n"


def main() -> int:
    parser = argparse.ArgumentParser(description="Writes docs/INSTRUCTIONS.md from the instruction table.")
    parser.add_argument("--check", action="store_true", help="write nothing, and end with 1 where the document is not what the table gives")
    parser.add_argument("--table", metavar="DIR", type=pathlib.Path, default=TOP / "crates/x86_table/src", help="where the table stands")
    parser.add_argument("--names", metavar="DIR", type=pathlib.Path, default=TOP / "crates/x86_lookup/src", help="where the mnemonics stand")
    parser.add_argument("--document", metavar="FILE", type=pathlib.Path, default=TOP / "docs/INSTRUCTIONS.md", help="the document")
    options = parser.parse_args()
    try:
        text = document(read_table(options.table), read_names(options.names, "ATT_NAMES"))
        if not options.check:
            options.document.write_text(text)
        elif options.document.read_text() != text:
            print(f"{options.document} is not what the table gives: run tools/instructions.py")
            return 1
    except (TableError, OSError) as fault:
        print(fault)
        return 1
    return 0


if __name__ == "__main__":
    sys.exit(main())
