#!/usr/bin/env python3
"""Compares what the rows of the instruction table say with what objdump reads.

    checks/rows.py [--table crates/x86_table/src] [--objdump objdump]

For each row bytes are made by the Intel manual (volume 2, chapter 2), for many registers, addresses, immediates and each prefix word that it admits. objdump
reads all of them, once in AT&T and once in Intel syntax. Its AT&T text and the length that it takes must be those that the row says; the text is made from
the row's name, size and operands alone, and no byte. Its Intel text must give the size of the memory operand. Where objdump 2.40 writes otherwise what means
the same, KNOWN says why. A row with memory or registers alone must not have its name with the other. No two rows may make the same bytes. Prints the rows that
differ, and ends with 1 where one does, or where a reason explains nothing.

Not compared: what a row writes, prefix words that it could admit and does not, and whether an immediate has to be known.
"""
import argparse
import os
import pathlib
import re
import subprocess
import sys
import tempfile
from collections import Counter
from collections.abc import Callable, Iterator
from dataclasses import dataclass

sys.dont_write_bytecode = True
TOP = pathlib.Path(__file__).resolve().parent.parent
sys.path.insert(0, str(TOP / "tools"))
from instruction_table import ESCAPES, WIDTHS, Row, TableError, read_table  # noqa: E402

ENVIRONMENT = {**os.environ, "LC_ALL": "C"}
SHOWN_ROWS, SHOWN_CASES = 20, 3
ALL = 1 << 64


# ---- What stands in an instruction

@dataclass(frozen=True)
class Register:
    """A register, by its class and number. A `High` one is ah, ch, dh or bh, by 4 to 7."""
    kind: str
    number: int


@dataclass(frozen=True)
class Memory:
    """An address. `base` is a number, `rip` or none; `width` is that of the displacement in bytes; `has_sib` says that a SIB byte stands without need."""
    base: int | str | None = None
    index: int | None = None
    scale: int = 1
    width: int = 4
    displacement: int = 0
    segment: str = ""
    has_sib: bool = False


@dataclass(frozen=True)
class Number:
    """The signed number that the field of an immediate or of a distance holds."""
    field: int


@dataclass(frozen=True)
class Case:
    """An instruction of a row: its operands, in the order of the row, and the word before it. A register that the row fixes, and a 1, is `None`."""
    row: Row
    operands: tuple[Register | Memory | Number | None, ...]
    word: str = ""

    def memory(self) -> Memory | None:
        return next((operand for operand in self.operands if isinstance(operand, Memory)), None)

    def of(self, kind: str) -> Register | Memory | Number | None:
        """What stands for the operand of this kind."""
        return next((operand for operand, said in zip(self.operands, self.row.operands) if said.kind == kind), None)


# ---- Its bytes (Intel SDM, volume 2, sections 2.1 and 2.2)

WORD_BYTES = {"": b"", "lock": b"\xf0", "rep": b"\xf3", "repe": b"\xf3", "repne": b"\xf2", "notrack": b"\x3e"}
SEGMENT_BYTES = {"": b"", "fs": b"\x64", "gs": b"\x65"}


def address_bytes(reg: int, place: Register | Memory) -> bytes:
    """ModRM, SIB and displacement."""
    middle = reg % 8 * 8
    if isinstance(place, Register):
        return bytes([0xc0 + middle + place.number % 8])
    displacement = (place.displacement % (1 << 8 * place.width)).to_bytes(place.width, "little") if place.width else b""
    if place.base == "rip":
        return bytes([middle + 5]) + displacement
    index = 4 if place.index is None else place.index % 8
    sib = {1: 0, 2: 0x40, 4: 0x80, 8: 0xc0}[place.scale] + index * 8
    if place.base is None:
        return bytes([middle + 4, sib + 5]) + displacement
    mode = {0: 0, 1: 0x40, 4: 0x80}[place.width]
    if place.index is not None or place.has_sib or place.base % 8 == 4:
        return bytes([mode + middle + 4, sib + place.base % 8]) + displacement
    return bytes([mode + middle + place.base % 8]) + displacement


def bytes_of(case: Case) -> bytes | None:
    """The bytes of an instruction. There are none where a register of its operands wants REX and another forbids it."""
    row = case.row
    low, reg, place = case.of("Low"), case.of("Reg"), case.of("RegMem")
    named = [operand for operand in case.operands if isinstance(operand, Register)]
    rex = 8 * row.rex_w
    if reg:
        rex += 4 * (reg.number > 7)
    if isinstance(place, Memory):
        rex += 2 * ((place.index or 0) > 7) + (isinstance(place.base, int) and place.base > 7)
    for register in (low, place):
        if isinstance(register, Register):
            rex += register.number > 7
    wants_rex = rex or any(register.kind == "Byte" and 4 <= register.number < 8 for register in named)
    if wants_rex and any(register.kind == "High" for register in named):
        return None
    parts = [WORD_BYTES[case.word] if case.word == "notrack" else SEGMENT_BYTES[place.segment] if isinstance(place, Memory) else b""]
    parts.append(b"\x66" if row.has_66 else b"")
    parts.append({"Absent": b"", "F2": b"\xf2", "F3": b"\xf3"}[row.repeat])
    parts.append(WORD_BYTES[case.word] if case.word != "notrack" else b"")
    parts.append(bytes([0x40 + rex]) if wants_rex else b"")
    parts.append(ESCAPES[row.map] + bytes([row.code + (low.number % 8 if low else 0)]))
    if row.shape in ("Digit", "Slash"):
        parts.append(address_bytes(reg.number if reg else row.digit, place))
    elif row.shape == "Fixed":
        parts.append(bytes([row.digit]))
    number = case.of("Immediate") or case.of("Target")
    if number:
        width = WIDTHS[row.immediate]
        parts.append((number.field % (1 << 8 * width)).to_bytes(width, "little"))
    return b"".join(parts)


# ---- Its text in AT&T syntax

SUFFIXES = {8: "b", 16: "w", 32: "l", 64: "q"}
FULL_NAMES = {"MOVSXD": "movslq", "CBW": "cbtw", "CWDE": "cwtl", "CDQE": "cltq", "CWD": "cwtd", "CDQ": "cltd", "CQO": "cqto"}
STEMS = {"MOVZX_BYTE": "movzb", "MOVZX_WORD": "movzw", "MOVSX_BYTE": "movsb", "MOVSX_WORD": "movsw"}
CONDITIONS = "O NO B AE E NE BE A S NS P NP L GE LE G".split()


def att_name(row: Row) -> str:
    """The name of a row, with the letter of its operand size where it has one."""
    return FULL_NAMES.get(row.name) or STEMS.get(row.name, row.name.lower()) + SUFFIXES.get(row.size, "")


WORD_NAMES = "ax cx dx bx sp bp si di".split()
REGISTER_NAMES = {
    "Byte": "al cl dl bl spl bpl sil dil".split() + [f"r{number}b" for number in range(8, 16)],
    "High": ["", "", "", "", "ah", "ch", "dh", "bh"],
    "Word": WORD_NAMES + [f"r{number}w" for number in range(8, 16)],
    "Long": ["e" + name for name in WORD_NAMES] + [f"r{number}d" for number in range(8, 16)],
    "Quad": ["r" + name for name in WORD_NAMES] + [f"r{number}" for number in range(8, 16)],
    "Xmm": [f"xmm{number}" for number in range(16)],
}


def register_name(kind: str, number: int) -> str:
    return "%" + REGISTER_NAMES[kind][number]


def address_text(memory: Memory) -> str:
    """An address as objdump writes it: without registers a number of 64 bits, else one with a sign, also where it is 0; `riz` is the index of a SIB byte that
    has none and need not stand."""
    before = f"%{memory.segment}:" if memory.segment else ""
    if memory.base is None and memory.index is None:
        return f"{before}{memory.displacement % ALL:#x}"
    before += f"{memory.displacement:#x}" if memory.width else ""
    base = "" if memory.base is None else "%rip" if memory.base == "rip" else register_name("Quad", memory.base)
    index = f",{register_name('Quad', memory.index)},{memory.scale}" if memory.index is not None else ",%riz,1" if memory.has_sib else ""
    return f"{before}({base}{index})"


# Of how many bits an immediate is shown.
SHOWN_BITS = {"Byte": 8, "Count": 8, "Sext16": 16, "Word": 16, "Sext32": 32, "Long": 32, "Sext64": 64, "LongSext": 64, "Quad": 64}


def operand_text(case: Case, number: int, end: int) -> str:
    """An operand. `end` is the address behind the instruction."""
    said, operand, row = case.row.operands[number], case.operands[number], case.row
    if said.kind == "Cl":
        return "%cl"
    if said.kind == "One":
        return "$0x1"
    if said.kind == "Accumulator":
        return register_name(said.register, 0)
    if isinstance(operand, Register):
        kind = "High" if (said.register, operand.kind) == ("Byte", "High") else said.register
        return register_name(kind, operand.number)
    if isinstance(operand, Memory):
        return address_text(operand)
    if said.kind == "Target":
        return f"{(end + operand.field) % ALL:#x}"
    return f"${operand.field % (1 << SHOWN_BITS[row.immediate]):#x}"


def text_of(case: Case, end: int) -> str:
    """The text of an instruction, with the address of a rip operand as a comment."""
    row = case.row
    operands = [operand_text(case, number, end) for number in reversed(range(len(case.operands)))]
    if row.name in ("CALL", "JMP") and row.operands[0].kind == "RegMem":
        operands[0] = "*" + operands[0]
    memory = case.memory()
    comment = f" # {(end + memory.displacement) % ALL:#x}" if memory and memory.base == "rip" else ""
    return " ".join(filter(None, [case.word, att_name(row), ",".join(operands)])) + comment


# ---- Where objdump writes otherwise what means the same

Test = Callable[[Case], bool]
Turn = Callable[[str, Case], str]


@dataclass(frozen=True)
class Known:
    """What objdump writes otherwise: in which rows, in which of their instructions, how, and why."""
    names: list[str]
    applies: Test
    turn: Turn
    reason: str


def between_registers(first: str, second: str) -> Test:
    """Whether the operands are of these two kinds, by a row whose ModRM.rm may be a register or memory, and it is a register."""
    return lambda case: [said.kind for said in case.row.operands] == [first, second] and isinstance(case.of("RegMem"), Register)


def has(kind: str) -> Test:
    return lambda case: case.row.operand(kind) is not None


def low_is_first(case: Case) -> bool:
    return case.row.size == 64 and case.of("Low") == Register("Quad", 0)


def has_word(word: str) -> Test:
    return lambda case: case.word == word


def is_predicate(case: Case) -> bool:
    return 0 <= case.of("Immediate").field < 8


def always(_: Case) -> bool:
    return True


def renamed(old: str, new: str) -> Turn:
    """The word otherwise; {} is the name of the row, and {1} all of it but its last letter."""
    def turn(text: str, case: Case) -> str:
        name = att_name(case.row)
        return re.sub(rf"\b{old.format(name)}(?= |$)", new.format(name, name[:-1]), text, count=1)
    return turn


def exchanged(text: str, _: Case) -> str:
    """The two registers in the other order."""
    name, operands = text.split(" ")
    return f"{name} {','.join(reversed(operands.split(',')))}"


def with_operands(operands: str) -> Turn:
    """Operands that the row does not have; {} is the accumulator."""
    return lambda text, case: f"{text} {operands.format(register_name({8: 'Byte', 16: 'Word', 32: 'Long', 64: 'Quad'}[case.row.size], 0))}"


def without(operand: str) -> Turn:
    return lambda text, case: text.replace(operand, "", 1)


def with_predicate(text: str, case: Case) -> str:
    """The comparison in the name."""
    number = case.of("Immediate").field
    return f"cmp{['eq', 'lt', 'le', 'unord', 'neq', 'nlt', 'nle', 'ord'][number]}{text[3:]}".replace(f"${number:#x},", "", 1)


SHIFTS_AND_ROTATIONS = ["ROL", "ROR", "RCL", "RCR", "SHL", "SHR", "SAR"]
LOADS = ["MOVUPS", "MOVUPD", "MOVSS", "MOVSD", "MOVAPS", "MOVAPD", "MOVDQA", "MOVDQU"]
TO_INTEGERS = ["CVTTSS2SI", "CVTTSD2SI", "CVTSS2SI", "CVTSD2SI"]

KNOWN = [
    Known(["ADD", "OR", "ADC", "SBB", "AND", "SUB", "XOR", "CMP", "MOV"], between_registers("Reg", "RegMem"), renamed("{}", "{}.s"),
          "of two registers, marks the bytes that GNU as does not choose"),
    Known(LOADS, between_registers("RegMem", "Reg"), renamed("{}", "{}.s"), "of two xmm registers, marks the bytes that GNU as does not choose"),
    Known(["MOVQ"], lambda case: between_registers("RegMem", "Reg")(case) and case.row.code == 0xd6, renamed("{}", "{}.s"),
          "movq of two xmm registers: marks the bytes that GNU as does not choose"),
    Known(["XCHG"], has("Low"), exchanged, "xchg with the accumulator: puts the accumulator last in Intel order"),
    Known(["XCHG"], low_is_first, lambda text, case: "rex.W nop", "xchg %rax,%rax by 90: has no name of its own for REX.W before nop"),
    Known(SHIFTS_AND_ROTATIONS, has("One"), without("$0x1,"), "shifts by 1: leaves the 1 out"),
    Known(["BSWAP"], always, renamed("{}", "{1}"), "bswap: the register alone says the size"),
    Known([f"SET{condition}" for condition in CONDITIONS], always, renamed("{}", "{1}"), "setCC: there is one size"),
    Known(["JMP"], lambda case: case.row.immediate == "Short", renamed("{}", "{1}"), "jmp by 8 bits: there is one size"),
    Known([f"J{condition}" for condition in CONDITIONS], has("Target"), renamed("{}", "{1}"), "jCC: there is one size"),
    Known(["JRCXZ"], has("Target"), renamed("{}", "{1}"), "jrcxz: there is one size"),
    Known(TO_INTEGERS, always, renamed("{}", "{1}"), "conversions to integers: the register alone says the size"),
    Known(["MOVS"], always, with_operands("%ds:(%rsi),%es:(%rdi)"), "movs: writes the addresses that the name says"),
    Known(["CMPS"], always, with_operands("%es:(%rdi),%ds:(%rsi)"), "cmps: writes the addresses that the name says"),
    Known(["STOS"], always, with_operands("{},%es:(%rdi)"), "stos: writes the address and the accumulator that the name says"),
    Known(["LODS"], always, with_operands("%ds:(%rsi),{}"), "lods: writes the address and the accumulator that the name says"),
    Known(["SCAS"], always, with_operands("%es:(%rdi),{}"), "scas: writes the address and the accumulator that the name says"),
    Known(["CMPS", "SCAS"], has_word("repe"), renamed("repe", "repz"), "repe: its other name"),
    Known(["CMPS", "SCAS"], has_word("repne"), renamed("repne", "repnz"), "repne: its other name"),
    Known(["CMPPS", "CMPPD", "CMPSS", "CMPSD"], is_predicate, with_predicate, "comparisons of floats: puts the numbers 0 to 7 into the name"),
    Known(["PBLENDVB", "BLENDVPS", "BLENDVPD"], always, lambda text, case: text.replace(" ", " %xmm0,", 1),
          "blends by a mask: writes the xmm0 that the name says"),
    Known(["PCMPESTRM", "PCMPESTRI"], always, renamed("{}", "{}l"), "comparisons of strings with lengths: writes the letter of the lengths' size"),
]


# ---- Instructions of a row

def registers(kind: str) -> list[Register]:
    """All registers of a class, with ah to bh among those of 8 bits."""
    return [Register(kind, number) for number in range(16)] + [Register("High", number) for number in range(4, 8) if kind == "Byte"]


def addresses() -> list[Memory]:
    """Addresses of each form."""
    bases = [Memory(base, width=0 if base % 8 != 5 else 1) for base in range(16)]
    bases += [Memory(base, width=1, displacement=(base * 17 + 1) % 256 - 128) for base in range(16)]
    bases += [Memory(base, width=4, displacement=(0x12345678 * base + 0x80) % (1 << 32) - (1 << 31)) for base in range(16)]
    bases += [Memory(3, width=width, displacement=value) for width, value in ((1, 0), (1, 127), (1, -128), (4, 0), (4, 1), (4, (1 << 31) - 1), (4, -1 << 31))]
    fixed = [Memory("rip", displacement=value) for value in (0, 1, 0x12345678, -7, -1 << 31)]
    fixed += [Memory(displacement=value) for value in (0, 0x12345678, -0x70000000)]
    scales = [1, 2, 4, 8]
    indexed = [Memory((index + 3) % 16, index, scales[index % 4], 1, index - 8) for index in range(16) if index != 4]
    indexed += [Memory(base, index, scale, width, -3 if width else 0) for base, index in ((0, 1), (4, 5), (9, 2), (6, 12), (15, 8))
                for scale, width in zip(scales, (0, 1, 4, 0))]
    indexed += [Memory(None, index, scale, 4, 0x1000 * index - 0x5000) for index in (0, 5, 12, 15) for scale in scales]
    segments = [Memory(None, displacement=-8, segment="fs"), Memory(None, displacement=0x28, segment="gs"), Memory(0, width=0, segment="fs"),
                Memory(12, width=1, displacement=4, segment="gs"), Memory("rip", displacement=9, segment="fs"), Memory(5, 9, 8, 4, 0x345, "gs")]
    needless = [Memory(base, width=width, displacement=width, has_sib=True) for base, width in ((0, 0), (8, 1), (5, 1), (7, 4))]
    return bases + fixed + indexed + segments + needless


ADDRESSES = addresses()
FIELDS = {1: [0, 1, 7, 0x42, 0x7f, -0x80, -1], 2: [0, 1, 0x80, 0x1234, 0x7fff, -0x8000, -1], 4: [0, 1, 0x80, 0x12345678, 0x7fffffff, -0x80000000, -1],
          8: [0, 1, 0x80, 0x123456789abcdef0, (1 << 63) - 1, -1 << 63, -1]}
WORDS = {"Absent": [], "Lock": ["lock"], "Rep": ["rep"], "Repe": ["repe", "repne"], "Notrack": ["notrack"]}
SHIFTS = [0, 1, 5, 8, 11]  # how far apart two registers are in the lists of their classes


def choices(row: Row) -> Iterator[tuple[Register | Memory | None, Register | None, Register | None]]:
    """What stands by ModRM.rm, by ModRM.reg and in the opcode."""
    by_reg, by_rm, low = row.operand("Reg"), row.operand("RegMem"), row.operand("Low")
    if low:
        yield from ((None, None, register) for register in registers(low.register) if row.shape == "Low" or register.number)
    elif not by_rm:
        yield None, None, None
    else:
        others = registers(by_reg.register) if by_reg else [None]
        if row.rm != "Memory":
            for shift in SHIFTS if by_reg else [0]:
                yield from ((register, others[(at + shift) % len(others)], None) for at, register in enumerate(registers(by_rm.register)))
        if row.rm != "Register":
            for turn in range(2 if by_reg else 1):
                yield from ((address, others[(at * 3 + turn * 7) % len(others)], None) for at, address in enumerate(ADDRESSES))


def cases_of(row: Row) -> Iterator[Case]:
    """Instructions of a row. Each number stands with one of the choices at least."""
    chosen = list(choices(row))
    fields = FIELDS.get(WIDTHS[row.immediate], [0])
    chosen = [chosen[at % len(chosen)] for at in range(max(len(chosen), len(fields)))]
    for at, (place, reg, low) in enumerate(chosen):
        by_kind = {"RegMem": place, "Reg": reg, "Low": low, "Immediate": Number(fields[at % len(fields)]), "Target": Number(fields[at % len(fields)])}
        operands = tuple(by_kind.get(operand.kind) for operand in row.operands)
        yield Case(row, operands)
        for word in WORDS[row.words]:
            if not (word == "lock" and not isinstance(place, Memory) or word == "notrack" and isinstance(place, Memory) and place.segment):
                yield Case(row, operands, word)


def beyond(row: Row) -> Iterator[Case]:
    """An instruction with memory where the row has registers alone, or the other way round. Its bytes are no instruction of this name."""
    if row.rm != "Any":
        place = Register("Xmm", 1) if row.rm == "Memory" else Memory(0, width=0)
        by_kind = {"RegMem": place, "Reg": Register("Xmm", 0), "Immediate": Number(0)}
        yield Case(row, tuple(by_kind.get(operand.kind) for operand in row.operands))


# ---- objdump

# No-operations behind each instruction, so that one read too long does not reach into the next.
PAD = bytes.fromhex("6666666666662e0f1f840000000000")


@dataclass(frozen=True)
class Read:
    """What objdump reads at a place: how many bytes, and the text."""
    length: int
    text: str


def read_by(objdump: str, syntax: str, path: pathlib.Path) -> dict[int, Read]:
    """What objdump reads, by the places."""
    command = [objdump, "-D", "-z", "-w", "-b", "binary", "-m", "i386:x86-64", "-M", syntax, str(path)]
    said = subprocess.run(command, capture_output=True, text=True, check=True, env=ENVIRONMENT).stdout
    lines = re.findall(r"^ *([0-9a-f]+):\t([0-9a-f ]+?) *\t(.*)$", said, re.MULTILINE)
    return {int(place, 16): Read(len(read.split()), " ".join(text.split())) for place, read, text in lines}


@dataclass(frozen=True)
class Made:
    """The bytes of an instruction, with their place in the file. `is_beyond` says that the row does not have it."""
    place: int
    case: Case
    code: bytes
    is_beyond: bool


def make(rows: list[Row], found: dict[Row, list[str]]) -> list[Made]:
    """The instructions of all rows. Puts into `found` which rows have none, or some that another row has."""
    made: list[Made] = []
    rows_by_bytes: dict[bytes, Row] = {}
    place = 0
    for row in rows:
        before = len(made)
        for case, is_beyond in [(case, False) for case in cases_of(row)] + [(case, True) for case in beyond(row)]:
            code = bytes_of(case)
            if code is None:
                continue
            other = row if is_beyond else rows_by_bytes.setdefault(code, row)
            if other is not row:
                found[row].append(f"{code.hex(' ')} are bytes of the row at {other.place} too")
            made.append(Made(place, case, code, is_beyond))
            place += len(code) + len(PAD)
        if len(made) == before:
            found[row].append("it makes no bytes")
    return made


PREFETCHES = ["PREFETCHNTA", "PREFETCHT0", "PREFETCHT1", "PREFETCHT2"]  # Their memory has no size that counts; objdump says a byte.
POINTERS = {"BYTE": 1, "WORD": 2, "DWORD": 4, "QWORD": 8, "XMMWORD": 16, "OWORD": 16}


def expected(case: Case, end: int, used: Counter[int]) -> str:
    """The text that objdump should write, with what is known of it."""
    text = text_of(case, end)
    for number, known in enumerate(KNOWN):
        if case.row.name in known.names and known.applies(case):
            used[number] += 1
            text = known.turn(text, case)
    return text


def differences(made: Made, att: dict[int, Read], intel: dict[int, Read], used: Counter[int]) -> Iterator[str]:
    """What objdump reads otherwise."""
    place, case, code = made.place, made.case, made.code
    found = att.get(place, Read(0, "nothing"))
    if made.is_beyond:
        if found.text.startswith(att_name(case.row) + " ") and "(bad)" not in found.text:
            yield f"{code.hex(' ')}: the row has no such operand, objdump reads `{found.text}`"
        return
    text = expected(case, place + len(code), used)
    if found.text != text:
        yield f"{code.hex(' ')}: the row says `{text}`, objdump `{found.text}`"
    if found.length != len(code):
        yield f"{code.hex(' ')}: of {len(code)} bytes objdump takes {found.length}"
    if case.memory():
        size = case.row.operand("RegMem").memory
        shown = {POINTERS.get(word, word) for word in re.findall(r"(\w+) PTR", intel.get(place, Read(0, "")).text)}
        if shown != ({size} if size else {1} if case.row.name in PREFETCHES else set()):
            yield f"{code.hex(' ')}: the row's memory has {size} bytes, objdump says {shown or 'no size'}"


def main() -> int:
    parser = argparse.ArgumentParser(description="Compares what the rows of the instruction table say with what objdump reads.")
    parser.add_argument("--table", metavar="DIR", type=pathlib.Path, default=TOP / "crates/x86_table/src", help="where the table stands")
    parser.add_argument("--objdump", default="objdump", help="objdump of GNU binutils (default objdump)")
    options = parser.parse_args()
    try:
        rows = read_table(options.table)
    except (TableError, OSError) as fault:
        print(fault)
        return 1
    found: dict[Row, list[str]] = {row: [] for row in rows}
    made = make(rows, found)
    with tempfile.TemporaryDirectory() as folder:
        path = pathlib.Path(folder, "rows")
        path.write_bytes(b"".join(one.code + PAD for one in made))
        try:
            att, intel = read_by(options.objdump, "att-mnemonic,suffix", path), read_by(options.objdump, "intel", path)
        except (OSError, subprocess.CalledProcessError) as fault:
            print(fault)
            return 1
    used: Counter[int] = Counter()
    for one in made:
        found[one.case.row] += differences(one, att, intel, used)
    differing = [(row, lines) for row, lines in found.items() if lines]
    for row, lines in differing[:SHOWN_ROWS]:
        more = [f"... and {len(lines) - SHOWN_CASES} more"] if len(lines) > SHOWN_CASES else []
        print(f"{row.place}: {row.text}", *lines[:SHOWN_CASES], *more, sep="\n    ")
    idle = [known.reason for number, known in enumerate(KNOWN) if not used[number]]
    for reason in idle:
        print(f"explains nothing: {reason}")
    otherwise = f"{sum(used.values())} changes by {len(KNOWN)} known reasons"
    print(f"{len(rows)} rows, {len(made)} instructions, {otherwise}, {len(differing)} rows differ")
    return 1 if differing or idle else 0


if __name__ == "__main__":
    sys.exit(main())
