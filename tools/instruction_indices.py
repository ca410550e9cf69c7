#!/usr/bin/env python3
"""Writes what is found by the instruction table and its mnemonics: where the rows of a name stand, where the mnemonics stand by the hashes of their texts, the
codes of those that stand without operands, the keys of the rows, and the rows of each opcode.

    tools/instruction_indices.py [--check] [--crates crates]

With `--check` nothing is written: ends with 1 where a file is not what the table gives. That each of these is right is proved when its crate is checked (the
rows of a range are those of the name, a mnemonic is found by its slot, a code and a key are those of the row, a row stands at each of its opcodes); this saves
the writing by hand when the table changes.
"""
import argparse
import pathlib
import sys

sys.dont_write_bytecode = True
from instruction_table import ESCAPES, WIDTHS, Name, Operand, Row, TableError, read_names, read_table  # noqa: E402

TOP = pathlib.Path(__file__).resolve().parent.parent
WIDTH = 100

# ---- Where the rows of a name stand

SIZES = [0, 8, 16, 32, 64]
SPANS_HEAD = """\
//! Where the rows of each name stand in the table.

/// The rows of a name: the index of the first, and where those end that have no size, and those of 8, 16,
/// 32 and 64 bits.
#[derive(Clone, Copy)]
pub struct Span {
    pub first: u16,
    pub sizeless_end: u16,
    pub byte_end: u16,
    pub word_end: u16,
    pub long_end: u16,
    pub quad_end: u16,
}

/// Spans, a line each.
macro_rules! spans {
    ($($first:literal $sizeless:literal $byte:literal $word:literal $long:literal $quad:literal;)*) => {
        [$(Span {
            first: $first,
            sizeless_end: $sizeless,
            byte_end: $byte,
            word_end: $word,
            long_end: $long,
            quad_end: $quad,
        }),*]
    };
}

/// In the order of the names' numbers.
#[rattlefmt::skip]
"""


def spans_file(rows: list[Row]) -> str:
    """The file of the spans: one a line, with its name."""
    lines = []
    for name in dict.fromkeys(row.name for row in rows):
        first = next(index for index, row in enumerate(rows) if row.name == name)
        ends = [first + sum(row.name == name and row.size <= size for row in rows) for size in SIZES]
        span = " ".join(f"{index:>3}" for index in [first, *ends])
        lines.append(f"    {span}; // {name}\n")
    return f"{SPANS_HEAD}pub static SPANS: [Span; {len(lines)}] = spans! {{\n{''.join(lines)}}};\n"


# ---- Where mnemonics stand by their hashes

FACTOR, SHIFTS, PLACES, ON_A_LINE = 0x9E37_79B9_7F4A_7C15, 256, 1024, 14


def hash_of(text: str) -> int:
    """The hash of a text, of 64 bits: by the low five bits of its bytes, in which the cases of letters are alike."""
    hashed = 0
    for byte in text.encode():
        hashed = (hashed + byte % 32) * FACTOR % (1 << 64)
    return hashed


def slots_of(names: list[Name]) -> list[int]:
    """A shift for each highest byte of a hash, and then the index of the mnemonic at each place: a hash's own place is moved by the shift. The largest groups of
    one highest byte are placed first, each by the least shift that leaves all of it room."""
    groups: dict[int, list[int]] = {}
    for index, name in enumerate(names):
        groups.setdefault(hash_of(name.text) >> 56, []).append(index)
    shifts, places = [0] * SHIFTS, [-1] * PLACES
    for group, indices in sorted(groups.items(), key=lambda it: -len(it[1])):
        for shift in range(PLACES):
            own = [((hash_of(names[index].text) >> 32) + shift) % PLACES for index in indices]
            if len(set(own)) == len(own) and all(places[place] < 0 for place in own):
                break
        else:
            raise TableError(f"the mnemonics with the highest byte {group} have no room")
        shifts[group] = shift
        for place, index in zip(own, indices):
            places[place] = index
    return shifts + [max(index, 0) for index in places]


def slots_file(lists: list[tuple[str, str, list[Name]]]) -> str:
    """The file of the slots, of each syntax by the name of its list."""
    text = f"//! Where mnemonics stand in their lists, by the hashes of their texts: {SHIFTS} shifts, and {PLACES:,} indices.\n"
    for syntax, table, names in lists:
        slots = slots_of(names)
        text += f"\n/// For the mnemonics of {syntax} syntax.\n#[rattlefmt::skip]\npub static {table}: [u16; {len(slots)}] = [\n"
        for at in range(0, len(slots), ON_A_LINE):
            text += f"    {' '.join(f'{slot},' for slot in slots[at:at + ON_A_LINE])}\n"
        text += "];\n"
    return text


# ---- The codes of mnemonics without operands

# Of each row without operands the bytes, which are four at most, and how many they are; of each mnemonic the number of its code.
CODE_BYTES, NO_CODE, NUMBERS_ON_A_LINE = 4, 255, 16
CODES_HEAD = """\
//! The bytes of instructions without operands, by the mnemonics of AT&T syntax.

/// The bytes of an instruction.
#[derive(Clone, Copy)]
pub struct Code {
    /// With zeros behind them.
    pub padded: [u8; 4],
    /// How many they are.
    pub length: u8,
}

/// Codes, a line each.
macro_rules! codes {
    ($($padded:tt $length:literal;)*) => {
        [$(Code {
            padded: $padded,
            length: $length,
        }),*]
    };
}

/// Of the rows without operands, in the order of the table.
#[rattlefmt::skip]
"""
NUMBERS_HEAD = """\

/// Of each mnemonic the number of its code, or 255 where no row of its name and size is without operands.
#[rattlefmt::skip]
pub static ATT_CODES: [u8; {count}] = [
"""


def bare_code(row: Row) -> bytes:
    """The bytes of a row without operands."""
    repeat = {"Absent": b"", "F2": b"\xf2", "F3": b"\xf3"}[row.repeat]
    modrm = bytes([row.digit]) if row.shape == "Fixed" else b""
    return b"\x66" * row.has_66 + repeat + b"\x48" * row.rex_w + ESCAPES[row.map] + bytes([row.code]) + modrm


def codes_file(rows: list[Row], names: list[Name]) -> str:
    """The file of the codes, and of their numbers by mnemonics."""
    bare = [row for row in rows if not row.operands]
    text = f"{CODES_HEAD}pub static CODES: [Code; {len(bare)}] = codes! {{\n"
    for row in bare:
        code = bare_code(row)
        if len(code) > CODE_BYTES:
            raise TableError(f"{row.place} has more than {CODE_BYTES} bytes: {row.text}")
        padded = ", ".join(f"0x{byte:02X}" for byte in code + bytes(CODE_BYTES - len(code)))
        size = f" {row.size}" if row.size else ""
        text += f"    [{padded}] {len(code)}; // {row.name}{size}\n"
    numbers = []
    for name in names:
        own = [number for number, row in enumerate(bare) if row.name == name.row and name.size in (0, row.size)]
        if len(own) > 1:
            raise TableError(f"{name.text} has {len(own)} rows without operands")
        numbers.append(own[0] if own else NO_CODE)
    text += "};\n" + NUMBERS_HEAD.format(count=len(numbers))
    for at in range(0, len(numbers), NUMBERS_ON_A_LINE):
        text += f"    {' '.join(f'{number:>3},' for number in numbers[at:at + NUMBERS_ON_A_LINE])}\n"
    return text + "];\n"


# ---- The keys of rows

# A bit for each sort of operand that a pattern takes, as `specs/Keys.antt` of x86_lookup numbers them. Of the registers of each size those of number 0, and cl,
# have bits of their own.
REGISTERS = {"Byte": 0x182, "High": 0x182, "Word": 0x208, "Long": 0x410, "Quad": 0x820, "Xmm": 0x44}
ACCUMULATORS = {"Byte": 0x80, "High": 0x80, "Word": 0x200, "Long": 0x400, "Quad": 0x800, "Xmm": 0x4}
MEMORY = 0x1000
OTHERS = {"Absent": 0x1, "Cl": 0x100, "One": 0x8000, "Immediate": 0xA000, "Target": 0x4000}
WORDS = {"Absent": 0, "Lock": 1, "Rep": 2, "Repe": 4, "Notrack": 8}

KEYS_HEAD = """\
//! The keys of the rows.

/// What a row admits.
#[derive(Clone, Copy)]
pub struct Key {
    /// The operand size in bits, or 0.
    pub size: u8,
    /// The prefix words, a bit each.
    pub words: u8,
    /// How many bytes it has at least.
    pub least_length: u8,
    /// The sorts of the first operand, a bit each.
    pub first: u16,
    /// Those of the second.
    pub second: u16,
    /// Those of the third.
    pub third: u16,
}

/// Keys, each on one line.
macro_rules! keys {
    ($($size:literal $words:literal $least:literal $first:literal $second:literal $third:literal;)*) => {
        [$(Key {
            size: $size,
            words: $words,
            least_length: $least,
            first: $first,
            second: $second,
            third: $third,
        }),*]
    };
}

/// The rows' keys, in their order.
#[rattlefmt::skip]
"""


def sorts_of(operand: Operand) -> int:
    """The sorts that the pattern of an operand takes."""
    if operand.kind == "RegMem":
        return REGISTERS[operand.register] | MEMORY
    if operand.kind in ("Reg", "Low"):
        return REGISTERS[operand.register]
    if operand.kind == "Accumulator":
        return ACCUMULATORS[operand.register]
    return OTHERS[operand.kind]


def least_length(row: Row) -> int:
    """The least number of bytes that the row has: 66, REX.W, escape bytes, opcode, ModRM and immediate."""
    has_modrm = row.shape in ("Fixed", "Digit", "Slash")
    return row.has_66 + row.rex_w + len(ESCAPES[row.map]) + 1 + has_modrm + WIDTHS[row.immediate]


def key_of(row: Row) -> str:
    """The key of a row, as it stands in the file."""
    operands = [*row.operands, *[Operand("Absent")] * 3][:3]
    sorts = " ".join(f"0x{sorts_of(operand):04X}" for operand in operands)
    return f"{row.size:>2} {WORDS[row.words]} {least_length(row):>2} {sorts};"


def keys_file(rows: list[Row]) -> str:
    """The file of the keys: as many on a line as have room."""
    lines, line = [], "   "
    for key in map(key_of, rows):
        if len(line) + 1 + len(key) > WIDTH:
            lines.append(line)
            line = "   "
        line += f" {key}"
    return f"{KEYS_HEAD}pub static KEYS: [Key; {len(rows)}] = keys! {{\n" + "\n".join([*lines, line]) + "\n};\n"


# ---- The rows of each opcode

MAPS = ["One", "Two", "Three38", "Three3A"]
OPCODES, REGISTERS_IN_OPCODE = 256, 8
OPCODES_HEAD = """\
//! The rows of each opcode.

/// Where the rows of each opcode begin in `OPCODE_ROWS`: those of the map of one byte, then those behind 0F,
/// 0F 38 and 0F 3A.
#[rattlefmt::skip]
"""
OPCODE_ROWS_HEAD = """
/// The rows of each opcode, one opcode after the other.
#[rattlefmt::skip]
"""


def numbers_table(name: str, numbers: list[int]) -> str:
    """A table of numbers: as many on a line as have room."""
    lines, line = [], "   "
    for number in numbers:
        if len(line) + len(f" {number},") > WIDTH:
            lines.append(line)
            line = "   "
        line += f" {number},"
    return f"pub static {name}: [u16; {len(numbers)}] = [\n" + "\n".join([*lines, line]) + "\n];\n"


def opcodes_file(rows: list[Row]) -> str:
    """The file of the rows by their opcodes: a row with a register in its opcode has eight."""
    at: list[list[int]] = [[] for _ in range(len(MAPS) * OPCODES)]
    for index, row in enumerate(rows):
        span = REGISTERS_IN_OPCODE if row.shape in ("Low", "LowNotFirst") else 1
        for code in range(row.code, row.code + span):
            at[OPCODES * MAPS.index(row.map) + code].append(index)
    starts = [0]
    for indices in at:
        starts.append(starts[-1] + len(indices))
    return OPCODES_HEAD + numbers_table("STARTS", starts) + OPCODE_ROWS_HEAD + numbers_table("OPCODE_ROWS", [index for indices in at for index in indices])


# ---- All files

def files(crates: pathlib.Path) -> dict[pathlib.Path, str]:
    """The text of each file."""
    table, names = crates / "x86_table/src", crates / "x86_lookup/src"
    rows = read_table(table)
    lists = [(syntax, f"{prefix}_SLOTS", read_names(names, f"{prefix}_NAMES")) for syntax, prefix in (("AT&T", "ATT"), ("Intel", "INTEL"))]
    return {names / "spans.rt": spans_file(rows), names / "slots.rt": slots_file(lists), names / "bare_codes.rt": codes_file(rows, lists[0][2]),
            names / "row_keys.rt": keys_file(rows), crates / "x86_decode/src/slots.rt": opcodes_file(rows)}


def main() -> int:
    parser = argparse.ArgumentParser(description="Writes what is found by the instruction table.")
    parser.add_argument("--check", action="store_true", help="write nothing, and end with 1 where a file is another")
    parser.add_argument("--crates", type=pathlib.Path, default=TOP / "crates", help="the folder of the crates")
    options = parser.parse_args()
    try:
        made = files(options.crates)
    except (TableError, OSError) as fault:
        print(fault, file=sys.stderr)
        return 1
    stale = [path for path, text in made.items() if not path.exists() or path.read_text() != text]
    for path in stale:
        if options.check:
            print(f"{path} is not what the table gives: run tools/instruction_indices.py", file=sys.stderr)
        else:
            path.write_text(made[path])
    return int(options.check and bool(stale))


if __name__ == "__main__":
    sys.exit(main())
