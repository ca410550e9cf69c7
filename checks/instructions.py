#!/usr/bin/env python3
"""Compares what the built assembler makes of instructions in AT&T syntax with what GNU as makes of them.

    checks/instructions.py --ours build/as [--gnu /usr/bin/as] [--count 100000] [--seed 1]

Each row of the instruction table is written in turn, by one of its names, with operands that the seed gives: registers, addresses of each form, numbers at
the ends of their ranges, and symbols of all kinds with their suffixes; now and then with another name, operand or prefix word than the row has. Both programs
assemble all lines that both take in one source, in which each line has a label. Of each line both have to make the same bytes and the same relocations, or
both have to refuse it; and the symbols have to be the same. What differs all the same KNOWN explains, and docs/COMPATIBILITY.md. Prints the first lines that
nothing explains, and how many lines each reason explains, and ends with 1 where a line is not explained.

Not written: direct jumps, which are no instructions here.
"""
import argparse
import pathlib
import random
import re
import struct
import subprocess
import sys
import tempfile
from collections import Counter
from collections.abc import Callable, Iterator
from dataclasses import dataclass, replace

sys.dont_write_bytecode = True
from compare import ENVIRONMENT, RELA, facts, headers_of, program, symbols_of, target  # noqa: E402
from rows import CONDITIONS, REGISTER_NAMES, TOP, WORDS  # noqa: E402
from instruction_table import WIDTHS, Name, Operand, Row, TableError, read_names, read_table  # noqa: E402

SHOWN, AT_ONCE = 20, 100
LETTERS = {8: "b", 16: "w", 32: "l", 64: "q"}

# The moves whose name is by the size of their source, which is so many bits.
SOURCES = {"MOVZX_BYTE": ("movzx", 8), "MOVZX_WORD": ("movzx", 16), "MOVSX_BYTE": ("movsx", 8), "MOVSX_WORD": ("movsx", 16), "MOVSXD": ("movsx", 32)}

# ---- Random lines

# Known numbers, and places in other sections. `far` and `further` are undefined, and so is `apart`, which is thread-local as `own` is.
BEFORE = """\
.set five, 5
.set below, -200
.data
one: .zero 8
.globl shown
shown: .zero 8
two: .zero 8
.section .tdata,"awT",@progbits
own: .zero 8
.text
"""
BEHIND = "behind:\n.set later, 7\n"
PLACES = ["far", "further", "one", "two", "shown"]
THREAD_LOCAL = ["own", "apart"]


class Maker:
    """Makes lines. In a text `{}` stands for the number of its line."""

    def __init__(self, rows: list[Row], names: list[Name], rng: random.Random):
        self.rng = rng
        self.names = {row: names_of(row, completed(names)) for row in rows if not is_direct_jump(row)}
        self.rows = list(self.names)

    def spelled(self, number: int) -> str:
        forms = [f"{number}", f"{number:#x}", f"{number - number // 2}+{number // 2}"] if number >= 0 else [f"{number}", f"-{-number:#x}", f"~{~number}"]
        return self.rng.choice(forms)

    def number(self, width: int) -> int:
        """A number of so many bytes, at an end of a range or within; now and then of another width, which may not fit."""
        rng = self.rng
        bits = 8 * (width if rng.random() < 0.97 else rng.choice([1, 2, 4, 8]))
        half, whole = 1 << bits - 1, 1 << bits
        return rng.choice([0, 1, 127, 128 if bits > 8 else 0, -128, -129 if bits > 8 else -1, half - 1, half, -half, whole - 1, rng.randrange(whole),
                           rng.randrange(-half, half), rng.randrange(128), rng.randrange(-128, 0)])

    def plus(self, text: str) -> str:
        return text + self.rng.choice(["", "", "", "+1", "+8", "-4", "+0x1000", "-0x12345"])

    def symbolic(self) -> str:
        """A place with a number, or a number with a name."""
        known = ["five", "below", "five+3", "two-one", "below*3", "later", "(far+4)", "i{}", "i{}+3"]
        return self.plus(self.rng.choice(PLACES)) if self.rng.random() < 0.5 else self.rng.choice(known)

    def immediate(self, width: int) -> str:
        chance = self.rng.random()
        value = self.symbolic() if chance < 0.1 and width > 1 or chance < 0.01 else self.spelled(self.number(width))
        return f"${self.rng.choice(THREAD_LOCAL)}@TPOFF" if chance > 0.99 else f"${value}"

    def displacement(self) -> str:
        rng, chance = self.rng, self.rng.random()
        if chance < 0.6:
            return self.spelled(rng.choice([self.number(1), rng.randrange(-1 << 31, 1 << 31), -1 << 31, (1 << 31) - 1])) if chance < 0.35 else ""
        return f"{rng.choice(THREAD_LOCAL)}@{rng.choice(['TPOFF', 'tpoff+4', 'TPOFF-2'])}" if chance < 0.7 else self.symbolic()

    def from_rip(self) -> str:
        """A displacement of an address from rip."""
        rng, place = self.rng, self.rng.choice(PLACES)
        forms = [self.plus(place), self.plus(place), f"{place}@{rng.choice(['GOTPCREL', 'gotpcrel+4'])}", "i{}"]
        return rng.choice(["8", "", "five", f"{rng.choice(THREAD_LOCAL)}@GOTTPOFF"]) if rng.random() < 0.1 else rng.choice(forms)

    def register(self, kind: str) -> str:
        return "%" + REGISTER_NAMES[kind][self.rng.randrange(4, 8) if kind == "High" else self.rng.randrange(16)]

    def memory(self) -> str:
        """An address of any form."""
        rng, chance = self.rng, self.rng.random()
        segment = rng.choice(["%fs:", "%gs:"]) if rng.random() < 0.15 else ""
        if chance < 0.3:
            return f"{segment}{self.from_rip()}(%rip)" if chance < 0.2 else f"{segment}{self.displacement() or '8'}"
        index = rng.choice([name for name in REGISTER_NAMES["Quad"] if name != "rsp"]) + rng.choice(["", ",1", ",2", ",4", ",8"])
        form = rng.choice(["({0})", "({0})", "({0},%{1})", "({0},%{1})", "(,%{1})"] + (["(,1)"] if chance < 0.32 else []))
        return f"{segment}{self.displacement()}{form.format(self.register('Quad'), index)}"

    def target(self) -> str:
        place = self.rng.choice(PLACES)
        return self.rng.choice([self.plus(place), f"{place}@PLT", f"{place}@plt", "i{}", "i{}+3"])

    def operand(self, row: Row, said: Operand, rule: str) -> str:
        """An operand of the row."""
        rng = self.rng
        if said.kind in ("Cl", "One", "Accumulator"):
            return {"Cl": "%cl", "One": "$1"}.get(said.kind) or "%" + REGISTER_NAMES[said.register][0]
        if said.kind in ("Immediate", "Target"):
            return self.immediate(WIDTHS[row.immediate]) if said.kind == "Immediate" else self.target()
        is_memory = said.kind == "RegMem" and (row.rm == "Memory" or row.rm == "Any" and rng.random() < 0.5)
        kind = "High" if said.register == "Byte" and rng.random() < 0.15 else said.register
        star = "*" if said.kind == "RegMem" and rule == "Branch" else ""
        return star + (self.memory() if is_memory else self.register(kind))

    def operands(self, row: Row, rule: str) -> list[str]:
        """Operands of the row, in its order, as the rule of the name may have them."""
        rng, kinds = self.rng, [said.kind for said in row.operands]
        texts = [self.operand(row, said, rule) for said in row.operands]
        if rule == "Predicate" or rule == "ByOne" and kinds[-1] == "One" and rng.random() < 0.7:
            texts.pop()
        elif rule == "OneForTwo" and len(texts) == 3 and rng.random() < 0.4:
            del texts[1]
        elif rule == "WithXmm0" and rng.random() < 0.5:
            texts.append("%xmm0")
        elif rule in ("MemoryFirst", "AccumulatorFirst") and "Immediate" not in kinds and rng.random() < 0.5:
            texts.reverse()
        return texts

    def anything(self) -> str:
        """An operand of any kind."""
        registers = [self.register(kind) for kind in REGISTER_NAMES]
        return self.rng.choice(registers + [self.memory(), self.memory(), self.immediate(1), self.immediate(4), self.target(), "%cl", "$1"])

    def spoiled(self, texts: list[str]) -> list[str]:
        """Operands of which one is another, or one more or less, or in another order."""
        rng, at, chance = self.rng, self.rng.randrange(len(texts) + 1), self.rng.random()
        if chance < 0.6:
            return texts[:at] + [self.anything()] + texts[at + 1:]
        return texts[:at] + [self.anything()] + texts[at:] if chance < 0.7 else texts[:at] + texts[at + 1:] if chance < 0.8 else rng.sample(texts, len(texts))

    def row(self, number: int) -> Row:
        """The row by which the line of this number is made."""
        return self.rows[number % len(self.rows)]

    def line(self, number: int) -> str:
        """The line of this number."""
        rng, row = self.rng, self.row(number)
        name = rng.choice([name for name in self.names[row] if name.size or rng.random() < 0.2] or self.names[row])
        texts, word, text = self.operands(row, name.rule), "", name.text
        if rng.random() < 0.05:
            texts = self.spoiled(texts)
        elif rng.random() < 0.01:
            text = rng.choice(self.names[rng.choice(self.rows)]).text
        if rng.random() < 0.1:
            word = rng.choice(WORDS[row.words] or [""]) if rng.random() < 0.95 else rng.choice(["lock", "rep", "repe", "repne", "notrack"])
        text = text.upper() if rng.random() < 0.05 else text
        return f"{word} {text} {', '.join(reversed(texts))}".strip().replace("{}", str(number))


def is_direct_jump(row: Row) -> bool:
    return row.operand("Target") is not None and row.name in ["JMP"] + [f"J{condition}" for condition in CONDITIONS]


def completed(names: list[Name]) -> list[Name]:
    """The names, and those with a letter for each that fixes no size, unless a name is written so."""
    whole = {name.text for name in names}
    lettered = [replace(name, text=name.text + letter, size=size) for name in names if not name.size for size, letter in LETTERS.items()]
    return names + [name for name in lettered if name.text not in whole]


def has_source(name: Name, row: Row) -> bool:
    """Whether the name is by the size of its source, and the row is that of such a source, whose size the letter is."""
    text, size = SOURCES.get(row.name, ("", 0))
    return name.rule == "BySource" and name.text.startswith(text or " ") and name.size in (0, size)


def names_of(row: Row, names: list[Name]) -> list[Name]:
    """The names that the row may be written by."""
    found = [name for name in names if name.rule != "BySource" and name.row == row.name and name.size in (0, row.size) or has_source(name, row)]
    if (row.name, row.size) == ("MOV", 64):
        found += [name for name in names if name.rule == "OrMove" and not name.size]
    if row.name == "MOVQ" and "Quad" in [operand.register for operand in row.operands]:
        found += [name for name in names if name.rule == "QuadIsMovq" and not name.size]
    return found


# ---- The two programs

@dataclass(frozen=True)
class Answer:
    """What a program makes of a line: an error, or bytes and relocations. These have their offset in the bytes, their kind, and what they name."""
    error: str = ""
    code: bytes = b""
    relocations: tuple[tuple[int, int, str], ...] = ()
    warning: str = ""

    def made(self) -> tuple[bool, bytes, tuple[tuple[int, int, str], ...]]:
        return bool(self.error), self.code, self.relocations

    def told(self) -> str:
        return self.error or " ".join([self.code.hex(" "), *(f"{kind}@{offset} {what}" for offset, kind, what in self.relocations), self.warning]).strip()


Answers = dict[int, Answer]


def run(command: str, lines: dict[int, str], folder: pathlib.Path) -> tuple[bool, Answers]:
    """Assembles lines into `x.o`. Answers whether that is made, and the lines of which there are messages."""
    source = BEFORE + "".join(f"i{number}: {line}\n" for number, line in lines.items()) + BEHIND
    (folder / "x.s").write_text(source)
    ran = subprocess.run([command, "-o", "x.o", "x.s"], cwd=folder, stdin=subprocess.DEVNULL, capture_output=True, env=ENVIRONMENT, text=True, check=False)
    numbers, answers = dict(enumerate(lines, BEFORE.count("\n") + 1)), {}
    for line, kind, text in re.findall(r"^x\.s:(\d+): (Error|Warning): (.*)$", ran.stderr, re.MULTILINE):
        number = numbers[int(line)]
        answers[number] = replace(answers.get(number, Answer()), **{kind.lower(): text})
    if ran.returncode and not any(answer.error for answer in answers.values()):
        raise OSError(f"{command}: status {ran.returncode}, {ran.stderr[:300]}")
    return ran.returncode == 0, answers


def messages(command: str, lines: dict[int, str], folder: pathlib.Path, at_once: int) -> Answers:
    """The errors and warnings of lines, of so many in one source. A program may tell one error a run: a source is run again without the lines of its errors."""
    answers: Answers = {}
    numbers = list(lines)
    for begin in range(0, len(numbers), at_once):
        left, is_made = numbers[begin:begin + at_once], False
        while not is_made:
            is_made, found = run(command, {number: lines[number] for number in left}, folder)
            answers |= found
            left = [number for number in left if number not in found or not found[number].error]
    return answers


def made_in(path: pathlib.Path) -> Answers:
    """The bytes and relocations behind each label. Places in the text are told from the label."""
    headers = headers_of(path.read_bytes())
    symbols = symbols_of(headers)
    text = next(header.body for header in headers if header.name == ".text")
    tables = [header.body for header in headers if header.kind == RELA and headers[header.info].name == ".text"]
    notes = sorted(note for table in tables for note in struct.iter_unpack("<QQq", table))
    places = sorted((symbol.value, symbol.name) for symbol in symbols if symbol.home == ".text" and symbol.name)
    answers, at = {}, 0
    for (begin, name), (end, _) in zip(places, places[1:]):
        own = []
        while at < len(notes) and notes[at][0] < end:
            offset, info, addend = notes[at]
            symbol = symbols[info >> 32]
            what = f"here{symbol.value + addend - begin:+#x}" if symbol.home == ".text" else target(symbol, addend)
            own.append((offset - begin, info & 0xffffffff, what))
            at += 1
        answers[int(name[1:])] = Answer(code=text[begin:end], relocations=tuple(own))
    return answers


def compared(ours: str, gnu: str, lines: dict[int, str], folder: pathlib.Path) -> Iterator[tuple[int, Answer, Answer]]:
    """What both make of each line."""
    told = [messages(ours, lines, folder, AT_ONCE), messages(gnu, lines, folder, len(lines))]
    taken = {number: line for number, line in lines.items() if not any(answers.get(number, Answer()).error for answers in told)}
    made, named = [], []
    for command in (ours, gnu):
        if not run(command, taken, folder)[0]:
            raise OSError(f"{command} refuses in one source what it takes in several")
        made.append(made_in(folder / "x.o"))
        named.append({fact for fact in facts((folder / "x.o").read_bytes()) if re.match(r"symbol (?!i\d+:|behind:)", fact)})
    if named[0] != named[1]:
        raise OSError(f"the symbols are others: {named[0] ^ named[1]}")
    for number in lines:
        one, other = (answers.get(number, Answer()) for answers in told)
        if number in taken:
            one, other = (replace(answers[number], warning=answer.warning) for answers, answer in zip(made, (one, other)))
        yield number, one, other


# ---- Where the two differ

Test = Callable[[Row, str, Answer, Answer], bool]


@dataclass(frozen=True)
class Known:
    """What is known to differ: in which lines of a row, by what the two answer, and why."""
    applies: Test
    reason: str


def ours_says(error: str, pattern: str = "", warning: str = "") -> Test:
    """Lines of this pattern that ours alone refuses, with this error; GNU as warns so, where a warning is given."""
    return lambda _, line, ours, gnu: ours.error == error and not gnu.error and bool(re.search(pattern, line, re.IGNORECASE)) and warning in gnu.warning


def gnu_says(error: str, pattern: str) -> Test:
    """Lines of this pattern that GNU as alone refuses, with this error."""
    return lambda _, line, ours, gnu: not ours.error and gnu.error.startswith(error) and bool(re.search(pattern, line, re.IGNORECASE))


def relocated(kinds: dict[int, list[int]], pattern: str) -> Test:
    """Lines of this pattern in which both make the same but for the kinds of relocations: each of ours stands for one of GNU as."""
    def test(_: Row, line: str, ours: Answer, gnu: Answer) -> bool:
        pairs = list(zip(ours.relocations, gnu.relocations))
        alike = ours.code == gnu.code and [(at, what) for at, _, what in ours.relocations] == [(at, what) for at, _, what in gnu.relocations]
        return alike and bool(pairs) and bool(re.search(pattern, line, re.IGNORECASE)) and all(a[1] == b[1] or b[1] in kinds.get(a[1], []) for a, b in pairs)
    return test


def is_wide(row: Row, line: str, ours: Answer, gnu: Answer) -> bool:
    """Whether ours alone refuses a line since its number is none of so many bits as the row's immediate has."""
    found = re.search(r"\$((?:[-~+*]|0x[0-9a-f]+|[0-9]+|five|below)+)(?:,|$)", line, re.IGNORECASE)
    bits = 8 if row.immediate in ("Count", "Absent") else row.size
    return ours.error == "value out of range" and not gnu.error and bool(found) and not -1 << bits - 1 <= eval(found[1], {"five": 5, "below": -200}) < 1 << bits


def is_exchange(_row: Row, line: str, ours: Answer, gnu: Answer) -> bool:
    """Whether a line exchanges al with another register: each stands in the other's field."""
    return line.lower().startswith("xchg") and line.endswith("%al") and ours.code[-2:-1] == gnu.code[-2:-1] == b"\x86" and len(ours.code) == len(gnu.code)


PC32, GOTPCREL, PLT32, UNSIGNED, SIGNED, TPOFF32, GOTPCRELX, REX_GOTPCRELX = 2, 9, 4, 10, 11, 23, 41, 42
RELATIVE_NUMBER = r"(^|[ ,:*])(8|five)?\(%rip\)"
SYMBOL = r"\$\(?(far|further|one|two|shown|later|i\d+)\b"

KNOWN = [
    Known(ours_says("operand size is not known", warning="no instruction mnemonic suffix given"), "no operand says the size: GNU as takes one, and warns"),
    Known(ours_says("operand size is not known", "^ *mov[sz]x "), "movzx and movsx of memory without a letter: GNU as takes 8 bits"),
    Known(ours_says("no form with these operands", "^ *mov([sz]x[wl]?|zw|sxd) "), "movzx and movsx into as many bits as the source has"),
    Known(ours_says("bad operand", "^ *(notrack +)?callq? +[^*]", "indirect call without"), "an indirect call without its *: GNU as warns"),
    Known(ours_says("bad operand", "^ *(notrack +)?jmpq? +[^*]", "indirect jmp without"), "an indirect jump without its *: GNU as warns"),
    Known(ours_says("no relocation for this value", RELATIVE_NUMBER), "a number as the distance from rip"),
    Known(ours_says("no relocation for this value", "@plt"), "@PLT elsewhere than in the target of a branch"),
    Known(ours_says("value out of range", warning="shortened to"), "an immediate that is too wide: GNU as cuts it, and warns"),
    Known(is_wide, "an immediate that is too wide: GNU as cuts it without a warning where it fits by another sign or with fewer bits"),
    Known(ours_says("value is not known here", SYMBOL), "a count, a bit number or a selector that is not known where it stands"),
    Known(ours_says("no form with these operands", "^ *(rep|repe|repne) "), "a repeat prefix for other string instructions than its own"),
    Known(ours_says("no form with these operands", "^ *((rep|repe|repne) +)?(movs|cmps|stos|lods|scas)[bwlq]? +[^ ]"), "operands of string instructions"),
    Known(ours_says("no form with these operands", "^ *(ro[lr]|rc[lr]|s[ah][lr]|sh[lr]d)[bwlq]? +%[er]cx,"), "the whole of rcx or ecx as a count"),
    Known(ours_says("no form with these operands", "^ *(push|pop)w "), "pushw and popw of memory, and pushw of a number"),
    Known(ours_says("no relocation for this value", r"^ *movabsq? +\$\w+@tpoff"), "@TPOFF in a field of 64 bits"),
    Known(gnu_says("invalid character '~' in mnemonic", "^ *lock +[a-z0-9]+ +~"), "lock before an operand that begins with ~"),
    Known(gnu_says("invalid instruction suffix", "^ *(jrcxzq|movsxdq) "), "a letter behind jrcxz and movsxd"),
    Known(gnu_says("TLS relocation cannot be used with", "@gottpoff"), "@GOTTPOFF beside xmm registers"),
    Known(gnu_says("relocated field and relocation type differ in signedness", "@tpoff"), "@TPOFF in a field of 32 bits that is not extended by its sign"),
    Known(relocated({GOTPCREL: [GOTPCRELX, REX_GOTPCRELX]}, "@gotpcrel"), "@GOTPCREL has one kind of relocation, which no linker relaxes"),
    Known(relocated({PLT32: [PC32]}, "^ *(notrack +)?call"), "call of a local symbol, or of a symbol and a number: R_X86_64_PC32 there"),
    Known(relocated({SIGNED: [UNSIGNED]}, "^ *lea"), "lea into 16 or 32 bits: a displacement is signed in all addresses"),
    Known(relocated({TPOFF32: [SIGNED]}, "^ *p?blendv.*%xmm0, .*@tpoff"), "blends with %xmm0 written: GNU as 2.40 forgets @TPOFF"),
    Known(is_exchange, "xchg with al: in GNU as the other register stands in ModRM.reg"),
    Known(lambda _row, _line, ours, gnu: (ours.code.hex(), gnu.code.hex()) == ("4890", "90"), "xchg %rax, %rax: GNU as writes nop"),
]


def main() -> int:
    parser = argparse.ArgumentParser(description="Compares what the built assembler makes of instructions with what GNU as makes of them.")
    parser.add_argument("--ours", type=program, required=True, help="our program, as build/as")
    parser.add_argument("--gnu", type=program, default="/usr/bin/as", help="GNU as (default /usr/bin/as)")
    parser.add_argument("--count", metavar="N", type=int, default=100_000, help="how many lines (default 100000)")
    parser.add_argument("--seed", metavar="N", type=int, default=1, help="where the lines come from (default 1)")
    options = parser.parse_args()
    try:
        maker = Maker(read_table(TOP / "crates/x86_table/src"), read_names(TOP / "crates/x86_lookup/src", "ATT_NAMES"), random.Random(options.seed))
        lines = {number: maker.line(number) for number in range(options.count)}
        with tempfile.TemporaryDirectory() as folder:
            answers = list(compared(options.ours, options.gnu, lines, pathlib.Path(folder)))
    except (TableError, OSError) as fault:
        print(fault)
        return 1
    used: Counter[str] = Counter()
    unexplained = 0
    for number, ours, gnu in answers:
        if ours.made() != gnu.made():
            reason = next((known.reason for known in KNOWN if known.applies(maker.row(number), lines[number], ours, gnu)), "")
            used[reason] += bool(reason)
            unexplained += not reason
            if not reason and unexplained <= SHOWN:
                print(lines[number], f"< {ours.told()}", f"> {gnu.told()}", sep="\n    ")
    for known in KNOWN:
        print(f"{used[known.reason]:6} {known.reason}")
    alike, refused = (sum(ours.made() == gnu.made() and bool(ours.error) == is_error for _, ours, gnu in answers) for is_error in (False, True))
    print(f"{options.count} lines: {alike} alike, {refused} refused by both, {sum(used.values())} differ as is known, {unexplained} otherwise")
    return 1 if unexplained else 0


if __name__ == "__main__":
    sys.exit(main())
