#!/usr/bin/env python3
"""Compares the objects of the built assembler with those of GNU as on random sources of data, alignments, sections, symbols and
relocations.

    checks/compare.py --ours build/as [--gnu /usr/bin/as] [--count 1000] [--seed 1] [--keep DIR]

Each source is made from the seed and its number alone. Both programs assemble it, each as `x.s` in a folder of its own. Compared are the exit status, and of
two objects what `facts` tells of them: sections, bytes, symbols and relocations, where order counts for nothing. Prints the first sources that differ,
with `<` before what only our program says and `>` before what only GNU as says, and where they are kept. Ends with 1 where a source differs.

Sources have nothing that docs/COMPATIBILITY.md lists; what else the two do differently (GNU as 2.40) is told where `Maker` leaves it out. About one source
in six has a statement that both refuse.
"""
import argparse
import os
import pathlib
import random
import re
import struct
import subprocess
import sys
import tempfile
from collections import Counter
from dataclasses import dataclass, field

ENVIRONMENT = {**os.environ, "LC_ALL": "C"}
SHOWN_SOURCES, SHOWN_LINES = 5, 12

# ---- What an object says (gABI, chapter 4; psABI for AMD64, chapter 4)

NOTHING, SYMTAB, STRTAB, RELA, NOBITS = 0, 2, 3, 4, 8
EXECINSTR, MERGE = 4, 0x10
HOMES = {0: "undefined", 0xfff1: "absolute", 0xfff2: "common"}
BINDINGS = {0: "local", 1: "global", 2: "weak"}
TYPES = {0: "notype", 1: "object", 2: "function", 3: "section", 4: "file", 5: "common", 6: "tls"}
KINDS = {1: "64", 2: "PC32", 4: "PLT32", 10: "32", 12: "16", 13: "PC16", 14: "8", 15: "PC8", 24: "PC64"}


@dataclass
class Header:
    """A section header, without what only says where things stand in the file."""
    name: str
    kind: int
    flags: int
    size: int
    info: int
    alignment: int
    entry_size: int
    body: bytes


def string_at(table: bytes, at: int) -> str:
    return table[at:table.index(0, at)].decode("latin-1")


def headers_of(data: bytes) -> list[Header]:
    """The sections of an object, by their header indices."""
    ident, kind, machine, _, _, _, table, *_, count, names = struct.unpack_from("<16sHHIQQQIHHHHHH", data)
    if (ident[:7], kind, machine) != (b"\x7fELF\x02\x01\x01", 1, 62):
        raise ValueError("no relocatable ELF64 object for x86-64")
    raw = [struct.unpack_from("<IIQQQQIIQQ", data, table + 64 * index) for index in range(count)]
    bodies = [b"" if kind in (NOTHING, NOBITS) else data[offset:offset + size] for _, kind, _, _, offset, size, *_ in raw]
    for (_, kind, _, _, _, size, *_), body in zip(raw, bodies):
        if kind not in (NOTHING, NOBITS) and len(body) != size:
            raise ValueError("a section ends behind the end of the file")
    return [Header(string_at(bodies[names], name), kind, flags, size, info, alignment, entry_size, body)
            for (name, kind, flags, _, _, size, _, info, alignment, entry_size), body in zip(raw, bodies)]


@dataclass
class Symbol:
    """A symbol; `home` is the name of its section, or one of HOMES."""
    name: str
    binding: str
    kind: str
    visibility: int
    home: str
    value: int
    size: int
    is_merged: bool = False

    def is_file_local(self) -> bool:
        """Whether the symbol only stands in the table where a relocation needs it, which is not in the same places."""
        return self.binding == "local" and (not self.name or self.name.startswith(".L"))


def symbols_of(headers: list[Header]) -> list[Symbol]:
    """The symbols of an object by their numbers. GNU as makes no table where there are none."""
    symbols = []
    for table in (header for header in headers if header.kind == SYMTAB):
        names = next(header.body for header in headers if header.name == ".strtab")
        for name, info, other, index, value, size in struct.iter_unpack("<IBBHQQ", table.body):
            home = HOMES.get(index) or headers[index].name
            merged = index not in HOMES and bool(headers[index].flags & MERGE)
            symbols.append(Symbol(string_at(names, name), BINDINGS.get(info >> 4, "?"), TYPES.get(info & 15, "?"), other, home, value, size, merged))
    return symbols


def target(symbol: Symbol, addend: int) -> str:
    """What a relocation names. A local symbol is told by its section and its offset with the addend, for which the section's symbol may stand as well. Where
    the linker may merge sections, offset and addend are two things: it moves what stands at the offset. With a section's symbol that is the addend."""
    if symbol.binding != "local" or symbol.home in HOMES.values():
        return f"{symbol.name or 'nothing'}{addend:+#x}"
    if symbol.is_merged and symbol.kind != "section":
        return f"{symbol.home} at {symbol.value:#x}, {addend:+#x}"
    return f"{symbol.home} at {(symbol.value + addend) % (1 << 64):#x}{', +0x0' if symbol.is_merged else ''}"


# A no-operation of several bytes, as either program pads code with (Intel SDM, volume 2, "NOP").
NO_OPERATION = re.compile(rb"\x66*\x2e?\x0f\x1f(?:\x00|\x40\x00|\x44\x00\x00|\x80\x00{4}|\x84\x00{5})|\x66+\x90", re.DOTALL)


def in_single_bytes(code: bytes) -> bytes:
    """The code with each no-operation of several bytes as so many of one byte."""
    return NO_OPERATION.sub(lambda found: b"\x90" * len(found[0]), code)


def facts(data: bytes) -> Counter[str]:
    """What an object says, a line each. Left out are the order and the places of things in the file, the symbols of sections, local symbols that begin with
    `.L` or are numeric, and undefined symbols that no relocation names: GNU as lists those that a directive or an expression names."""
    told: Counter[str] = Counter()
    headers = headers_of(data)
    symbols = symbols_of(headers)
    named = set()
    for header in headers:
        if header.kind == RELA:
            place = headers[header.info].name
            for offset, info, addend in struct.iter_unpack("<QQq", header.body):
                named.add(info >> 32)
                told[f"relocation {place} {offset:#06x}: {KINDS.get(info & 0xffffffff, info & 0xffffffff)} {target(symbols[info >> 32], addend)}"] += 1
        elif header.kind not in (NOTHING, SYMTAB, STRTAB) and header.name != ".note.gnu.property":
            told[f"section {header.name}: type {header.kind}, flags {header.flags:#x}, entry size {header.entry_size}, alignment {header.alignment}, "
                 f"size {header.size:#x}"] += 1
            body = in_single_bytes(header.body) if header.flags & EXECINSTR else header.body
            for at in range(0, len(body), 16):
                told[f"bytes {header.name} {at:#06x}: {body[at:at + 16].hex(' ')}"] += 1
    for number, s in enumerate(symbols):
        if number and s.kind != "section" and not s.is_file_local() and (s.home != "undefined" or number in named):
            told[f"symbol {s.name}: {s.binding} {s.kind}, visibility {s.visibility}, {s.home} {s.value:#x}, size {s.size}"] += 1
    return told


# ---- Random sources

WORDS = ["a", "Fn", "_v", "x.y", "e$", "Tab_", ".q"]
DATA = {1: [".byte"], 2: [".short", ".value", ".word", ".2byte"], 4: [".long", ".int", ".4byte"], 8: [".quad", ".8byte"]}
INSTRUCTIONS = ("nop pause ret leave pushf popf endbr64 syscall ud2 cpuid rdtsc hlt int3 lfence mfence sfence clc stc cmc cld std sahf lahf cbtw cwtl cltq "
                "cwtd cltd cqto RET Nop movsb movsw movsl movsq cmpsb cmpsw cmpsl cmpsq stosb stosw stosl stosq lodsb lodsw lodsl lodsq scasb scasw scasl "
                "scasq pushfq popfq retq leaveq").split()
PIECES = ["a", "Bc", " ", "#", ";", "/*", "%d", "\\n", "\\t", "\\\\", '\\"', "\\0", "\\101", "\\377", "\\x4a ", "\\b", "\\f", "\\r", "\xe9"]

# Sections with what may stand behind their names. `.eh_frame`, `.init_array` and the like differ, and so do bare names as `.data1` that GNU as knows.
SECTIONS = {
    ".rodata": ["", ',"a"', ',"a",@progbits'], ".rodata.str1.1": [',"aMS",@progbits,1'], ".rodata.cst8": [',"aM",@progbits,8', ',"Ma",%progbits,4+4'],
    ".text.hot": ["", ',"ax"', ',"xa",@progbits'], ".data.rel.ro": ["", ',"aw"', ',"wa",@progbits'], ".bss.more": ["", ',"aw"', ',"aw",@nobits'],
    ".tdata": ["", ',"awT",@progbits'], ".tdata.more": ["", ',"Tawa"'], ".tbss": ["", ',"awT",@nobits'], ".tbss.more": [',"awT"'],
    ".note.test": ["", ',"a",@note', ',"",%note'], ".note.GNU-stack": ["", ',"",@progbits'], ".debug_test": ["", ',"",@progbits'],
    ".debug_str": [',"MS",@progbits,1'], "plain": ["", ',"aw"', ',""', ',"a"', ',"",@progbits'], "dotted.-name": [',"aw",@progbits', ',"awx"'],
    '"q s"': ["", ',"aw"'], "strings": [',"aS"', ',"S",@progbits'], "space": [',"aw",@nobits', ',"",@nobits'], "wide": [',"aMS",@progbits,4', ',"awMS",@progbits,2'],
}

JUMPS = "jmp ja jae jb jbe jc je jg jge jl jle jna jnae jnb jnbe jnc jne jng jnge jnl jnle jno jnp jns jnz jo jp jpe jpo js jz JNE".split()

# What both refuse, with an undefined symbol for each {}. `.byte 0` parts labels, since GNU as takes one again at the same place.
REFUSED = [
    "foo", ".foo 1", "5", ".byte {}*2", ".quad {0}+{1}", ".byte ~{}", ".byte -{}", ".long .-{}", ".byte (1", ".byte 1)", ".byte 1 2", ".asciz 5",
    '.ascii "a" 5', ".ident foo", "cpuid 5", "clc clc", ".globl 5", ".weak", ".type {},@strange", ".quad 7b", ".long 7f", ".comm {}", ".lcomm {}",
    ".set {}", ".set {0},{0}+1", ".zero {}", ".skip {}", ".fill {}", "twice: .size twice,{}", '.section strange,"aq"',
    '.section changed,"aw"\n.section changed,"ax"', ".pushsection .bss\n.byte 1", "twice: .byte 0\ntwice:", "twice: .byte 0\n.equiv twice,1",
    "twice: .byte 0\n.set twice,1", ".equiv twice,1\n.equiv twice,1", ".lcomm twice,4\n.lcomm twice,4", ".data\ntwice: .text\n.quad {}-twice",
    ".data\ntwice: .text\n.size twice,.-twice",
]


@dataclass(eq=False)
class Place:
    """A section of a source."""
    name: str
    words: str = ""
    is_nobits: bool = False
    entry: int = 0  # the size of entries, where the linker may merge them
    is_seen: bool = False
    coming: list["Name"] = field(default_factory=list)
    defined: list["Name"] = field(default_factory=list)


@dataclass(eq=False)
class Name:
    """A symbol, with its section where it has one. One that is typed has a type or a size: GNU as gives these to its aliases, so it has none here."""
    text: str
    home: Place | None = None
    is_local: bool = True
    is_typed: bool = False


class Maker:
    """Makes one source. Sections and symbols are chosen first, so that statements can name what is defined later."""

    def __init__(self, rng: random.Random):
        self.rng = rng
        self.count = 0
        self.statements: list[str] = []
        self.text, self.data, self.bss = Place(".text"), Place(".data"), Place(".bss", is_nobits=True)
        self.current, self.previous, self.stack = self.text, self.text, []
        self.constants: dict[str, int] = {}  # assigned so far, with their values
        self.at_end: list[Name] = []  # assigned anywhere: a number, or a distance that may become known at the end
        self.numeric: dict[int, Place] = {}  # numeric labels that stand in the source already
        self.awaited: set[int] = set()  # numeric labels that have to come
        self.loose: list[list[str]] = []  # statements that may stand anywhere, in any order
        self.labels: list[Name] = []
        self.undefined: list[Name] = []
        self.commons: list[Name] = []
        self.spaces: list[Name] = []  # space in `.bss`
        self.aliases: list[Name] = []  # assigned, and named by relocations
        self.choose_sections()
        self.choose_labels()
        self.choose_others()
        self.choose_aliases()

    def choose_sections(self) -> None:
        """GNU as puts the space of `.lcomm` behind all else in `.bss`: a source has one or the other."""
        self.has_lcomm = self.rng.random() < 0.4
        self.places = [self.text, self.data] + ([] if self.has_lcomm else [self.bss])
        for name in self.rng.sample(sorted(SECTIONS), self.rng.randrange(1, 6)):
            words = self.rng.choice(SECTIONS[name])
            entry = sum(map(int, words.rsplit(",", 1)[1].split("+"))) if "M" in words else 0
            self.places.append(Place(name, words, ".bss" in name or ".tbss" in name or "nobits" in words, entry))

    def fresh(self, quoted: float = 0.08, local: float = 0.2) -> str:
        """A new name."""
        self.count += 1
        chance = self.rng.random()
        return f'"q {self.count}"' if chance < quoted else f".L{self.count}" if chance < quoted + local else f"{self.rng.choice(WORDS)}{self.count}"

    def says(self, text: str, binding: list[str], kinds: list[str]) -> bool:
        """Statements that say something of a symbol, or not. Answers whether they give it a type; GNU as would add a second one to it."""
        kind = self.rng.choice(kinds)
        lines = [f".{self.rng.choice(binding)} {text}", f".{self.rng.choice(['hidden', 'protected', 'internal'])} {text}"]
        self.loose += [[line] for line in lines if self.rng.random() < 0.3]
        if kind:
            self.loose.append([f".type {text},{self.rng.choice('@%')}{kind}"])
        return bool(kind)

    def choose_labels(self) -> None:
        """A label of type `common` is global in GNU as."""
        rng = self.rng
        for _ in range(rng.randrange(4, 16)):
            label = Name(self.fresh(), rng.choice(self.places), is_local=rng.random() < 0.6)
            bindings = ["local"] if label.is_local else ["globl", "global", "weak"]
            if not label.is_local:
                self.loose.append([f".{rng.choice(bindings)} {label.text}"])
            label.is_typed = self.says(label.text, bindings, ["", "", "", "function", "object", "notype", "tls_object"])
            if rng.random() < 0.15:
                self.loose.append([f".size {label.text},{self.spelled(rng.randrange(100))}"])
                label.is_typed = True
            label.home.coming.append(label)
            self.labels.append(label)

    def choose_others(self) -> None:
        """Symbols without labels. An undefined `.L` name is a fault of ours. A common symbol is never weak in GNU as, and has no other type; without an
        alignment, or in `.lcomm` of 16 bytes and more, the alignments differ."""
        rng = self.rng
        for _ in range(rng.randrange(2, 5)):
            name = Name(self.fresh(local=0))
            self.says(name.text, rng.choice([["globl", "weak"], ["local"]]), ["", "", "function", "object", "tls_object"])
            self.loose += [[f".size {name.text},{rng.randrange(100)}"]] if rng.random() < 0.2 else []
            self.undefined.append(name)
        for _ in range(rng.randrange(3)):
            name = Name(self.fresh(local=0))
            self.loose.append([f".comm {name.text},{rng.randrange(1, 40)},{1 << rng.randrange(6)}"])
            self.loose += [[f".{word} {name.text}"] for word in ("globl", "hidden") if rng.random() < 0.3]
            self.commons.append(name)
        for _ in range(rng.randrange(1, 4) if self.has_lcomm else 0):
            name = Name(self.fresh(), self.bss)
            local_comm = [f".local {name.text}", f".comm {name.text},{rng.randrange(1, 40)},{1 << rng.randrange(6)}"]
            self.loose.append(rng.choice([[f".lcomm {name.text},{rng.randrange(1, 16)}"], local_comm]))
            self.spaces.append(name)

    def choose_aliases(self) -> None:
        """Assigned symbols. By ours a relocation names what one stands for; GNU as names a global one itself, and for one of a global label its section: so
        relocations name neither here. For one in a section that may be merged GNU as takes the sum as the place. It has none of common symbols."""
        rng = self.rng
        plain = [label for label in self.labels if not label.is_typed]
        for label in rng.sample(plain, min(len(plain), rng.randrange(3))):
            alias = Name(self.fresh(), label.home)
            self.assign(alias, label.text if label.home.entry else self.plus(label.text))
            self.says(alias.text, ["local"] if label.is_local else ["globl", "weak"], [""])
            self.aliases += [alias] if label.is_local else []
        chain = list(self.undefined)
        for _ in range(rng.randrange(4)):
            alias = Name(self.fresh())
            self.assign(alias, self.plus(rng.choice(chain).text))
            self.says(alias.text, ["globl", "weak"], [""])
            chain.append(alias)
        self.aliases += chain[len(self.undefined):]
        for _ in range(rng.randrange(3)):
            name = Name(self.fresh())
            self.assign(name, self.distance() or str(rng.randrange(1000)))
            self.at_end.append(name)

    def assign(self, name: Name, value: str) -> None:
        """An assignment that may stand anywhere. A quoted name has no `=` in GNU as."""
        forms = [f".{self.rng.choice(['set', 'equ', 'equiv'])} {name.text},{value}"] + ([] if name.text.startswith('"') else [f"{name.text} = {value}"])
        self.loose.append([self.rng.choice(forms)])

    # Expressions

    def spelled(self, number: int) -> str:
        """A number in some spelling."""
        rng = self.rng
        if self.constants and abs(number) < 1 << 40 and rng.random() < 0.2:
            name = rng.choice(sorted(self.constants))
            return f"{name}{number - self.constants[name]:+d}"
        if number < 0:
            return rng.choice([f"{number}", f"-({-number})", f"~{-number - 1}", f"0-{-number}"])
        forms = [f"{number}", f"{number:#x}", f"0{number:o}", f"{number:#b}", f"({number - number // 2}+{number // 2})", f"{number // 3}*3+{number % 3}"]
        return f"'{number:c}" if 48 <= number < 127 and chr(number) not in "\\'\"" and rng.random() < 0.3 else rng.choice(forms)

    def plus(self, text: str) -> str:
        """The symbol and a number."""
        number = self.rng.choice([0, 1, 2, 4, 100, self.rng.randrange(3000)])
        return self.rng.choice([text, text, f"{text}+{number}", f"{text}-{number}", f"({text}+{number})", f"{number}+{text}", f"{text}+{number}*2-1"])

    def number(self, width: int) -> str:
        """A number that fits into so many bytes, or now and then does not."""
        bits = 8 * width
        fitting = [self.rng.randrange(100), self.rng.randrange(1 << bits), -self.rng.randrange(1 << bits - 1), (1 << bits) - 1]
        return self.spelled(self.rng.choice(fitting * 6 + ([1 << bits, self.rng.randrange(1 << bits + 6)] if width < 8 else [])))

    def distance(self) -> str | None:
        """The distance of two labels of one section, or of two pieces of space in `.bss`."""
        among = [group for group in [[label for label in self.labels if label.home is place] for place in self.places] + [self.spaces] if len(group) > 1]
        if not among:
            return None
        one, other = self.rng.sample(self.rng.choice(among), 2)
        return f"{one.text}-{other.text}" + self.rng.choice(["", "", "+1", "-2"])

    def reference(self, width: int, is_first: bool) -> str:
        """A symbol and a number, and maybe less a label here, or `.` in the first operand: in a later one that is the operand's place in GNU as. A byte takes
        no distance within its section, which may be from -255 to -129, where GNU as cuts it."""
        here, rng = self.current, self.rng
        inside = [name for name in self.labels + self.aliases + self.spaces if width > 1 or name.home is not here]
        texts = [name.text for name in inside + self.undefined + self.commons] + [f"{n}b" for n in self.numeric if width > 1]
        if width > 1 and rng.random() < 0.1:
            n = rng.randrange(1, 4)
            self.awaited.add(n)
            texts = [f"{n}f"]
        base = [name.text for name in self.labels + self.aliases if name.home is here] + [f"{n}b" for n, place in self.numeric.items() if place is here]
        text = self.plus(rng.choice(texts))
        return text + rng.choice(["", f"-{rng.choice(base)}" if base else "", "-." if is_first else ""])

    def value(self, width: int, is_first: bool) -> str:
        """An operand of a data directive."""
        chance = self.rng.random()
        if chance < 0.4:
            return self.number(width)
        if width == 1 and chance < 0.6 and self.current.coming and self.current.defined:
            return f"{self.rng.choice(self.current.coming).text}-{self.rng.choice(self.current.defined).text}"
        if width > 1 and chance < 0.55:
            known = [self.distance()] + [f"{name.text}{self.rng.choice(['', '+3'])}" for name in self.at_end]
            return self.rng.choice(known) or self.number(width)
        return self.reference(width, is_first)

    # Statements

    def put_data(self) -> str:
        """GNU as fills a section up to a multiple of the size of its entries."""
        width = self.rng.choice([width for width in (1, 2, 4, 8, 8) if width % max(1, self.current.entry) == 0])
        values = ["0" if self.current.is_nobits else self.value(width, number == 0) for number in range(self.rng.randrange(1, 5))]
        return f"{self.rng.choice(DATA[width])} {self.rng.choice([', ', ',']).join(values)}"

    def put_space(self) -> str:
        count, rng = self.spelled(self.rng.choice([0, 1, 3, 8, 20])), self.rng
        if self.current.is_nobits:
            return rng.choice([f".zero {count}", f".skip {count}", f".space {count}, 0", f".fill {count}, 3", f".fill {count}, 8, 0"])
        filled = f".fill {count}, {self.spelled(rng.randrange(10))}"
        return rng.choice([f".zero {count}", f".skip {count}", f".space {count}, {self.spelled(rng.randrange(256))}", f".fill {count}", filled,
                           f"{filled}, {self.spelled(rng.choice([7, 300, 0x12345678, -1]))}"])

    def put_alignment(self) -> str:
        """Padding. GNU as takes 0 as the most bytes for no limit."""
        rng, log = self.rng, self.rng.randrange(6)
        align = rng.choice([f".p2align {self.spelled(log)}", f".align {self.spelled(1 << log)}", f".balign {self.spelled(1 << log)}"])
        fill = rng.choice(["", "", "0", "" if self.current.is_nobits else self.spelled(rng.randrange(256))])
        most = rng.choice(["", "", self.spelled(rng.randrange(1, 20))])
        return f"{align}, {fill}, {most}" if most else f"{align}, {fill}" if fill else align

    def put_org(self) -> str:
        """Bytes up to a place behind this one, or behind a label, which may be too near."""
        fill = "" if self.current.is_nobits else self.rng.choice(["", ", 0", f", {self.spelled(self.rng.randrange(256))}"])
        if self.current.defined and self.rng.random() < 0.2:
            return f".org {self.rng.choice(self.current.defined).text}+{self.rng.randrange(250, 400)}{fill}"
        return f".org .+{self.rng.randrange(20)}{fill}"

    def put_leb128(self) -> str:
        """Numbers in groups of seven bits, and distances to labels that come: in `.sleb128` GNU as extends some sums that it knows wrongly, and takes
        numbers from 2^63 on as no negative ones."""
        rng, is_signed = self.rng, self.rng.random() < 0.5
        values = []
        for _ in range(rng.randrange(1, 4)):
            number = rng.randrange(1 << rng.choice([6, 7, 14, 21, 40, 62]))
            values.append(rng.choice([f"{number}", f"-{number}"]) if is_signed else self.spelled(number))
            if self.current.coming and self.current.defined and rng.random() < 0.6:
                ends = [rng.choice(self.current.coming).text, rng.choice(self.current.defined).text]
                values[-1] = "-".join(reversed(ends) if is_signed and rng.random() < 0.5 else ends)
        return f"{'.sleb128' if is_signed else '.uleb128'} {', '.join(values)}"

    def put_jump(self) -> str:
        """A jump to a local label of this section, or to another object. GNU as leaves one to a global label to the linker, and takes another relocation
        for a label of another section and for a symbol and a number."""
        inside = [label.text for label in self.labels if label.is_local and label.home is self.current]
        inside += [f"{n}b" for n, place in self.numeric.items() if place is self.current]
        return f"{self.rng.choice(JUMPS)} {self.rng.choice(inside * 3 + [name.text for name in self.undefined])}"

    def put_string(self) -> str:
        strings = ['"' + "".join(self.rng.choices(PIECES, k=self.rng.randrange(6))) + '"' for _ in range(self.rng.randrange(1, 3))]
        return f"{self.rng.choice(['.ascii', '.asciz', '.string'])} {', '.join(strings)}"

    def put_size(self) -> str | None:
        """The size of a label that stands in this section, up to here or to a label that comes."""
        typed = [label for label in self.current.defined if label.is_typed]
        if not typed:
            return None
        label = self.rng.choice(typed)
        ends = [".", "."] + [end.text for end in self.current.coming]
        return f".size {label.text},{self.rng.choice(ends)}-{label.text}" if self.rng.random() < 0.8 else f".size {label.text}, {self.spelled(24)}"

    def put_constant(self) -> str:
        """A constant, or another value of one. GNU as assigns nothing more to a symbol of `.equiv`, and forgets the visibility."""
        if self.constants and self.rng.random() < 0.4:
            name = self.rng.choice(sorted(self.constants))
        else:
            name = self.fresh(quoted=0)
            if self.rng.random() < 0.3:
                self.loose.append([f".{self.rng.choice(['globl', 'weak', 'local'])} {name}"])
        number = self.rng.choice([self.rng.randrange(-100, 1000), self.rng.randrange(1 << 40)])
        value, self.constants[name] = self.spelled(number), number
        return self.rng.choice([f".set {name},{value}", f".equ {name}, {value}", f"{name}={value}"])

    def put_here(self) -> str:
        """A name for this place, or for one behind it."""
        alias = Name(self.fresh(), self.current)
        self.aliases.append(alias)
        return f".set {alias.text}, .{'' if self.current.entry else self.rng.choice(['', '', '+4', '-1'])}"

    def put_numeric(self) -> str:
        n = self.rng.randrange(1, 4)
        self.awaited.discard(n)
        self.numeric[n] = self.current
        return f"{n}:"

    def put_block(self) -> list[str]:
        """Numeric labels whose distances become known within a few statements."""
        n = self.rng.choice([5, 12])
        inner = "nop" if not self.current.is_nobits else ".zero 3"
        item = ".zero 2" if self.current.is_nobits else f".byte {n}f-., {n}f-{n}b"
        return [f"{n}:", item, inner, f"{n}:", ".zero 1" if self.current.is_nobits else f".long .-{n}b, {n}b-{n}f", f"{n}:"]

    def put_text(self) -> str:
        self.count += 1
        return self.rng.choice([f'.ident "compare {self.count}"', f'.file "file {self.count}.c"'])

    def enter(self, place: Place, push: bool = False) -> None:
        """Another section, by `.section` or `.pushsection`."""
        if push:
            self.stack.append((self.current, self.previous))
        if place in (self.text, self.data, self.bss):
            self.statements.append(f"{'.pushsection' if push else '.section'} {place.name}" if push or self.rng.random() < 0.3 else place.name)
        else:
            words = place.words if not place.is_seen or self.rng.random() < 0.3 else ""
            self.statements.append(f"{'.pushsection' if push else '.section'} {place.name}{words}")
        place.is_seen = True
        self.previous, self.current = self.current, place

    def change_section(self) -> None:
        """`.previous` changes nothing where there was no change; GNU as warns there, and at a `.popsection` too many, which is a fault of ours."""
        chance = self.rng.random()
        if chance < 0.15:
            self.statements.append(".previous")
            self.current, self.previous = self.previous, self.current
        elif chance < 0.35 and self.stack:
            self.statements.append(".popsection")
            self.current, self.previous = self.stack.pop()
        else:
            self.enter(self.rng.choice(self.places), push=self.rng.random() < 0.35)

    def put_label(self) -> None:
        label = self.current.coming.pop(0)
        self.statements.append(f"{label.text}:")
        self.current.defined.append(label)

    def put_one(self) -> None:
        """A statement that defines no planned symbol."""
        makers = [self.put_data] * 8 + [self.put_size] * 2 + [self.put_constant, self.put_here, self.put_numeric]
        if self.current.entry < 2:
            makers += [self.put_space] * 2 + [self.put_block, self.put_alignment, self.put_org]
            makers += [] if self.current.is_nobits else [self.put_string, self.put_string, self.put_leb128, self.put_jump, self.put_jump] + [lambda: self.rng.choice(INSTRUCTIONS)] * 2
        made = self.rng.choice(makers + ([self.put_text] if self.rng.random() < 0.3 else []))()
        self.statements += made if isinstance(made, list) else [made] if made else []

    def make(self) -> str:
        """The source: statements in some order, then what is still due."""
        rng = self.rng
        rng.shuffle(self.loose)
        steps = rng.randrange(10, 50)
        refused = rng.randrange(steps) if rng.random() < 0.17 else steps
        for step in range(steps):
            if step == refused:
                self.statements += rng.choice(REFUSED).format(*[name.text for name in rng.sample(self.undefined, 2)]).split("\n")
            chance = rng.random()
            if chance < 0.2:
                self.change_section()
            elif chance < 0.4 and self.current.coming:
                self.put_label()
            elif chance < 0.55 and self.loose:
                self.statements += self.loose.pop()
            else:
                self.put_one()
        for place in self.places:
            if place.coming:
                self.enter(place)
            while place.coming:
                self.put_label()
                self.put_one()
        for lines in self.loose:
            self.statements += lines
        self.statements += [f"{n}:" for n in sorted(self.awaited)]
        return "".join(self.laid_out(statement) for statement in self.statements)

    def laid_out(self, statement: str) -> str:
        """The statement with blanks, a comment, and what ends it. Another one may stand behind a label."""
        chance = self.rng.random()
        if statement.endswith(":") and chance < 0.4:
            return f"{statement} "
        end = "; " if chance < 0.1 else " # a comment; nop\n" if chance < 0.15 else " /* a\ncomment */\n" if chance < 0.2 else "\n\n" if chance < 0.25 else "\n"
        return f"{self.rng.choice(['', chr(9), chr(9), '    '])}{statement}{end}"


# ---- The two programs

@dataclass
class Answer:
    """How a run ended, and its object."""
    status: int
    said: str
    object: bytes | None

    def told(self) -> Counter[str]:
        if self.object is None:
            return Counter([f"status {self.status}"])
        try:
            return facts(self.object)
        except (ValueError, LookupError, StopIteration, struct.error) as fault:
            return Counter([f"an object that cannot be read: {fault!r}"])

    def messages(self) -> list[str]:
        """The first errors that were told, if the run was refused."""
        return [] if self.status == 0 else [line for line in self.said.splitlines() if "rror: " in line][:2]


def assemble(program: str, source: bytes, folder: pathlib.Path) -> Answer:
    """Runs a program on the source as `x.s` in this folder."""
    (folder / "x.s").write_bytes(source)
    (folder / "x.o").unlink(missing_ok=True)
    command = [program, "-o", "x.o", "x.s"]
    try:
        run = subprocess.run(command, cwd=folder, stdin=subprocess.DEVNULL, capture_output=True, env=ENVIRONMENT, timeout=60, check=False)
    except subprocess.TimeoutExpired:
        return Answer(-1, "Error: no answer within a minute", None)
    said = run.stderr.decode(errors="replace")
    if run.returncode == 0:
        return Answer(0, said, (folder / "x.o").read_bytes() if (folder / "x.o").exists() else b"")
    return Answer(run.returncode, said, None)


def differences(ours: Answer, gnu: Answer) -> list[str]:
    """What only one of them says; where one refuses, how both ended, and its first messages."""
    one, other = ours.told(), gnu.told()
    if one == other:
        return []
    if ours.object is None or gnu.object is None:
        return [f"{sign} {line}" for sign, answer in (("<", ours), (">", gnu)) for line in [f"status {answer.status}"] + answer.messages()]
    both = [(line, "<") for line in (one - other).elements()] + [(line, ">") for line in (other - one).elements()]
    return [f"{sign} {line}" for line, sign in sorted(both)]


def keep(folder: pathlib.Path, number: int, source: bytes, ours: Answer, gnu: Answer) -> pathlib.Path:
    """Puts a source and its objects into the folder. Answers the source's path."""
    path = folder / f"{number:04}.s"
    path.write_bytes(source)
    for ending, answer in ((".ours.o", ours), (".gnu.o", gnu)):
        if answer.object is not None:
            path.with_suffix(ending).write_bytes(answer.object)
    return path


def program(word: str) -> str:
    """The path of a program, by its own path."""
    path = pathlib.Path(word).resolve()
    if not os.access(path, os.X_OK) or path.is_dir():
        raise argparse.ArgumentTypeError(f"{word} is no program")
    return str(path)


def main() -> int:
    parser = argparse.ArgumentParser(description="Compares the objects of the built assembler with those of GNU as on random sources.")
    parser.add_argument("--ours", type=program, required=True, help="our program, as build/as")
    parser.add_argument("--gnu", type=program, default="/usr/bin/as", help="GNU as (default /usr/bin/as)")
    parser.add_argument("--count", metavar="N", type=int, default=1000, help="how many sources (default 1000)")
    parser.add_argument("--seed", metavar="N", type=int, default=1, help="where the sources come from (default 1)")
    parser.add_argument("--keep", metavar="DIR", type=pathlib.Path, help="where all sources and objects are kept; else those that differ, in a new folder")
    options = parser.parse_args()
    kept = options.keep
    if kept:
        kept.mkdir(parents=True, exist_ok=True)
    taken = differ = 0
    with tempfile.TemporaryDirectory() as ours_folder, tempfile.TemporaryDirectory() as gnu_folder:
        for number in range(options.count):
            source = Maker(random.Random(f"{options.seed} {number}")).make().encode("latin-1")
            ours, gnu = assemble(options.ours, source, pathlib.Path(ours_folder)), assemble(options.gnu, source, pathlib.Path(gnu_folder))
            taken += gnu.object is not None
            found = differences(ours, gnu)
            if found and not kept:
                kept = pathlib.Path(tempfile.mkdtemp(prefix="compare-"))
            if found or options.keep:
                path = keep(kept, number, source, ours, gnu)
            if found and differ < SHOWN_SOURCES:
                more = [f"... and {len(found) - SHOWN_LINES} lines more"] if len(found) > SHOWN_LINES else []
                print(path, *found[:SHOWN_LINES], *more, sep="\n    ", flush=True)
            differ += bool(found)
    print(f"GNU as takes {taken} of them, and refuses {options.count - taken}")
    print(f"{options.count} sources, {differ} differences")
    return 1 if differ else 0


if __name__ == "__main__":
    sys.exit(main())
