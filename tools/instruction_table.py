"""Reads the instruction table from its source text: `tools/instructions.py` prints it, `tools/instruction_indices.py` writes what is found by it, and
`checks/rows.py` compares it with objdump.

The rows stand one a line in a file for each chapter, in the order that the table names them in; beside the table stand the arms of macros that say what the
short words of their columns are, in the types of `forms.rt`, and the numbers of their names stand in the files of `mnemonics.rt`. What cannot be read is a TableError that
tells its place, and so is a row whose columns do not belong together.
"""
import pathlib
import re
from dataclasses import dataclass


class TableError(Exception):
    """A table that is not what this module reads."""


# ---- Constants of the source text

CLASSES = ["Byte", "High", "Word", "Long", "Quad", "Xmm"]
BITS = {"Byte": 8, "Word": 16, "Long": 32, "Quad": 64, "Xmm": 128}
COLUMNS = ["name", "size", "lead", "map", "code", "shape", "first", "second", "third", "immediate", "words", "outputs"]


@dataclass(frozen=True)
class Term:
    """A value of an enum or a struct: its type, its variant, and its parts."""
    type: str
    variant: str
    parts: tuple


class Forms:
    """The types of `forms.rt`: of each enum and struct the variants, with the names and types of their parts."""

    def __init__(self, path: pathlib.Path):
        text = re.sub(r"//.*", "", path.read_text())
        self.variants: dict[str, dict[str, list[tuple[str, str]]]] = {"Class": {name: [] for name in CLASSES}}
        for name, body in re.findall(r"pub enum (\w+) \{(.*?)\n\}", text, re.DOTALL):
            self.variants[name] = {variant: [("", part) for part in parts.split(", ") if part] for variant, parts in re.findall(r"(\w+)(?:\((.*?)\))?,", body)}
        for name, body in re.findall(r"pub struct (\w+) \{(.*?)\n\}", text, re.DOTALL):
            self.variants[name] = {name: re.findall(r"pub (\w+): (\w+),", body)}
        self.columns = self.variants.get("Row", {}).get("Row", [])
        if [name for name, _ in self.columns] != COLUMNS:
            raise TableError(f"{path}: a Row has other fields: {self.columns}")

    def value(self, kind: str, text: str) -> Term | int | bool:
        """The value of a constant expression of this type."""
        tokens = re.findall(r"\w+|::|[(){},:]", text)
        if "".join(tokens) != re.sub(r"\s", "", text):
            raise TableError(f"no constant: {text}")
        value = self.term(kind, tokens)
        if tokens:
            raise TableError(f"more than a constant: {text}")
        return value

    def term(self, kind: str, tokens: list[str]) -> Term | int | bool:
        """The value at the beginning of the tokens, which are taken away."""
        try:
            variant = tokens.pop(0)
            if kind == "bool":
                return {"true": True, "false": False}[variant]
            if kind == "u8":
                return range(256)[int(variant, 0)]
            if tokens[:1] == ["::"] and variant == kind:
                variant = tokens.pop(1)
                tokens.pop(0)
            parts = []
            for number, (name, part) in enumerate(self.variants[kind][variant]):
                due = ["," if number else "{" if name else "("] + ([name, ":"] if name else [])
                if [tokens.pop(0) for _ in due] != due:
                    raise TableError(f"{kind}::{variant} has other parts")
                parts.append(self.term(part, tokens))
            if parts and tokens[0] == ",":
                tokens.pop(0)
            if parts and tokens.pop(0) not in (")", "}"):
                raise TableError(f"{kind}::{variant} has more parts")
            return Term(kind, variant, tuple(parts))
        except (KeyError, IndexError, ValueError) as fault:
            raise TableError(f"no {kind}: {fault}") from fault


# ---- Rows

ESCAPES = {"One": b"", "Two": b"\x0f", "Three38": b"\x0f\x38", "Three3A": b"\x0f\x3a"}

# The bytes of each kind of immediate.
WIDTHS = {"Absent": 0, "Byte": 1, "Count": 1, "Sext16": 1, "Sext32": 1, "Sext64": 1, "Word": 2, "Long": 4, "LongSext": 4, "Quad": 8, "Rel8": 1, "Short": 1,
          "Rel32": 4}
RELATIVE = ["Rel8", "Short", "Rel32"]


@dataclass(frozen=True)
class Operand:
    """An operand of a row: what it is (`RegMem`, `Reg`, `Low`, `Accumulator`, `Cl`, `One`, `Immediate`, `Target`), the class of its register, and the bytes of
    its memory."""
    kind: str
    register: str = ""
    memory: int = 0


@dataclass(frozen=True)
class Row:
    """A form of an instruction, with its chapter, the place of its line, and its columns."""
    chapter: str
    place: str
    text: str
    name: str
    size: int
    has_66: bool
    repeat: str  # `Absent`, `F2` or `F3`
    rex_w: bool
    map: str
    code: int
    shape: str  # `Plain`, `Low`, `LowNotFirst`, `Fixed`, `Digit` or `Slash`
    digit: int  # of `Digit`; the byte of `Fixed`
    rm: str  # of `Digit` and `Slash`: `Any`, `Memory` or `Register`
    operands: tuple[Operand, ...]
    immediate: str
    words: str
    destinations: str
    implied: str
    store: str

    def operand(self, kind: str) -> Operand | None:
        """The operand of this kind."""
        return next((operand for operand in self.operands if operand.kind == kind), None)

    def fault(self) -> str | None:
        """Why the columns do not belong together, if they do not."""
        kinds = [operand.kind for operand in self.operands]
        places = {"Plain": [], "Fixed": [], "Low": ["Low"], "LowNotFirst": ["Low"], "Digit": ["RegMem"], "Slash": ["Reg", "RegMem"]}[self.shape]
        if sorted(kind for kind in kinds if kind in ("RegMem", "Reg", "Low")) != places:
            return "its shape has no place for its operands"
        if (self.immediate != "Absent") != (kinds.count("Immediate") + kinds.count("Target") == 1) or ("Target" in kinds) != (self.immediate in RELATIVE):
            return "its immediate is of another kind than its operands"
        if self.shape == "Digit" and self.digit > 7 or self.shape in ("Low", "LowNotFirst") and self.code % 8:
            return "its digit or its opcode is no number for registers"
        if (self.words == "Lock") and (self.rm == "Register" or kinds[:1] != ["RegMem"]) or self.words in ("Rep", "Repe") and self.repeat != "Absent":
            return "it takes no such prefix word"
        bits = [BITS[operand.register] for operand in self.operands if operand.register not in ("", "Xmm")]
        if self.size and bits and self.size not in bits or "Target" in kinds and self.size != 64:
            return "no operand has its size"
        if len(kinds) < {"Nothing": 0, "First": 1, "FirstAndSecond": 2}[self.destinations]:
            return "it writes more operands than it has"
        return None


def expanded(text: str, value: str) -> str:
    """The value of a short word, with the call of a macro of one arm, which puts words into a constant, made."""
    call = re.fullmatch(r"(\w+)!\((.*)\)", value)
    if not call:
        return value
    arm = re.search(rf"^macro_rules! {call[1]} \{{\n    \(([^()]*)\) => \{{\n(.*?)\n    \}};\n\}}", text, re.MULTILINE | re.DOTALL)
    names = re.findall(r"\$(\w+):ident", arm[1]) if arm else []
    if not names or len(names) != len(call[2].split()):
        raise TableError(f"no macro takes these words: {value}")
    said = dict(zip(names, call[2].split()))
    return re.sub(r"\$(\w+)", lambda name: said[name[1]], arm[2]).strip()


def words_in(text: str, forms: Forms) -> dict[str, Term]:
    """The short words of the columns, by the arms of macros that have one word."""
    words: dict[str, Term] = {}
    for word, value in re.findall(r"^ *\((\w+)\) => \{ (.*?) \};", text, re.MULTILINE | re.DOTALL):
        value = expanded(text, value)
        term = forms.value(re.match(r"\w*", value)[0], value)
        if word in words:
            raise TableError(f"{word} says two things")
        words[word] = term
    return words


def rows_in(folder: pathlib.Path) -> list[Row]:
    """The rows of the table."""
    forms = Forms(folder / "forms.rt")
    path, text = file_with(folder, "ROWS")
    columns = re.findall(r"\$(\w+):(?:ident|literal)", text[text.find("macro_rules! rows {"):])
    if columns != COLUMNS:
        raise TableError(f"{path}: a row has other columns: {columns}")
    words = words_in(text, forms)
    found = re.search(r"^pub static ROWS: \[Row; (\d+)\] = (\w+)! \{\n([\w\s]*)rows;\n\};", text, re.MULTILINE)
    if not found:
        raise TableError(f"{path}: ROWS has another form")
    rows = [row for name in [found[2], *found[3].split()] for row in rows_of_chapter(folder, name, forms, words)]
    if len(rows) != int(found[1]):
        raise TableError(f"{path}: it has {len(rows)} rows, and says {found[1]}")
    return rows


def chapter_in(path: pathlib.Path, name: str) -> tuple[int, list[str]]:
    """The lines of the rows that the macro of this name hands on behind those before, and the number of the first."""
    text = path.read_text()
    found = re.search(rf"^macro_rules! {name} \{{\n.*; \$\(\$before\)\*\n(.*?)^    \}} \}};\n\}}$", text, re.MULTILINE | re.DOTALL)
    if not found:
        raise TableError(f"{path}: it has another form")
    return text[:found.start(1)].count("\n") + 1, found[1].splitlines()


def lines_of_chapter(path: pathlib.Path, name: str) -> list[str]:
    """The lines of the rows that the macro of this name hands on."""
    return chapter_in(path, name)[1]


def rows_of_chapter(folder: pathlib.Path, name: str, forms: Forms, words: dict[str, Term]) -> list[Row]:
    """The rows of the file of this name, which its macro hands on behind those before."""
    path = folder / "chapters" / f"{name}.rt"
    first, lines = chapter_in(path, name)
    rows, chapter = [], ""
    for number, line in enumerate(map(str.strip, lines), first):
        if line.startswith("// "):
            chapter = line[3:]
        elif line:
            place = f"{path.relative_to(folder)}:{number}"
            try:
                rows.append(row_of(chapter, place, line, forms, words))
            except (TableError, KeyError) as fault:
                raise TableError(f"{place}: {fault}") from fault
    return rows


def row_of(chapter: str, place: str, line: str, forms: Forms, words: dict[str, Term]) -> Row:
    """The row that a line has."""
    columns = line.removesuffix(";").split()
    if len(columns) != len(COLUMNS) or not line.endswith(";") or not chapter:
        raise TableError("no row")
    said: list[Term | int] = []
    for (_, kind), column in zip(forms.columns[1:], columns[1:]):
        said.append(words[column] if column in words and words[column].type == kind else forms.value(kind, column))
    size, lead, map_, code, shape, first, second, third, immediate, prefixes, outputs = said
    operands = [operand_of(term) for term in (first, second, third)]
    present = [operand for operand in operands if operand.kind != "Absent"]
    if operands[:len(present)] != present or size not in (0, 8, 16, 32, 64):
        raise TableError("an operand stands behind none, or the size is none")
    digit = shape.parts[0] if shape.variant in ("Digit", "Fixed") else 0
    rm = shape.parts[-1].variant if shape.variant in ("Digit", "Slash") else "Any"
    destinations, implied, store = outputs.parts
    has_66, repeat, rex_w = lead.parts
    row = Row(chapter, place, " ".join(columns), columns[0], size, has_66, repeat.variant, rex_w, map_.variant, code, shape.variant, digit, rm, tuple(present),
              immediate.variant, prefixes.variant, destinations.variant, implied.variant, store.variant)
    if fault := row.fault():
        raise TableError(fault)
    return row


def operand_of(term: Term) -> Operand:
    """What a pattern says."""
    parts = [part.variant if isinstance(part, Term) else part for part in term.parts]
    return Operand(term.variant, *parts)


def check_names(rows: list[Row], path: pathlib.Path) -> None:
    """Raises TableError where the numbers of names are not their order in the table, or the rows of a name do not stand together, by their sizes."""
    text = "".join((path.with_suffix("") / f"{name}.rt").read_text() for name in re.findall(r"^pub mod (\w+);", path.read_text(), re.MULTILINE))
    numbers = {name: int(number) for name, number in re.findall(r"pub const (\w+): u16 = (\d+);", text)}
    if list(dict.fromkeys(row.name for row in rows)) != list(numbers) or list(numbers.values()) != list(range(text.count("pub const"))):
        raise TableError(f"{path}: the names are not those of the table, by their order")
    for one, other in zip(rows, rows[1:]):
        if (numbers[one.name], one.size) > (numbers[other.name], other.size):
            raise TableError(f"{other.place} is not where the rows of its name and size stand: {other.text}")


def file_with(folder: pathlib.Path, table: str) -> tuple[pathlib.Path, str]:
    """The file of the folder that has this table, and its text."""
    paths = [path for path in sorted(folder.glob("*.rt")) if f"pub static {table}:" in path.read_text()]
    if len(paths) != 1:
        raise TableError(f"{folder}: {len(paths)} files have {table}")
    return paths[0], paths[0].read_text()


def read_table(folder: pathlib.Path) -> list[Row]:
    """The rows of the table in this folder, in their order. Raises TableError or OSError."""
    rows = rows_in(folder)
    check_names(rows, folder / "mnemonics.rt")
    return rows


# ---- Mnemonics

@dataclass(frozen=True)
class Name:
    """A mnemonic: the name of rows that it stands for, the size in bits that it fixes or 0, and by which rule its operands are read."""
    text: str
    row: str
    size: int
    rule: str


def read_names(folder: pathlib.Path, table: str) -> list[Name]:
    """The mnemonics of a syntax: ATT_NAMES or INTEL_NAMES. Raises TableError or OSError."""
    path, text = file_with(folder, table)
    whole = re.search(rf"^pub static {table}: \[\w+; (\d+)\] = (\w+)! \{{\n(.*?)^\}};", text, re.MULTILINE | re.DOTALL)
    if not whole:
        raise TableError(f"{path}: {table} has another form")
    lines = whole[3].splitlines()
    if chapters := re.fullmatch(r" *([\w ]*)names;\n", whole[3]):
        lines = [line for name in [whole[2], *chapters[1].split()] for line in lines_of_chapter(path.with_suffix("") / f"{name}.rt", name)]
    names = []
    for line in filter(None, map(str.strip, lines)):
        found = re.fullmatch(r'b"(\w+) *" +(\d+) +(\w+) +(\d+) +(\w+)(\(\w+\))?;', line)
        if not found or len(found[1]) != int(found[2]):
            raise TableError(f"{path}: no name: {line}")
        names.append(Name(found[1], found[3], int(found[4]), found[5]))
    if len(names) != int(whole[1]):
        raise TableError(f"{path}: it has {len(names)} names, and says {whole[1]}")
    return names
