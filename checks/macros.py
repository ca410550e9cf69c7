#!/usr/bin/env python3
"""Compares the objects of the built assembler with those of GNU as on random sources of macros, repeats, conditionals and included files.

    checks/macros.py --ours build/as [--gnu /usr/bin/as] [--count 500] [--seed 1] [--keep DIR]

Each source, with the two files that it includes, is made from the seed and its number alone. Both programs assemble it in a folder of their own. Compared is
what checks/compare.py compares: the exit status, and of two objects sections, bytes, symbols and relocations. Prints the first sources that differ, with `<`
before what only our program says and `>` before what only GNU as says, and where they are kept. Ends with 1 where a source differs.

Sources have nothing that docs/COMPATIBILITY.md lists. About one source in six has a statement that both refuse.
"""
import argparse
import pathlib
import random
import sys
import tempfile
from dataclasses import dataclass

sys.dont_write_bytecode = True
from compare import SHOWN_LINES, SHOWN_SOURCES, Answer, assemble, differences, keep, program  # noqa: E402

DEEPEST, LONGEST = 3, 4
COMPARISONS = [".if", ".ifne", ".ifeq", ".iflt", ".ifle", ".ifgt", ".ifge"]
DATA = [".byte", ".short", ".long", ".quad"]
INSTRUCTIONS = ["nop", "ret", "cld", "push %rbx", "mov $1, %eax", "xor %ecx, %ecx", "add $0x10, %rsp"]
# What both refuse, wherever it stands. A macro `both` has one parameter, which is required.
REFUSED = [".else", ".endif", ".elseif 1", "both", "both 1, 2", "both q=1", ".macro both b\n.endm", ".macro open\nnop", ".rept 2\nnop", ".if 1\nnop", ".rept undefined\n.endr",
           ".if undefined\n.endif", ".macro twice a, a\n.endm", ".irp\n.endr", ".ifdef\n.endif", ".if 1 2\n.endif"]


@dataclass
class Parameter:
    """A parameter of a macro. A call may leave out one with a default; the last one may take all that is left."""
    name: str
    default: str = ""
    takes_rest: bool = False

    def written(self) -> str:
        return self.name + (f"={self.default}" if self.default else ":vararg" if self.takes_rest else "")


@dataclass
class Macro:
    """A macro that is defined, and how deep the calls are nested that one of it makes."""
    name: str
    parameters: list[Parameter]
    depth: int


class Maker:
    """Makes a source and the files that it includes. A value is a small number, so that repeats stay short."""

    def __init__(self, rng: random.Random) -> None:
        self.rng = rng
        self.macros: list[Macro] = []
        self.symbols: list[str] = []
        self.labels: list[str] = []
        self.made = 0
        self.files: dict[str, list[str]] = {}

    def fresh(self, front: str) -> str:
        self.made += 1
        return f"{front}{self.made}"

    def number(self) -> str:
        return self.rng.choice(["0", "1", "2", "3", "4", "0x2", "03"])

    def value(self, names: list[str]) -> str:
        """A value of a few numbers, of parameters and of symbols that are assigned."""
        rng = self.rng
        leaves = [self.number()] + [f"\\{name}" for name in names] * 2 + self.symbols[-2:]
        one = rng.choice(leaves)
        chance = rng.random()
        return one if chance < 0.6 else f"({one}+{rng.choice(leaves)})" if chance < 0.8 else f"({one}&3)" if chance < 0.9 else f"({one}>{self.number()})"

    def data(self, names: list[str]) -> str:
        rng = self.rng
        if rng.random() < 0.2:
            return rng.choice(INSTRUCTIONS)
        values = [self.value(names) for _ in range(rng.randrange(1, 4))]
        return f"{rng.choice(DATA)} {', '.join(f'({value})&0x7f' for value in values)}"

    def call(self, names: list[str], depth: int, in_file: bool = False) -> list[str]:
        """A call of a macro that makes no deeper calls than these."""
        usable = [macro for macro in self.macros if macro.depth < depth]
        if not usable:
            return [self.data(names)]
        macro = self.rng.choice(usable)
        arguments, by_name = [], False
        for at, parameter in enumerate(macro.parameters):
            value = self.value(names)
            if parameter.takes_rest:
                if not by_name and self.rng.random() < 0.7:
                    arguments.append(", ".join(self.value(names) for _ in range(self.rng.randrange(1, 4))))
                elif not by_name:
                    arguments.append(value)
                else:
                    arguments.append(f"{parameter.name}={value}")
            elif parameter.default and self.rng.random() < 0.3:
                by_name = True
            elif by_name or self.rng.random() < 0.2:
                by_name = True
                arguments.append(f"{parameter.name}={value}")
            else:
                arguments.append(value)
        label = [f"{self.label()}:"] if in_file and self.rng.random() < 0.2 else []
        return [" ".join(label + [macro.name, ", ".join(arguments)])]

    def label(self) -> str:
        self.labels.append(self.fresh("l"))
        return self.labels[-1]

    def condition(self, names: list[str]) -> str:
        rng = self.rng
        chance = rng.random()
        if chance < 0.7:
            return f"{rng.choice(COMPARISONS)} {self.value(names)}-{self.number()}"
        if chance < 0.8:
            return f"{rng.choice(['.ifdef', '.ifndef'])} {rng.choice(self.labels + self.symbols + ['never'])}"
        if chance < 0.9 and names:
            return f"{rng.choice(['.ifb', '.ifnb'])} \\{rng.choice(names)}"
        return f"{rng.choice(['.ifc', '.ifnc'])} {self.value(names)},{self.value(names)}"

    def choose(self, names: list[str], depth: int, calls: int, may_exit: bool) -> list[str]:
        lines = [self.condition(names)] + self.body(names, depth + 1, calls, may_exit)
        while self.rng.random() < 0.25:
            lines += [f".elseif {self.value(names)}"] + self.body(names, depth + 1, calls, may_exit)
        if self.rng.random() < 0.5:
            lines += [".else"] + self.body(names, depth + 1, calls, may_exit)
        return lines + [".endif"]

    def repeat(self, names: list[str], depth: int, calls: int) -> list[str]:
        """A repeat; in its body its name is a parameter too."""
        rng = self.rng
        chance = rng.random()
        if chance < 0.4:
            return [f".rept ({self.value(names)})&3"] + self.body(names, depth + 1, calls, False) + [".endr"]
        name = self.fresh("v")
        if chance < 0.75:
            values = ",".join(self.value(names) for _ in range(rng.randrange(1, 4)))
            return [f".irp {name},{values}"] + self.body(names + [name], depth + 1, calls, False) + [".endr"]
        return [f".irpc {name},{rng.randrange(1000)}"] + self.body(names + [name], depth + 1, calls, False) + [".endr"]

    def body(self, names: list[str], depth: int, calls: int, may_exit: bool, most: int = LONGEST) -> list[str]:
        """The statements of a body, in which these parameters stand and calls nest no deeper than this."""
        rng, lines = self.rng, []
        for _ in range(rng.randrange(1, most)):
            chance = rng.random()
            if chance < 0.45 or depth > DEEPEST:
                lines.append(self.data(names))
            elif chance < 0.65:
                lines += self.choose(names, depth, calls, may_exit)
            elif chance < 0.8:
                lines += self.repeat(names, depth, calls)
            else:
                lines += self.call(names, calls)
        if may_exit and rng.random() < 0.1:
            lines.insert(rng.randrange(len(lines) + 1) if depth == 1 else len(lines), ".exitm") if depth > 1 else None
        return lines

    def define(self) -> list[str]:
        rng = self.rng
        names = [self.fresh("p") for _ in range(rng.randrange(4))]
        parameters = [Parameter(name, self.number() if rng.random() < 0.4 else "") for name in names]
        if parameters and rng.random() < 0.2 and not any(parameter.default for parameter in parameters):
            parameters[-1].takes_rest = True
        depth = rng.randrange(3)
        plain = [parameter.name for parameter in parameters if not parameter.takes_rest]
        lines = self.body(plain, 1, depth, True, 6)
        if rng.random() < 0.3:
            lines.insert(0, f".L{self.made}_\\@: .byte \\@&0x7f")
        if parameters and parameters[-1].takes_rest:
            lines.append(f".byte \\{parameters[-1].name}")
        macro = Macro(self.fresh("m"), parameters, depth)
        self.macros.append(macro)
        separator = rng.choice([", ", ",", " "])
        return [f".macro {macro.name} {separator.join(parameter.written() for parameter in parameters)}"] + lines + [".endm"]

    def one(self) -> list[str]:
        """Statements of a file."""
        chance = self.rng.random()
        if chance < 0.2:
            return self.define()
        if chance < 0.5:
            return self.call([], 3, True)
        if chance < 0.6:
            self.symbols.append(name := self.fresh("s"))
            return [f"{name} = {self.number()}"]
        if chance < 0.65:
            return [f"{self.label()}:"]
        if chance < 0.7 and self.macros and self.rng.random() < 0.5:
            return [f".purgem {self.macros.pop(self.rng.randrange(len(self.macros))).name}"] if not any(macro.depth for macro in self.macros) else [self.data([])]
        return self.body([], 1, 3, False)

    def make(self) -> str:
        rng = self.rng
        lines = [".macro both a:req", ".byte \\a", ".endm"]
        steps = rng.randrange(5, 25)
        refused = rng.randrange(steps) if rng.random() < 0.17 else steps
        for step in range(steps):
            if step == refused:
                lines += rng.choice(REFUSED).split("\n")
            elif rng.random() < 0.1 and len(self.files) < 2:
                name = f"f{len(self.files)}.inc"
                self.files[name] = [".byte 1"] + [line for _ in range(rng.randrange(4)) for line in self.one()]
                lines.append(f'.include "{name}"')
            else:
                lines += self.one()
        return "".join(f"{line}\n" for line in lines)


def answer(command: str, maker: Maker, source: bytes, folder: pathlib.Path) -> Answer:
    """What a program answers for a source and its files."""
    for old in folder.glob("*.inc"):
        old.unlink()
    for name, lines in maker.files.items():
        (folder / name).write_text("".join(f"{line}\n" for line in lines))
    return assemble(command, source, folder)


def main() -> int:
    parser = argparse.ArgumentParser(description="Compares the objects of the built assembler with those of GNU as on random sources of macros.")
    parser.add_argument("--ours", type=program, required=True, help="our program, as build/as")
    parser.add_argument("--gnu", type=program, default="/usr/bin/as", help="GNU as (default /usr/bin/as)")
    parser.add_argument("--count", metavar="N", type=int, default=500, help="how many sources (default 500)")
    parser.add_argument("--seed", metavar="N", type=int, default=1, help="where the sources come from (default 1)")
    parser.add_argument("--keep", metavar="DIR", type=pathlib.Path, help="where all sources and objects are kept; else those that differ, in a new folder")
    options = parser.parse_args()
    kept = options.keep
    if kept:
        kept.mkdir(parents=True, exist_ok=True)
    taken = differ = 0
    with tempfile.TemporaryDirectory() as ours_folder, tempfile.TemporaryDirectory() as gnu_folder:
        for number in range(options.count):
            maker = Maker(random.Random(f"{options.seed} {number}"))
            source = maker.make().encode()
            ours, gnu = (answer(command, maker, source, pathlib.Path(folder)) for command, folder in ((options.ours, ours_folder), (options.gnu, gnu_folder)))
            taken += gnu.object is not None
            found = differences(ours, gnu)
            if found and not kept:
                kept = pathlib.Path(tempfile.mkdtemp(prefix="macros-"))
            if found or options.keep:
                path = keep(kept, number, source, ours, gnu)
                for name, lines in maker.files.items():
                    path.with_name(f"{path.stem}.{name}").write_text("".join(f"{line}\n" for line in lines))
            if found and differ < SHOWN_SOURCES:
                more = [f"... and {len(found) - SHOWN_LINES} lines more"] if len(found) > SHOWN_LINES else []
                print(path, *found[:SHOWN_LINES], *more, sep="\n    ", flush=True)
            differ += bool(found)
    print(f"GNU as takes {taken} of them, and refuses {options.count - taken}")
    print(f"{options.count} sources, {differ} differences")
    return 1 if differ else 0


if __name__ == "__main__":
    sys.exit(main())
