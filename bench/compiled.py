"""Sources as compilers write them, for `bench.py`: what gcc and g++ make of the files of this folder and of random programs."""
import itertools
import os
import pathlib
import re
import subprocess
import sys
from collections.abc import Iterator

sys.dont_write_bytecode = True
from c_programs import c_program  # noqa: E402

HERE = pathlib.Path(__file__).resolve().parent
PROGRAMS = HERE / "programs.c"
TEMPLATES = HERE / "templates.cc"
RANDOM_PROGRAMS = 20  # so many are compiled at most, some 100,000 lines
ENVIRONMENT = {**os.environ, "LC_ALL": "C"}

# What leaves out the tables for unwinding.
NO_TABLES = "-fno-asynchronous-unwind-tables"


def compiled(*words: str, text: str | None = None, compiler: str = "gcc") -> str:
    """What gcc makes of a source at -O2."""
    command = [compiler, "-O2", "-w", "-S", "-o", "-", *words]
    return subprocess.run(command, input=text, capture_output=True, text=True, env=ENVIRONMENT, check=True).stdout


def code() -> Iterator[str]:
    """The instructions that gcc makes of `programs.c` at -O2, one a line, without the direct jumps. Their labels `.L1` are undefined symbols `L1`."""
    lines = [line for line in compiled(NO_TABLES, str(PROGRAMS)).splitlines(keepends=True) if re.match(r"\t[a-z]", line) and not re.match(r"\tj\w+\t[^*]", line)]
    return itertools.cycle(re.sub(r"(?<![\w.])\.L", "L", line) for line in lines)


def cut_behind_names(made: str) -> list[str]:
    """What a compiler made, cut behind each symbol that it defines and each section that has the name of one: joined by a text, these pieces have it behind all
    these names."""
    names = {a or b for a, b in re.findall(r"^(?:([a-zA-Z_.][\w.]*):|\t\.(?:comm|set)\t([\w.]+))", made, re.MULTILINE)}

    def is_own(word: str) -> bool:
        return word in names or word[0] == "." and any(word[dot.end():] in names for dot in re.finditer(r"\.", word))

    ends = [word.end() for word in re.finditer(r"[\w.]+", made) if is_own(word[0])]
    return [made[begin:end] for begin, end in zip([0, *ends], [*ends, len(made)])]


def named_anew(*words: str) -> Iterator[str]:
    """What gcc makes of `programs.c`, over and over, each time with other names."""
    pieces = cut_behind_names(compiled(*words, str(PROGRAMS)))
    return (f"_{n}".join(pieces) for n in itertools.count())


def functions() -> Iterator[str]:
    """All that gcc makes of `programs.c` at -O2 but unwind tables, over and over, each time with other names."""
    return named_anew(NO_TABLES)


def frames() -> Iterator[str]:
    """The same with the unwind tables."""
    return named_anew()


def intel() -> Iterator[str]:
    """The same as `functions`, in Intel syntax."""
    return named_anew(NO_TABLES, "-masm=intel")


def programs() -> Iterator[str]:
    """All that gcc makes of the random programs of `c_programs.py` at -O2, over and over, each time with other names. For other processors
    gcc writes `rep bsf`, which is no instruction here."""
    made: list[list[str]] = []
    for n in itertools.count():
        if n < RANDOM_PROGRAMS:
            made.append(cut_behind_names(compiled("-mtune=nehalem", "-x", "c", "-", text=c_program(n))))
        yield f"_{n}".join(made[n % RANDOM_PROGRAMS])


def debug() -> Iterator[str]:
    """What gcc makes of `programs.c` at -O2 with debug information, over and over, each time with other names; its files get their numbers once."""
    made = compiled("-g", "-gno-variable-location-views", str(PROGRAMS))
    yield "".join(re.findall(r"^\t\.file \d[^\n]*\n", made, re.MULTILINE))
    pieces = cut_behind_names(re.sub(r"^\t\.file \d[^\n]*\n", "", made, flags=re.MULTILINE))
    yield from (f"_{n}".join(pieces) for n in itertools.count())


def cxx() -> Iterator[str]:
    """What g++ makes of `templates.cc` at -O2, over and over, each time with other names; the pointer to the personality stands there once."""
    made = compiled("-std=c++17", "-fno-gnu-unique", "-mtune=nehalem", str(TEMPLATES), compiler="g++")
    personality = re.search(r"^\t\.hidden\tDW\.ref\.__gxx_personality_v0\n.*?^\t\.quad\t__gxx_personality_v0\n", made, re.MULTILINE | re.DOTALL)
    if personality:
        yield personality[0]
        made = made.replace(personality[0], "")
    pieces = cut_behind_names(made)
    yield from (f"_{n}".join(pieces) for n in itertools.count())
