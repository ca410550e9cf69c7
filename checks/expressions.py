#!/usr/bin/env python3
"""Compares the values of random constant expressions, as the built assembler writes them, with Python's integers.

    checks/expressions.py build/as [COUNT [SEED]]

Each expression stands eight times in a `.byte`, so that all 64 bits of its value are written. The texts have as few parentheses as the order of
precedence allows, and some more. Ends with 1 where a byte differs, and tells the first expression that does.
"""
import pathlib
import random
import subprocess
import sys
import tempfile

MASK = (1 << 64) - 1
HEADER = 64  # Bytes of the ELF header, behind which `.text` stands.

# The operators by how tightly they bind: the last level binds the tightest.
LEVELS = [["||"], ["&&"], ["==", "<>", "!=", "<", ">", "<=", ">="], ["+", "-"], ["|", "&", "^", "!"], ["*", "/", "%", "<<", ">>"]]
PREFIX = len(LEVELS)
LEVEL_OF = {op: level for level, ops in enumerate(LEVELS) for op in ops}


def signed(n: int) -> int:
    """A number modulo 2^64 in two's complement."""
    return n - (1 << 64) if n >> 63 else n


def combined(op: str, a: int, b: int) -> int:
    """What an operator gives for two numbers modulo 2^64. Raises ZeroDivisionError where the divisor is 0."""
    x, y = signed(a), signed(b)
    compared = {"==": x == y, "<>": x != y, "!=": x != y, "<": x < y, ">": x > y, "<=": x <= y, ">=": x >= y}
    if op in compared:
        return MASK if compared[op] else 0
    if op in ("/", "%"):
        quotient = abs(x) // abs(y)
        quotient = -quotient if (x < 0) != (y < 0) else quotient
        return (quotient if op == "/" else x - quotient * y) & MASK
    if op in ("<<", ">>"):
        return 0 if b > 63 else (a << b) & MASK if op == "<<" else a >> b
    plain = {"*": a * b, "+": a + b, "-": a - b, "|": a | b, "&": a & b, "^": a ^ b, "!": a | (b ^ MASK), "&&": int(a != 0 and b != 0), "||": int(a != 0 or b != 0)}
    return plain[op] & MASK


def number(rng: random.Random) -> tuple[str, int, int]:
    """The text, the level and the value of a number or a character."""
    value = rng.choice([rng.randrange(4), rng.randrange(70), rng.randrange(1 << 16), rng.randrange(1 << 64), 1 << 63, MASK])
    if 33 <= value <= 126 and rng.random() < 0.5:
        return f"'{chr(value)}", PREFIX + 1, value
    form = rng.choice(["d", "#x", "#X", "o", "#b"])
    text = f"{value:{form}}"
    return ("0" + text if form == "o" else text.replace("0B", "0b")), PREFIX + 1, value


def expression(rng: random.Random, height: int) -> tuple[str, int, int]:
    """The text, the level and the value of a random expression of at most this height."""
    if height == 1 or rng.random() < 0.1:
        return number(rng)
    if rng.random() < 0.2:
        op = rng.choice("-~")
        text, level, value = expression(rng, height - 1)
        return op + within(rng, text, level < PREFIX), PREFIX, (-value if op == "-" else ~value) & MASK
    op = rng.choice(rng.choice(LEVELS))
    level = LEVEL_OF[op]
    while True:
        left, left_level, a = expression(rng, height - 1)
        right, right_level, b = expression(rng, height - 1)
        try:
            value = combined(op, a, b)
        except ZeroDivisionError:
            continue
        return within(rng, left, left_level < level) + blank(rng) + op + blank(rng) + within(rng, right, right_level <= level), level, value


def blank(rng: random.Random) -> str:
    """A blank around an operator, where two operators must not become one."""
    return " " if rng.random() < 0.8 else "\t"


def within(rng: random.Random, text: str, needed: bool) -> str:
    """The text in parentheses where they are needed, and now and then where they are not."""
    return f"({text})" if needed or rng.random() < 0.05 else text


def main() -> int:
    assembler = pathlib.Path(sys.argv[1]).resolve()
    count = int(sys.argv[2]) if len(sys.argv) > 2 else 10_000
    rng = random.Random(int(sys.argv[3]) if len(sys.argv) > 3 else 1)
    made = [expression(rng, rng.randrange(1, 8)) for _ in range(count)]
    with tempfile.TemporaryDirectory() as folder:
        source, target = pathlib.Path(folder, "x.s"), pathlib.Path(folder, "x.o")
        lines = (".byte " + ", ".join(f"({text})>>{bits}&255" for bits in range(0, 64, 8)) + "\n" for text, _, _ in made)
        source.write_text("".join(lines), encoding="latin-1")
        run = subprocess.run([assembler, "-o", target, source], capture_output=True, check=False)
        if run.returncode or run.stderr:
            print(f"status {run.returncode}: {run.stderr[:300]!r}")
            return 1
        written = target.read_bytes()
    for at, (text, _, value) in enumerate(made):
        begin = HEADER + 8 * at
        if (told := int.from_bytes(written[begin:begin + 8], "little")) != value:
            print(f"{text}\nis {told:#x}, and not {value:#x}")
            return 1
    print(f"{count} expressions agree")
    return 0


if __name__ == "__main__":
    sys.exit(main())
