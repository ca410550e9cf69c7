"""Random C expressions of integers and floating numbers of which nothing is undefined.

Sums, products and shifts are worked out in unsigned types, where they wrap; a count of bits is below the width; no divisor is 0 or -1; and a floating number
is brought near to 0 before it becomes an integer.
"""
import random
from dataclasses import dataclass, field


@dataclass(frozen=True)
class Type:
    """An arithmetic type, with what `printf` reads it by."""
    name: str
    bits: int
    form: str
    is_signed: bool = True
    is_floating: bool = False

    @property
    def wide(self) -> "Type":
        """The unsigned type in which it is added, multiplied and shifted. One of less than 32 bits would become `int`, where a product may overflow."""
        return UINT64 if self.bits == 64 else UINT32


UINT32, UINT64 = Type("uint32_t", 32, "%u", is_signed=False), Type("uint64_t", 64, "%lu", is_signed=False)
INT32, INT64 = Type("int32_t", 32, "%d"), Type("int64_t", 64, "%ld")
INTEGERS = [Type("int8_t", 8, "%hhd"), Type("uint8_t", 8, "%hhu", is_signed=False), Type("int16_t", 16, "%hd"), Type("uint16_t", 16, "%hu", is_signed=False),
            INT32, UINT32, INT64, UINT64]
FLOAT, DOUBLE = Type("float", 32, "%.9g", is_floating=True), Type("double", 64, "%.17g", is_floating=True)
TYPES = [*INTEGERS, INT32, UINT32, INT64, UINT64, FLOAT, DOUBLE, DOUBLE]

# What expressions call.
NEEDED = """\
static double near(double x) { return x > -1e9 && x < 1e9 ? x : 0.75; }
"""


@dataclass(frozen=True)
class Array:
    """An array of so many elements, a power of two."""
    name: str
    type: Type
    count: int


@dataclass(frozen=True)
class Function:
    name: str
    result: Type
    parameters: tuple[Type, ...]


@dataclass
class Scope:
    """What an expression may name; a value is the text of what can be read."""
    values: list[tuple[str, Type]] = field(default_factory=list)
    arrays: list[Array] = field(default_factory=list)
    functions: list[Function] = field(default_factory=list)


class Expressions:
    """Makes expressions over a scope. Each has exactly the type that was asked for, and stands in parentheses or needs none."""

    def __init__(self, rng: random.Random, scope: Scope):
        self.rng = rng
        self.scope = scope

    def of(self, kind: Type, depth: int) -> str:
        return self.floating(kind, depth) if kind.is_floating else self.integer(kind, depth)

    def constant(self, kind: Type) -> str:
        """A number of the type, small more often than not. It is one that a static datum may begin with."""
        rng = self.rng
        if kind.is_floating:
            number = rng.choice([rng.randrange(-20, 20) / 4, rng.uniform(-1e3, 1e3), rng.uniform(-1, 1), 0.0, 1.0, 1e-30])
            return f"({number!r}{'f' if kind.bits == 32 else ''})"
        bits = rng.choice([2, 4, 7, 8, 15, 16, 31, 32, 33, 63, 64])
        number = rng.choice([rng.randrange(16), rng.getrandbits(min(bits, kind.bits)), (1 << kind.bits - 1) - 1, 1 << kind.bits - 1])
        return f"({kind.name}){number}u" if rng.random() < 0.5 else f"({kind.name}){number:#x}u"

    def value(self, kind: Type) -> str:
        """Something of the scope, or a constant. What has another type is converted; of floating ones only those that fit are."""
        rng, scope = self.rng, self.scope
        if scope.arrays and rng.random() < 0.25:
            text, found = self.element(rng.choice(scope.arrays))
        elif scope.values and rng.random() < 0.8:
            same = [value for value in scope.values if value[1] == kind]
            text, found = rng.choice(same if same and rng.random() < 0.7 else scope.values)
        else:
            return self.constant(kind)
        return text if found == kind else self.converted(text, found, kind)

    def converted(self, text: str, given: Type, kind: Type) -> str:
        """What a value is in another type."""
        if given.is_floating and not kind.is_floating:
            return f"(uint64_t)(near({text}) + 1e9)" if kind == UINT64 else f"({kind.name})({'int32_t' if kind == INT32 else 'int64_t'})near({text})"
        return f"({kind.name})({text})"

    def element(self, array: Array) -> tuple[str, Type]:
        """An element, at a place that is worked out."""
        return f"{array.name}[{self.integer(UINT32, 0)} & {array.count - 1}]", array.type

    def call(self, function: Function, depth: int) -> str:
        return f"{function.name}({', '.join(self.of(kind, depth) for kind in function.parameters)})"

    def condition(self, depth: int) -> str:
        """An `int` of 0 or 1, or another number that stands for true."""
        rng = self.rng
        kind = rng.choice(TYPES)
        compared = f"({self.of(kind, depth - 1)} {rng.choice(['<', '<=', '>', '>=', '==', '!='])} {self.of(kind, depth - 1)})"
        if depth > 0 and rng.random() < 0.3:
            return f"({compared} {rng.choice(['&&', '||'])} {self.condition(depth - 1)})"
        bit, zero = f"({self.integer(UINT32, depth - 1)} & {1 << rng.randrange(32)}u)", f"(!{self.integer(rng.choice(INTEGERS), depth - 1)})"
        return rng.choice([compared, compared, bit, zero])

    def integer(self, kind: Type, depth: int) -> str:
        if depth <= 0:
            return self.value(kind)
        rng, name, wide = self.rng, kind.name, kind.wide.name
        a, b = self.integer(kind, depth - 1), self.integer(kind, depth - rng.randrange(1, 3))
        count = rng.choice([f"({b} & {kind.bits - 1})", str(rng.randrange(kind.bits))])
        other = rng.choice(TYPES)
        turned = rng.randrange(1, kind.wide.bits)
        makers = {
            "sum": lambda: f"({name})(({wide}){a} {rng.choice('+-*')} ({wide}){b})",
            "scaled": lambda: f"({name})(({wide}){a} * {rng.choice([2, 3, 5, 8, 9, 10, 40, 100, 641])}u + ({wide}){b})",
            "bits": lambda: f"({name})({a} {rng.choice('&|^')} {b})",
            "left": lambda: f"({name})(({wide}){a} << {count})",
            "right": lambda: f"({name})({a} >> {count})",
            "turned": lambda: f"({name})(({wide}){a} << {turned} | ({wide}){a} >> {kind.wide.bits - turned})",
            "quotient": lambda: f"({name})({a} {rng.choice('/%')} {self.divisor(kind, b)})",
            "prefix": lambda: rng.choice([f"({name})-({wide}){a}", f"({name})~{a}", f"({name})!{a}"]),
            "truth": lambda: f"({name}){self.condition(depth - 1)}",
            "choice": lambda: f"({self.condition(depth - 1)} ? {a} : {b})",
            "other": lambda: self.converted(self.of(other, depth - 1), other, kind),
            "builtin": lambda: f"({name}){self.builtin(depth)}",
            "call": lambda: self.called(kind, depth),
        }
        return makers[rng.choice(["sum"] * 4 + ["bits"] * 2 + ["call"] * 2 + list(makers))]()

    def divisor(self, kind: Type, text: str) -> str:
        """A number that is neither 0 nor -1. By a constant gcc multiplies."""
        if self.rng.random() < 0.4:
            number = self.rng.choice([2, 3, 5, 7, 10, 16, 60, 100])
            return f"({kind.name}){-number if kind.is_signed and self.rng.random() < 0.3 else number}"
        return f"({kind.name})(({text} & 63) + 1)" if kind.is_signed else f"({kind.name})({text} | 1)"

    def builtin(self, depth: int) -> str:
        """What has instructions of its own, or a function of libgcc."""
        a, b = self.integer(UINT32, depth - 1), self.integer(UINT64, depth - 1)
        return self.rng.choice([
            f"__builtin_bswap32({a})", f"__builtin_bswap64({b})", f"__builtin_bswap16((uint16_t){a})", f"__builtin_clz({a} | 1)", f"__builtin_ctzl({b} | 1)",
            f"__builtin_popcount({a})", f"__builtin_parityl({b})", f"__builtin_ffs((int){a})", f"(((unsigned __int128){b} * {b}) >> {self.rng.randrange(128)})",
        ])

    def called(self, kind: Type, depth: int) -> str:
        """A call of one of the scope's functions, or a value where it has none."""
        if not self.scope.functions:
            return self.value(kind)
        function = self.rng.choice(self.scope.functions)
        text = self.call(function, min(depth, 2) - 1)
        return text if function.result == kind else self.converted(text, function.result, kind)

    def floating(self, kind: Type, depth: int) -> str:
        if depth <= 0:
            return self.value(kind)
        rng, end = self.rng, "f" if kind.bits == 32 else ""
        a, b = self.floating(kind, depth - 1), self.floating(kind, depth - 1)
        other = rng.choice(TYPES)
        return rng.choice([
            f"({a} {rng.choice('+-*')} {b})", f"({a} {rng.choice('+-*')} {b})", f"({a} / ({b} * {b} + 1.5{end}))", f"(-{a})",
            f"({self.condition(depth - 1)} ? {a} : {b})", f"(({a} < {b}) ? {a} : {b})", f"__builtin_copysign{end}({a}, {b})",
            f"__builtin_fabs{end}({a})", f"__builtin_sqrt{end}(__builtin_fabs{end}({a}))",
            self.converted(self.of(other, depth - 1), other, kind), self.called(kind, depth),
        ])
