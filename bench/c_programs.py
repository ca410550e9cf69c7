#!/usr/bin/env python3
"""Random C programs, each made from its number alone: none does what C leaves undefined, each ends, and prints what it works out.

    bench/c_programs.py NUMBER

A program has data of all sizes, functions that call those above them, and some of the pieces of `c_pieces.py`. It is compiled by gcc, of whose extensions
it uses some, and linked with `-lm`. Where C leaves the order of calls open, as in a sum of two, gcc may choose another at another level, and then other
lines are printed.
"""
import random
import sys

sys.dont_write_bytecode = True
from c_expressions import INTEGERS, NEEDED, TYPES, UINT32, UINT64, Array, Expressions, Function, Scope, Type  # noqa: E402
from c_pieces import PIECES, piece  # noqa: E402

# Each call takes some fuel, and one without fuel answers at once. So calls end, however they are nested in loops.
HEAD = f"""\
#include <stdarg.h>
#include <stdint.h>
#include <stdio.h>
#include <stdlib.h>
#include <string.h>

static uint64_t told = 0xcbf29ce484222325u;
static int fuel;
static void tell(uint64_t value) {{ told = (told ^ value) * 0x100000001b3u + (told >> 29); }}
static int has_fuel(void) {{ return fuel > 0 && fuel-- > 0; }}
{NEEDED}"""


class Body:
    """The statements of a function. All its variables stand at its beginning, with values, so that a jump passes over none."""

    def __init__(self, rng: random.Random, scope: Scope, assigned: list[tuple[str, Type]]):
        self.rng = rng
        self.expressions = Expressions(rng, scope)
        self.scope = scope
        self.assigned = assigned  # what statements may change; a loop's counter is not among it
        self.count = 0
        self.lines: list[str] = []

    def fresh(self, word: str) -> str:
        self.count += 1
        return f"{word}_{self.count}"

    def put(self, depth: int, text: str) -> None:
        self.lines.append("    " * depth + text)

    def put_some(self, depth: int, in_loop: bool, most: int = 4) -> None:
        for _ in range(self.rng.randrange(1, most + 1)):
            self.put_one(depth, in_loop)

    def put_one(self, depth: int, in_loop: bool) -> None:
        """A statement: at most four deep in others, and a loop at most in one other."""
        plain = [self.put_assignment] * 5 + [self.put_change, self.put_element, self.put_element, self.put_call]
        nested = [self.put_if, self.put_if, self.put_switch, self.put_goto] if depth < 4 else []
        loops = [self.put_for, self.put_for, self.put_while, self.put_again] if depth < 3 else []
        self.rng.choice(plain + nested + loops)(depth, in_loop)
        if in_loop and self.rng.random() < 0.05:
            self.put(depth, f"if ({self.expressions.condition(1)}) {self.rng.choice(['break', 'continue'])};")

    def put_assignment(self, depth: int, _: bool) -> None:
        name, kind = self.rng.choice(self.assigned)
        self.put(depth, f"{name} = {self.expressions.of(kind, self.rng.randrange(1, 4))};")

    def put_change(self, depth: int, in_loop: bool) -> None:
        """An assignment with an operator that cannot overflow in the type, or in the `int` that a smaller one becomes."""
        name, kind = self.rng.choice(self.assigned)
        if kind.is_floating:
            return self.put(depth, f"{name} {self.rng.choice(['+=', '-=', '*='])} {self.expressions.floating(kind, 1)};")
        wraps = ["+=", "-=", "*="] if not kind.is_signed and kind.bits >= 32 else ["+=", "-="] if kind.bits <= 16 else []
        changes = [f"{operator} {self.expressions.integer(kind, 1)}" for operator in ["&=", "|=", "^=", *wraps]] + [f">>= {self.rng.randrange(kind.bits)}"]
        self.put(depth, f"{name} {self.rng.choice(changes)};")

    def put_element(self, depth: int, in_loop: bool) -> None:
        """An element is given a value."""
        array = self.rng.choice(self.scope.arrays)
        place, kind = self.expressions.element(array)
        self.put(depth, f"{place} = {self.expressions.of(kind, 2)};")

    def put_call(self, depth: int, in_loop: bool) -> None:
        """Something is told, and outside of loops printed now and then."""
        kind = self.rng.choice(TYPES)
        if not in_loop and self.rng.random() < 0.5:
            self.put(depth, f'printf("{kind.form} %s\\n", {self.expressions.of(kind, 2)}, {self.expressions.condition(1)} ? "yes" : "no");')
        else:
            self.put(depth, f"tell({self.expressions.integer(UINT64, 2)});")

    def put_if(self, depth: int, in_loop: bool) -> None:
        self.put(depth, f"if ({self.expressions.condition(2)}) {{")
        self.put_some(depth + 1, in_loop)
        while self.rng.random() < 0.3:
            self.put(depth, f"}} else if ({self.expressions.condition(1)}) {{")
            self.put_some(depth + 1, in_loop, 2)
        if self.rng.random() < 0.5:
            self.put(depth, "} else {")
            self.put_some(depth + 1, in_loop)
        self.put(depth, "}")

    def put_for(self, depth: int, in_loop: bool) -> None:
        counter, kind, last = self.fresh("i"), self.rng.choice([UINT32, UINT64, *INTEGERS]), self.rng.randrange(2, 14)
        rises = self.rng.random() < 0.7
        steps = f"{counter} = 0; {counter} < {last}; {counter}++" if rises else f"{counter} = {last}; {counter} > 0; {counter}--"
        self.put(depth, f"for ({kind.name} {steps}) {{")
        self.scope.values.append((counter, kind))
        self.put_some(depth + 1, in_loop=True)
        self.scope.values.remove((counter, kind))
        self.put(depth, "}")

    def put_while(self, depth: int, in_loop: bool) -> None:
        """A loop that ends after so many rounds, whatever its condition says."""
        left, kind = self.fresh("left"), self.rng.choice([UINT32, UINT64])
        self.put(depth, f"{kind.name} {left} = {self.rng.randrange(2, 12)};")
        is_late = self.rng.random() < 0.4
        condition = f"({left}-- > 0 && {self.expressions.condition(1)})"
        self.put(depth, "do {" if is_late else f"while {condition} {{")
        self.put_some(depth + 1, in_loop=True)
        self.put(depth, f"}} while {condition};" if is_late else "}")

    def put_again(self, depth: int, in_loop: bool) -> None:
        """A jump back."""
        label, left = self.fresh("again"), self.fresh("left")
        self.put(depth, f"{{ int {left} = {self.rng.randrange(1, 9)};")
        self.put(depth, f"{label}:;")
        self.put_some(depth + 1, in_loop=False, most=2)
        self.put(depth, f"if ({left}-- > 0 && {self.expressions.condition(1)}) goto {label}; }}")

    def put_goto(self, depth: int, in_loop: bool) -> None:
        """A jump forwards, over statements and out of those that it stands in."""
        label = self.fresh("behind")
        self.put(depth, "{")
        self.put_one(depth + 1, in_loop)
        self.put(depth + 1, f"if ({self.expressions.condition(2)}) goto {label};")
        self.put_some(depth + 1, in_loop)
        self.put(depth, "}")
        self.put(depth, f"{label}:;")

    def put_switch(self, depth: int, in_loop: bool) -> None:
        """Cases that lie side by side, of which gcc makes a table, or apart."""
        rng, kind = self.rng, self.rng.choice([UINT32, *INTEGERS])
        count = rng.randrange(3, 14)
        is_dense = rng.random() < 0.7
        first = rng.randrange(20)
        numbers = list(range(first, first + count)) if is_dense else sorted(rng.sample(range(128), count))
        asked = f"({self.expressions.integer(kind, 2)} & 15) + {first}" if is_dense else f"({self.expressions.integer(kind, 2)} & 127)"
        self.put(depth, f"switch ({asked}) {{")
        for number in numbers:
            self.put(depth, f"case {number}:;")
            if rng.random() < 0.85:
                self.put_some(depth + 1, in_loop=False, most=2)
                self.put(depth + 1, "break;" if rng.random() < 0.8 else "/* falls through */;")
        self.put(depth, "default:;")
        self.put_one(depth + 1, in_loop=False)
        self.put(depth, "}")


class Program:
    """Makes one program."""

    def __init__(self, number: int):
        self.rng = random.Random(number)
        self.scope = Scope()
        self.texts = [HEAD]

    def words(self) -> str:
        """How a datum or a function is held. What is not static has a global symbol."""
        return self.rng.choice(["static ", "static ", "", "", '__attribute__((visibility("hidden"))) '])

    def put_data(self) -> None:
        """Variables and arrays, with and without values, and a record. What they are named is what expressions take them for."""
        rng, constants = self.rng, Expressions(self.rng, Scope())
        for n in range(rng.randrange(5, 12)):
            kind = rng.choice(TYPES)
            held = rng.choice([self.words(), self.words(), "static _Thread_local ", "_Thread_local ", "volatile "])
            value = rng.choice(["", f" = {constants.constant(kind)}"])
            self.texts.append(f"{held}{kind.name} value_{n}{value};\n")
            self.scope.values.append((f"value_{n}", kind))
        for n in range(rng.randrange(3, 7)):
            kind, count = rng.choice(TYPES), rng.choice([4, 8, 16, 64])
            numbers = ", ".join(constants.constant(kind) for _ in range(rng.randrange(1, min(count, 12) + 1)))
            value = rng.choice(["", f" = {{ {numbers} }}"])
            self.texts.append(f"{self.words()}{kind.name} row_{n}[{count}]{value};\n")
            self.scope.arrays.append(Array(f"row_{n}", kind, count))
        self.put_record(constants)

    def put_record(self, constants: Expressions) -> None:
        """A structure with fields of all sizes and an array in it, by name and by a pointer."""
        kinds = [self.rng.choice(TYPES) for _ in range(self.rng.randrange(3, 8))]
        fields = [f"    {kind.name} field_{n};\n" for n, kind in enumerate(kinds)]
        inner = self.rng.choice(INTEGERS)
        values = ", ".join(f".field_{n} = {constants.constant(kind)}" for n, kind in enumerate(kinds))
        self.texts.append(f"struct record {{\n{''.join(fields)}    {inner.name} inner[8];\n}};\n{self.words()}struct record record = {{ {values} }};\n"
                          f"{self.words()}struct record *const pointed = &record;\n")
        for n, kind in enumerate(kinds):
            self.scope.values.append((self.rng.choice([f"record.field_{n}", f"pointed->field_{n}"]), kind))
        self.scope.arrays.append(Array(self.rng.choice(["record.inner", "pointed->inner"]), inner, 8))

    def put_function(self, n: int) -> None:
        """A function of up to nine parameters, more than registers take, that calls those before it and now and then itself."""
        rng = self.rng
        function = Function(f"work_{n}", rng.choice(TYPES), tuple(rng.choice(TYPES) for _ in range(rng.randrange(rng.choice([3, 6, 10])))))
        scope = Scope(list(self.scope.values), list(self.scope.arrays), list(self.scope.functions))
        parameters = [(f"p{n}", kind) for n, kind in enumerate(function.parameters)]
        own = [(f"v{n}", rng.choice(TYPES)) for n in range(rng.randrange(1, 6))]
        scope.values += parameters * 3
        body = Body(rng, scope, [*parameters, *own, *[value for value in self.scope.values if rng.random() < 0.5]])
        body.put(1, f"if (!has_fuel()) return {Expressions(rng, Scope(parameters)).of(function.result, 1)};")
        for name, kind in own:
            held = "static " if rng.random() < 0.1 else ""
            body.put(1, f"{held}{kind.name} {name} = {body.expressions.constant(kind) if held else body.expressions.of(kind, 1)};")
            scope.values += [(name, kind)] * 3
        local = Array("local", rng.choice(TYPES), rng.choice([4, 8, 32]))
        if rng.random() < 0.4:
            body.put(1, f"{local.type.name} local[{local.count}] = {{ {body.expressions.of(local.type, 1)} }};")
            scope.arrays += [local, local]
        if rng.random() < 0.2:
            scope.functions.append(function)
        for _ in range(rng.randrange(2, 7)):
            body.put_one(1, in_loop=False)
        body.put(1, f"return {body.expressions.of(function.result, 3)};")
        spelled = ", ".join(f"{kind.name} {name}" for name, kind in parameters) or "void"
        inlined = rng.choice(["", "", "__attribute__((noinline)) "])
        self.texts.append("\n" + inlined + self.words() + f"{function.result.name} {function.name}({spelled}) {{\n" + "\n".join(body.lines) + "\n}\n")
        self.scope.functions.append(function)

    def make(self) -> str:
        """The text: data, functions with pieces among them, and a main that calls each of them some times and prints what came."""
        rng = self.rng
        self.put_data()
        chosen = rng.sample(sorted(PIECES), 5)
        for n in range(rng.randrange(4, 9)):
            self.put_function(n)
        self.texts += ["\n" + piece(name, rng) for name in chosen]
        main = [f'    printf("{name}\\n");\n    {name}();\n' for name in chosen]
        constants = Expressions(rng, Scope())
        for function in self.scope.functions:
            for _ in range(2):
                called = constants.call(function, 0)
                main.append(f'    fuel = {rng.randrange(20, 100)};\n    printf("{function.name} {function.result.form}\\n", {called});\n')
        for name, kind in self.scope.values:
            main.append(f'    printf("{name} {kind.form}\\n", {name});\n')
        for array in self.scope.arrays:
            main.append(f'    for (int i = 0; i < {array.count}; i++) tell({constants.converted(f"{array.name}[i]", array.type, UINT64)});\n')
        return "".join([*self.texts, "\nint main(void) {\n", *main, '    printf("told %lx\\n", told);\n    return (int)(told & 63);\n}\n'])


def c_program(number: int) -> str:
    """The text of the program of this number."""
    return Program(number).make()


if __name__ == "__main__":
    if len(sys.argv) != 2 or not sys.argv[1].isdecimal():
        sys.exit(__doc__)
    sys.stdout.write(c_program(int(sys.argv[1])))
