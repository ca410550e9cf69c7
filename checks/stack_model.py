"""A model of what the analysis of the stack makes of a function, written from what distances, facts, tables and faults are, and not from the program.

A function is a list of items. Each item has successors and may be an exit. A walk is a list of items from the first one on, each a successor of the one before.

- Along a walk each of seven registers has a distance from the frame address, or none. The distance at an item is k where there is a walk to it, and every walk gives k.
- Along a walk there is a set of facts: `Entry(r)`, the register has its value at entry; `Slot(n, r)`, the 8 bytes at the frame address and n hold that value.
  What is at a fixed place is known by the distances at items alone. A fact stands at an item where there is a walk to it, and every walk carries the fact.

Both are computed twice, by a fixed point and along single walks, and the two must agree.
"""
from collections import deque
from dataclasses import dataclass, field
from typing import NamedTuple, Optional

RSP, RBX, RBP, R12, R13, R14, R15, OTHER = range(8)
NAMES = ["rsp", "rbx", "rbp", "r12", "r13", "r14", "r15"]
DWARF = {RSP: 7, RBX: 3, RBP: 6, R12: 12, R13: 13, R14: 14, R15: 15}
SEVEN = range(7)
SIX = [RBX, RBP, R12, R13, R14, R15]
FRAME = [RBX, R12, R13, R14, R15]
LIMIT = 1 << 30
# What is looked at of the states that single walks bring; a loop may bring them without end.
MOST_STATES = 20_000

# The words of items, with how many numbers each has, as the README of the crate `function_rows` says.
NUMBERS = {"push": 1, "pop": 2, "move": 3, "store": 4, "load": 4, "write": 1, "leave": 0, "call": 0, "jmp": 0, "je": 0, "jmpthrough": 0, "ret": 0, "retpop": 0,
           "ud2": 0, "nop": 0, "data": 0, "pushword": 0, "popstack": 0, "popmemory": 2, "callthrough": 0}

Distances = tuple[Optional[int], ...]


class Entry(NamedTuple):
    register: int


class Slot(NamedTuple):
    distance: int
    register: int


Facts = frozenset[Entry | Slot]


@dataclass
class Target:
    """Where a jump or a call leads: to an item of the function, whose label may be weak, or elsewhere."""
    item: Optional[int] = None
    weak: bool = False


@dataclass
class Item:
    word: str
    numbers: list[int] = field(default_factory=list)
    target: Optional[Target] = None


def wrap(number: int) -> int:
    """The number modulo 2^64, from -2^63 to 2^63 - 1."""
    number &= (1 << 64) - 1
    return number - (1 << 64) if number >> 63 else number


def target_of(text: str, count: int) -> Optional[Target]:
    """A label is inside a function of so many items if one of them begins there."""
    if not text:
        return None
    number, weak = text.removesuffix("w"), text.endswith("w")
    if number.isdigit() and int(number) < count:
        return Target(int(number), weak)
    return Target()


def function_of(line: str) -> list[Item]:
    """The items of a line: WORD[:NUMBER,..][>TARGET], with a space between two."""
    texts = line.split(" ")
    items = []
    for text in texts:
        head, _, target = text.partition(">")
        word, _, numbers = head.partition(":")
        item = Item(word, [int(number) for number in numbers.split(",")] if numbers else [], target_of(target, len(texts)))
        if len(item.numbers) != NUMBERS[word]:
            raise ValueError(f"{text} has another count of numbers")
        items.append(item)
    return items


def registers_in(bits: int) -> set[int]:
    return {register for register in SEVEN if bits >> register & 1}


# Where control goes.


def is_untraceable(item: Item) -> bool:
    """A jump through a register or memory, and a direct jump or call to what is no symbol alone."""
    return item.word == "jmpthrough" or (item.word in ("jmp", "je", "call") and item.target is None)


def goes_on(item: Item) -> bool:
    """Control may go to the next item. It goes nowhere from a jump that cannot be traced."""
    if item.word in ("ret", "retpop", "ud2", "data", "jmp", "jmpthrough"):
        return False
    return item.word == "call" or not is_untraceable(item)


def successors(items: list[Item], at: int) -> list[int]:
    """The item to which an item jumps, and the next one. A call is never followed."""
    item = items[at]
    found = []
    if item.word in ("jmp", "je") and item.target and item.target.item is not None:
        found.append(item.target.item)
    if goes_on(item) and at + 1 < len(items) and at + 1 not in found:
        found.append(at + 1)
    return found


def is_exit(item: Item) -> bool:
    """A return, a jump to a symbol elsewhere, and one to a label inside that is weak."""
    if item.word in ("ret", "retpop"):
        return True
    return item.word in ("jmp", "je") and item.target is not None and (item.target.item is None or item.target.weak)


# Distances.

AT_START: Distances = (-8, None, None, None, None, None, None)


def written(item: Item) -> set[int]:
    """Which of the seven registers an item writes."""
    if item.word == "write":
        return registers_in(item.numbers[0])
    if item.word == "pop":
        return registers_in(item.numbers[1]) | {RSP}
    if item.word == "load":
        return registers_in(item.numbers[3])
    if item.word == "move":
        return {item.numbers[0]}
    if item.word == "leave":
        return {RSP, RBP}
    return {RSP} if item.word in ("push", "pushword", "popstack", "popmemory") else set()


def distances_after(item: Item, known: Distances) -> Distances:
    """What is written in another way than by these is not known behind it."""
    after = [None if register in written(item) else known[register] for register in SEVEN]

    def moved(base: int, amount: int) -> Optional[int]:
        return None if known[base] is None else wrap(known[base] + amount)

    if item.word == "push":
        after[RSP] = moved(RSP, -8)
    elif item.word == "pop":
        after[RSP] = None if RSP in registers_in(item.numbers[1]) else moved(RSP, 8)
    elif item.word in ("popmemory", "popstack"):
        # Every pop moves rsp by 8, also `pop %rsp`, which is not supported.
        after[RSP] = moved(RSP, 8)
    elif item.word == "move":
        to, base, amount = item.numbers
        after[to] = moved(base, amount)
    elif item.word == "leave":
        after[RSP] = moved(RBP, 8)
    return tuple(after)


def agreed(one: Distances, other: Distances) -> Distances:
    return tuple(a if a == b else None for a, b in zip(one, other))


# Facts.


def span_stored(item: Item, known: Distances) -> Optional[tuple[int, int]]:
    """Where a store at a known place begins, and its size in bytes."""
    if item.word in ("push", "call", "callthrough"):
        return None if known[RSP] is None else (wrap(known[RSP] - 8), 8)
    if item.word in ("store", "popmemory"):
        base, amount = item.numbers[:2]
        size = item.numbers[2] if item.word == "store" else 8
        return None if base == OTHER or known[base] is None else (wrap(known[base] + amount), size)
    return None


def slot_loaded(item: Item, known: Distances) -> Optional[Slot]:
    """What a load of 8 bytes at a known place gives back, if that is a slot of the register."""
    if item.word == "pop":
        register, base, amount = item.numbers[0], RSP, 0
    elif item.word == "leave":
        register, base, amount = RBP, RBP, 0
    elif item.word == "load":
        register, base, amount = item.numbers[:3]
    else:
        return None
    if register not in SIX or base == OTHER or known[base] is None:
        return None
    return Slot(wrap(known[base] + amount), register)


def register_saved(item: Item) -> int:
    """The register that an item stores whole."""
    if item.word == "push":
        return item.numbers[0]
    return item.numbers[3] if item.word == "store" and item.numbers[2] == 8 else OTHER


def bytes_at(place: int, size: int) -> set[int]:
    return {wrap(place + n) for n in range(size)}


def facts_after(item: Item, known: Distances, before: Facts) -> Facts:
    now = set(before)

    def keep_from(place: int) -> None:
        now.difference_update([fact for fact in now if isinstance(fact, Slot) and fact.distance < place])

    # A store at a known place drops the slots that it meets, and a call at a known rsp those below rsp.
    stored = span_stored(item, known)
    if stored:
        met = bytes_at(*stored)
        now.difference_update([fact for fact in now if isinstance(fact, Slot) and bytes_at(fact.distance, 8) & met])
    if item.word in ("call", "callthrough") and known[RSP] is not None:
        keep_from(known[RSP])
    # A register that has its entry value is saved.
    register = register_saved(item)
    if stored and register in SIX and Entry(register) in now and stored[0] % 8 == 0 and stored[0] <= -16:
        now.add(Slot(stored[0], register))
    # What is written does not have its entry value, but where a load gives it back from a slot that stood before.
    now.difference_update(Entry(register) for register in written(item))
    loaded = slot_loaded(item, known)
    if loaded and loaded in before:
        now.add(Entry(loaded.register))
        now.discard(loaded)
    # Slots below an rsp that rose, or is known again, are free to be stored over.
    after = distances_after(item, known)[RSP]
    if after is not None and (known[RSP] is None or known[RSP] < after):
        keep_from(after)
    return frozenset(now)


# What every walk gives.


def fixed_point(items, first, after, meet):
    """For each item what every walk to it gives, or None where there is no walk."""
    at = [None] * len(items)
    at[0] = first
    work = deque([0])
    while work:
        number = work.popleft()
        given = after(number, at[number])
        for successor in successors(items, number):
            met = given if at[successor] is None else meet(at[successor], given)
            if met != at[successor]:
                at[successor] = met
                work.append(successor)
    return at


def along_walks(items, first, after, meet):
    """The same by the states that single walks bring, each followed once; None where there are too many."""
    seen, work = {(0, first)}, deque([(0, first)])
    while work:
        number, state = work.popleft()
        for successor in successors(items, number):
            pair = successor, after(number, state)
            if pair not in seen:
                seen.add(pair)
                work.append(pair)
        if len(seen) > MOST_STATES:
            return None
    at = [None] * len(items)
    for number, state in seen:
        at[number] = state if at[number] is None else meet(at[number], state)
    return at


def both_ways(items, first, after, meet):
    found, walked = (way(items, first, after, meet) for way in (fixed_point, along_walks))
    if walked is not None and walked != found:
        raise ValueError("single walks give something else")
    return found


# Rows and faults.


def frame_address(known: Distances) -> Optional[tuple[int, int]]:
    """The register from which the frame address is counted, and the offset."""
    if known[RBP] is not None and known[RBP] <= 0:
        return RBP, -known[RBP]
    if known[RSP] is not None:
        return RSP, -known[RSP]
    return next(((register, -known[register]) for register in FRAME if known[register] is not None and known[register] <= 0), None)


def highest_slot(facts: Facts, register: int) -> Optional[int]:
    return max((fact.distance for fact in facts if isinstance(fact, Slot) and fact.register == register), default=None)


def row_of(known: Distances, facts: Facts):
    slots = {register: highest_slot(facts, register) for register in SIX}
    return frame_address(known), {register: slot for register, slot in slots.items() if slot is not None}


class Fault(NamedTuple):
    item: int
    words: str


def fault_of(items: list[Item], at: int, known: Distances, facts: Facts) -> Optional[str]:
    """The first fault of an item to which a walk leads, in the order in which they are told."""
    item = items[at]
    later, kept = distances_after(item, known), facts_after(item, known, facts)
    lost = [register for register in SIX if highest_slot(facts, register) is None and Entry(register) not in facts]
    changed = [register for register in SIX if Entry(register) not in facts]
    stored = span_stored(item, known)
    rises = item.word not in ("ret", "retpop") and later[RSP] is not None and later[RSP] > -8
    falls_off = at + 1 == len(items) and item.word not in ("call", "callthrough") and goes_on(item)
    if frame_address(known) is None:
        return "frame lost"
    if lost:
        return f"register lost {NAMES[lost[0]]}"
    if rises or (stored and bytes_at(*stored) & bytes_at(-8, 8)):
        return "return address overwritten"
    if is_exit(item) and known[RSP] != -8:
        return "stack not restored" + ("" if known[RSP] is None else f" {known[RSP]:+}")
    if is_exit(item) and changed:
        return f"register not restored {NAMES[changed[0]]}"
    if is_untraceable(item):
        return "untraceable jump"
    if item.word == "call" and item.target and item.target.item:
        return "call into the function"
    if item.word == "data":
        return "not instructions"
    if falls_off and (later[RSP] != -8 or any(Entry(register) not in kept for register in SIX)):
        return "runs past its end"
    if item.word in ("retpop", "pushword", "popstack"):
        return "unsupported use of the stack"
    if any(distance is not None and abs(distance) > LIMIT for distance in known):
        return "offset too large"
    return None


class Analysis:
    """All that is known of a function, and its rows where it has no fault."""

    def __init__(self, items: list[Item]) -> None:
        self.items = items
        self.distances = both_ways(items, AT_START, lambda at, known: distances_after(items[at], known), agreed)
        entry = frozenset(Entry(register) for register in SIX)
        self.facts = both_ways(items, entry, lambda at, facts: facts_after(items[at], self.distances[at], facts), frozenset.intersection)
        told = ((at, fault_of(items, at, self.distances[at], self.facts[at])) for at in self.reached())
        self.fault = next((Fault(at, words) for at, words in told if words), None)

    def successors(self, at: int) -> list[int]:
        return successors(self.items, at)

    def is_exit(self, at: int) -> bool:
        return is_exit(self.items[at])

    def reached(self) -> list[int]:
        return [at for at in range(len(self.items)) if self.distances[at] is not None]

    def table(self) -> list[tuple[int, list[bytes]]]:
        """The items where the row changes, each with what leads to its row. An item to which no walk leads keeps the row before it."""
        row, found = ((RSP, 8), {}), []
        for at in self.reached():
            before, row = row, row_of(self.distances[at], self.facts[at])
            if changes := instructions(before, row):
                found.append((at, changes))
        return found


def uleb128(number: int) -> bytes:
    groups = []
    while True:
        low, number = number & 0x7F, number >> 7
        groups.append(low | (0x80 if number else 0))
        if not number:
            return bytes(groups)


def instructions(before, row) -> list[bytes]:
    """What leads from row to row (DWARF 5, section 6.4.2): of the frame address, and then of the registers by their numbers in DWARF."""
    (register, offset), (new_register, new_offset) = before[0], row[0]
    found = []
    if register != new_register and offset != new_offset:
        found.append(bytes([0x0C, DWARF[new_register]]) + uleb128(new_offset))
    elif register != new_register:
        found.append(bytes([0x0D, DWARF[new_register]]))
    elif offset != new_offset:
        found.append(bytes([0x0E]) + uleb128(new_offset))
    for register in sorted(SIX, key=DWARF.__getitem__):
        old, new = before[1].get(register), row[1].get(register)
        if old != new:
            found.append(bytes([0xC0 + DWARF[register]]) if new is None else bytes([0x80 + DWARF[register]]) + uleb128(new // -8))
    return found
