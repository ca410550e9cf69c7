#!/usr/bin/env python3
"""Writes input for asm_calls: a case of layouts that is long, so that what its rows settle to shows the time of settling.

  bench/layouts.py jumps 400000      so many jumps to one label: all but the last are near, in two rounds
  bench/layouts.py cascade 8000      so many jumps, each of which makes the one before it grow: one round more than jumps
  bench/layouts.py leb128 16000      so many LEB128 differences over jumps that grow: three rounds
  bench/layouts.py far 4000          so many jumps of a cascade, each beside a LEB128 difference over 400 rows

With `object` behind the number the case is a call, which lays out items in a section, and writes the object.
"""
import re
import sys


def jumps(count):
    yield from ['jmp 9f'] * count
    yield 'label 9'


def cascade(count):
    """Each jump spans 125 bytes and the next jump, so that it is short until that one is near. The last one is near at once."""
    for number in range(1, count + 1):
        yield f'jmp {number % 2}f'
        if number > 1:
            yield f'label {(number - 1) % 2}'
        yield 'bytes 125' if number < count else 'bytes 128'
    yield f'label {count % 2}'


def leb128(count):
    """Each difference is 127 until the jump in it is near, and 130 then."""
    for _ in range(count):
        yield from ['uleb128 2f-1f', 'label 1', 'jmp 3f', 'bytes 125', 'label 2', 'bytes 10', 'label 3']


def far(count):
    """A cascade, where a difference stands behind each jump, back over 200 jumps and as many differences."""
    for number in range(1, count + 1):
        yield f'label {10 + number % 201}'
        yield f'jmp {number % 2}f'
        if number > 1:
            yield f'label {(number - 1) % 2}'
        yield f'uleb128 {10 + number % 201}b-{10 + max(1, number - 200) % 201}b'
        yield 'bytes 122' if number < count else 'bytes 128'
    yield f'label {count % 2}'


CASES = {'jumps': jumps, 'cascade': cascade, 'leb128': leb128, 'far': far}


def words(lines):
    """The words of the call, where each label has a name of its own."""
    seen = {}

    def named(match):
        return f'{match[1]}_{seen.get(match[1], 0) + (match[2] == "f")}'

    for line in lines:
        kind, text = line.split(' ')
        if kind == 'label':
            seen[text] = seen.get(text, 0) + 1
            yield f'label={text}_{seen[text]}'
        else:
            kind = {'bytes': 'zero', 'uleb128': 'uleb'}.get(kind, kind)
            yield f'{kind}=' + re.sub('([0-9]+)([bf])', named, text)


if len(sys.argv) < 3 or sys.argv[1] not in CASES or not sys.argv[2].isdigit() or sys.argv[3:] not in ([], ['object']):
    sys.exit(__doc__)
case = CASES[sys.argv[1]](int(sys.argv[2]))
if sys.argv[3:]:
    print('=== calls\nobject', *words(case))
else:
    print('=== layouts', *case, sep='\n')
