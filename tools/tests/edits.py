# Ten thousand edits of a program in random order, in an area of 2 KiB and in one of 24, each held against the lines that it should
# leave, which Python keeps in a dictionary:
#   python3 tools/tests/edits.py PROGRAM
# A line is put in, replaced or deleted, or a range is; where the area would be passed it is A01 and all stays. After every
# 250 edits the program is listed, a DATA is read from some line on, and the DEFFN' of some number is called. Prints how the
# transcript differs where it does, and at the end "N passed, N failed"; the status is 0 where none failed.
import random
import subprocess
import sys
import tempfile
from pathlib import Path

EDITS = 10_000
BETWEEN_LOOKS = 250

BOOT = """quota = 20

[[terminal]]
number = 1
front = 1

[[partition]]
number = 1
terminal = 1
text = {area}
data = 2
globals = 2
"""

# The bytes that stand before the atoms of a line.
HEADING = 5

# The line from which a DEFFN' is called.
CALLING = 9000


class Program:
    """The lines that are there: of each number its text as it is typed and listed, and its atoms, counted."""

    def __init__(self, area):
        self.area = area * 1024
        self.lines = {}

    def size(self):
        return sum(HEADING + atoms for _, atoms in self.lines.values())

    def put(self, number, text, atoms):
        """Whether the line fits; it is put in then, and else all stays."""
        old = self.lines.get(number)
        rest = self.size() - (HEADING + old[1] if old else 0)
        if rest + HEADING + atoms > self.area:
            return False
        self.lines[number] = (text, atoms)
        return True

    def delete(self, first, last):
        self.lines = {number: line for number, line in self.lines.items() if not first <= number <= last}

    def listed(self):
        return [f'{number} {text}' for number, (text, _) in sorted(self.lines.items())]

    def data_from(self, first):
        """The values of the lines with DATA from a number on."""
        return [text.split('DATA ')[1].split(':')[0] for number, (text, _) in sorted(self.lines.items())
                if number >= first and 'DATA ' in text]

    def marks(self):
        """Of each number that a DEFFN' has, the lowest line that begins with it."""
        found = {}
        for number, (text, _) in sorted(self.lines.items(), reverse=True):
            if text.startswith("DEFFN'"):
                found[text[6:].split(':')[0]] = number
        return found


def some_line(chance, number):
    """A line's text, and how many atom bytes it has: a word takes one, and every other character one."""
    kind = chance.randrange(6)
    if kind == 0:
        value = str(chance.randrange(100_000))
        return f'DATA {value}', 1 + len(value)
    if kind == 1:
        value = str(chance.randrange(100_000))
        return f'A=1:B=2:DATA {value}:C=3', 3 + 1 + 3 + 1 + 1 + len(value) + 1 + 3
    if kind == 2:
        mark = str(chance.randrange(20))
        return f"DEFFN'{mark}:PRINT {number}:RETURN", 1 + len(mark) + 1 + 1 + len(str(number)) + 1 + 1
    length = chance.choice([0, 1, 2, 9, 20, 60])
    return 'REM' + 'X' * length, 1 + length


class Typing:
    """The log of what is typed, and the transcript that it should give."""

    def __init__(self):
        self.log = []
        self.transcript = ['READY']

    def type(self, line, *shown, rounds=9):
        self.log += [f'type 1 {line}', f'rounds {rounds}']
        self.transcript += [':' + line, *shown]


def put(program, typing, number, text, atoms):
    """Types a line, and says whether it fits."""
    fits = program.put(number, text, atoms)
    typing.type(f'{number}{text}', *([] if fits else ['ERR A01']))
    return fits


def edit(chance, program, typing, most):
    """One edit of some line up to a number, or of a few."""
    number = chance.randrange(1, most + 1)
    kind = chance.randrange(20)
    if kind == 0:
        last = min(most, number + chance.randrange(5))
        typing.type(f'CLEAR P {number},{last}')
        program.delete(number, last)
    elif kind < 4:
        typing.type(f'{number}')
        program.delete(number, number)
    else:
        put(program, typing, number, *some_line(chance, number))


def look(chance, program, typing):
    """The program is listed, a DATA read and a DEFFN' called."""
    typing.type('LIST', *program.listed(), rounds=400)
    if program.lines:
        first = chance.choice(sorted(program.lines))
        values = program.data_from(first)
        if values:
            typing.type(f'RESTORE LINE {first}:READ A:PRINT A', f' {values[0]} ')
    marks = program.marks()
    if marks:
        mark = chance.choice(sorted(marks))
        call = f"GOSUB'{mark}:END"
        if put(program, typing, CALLING, call, 1 + len(mark) + 1 + 1):
            typing.type(f'RUN {CALLING}', f' {marks[mark]} ')


def written(area, most):
    """The log of ten thousand edits in an area of some KiB, among line numbers up to one, and the transcript."""
    chance, program, typing = random.Random(area), Program(area), Typing()
    for count in range(1, EDITS + 1):
        edit(chance, program, typing, most)
        if count % BETWEEN_LOOKS == 0:
            look(chance, program, typing)
    return '\n'.join(typing.log) + '\n', '\n'.join(typing.transcript) + '\n:'


def told(program, area, most):
    """What is to be told of such a run, nothing where it comes out as it should."""
    log, transcript = written(area, most)
    with tempfile.TemporaryDirectory() as name:
        folder = Path(name)
        (folder / 'boot').write_text(BOOT.format(area=area))
        (folder / 'log').write_text(log)
        ended = subprocess.run([program, 'run', 'boot', 'log', 'out'], cwd=folder, capture_output=True, check=False)
        if ended.returncode != 0:
            return f'status {ended.returncode}: {ended.stderr.decode("latin-1").strip()}'
        got = (folder / 'out.t01').read_text(encoding='latin-1')
    for number, (here, there) in enumerate(zip(got.split('\n'), transcript.split('\n')), 1):
        if here != there:
            return f'line {number}: {here!r} and not {there!r}'
    return '' if got == transcript else f'{len(got)} bytes and not {len(transcript)}'


def main(program):
    failed = 0
    areas = [(2, 150), (24, 2_500)]
    for area, most in areas:
        why = told(str(Path(program).resolve()), area, most)
        if why:
            failed += 1
            print(f'FAILED {EDITS} edits in {area} KiB: {why}')
    print(f'{len(areas) - failed} passed, {failed} failed')
    return 1 if failed else 0


if __name__ == '__main__':
    sys.exit(main(*sys.argv[1:]))
