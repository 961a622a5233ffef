# Counts, for each form of the language's table, how often the sessions of tests/ execute it without a code, and which ways it
# went where it has a choice:
#   python3 tools/tests/forms.py
# Prints each form, and each of the parts between which one chooses, that was executed fewer than three times, and each part that
# may be left out which never was there or never was left out; and at the end "N passed, N failed". The status is 0 where none
# is missing.
#
# What is counted is certain from the text of a session alone. A line that is typed was executed where no code is shown after
# it. A program is followed from where it was started, line by line and through its jumps and calls; where the way of it can't
# be told, as after an IF of variables that may jump, or where a code was shown, it is followed no further. So what is executed
# may be more than what is counted, and never less.
import re
import sys
from collections import Counter
from dataclasses import dataclass, field

sys.dont_write_bytecode = True

from cases import TESTS, chapters  # noqa: E402
from grammar import EVERYWHERE, known_words, parts_of, table, units_of  # noqa: E402

# How often a form is to be executed at least.
LEAST = 3

# What the real machine has and this one leaves out: no line has it.
LEFT_OUT = {'LEFT_OUT', 'SELECT_LEFT_OUT', 'MAT_LEFT_OUT'}

# What is read and listed, and not executed yet.
UNBUILT = {'SAVE_RECORD', 'LOAD_RECORD', 'SAVE_BLOCK', 'LOAD_BLOCK'}

CODE = re.compile(r'\^?ERR [A-Z][0-9]{2}(?: AT ([0-9]+))?')
# Statements after which the next one isn't known from the text.
UNKNOWN = {'IF_END', 'LOAD', 'CLEAR', 'CLEAR_P', 'RUN', 'CONTINUE'}

# An assignment that fails.
FAILING = re.compile(r'=1/0$')

# Statements that leave a program where it is.
ENDING = {'END', 'STOP'}

COMPARED = re.compile(r'IF *(-?[\d.]+|"[^"]*") *(<=|>=|<>|[<=>]) *(-?[\d.]+|"[^"]*") *THEN')


class Unsure(Exception):
    """Where a program goes on can't be told."""


def is_true(text):
    """Whether the condition of an IF holds, None where that can't be told from its text."""
    found = COMPARED.match(text.upper())
    if not found or found[1].startswith('"') != found[3].startswith('"'):
        return None
    first, second = (found[1], found[3]) if found[1].startswith('"') else (float(found[1]), float(found[3]))
    return {'<': first < second, '>': first > second, '=': first == second,
            '<=': first <= second, '>=': first >= second, '<>': first != second}[found[2]]


# The rows of expressions and conditions, whose choices are told once, wherever they stand.
COMMON = frozenset().union(*(parts_of(row) for row in EVERYWHERE))


@dataclass
class Counted:
    """What was executed: how often each form, and each way of one."""
    forms: Counter = field(default_factory=Counter)
    ways: Counter = field(default_factory=Counter)

    def add(self, unit):
        """A statement that was executed, without what stands inside it."""
        self.forms[unit.row] += 1
        for row, place, way in unit.ways:
            self.ways[(None if row in COMMON else unit.row, row, place, way)] += 1


class Machine:
    """A program as a session typed it, and where it stopped; what was executed goes to the counts."""

    def __init__(self, counted):
        self.counted = counted
        self.lines = {}
        self.calls = []
        self.place = None

    def forget(self):
        self.lines, self.calls, self.place = {}, [], None

    def edit(self, number, text):
        if text.strip():
            self.lines[number] = units_of(text)
        else:
            self.lines.pop(number, None)
        self.calls, self.place = [], None

    def after(self, place):
        """The place after one, None after the last."""
        line, unit = place
        if line is None or unit + 1 < len(self.lines[line]):
            return line, unit + 1
        return self.first_after(line)

    def first_after(self, line):
        later = [number for number in self.lines if number > line]
        return (min(later), 0) if later else None

    def line_at(self, number):
        if number not in self.lines:
            raise Unsure
        return number, 0

    def marked(self, number):
        """The place of the DEFFN' of a number."""
        for line in sorted(self.lines):
            units = self.lines[line]
            if units and units[0].row == 'DEFFN_MARKED' and re.match(rf"DEFFN' *0*{number}(?!\d)", units[0].text.upper()):
                return line, 0
        raise Unsure

    def units_at(self, place, immediate):
        return immediate if place[0] is None else self.lines[place[0]]

    def follow(self, immediate, place, until):
        """Executes from a place on, an immediate line's or the program's, as far as it is known; not the line `until`."""
        for _ in range(2000):
            if place is None or (place[0] is not None and place[0] == until):
                return
            units = self.units_at(place, immediate)
            if units is None or place[1] >= len(units):
                return
            place = self.execute(units[place[1]], place, units)

    def execute(self, unit, place, units):
        """Executes a statement: the place after it."""
        row, text = unit.row, unit.text.upper()
        following = units[place[1] + 1] if place[1] + 1 < len(units) else None
        if following is not None and following.row == 'ERROR':
            return self.try_unit(unit, following, place)
        if row in ('ERROR', 'ELSE'):
            # What stands before it went on, so it is skipped.
            return self.after(place)
        if row == 'IF':
            return self.choose(unit, following, place)
        self.counted.add(unit)
        return self.goes_to(unit, text, place)

    def try_unit(self, unit, error, place):
        """A statement with an ERROR after it, which is executed where the statement fails for certain."""
        if FAILING.search(unit.text):
            self.counted.add(error)
            return self.execute(error.inside[0], self.after(place), [error.inside[0]])
        if unit.row not in STEADY or error.inside[0].row not in STEADY:
            raise Unsure
        return self.after(self.after(place))

    def choose(self, unit, following, place):
        """An IF: what it goes on with."""
        truth = is_true(unit.text)
        self.counted.add(unit)
        has_else = following is not None and following.row == 'ELSE'
        if truth is None:
            parts = [unit] + ([following] if has_else else [])
            if any(not part.inside or part.inside[0].row not in STEADY for part in parts):
                raise Unsure
            return self.after(self.after(place)) if has_else else self.after(place)
        self.counted.ways[('IF', 'IF', None, 'true' if truth else 'false')] += 1
        if not truth and not has_else:
            return self.after(place)
        chosen = unit if truth else following
        at = place if truth else self.after(place)
        if not truth:
            self.counted.add(following)
        if not chosen.inside:
            return self.line_at(int(re.search(r'(\d+)$', chosen.text.strip())[1]))
        return self.execute(chosen.inside[0], at, [chosen.inside[0]])

    def goes_to(self, unit, text, place):
        """The place after a statement that was executed."""
        row = unit.row
        if row in UNKNOWN:
            return self.leave(unit, text)
        if row in ENDING:
            self.place = self.after(place) if place[0] is not None and row == 'STOP' else None
            return None
        if row == 'GOTO':
            return self.line_at(int(text[4:]))
        if row == 'GOSUB':
            self.calls.append(self.after(place))
            return self.line_at(int(text[5:]))
        if row == 'GOSUB_MARKED':
            found = self.marked(int(re.match(r"GOSUB' *(\d+)", text)[1]))
            self.calls.append(self.after(place))
            return found
        if row == 'RETURN':
            if not self.calls:
                raise Unsure
            return self.calls.pop()
        if row == 'RETURN_CLEAR':
            self.calls = [] if text.endswith('ALL') else self.calls[:-1]
        if row == 'ON':
            return self.goes_on(text, place)
        return self.after(place)

    def goes_on(self, text, place):
        """An ON of a number that stands there."""
        found = re.match(r'ON *(\d+) *(GOTO|GOSUB) *([\d, ]+)$', text)
        if not found:
            raise Unsure
        lines = found[3].split(',')
        if not 1 <= int(found[1]) <= len(lines):
            return self.after(place)
        if found[2] == 'GOSUB':
            self.calls.append(self.after(place))
        return self.line_at(int(lines[int(found[1]) - 1]))

    def leave(self, unit, text):
        """A statement that begins a program, goes on with it, or takes it away."""
        match unit.row:
            case 'RUN':
                number = re.search(r'\d+', text)
                self.calls = []
                return self.line_at(int(number[0])) if number else (min(self.lines), 0) if self.lines else None
            case 'CONTINUE':
                place, self.place = self.place, None
                if place is None:
                    raise Unsure
                return place
            case 'CLEAR':
                self.forget()
                return None
        self.forget()
        raise Unsure


# Statements that go on with the one after them, whatever they do.
STEADY = {row for _, row in table()[1]} | {'ASSIGNMENT'}
STEADY -= UNKNOWN | ENDING | LEFT_OUT | UNBUILT | {'GOTO', 'GOSUB', 'GOSUB_MARKED', 'RETURN', 'RETURN_CLEAR', 'ON', 'IF', 'ELSE', 'ERROR'}


def typed_lines(lines):
    """The lines that a session types at the prompt, each with what is shown after it, and whether the log says more."""
    typed = []
    for line in lines:
        if line.startswith(':'):
            typed.append([line[1:].removesuffix('\\'), [], True])
        elif line and typed:
            typed[-1][1].append(line)
            typed[-1][2] = typed[-1][2] and not line.startswith('! ')
    return typed


def follow_line(machine, text, shown, is_plain):
    """A line that is typed at the prompt."""
    codes = [found for found in map(CODE.match, shown) if found]
    number = re.match(r' *(\d{1,4})(.*)', text)
    if number:
        if not codes:
            machine.edit(int(number[1]), number[2])
        return
    if units_of(text) is None or not is_plain or (codes and codes[0][1] is None):
        # Of an immediate line that met a code nothing is known, nor what it did to the program.
        machine.forget()
        return
    try:
        # What stands before the line that met the code was executed.
        machine.follow(units_of(text), (None, 0), int(codes[0][1]) if codes else None)
    except Unsure:
        pass


def count():
    """What the sessions execute."""
    counted = Counted()
    for path in sorted(TESTS.glob('sessions/*.session')):
        for _, _, lines in chapters(path.name, path.read_text())[1]:
            machine = Machine(counted)
            for text, shown, is_plain in typed_lines(lines):
                follow_line(machine, text, shown, is_plain)
    return counted


def ways_of(row, is_common):
    """The ways that a form can go, each with the row and the item that has the choice, and how often it is wanted."""
    texts = known_words()[1]
    for part in sorted(parts_of(row)):
        if part in LEFT_OUT or (part in COMMON) != is_common:
            continue
        for place, item in enumerate(table()[0][part]):
            match item[0]:
                case 'Maybe' | 'Many':
                    yield from ((part, place, way, 1) for way in (item[2], 'no ' + item[2]))
                case 'Either':
                    yield from ((part, place, way, LEAST) for way in item[2:] if way not in LEFT_OUT)
                case 'Among':
                    low, high = texts.index(item[1]), texts.index(item[2])
                    yield from ((part, place, way, LEAST) for way in texts[low:high + 1])
                case 'Comma':
                    yield from ((part, place, way, 1) for way in ('a comma', 'no comma'))


def wanted():
    """How often each form is wanted, and each way of one: of what stands in expressions anywhere, of all else in each form."""
    forms = [row for _, row in table()[1] if row not in LEFT_OUT | UNBUILT] + ['ASSIGNMENT']
    ways = {('IF', 'IF', None, way): LEAST for way in ('true', 'false')}
    for form, rows, is_common in [(None, EVERYWHERE, True)] + [(form, [form], False) for form in forms]:
        for row in rows:
            ways |= {(form, part, place, way): least for part, place, way, least in ways_of(row, is_common)}
    return forms, ways


def main():
    counted = count()
    forms, ways = wanted()
    failed = [f'FAILED {form} is executed {counted.forms[form]} times, and {LEAST} are wanted'
              for form in forms if counted.forms[form] < LEAST]
    for (form, row, place, way), least in ways.items():
        times = counted.ways[(form, row, place, way)]
        if times < least:
            failed.append(f'FAILED {form or "an expression"}: {row} goes by {way} {times} times, and {least} are wanted')
    print('\n'.join(failed + [f'{len(forms) + len(ways) - len(failed)} passed, {len(failed)} failed']))
    return 0 if not failed else 1


if __name__ == '__main__':
    sys.exit(main())
