# Reads lines of BASIC by the table of forms of the sources (crates/b2_atom/src): which statements a line has, and which way
# each of them goes where the table has a choice.
import re
from dataclasses import dataclass, field
from functools import cache
from pathlib import Path
from types import SimpleNamespace

SOURCES = Path(__file__).resolve().parents[2] / 'crates/b2_atom/src'


class Unread(Exception):
    """A line that the table doesn't read."""


class Variant(tuple):
    """A variant of the sources with its values, as `Item::Part(rows::SUM)` is ('Part', 'SUM')."""

    def __call__(self, *values):
        return Variant(self + values)


class Row(str):
    """The name of a row."""


class Named:
    """What stands before `::`, of which each name is wanted as it is."""

    def __init__(self, give):
        self.give = give

    def __getattr__(self, name):
        return self.give(name)


@cache
def known_words():
    """The words of the language by the names of their codes, and all of them in their order."""
    source = (SOURCES / 'words.rt').read_text()
    texts = re.findall(r'^    b"([^"]+)",$', source, re.M)
    codes = {name: int(code, 16) for name, code in re.findall(r'^pub const (\w+): u8 = 0x([0-9A-F]+);', source, re.M)}
    words = {name: texts[code - 0x80] for name, code in codes.items() if 0x80 <= code <= codes['LAST']}
    # The short words are no words elsewhere, so they are not among the texts.
    return {**words, **{name: name for name, code in codes.items() if codes['LAST'] < code < codes['LINE_MARK']}}, texts


@cache
def longest_first():
    return sorted(known_words()[1], key=len, reverse=True)


@cache
def table():
    """The rows of the table by their names, and the statements with what they begin with."""
    source = (SOURCES / 'table.rt').read_text().replace('::', '.')
    by_name, _ = known_words()
    names = {'Item': Named(lambda name: Variant((name,))), 'Start': Named(lambda name: Variant((name,))),
             'Leaf': Named(str), 'Position': Named(str), 'rows': Named(Row), 'codes': Named(str), 'Rule': Named(str),
             'words': SimpleNamespace(**by_name)}
    rows = {name: eval(items, names) for name, items in re.findall(r'// ([A-Z_0-9]+)\n    &(\[.*\]),\n', source)}
    forms = [(eval(start, names), row) for start, row in re.findall(r'Form \{ start: (.*), rule: .*, row: rows\.(\w+) \}', source)]
    return rows, forms


LEAVES = {
    'Number': r'(\d+\.?\d*|\.\d+)(E[+-]?\d+)?', 'SignedNumber': r'[+-]? *(\d+\.?\d*|\.\d+)(E[+-]?\d+)?',
    'Name': r'@?[A-Z][0-9]?(?!\$)', 'AlphaName': r'@?[A-Z][0-9]?\$', 'LocalName': r'[A-Z][0-9]?', 'FunctionName': r'[A-Z0-9]',
    'Literal': r'"[^"]+"', 'LineNumber': r'\d{1,4}', 'HexPair': r'[0-9A-F] *[0-9A-F]', 'HexDigit': r'[0-9A-F]',
    'Address': r'[0-9A-F]{3}', 'Slot': r'#\d+', 'Small': r'\d+', 'Image': r'[^)]*\)', 'Text': r'.*', 'Relation': r'<=|>=|<>|[<=>]',
}

# Words whose second half may stand apart.
APART = {'DATASAVE': r'DATA *SAVE', 'DATALOAD': r'DATA *LOAD', 'PRINTUSING': r'PRINT *USING'}

NUMERIC = r'[+\-.(\d]'


def spelled(sign):
    """The text of a sign or a word of the table."""
    return sign.decode() if isinstance(sign, bytes) else sign


@dataclass
class Unit:
    """A statement of a line: its row, its text, the ways that it went where there was a choice, and what stands inside it."""
    row: str
    text: str = ''
    ways: list = field(default_factory=list)
    inside: list = field(default_factory=list)


class Reader:
    """A line as far as it has been read."""

    def __init__(self, line):
        self.line = line
        self.place = 0
        self.units = []

    def rest(self):
        """What is left of the line without the blanks at its front, in upper case."""
        while self.line[self.place:self.place + 1] == ' ':
            self.place += 1
        return self.line[self.place:].upper()

    def word_ahead(self):
        """The word or the sign that stands ahead, and how long it is."""
        rest = self.rest()
        for word, pattern in APART.items():
            found = re.match(pattern, rest)
            if found:
                return word, found.end()
        for word in longest_first():
            if rest.startswith(word):
                return word, len(word)
        return rest[:1], 1

    def takes(self, pattern):
        """Reads what a pattern says, or nothing."""
        found = re.match(pattern, self.rest())
        if found:
            self.place += found.end()
        return found is not None

    def is_among(self, low, high):
        texts = known_words()[1]
        ahead = self.word_ahead()[0]
        return ahead in texts and texts.index(low) <= texts.index(ahead) <= texts.index(high)

    def begins(self, start):
        """Whether what begins a part stands ahead."""
        kind, values = start[0], [spelled(value) for value in start[1:]]
        ahead, width = self.word_ahead()
        match kind:
            case 'Code' | 'Two' | 'Three':
                return ahead in values
            case 'Among':
                return self.is_among(*values)
            case 'Pair':
                after = Reader(self.line[self.place + width:])
                return ahead == values[0] and after.word_ahead()[0] == values[1]
            case 'ShortAfter':
                return ahead == values[0] and Reader(self.line[self.place + width:]).is_short(values[1])
            case 'Letters':
                return re.match(' *'.join(values), self.rest()) is not None
            case 'Number':
                return re.match(r'[\d.]', self.rest()) is not None
            case 'Line':
                return re.match(r'\d', self.rest()) is not None
            case 'Alpha':
                return self.is_alpha()
            case 'Numeric':
                return self.is_numeric()
            case 'Hex':
                return re.match(r'[0-9A-F]', self.rest()) is not None
            case 'Array':
                return re.match(r'@?[A-Z][0-9]?\$? *\( *\)', self.rest()) is not None
            case 'AlphaInside':
                return ahead == '(' and Reader(self.line[self.place + 1:]).is_alpha()
            case 'CommaOrAlpha':
                return ahead == ',' or self.is_alpha()
            case 'PrintItem':
                return self.is_among('TAB(', 'HEXOF(') or self.is_among('AT(', 'BOX(') or self.is_alpha() or self.is_numeric()
        raise ValueError(start)

    def is_short(self, word):
        """Whether a short word stands ahead, where no longer word begins."""
        return self.rest().startswith(word) and self.word_ahead()[0] == word[0]

    def is_alpha(self):
        return self.word_ahead()[0] == '"' or self.is_among('HEX(', 'BIN(') or re.match(LEAVES['AlphaName'], self.rest()) is not None

    def is_numeric(self):
        if self.word_ahead()[0] == 'FN' or self.is_among('ABS(', '#TERM') or re.match(NUMERIC, self.rest()):
            return True
        is_name = re.match(r'@?[A-Z]', self.rest()) is not None and len(self.word_ahead()[0]) == 1
        return is_name and not self.is_alpha()

    def read_row(self, row, unit):
        for place, item in enumerate(table()[0][row]):
            self.read_item(item, (row, place), unit)

    def read_item(self, item, here, unit):
        """Reads what an item of a row says, and notes which way it went where there is a choice."""
        kind, values = item[0], item[1:]
        match kind:
            case 'Word' | 'Sign' | 'ProgramWord':
                ahead, width = self.word_ahead()
                if ahead != spelled(values[0]):
                    raise Unread(f'{spelled(values[0])} at {self.rest()!r}')
                self.place += width
            case 'Among':
                if not self.is_among(values[0], values[1]):
                    raise Unread(f'{values[0]} at {self.rest()!r}')
                ahead, width = self.word_ahead()
                unit.ways.append((*here, ahead))
                self.place += width
            case 'ShortWord':
                if not self.is_short(values[0]):
                    raise Unread(f'{values[0]} at {self.rest()!r}')
                self.place += len(values[0])
            case 'Ignored':
                self.takes(values[0])
            case 'Comma':
                unit.ways.append((*here, 'a comma' if self.takes(',') else 'no comma'))
            case 'LeftOut':
                raise Unread(f'left out: {self.rest()!r}')
            case 'End':
                if self.rest():
                    raise Unread(f'the end at {self.rest()!r}')
            case 'Typed':
                if not self.takes(LEAVES[values[0]]):
                    raise Unread(f'{values[0]} at {self.rest()!r}')
            case 'Part' | 'Nest':
                self.read_row(values[0], unit)
            case 'Maybe':
                is_there = self.begins(values[0])
                unit.ways.append((*here, values[1] if is_there else f'no {values[1]}'))
                if is_there:
                    self.read_row(values[1], unit)
            case 'Either':
                chosen = values[1] if self.begins(values[0]) else values[2]
                unit.ways.append((*here, chosen))
                self.read_row(chosen, unit)
            case 'Many':
                self.read_many(values, here, unit)
            case 'Statement':
                self.read_statement(values[0] == 'Following', unit)
            case _:
                raise ValueError(item)

    def read_many(self, values, here, unit):
        count = 0
        while self.begins(values[0]):
            self.read_row(values[1], unit)
            count += 1
        unit.ways.append((*here, values[1] if count else f'no {values[1]}'))

    def read_statement(self, is_inside, around):
        """Reads a statement: one more of the line, or one inside another."""
        begins_by_let = self.takes('LET')
        rows = [row for start, row in table()[1] if not begins_by_let and self.begins(start)]
        unit = Unit(rows[0] if rows else 'ASSIGNMENT')
        (around.inside if is_inside else self.units).append(unit)
        begun = self.place
        self.read_row(unit.row, unit)
        unit.text = self.line[begun:self.place]


def units_of(line):
    """The statements of a line without its number, None where the table doesn't read it."""
    reader = Reader(line)
    try:
        reader.read_row('LINE', Unit('LINE'))
    except Unread:
        return None
    return reader.units


# Rows of expressions and conditions, through which all others of these are reached.
EVERYWHERE = ('SUM', 'ADDEND', 'CONDITION', 'ALPHA')


@cache
def parts_of(row):
    """The rows that a row goes through, itself among them."""
    found, left = {row}, [row]
    while left:
        for item in table()[0][left.pop()]:
            for name in item[1:]:
                if isinstance(name, Row) and name not in found:
                    found.add(name)
                    left.append(name)
    return frozenset(found)
