# Bad input by seed: `tools/hostile seeds`. Of each seed a boot file, a log, images and programs, each made well and then damaged, or
# made of nothing; and what must hold of the run that they give (`told`), whatever they are.
import random
import sys
import tomllib
from pathlib import Path

import grammar
from images import PROGRAMS, put_bytes
from judge import SECTOR, SUMMARY, WIDTHS, Ended, files_in, first_check, outputs_of

sys.path.insert(0, str(Path(__file__).resolve().parents[1]))
from machine import toml_value  # noqa: E402

# The most bytes of a disk's image.
MOST_OF_AN_IMAGE = 67_108_864

EDGES = [0, 1, 2, 7, 8, 9, 12, 13, 15, 16, 17, 20, 24, 25, 31, 32, 64, 99, 127, 128, 255, 256, 999, 1000, 1001, 4096, 9999, 10000,
         32511, 32512, 32513, 65535, 65536, 100000, 100001, 2**31, 2**32, 2**63, 2**64]
PLATTERS, PRINTERS = ['D11', 'D12', '310', 'B20', 'D10', '3FF'], ['215', '204', '2FF']
FILE_NAMES = ['F', 'G', 'A', 'B', 'P', 'LIB', 'ORDERS', 'A LONGER', 'Z9']
BYTES = bytes(range(0x20, 0x7F))

# Arrays that statements may use.
SHAPES = 'DIM A$(9)9,B$(9)2,F$(4)16,X1$(2)2,A(3,3),B(9),X(2,2)'

# What is typed that leads far: files, programs, devices and calls into another's text.
SCENES = [
    ['DATASAVE DC OPEN T,#1,9,"F"', 'FOR I=1 TO 5:DATASAVE DC #1,I,A$:NEXT I', 'DATASAVE DC #1,END', 'DBACKSPACE #1,BEG:DATALOAD DC #1,A,B$',
     'DSKIP #1,END:DATASAVE DC #1,7', 'SCRATCH T,"F"', 'DATASAVE DC OPEN T,#2,("F"),"G"', 'LIST DC T'],
    ['10 FOR I=1 TO 9', '20 PRINT I,I^2', '30 NEXT I', 'SAVE T,"P"', 'CLEAR', 'LOAD T,"P"', 'RUN', 'SAVE T,("P"),"P"', 'LIST'],
    ['10 DEFFN @PART "LIB"', '20 END', "30 DEFFN'7(A,B$)", '40 @A=@A+A:PRINT B$', '50 RETURN', 'RUN'],
    ['10 SELECT @PART "LIB"', "20 GOSUB'7(5,\"X\")", '30 PRINT @A:GOTO 20', 'RUN'],
    ['SELECT PRINT 215:PRINT "A";', 'PRINT "B",7:LIST DC T', '10 PRINT I:I=I+1:IF I<9 THEN 10', 'RUN', 'SELECT PRINT 005'],
    ['SCRATCH DISK T,LS=1,END=15', 'DATASAVE DC OPEN T,4,"F":DATASAVE DC #0,1,"A":DATASAVE DC END', '10 DBACKSPACE BEG', '20 DATALOAD DC A,A$:PRINT A;A$',
     '30 IF END THEN 50:GOTO 20', '50 PRINT "END"', 'RUN'],
    ['10 $OPEN /D11,/215', '20 SELECT PRINT 215:PRINT "A";', '30 $BREAK:$CLOSE', '40 GOTO 10', 'RUN'],
    ['10 PRINT "A":$RELEASE TERMINAL', '20 I=I+1:IF I<3 THEN 10', 'RUN', '$RELEASE TERMINAL:PRINT #PART', '$RELEASE TERMINAL'],
    ['10 KEYIN A$,20,20:$BREAK 3:GOTO 10', '20 PRINT A$;:$BREAK 255', 'RUN', 'X'],
    ['10 INPUT "A",A,B$', '20 LINPUT C$:KEYIN D$', '30 PRINT A;B$;C$;D$', 'RUN', '5,X', 'A LINE', 'KEY', '7', ''],
    ['10 GOSUB 10', 'RUN', 'PRINT ((((1))))', '10 DEFFN A(X)=FNA(X)', 'PRINT FNA(1)'],
    ['DIM A$(9)9,B(3,3),C$(9)2,D$(9)2', 'MAT B=CON:MAT B=B+B', 'MAT SORT A$() TO C$(),D$()', 'MAT COPY A$() TO C$()', 'PRINT B(2,2)'],
    ['MOVE T/D11 TO T/D12', 'SCRATCH DISK T/D12,LS=2,END=30', 'MOVE T/D11,"F" TO T/D12', 'LIMITS T,"F",A,B,C,D:PRINT A;B;C;D', 'LIST DC T/D12'],
]


class Maker:
    """Makes the inputs of a seed."""

    def __init__(self, seed):
        self.chance = random.Random(seed)

    def happens(self, part):
        return self.chance.random() < part

    def one(self, some):
        return self.chance.choice(list(some))

    def bytes(self, most):
        return self.chance.randbytes(self.chance.randint(0, most))

    def some_of(self, some, count):
        """Some of a list, mostly its first."""
        return some[:count] if self.happens(.7) else self.chance.sample(some, count)

    # Statements, by the table of forms of the language.

    def leaf(self, kind):
        chance = self.chance
        match kind:
            case 'Number' | 'SignedNumber':
                return self.one(['0', '1', '1', '1', '2', '2', '3', '4', '5', '9', '.5', '12.5', self.one(['1E99', '9.9E-99', str(self.one(EDGES))])])
            case 'Name':
                return self.one(['A', 'B', 'I', 'X', 'Z9', '@A', '@B1'])
            case 'AlphaName':
                return self.one(['A$', 'B$', 'F$', 'X1$', '@A$'])
            case 'LocalName':
                return self.one(['I', 'J', 'A', 'Z9'])
            case 'FunctionName':
                return self.one('AB9')
            case 'Literal':
                return '"' + self.one(['F', 'F', 'G', 'P', *FILE_NAMES, 'HEX', '####.##', '-$#,###.##', ' ', 'x' * 60, 'A(03)']) + '"'
            case 'LineNumber':
                return str(self.one([10, 20, 30, 40, 50, 60, 70, 9999, 0]))
            case 'HexPair':
                return f'{chance.randint(0, 255):02X}'
            case 'HexDigit':
                return f'{chance.randint(0, 15):X}'
            case 'Address':
                return self.one(['D11', 'D11', 'D12', '215', '005', *PLATTERS, *PRINTERS, 'FFF'])
            case 'Slot':
                return '#' + str(chance.randint(0, 17))
            case 'Small':
                return str(chance.randint(0, 33))
            case 'Image':
                return self.one(['####', '-##.##', '+$#,###.##', '', '#' * 14, '.#']) + ')'
            case 'Text':
                return self.one(['', ' A REMARK', ' ##.## AND #####', ' -$#,###.##'])
            case 'Relation':
                return self.one(['<=', '>=', '<>', '<', '=', '>'])
        raise ValueError(kind)

    def row(self, row, depth):
        """A text by a row of the table. Deep inside parts that may be left out are."""
        return ' '.join(filter(None, (self.item(item, depth) for item in grammar.table()[0][row])))

    def item(self, item, depth):
        kind, values = item[0], item[1:]
        far = depth > 8
        match kind:
            case 'Word' | 'Sign' | 'ProgramWord':
                return grammar.spelled(values[0])
            case 'Among':
                texts = grammar.known_words()[1]
                return self.one(texts[texts.index(values[0]):texts.index(values[1]) + 1])
            case 'ShortWord':
                return values[0]
            case 'Ignored':
                return values[0] if self.happens(.5) else ''
            case 'Comma':
                return self.one(['', ','])
            case 'LeftOut':
                return self.one(['SIN(', 'PLOT', '#PI', 'F', 'OFF', '$GIO'])
            case 'End':
                return ''
            case 'Typed':
                return self.leaf(values[0])
            case 'Part' | 'Nest':
                return self.row(values[0], depth + 1)
            case 'Maybe':
                return '' if far or self.happens(.7) else self.row(values[1], depth + 1)
            case 'Either':
                # The first way is mostly the shorter one, and a word left out is wanted seldom.
                first = self.happens(.8 if far else .5) and not (values[1] == 'LEFT_OUT' and self.happens(.95))
                return self.row(values[1 if first else 2], depth + 1)
            case 'Many':
                return ' '.join(self.row(values[1], depth + 1) for _ in range(0 if far else self.one([0, 0, 0, 0, 1, 2])))
            case 'Statement':
                return self.statement(depth)
        raise ValueError(item)

    def statement(self, depth=0):
        name = self.one(['ASSIGNMENT', 'PRINT', 'FOR', *(row for _, row in grammar.table()[1])])
        return self.row(name, depth + 1)

    def statements(self):
        return ':'.join(self.statement() for _ in range(self.one([1, 1, 1, 2, 3])))

    def line(self):
        """A line of the language, mostly a good one, with a number or without."""
        if self.happens(.05):
            words = grammar.known_words()[1] + list('()=,;:"+-*/^&#$@AB19')
            text = ' '.join(self.one(words) for _ in range(self.chance.randint(1, 12)))
        else:
            text = next((text for text in (self.statements() for _ in range(5)) if len(text) < 100), '')
        if self.happens(.6):
            text = f'{self.one([10, 20, 30, 40, 50, 60, 70])} {text}'
        if self.happens(.1):
            text = self.damaged(text.encode()).decode('latin-1')
        return ''.join(sign for sign in text if sign.isascii() and sign.isprintable())[:120]

    # Damage.

    def damaged(self, some):
        """A text with a byte changed, dropped or doubled, a line moved, doubled or dropped, or a number put to an edge."""
        some = bytearray(some)
        at = self.chance.randrange(len(some) + 1)
        match self.one(['byte', 'byte', 'drop', 'double', 'cut', 'line', 'number', 'number']):
            case 'byte':
                some[at:at + 1] = bytes([self.one(BYTES) if self.happens(.5) else self.chance.randint(0, 255)])
            case 'drop':
                del some[at:at + self.one([1, 1, 2, 16])]
            case 'double':
                some[at:at] = some[at:at + self.one([1, 1, 2, 16])]
            case 'cut':
                del some[at:]
            case 'line':
                lines = bytes(some).split(b'\n')
                moved = lines.pop(self.chance.randrange(len(lines)))
                lines[self.chance.randrange(len(lines) + 1):0] = [moved] * self.one([0, 1, 2])
                some = b'\n'.join(lines)
            case 'number':
                pieces = bytes(some).split(b' ')
                places = [place for place, piece in enumerate(pieces) if piece.strip().isdigit()]
                if places:
                    place = self.one(places)
                    pieces[place] = pieces[place].replace(pieces[place].strip(), str(self.one(EDGES)).encode())
                some = b' '.join(pieces)
        return bytes(some)

    # The boot file.

    def table(self):
        """A good boot file, as a table."""
        chance = self.chance
        terminals = sorted(chance.sample(range(1, 13), self.one([1, 1, 2, 3])))
        parts = chance.sample(range(1, 17), len(terminals) + self.one([0, 0, 1, 2]))
        places = dict(zip(parts, terminals + [self.one(terminals) for _ in parts]))
        platters = self.some_of(PLATTERS, self.one([0, 1, 1, 2, 2, 3]))
        printers = self.some_of(PRINTERS, self.one([0, 1, 1, 2]))
        table = {'quota': self.one([1, 2, 20, 20, 50, 1000])}
        table['terminal'] = [{'number': place, 'front': self.one(part for part in parts if places[part] == place)} for place in terminals]
        for row in table['terminal']:
            if self.happens(.4):
                there = [part for part in parts if places[part] == row['number']]
                row['order'] = chance.sample(there, chance.randint(1, len(there)))
        table['partition'] = [{'number': part, 'terminal': places[part], 'text': self.one([2, 3, 8, 24]), 'data': self.one([2, 8, 24]),
                               'globals': self.one([0, 1, 2, 8])} for part in parts]
        table['platter'] = [{'address': address, **self.one([{'image': f'image{count}'}, {'blank': self.one([16, 17, 64, 300])}, {'blank': self.one([16, 64, 300]), 'version': self.one([1, 2, 2])}])}
                            for count, address in enumerate(platters)]
        table['printer'] = [{'address': address} for address in printers]
        for row in table['platter'] + table['printer']:
            if self.happens(.1):
                row['for'] = self.one(parts)
        for row in table['partition']:
            if self.happens(.3):
                row['quota'] = self.one([1, 2, 20, 50, 1000])
            usable = [one['address'] for one in table['platter'] if one.get('for', row['number']) == row['number']]
            if usable and self.happens(.9):
                row['disk'] = self.one(usable)
                if self.happens(.3):
                    row['program'] = self.one(['R', 'K', 'P', 'E', 'N', 'LIB', 'F'])
        return table

    def wrong(self, table):
        """A table with a key or a row that is missing, doubled, taken from another, or with another value."""
        kind = self.one(['terminal', 'partition', 'platter', 'printer'])
        rows = table[kind]
        if not rows or self.happens(.1):
            table['quota'] = self.one([*EDGES, 'twenty', True])
            return
        row = self.one(rows)
        if not row:
            rows.remove(row)
            return
        match self.one(['value', 'value', 'drop', 'other', 'row', 'no row']):
            case 'value':
                row[self.one(row)] = self.one([*EDGES, 'X', '', 'D1', 'd11', 'image0', True, [], [1, 1], [0], [1.5], ['1']])
            case 'drop':
                row.pop(self.one(row))
            case 'other':
                other = self.one([other for rows in table.values() if isinstance(rows, list) for other in rows if other])
                key = self.one(other)
                row[key] = other[key]
            case 'row':
                rows.append(dict(row))
            case 'no row':
                rows.remove(row)

    @staticmethod
    def spelled(table):
        lines = [f'quota = {toml_value(table["quota"])}']
        for kind in ('terminal', 'partition', 'platter', 'printer'):
            for row in table[kind]:
                lines += ['', f'[[{kind}]]', *(f'{key} = {toml_value(value)}' for key, value in row.items())]
        return '\n'.join(lines).encode() + b'\n'

    # The log.

    def typed(self, terminal):
        """Lines of the log that type something at a terminal."""
        if self.happens(.5):
            texts = self.one(SCENES)
        else:
            texts = self.one([[], [SHAPES]]) + [self.line() for _ in range(self.one([1, 3, 8]))] + self.one([[], ['RUN']])
        for text in texts:
            if self.happens(.08):
                text = self.line()
            yield f'type {terminal} {text}'
            if self.happens(.85):
                yield f'rounds {self.one([1, 3, 9, 30])}'

    def log(self, table):
        """A log that fits a boot file."""
        parts = {row['number']: row['terminal'] for row in table['partition']}
        lines = []
        for _ in range(self.one([1, 6, 12, 20])):
            part = self.one([*parts, self.chance.randint(1, 16)])
            terminal = self.one(parts.values())
            match self.one(['typed', 'typed', 'typed', 'turn', 'rounds', 'key', 'sf', 'front', 'halt', 'reset', 'keys']):
                case 'typed':
                    lines += self.typed(terminal)
                case 'turn':
                    lines.append(f'turn {part} {self.one([1, 2, 20, 1000])}')
                case 'rounds':
                    lines.append(f'rounds {self.one([1, 3, 9, 30])}')
                case 'key':
                    lines.append(f'key {terminal} {self.chance.randint(0, 255):02X}')
                case 'sf':
                    lines.append(f'sf {terminal} {self.chance.randint(0, 31)}')
                case 'front':
                    there = self.one(parts)
                    lines.append(f'front {parts[there]} {there}')
                case 'keys':
                    lines.append(f'keys {terminal} {self.line()}')
                case what:
                    lines.append(f'{what} {part}')
        return '\n'.join([*lines, 'rounds 9']).encode() + b'\n'

    # Images.

    def data_sectors(self, count):
        """Sectors of a data file before its control sector: records of a number or a text, an end, and what was left."""
        record = self.one(['81 01 08 0001000000000000 FD', '81 01 83 414243 FD', '81 01 FD', '82 01 08 0001000000000000 FD', 'A0', 'A001', '85 01'])
        sectors = [bytes.fromhex(record) for _ in range(count)]
        if self.happens(.8):
            sectors[self.chance.randrange(count)] = b'\xA0'
        if self.happens(.2):
            sectors[self.chance.randrange(count)] = self.chance.randbytes(SECTOR)
        return b''.join(sector.ljust(SECTOR, b'\0') for sector in sectors)

    def image(self):
        """A good image of either version with some files."""
        version = self.one([1, 1, 2])
        width = WIDTHS[version]
        total, index = self.one([16, 17, 40, 64, 300]), self.one([1, 2, 2, 5])
        image, following = bytearray(SECTOR * total), index
        slots = {sector: 15 if sector == 0 else 16 for sector in range(index)}
        end_of_files = self.one([total, total, total - 2])
        names = self.chance.sample([*FILE_NAMES, *(name for name, _ in PROGRAMS if name not in FILE_NAMES)], self.chance.randint(0, 9))
        for name in names:
            size = self.one([2, 2, 3, 5])
            sector = next((at % index for at in range(sum(name.ljust(8).encode()), sum(name.ljust(8).encode()) + index) if slots[at % index]), None)
            if sector is None or following + size > end_of_files:
                continue
            place = SECTOR * (sector + 1) - 16 * slots[sector]
            slots[sector] -= 1
            end = following + size - 1
            is_program = name in dict(PROGRAMS)
            entry = bytes([self.one([0x10, 0x10, 0x10, 0x11]), 0x50 if is_program else 0x44]) + following.to_bytes(width) + end.to_bytes(width)
            put_bytes(image, place, entry.ljust(8, b'\0') + name.encode().ljust(8))
            content = bytes.fromhex(dict(PROGRAMS)[name]) if is_program else self.data_sectors(size - 1)
            put_bytes(image, SECTOR * following, content)
            put_bytes(image, SECTOR * end, bytes([0xA1]) + self.chance.randint(1, size - 1).to_bytes(width))
            following = end + 1
        put_bytes(image, 0, bytes([version, index]) + total.to_bytes(width) + end_of_files.to_bytes(width) + following.to_bytes(width))
        return bytes(image)

    def contradicted(self, image):
        """An image with a field of its head or of a slot changed, or a slot put in the place of another."""
        image = bytearray(image)
        slots = [place for place in range(16, min(SECTOR * image[1], len(image) - 15), 16) if image[place]] or [16]
        match self.one(['head', 'slot', 'slot', 'slot', 'slots', 'end', 'byte', 'length']):
            case 'head':
                image[self.chance.randrange(16)] = self.one([0, 1, 2, 3, 16, 64, 255])
            case 'slot':
                image[self.one(slots) + self.chance.randrange(16)] = self.one([0, 1, 2, 3, 5, 7, 8, 0x10, 0x11, 0x12, 0x44, 0x50, 0x20, 0x46])
            case 'slots':
                place = self.one([*slots, 16 * self.chance.randrange(1, 16 * max(1, image[1]))])
                from_place = self.one(slots)
                image[place:place + 16] = image[from_place:from_place + 16]
            case 'end':
                at = SECTOR * (image[self.one(slots) + (7 if image[0] == 2 else 5)])
                put_bytes(image, at + self.one([0, 1, 2, 3, 255]), bytes([self.chance.randint(0, 255)]))
            case 'byte':
                image[self.chance.randrange(len(image))] = self.chance.randint(0, 255)
            case 'length':
                image = image[:-self.one([1, SECTOR])]
        return bytes(image)

    def files(self):
        """The inputs: a boot file, a log and two images or three."""
        table = self.table()
        log = self.log(table)
        files = {f'image{count}': self.image() for count in range(3)}
        for name in files:
            for _ in range(self.one([0, 0, 0, 0, 1, 2])):
                files[name] = self.contradicted(files[name])
            if self.happens(.03):
                files[name] = self.bytes(6000)
        for _ in range(self.one([0] * 20 + [1, 2])):
            self.wrong(table)
        boot = self.spelled(table)
        for _ in range(self.one([0] * 20 + [1, 2])):
            boot = self.damaged(boot)
        for _ in range(self.one([0] * 16 + [1, 2, 5])):
            log = self.damaged(log)
        if self.happens(.02):
            boot = self.bytes(400)
        if self.happens(.03):
            log = self.bytes(400)
        return {'boot': boot, 'log': log, **files}

    def spoil(self, folder, words):
        """Seldom a file is missing, a folder stands at a name, a file is too long, or the words are others."""
        match self.one([''] * 30 + ['missing', 'folder', 'long', 'output', 'word', 'words']):
            case 'missing':
                (folder / self.one(['boot', 'log', 'image0'])).unlink()
            case 'folder':
                name = self.one(['boot', 'log', 'image0'])
                (folder / name).unlink()
                (folder / name).mkdir()
            case 'long':
                name, limit = self.one([('boot', 65_536), ('log', 4_194_304), ('image0', MOST_OF_AN_IMAGE)])
                content = (folder / name).read_bytes()
                (folder / name).write_bytes(content.ljust(limit + self.one([0, 1]), b'\n'))
            case 'output':
                (folder / self.one(['out.t01', 'out.t02', 'out.D11', 'out.p215', 'out.t03~'])).mkdir()
            case 'word':
                words[self.chance.randrange(4)] = self.one(['', 'out put', 'x' * 191, 'run', 'stop', 'boot', '\xFF', '*'])
            case 'words':
                words[self.chance.randrange(4):] = self.one([[], ['out', '1'], ['out', '1', '2']])


class Trial:
    """The run of a seed in a folder, and what is to be told of it."""

    def __init__(self, seed, program, folder):
        self.program, self.folder = program, Path(folder)
        maker = Maker(seed)
        for name, content in maker.files().items():
            (self.folder / name).write_bytes(content)
        self.words = ['run', 'boot', 'log', 'out']
        maker.spoil(self.folder, self.words)
        self.before = files_in(self.folder)
        self.ended = Ended(program, self.words, self.folder)
        self.after = files_in(self.folder)

    def told(self):
        """What is to be told, nothing where all holds."""
        ended = self.ended
        if ended.status is None:
            return 'it does not end'
        said = ended.said()
        if said is None:
            return f'no status with its line: {ended}'
        if ended.status == 0:
            return self.told_of_outputs() or self.told_of_images(self.after)
        if ended.put:
            return f'status {ended.status}, and it puts {ended.put[:60]!r}'
        if ended.status not in (7, 11) and self.after != self.before:
            return f'{ended}, and files changed'
        if any(self.after.get(name) != content for name, content in self.before.items()):
            return f'{ended}, and an input changed'
        return self.told_of_line(said.groupdict()) or self.told_of_images(self.before)

    def told_of_line(self, said):
        """What the line of a status names is there to be named."""
        name, check = said.get('name'), said.get('check')
        if name is not None and name.decode('latin-1') not in [*self.words[1:3], *self.images()]:
            return f'{self.ended} names no input'
        if said.get('line') is not None and int(said['line']) > self.before[self.words[2]].count(b'\n') + 1:
            return f'{self.ended} names no line'
        if check is not None and int(check) != first_check(self.image_at(said['address'].decode())):
            return f'{self.ended}, and the image fails {first_check(self.image_at(said["address"].decode()))}'
        return None

    def table(self):
        return tomllib.loads(self.before[self.words[1]].decode())

    def images(self):
        """The names of images that the boot file has, by their addresses; none where it is no boot file."""
        try:
            return {row['image']: row['address'] for row in self.table().get('platter', []) if 'image' in row}
        except (ValueError, KeyError):
            return {}

    def image_at(self, address):
        """The image that the boot file names for an address."""
        return self.before[next(name for name, at in self.images().items() if at == address)]

    def told_of_outputs(self):
        """After 0 all outputs are there, and no other file is or changed; and who is apart shows the same alone."""
        summary = SUMMARY.fullmatch(self.ended.put)
        if summary is None:
            return f'status 0, and it puts {self.ended.put[:80]!r}'
        front, table = self.words[3] + '.', self.table()
        outputs = {front + name for name in outputs_of(table)}
        if set(self.after) != set(self.before) | outputs or any(self.after[name] != self.before[name] for name in set(self.before) - outputs):
            return f'status 0, and the files are {sorted(self.after)}'
        bad = [name for name in outputs if len(name) == len(front) + 3 and name[-3] in '3BD' and first_check(self.after[name])]
        if bad:
            return f'status 0, and the image {bad[0]} fails {first_check(self.after[bad[0]])}'
        apart = [] if summary[1] == b'-' else [int(part) for part in summary[1].split(b',')]
        places = {row['number']: row['terminal'] for row in table['partition']}
        groups = [[part] for part in apart] + ([apart] if len(apart) > 1 else [])
        return next(filter(None, (self.told_alone(group, places) for group in groups)), None)

    def told_alone(self, group, places):
        """A group writes alone what it writes in company at each terminal that nobody else has."""
        mine = {places[part] for part in group} - {terminal for part, terminal in places.items() if part not in group}
        if not mine:
            return None
        parts = ','.join(map(str, group))
        ended = Ended(self.program, ['alone', *self.words[1:3], 'alone', parts], self.folder)
        if ended.status != 0:
            return f'alone {parts}: {ended}'
        written = files_in(self.folder)
        other = [terminal for terminal in mine if written[f'alone.t{terminal:02}'] != self.after[f'{self.words[3]}.t{terminal:02}']]
        return f'alone {parts}: another transcript at terminal {other[0]}' if other else None

    def told_of_images(self, files):
        """The program's own word on each image is that of the checks here."""
        for name, content in files.items():
            if name.startswith('image') or (name.startswith('out.') and name[4] in '3BD'):
                wanted = first_check(content)
                ended = Ended(self.program, ['check', name], self.folder)
                # Of one that is too long nothing more is told.
                if len(content) > MOST_OF_AN_IMAGE and ended.status == 9:
                    continue
                if ended.status != 0 or ended.put.split(b'\n')[0] != (f'bad {wanted}' if wanted else 'good').encode():
                    return f'check {name}: {ended}, and it fails {wanted}'
        return None

    def again(self):
        """How the run is repeated."""
        return f'cd {self.folder} && {self.program} ' + ' '.join(repr(word) if not word.isalnum() else word for word in self.words)
