# Runs the tables of docs/LIMITS.md: python3 tools/tests/limits.py PROGRAM. Of each row with an input what is taken last gives no
# error, and one past it gives the code, or the line of the status, that the row has. Prints each that comes out otherwise, and at the end
# "N passed, N failed"; the status is 0 where none failed.
import os
import re
import sys
import tempfile
from concurrent.futures import ThreadPoolExecutor
from pathlib import Path

sys.dont_write_bytecode = True
from cases import Session, boot_named, remarked  # noqa: E402
from judge import Ended  # noqa: E402

PAGE = Path(__file__).resolve().parents[2] / 'docs/LIMITS.md'

# The tables of a boot file that is good, each once.
TABLES = {
    'terminal': ['number = 1', 'front = 1'],
    'partition': ['number = 1', 'terminal = 1', 'text = 24', 'data = 24', 'globals = 8', 'disk = "D11"'],
    'platter': ['address = "D11"', 'blank = 64'],
    'printer': ['address = "215"'],
}
MORE_PLATTERS = [['address = "D12"', 'blank = 16'], ['address = "D13"', 'blank = 300']]

# Rows of which the first that isn't taken is known by its size alone.
TOO_LONG = re.compile(r'too long (\w+) (\d+)')


def boot(tables, quota='quota = 1000'):
    return '\n'.join([quota] + [line for kind, lines in tables for line in [f'[[{kind}]]', *lines]]).encode() + b'\n'


def good_boot():
    return boot([*TABLES.items(), *(('platter', lines) for lines in MORE_PLATTERS)])


def numbered(kind, count):
    """The lines of a table that stands there the count-th time."""
    match kind:
        case 'terminal':
            return [f'number = {count}', f'front = {count}']
        case 'partition':
            return [f'number = {count}', f'terminal = {min(count, 12)}', 'text = 2', 'data = 2', 'globals = 0']
        case 'platter':
            return [f'address = "D1{count - 1:X}"', 'blank = 16']
    return [f'address = "20{count}"']


def repeated(kind, count):
    """A boot file in which a table stands so often; there are as many terminals as are wanted for partitions, and the reverse."""
    counts = {'terminal': 1, 'partition': 1, 'platter': 0, 'printer': 0, kind: count}
    if kind in ('terminal', 'partition'):
        counts = {'terminal': min(count, 13 if kind == 'terminal' else 12), 'partition': count, 'platter': 0, 'printer': 0}
    return boot([(kind, numbered(kind, at)) for kind in counts for at in range(1, counts[kind] + 1)])


def replaced(line):
    """A boot file in which a line is another, or is there besides."""
    key = line.split(' = ')[0]
    if key == 'quota':
        return boot(TABLES.items(), line)
    place = next((kind for kind, lines in TABLES.items() if any(one.startswith(key + ' ') for one in lines)), 'partition')
    lines = [one for one in TABLES[place] if not one.startswith(key + ' ')] + [line]
    return boot({**TABLES, place: lines}.items())


def inputs(section, cell):
    """The boot file and the log that a cell of a section gives."""
    words = re.findall('`([^`]*)`', cell)
    if section == 'The boot file':
        often = re.match(r'(\d+) `\[\[(\w+)\]\]`', cell)
        return (repeated(often[2], int(often[1])) if often else replaced(words[0])), b''
    if section == 'The log':
        return boot_named('one'), '\n'.join(words).encode() + b'\n'
    session = Session()
    for word in words:
        session.add(':' + word)
    return good_boot(), session.ended()[0] + b'rounds 9\n'


def errors_of(program, section, cell):
    """The codes, or the line of the status, that an input gives."""
    with tempfile.TemporaryDirectory() as folder:
        for name, content in zip(('boot', 'log'), inputs(section, cell)):
            (Path(folder) / name).write_bytes(content)
        ended = Ended(program, ['run', 'boot', 'log', 'out'], folder)
        if ended.status != 0:
            return [ended.line.decode('latin-1').strip()]
        shown = (Path(folder) / 'out.t01').read_bytes().decode('latin-1')
        # A start program that isn't there is another matter.
        return [] if section == 'The boot file' else re.findall(r'^ERR (...)', shown, re.M)


def told_of_row(program, section, row):
    """What is to be told of a row with an input."""
    what, _, taken, past, sees = row
    wanted = re.search('`([^`]*)`', sees)
    told = []
    if taken and errors_of(program, section, taken):
        told.append(f'{what}: {taken} gives {errors_of(program, section, taken)}')
    if errors_of(program, section, past) != [wanted[1]]:
        told.append(f'{what}: {past} gives {errors_of(program, section, past)} and not {wanted[1]}')
    return told


def told_of_size(program, name, limit):
    """What is to be told of a file of a size, and of one that has a byte more."""
    told = []
    for size in (limit, limit + 1):
        with tempfile.TemporaryDirectory() as folder:
            files = {'boot': boot_named('one_image' if name == 'base' else 'one'), 'log': b'', 'base': b'', 'file': b''}
            files[name] = bytes(size) if name in ('base', 'file') else remarked(files[name], size)
            for one, content in files.items():
                (Path(folder) / one).write_bytes(content)
            ended = Ended(program, ['check', name] if name == 'file' else ['run', 'boot', 'log', 'out'], folder)
            if (ended.line == f'too long {name} {limit}\n'.encode()) != (size > limit) or ended.status is None:
                told.append(f'{name} of {size} bytes: {ended}')
    return told


def rows():
    """The rows of the page with an input, each with its section."""
    for part in PAGE.read_text().split('\n## ')[1:]:
        section, _, text = part.partition('\n')
        for line in text.split('\n'):
            cells = [cell.strip() for cell in line.strip('|').split(' | ')]
            if line.startswith('| ') and len(cells) == 5 and '`' in cells[3]:
                yield section, cells


def main(program):
    page = PAGE.read_text()
    works = [lambda row=row: told_of_row(program, *row) for row in rows()]
    works += [lambda found=found: told_of_size(program, found[0], int(found[1])) for found in TOO_LONG.findall(page)]
    with ThreadPoolExecutor(os.cpu_count()) as pool:
        failed = [f'FAILED LIMITS.md: {what}' for told in pool.map(lambda work: work(), works) for what in told]
    print('\n'.join(failed + [f'{len(works) - len(failed)} passed, {len(failed)} failed']))
    return 0 if works and not failed else 1


if __name__ == '__main__':
    sys.exit(main(os.path.abspath(sys.argv[1])))
