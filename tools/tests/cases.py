# Reads the sessions and the runs of tests/, as tests/README.md describes them, into cases: what a run is given, and what it is to
# write.
import re
import shlex
from dataclasses import dataclass, field
from pathlib import Path

from images import image_of

TESTS = Path(__file__).resolve().parents[2] / 'tests'

# The most bytes of a session's line that are typed without a turn.
PIECE = 100


@dataclass
class Case:
    """A run of the program: what it is given, and what is wanted of it."""
    place: str
    title: str
    words: list = field(default_factory=lambda: [b'run', b'boot', b'log', b'out'])
    files: dict = field(default_factory=dict)       # the inputs by name, `boot` and `log` among them
    folders: list = field(default_factory=list)     # names at which a folder stands, so that calls on them fail
    is_full: bool = False                           # whether nothing can be put
    status: int = 0
    said: bytes = b''                               # the line for the status
    put: bytes = None                               # what is put, or how it ends
    put_is_end: bool = False
    wanted: dict = field(default_factory=dict)      # what outputs are to have, by name
    parts: list = field(default_factory=list)       # an output, a place and the bytes that are to stand there
    kept: list = None                               # the outputs that are there, where that is said
    alone: list = field(default_factory=list)       # a list of partitions, and the outputs that are the same with these alone
    part: list = field(default_factory=list)        # the outputs that are the same from the boot file and the log of a part


class Malformed(Exception):
    """A line of a table that says nothing known."""


def spelled(line):
    """The bytes that a line spells, and what comes after them: a newline, nothing, or `>` and a text that is typed."""
    text, place = bytearray(), 0
    while place < len(line):
        rest = line[place:]
        if rest == '\\':
            break
        if rest == '\\-' or rest.startswith('\\>'):
            return bytes(text), rest[1:].removeprefix('-')
        if re.match(r'\\[0-9A-F]{2}', rest):
            text.append(int(rest[1:3], 16))
            place += 3
        else:
            place += rest.startswith('\\')
            text.append(ord(line[place]))
            place += 1
    return bytes(text), '\n'


def shown(line):
    """The bytes of a line, with its newline."""
    text, end = spelled(line)
    return text + end.encode()


def boot_named(name):
    return (TESTS / 'boots' / (name + '.toml')).read_bytes()


class Session:
    """A session as far as it has been read: its log, and the transcript of terminal 1."""

    def __init__(self):
        self.log = b''
        self.transcript = b'READY\n'
        self.owes_turns = False     # whether turns are to follow what was typed last
        self.is_ended = True        # whether the last line that is shown has its newline

    def grant_turns(self):
        """Grants the turns that what was typed last needs."""
        if self.owes_turns:
            self.log += b'rounds 9\n'
        self.owes_turns = False

    def type_line(self, line):
        self.grant_turns()
        text = line.removesuffix('\\').encode()
        self.transcript += text + b'\n'
        while len(text) > PIECE:
            self.log += b'keys 1 ' + text[:PIECE] + b'\nrounds 1\n'
            text = text[PIECE:]
        self.log += b'type 1 ' + text + b'\n'
        self.owes_turns = True
        self.is_ended = True

    def add(self, line):
        """A line of the table."""
        if line.startswith(':'):
            self.transcript += b':'
            self.type_line(line[1:])
        elif line.startswith('! '):
            self.log += shown(line[2:])
            self.owes_turns = False
        elif line:
            text, end = spelled(line)
            self.transcript += text
            if end.startswith('>'):
                self.type_line(end[1:])
            else:
                self.transcript += end.encode()
                self.is_ended = end == '\n'

    def ended(self):
        """The log, and the transcript with the prompt at its end."""
        self.grant_turns()
        return self.log, self.transcript + (b':' if self.is_ended else b'')


def chapters(name, text):
    """The lines before the first case of a table; and of each case its place, its title and its lines."""
    front, cases, title = [], [], ''
    for number, line in enumerate(text.split('\n'), 1):
        if line == '=' or line.startswith('= '):
            title = line[2:] or title
            cases.append((f'{name}, line {number}', title, []))
        else:
            (cases[-1][2] if cases else front).append(line)
    return front, cases


def boot_of_front(front):
    """The boot file that the lines before the first case name."""
    for line in front:
        if line.startswith('boot '):
            return boot_named(line[5:])
    return boot_named('sessions')


def sessions_of(name, text):
    """The cases of a table of sessions."""
    front, chapters_of_it = chapters(name, text)
    images = {'files': image_of(['two_files']), 'programs': image_of(['program_files'])}
    for place, title, lines in chapters_of_it:
        session = Session()
        for line in lines:
            session.add(line)
        log, transcript = session.ended()
        files = {'boot': boot_of_front(front), 'log': log, **images}
        yield Case(place, title, files=files, wanted={'t01': transcript})


def wants(case, name, line):
    """A line of an output, after those that came before."""
    case.wanted[name] = case.wanted.get(name, b'') + shown(line)


def given(case, name, text):
    """Bytes of an input, after those that came before."""
    case.files[name] = case.files.get(name, b'') + text


def remarked(text, size):
    """A text, filled to a size with lines that are `#` and letters; the last line may have no end."""
    line = b'#' + b'A' * 98 + b'\n'
    return (text + line * (size // len(line) + 1))[:size]


def read_put(case, text):
    """A line that is put, after those that came before."""
    case.put_is_end = text.startswith('..')
    case.put = (case.put or b'') + shown(text.removeprefix('..'))


def read_status(case, text):
    number, _, said = text.partition(' ')
    case.status = int(number)
    case.said = shown(said) if said else b''


def read_word(case, word, text):
    """A line of a run that begins with a word."""
    words = text.split()
    match word:
        case 'boot':
            case.files['boot'] = boot_named(text)
        case 'no':
            case.files.pop(text, None)
        case 'fill':
            case.files[words[0]] = case.files.get(words[0], b'').ljust(int(words[1]), b'\n')
        case 'remarks':
            case.files[words[0]] = remarked(case.files.get(words[0], b''), int(words[1]))
        case 'file':
            case.files[words[0]] = image_of(words[1:])
        case 'folder':
            case.files.pop(text, None)
            case.folders.append(text)
        case 'full':
            case.is_full = True
        case 'words':
            case.words = [shown(word + '\\-') for word in shlex.split(text)]
        case 'status':
            read_status(case, text)
        case 'empty':
            case.put = (case.put or b'') + b'\n' * int(text)
        case 'kept':
            case.kept = words
        case 'image':
            case.wanted[words[0]] = image_of(words[1:])
        case 'bytes':
            case.parts.append((words[0], int(words[1]), bytes.fromhex(''.join(words[2:]))))
        case 'alone':
            case.alone.append((words[0], words[1:]))
        case 'part':
            case.part = words
        case _:
            raise Malformed(f'{case.place}: {word} {text}')


def read_line(case, line):
    """A line of a run."""
    output = re.match(r'([a-zA-Z0-9]+)\|(.*)', line)
    source = re.match(r'([a-z]+)<(.*)', line)
    if line.startswith('! '):
        given(case, 'log', shown(line[2:]))
    elif line.startswith('> '):
        read_put(case, line[2:])
    elif output:
        wants(case, output[1], output[2])
    elif source:
        given(case, source[1], shown(source[2]))
    elif line and not line.startswith('#'):
        word, _, text = line.partition(' ')
        read_word(case, word, text)


def runs_of(name, text):
    """The cases of a table of runs. The lines before the first run are in force for all."""
    front, chapters_of_it = chapters(name, text)
    for place, title, lines in chapters_of_it:
        case = Case(place, title, files={'log': b''})
        for line in front + lines:
            read_line(case, line)
        yield case


def all_cases():
    """The cases of all tables, by the names of their files."""
    for path in sorted(TESTS.glob('sessions/*.session')):
        yield from sessions_of('tests/sessions/' + path.name, path.read_text())
    for path in sorted(TESTS.glob('runs/*.runs')):
        yield from runs_of('tests/runs/' + path.name, path.read_text())
