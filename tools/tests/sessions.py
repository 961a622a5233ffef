# Gives each session and each run of tests/ to the built program, several at once, and compares all that it writes byte by byte:
#   python3 tools/tests/sessions.py PROGRAM [PART OF A FILE'S NAME..]
# Prints each that comes out otherwise, with its title and the first line that differs, and at the end "N passed, N failed"; the
# status is 0 where none failed. tests/README.md says how they are written.
import os
import re
import subprocess
import sys
import tempfile
from concurrent.futures import ThreadPoolExecutor
from itertools import zip_longest
from pathlib import Path

# What Python keeps of modules would stand in the repository.
sys.dont_write_bytecode = True

from cases import all_cases, runs_of, sessions_of  # noqa: E402

# What stands after OUT. in the names of outputs: terminals, printers and platters.
OUTPUT = re.compile('t[0-9]{2}|p?[0-9A-F]{3}')
IMAGE = re.compile('[0-9A-F]{3}')

# Seconds after which a run has failed.
PATIENCE = 60

# Cases that are wrong, and what is to be told of each: so a comparison that lets all pass is seen.
WRONG_SESSION = ('= A session\n:PRINT 2\n 3 \\\n', "out.t01, line 3: ' 2 ' and not ' 3 '")
WRONG_RUNS = [
    ('boot one\n= A run\n! rounds 1\nt01|READY\nt01|\\-\n', "out.t01, line 2: ':' and not ''"),
    ('boot one\n= A run\n! rounds 1\n> turns 1 steps 2 dropped 0 apart 1\n',
     "what is put, line 1: 'turns 1 steps 1 dropped 0 apart 1' and not 'turns 1 steps 2 dropped 0 apart 1'"),
    ('boot one\n= A run\n! rounds 1\n> .. apart -\n', "what is put, line 1: ' apart 1' and not ' apart -'"),
    ('boot one\n= A run\n! jump 1\nstatus 5 bad log 1 3\n', "the line, line 1: 'bad log 1 2' and not 'bad log 1 3'"),
    ('boot one\n= A run\n! jump 1\nstatus 4 bad log 1 2\n', 'status 5 and not 4: bad log 1 2'),
    ('boot one\n= A run\nt02|\\-\n', 'no out.t02'),
    ('boot one\n= A run\nkept t02\n', "kept: ['t01'] and not ['t02']"),
    ('boot blanks\n= A run\nbytes D11 0 01 03\n', 'out.D11, byte 0: 0102 and not 0103'),
    ('boot blanks\n= A run\nimage D11 16384 0:01\n', 'out.D11, byte 1: 02 and not 00'),
    ('boot shared\n= A run\n! rounds 1\n! front 1 2\n! type 1 PRINT 1\n! rounds 1\nalone 1 t01\n',
     "apart.t01, line 2: ':' and not ':READY'"),
    ('boot one\n= A run\n! type 1 PRINT 1\n! rounds 1\npartlog<rounds 1\npartboot<quota = 20\npartboot<[[terminal]]\npartboot<number = 1\npartboot<front = 1\n'
     'partboot<[[partition]]\npartboot<number = 1\npartboot<terminal = 1\npartboot<text = 8\npartboot<data = 8\npartboot<globals = 2\npart t01\n',
     "part.t01, line 2: ':' and not ':PRINT 1'"),
]


def quoted(line):
    return 'no line' if line is None else repr(line.decode('latin-1'))


def first_line(name, got, wanted):
    """Which line of a text is the first that differs, and how."""
    for number, (here, there) in enumerate(zip_longest(got.split(b'\n'), wanted.split(b'\n')), 1):
        if here != there:
            return f'{name}, line {number}: {quoted(here)} and not {quoted(there)}'
    return name


def first_byte(name, got, wanted):
    """Which byte of an image is the first that differs, and how."""
    for place, (here, there) in enumerate(zip(got, wanted)):
        if here != there:
            return f'{name}, byte {place}: {here:02X} and not {there:02X}'
    return f'{name}: {len(got)} bytes and not {len(wanted)}'


def compare(name, got, wanted):
    """What is to be told of an output, none where it is as it is wanted."""
    if got == wanted:
        return []
    if got is None:
        return ['no ' + name]
    is_image = b'\0' in wanted
    return [(first_byte if is_image else first_line)(name, got, wanted)]


def bytes_of(path):
    """The bytes of a file, none where there is none."""
    return path.read_bytes() if path.is_file() else None


def lay_out(case, folder):
    """Puts the inputs of a case into its folder."""
    for name, content in case.files.items():
        (folder / name).write_bytes(content)
    for name in case.folders:
        (folder / name).mkdir()


def start(program, words, folder, is_full=False):
    """Runs the program in the folder: its status, what it put, and the line for the status."""
    with open('/dev/full' if is_full else os.devnull, 'wb') as full:
        ended = subprocess.run([program, *words], cwd=folder, timeout=PATIENCE, stdin=subprocess.DEVNULL,
                               stdout=full if is_full else subprocess.PIPE, stderr=subprocess.PIPE, check=False)
    return ended.returncode, ended.stdout or b'', ended.stderr


def tell_status(case, status, put, said):
    """What is to be told of how the run ended and what it put."""
    if status != case.status:
        return [f'status {status} and not {case.status}: {said.decode("latin-1").strip()}']
    told = compare('the line', said, case.said)
    if status != 0:
        return told + compare('what is put', put, b'')
    if case.put is not None:
        told += compare('what is put', put[-len(case.put):] if case.put_is_end else put, case.put)
    return told


def tell_others(folder, inputs, front):
    """What is to be told of files that are no outputs: inputs that changed, and what else is there."""
    told = []
    for path in folder.iterdir():
        if path.is_dir() or (front and path.name.startswith(front) and OUTPUT.fullmatch(path.name[len(front):])):
            continue
        if path.name not in inputs:
            told.append(f'{path.name} is there')
        elif path.read_bytes() != inputs[path.name]:
            told.append(f'{path.name} changed')
    return told


def tell_names(case, folder, front):
    """What is to be told of which outputs are there: after a status other than 0 none but those of the case."""
    wanted = case.kept if case.kept is not None or case.status == 0 else list(case.wanted)
    kept = sorted(path.name.removeprefix(front) for path in folder.glob(front + '*') if front and path.is_file())
    if wanted is not None and kept != sorted(wanted):
        return [f'kept: {kept} and not {sorted(wanted)}']
    return []


def tell_outputs(case, folder):
    """What is to be told of the contents of the outputs."""
    told = []
    for name, wanted in case.wanted.items():
        told += compare('out.' + name, bytes_of(folder / ('out.' + name)), wanted)
    for name, place, wanted in case.parts:
        got = (bytes_of(folder / ('out.' + name)) or b'')[place:place + len(wanted)]
        if got != wanted:
            told.append(f'out.{name}, byte {place}: {got.hex()} and not {wanted.hex()}')
    return told


def tell_images(program, folder, front):
    """What is to be told of the images that a run wrote: each is good."""
    told = []
    for path in folder.glob(front + '*') if front else []:
        if path.is_file() and IMAGE.fullmatch(path.name[len(front):]):
            status, put, said = start(program, ['check', path.name], folder)
            if status != 0 or not put.startswith(b'good\n'):
                told.append(f'check {path.name}: status {status}: {(put + said).decode("latin-1").strip()}')
    return told


def tell_again(program, folder, words, front, names):
    """What is to be told of another run: its outputs of these names are those of the first, and have more than a prompt."""
    status, _, said = start(program, words, folder)
    told = [f'{" ".join(words)}: status {status}: {said.decode("latin-1").strip()}'] if status != 0 else []
    for name in names:
        common = bytes_of(folder / ('out.' + name)) or b''
        told += compare(f'{front}.{name}', bytes_of(folder / f'{front}.{name}'), common)
        if len(common) <= len(b'READY\n'):
            told.append(f'out.{name} has nothing to compare')
    return told


def tell_alone(program, case, folder):
    """What is to be told of runs with a group alone."""
    return [line for parts, names in case.alone
            for line in tell_again(program, folder, ['alone', 'boot', 'log', 'apart', parts], 'apart', names)]


def tell_part(program, case, folder):
    """What is to be told of the run of a part, from a boot file and a log of its own."""
    return tell_again(program, folder, ['run', 'partboot', 'partlog', 'part'], 'part', case.part) if case.part else []


def tell(program, case):
    """What is to be told of a case, none where all is as it is wanted."""
    with tempfile.TemporaryDirectory(dir=os.getcwd()) as name:
        folder = Path(name)
        lay_out(case, folder)
        try:
            status, put, said = start(program, case.words, folder, case.is_full)
        except subprocess.TimeoutExpired:
            return ['it did not end']
        front = case.words[3].decode('latin-1') + '.' if len(case.words) > 3 else ''
        told = tell_status(case, status, put, said)
        if not told:
            told = tell_outputs(case, folder) + tell_names(case, folder, front) + tell_others(folder, case.files, front)
        return told or tell_images(program, folder, front) or tell_alone(program, case, folder) or tell_part(program, case, folder)


def check_itself(program):
    """What is to be told of this script: each wrong case is told, with the first line that differs."""
    wrong = [(next(sessions_of('a wrong session', WRONG_SESSION[0])), WRONG_SESSION[1])]
    wrong += [(next(runs_of('a wrong run', text)), line) for text, line in WRONG_RUNS]
    for case, line in wrong:
        told = tell(program, case)
        if told[:1] != [line]:
            return [f'FAILED a case that is wrong on purpose: {told} and not {line}']
    return []


def chosen(parts):
    """The cases of the files whose names have one of these parts, or all; without those that this machine can't try."""
    has_full = os.path.exists('/dev/full')
    return [case for case in all_cases()
            if (not parts or any(part in case.place for part in parts)) and (has_full or not case.is_full)]


def main(program, *parts):
    cases = chosen(parts)
    failed = check_itself(program)
    with ThreadPoolExecutor(os.cpu_count()) as pool:
        for case, told in zip(cases, pool.map(lambda case: tell(program, case), cases)):
            if told:
                failed.append(f'FAILED {case.place}: {case.title}: {told[0]}')
    print('\n'.join(failed + [f'{len(cases) + 1 - len(failed)} passed, {len(failed)} failed']))
    return 0 if cases and not failed else 1


if __name__ == '__main__':
    PROGRAM = os.path.abspath(sys.argv[1])
    with tempfile.TemporaryDirectory(dir='/dev/shm' if os.path.isdir('/dev/shm') else None) as ROOM:
        os.chdir(ROOM)
        STATUS = main(PROGRAM, *sys.argv[2:])
        os.chdir('/')
    sys.exit(STATUS)
