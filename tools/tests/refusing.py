# Runs of the program in which one allocation is refused, one call of the system fails, or one transfer moves a byte alone:
# `tools/hostile memory`. What must hold of each stands in `Trial.told`, and in the help of that command.
import os
import shutil
import subprocess
import tempfile
import tomllib
from pathlib import Path

from cases import runs_of
from judge import SUMMARY, Ended, files_in, outputs_of

HERE = Path(__file__).resolve().parent
TOP = HERE.parents[1]

# What is refused, in the order in which refusing.c counts it.
KINDS = ('allocation', 'call', 'aside', 'piece')
TITLES = {'allocation': 'allocations refused', 'call': 'calls that fail', 'aside': 'calls of close and unlink that fail',
          'piece': 'transfers of a byte'}

# What stands at the name of each output before a run.
OLD = b'what stood there before\n'


class Unfit(Exception):
    """Nothing can be tried: there is no C compiler, or the program is none whose calls can be refused."""


def build(folder):
    """Builds what refuses calls, and returns its name."""
    names = [os.environ['CC']] if os.environ.get('CC') else ['cc', 'gcc', 'clang']
    compiler = next((found for found in map(shutil.which, names) if found), None)
    if compiler is None:
        raise Unfit(f'there is no C compiler {" or ".join(names)}, which builds what refuses calls')
    name = os.path.join(folder, 'refusing.so')
    done = subprocess.run([compiler, '-shared', '-fPIC', '-O1', '-o', name, str(HERE / 'refusing.c'), '-ldl'],
                          capture_output=True, text=True, check=False)
    if done.returncode != 0:
        raise Unfit(f'{compiler} does not build tools/tests/refusing.c: {done.stderr.strip()[:300]}')
    return name


def drill(count):
    """The boot file and the log of `drill` for a number: eight partitions, each of which saves the numbers up to it on a disk of its own,
    in turns of changing lengths."""
    lines = ['quota = 20']
    for number in range(1, 9):
        lines += ['[[terminal]]', f'number = {number}', f'front = {number}']
        lines += ['[[partition]]', f'number = {number}', f'terminal = {number}', 'text = 4', 'data = 4', 'globals = 0',
                  f'disk = "D1{number - 1}"']
        lines += ['[[platter]]', f'address = "D1{number - 1}"', f'blank = {max(16, count + 10)}',
                  f'for = {number}']
    typed = f'DATASAVE DC OPEN T,#1,{count + 2},"F":FOR I=1 TO {count}:DATASAVE DC #1,I:NEXT I:DATASAVE DC #1,END:PRINT I'
    log, state = [f'type {number} {typed}' for number in range(1, 9)], count
    for _ in range(10 * count):
        state = (75 * state + 74) % 65537
        log.append(f'turn {1 + state % 8} {1 + state % 50}')
    log.append(f'rounds {2 * count + 10}')
    return {'boot': '\n'.join(lines).encode() + b'\n', 'log': '\n'.join(log).encode() + b'\n'}


def office():
    """The day of an office of tests/runs."""
    name = 'tests/runs/office.runs'
    return next(runs_of(name, (TOP / name).read_text())).files


def next_day(program, folder):
    """The day with a start program, a printer, and the disk that the day before left."""
    examples = TOP / 'examples'
    before = os.path.join(folder, 'before')
    os.mkdir(before)
    ended = Ended(program, ['run', str(examples / 'depot.toml'), str(examples / 'depot.log'), 'out'], before)
    if ended.status != 0:
        raise Unfit(f'the day before ended with {ended}')
    return {'boot': (examples / 'nextday.toml').read_bytes(), 'log': (examples / 'nextday.log').read_bytes(),
            'out.D11': (Path(before) / 'out.D11').read_bytes()}


class Trial:
    """A run that is tried under each refusal: its words before the front of the outputs' names, its boot, its inputs, and what it gives
    where nothing is refused; what it puts may be wanted."""

    def __init__(self, name, program, shim, room, words, boot, files, wanted=None):
        self.name, self.program, self.shim, self.room, self.words, self.inputs = name, program, shim, room, words, files
        self.outputs = ['new.' + output for output in outputs_of(tomllib.loads(boot.decode()))]
        self.before = {**files, **{output: OLD for output in self.outputs}}
        counts = os.path.join(room, 'counts')
        ended, after = self.run({'B2_COUNTS': counts})
        if ended.status != 0 or SUMMARY.fullmatch(ended.put) is None or OLD in after.values() or set(after) != set(self.before):
            raise Unfit(f'{name}: where nothing is refused it ends with {ended}, and leaves {" ".join(sorted(after))}')
        if wanted and ended.put != wanted:
            raise Unfit(f'{name}: where nothing is refused it puts {ended.put}')
        self.put, self.after = ended.put, after
        try:
            self.counts = dict(zip(KINDS, map(int, Path(counts).read_text().split())))
        except FileNotFoundError:
            raise Unfit('the program is not linked so that its calls can be refused') from None

    def run(self, environment):
        with tempfile.TemporaryDirectory(dir=self.room) as folder:
            for name, content in self.before.items():
                (Path(folder) / name).write_bytes(content)
            ended = Ended(self.program, [*self.words, 'new'], folder, {'LD_PRELOAD': self.shim, **environment})
            return ended, files_in(folder)

    def places(self, most):
        """What is refused, one by one: of each kind the first ones, or all; of pieces each at once, too."""
        for kind in KINDS:
            first = 0 if kind == 'piece' else 1
            for place in range(first, min(self.counts[kind], most or self.counts[kind]) + 1):
                yield kind, place

    def is_undisturbed(self, ended, after):
        return ended.status == 0 and ended.put == self.put and not ended.line and after == self.after

    def is_kept_in_order(self, name, after):
        """Whether the outputs before the named one are new, it is new or old, and those after it are old."""
        if name not in ['', *self.outputs] or set(after) != set(self.before):
            return False
        at = self.outputs.index(name) if name else len(self.outputs)
        return all(after[one] == self.after[one] for one in self.outputs[:at]) and \
            all(after[one] == OLD for one in self.outputs[at + 1:]) and \
            all(after[one] in (OLD, self.after[one]) for one in self.outputs) and \
            all(after[one] == self.inputs[one] for one in self.inputs)

    def holds(self, kind, ended, after):
        """Whether a run ended as it may where one of a kind is refused."""
        said = ended.said()
        if said is None or (ended.status != 0 and ended.put):
            return False
        match ended.status:
            case 0:
                # A call that fails is not made once more.
                return kind != 'call' and self.is_undisturbed(ended, after)
            case 8:
                return kind == 'allocation' and after == self.before
            case 11:
                return kind == 'allocation' and self.is_kept_in_order(said['output'].decode(), after)
            case 3:
                return kind == 'call' and said['name'].decode() in self.inputs and after == self.before
            case 7:
                return kind == 'call' and self.is_kept_in_order(said['output'].decode(), after)
        return False

    def told(self, kind, place):
        """How a run with one refusal ended, and what is to be told of it, nothing where it is as it must be."""
        ended, after = self.run({'B2_KIND': kind, 'B2_PLACE': str(place)})
        if self.holds(kind, ended, after):
            return ended.status, None
        changed = sorted(name for name in {**self.before, **after} if self.before.get(name) != after.get(name))
        return ended.status, f'{self.name}, {kind} {place}: {ended}; changed: {" ".join(changed) or "no file"}'


def trials(program, shim, room):
    """The runs that are tried."""
    run = ['run', 'boot', 'log']
    day, later = office(), next_day(program, room)
    yield Trial('the day of an office', program, shim, room, run, day['boot'], day)
    # Each terminal has 2N + 7 steps and each partition its share of 8(2N + 10) and 10N turns. Nothing is fetched.
    yield Trial('drill 3', program, shim, room, ['drill', '3'], drill(3)['boot'], {}, b'turns 158 steps 104 dropped 0 apart 1,2,3,4,5,6,7,8\n')
    yield Trial('the next day of the depot', program, shim, room, run, later['boot'], later)
