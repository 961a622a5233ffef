# Runs `drill` of the built program, and holds it against the boot and the log that the page of formats says, given to `run` as files.
# The words that are no drill, and what is put and kept by small ones and by the greatest, stand here too.
#   drills.py PROGRAM
import filecmp
import os
import subprocess
import sys
import tempfile

from refusing import drill

counts = {True: 0, False: 0}


def held(test, holds, why=''):
    counts[bool(holds)] += 1
    if not holds:
        print(f'FAILED drill: {test}: {why}')


def ran(program, words, folder):
    done = subprocess.run([program, *words], cwd=folder, capture_output=True, timeout=120, check=False)
    return done.returncode, done.stdout, done.stderr


def names_of(out):
    """What a drill keeps: eight transcripts and eight images."""
    return {f'{out}.t{number:02}' for number in range(1, 9)} | {f'{out}.D1{number}' for number in range(8)}


def shows(program, count, put):
    """A drill puts its summary, keeps its files, and each clerk's screen ends with the number after the last."""
    with tempfile.TemporaryDirectory() as folder:
        ended = ran(program, ['drill', str(count), 'out'], folder)
        held(f'{count}', ended == (0, put, b''), ended)
        held(f'{count}: its files', set(os.listdir(folder)) == names_of('out'), sorted(os.listdir(folder)))
        if set(os.listdir(folder)) != names_of('out'):
            return
        for name in sorted(names_of('out')):
            with open(os.path.join(folder, name), 'rb') as file:
                content = file.read()
            if name[4] == 't':
                held(f'{count}: {name}', content.endswith(b' %d \n:' % (count + 1)), content[-40:])
            else:
                held(f'{count}: {name}', len(content) == 256 * max(16, count + 10), len(content))


def is_as_run(program, count):
    """The same boot and log as files give the same summary and the same files."""
    with tempfile.TemporaryDirectory() as folder:
        for name, content in drill(count).items():
            with open(os.path.join(folder, name), 'wb') as file:
                file.write(content)
        by_number = ran(program, ['drill', str(count), 'one'], folder)
        by_files = ran(program, ['run', 'boot', 'log', 'two'], folder)
        held(f'{count} as run', by_number == by_files and by_files[0] == 0, (by_number, by_files))
        if by_number[0] != 0 or by_files[0] != 0:
            return
        for one, two in zip(sorted(names_of('one')), sorted(names_of('two'))):
            held(f'{count} as run: {one}', filecmp.cmp(os.path.join(folder, one), os.path.join(folder, two), shallow=False), 'another')


def is_usage(program, words):
    with tempfile.TemporaryDirectory() as folder:
        ended = ran(program, ['drill', *words], folder)
        held(f'the words {words}', ended == (1, b'', b'usage\n') and not os.listdir(folder), ended)


def stops_at(program, name, left):
    """Where an output can't be kept, the drill ends there, and the outputs before it are kept."""
    with tempfile.TemporaryDirectory() as folder:
        os.mkdir(os.path.join(folder, name))
        ended = ran(program, ['drill', '1', 'out'], folder)
        held(f'a folder stands at {name}', ended == (7, b'', b'write fault %s\n' % name.encode()), ended)
        held(f'a folder stands at {name}: what is kept', set(os.listdir(folder)) == {*left, name}, sorted(os.listdir(folder)))


def main():
    program = os.path.abspath(sys.argv[1])
    shows(program, 1, b'turns 106 steps 72 dropped 0 apart 1,2,3,4,5,6,7,8\n')
    shows(program, 100, b'turns 2680 steps 1656 dropped 0 apart 1,2,3,4,5,6,7,8\n')
    shows(program, 5000, b'turns 130080 steps 80056 dropped 0 apart 1,2,3,4,5,6,7,8\n')
    for count in (1, 3, 6, 7, 64):
        is_as_run(program, count)
    for number in ('0', '5001', '07', '65537', '4294967297', '', '+1', '-1', ' 1', '1 ', '1x', 'x', '1.0'):
        is_usage(program, [number, 'out'])
    for words in ([], ['1'], ['1', 'out', 'more'], ['1', ''], ['1', 'o:t'], ['1', 'o' * 191]):
        is_usage(program, words)
    order = sorted(names_of('out'), key=lambda name: (name[4] != 't', name))
    for at in range(len(order)):
        stops_at(program, order[at], order[:at])
    print(f'{counts[True]} passed, {counts[False]} failed')


main()
