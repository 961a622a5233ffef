# What holds of every run of the program, whatever its input: which status and line it ends with, which files it leaves, which of
# the nine checks an image fails. tools/hostile holds runs against this.
import os
import re
import subprocess
from pathlib import Path

SECTOR = 256

# Seconds after which a run has failed.
PATIENCE = 120

# The line of each status, of which a name, or what stands for it, is told apart.
LINES = {
    0: rb'', 1: rb'usage\n', 2: rb'missing (?P<name>\S+)\n', 3: rb'read fault (?P<name>\S+)\n', 4: rb'bad boot ([1-9]|1[0-5])\n',
    5: rb'bad log (?P<line>[1-9]\d*) [1-6]\n', 6: rb'bad image (?P<address>[3BD][0-9A-F]{2}) (?P<check>[1-9])\n',
    7: rb'write fault (?P<output>\S*)\n', 8: rb'no memory\n', 9: rb'too long (?P<name>\S+) (?P<limit>\d+)\n',
    11: rb'no memory for (?P<output>\S*)\n',
}
SUMMARY = re.compile(rb'turns \d+ steps \d+ dropped \d+ apart (-|\d+(?:,\d+)*)\n')


# How many bytes a sector number takes in each version of an image, and how many sectors one may have.
WIDTHS = {1: 2, 2: 3}
MOST = {1: 32512, 2: 262144}


def width_of(image):
    """How many bytes a sector number takes in an image."""
    return WIDTHS.get(image[0], 2)


def number_at(some, place, width):
    """The number of some bytes at a place."""
    return int.from_bytes(some[place:place + width], 'big')


def slots_of(image):
    """The slots of the index of an image: the index sector and the bytes of each."""
    for sector in range(image[1]):
        for place in range(SECTOR * sector + (16 if sector == 0 else 0), SECTOR * (sector + 1), 16):
            yield sector, image[place:place + 16]


def is_spelled(slot, width):
    """Whether a slot is spelled as its status wants."""
    if slot[0] in (0x10, 0x11):
        name = slot[8:]
        return slot[1] in (0x44, 0x50) and not any(slot[2 + 2 * width:8]) and all(0x20 <= byte <= 0x7E for byte in name) and name[0] != 0x20
    return slot[0] in (0x00, 0x12) and not any(slot[1:])


def is_found(sector, name, index, free):
    """Whether a look-up from the hash on comes to a sector before it comes to one with a free slot."""
    at = sum(name) % index
    while at != sector:
        if at in free:
            return False
        at = (at + 1) % index
    return True


def is_controlled(image, start, end):
    """Whether the last sector of a file is its control sector."""
    width = width_of(image)
    control = image[SECTOR * end:SECTOR * (end + 1)]
    return control[0] == 0xA1 and 1 <= number_at(control, 1, width) <= end - start and not any(control[1 + width:])


def first_check(image):
    """The first of the nine checks that an image fails, or none."""
    total = len(image) // SECTOR
    if len(image) % SECTOR or not 16 <= total <= MOST[2]:
        return 1
    if image[0] not in MOST or total > MOST[image[0]]:
        return 2
    width = width_of(image)
    if image[1] == 0 or number_at(image, 2, width) != total or any(image[2 + 3 * width:16]):
        return 2
    index, end_of_files, following = image[1], number_at(image, 2 + width, width), number_at(image, 2 + 2 * width, width)
    if not index <= following <= end_of_files <= total:
        return 3
    slots = list(slots_of(image))
    files = [(sector, number_at(slot, 2, width), number_at(slot, 2 + width, width), slot[8:]) for sector, slot in slots if slot[0] in (0x10, 0x11)]
    free = {sector for sector, slot in slots if slot[0] == 0}
    taken = [sector for _, start, end, _ in files for sector in range(start, end + 1)]
    if not all(index <= start < end < following for _, start, end, _ in files):
        return 4
    if not all(is_spelled(slot, width) for _, slot in slots):
        return 5
    if len({name for *_, name in files}) != len(files):
        return 6
    if not all(is_found(sector, name, index, free) for sector, _, _, name in files):
        return 7
    if len(set(taken)) != len(taken):
        return 8
    if not all(is_controlled(image, start, end) for _, start, end, _ in files):
        return 9
    return None


def outputs_of(table):
    """The names of the outputs of a boot file, as it is read, in the order in which they are kept."""
    return [f't{number:02}' for number in sorted(row['number'] for row in table['terminal'])] + \
        ['p' + address for address in sorted(row['address'] for row in table.get('printer', []))] + \
        sorted(row['address'] for row in table.get('platter', []))


class Ended:
    """How a run of the program ended: its status, none where it did not end, what it put, and its line. Ctrl-C ends the command and
    not the runs that it has begun, so that none of them is told as a fault."""

    def __init__(self, program, words, folder, environment=None):
        try:
            done = subprocess.run([program, *words], cwd=folder, env={**os.environ, **(environment or {})}, timeout=PATIENCE,
                                  stdin=subprocess.DEVNULL, capture_output=True, check=False, start_new_session=True)
            self.status, self.put, self.line = done.returncode, done.stdout, done.stderr
        except subprocess.TimeoutExpired:
            self.status, self.put, self.line = None, b'', b''

    def __str__(self):
        return f'status {self.status}: {(self.line or self.put).decode("latin-1").strip()}'

    def said(self):
        """The parts of the line, none where it isn't one of the eleven statuses or not the line of its status."""
        return re.fullmatch(LINES[self.status], self.line) if self.status in LINES else None


def files_in(folder):
    """The files of a folder by their names, and what they hold."""
    return {path.name: path.read_bytes() for path in Path(folder).iterdir() if path.is_file()}
