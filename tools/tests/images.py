# Images of disks that the runs of tests/ begin with or are held against, made of bytes at their places.

SECTOR = 256

# Bytes that stand at a place of an image; the rest is 00. Numbers of several bytes have the high byte first.
PIECES = {
    # An index of one sector of 16 sectors in all, all of them catalogue, the next free one is 4. In its first slot live data from
    # sector 1 to 3, of the name A, whose control sector says that two sectors are used.
    'one_file': [
        (0, '01 01 0010 0010 0004'),
        (16, '10 44 0001 0003 0000 4120202020202020'),
        (768, 'A1 0002'),
    ],
    # Beside it in the second slot: scratched, a program, from sector 4 to 5, of the name B, one sector used. The next free is 6.
    'second_file': [
        (7, '06'),
        (32, '11 50 0004 0005 0000 4220202020202020'),
        (1280, 'A1 0001'),
    ],
    # The same two files on an image of version 2, whose sector numbers have three bytes.
    'wide_files': [
        (0, '02 01 000010 000010 000006'),
        (16, '10 44 000001 000003 4120202020202020'),
        (32, '11 50 000004 000005 4220202020202020'),
        (768, 'A1 000002'),
        (1280, 'A1 000001'),
    ],
    # An index of two sectors, and the file of sectors 2 and 3 in the first slot of its second one. The bytes of the name A make
    # an odd sum, so that its look-up begins there.
    'far_file': [
        (0, '01 02 0010 0010 0004'),
        (256, '10 44 0002 0003 0000 4120202020202020'),
        (768, 'A1 0001'),
    ],
    # 64 sectors with an index of two, on which F and then G were opened new with three sectors each: live data, F from sector 2 to
    # 4 in the first slot, G from sector 5 to 7 in the first slot of the second index sector, since its name makes an odd sum. Each
    # begins with the end mark, and the control sector of each says that one sector is used. The next free sector is 8.
    'two_new_files': [
        (0, '01 02 0040 0040 0008'),
        (16, '10 44 0002 0004 0000 4620202020202020'),
        (256, '10 44 0005 0007 0000 4720202020202020'),
        (512, 'A0'),
        (1024, 'A1 0001'),
        (1280, 'A0'),
        (1792, 'A1 0001'),
    ],
    # On it the record of the one value 1 in the first sector of F, the end mark in the second, and two sectors used.
    'record_of_one': [
        (512, '81 01 08 0001000000000000 FD'),
        (768, 'A0'),
        (1024, 'A1 0002'),
    ],
}

# Program files that no SAVE has written: the name of each, and how the one sector before its control sector begins.
PROGRAMS = [
    # 10 PRINT 1:RUN, with CONTINUE, LIST and LIST DC T in the place of RUN.
    ('R', '50 000A 04 9C 31 3A C4 FFFF'),
    ('K', '50 000A 04 9C 31 3A C5 FFFF'),
    ('L', '50 000A 04 9C 31 3A C3 FFFF'),
    ('D', '50 000A 06 9C 31 3A C3 BC 54 FFFF'),
    # 10 RUN:ERROR PRINT 2
    ('E', '50 000A 05 C4 3A 96 9C 32 FFFF'),
    # 10 PRINT 1, 9999 PRINT 2; and no lines.
    ('P', '50 000A 02 9C 31 270F 02 9C 32 FFFF'),
    ('N', '50 FFFF'),
    # Lines that descend, and one that stands twice.
    ('A', '50 0014 02 9C 31 000A 02 9C 32 FFFF'),
    ('B', '50 000A 02 9C 31 000A 02 9C 32 FFFF'),
    # A line 10000, a line of no bytes, and one of bytes that spell no line.
    ('C', '50 2710 02 9C 31 FFFF'),
    ('F', '50 000A 00 FFFF'),
    ('G', '50 000A 02 9C 28 FFFF'),
    # No end, and a byte after the end.
    ('H', '50 000A 02 9C 31'),
    ('I', '50 000A 02 9C 31 FFFF 01'),
]


def put_bytes(image, place, some):
    """Puts bytes into an image, as far as it goes."""
    some = some[:max(0, len(image) - place)]
    image[place:place + len(some)] = some


def put_piece(image, piece):
    """Puts in a piece of PIECES, or PLACE:BYTES."""
    if piece in PIECES:
        for place, text in PIECES[piece]:
            put_bytes(image, place, bytes.fromhex(text))
    else:
        place, text = piece.split(':')
        put_bytes(image, int(place), bytes.fromhex(text))


def enter_program(image, slot, name, start, used):
    """Enters a live program in a slot of sector 0, with its control sector."""
    end = start + used
    entry = bytes([0x10, 0x50, 0, start, 0, end, 0, 0]) + name.encode().ljust(8)
    put_bytes(image, 16 * (slot + 1), entry)
    put_bytes(image, SECTOR * end, bytes([0xA1, 0, used]))


def long_lines():
    """The lines 1 to 32, each REM and 250 letters, and the end: what fills a text of 8 KiB."""
    lines = [bytes([0, number, 251, 0x80]) + b'A' * 250 for number in range(1, 33)]
    return b''.join(lines) + b'\xFF\xFF'


def program_files():
    """64 sectors with an index of one: the files of PROGRAMS from sector 1 on, and X, of the long lines, from sector 29 on."""
    image = bytearray(64 * SECTOR)
    put_bytes(image, 0, bytes.fromhex('01 01 0040 0040 003E'))
    for slot, (name, sector) in enumerate(PROGRAMS):
        start = 2 * slot + 1
        enter_program(image, slot, name, start, 1)
        put_bytes(image, SECTOR * start, bytes.fromhex(sector))
    enter_program(image, len(PROGRAMS), 'X', 29, 32)
    lines = long_lines()
    for count, place in enumerate(range(0, len(lines), 255)):
        put_bytes(image, SECTOR * (29 + count), b'\x50' + lines[place:place + 255])
    return bytes(image)


def image_of(words):
    """The image that words name: `two_files`, `wide_files` and maybe pieces, `program_files`, or a size and pieces."""
    if words == ['two_files']:
        words = ['4096', 'one_file', 'second_file']
    if words[0] == 'wide_files':
        words = ['4096', *words]
    if words == ['program_files']:
        return program_files()
    image = bytearray(int(words[0]))
    for piece in words[1:]:
        put_piece(image, piece)
    return bytes(image)
