"""What a transcript says, for a terminal of today: the codes of the screen become its sequences, and all other bytes that can't be
shown are left out, so no program sends sequences of its own."""

START, PLACING, OUTLINE = 2, 65, 66
SHOWN = {byte: chr(byte) for byte in range(32, 127)}
SHOWN |= {1: "\033[H", 3: "\033[H\033[2J", 7: "\a", 8: "\b", 9: "\033[C", 10: "\n", 12: "\033[A", 13: "\r"}


def for_the_screen(content):
    """The text, and how many of the last bytes were held back: a sequence without its end."""
    text, place = [], 0
    while place < len(content):
        if content[place] != START:
            text.append(SHOWN.get(content[place], ""))
            place += 1
            continue
        # A sequence is its start, its kind and two numbers that count from 32.
        if place + 1 >= len(content):
            break
        kind = content[place + 1]
        if kind not in (PLACING, OUTLINE):
            place += 2
            continue
        if place + 3 >= len(content):
            break
        first, second = content[place + 2] - 32, content[place + 3] - 32
        text.append(placed(first, second) if kind == PLACING else drawn(first, second))
        place += 4
    return "".join(text), len(content) - place


def placed(row, column):
    return f"\033[{row + 1};{column + 1}H" if 0 <= row < 24 and 0 <= column < 80 else ""


def drawn(rows, columns):
    """An outline with its first cell at the cursor, which stays where it is."""
    if not (2 <= rows <= 24 and 2 <= columns <= 80):
        return ""
    edge = "+" + "-" * (columns - 2) + "+"
    sides = [f"\0338\033[{row}B|" + (f"\033[{columns - 2}C" if columns > 2 else "") + "|" for row in range(1, rows - 1)]
    return f"\0337{edge}{''.join(sides)}\0338\033[{rows - 1}B{edge}\0338"
