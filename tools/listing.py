"""Listings as commands read them: their lines, what is understood in place of bytes that no key gives, and what codes say."""
import os
import re
import unicodedata

from habits import HABITS
from machine import QUEUE, TOP, Refused, bytes_of, file_bytes, turn

# The bytes of a line that is typed.
LONGEST = 256
# What is understood in place of signs that editors and scanners make.
MEANT = {"\u201c": '"', "\u201d": '"', "\u201e": '"', "\u00ab": '"', "\u00bb": '"', "\u2018": "'", "\u2019": "'", "\u2032": "'",
         "\u2033": '"', "\u00b4": "'", "\u2013": "-", "\u2014": "-", "\u2212": "-", "\u2010": "-", "\u2011": "-", "\u00d7": "*",
         "\u00f7": "/", "\u2264": "<=", "\u2265": ">=", "\u2260": "<>", "\u2191": "^", "\u2026": "...", "\u00a0": " ",
         "\u00df": "ss", "\u00e6": "ae", "\u00c6": "AE", "\u00f8": "o", "\u00d8": "O", "\u200b": "", "\u00ad": "", "\ufeff": ""}


class Line:
    """A line of a listing: its number in the file, and what is typed."""

    def __init__(self, place, text):
        self.place, self.text, self.is_taken = place, text, True
        found = re.match(" *([0-9]+)", text)
        self.number = int(found[1]) if found else None

    def log(self, terminal, partition):
        """The lines of a log that type it. What the queue has no room for comes in pieces; a turn takes the keys that wait into
        the line. A numbered line is read and put in, and a colon shown; another one is executed, and its turn ends before the
        colon is shown."""
        rest, lines = self.text, []
        while len(rest) >= QUEUE:
            lines += [f"keys {terminal} {rest[:QUEUE - 1]}\n".encode(), turn(partition, 1)]
            rest = rest[QUEUE - 1:]
        lines.append(f"type {terminal} {rest}\n".encode())
        lines += [turn(partition, 4)] if self.number is not None else [turn(partition, 1000), turn(partition, 2)]
        return b"".join(lines)


class Listing:
    """The lines of a file, and remarks on what was understood otherwise than it stands there."""

    def __init__(self, name):
        self.name, self.lines, self.meant = name, [], {}
        content = file_bytes(name)
        if content.startswith(b"\xef\xbb\xbf"):
            content = content[3:]
            self.note(1, "the mark of UTF-8", "nothing")
        if content.endswith(b"\x1a"):
            content = content.rstrip(b"\x1a")
        rows = content.split(b"\n")
        for place, row in enumerate(rows[:-1] if rows[-1] == b"" else rows, 1):
            self.take(place, row.removesuffix(b"\r").replace(b"\t", b" "))

    def note(self, place, sign, meant):
        self.meant.setdefault((sign, meant), []).append(place)

    def take(self, place, row):
        text = self.understood(place, row)
        if not text.strip(" "):
            return
        if len(text) > LONGEST:
            raise Refused(f"{self.name}:{place}: the line has {len(text)} bytes; at most {LONGEST} can be typed, so part it in two")
        self.lines.append(Line(place, text))

    def understood(self, place, row):
        """The line as keys give it."""
        try:
            signs, text = row.decode(), ""
        except UnicodeDecodeError as error:
            raise Refused(self.no_key(place, row, error.start)) from None
        for sign in signs:
            meant = sign if " " <= sign <= "~" else MEANT.get(sign, without_accent(sign))
            if meant is None:
                raise Refused(self.no_key(place, row, len(signs[:signs.index(sign)].encode())))
            if meant != sign:
                self.note(place, sign, meant)
            text += meant
        return text

    def no_key(self, place, row, at):
        return f"{self.name}:{place}: the line has a byte that no key gives: hexadecimal {row[at]:02X} at byte {at + 1}"

    def remarks(self):
        """What was understood otherwise, once each, and numbers that stand twice."""
        for (sign, meant), places in self.meant.items():
            others = f", also in {named('line', sorted(set(places[1:]) - {places[0]}))}" if set(places) != {places[0]} else ""
            yield f"{self.name}:{places[0]}: {sign} is read as {meant or 'nothing'}{others}"
        for again, before in self.doubled():
            yield f"{self.name}:{again.place}: the number {again.number} stands in line {before.place} of the file already; this one takes its place"

    def doubled(self):
        """Lines whose number a line before them has; a line that is its number alone is an edit, and `CLEAR` begins anew."""
        seen = {}
        for line in self.lines:
            if line.number is None:
                if "CLEAR" in line.text.upper():
                    seen.clear()
            elif line.text.strip(" ").isdigit():
                seen.pop(line.number, None)
            else:
                if line.number in seen:
                    yield line, seen[line.number]
                seen[line.number] = line

    def log(self, terminal, partition):
        return turn(partition, 2) + b"".join(line.log(terminal, partition) for line in self.lines)

    def of_number(self, wanted):
        """The line of the program with this number."""
        return next((line for line in reversed(self.lines) if line.number == wanted and line.is_taken), None)

    def refused_lines(self, transcript):
        """The lines that were not taken, with the code and the column that were shown: each line comes back after a colon."""
        typed, rows = 0, transcript.decode("latin-1").split("\n")
        for row in rows:
            if typed < len(self.lines) and row == ":" + self.lines[typed].text:
                typed += 1
                continue
            found = re.fullmatch(r"ERR ([A-Z]\d\d)(?: COL (\d+)| AT \d+)?", row)
            if found and typed:
                self.lines[typed - 1].is_taken = False
                yield self.lines[typed - 1], found[1], found[2]

    def told(self, line, code, column=None, when=""):
        """A code that a line met, with its sentence and, where it is a habit of old listings, what to write instead."""
        at = f" at column {column}" if column else when
        told = f"{self.name}:{line.place}: {line.text.strip()}: {code}{at}: {sentence_of(code)}"
        instead = instead_of(line.text, code, column)
        return f"{told}; {instead}" if instead else told


def without_accent(sign):
    """The letter that an accent stands on, where it is one."""
    letter = unicodedata.normalize("NFKD", sign)[0]
    return letter if letter != sign and " " <= letter <= "~" else None


def named(what, places):
    return f"{what}{'s' if len(places) > 1 else ''} " + ", ".join(map(str, places))


def instead_of(text, code, column):
    """What docs/PORTING.md says to write, where a line is of one of its habits."""
    for habit in HABITS:
        if habit.is_of(text, code, column):
            return f"instead: {habit.instead} (docs/PORTING.md)"
    return None


def page(name):
    return bytes_of(os.path.join(TOP, "docs", name)).decode()


def sentence_of(code):
    """When a code comes, as docs/CODES.md says it."""
    found = re.search(rf"^\| `{code}` \| ([^|]*) \| ([^|]*?) \|", page("CODES.md"), re.MULTILINE)
    return found[2] if found else "docs/CODES.md has all codes"
