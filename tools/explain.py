"""What the numbers in `bad boot`, `bad log` and `bad image` mean, by the tables of docs/FORMATS.md, with the file and, where one can
be found, the line."""
import re
import sys
import tomllib

sys.dont_write_bytecode = True
from listing import page
from machine import Refused, bytes_of

SECTIONS = {"boot": "The boot file", "log": "The log", "image": "Disk images"}
# The keys of each table of a boot file, of which those in brackets may be left out.
KEYS = {"": "quota terminal partition [platter] [printer]", "terminal": "number front [order]",
        "partition": "number terminal text data globals [disk] [program] [quota]", "platter": "address [image] [blank] [for] [version]",
        "printer": "address [for]"}
# Which keys a check looks at.
OF_A_CHECK = {"4": [("terminal", "number")], "5": [("partition", "number")], "7": [("partition", "terminal")], "8": [("terminal", "front")],
              "9": [("platter", "image")], "10": [("platter", "address"), ("printer", "address")],
              "11": [("platter", "for"), ("printer", "for")], "12": [("partition", "disk")], "13": [("partition", "program")],
              "14": [("platter", "image")], "15": [("terminal", "order")], "6": [("partition", "text"), ("partition", "data"), ("partition", "globals")]}


def sentence(kind, check):
    """The sentence of a check in the table of its section."""
    section = page("FORMATS.md").split(f"\n## {SECTIONS[kind]}\n")[1].split("\n## ")[0]
    found = re.search(rf"^\| {check} \| (.*) \|$", section, re.MULTILINE)
    return found[1] if found else "docs/FORMATS.md says what it is to have"


def explained(said, boot=None, log=None, images=None):
    """What a line of the program means, or None where it speaks for itself. `images` are the files by their addresses."""
    words = said.split(" ")
    if said.startswith("bad boot ") and boot:
        place = line_of(boot, words[2])
        return f"{boot}{place}: {sentence('boot', words[2])}"
    if said.startswith("bad log ") and log:
        return f"{log}:{words[2]}: {sentence('log', words[3])}: {line_at(log, int(words[2]))}"
    if said.startswith("bad image "):
        name = (images_of(boot) if images is None else images).get(words[2], words[2])
        return f"{name}: {sentence('image', words[3])}"
    return None


def line_at(log, place):
    rows = bytes_of(log).split(b"\n")
    text = rows[place - 1].decode("latin-1")[:70] if place <= len(rows) else ""
    return text.encode("unicode_escape").decode()


def images_of(boot):
    try:
        platters = tomllib.loads(bytes_of(boot).decode()).get("platter", [])
        return {row["address"]: row["image"] for row in platters if "image" in row}
    except (ValueError, KeyError, TypeError, Refused):
        return {}


def line_of(boot, check):
    """`:LINE` of what fails the check, with what it is, or nothing where that isn't found."""
    text = bytes_of(boot).decode("latin-1")
    if check == "1":
        try:
            tomllib.loads(text)
        except ValueError as error:
            found = re.search(r"at line (\d+)", str(error))
            return f":{found[1]}" if found else ""
        return ""
    rows = list(tables_and_keys(text))
    found = (first_odd_key if check == "2" else first_odd_value)(rows, check)
    return f":{found[0]}: {found[1]}" if found else ""


def tables_and_keys(text):
    """Each header of a table and each key, with its line, its table and its value, where it is written a line for itself."""
    table = ""
    for place, row in enumerate(text.split("\n"), 1):
        header = re.match(r" *\[\[ *(\w+) *\]\]", row)
        pair = re.match(r" *(\w+) *= *(\"[^\"]*\"|\[[^\]#]*\]|[^#\s]+)", row)
        if header:
            table = header[1]
            yield place, table, None, None
        elif pair:
            yield place, table, pair[1], pair[2].strip('"')


def first_odd_key(rows, _check):
    """The first table or key that isn't known, or that lacks in its table."""
    opened, missing = (1, "", set()), set(re.findall(r"(?:^| )(\w+)", KEYS[""])) - {"terminal", "partition"}
    for place, table, key, value in [*rows, (0, "", None, None)]:
        if key is None:
            if missing:
                return opened[0], f"{sorted(missing)[0]} is missing"
            if place and table not in KEYS:
                return place, f"no table is called {table}"
            opened, missing = (place, table), set(re.findall(r"(?:^| )(\w+)", KEYS[table]))
        elif key not in re.findall(r"\w+", KEYS[table]):
            return place, f"no key is called {key}"
        else:
            missing.discard(key)
            if is_of_another_kind(key, value) or key == "blank" and not in_range(value, 16, most_sectors(rows, opened[0])):
                return place, f"{key} is of another kind or out of its range"
    return None


def is_of_another_kind(key, value):
    if key in ("address", "image", "disk", "program"):
        return value.isdigit() and key != "address"
    if key == "order":
        return not re.fullmatch(r"\[ *(-?\d+ *, *)*(-?\d+ *)?\]", value)
    return not re.fullmatch(r"-?\d+", value) or key == "quota" and not 1 <= int(value) <= 1000 or key == "version" and value not in ("1", "2")


def most_sectors(rows, header):
    """The most sectors of a blank disk in the table that begins on a line, by its version."""
    later = [place for place, _, key, _ in rows if key is None and place > header]
    keys = [(key, value) for place, _, key, value in rows if place > header and (not later or place < later[0])]
    return 262_144 if ("version", "2") in keys else 32_512


def first_odd_value(rows, check):
    """The first key of a check whose value fails it."""
    keys = OF_A_CHECK.get(check, [])
    values = [(place, table, key, value) for place, table, key, value in rows if (table, key) in keys]
    terminals = [value for _, table, key, value in rows if (table, key) == ("terminal", "number")]
    partitions = [value for _, table, key, value in rows if (table, key) == ("partition", "number")]
    platters = [value for _, table, key, value in rows if (table, key) == ("platter", "address")]
    seen = set()
    for place, table, key, value in values:
        twice, _ = value in seen, seen.add(value)
        fails = {"4": twice or not in_range(value, 1, 12), "5": twice or not in_range(value, 1, 16),
                 "6": not in_range(value, 0 if key == "globals" else 2, 8 if key == "globals" else 24), "7": value not in terminals,
                 "8": value not in partitions, "9": twice,
                 "10": twice or not re.fullmatch(r"[3BD][0-9A-F]{2}" if table == "platter" else r"2[0-9A-F]{2}", value),
                 "11": value not in partitions, "12": value not in platters,
                 "13": not 1 <= len(value) <= 8, "14": not re.fullmatch(r"[A-Za-z0-9._/-]{1,190}", value),
                 "15": check == "15" and not is_order(rows, place, value)}
        if fails[check]:
            return place, f"{key} = {value}"
    return None


def is_order(rows, place, value):
    """Whether the list on a line has partitions of the terminal in whose table it stands, at least one, and none twice."""
    numbers, tables = re.findall(r"-?\d+", value), []
    for at, table, key, said in rows:
        if key is None:
            tables.append((table, {}, []))
        elif tables:
            tables[-1][1][key] = said
            tables[-1][2].append(at)
    terminal = next(keys.get("number") for _, keys, places in tables if place in places)
    there = [keys.get("number") for table, keys, _ in tables if table == "partition" and keys.get("terminal") == terminal]
    return 0 < len(numbers) == len(set(numbers)) and set(numbers) <= set(there)


def in_range(value, low, high):
    return value.isdigit() and low <= int(value) <= high


if __name__ == "__main__":
    meaning = explained(*sys.argv[1:4])
    if meaning:
        print(f"b2: {meaning}")
