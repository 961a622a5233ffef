#!/usr/bin/env python3
"""The table of statements of docs/LANGUAGE.md, run: tools/tests/language.py PROGRAM FOLDER. Each example is typed on a machine that
CLEAR has emptied, with two disks and a printer, and shows what stands after its arrow and nothing else. Prints each that doesn't."""
import os
import re
import subprocess
import sys

BOOT = """quota = 1000
[[terminal]]
number = 1
front = 1
[[partition]]
number = 1
terminal = 1
text = 24
data = 24
globals = 8
disk = "D11"
[[platter]]
address = "D11"
blank = 1024
[[platter]]
address = "D12"
blank = 64
[[printer]]
address = "215"
"""


def rows(page):
    """The forms and the examples of the table: what is typed, and what is shown."""
    section = page.split("\n## Statements\n")[1].split("\n## ")[0]
    for line in section.split("\n"):
        cells = line.split("|")[1:-1]
        if line.startswith("| `") and len(cells) == 4:
            typed, _, shown = cells[3].partition(" → ")
            yield cells[0].strip(), re.findall("`([^`]*)`", typed), re.findall("`([^`]*)`", shown)


def log_of(examples):
    lines = ["turn 1 9"]
    for _, typed, _ in examples:
        for text in ["CLEAR", *typed]:
            for at in range(0, len(text), 100):
                lines += [f"keys 1 {text[at:at + 100]}", "turn 1 1"]
            lines += ["key 1 0D", "turn 1 1000", "turn 1 1000", "turn 1 1000"]
    return "\n".join(lines) + "\n"


def main():
    program, folder = sys.argv[1:]
    with open(os.path.join(os.path.dirname(os.path.realpath(__file__)), "..", "..", "docs", "LANGUAGE.md"), encoding="utf-8") as file:
        examples = list(rows(file.read()))
    for name, text in (("boot", BOOT), ("log", log_of(examples))):
        with open(os.path.join(folder, name), "w", encoding="ascii") as file:
            file.write(text)
    subprocess.run([program, "run", "boot", "log", "out"], cwd=folder, check=True, stdout=subprocess.DEVNULL)
    with open(os.path.join(folder, "out.t01"), encoding="latin-1") as file:
        parts = file.read().split(":CLEAR\nREADY\n")[1:]
    if len(examples) < 55 or len(parts) != len(examples):
        print(f"{len(examples)} rows, {len(parts)} shown")
    for (form, typed, wanted), part in zip(examples, parts):
        lines = part.removesuffix(":").split("\n")
        shown = [line for line in lines if line and line != ":" and not (line.startswith(":") and line[1:] in typed)]
        if shown != wanted:
            print(f"{form}: {shown} and not {wanted}")


main()
