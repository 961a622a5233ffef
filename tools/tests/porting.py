#!/usr/bin/env python3
"""The tables of docs/PORTING.md, run: tools/tests/porting.py PROGRAM FOLDER. Prints each row that comes out otherwise."""
import concurrent.futures
import os
import re
import subprocess
import sys
import tempfile

sys.dont_write_bytecode = True
TOP = os.path.dirname(os.path.dirname(os.path.dirname(os.path.realpath(__file__))))
sys.path.insert(0, os.path.join(TOP, "tools"))
from habits import HABITS


def numbered(lines):
    return "".join(line + "\n" if line[:1].isdigit() else f"{10 + 10 * at} {line}\n" for at, line in enumerate(lines))


def tried(lines, answers, *words):
    """What `try` shows and tells of a program, and its status."""
    with tempfile.TemporaryDirectory(dir=sys.argv[2]) as folder:
        with open(os.path.join(folder, "listing.bas"), "w", encoding="ascii") as file:
            file.write(numbered(lines))
        done = subprocess.run([os.path.join(TOP, "tools", "try"), *words, "listing.bas"], cwd=folder, input=answers.encode(), capture_output=True,
                              env={**os.environ, "B2_PROGRAM": sys.argv[1]}, check=False)
    return done.stdout.decode("latin-1"), done.stderr.decode(), done.returncode


def refused(habit):
    """A habit is told with its place, its code and what to write instead."""
    _, told, status = tried(habit.form.split(" / "), "TEN\n")
    wanted = rf"^try: listing\.bas:1: .*: {habit.code} .*; instead: {re.escape(habit.instead)} \(docs/PORTING\.md\)$"
    if status not in (22, 23) or not re.search(wanted, told, re.MULTILINE):
        yield f"{habit.form}: status {status}: {told}"


def replaced(habit):
    """What stands in its place runs."""
    shown, told, status = tried(habit.runs.split(" / "), "5\n", "--disk", "disk", "--printer", "printer")
    told = re.sub("^try: the run has ended; answer 1 and what follows it was not asked for\n", "", told)
    if status != 0 or told or not shown.startswith("RUN\n"):
        yield f"{habit.runs}: status {status}: {told}"


def shown_rows(rows):
    """Rows of lines and of what they show."""
    for cells in rows:
        lines, wanted = (re.findall("`([^`]*)`", cell) for cell in cells[:2])
        shown, told, _ = tried(lines, "")
        if shown != "".join(["RUN\n", *(line + "\n" for line in wanted), ":"]) or told:
            yield f"{lines}: {shown!r} {told}"


def image_rows(rows):
    """Rows of an image, a number and what is shown."""
    for cells in rows:
        image, number, wanted = (re.fullmatch(" `(.*)` ", cell)[1] for cell in cells[:3])
        shown, told, _ = tried([f'PRINTUSING "{image}",{number}'], "")
        if shown != f"RUN\n{wanted}\n:" or told:
            yield f"{image} {number}: {shown!r} {told}"


def rows_under(page, title):
    section = page.split(f"\n## {title}\n")[1].split("\n## ")[0]
    return [line.split("|")[1:] for line in section.split("\n") if line.startswith("| `")]


def main():
    with open(os.path.join(TOP, "docs", "PORTING.md"), encoding="utf-8") as file:
        page = file.read()
    other, images = rows_under(page, "Habits that do something else"), rows_under(page, "The images of PRINTUSING")
    if len(HABITS) < 40 or len(other) < 8 or len(images) < 18:
        print("a table is too short")
    calls = [(refused, habit) for habit in HABITS] + [(replaced, habit) for habit in HABITS]
    calls += [(shown_rows, [row]) for row in other] + [(image_rows, [row]) for row in images]
    with concurrent.futures.ThreadPoolExecutor(4) as workers:
        for wrong in workers.map(lambda call: list(call[0](call[1])), calls):
            print("".join(f"{text}\n" for text in wrong), end="")


main()
