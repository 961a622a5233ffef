"""Shared by the commands above the program: runs of the proved program, boot files, and the files of a user's disk and printer.

The program alone decides what the machine does: the commands write its boot files and logs, run it, and pass on what it wrote.
`b2` names it in B2_PROGRAM.
"""
import fcntl
import os
import re
import shutil
import signal
import stat
import subprocess
import sys
import tempfile
import tomllib

LOG_STEPS = 5_000_000
LOG_BYTES = 4_194_304
QUEUE = 128
# So many turns a program passes at the most by one `$BREAK`.
MOST_PASSED = 255
BLANK = 1024
TOP = os.path.dirname(os.path.dirname(os.path.realpath(__file__)))


class Refused(Exception):
    """What can't be done, with the status that a command ends with."""

    def __init__(self, text, status=2):
        super().__init__(text)
        self.status = status


class Stopped(Refused):
    """The program ended with another status than 0: its line, and its number."""


def number(word, highest, what):
    if not re.fullmatch("[1-9][0-9]{0,6}", word) or int(word) > highest:
        raise Refused(f"no {what} from 1 to {highest}: {word}")
    return int(word)


def bytes_of(name):
    """What a file has that can be read; a pipe does as well."""
    try:
        with open(name, "rb") as file:
            return file.read()
    except IsADirectoryError:
        raise Refused(f"{name} is a folder, and a file is wanted") from None
    except FileNotFoundError:
        raise Refused(f"there is no file {name}") from None
    except OSError as error:
        raise Refused(f"{name} can't be read: {error.strerror}") from None


def file_bytes(name):
    """The same of a file alone, since the program reads nothing else either."""
    if os.path.exists(name) and not os.path.isfile(name):
        raise Refused(f"{name} is no file that can be read")
    return bytes_of(name)


def is_image_name(name):
    """Whether a boot file can name a file so."""
    return re.fullmatch(r"[A-Za-z0-9._/-]{1,190}", name) is not None


def turn(part, steps):
    return b"turn %d %d\n" % (part, steps)


class Boot:
    """What a boot file says. Whether it is a good one the machine decides."""

    def __init__(self, text, name):
        try:
            table = tomllib.loads(text.decode())
            self.quota = int(table["quota"])
            self.parts = sorted(table["partition"], key=lambda part: int(part["number"]))
            self.places = {int(part["number"]): int(part["terminal"]) for part in self.parts}
            self.quotas = {int(part["number"]): int(part.get("quota", self.quota)) for part in self.parts}
            self.fronts = {int(row["number"]): int(row["front"]) for row in table["terminal"]}
            self.platters, self.printers = table.get("platter", []), table.get("printer", [])
            self.images = {row["address"]: row["image"] for row in self.platters if "image" in row}
            self.table = table
        except (ValueError, KeyError, TypeError, AttributeError):
            raise Refused(f"{name} is no boot file: it has no quota, or no partitions with a number and a terminal") from None

    def partitions(self):
        return sorted(self.places)

    def terminals(self):
        return sorted(self.fronts)

    def steps_of_a_round(self):
        return sum(self.quotas.values())

    def spelled(self, images):
        """The boot file once more, with these names of images by their addresses."""
        lines = [f"quota = {self.quota}"]
        # A key that isn't known stays one.
        lines += [f"{key} = 0" for key in self.table if key not in ("quota", "terminal", "partition", "platter", "printer")]
        for kind in ("terminal", "partition", "platter", "printer"):
            for row in self.table.get(kind, []):
                row = dict(row)
                if "image" in row:
                    row["image"] = images[row["address"]]
                lines += ["", f"[[{kind}]]", *(f"{key} = {toml_value(value)}" for key, value in row.items())]
        return "\n".join(lines).encode() + b"\n"


def fronts_after(boot, log):
    """Who is in front at each terminal at the end of a log."""
    fronts = dict(boot.fronts)
    for terminal, part in re.findall(rb"^front (\d+) (\d+)\r?$", log, re.MULTILINE):
        fronts[int(terminal)] = int(part)
    return fronts


def granted_by(log, a_round):
    """The steps that a log grants; `a_round` is what a round does."""
    turns = re.findall(rb"^turn \d+ (\d+)\r?$", log, re.MULTILINE)
    rounds = re.findall(rb"^rounds (\d+)\r?$", log, re.MULTILINE)
    return sum(map(int, turns)) + a_round * sum(map(int, rounds))


def toml_value(value):
    if isinstance(value, str):
        return '"' + re.sub(r'["\\\x00-\x1f\x7f]', lambda found: f"\\u{ord(found[0]):04X}", value) + '"'
    return str(value).lower() if isinstance(value, bool) else str(value)


def own_boot(quota, disk, printer, area=24):
    """A boot file of one partition at one terminal with the largest areas; `disk` says nothing, `blank`, or the name of an image."""
    lines = [f"quota = {quota}", "", "[[terminal]]", "number = 1", "front = 1", "", "[[partition]]", "number = 1", "terminal = 1",
             f"text = {area}", "data = 24", "globals = 8"]
    if disk:
        lines += ['disk = "D11"', "", "[[platter]]", 'address = "D11"', f"blank = {BLANK}" if disk == "blank" else f'image = "{disk}"']
    if printer:
        lines += ["", "[[printer]]", 'address = "215"']
    return "\n".join(lines).encode() + b"\n"


class Run:
    """What the summary of a run says."""

    def __init__(self, summary):
        found = re.fullmatch(rb"turns (\d+) steps (\d+) dropped (\d+) apart \S+\n", summary)
        self.summary, self.turns, self.steps, self.dropped = summary, int(found[1]), int(found[2]), int(found[3])


class Machine:
    """The program and a folder for its boot file and outputs. It runs inside of the folder under plain names, whatever the names
    outside are."""

    def __init__(self, folder):
        self.program, self.folder = os.environ.get("B2_PROGRAM", ""), folder
        if not os.access(self.program, os.X_OK):
            raise Refused("the program is not there; the command is run by b2", 127)

    def put(self, name, content):
        with open(os.path.join(self.folder, name), "wb") as file:
            file.write(content)

    def run(self, log):
        """Runs a log from the boot file of the folder."""
        words = [self.program, "run", "boot", "/dev/stdin", "out"]
        # What Python leaves ignored stays so, so that a write past a limit on files is a status and no signal.
        done = subprocess.run(words, cwd=self.folder, input=log, stdout=subprocess.PIPE, stderr=subprocess.STDOUT, check=False,
                              restore_signals=False)
        if done.returncode != 0:
            raise Stopped(done.stdout.decode("latin-1").strip() or "the program was ended", done.returncode % 256)
        return Run(done.stdout)

    def output(self, name):
        """What the last run wrote for a terminal, a printer or a platter."""
        return bytes_of(os.path.join(self.folder, f"out.{name}"))

    def transcript(self, terminal):
        return self.output(f"t{terminal:02}")


class WorkFolder:
    """A folder for a command, in memory where that can be, since each run writes its transcripts down to the disk. It goes
    whatever happens, also where a signal ends the command."""

    def __enter__(self):
        for ends in (signal.SIGTERM, signal.SIGHUP, signal.SIGINT):
            signal.signal(ends, self.end)
        for place in ("/dev/shm", None):
            try:
                self.folder = tempfile.mkdtemp(prefix="b2.", dir=place)
                return self.folder
            except OSError:
                continue
        raise Refused("no folder for the outputs can be made")

    @staticmethod
    def end(which, _frame):
        sys.exit(128 + which)

    def __exit__(self, *_error):
        shutil.rmtree(self.folder, ignore_errors=True)


def can_take(name):
    """Why a file can't be made or written, or nothing where it can. One that nobody may write is left alone, whoever asks."""
    folder = os.path.dirname(name) or "."
    if os.path.isdir(name):
        return f"{name} is a folder"
    if os.path.exists(name):
        is_open = os.path.isfile(name) and os.stat(name).st_mode & 0o222 and os.access(name, os.W_OK)
        return None if is_open else f"{name} can't be written"
    if not os.path.isdir(folder):
        return f"there is no folder {folder}"
    return None if os.access(folder, os.W_OK | os.X_OK) else f"{folder} can't be written"


def put_file(name, content):
    """A file takes what a run wrote through a new one beside it, so that it stays whole until that is, and keeps its owner and its
    mode. Where that can't be, it is written itself."""
    beside = name + "~"
    try:
        before = os.stat(name) if os.path.exists(name) else None
        with open(beside, "wb") as file:
            file.write(content)
            file.flush()
            os.fsync(file.fileno())
        if before is not None:
            os.chmod(beside, stat.S_IMODE(before.st_mode))
            if (os.stat(beside).st_uid, os.stat(beside).st_gid) != (before.st_uid, before.st_gid):
                os.chown(beside, before.st_uid, before.st_gid)
        os.replace(beside, name)
    except OSError:
        if os.path.isfile(beside):
            os.unlink(beside)
        with open(name, "r+b" if os.path.exists(name) else "wb") as file:
            file.write(content)
            file.truncate()


class Disk:
    """A user's disk D11: a file, which is read before anything is run, and written at the end where something changed on it."""

    def __init__(self, name):
        self.name, self.path = name, os.path.realpath(name)
        why = can_take(self.path)
        if why:
            raise Refused(why)
        self.before = self.now()

    def now(self):
        return file_bytes(self.path) if os.path.exists(self.path) else None

    def put(self, content):
        """What somebody else wrote meanwhile isn't written over."""
        if content == self.before:
            return
        now = self.now()
        if now not in (self.before, content):
            put_file(self.path + ".lost", content)
            raise Refused(f"{self.path} was changed by another command meanwhile and stays so; what was left here is {self.path}.lost")
        if now != content:
            put_file(self.path, content)


class Printer:
    """The file of a user's printer 215."""

    def __init__(self, name):
        self.path = os.path.realpath(name)
        why = can_take(self.path)
        if why:
            raise Refused(why)

    def put(self, content):
        put_file(self.path, content)


class Lock:
    """Keeps a second session from a log. The file beside it says which process has it; one that is left by a process that ended
    without taking it away is taken over."""

    def __init__(self, name):
        self.name, self.stale = name, None
        self.file = os.open(name, os.O_RDWR | os.O_CREAT | os.O_CLOEXEC, 0o644)
        holder = os.read(self.file, 20).decode("latin-1").strip()
        try:
            fcntl.flock(self.file, fcntl.LOCK_EX | fcntl.LOCK_NB)
        except OSError:
            raise Refused(f"the process {holder or 'of another session'} has {name.removesuffix('.lock')}; "
                          "--log FILE begins another session") from None
        if not os.path.exists(name) or os.stat(name).st_ino != os.fstat(self.file).st_ino:
            raise Refused(f"another session at {name.removesuffix('.lock')} ended just now; try once more")
        if holder:
            self.stale = holder
        os.ftruncate(self.file, 0)
        os.pwrite(self.file, f"{os.getpid()}\n".encode(), 0)

    def free(self):
        os.unlink(self.name)
        os.close(self.file)


def run_command(name, command):
    """Runs a command, and ends with its status or with a message."""
    sys.stderr.reconfigure(encoding="utf-8", errors="backslashreplace")
    sys.stdin = sys.stdin or open(os.devnull, encoding="ascii")
    try:
        if sys.stdout is None:
            raise Refused("standard output is closed", 7)
        status = command(sys.argv[1:])
        sys.stdout.flush()
    except BrokenPipeError:
        # Nobody reads any further; without this the end would say so once more.
        os.dup2(os.open(os.devnull, os.O_WRONLY), sys.stdout.fileno())
        status = 141
    except KeyboardInterrupt:
        print(f"{name}: ended by Ctrl-C", file=sys.stderr)
        status = 130
    except Refused as refused:
        text = str(refused)
        print(text if text.startswith("usage:") else f"{name}: {text}", file=sys.stderr)
        status = refused.status
    except OSError as error:
        os.dup2(os.open(os.devnull, os.O_WRONLY), 1)
        print(f"{name}: {error.filename or 'standard output'}: {error.strerror}", file=sys.stderr)
        status = 7
    sys.exit(status)
