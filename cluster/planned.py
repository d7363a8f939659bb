"""The folder of a planned run: its files, which tasks are done, and what is damaged of it."""

import hashlib
import json
import os
import re
import secrets
import shutil
import signal
import socket
import subprocess
import sys

# A task's kind, and the folder that it makes by one rename: if that is there, the task is done.
DONE = {"sort": "sorted/{}", "bounds": "bounds", "post": "posts/{}", "merge": "bill"}
FOLDERS = ("bin", "groups", "sorted", "posts", "logs", "work")


class Fault(Exception):
    """Why a task cannot be done; another try would not mend it."""


class Failed(Exception):
    """Why a try of a task failed; another one may do it."""


class Run:
    """A planned run. The process works in its folder from then on."""

    def __init__(self, folder):
        try:
            plan = load(os.path.join(folder, "plan.json"))
            self.parts, self.sums, self.is_sorted, self.ledger, self.table = (
                plan[key] for key in ("parts", "groups", "sorted", "ledger", "table"))
        except (FileNotFoundError, NotADirectoryError, ValueError, KeyError, TypeError):
            raise Fault(f"{folder} is no planned run") from None
        self.folder = os.path.realpath(folder)
        os.chdir(self.folder)
        self.name, self.groups = digest("plan.json"), len(self.sums)
        self.kinds = list(DONE)[self.is_sorted:]
        self.texts = ["report", "ledger"][:1 + self.ledger]

    def count(self, kind):
        """How many tasks of a kind there are: of posts fewer than planned, if bounds are few."""
        if kind == "post" and not self.left("bounds") and not self.damaged("bounds"):
            return len(self.bounds()) + 1
        return {"sort": self.groups, "post": self.parts}.get(kind, 1)

    def left(self, kind):
        """The tasks of a kind that are not done, by a list of the folder of their marks.

        On a folder of another machine a name by itself may be answered from an old look.
        """
        folder, name = os.path.split(DONE[kind])
        there = set(os.listdir(folder or "."))
        return [number for number in range(self.count(kind)) if name.format(number) not in there]

    def not_done(self, kinds):
        """That a task of these kinds is not done, or not seen yet; else nothing."""
        for kind in kinds:
            for number in self.left(kind):
                return f"{told(kind, number)} is not done"
        return ""

    def progress(self):
        counts = ((kind, self.count(kind), len(self.left(kind))) for kind in self.kinds)
        return " ".join(f"{kind} {count - left}/{count}" for kind, count, left in counts)

    def status(self):
        """The status of a run that is merged: 0."""
        self.undo([("bill", self.damaged("bill"))])
        return 0

    def uploads(self, group):
        """The names of a group's uploads, which must be those that were planned."""
        if digest(f"groups/{group}") != self.sums[group]:
            raise Fault(f"{self.folder}/groups/{group} is damaged: plan in a new folder")
        uploads = load(f"groups/{group}")
        for name, size, changed in uploads:
            try:
                found = os.stat(name)
            except OSError:
                raise Failed(f"cannot read {name}") from None
            if [found.st_size, found.st_mtime_ns] != [size, changed]:
                raise Fault(f"{name} is not the upload that was planned: it has changed since")
        return [name for name, _, _ in uploads]

    def files(self):
        """The names of the sorted files, in their order: each is as it was planned or made."""
        if self.is_sorted:
            return [name for group in range(self.groups) for name in self.uploads(group)]
        folders = [DONE["sort"].format(group) for group in range(self.groups)]
        self.undo((folder, self.damaged(folder)) for folder in folders)
        return [f"{folder}/taps.tap" for folder in folders]

    def settle(self, words, **where):
        """Runs the program over the sorted files, which stay as they were planned or made."""
        files = "\0".join(self.files()).encode()
        if digest("table.toml") != self.table:
            raise Fault(f"{self.folder}/table.toml is damaged: plan in a new folder")
        words = ["--settle", "--sorted", *words, "--files-from", "-", "-0"]
        words = ["bin/omny_cli", "--table", "table.toml", *words]
        done = subprocess.run(words, input=files, **where)
        self.files()
        return done

    def bounds(self):
        """The tokens at which a part ends and the next one begins."""
        with open("bounds/tokens", encoding="ascii") as file:
            return file.read().split()

    def publish(self, work, name):
        """Gives a folder the name of its task, with the sums of its files. All is on the disk
        before. If another copy of the task was first, its folder stays."""
        sums = {file: sum_of(f"{work}/{file}", name) for file in os.listdir(work)}
        write(f"{work}/sums", json.dumps({"run": self.name, "task": name, "files": sums}))
        for file in (*sums, "sums", "."):
            sync(f"{work}/{file}")
        try:
            os.rename(work, name)
        except OSError:
            if not os.path.lexists(name):
                raise
        sync(os.path.dirname(name) or ".")

    def damaged(self, name):
        """What is wrong with the folder that a task made, or nothing."""
        try:
            sums = load(f"{name}/sums")
            if [sums["run"], sums["task"]] != [self.name, name]:
                return f"{name} is of another task"
            files = sums["files"]
            for file in sorted({*files, *os.listdir(name)} - {"sums"}):
                if sum_of(f"{name}/{file}", name) != files.get(file):
                    return f"{name}/{file} is damaged"
        except FileNotFoundError as fault:
            return f"{fault.filename} is missing"
        except (OSError, ValueError, KeyError, TypeError, AttributeError):
            return f"{name}/sums is damaged"
        return ""

    def undo(self, wrong):
        """Takes tasks as not done: pairs of their folders and a reason. It is a fault if one is."""
        wrong = [(name, reason) for name, reason in wrong if reason]
        for name, _ in wrong:
            gone = f"work/{secrets.token_hex(8)}"
            try:
                os.rename(name, gone)
            except FileNotFoundError:
                continue
            shutil.rmtree(gone, ignore_errors=True)
        if wrong:
            raise Fault(f"{wrong[0][1]}; the next run does what is left")


def load(name):
    with open(name, encoding="utf-8") as file:
        return json.load(file)


def write(name, text):
    with open(name, "w", encoding="utf-8") as file:
        file.write(text)


def sync(name):
    """Waits until a file or a folder is on the disk."""
    file = os.open(name, os.O_RDONLY)
    try:
        os.fsync(file)
    finally:
        os.close(file)


def digest(name):
    """The SHA-256 of a file."""
    found = hashlib.sha256()
    with open(name, "rb") as file:
        while some := file.read(1 << 20):
            found.update(some)
    return found.hexdigest()


def sum_of(file, task):
    """What tells a file of a task from another one: the SHA-256 of a text that a task reads once.
    Of a sorted file, which each post reads, and of the bill its size and the time of its change."""
    if task.startswith(("posts/", "bounds")):
        return digest(file)
    found = os.stat(file)
    return [found.st_size, found.st_mtime_ns]


def told(kind, number):
    """A task in words."""
    return kind if kind in ("bounds", "merge") else f"{kind} {number}"


def say(line):
    """A line on the standard error, which may lie on the disk that is full. Names may be in it."""
    try:
        line = re.sub("[\0-\x1f\x7f]", lambda it: f"\\x{ord(it[0]):02x}", line)
        print(line, file=sys.stderr, flush=True)
    except OSError:
        pass


def why(error):
    """Why something failed, in words."""
    if isinstance(error, OSError) and error.filename is not None:
        return f"{error.filename}: {error.strerror}"
    return str(error)


def words(page, least, most):
    """The words of the command line. If help is asked for, the script's page, and it ends."""
    given = sys.argv[1:]
    if given[:1] in (["-h"], ["--help"]):
        print(page.strip())
        sys.exit(0)
    if not least <= len(given) <= most:
        raise Fault("too few words or too many; --help lists them")
    return given


def number_of(word, least=0):
    """The number that a word of the command line is."""
    if not re.fullmatch("[0-9]{1,9}", word) or int(word) < least:
        raise Fault(f"{word} is no number from {least} on")
    return int(word)


def ends(main):
    """Runs a script and ends with its status: 2 and a line `fault: ..` if it could not do it."""
    for it in (signal.SIGTERM, signal.SIGHUP):
        if signal.getsignal(it) == signal.SIG_DFL:
            signal.signal(it, signal.default_int_handler)
    try:
        sys.exit(main())
    except (Fault, Failed, OSError) as fault:
        say(f"fault: {why(fault)}")
    except KeyboardInterrupt:
        say("fault: interrupted; the same command does what is left")
    except Exception as error:
        say(f"fault: not expected: {type(error).__name__}: {error}")
    sys.exit(2)


def host():
    return socket.gethostname()
