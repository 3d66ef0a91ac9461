"""A log that is asked. No file is changed by it.

A log that nobody uses is asked where it is. One that another question uses, that is being recorded, or that breaks off in a
commit is asked on a copy, in a folder that only its owner can enter and that goes at the end, also at a signal.
"""
import contextlib
import fcntl
import os
import tempfile

import arnold_log
from arnlib import texts
from arnlib.faults import Fault, say
from arnlib.program import Dialogue, Ended, find_program

SHORTEST = 10


def lock_of(log):
    """The file whose lock says that a log is being recorded."""
    return log + ".lock"


def is_locked(path, how=fcntl.LOCK_EX):
    """Whether somebody holds a lock of the file."""
    try:
        with open(path, "rb") as file:
            fcntl.flock(file, how | fcntl.LOCK_NB)
            return False
    except FileNotFoundError:
        return False
    except BlockingIOError:
        return True


def contents(path):
    """The bytes of a log. A file that is none is refused."""
    try:
        with open(path, "rb") as file:
            data = file.read()
    except OSError as error:
        raise Fault(f"{texts.safe(path)}: {error.strerror}") from None
    if len(data) < SHORTEST or not data.startswith(arnold_log.NAME):
        raise Fault(f"{texts.safe(path)}: this is no log")
    return data


def ends_early(data):
    """Whether the last commit breaks off."""
    gate = len(arnold_log.NAME)
    while gate < len(data) and data[gate] == arnold_log.OPEN_GATE:
        begin = gate + 5
        if begin > len(data):
            return gate + 1 < len(data)
        gate = begin + int.from_bytes(data[gate + 1:begin], "little")
    return gate >= len(data) or gate + 1 < len(data)


def whole_part(data):
    """The part of a log before a commit that breaks off, with its gate closed."""
    gate = len(arnold_log.NAME)
    while data[gate] == arnold_log.OPEN_GATE and gate + 5 <= len(data):
        end = gate + 5 + int.from_bytes(data[gate + 1:gate + 5], "little")
        if end >= len(data):
            break
        gate = end
    return data[:gate] + b"\0"


def checked(history):
    """A history, unless one of its events says that its bytes come from where no earlier bytes are."""
    for event in history.events:
        for origin, at, count in event.origins:
            if origin >= event.number or at + count > history.events[origin].length:
                raise arnold_log.Fault(f"this is no log of a run: event {event.number} has bytes of none that came before it")
    return history


class AskedLog:
    """A log with the program that answers about it, and its events. `note` says what is missing of it, if anything is."""

    def __init__(self, path, named=None):
        self.path, self.note = path, None
        self.program = find_program(named)
        self.exits = contextlib.ExitStack()
        self.data = contents(path)
        self.dialogue = self.exits.enter_context(self.open())

    def __enter__(self):
        return self

    def __exit__(self, *failure):
        return self.exits.__exit__(*failure)

    def open(self):
        """The dialogue about the log, or about a copy of it."""
        is_recorded = is_locked(lock_of(self.path))
        if is_recorded or ends_early(self.data):
            self.note = "it is being recorded" if is_recorded else "it breaks off in a commit"
            self.data = whole_part(self.data)
        elif not is_locked(self.path):
            return Dialogue(self.program, self.path)
        return Dialogue(self.program, self.copy())

    def copy(self):
        """A copy of what is asked, in a folder that goes at the end."""
        folder = self.exits.enter_context(tempfile.TemporaryDirectory(prefix="arn-"))
        path = os.path.join(folder, "log")
        with open(path, "xb") as file:
            file.write(self.data)
        return path

    def history(self):
        """The events of the log."""
        try:
            return checked(arnold_log.history_of(arnold_log.read_records(self.data)))
        except arnold_log.Fault as fault:
            raise Fault(f"{texts.safe(self.path)}: {fault}") from None

    def ask(self, line):
        """The lines of an answer. A log that another question took meanwhile is asked on a copy."""
        try:
            yield from self.dialogue.ask(line)
        except Ended as ended:
            if ended.code != 3 or "uses it" not in ended.said:
                raise
            self.dialogue = self.exits.enter_context(Dialogue(self.program, self.copy()))
            yield from self.dialogue.ask(line)

    def say_what_is_missing(self):
        """Says on standard error that the end of the log is missing, where it is."""
        if self.note:
            say(f"arn: {texts.safe(self.path)}: {self.note}: what is answered is about what was committed")
