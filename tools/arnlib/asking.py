"""What all questions have: their words, lists that are printed as text or as objects, and what is said of long ones."""
import json
import sys
import time

from arnlib import logs, places, sources, texts
from arnlib.faults import Fault, say

# How the log of the examples is made.
MADE = """examples, from the repository's top, on a log that this makes:
  echo 'maximilianus battery9' | tools/arn record examples/leak/hello.img
"""

# From how many instructions on that run again a question may take above ten seconds.
LONG = 200_000_000
# After how many seconds a terminal shows how far a question is, and how often.
PROGRESS_AFTER, PROGRESS_EACH = 2.0, 0.5


def add_log(parser, has_json=True):
    """The words LOG, --json and --program."""
    parser.add_argument("log", metavar="LOG")
    if has_json:
        parser.add_argument("--json", action="store_true", help="one object a line")
    parser.add_argument("--program", help="the program arnold")


class Answers:
    """A log as the modules of the page ask it: some lines at once."""

    def __init__(self, log):
        self.log = log

    def ask(self, lines):
        """The answer to each line."""
        for line in lines:
            yield Answer(list(self.log.ask(line)))


class Answer:
    """The lines of an answer, each as its words."""

    def __init__(self, lines):
        self.lines = lines

    def __iter__(self):
        return iter(self.lines)


class WatchedLog(logs.AskedLog):
    """A log of which a terminal shows how many lines were answered, where that takes long."""

    def __init__(self, path, named):
        self.begun = self.last = time.monotonic()
        self.count, self.is_shown = 0, False
        super().__init__(path, named)

    def __exit__(self, *failure):
        self.wipe()
        super().__exit__(*failure)

    def ask(self, line):
        """The lines of an answer."""
        self.count += 1
        now = time.monotonic()
        is_due = now - self.begun > PROGRESS_AFTER and now - self.last > PROGRESS_EACH
        if is_due and sys.stderr is not None and sys.stderr.isatty():
            say(f"\r{self.count:,} lines asked in {now - self.begun:.0f} seconds ", end="")
            self.last, self.is_shown = now, True
        return super().ask(line)

    def wipe(self):
        """Takes what was shown away."""
        if self.is_shown:
            say("\r" + " " * 60 + "\r", end="")
            self.is_shown = False


def opened(options):
    """The log of the words, of which it is said where its end is missing."""
    log = WatchedLog(options.log, options.program)
    log.say_what_is_missing()
    return log


def print_object(**parts):
    print(json.dumps(parts))


def as_bytes(pieces):
    """Bytes of events for a JSON object."""
    return [{"event": piece.event, "from": piece.first, "to": piece.first + piece.length - 1} for piece in pieces]


def in_event(piece):
    """Bytes of an event as a question names them: E:FROM-TO."""
    return f"{piece.event}:{texts.span(piece.first, piece.first + piece.length - 1)}"


def as_place(stretch, first, last):
    """Bytes of an input or of a sink for a JSON object: its word, the first and the last, the line, the bytes of events."""
    made = {"name": stretch.name, "from": first, "to": last, "bytes": as_bytes(stretch.ranges(first, last - first + 1))}
    if sources.has_lines(stretch):
        made["line"] = places.line_of(stretch.data, first)[0]
    return {**made, **texts.as_json(bytes(stretch.data[first:last + 1]))}


def say_how_long(instructions):
    """Says of a question that it may take long, where it may."""
    if instructions > LONG:
        say(f"arn: up to {instructions:,} instructions run again, which may take above ten seconds")


def event_after(history, moment):
    """The number of the first event that hasn't happened at a moment."""
    return next((event.number for event in history.events if event.moment > moment), len(history.events))


def variable(programs, history, pid, moment, name):
    """The address of a process's global variable, and its length."""
    elf = programs.elf(pid, event_after(history, moment))
    known = elf.variables() if elf else {}
    if name not in known:
        raise Fault(f"there is no variable {texts.safe(name)}" + ("" if elf else ": the program's ELF file isn't kept"))
    return known[name]
