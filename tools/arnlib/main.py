"""The words of `arn`, and which file has which subcommand."""
import argparse
import importlib
import os
import signal
import sys

from arnlib import texts
from arnlib.faults import CLOSED, INTERRUPTED, UNASKED, Fault, say

VERSION = "arn 1"

# Of each subcommand the file that has it, and what it does. A file of that name has DESCRIPTION, EXAMPLE, `add_words(parser)`
# and `run(options)`, which gives the status; FAULT, the status of faults, where that isn't 2; and PROGRAM_WORDS where what stands
# behind `--` are words of a program, which it gets as `options.words`.
COMMANDS = {
    "record": "runs a program and keeps all of it in a log",
    "resume": "goes on with a recording that was ended",
    "why": "says which input bytes some bytes came from",
    "reach": "says which outputs some input bytes reached",
    "leaks": "says whether an input reached an output, by its status",
    "find": "finds a text in what came in and what went out",
    "last": "finds what last changed a byte of a process's memory",
    "events": "lists what happened, as strace does",
    "show": "shows a process at a moment: registers, calls, variables, memory",
    "files": "lists the files at a moment",
    "cat": "prints a file as it was at a moment",
    "diff": "finds where two recordings differ",
    "page": "makes one page of a log for a browser",
    "verify": "says whether a log is the record of a run",
    "ask": "asks the program by its own lines",
    "lint": "says what is wrong with the lines of a session",
    "hex": "makes hex of texts, and texts of hex",
}

DESCRIPTION = "Records programs, and says of any byte which input bytes it came from."
EXAMPLE = """examples:
  echo 'maximilianus battery9' | tools/arn record examples/leak/hello.img    runs a program, and keeps all of it in hello.log
  tools/arn why hello.log battery9    says where this text in the output came from
  tools/arn why --help                says more about one subcommand"""


class Parser(argparse.ArgumentParser):
    """Says what is wrong with the words in one line."""

    fault = UNASKED

    def __init__(self, **words):
        super().__init__(formatter_class=argparse.RawDescriptionHelpFormatter, allow_abbrev=False, **words)

    def _print_message(self, message, file=None):
        """Prints help; a write that fails isn't passed over."""
        (file or sys.stdout).write(message)

    def error(self, message):
        raise Fault(f"{message} (see {self.prog} --help)", self.fault)


def here(names):
    """Those of the subcommands whose file is there."""
    folder = os.path.dirname(os.path.abspath(__file__))
    return [name for name in names if os.path.isfile(os.path.join(folder, f"{name}.py"))]


def whole_parser():
    """The parser of `arn` alone, which lists the subcommands."""
    listed = "\n".join(f"  {name:8} {COMMANDS[name]}" for name in here(COMMANDS))
    parser = Parser(prog="arn", usage="arn COMMAND [WORD..]", description=DESCRIPTION, epilog=f"commands:\n{listed}\n\n{EXAMPLE}")
    parser.add_argument("--version", action="version", version=VERSION)
    return parser


def split(words):
    """The words before and behind the first `--`."""
    place = words.index("--") if "--" in words else len(words)
    return words[:place], words[place + 1:]


def run_command(name, words):
    """Runs a subcommand, and gives its status."""
    command = importlib.import_module(f"arnlib.{name}")
    parser = Parser(prog=f"arn {name}", description=command.DESCRIPTION, epilog=command.EXAMPLE)
    parser.fault = getattr(command, "FAULT", UNASKED)
    try:
        command.add_words(parser)
        words, program_words = split(words) if hasattr(command, "PROGRAM_WORDS") else (words, [])
        return command.run(parser.parse_intermixed_args(words, argparse.Namespace(words=program_words)))
    except Fault as fault:
        fault.status = parser.fault if fault.status is None else fault.status
        raise
    except BrokenPipeError:
        raise
    except OSError as error:
        raise Fault(said_of(error), parser.fault) from None
    except UnicodeError as error:
        raise Fault(f"a word or a name has letters that can't be said here: {error.reason}", parser.fault) from None
    except MemoryError:
        raise Fault("there is no memory", parser.fault) from None


def said_of(error):
    """What the system says is wrong, and with which file; standard output has no name."""
    return f"{'standard output' if error.filename is None else os.fsdecode(error.filename)}: {error.strerror or error}"


def lose_output():
    """Lets nothing more be written to a standard output that is closed or full."""
    try:
        os.dup2(os.open(os.devnull, os.O_WRONLY), sys.stdout.fileno())
    except (OSError, ValueError, AttributeError):
        pass


def write_rest():
    """Writes what was printed until now, as far as that goes."""
    try:
        sys.stdout.flush()
    except OSError:
        lose_output()


def chosen(words):
    """Runs what the words ask for."""
    if words and words[0] in here(COMMANDS):
        return run_command(words[0], words[1:])
    parser = whole_parser()
    if not words:
        say(parser.format_help(), end="")
        return UNASKED
    if words[0].startswith("-"):
        parser.parse_args(words)
    raise Fault(f"there is no command {words[0]!r} (see arn --help)")


def end_at(number, frame):
    """A signal ends the command as Ctrl-C does, so that folders of its own go."""
    raise SystemExit(128 + number)


def heed_signals():
    """Heeds the signals that end a command, but for one that it was started to ignore."""
    for number in (signal.SIGTERM, signal.SIGHUP):
        if signal.getsignal(number) != signal.SIG_IGN:
            signal.signal(number, end_at)


def open_streams():
    """Opens streams that are closed: an input that is empty, an output whose reader is gone, a standard error that keeps nothing.
    What can't be printed in the letters of the terminal is printed as an escape."""
    if sys.stdin is None:
        sys.stdin = open(os.devnull, encoding="utf-8")
    if sys.stdout is None:
        reader, writer = os.pipe()
        os.close(reader)
        sys.stdout = open(writer, "w", encoding="utf-8")
    if sys.stderr is None:
        sys.stderr = open(os.devnull, "w", encoding="utf-8")
    for stream in (sys.stdout, sys.stderr):
        stream.reconfigure(errors="backslashreplace")


def flushed(words):
    """Runs what the words ask for, and gives its status when all that it printed is written."""
    open_streams()
    heed_signals()
    try:
        status = chosen(words)
    except SystemExit as ended:
        status = ended.code or 0
    sys.stdout.flush()
    return status


def main(words):
    """Runs `arn` with some words, and gives its status."""
    try:
        return flushed(words)
    except Fault as fault:
        write_rest()
        say(f"arn: {texts.safe(str(fault))}")
        return UNASKED if fault.status is None else fault.status
    except BrokenPipeError:
        lose_output()
        return CLOSED
    except KeyboardInterrupt:
        write_rest()
        return INTERRUPTED
    except OSError as error:
        lose_output()
        say(f"arn: {texts.safe(said_of(error))}")
        return UNASKED
