"""arn record: runs a program, and keeps all of it in a log."""
import contextlib
import fcntl
import os
import shutil
import sys
from typing import NamedTuple

from arnlib import endings, launcher, logs, programs, recording, symbols, texts, trying
from arnlib.faults import FAILED, Fault, say
from arnlib.program import find_program

FAULT = FAILED
PROGRAM_WORDS = True
MOST_ROUND, MOST_SEED = 1_000_000, 2 ** 64 - 1
DESCRIPTION = """Runs a program of Arnold's machine on this input, and keeps all of it in a log: what came in, what was written,
and in which order processes ran. PROGRAM is an ELF file, an image, or sources in C. What the program writes to its console,
which its descriptors 1 and 2 both are, is copied to standard output. On a terminal a line is taken whenever a process waits for
one, and Ctrl-D ends the input.

The last line on standard error says how it ended. The status is that of the first process, or one of these:
  124  it waits for what never comes, or --most is reached
  125  arn itself fails: words, a log that is there already, the compiler, a full log, the program arnold
  126  PROGRAM is no program of the machine
  127  there is no PROGRAM
  129, 130, 141, 143  the terminal went, Ctrl-C, standard output was closed, SIGTERM: what runs is ended where it next writes, or
       after 20,000,000 instructions, and at a second signal at once; `arn resume LOG` runs it on"""
EXAMPLE = """The program's words stand behind `--`.

With --json the last line of standard error is an object. It has how (exit, fault, signal, waits, most, interrupted, closed or
failed), status and said; where there is a log, program, instructions, events and log; of a fault, moment, reason and where; of a
signal, signal.

`--try N` records under --random with the seeds S to S + N - 1. It groups the recordings by what was written to the console and
how they ended, prints of each group how many they are and the first seed, and keeps that one's log as NAME.seedS.log. The status
is 0 where all are one group, 1 where there are several. `arn diff LOG LOG` then finds the first call at which two of them differ.

examples:
  echo 'maximilianus battery9' | tools/arn record examples/leak/hello.img
  echo 'maximilianus battery9' | tools/arn record --try 5 examples/leak/hello.img"""


def add_words(parser):
    parser.add_argument("-o", dest="log", metavar="LOG", help="the log; NAME.log, NAME.1.log .. where it isn't given")
    parser.add_argument("--file", action="append", default=[], metavar="NAME=PATH", help="the machine has this file")
    parser.add_argument("--env", action="append", default=[], metavar="NAME=VALUE", help="a variable of the environment")
    add_chooser(parser)
    parser.add_argument("--try", dest="tries", metavar="N", help="records N times in random orders, and tells what differs")
    parser.add_argument("--by-process", action="store_true", help="with --try: compares what each process wrote, in any order")
    parser.add_argument("programs", nargs="+", metavar="PROGRAM", help="an ELF file, an image, or sources in C")


def add_chooser(parser):
    """The words about how a program is run, which `arn resume` has as well."""
    order = parser.add_mutually_exclusive_group()
    order.add_argument("--round", metavar="N", help="processes run in turn, each for at most N instructions; N is 1,000 else")
    order.add_argument("--random", action="store_true", help="processes run in random order")
    parser.add_argument("--seed", metavar="S", help="the seed of what is random: the order, and what device 1 gives; 0 else")
    parser.add_argument("--most", metavar="N", help="ends the recording after N instructions")
    parser.add_argument("--json", action="store_true", help="how it ended is one object, on the last line of standard error")
    parser.add_argument("--program", dest="arnold", metavar="PROGRAM", help="the program arnold")


def number(word, option, least, most):
    """The number of an option, or None where that isn't given."""
    if word is None:
        return None
    if not (word.isascii() and word.isdecimal() and least <= int(word) <= most):
        raise Fault(f"{option} {texts.safe(word)}: it is a number from {least:,} to {most:,}")
    return int(word)


def chooser(options):
    """The words of `arnold` that say how processes are chosen. --most becomes a number."""
    turn, seed = number(options.round, "--round", 1, MOST_ROUND), number(options.seed, "--seed", 0, MOST_SEED)
    options.most = number(options.most, "--most", 1, MOST_SEED)
    words = [] if turn is None else ["--round", str(turn)]
    words += [] if seed is None else ["--seed", str(seed)]
    return words + ["--random"] * options.random


def named_files(given, program):
    """The files that --file gives, and of those that are ELF files what is kept: the name, the image, the ELF file."""
    files, kept = {}, []
    for word in given:
        name, equals, path = word.partition("=")
        if not equals:
            raise Fault(f"--file {texts.safe(word)}: it is NAME=PATH")
        programs.check_name(name)
        if name in files or name == program.name:
            raise Fault(f"--file {name}: {'that is the program' if name == program.name else 'it is given twice'}")
        data, elf = file_bytes(name, path)
        files[name] = limited(data, f"--file {name}")
        kept += [(name, data, elf)] if elf else []
    return [launcher.GivenFile(name, data) for name, data in files.items()], kept


def file_bytes(name, path):
    """The bytes of a file for the machine, and the ELF file that they are the image of, or None."""
    try:
        with open(path, "rb") as file:
            data = file.read(programs.MOST_READ)
    except OSError as error:
        raise Fault(f"{texts.safe(path)}: {error.strerror}") from None
    if data.startswith(programs.ELF):
        try:
            return programs.image_of(data, path), data
        except Fault as fault:
            say(f"arn: --file {name} is given as it is, and not as a program: {fault}")
    return data, None


def limited(data, what):
    """Refuses what is longer than a file of the machine."""
    if len(data) > launcher.MOST_FILE:
        raise Fault(f"{what} has more than {launcher.MOST_FILE:,} bytes: a file of the machine holds no more; record it in parts")
    return data


def check_variables(variables):
    """Refuses what is no variable of an environment."""
    for word in variables:
        if "=" not in word[1:]:
            raise Fault(f"--env {texts.safe(word)}: it is NAME=VALUE")


def terminal():
    """The descriptor of a terminal that is the input, or None."""
    return sys.stdin.fileno() if sys.stdin.isatty() else None


def read_input():
    """The bytes of standard input."""
    try:
        return limited(sys.stdin.buffer.read(launcher.MOST_FILE + 1), "the input")
    except OSError as error:
        raise Fault(f"standard input: {error.strerror}") from None


def paths_of(log):
    """What a recording of a log leaves."""
    return log, symbols.folder_of(log)


def refuse_there(log):
    """Refuses the name of a log that is there already, or whose ELF files are."""
    for path in paths_of(log):
        if os.path.lexists(path):
            raise Fault(f"{texts.safe(path)}: it is there already")


def new_log(named, name):
    """The path of a log that isn't there, which is made, empty, for its owner alone."""
    number = 0
    while True:
        log = named or (f"{name}.log" if number == 0 else f"{name}.{number}.log")
        try:
            refuse_there(log)
            os.close(os.open(log, os.O_CREAT | os.O_EXCL | os.O_WRONLY, 0o600))
            return log
        except (Fault, FileExistsError):
            if named:
                raise
        except OSError as error:
            raise Fault(f"{texts.safe(log)}: {error.strerror}") from None
        number += 1


def drop_if_empty(log):
    """Takes a log away in which nothing was recorded."""
    if os.path.getsize(log) == 0:
        drop(log)


def drop(log):
    """Takes a log away, and its ELF files."""
    os.unlink(log)
    shutil.rmtree(symbols.folder_of(log), ignore_errors=True)


@contextlib.contextmanager
def locked(log):
    """Holds the lock that tells a recording from a question."""
    path = logs.lock_of(log)
    with open(path, "wb", opener=lambda name, flags: os.open(name, flags | os.O_NOFOLLOW, 0o600)) as file:
        try:
            fcntl.flock(file, fcntl.LOCK_EX | fcntl.LOCK_NB)
        except BlockingIOError:
            raise Fault(f"{texts.safe(log)}: it is being recorded") from None
        try:
            yield
        finally:
            os.unlink(path)


class Prepared(NamedTuple):
    """What a recording is made of: the program `arnold` and its words, the session's lines up to the boot, the recorded program's
    name, its ELF files, and the descriptor of a terminal that is typed on, or None."""
    arnold: str
    words: list
    lines: list
    name: str
    kept: list
    typed: int | None


def session_lines(options, program, files, given):
    """The lines of the session up to the boot. `given` is the input, or None where it is typed."""
    files = [launcher.GivenFile(program.name, program.image), *files]
    if given is not None:
        files.append(launcher.GivenFile(launcher.INPUT, given))
    words = [os.fsencode(word) for word in [program.name, *options.words]]
    block = launcher.argument_block(words, [os.fsencode(word) for word in options.env], given is not None)
    return launcher.lines(program.name, files, block, given is not None)


def prepared(options):
    """All that the words ask for, before a log is made."""
    words, arnold = chooser(options), find_program(options.arnold)
    check_variables(options.env)
    program = programs.read_program(options.programs)
    files, kept = named_files(options.file, program)
    if program.elf is not None:
        kept.insert(0, (program.name, program.image, program.elf))
    typed = terminal()
    lines = session_lines(options, program, files, None if typed is not None else read_input())
    return Prepared(arnold, words, lines, program.name, kept, typed)


def made_as(wanted, options, log, words=(), collected=None):
    """Makes a recording in a log that is there and empty, and gives how it ended."""
    try:
        if wanted.kept:
            symbols.keep(log, wanted.kept)
        with locked(log):
            all_words = [*wanted.words, *words]
            return recording.conduct(wanted.arnold, log, all_words, options, wanted.lines, wanted.name, wanted.typed, collected)
    finally:
        drop_if_empty(log)


def made(options):
    """Makes the recording that the words ask for, and gives how it ended."""
    if options.log is not None:
        refuse_there(options.log)
    wanted = prepared(options)
    return made_as(wanted, options, new_log(options.log, wanted.name))


def run(options):
    try:
        if options.tries is not None:
            return trying.run(options)
        if options.by_process:
            raise Fault("--by-process goes with --try")
        return endings.report(made(options), options.json)
    except Fault as fault:
        if not options.json:
            raise
        status = FAILED if fault.status is None else fault.status
        return endings.report(endings.failed(str(fault))._replace(status=status), True)
