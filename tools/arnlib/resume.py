"""arn resume: goes on with a recording that was ended."""
import os

import arnold_log
from arnlib import endings, logs, places, record, recording, texts
from arnlib.faults import FAILED, Fault
from arnlib.program import find_program

FAULT = FAILED
DESCRIPTION = """Goes on with a recording that was ended before its program ended: by Ctrl-C, by --most, or by a stop of the
computer. What is told and the status are as those of `arn record`. How processes take turns isn't kept in the log: give --round
or --random again where the recording had it."""
EXAMPLE = """example:
  echo 'maximilianus battery9' | tools/arn record --most 200 examples/leak/hello.img
  tools/arn resume hello.log"""


def add_words(parser):
    parser.add_argument("log", metavar="LOG")
    record.add_chooser(parser)


def name_in(history):
    """The name of the program that was recorded: that of the first file that isn't the launcher's own."""
    names = [event.name for event in history.events if event.kind == "file" and not places.is_own(event.name)]
    return texts.safe(names[0].decode(errors="replace")) if names else "program"


def run(options):
    try:
        return endings.report(made(options), options.json)
    except Fault as fault:
        if not options.json:
            raise
        return endings.report(endings.failed(str(fault)), True)


def made(options):
    """Goes on with the recording, and gives how it ended."""
    words, arnold = record.chooser(options), find_program(options.arnold)
    data = logs.whole_part(logs.contents(options.log))
    try:
        history = arnold_log.history_of(arnold_log.read_records(data))
    except arnold_log.Fault as fault:
        raise Fault(f"{texts.safe(options.log)}: {fault}") from None
    if not any(event.kind == "boot" for event in history.events):
        raise Fault(f"{texts.safe(options.log)}: nothing runs in it yet")
    if not os.access(options.log, os.W_OK):
        raise Fault(f"{texts.safe(options.log)}: it may not be written")
    with record.locked(options.log):
        return recording.conduct(arnold, options.log, words, options, None, name_in(history), record.terminal())
