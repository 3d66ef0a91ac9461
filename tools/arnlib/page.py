"""arn page: one page of a log for a browser."""
import argparse
import importlib.machinery
import importlib.util
import os
import sys

import arnold_log
import history_calls
import history_data
from arnlib import asking, places, symbols
from arnlib.faults import FOUND, Fault
from arnlib.program import HERE

DESCRIPTION = """Prints one page of a log for a browser: its events as a timeline, what groups of processes exchanged, and outputs
with the input bytes that they came from (tools/README.md). The page opens from disk, and loads nothing."""
EXAMPLE = asking.MADE + """
  tools/arn page hello.log > hello.html"""


def add_words(parser):
    asking.add_log(parser, has_json=False)
    parser.add_argument("--linkage", choices=("copy", "data", "index"), default="copy", help="copy where it isn't given")
    parser.add_argument("--outputs", metavar="N,N,..", type=numbers, help="outputs whose sources are asked for, by event number")
    parser.add_argument("--most", metavar="N", type=count, default=100, help="else the last N outputs; 100 where it isn't given")
    parser.add_argument("--ways", choices=("yes", "no", "auto"), default="auto", help="whether events on the way are asked for")
    parser.add_argument("--arguments", choices=("yes", "no", "auto"), default="auto", help="whether arguments are asked for")
    parser.add_argument("--bytes", metavar="N", type=count, default=256, help="how many bytes of each event the page has, 256")


def count(word):
    """A number of the words."""
    if not word.isdecimal():
        raise argparse.ArgumentTypeError(f"{word!r} is no number")
    return int(word)


def numbers(word):
    """Numbers with commas between them."""
    return {count(one) for one in word.split(",")}


def page_script():
    """The script `history`, which makes the page, as a module."""
    loader = importlib.machinery.SourceFileLoader("history", os.path.join(os.path.dirname(HERE), "history"))
    module = importlib.util.module_from_spec(importlib.util.spec_from_loader("history", loader))
    loader.exec_module(module)
    return module


def outputs_of(history, options):
    """The outputs whose sources are asked for: those that are named, else the last ones that the program wrote."""
    if options.outputs is not None:
        return options.outputs
    written = [event.number for event in history.events if event.is_output and event.number > places.launch(history)]
    return set(written[-options.most:] if options.most else ())


def add_places(log, history, options, data):
    """Adds to each event of the page where its call was made, where arguments of calls are asked for."""
    cost = history_calls.cost_of_arguments(history)
    programs = symbols.Programs(options.log, history)
    if options.arguments == "yes" or options.arguments == "auto" and cost <= history_data.MOST_FOR_ARGUMENTS:
        for event, made in zip(history.events, data["events"]):
            if where := programs.called_at(log, event):
                made["c"] = where


def run(options):
    script = page_script()
    with asking.opened(options) as log:
        history = log.history()
        options.outputs = outputs_of(history, options)
        options.most = options.most if options.outputs else 0
        try:
            data = history_data.page_data(history, asking.Answers(log), options.log, options, script.report)
            add_places(log, history, options, data)
        except arnold_log.Fault as fault:
            raise Fault(str(fault)) from None
    sys.stdout.buffer.write(script.page_of(data).encode("utf-8", "replace"))
    sys.stdout.buffer.flush()
    return FOUND
