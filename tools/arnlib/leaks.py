"""arn leaks: whether an input reached an output, by its status."""
from arnlib import asking, places, reach, sources, targets, texts
from arnlib.faults import UNASKED, Fault

DESCRIPTION = """Says whether an input reached an output, for a test. The status is 0 only if the input is there, the output is
known, the run has ended, and no byte of the one reached the other; 1 with each flow; 2 with a line that says why it can't be
said. Branches aren't followed: what a program decides by a byte isn't a flow of that byte."""
EXAMPLE = """TEXT is looked for in all that came in: input, files, arguments, variables, devices; not in programs.

""" + asking.MADE + """
  tools/arn leaks hello.log --from battery9 --to console     status 1: it was printed
  tools/arn leaks hello.log --from battery9 --to device:0    status 0: it wasn't written there"""
LEAKS, CLEAN = 1, 0
# The devices that the program has (docs/SESSION.md).
DEVICES = ("device:0", "device:1", "device:2")


def add_words(parser):
    asking.add_log(parser)
    parser.add_argument("--from", dest="source", metavar="TEXT|E:FROM-TO", required=True, help="the input")
    parser.add_argument("--to", dest="sink", metavar="SINK", required=True, help="console, file:NAME, device:N or event:E")
    parser.add_argument("--text", action="store_true", help="--from is a text, also where it looks like bytes of an event")
    parser.add_argument("--linkage", choices=sources.LINKAGES, default="data", help="data where it isn't given")
    parser.add_argument("--open", action="store_true", help="also of a run that hasn't ended")


def check_sink(history, word):
    """Refuses a sink that isn't known."""
    if word.startswith("event:"):
        number = targets.number(word.removeprefix("event:"))
        if number >= len(history.events) or not history.events[number].is_output:
            raise Fault(f"event {number} is no output")
        return
    names = {places.file_word({0: name}, 0) for name in places.file_names(history).values() if not places.is_own(name)}
    if word not in ("console", *DEVICES, *names, *places.writes(history)):
        raise Fault(f"there is no sink {texts.safe(word)}: console, file:NAME, device:N or event:E")


def is_to(flow, word):
    """Whether a flow goes to a sink."""
    if word.startswith("event:"):
        pieces = flow.sink.ranges(flow.first, flow.last - flow.first + 1)
        return targets.number(word.removeprefix("event:")) in {piece.event for piece in pieces}
    return flow.sink.name == word


def check_ended(log, history):
    """Refuses a run of which more may come."""
    if log.note:
        raise Fault(f"{texts.safe(log.path)}: {log.note} (--open: say it of what is there)")
    *_, words = log.ask(f"show {history.total} procs")
    if words[0] != "procs":
        raise Fault(sources.refusal(words))
    if words != ["procs", "0"] or not any(event.kind == "boot" for event in history.events):
        raise Fault("the run hasn't ended (--open: say it of what is there)")


def run(options):
    is_leak = False
    with asking.opened(options) as log:
        history = log.history()
        if not options.open:
            check_ended(log, history)
        check_sink(history, options.sink)
        found = reach.wanted_by(history, options.source, options.text, UNASKED)
        asking.say_how_long(history.total * sum(len(wanted.asked()) for wanted in found))
        for wanted in found:
            for flow in reach.flows(log, history, options.linkage, wanted):
                if is_to(flow, options.sink):
                    reach.print_flow(options, flow)
                    is_leak = True
    if not options.json:
        said = "it reaches" if is_leak else "nothing reaches"
        print(f"{said} {texts.safe(options.sink)}, by {options.linkage}; branches aren't followed")
    return LEAKS if is_leak else CLEAN
