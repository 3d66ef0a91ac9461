"""arn events: what happened, as strace does."""
import history_calls
from arnlib import asking, calls, places, symbols, targets, texts
from arnlib.faults import FOUND, NOTHING, say

DESCRIPTION = """Lists what happened: calls with their arguments and results, signals, ends. Arguments aren't in the log: they are
asked for, as long as at most 200,000,000 instructions run again for it, or with --arguments."""
EXAMPLE = """Each line has the event's number, how many instructions had run, the process, and what it did.

""" + asking.MADE + """
  tools/arn events hello.log                    all that happened
  tools/arn events hello.log --pid 1 --calls    what process 1 did, with the places of its calls"""


def add_words(parser):
    asking.add_log(parser)
    parser.add_argument("--pid", metavar="P", type=targets.number, help="of this process alone")
    parser.add_argument("--calls", action="store_true", help="with each call the place where it was made, and the calls above")
    parser.add_argument("--arguments", choices=("yes", "no", "auto"), default="auto", help="whether arguments are asked for")
    parser.add_argument("--launch", action="store_true", help="also what came before the program's start")


def asked_registers(log, history, options):
    """The registers of calls, where they are asked for."""
    cost = history_calls.cost_of_arguments(history)
    if options.arguments == "no" or options.arguments == "auto" and cost > calls.MOST_FOR_ARGUMENTS:
        if options.arguments == "auto":
            say(f"arn: without arguments, for which {cost:,} instructions would run again (--arguments yes)")
        return {}
    registers = history_calls.ask_arguments(history, asking.Answers(log))
    history_calls.ask_memory(history, asking.Answers(log), registers)
    return registers


def print_event(options, event, registers, where):
    """Prints an event."""
    line = calls.line(event, registers.get(event.number))
    if options.json:
        parts = {} if event.data is None else texts.as_json(event.data)
        asking.print_object(event=event.number, moment=event.moment, process=event.process, what=event.what, result=event.result,
                            length=event.length, line=line, **({"where": where} if where else {}), **parts)
    else:
        print(f"{event.number:>6} {event.moment:>10} {line}" + (f"\n{'':18}{where}" if where else ""))


def run(options):
    with asking.opened(options) as log:
        history = log.history()
        registers, programs = asked_registers(log, history, options), symbols.Programs(options.log, history)
        launched, is_found = -1 if options.launch else places.launch(history), False
        for event in history.events:
            if event.number > launched and options.pid in (None, event.process):
                print_event(options, event, registers, programs.called_at(log, event) if options.calls else None)
                is_found = True
    return FOUND if is_found else NOTHING
