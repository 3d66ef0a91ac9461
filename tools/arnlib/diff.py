"""arn diff: where two recordings differ."""
from itertools import zip_longest

from arnlib import asking, calls, logs, places, texts
from arnlib.faults import FOUND, NOTHING

DESCRIPTION = """Finds the first call, by process, at which two recordings differ: in its number, its result or its bytes. Where
no process differs, it finds the first place at which the same calls came in another order. The status is 1 where they differ."""
EXAMPLE = """example:
  echo 'ann opensesame' | tools/arn record -o one.log examples/leak/hello.img
  echo 'eve opensesame' | tools/arn record -o two.log examples/leak/hello.img
  tools/arn diff one.log two.log    where the greeting differs"""


def add_words(parser):
    asking.add_log(parser)
    parser.add_argument("other", metavar="LOG")


def behind_launch(history):
    """The events of processes behind the launch, in order."""
    launched = places.launch(history)
    return [event for event in history.events if event.process is not None and event.number > launched]


def by_process(events):
    """The same events of each process."""
    found = {}
    for event in events:
        found.setdefault(event.process, []).append(event)
    return found


def told(event):
    """What of an event is compared."""
    return event and (event.process, event.what, event.result, event.length, event.data, event.status)


def first_difference(ones, others):
    """The first two of some events that differ, with None for one that isn't there; None where none differ."""
    return next((pair for pair in zip_longest(ones, others) if told(pair[0]) != told(pair[1])), None)


def differences(ones, others):
    """Of each process that differs, or of the order of all, what differs and the two events, in order of moments."""
    all_ones, all_others = by_process(ones), by_process(others)
    found = [(process, first_difference(all_ones.get(process, []), all_others.get(process, [])))
             for process in sorted(set(all_ones) | set(all_others))]
    found = [(process, pair) for process, pair in found if pair]
    if not found and (pair := first_difference(ones, others)):
        return [(None, pair)]
    return sorted(found, key=lambda one: min(event.moment for event in one[1] if event))


def line(event):
    return f"{calls.line(event, None)} (event {event.number}, moment {event.moment})" if event else "nothing more"


def print_difference(options, process, pair):
    """Prints what differs."""
    if options.json:
        asking.print_object(process=process, events=[event.number if event else None for event in pair])
        return
    print("the same calls of each process, in another order:" if process is None else f"process {process}:")
    for log, event in zip((options.log, options.other), pair):
        print(f"  {texts.safe(log)}: {line(event)}")


def run(options):
    with asking.opened(options) as log:
        ones = behind_launch(log.history())
    with logs.AskedLog(options.other, options.program) as other_log:
        other_log.say_what_is_missing()
        others = behind_launch(other_log.history())
    found = differences(ones, others)
    for process, pair in found:
        print_difference(options, process, pair)
    return NOTHING if found else FOUND
