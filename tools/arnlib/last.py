"""arn last: what last changed a byte of a process's memory."""
from typing import NamedTuple

from arnlib import asking, past, show, symbols, targets
from arnlib.faults import FOUND, NOTHING, Fault

DESCRIPTION = """Finds the moment at which a byte or a global variable of a process last changed, and what changed it: the
instruction, the calls above, the event. It looks at few moments, by halving: an earlier or a later write of the same value may
stand between. The status is 1 where no change is seen."""
EXAMPLE = asking.MADE + """
  tools/arn last hello.log 1 0x102d8             what last changed the byte at this address
  tools/arn last hello.log 1 0x102d8 --at 300    the same, as it was when 300 instructions had run"""


class Change(NamedTuple):
    """A change: the moment after it, the bytes before and after, where it was made, and the event that made it, if one did."""
    moment: int
    before: bytes
    after: bytes
    place: int
    where: str
    event: object


def add_words(parser):
    asking.add_log(parser)
    parser.add_argument("pid", metavar="PID", type=targets.number)
    parser.add_argument("place", metavar="ADDRESS|VARIABLE")
    parser.add_argument("--at", metavar="MOMENT", type=targets.number, help="as it was at this moment; else at its end")


def life(history, pid):
    """The first and the last moment at which a process lived."""
    first, last = None, history.total
    for event in history.events:
        if event.kind == "boot" and pid == 1 or event.what == "fork" and event.result == pid:
            first = event.moment
        if event.process == pid and (event.what in ("exit", "end") or event.kind == "signal" and event.handler == 0):
            last = event.moment - 1
    if first is None:
        raise Fault(f"there was no process {pid}")
    return first, last


def begun(programs, pid, history, first, last):
    """The first moment at which a process ran the program that it ran last."""
    started = (history.events[number] for number, *_ in programs.begun.get(pid, ()))
    return max([first, *(event.moment for event in started if event.moment <= last and event.process == pid)])


def last_change(look, first, last):
    """The last moment seen at which the bytes were others, with the next one as they are; or None where none was seen."""
    now, step, same = look(last), 1, last
    while same > first and look(before := max(last - step, first)) == now:
        same, step = before, 2 * step
    if same == first:
        return None
    differs = before
    while same - differs > 1:
        middle = (differs + same) // 2
        if look(middle) == now:
            same = middle
        else:
            differs = middle
    return differs


def kept(look):
    """The same function, which looks at each moment once."""
    seen = {}

    def once(moment):
        if moment not in seen:
            seen[moment] = look(moment)
        return seen[moment]
    return once


def change_at(log, history, programs, pid, moment, look):
    """The change that the instruction behind a moment made."""
    place, _ = past.Past(log, moment, pid).registers
    event = next((event for event in history.events if event.moment == moment + 1 and event.process == pid), None)
    where = programs.calls(log, pid, asking.event_after(history, moment), moment, place)
    return Change(moment + 1, look(moment), look(moment + 1), place, where, event)


def differing(change):
    """Which bytes changed: the place of the first, and their values before and after."""
    places = [at for at, pair in enumerate(zip(change.before, change.after)) if pair[0] != pair[1]]
    first, last = places[0], places[-1] + 1
    return first, change.before[first:last], change.after[first:last]


def print_change(options, change):
    """Prints a change. Of many bytes those that changed are told."""
    event = change.event
    if options.json:
        asking.print_object(moment=change.moment, before=change.before.hex(), after=change.after.hex(), pc=change.place,
                            where=change.where, event=event.number if event else None)
        return
    first, before, after = differing(change) if len(change.before) > show.MOST_SHOWN else (None, change.before, change.after)
    of = "" if first is None else f"from byte {first} on, "
    where = show.stands(change.place, change.where)
    said = f"moment {change.moment}: {of}{show.value(before)} became {show.value(after)}, {where}"
    print(said + (f", event {event.number} {event.what}" if event else ""))
    print("(found by halving: an earlier or later write of the same value may stand between)")


def run(options):
    with asking.opened(options) as log:
        history = log.history()
        programs = symbols.Programs(options.log, history)
        first, last = life(history, options.pid)
        last = last if options.at is None else min(last, options.at)
        if last < first:
            raise Fault(f"process {options.pid} didn't live at moment {options.at}: it began at moment {first}")
        if options.place[:1].isdigit():
            address, length = targets.number(options.place), 1
        else:
            address, length = asking.variable(programs, history, options.pid, last, options.place)
        first = begun(programs, options.pid, history, first, last)
        look = kept(lambda moment: past.Past(log, moment, options.pid).memory(address, min(length, past.MOST)))
        asking.say_how_long(2 * last)
        differs = last_change(look, first, last)
        if differs is None:
            if not options.json:
                print(f"no change seen from moment {first} to moment {last}: {show.value(look(last))}")
            return NOTHING
        print_change(options, change_at(log, history, programs, options.pid, differs, look))
    return FOUND
