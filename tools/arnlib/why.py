"""arn why: which input bytes some bytes came from."""
import functools
from typing import NamedTuple

from arnlib import asking, places, sources, symbols, targets, texts, ways
from arnlib.faults import FOUND, NOTHING, Fault, say

DESCRIPTION = """Says which input bytes some bytes came from: those of a text in what the program wrote, those of an event, or
those of memory, of a variable, of a register or of a file at a moment. Each byte is asked by the linkage `copy`; bytes without
a source by `data`, then by `index` (docs/LINEAGE.md). Each answer names the events by which the bytes came, and where in the
program their calls were made. The status is 1 where no byte came from an input."""
EXAMPLE = """FROM and TO are the first and the last byte of an event. TEXT has C's escapes. `--json` prints an object for each run
of bytes whose sources go on together: of, from, to, bytes (of events), hex, text, linkage, sources; of each source name, from, to,
step, bytes, line, hex, text, way.

""" + asking.MADE + """
  tools/arn why hello.log battery9                             where this text in the output came from
  tools/arn why hello.log 10:18-25                             where bytes 18 to 25 of event 10 came from
  tools/arn why hello.log --at 300 --pid 1 --mem 0x102d8+12    where 12 bytes of memory came from
  tools/arn why hello.log --at 300 --pid 1 --reg a0            where a register's eight bytes came from"""


class Answer(NamedTuple):
    """A run of a target's bytes, the linkage that found its sources, and the ways of their ranges, where these are asked."""
    linkage: str
    run: sources.Run
    steps: tuple


def add_words(parser):
    asking.add_log(parser)
    parser.add_argument("target", metavar="TEXT|E:FROM-TO", nargs="?", help="a text, or bytes of an event")
    parser.add_argument("--text", action="store_true", help="the word is a text, also where it looks like bytes of an event")
    parser.add_argument("--all", action="store_true", help="each place of the text, not the last one alone")
    parser.add_argument("--linkage", choices=sources.LINKAGES, help="ask by this linkage alone")
    parser.add_argument("--ways", choices=("yes", "no", "auto"), default="auto",
                        help=f"whether events on the way are told; auto: where at most {ways.MOST_FOLLOWED:,} instructions run")
    parser.add_argument("--at", metavar="MOMENT", type=targets.number, help="what is asked is as it was at this moment")
    parser.add_argument("--pid", metavar="P", type=targets.number, help="of this process")
    parser.add_argument("--mem", metavar="ADDRESS+LEN", help="so many bytes of its memory")
    parser.add_argument("--var", metavar="NAME", help="its global variable of this name")
    parser.add_argument("--reg", metavar="NAME", help="its register: x0 to x31, or a name such as a0")
    parser.add_argument("--file", metavar="NAME:FROM-TO", help="bytes of the file that had this name then")


def chosen(asked, options):
    """What is asked about: targets, and how many places a text has in all."""
    history = asked.history
    if options.at is not None:
        if options.target is not None:
            raise Fault("--at says what is asked: no text beside it")
        variable = functools.partial(asking.variable, asked.programs, history, options.pid, options.at)
        return [targets.at_moment(options, variable)], None
    if any(word is not None for word in (options.pid, options.mem, options.var, options.reg, options.file)):
        raise Fault("--pid, --mem, --var, --reg and --file want --at MOMENT")
    if options.target is None:
        raise Fault("what is asked: a text, E:FROM-TO, or --at with its words?")
    named = None if options.text else targets.in_words(history, options.target)
    if named is not None:
        return [named], None
    wanted = targets.text_bytes(options.target)
    found = targets.matches(places.sinks(history), wanted)
    if not found:
        raise Fault(f"nothing that was written has {texts.quoted(wanted)}", NOTHING)
    taken = found if options.all else found[-1:]
    return [targets.of_place(stretch, at, len(wanted)) for stretch, at in taken], len(found)


def answers_of(asked, target, linkages, follows):
    """The runs of a target's bytes with the linkage that found each, in order; and the bytes that no linkage found."""
    answers, left = [], set(range(target.length))
    for linkage in linkages:
        if not left:
            break
        found = sources.back(asked.log, asked.inputs, linkage, target.parts)
        for run in sources.runs_of({byte: here for byte, here in found.items() if byte in left}, asked.inputs):
            answers.append(Answer(linkage, run, ways_of(asked, target, linkage, run) if follows else ()))
            left -= set(range(run.first, run.last + 1))
    return sorted(answers, key=lambda one: one.run.first), left


def ways_of(asked, target, linkage, run):
    """The way of each range of a run's sources to where the run is. Bytes of programs have none, since each process has them."""
    made = []
    for one in run.ranges[:sources.MOST_RANGES]:
        if one.stretch.name.startswith("program:"):
            made.append([])
            continue
        wanted = sources.Run(run.first, run.last, (one,)).wanted()
        made.append(asked.ways.to(linkage, asked.end_of(target, run.first, run.last), wanted))
    return tuple(made)


def follows_ways(asked, options, found):
    """Whether ways are asked for. What takes long is said first."""
    ends = [asked.end_of(target, 0, target.length - 1) for target in found]
    follows = options.ways != "no" and None not in ends
    direct = sum(asked.history.events[piece.event].moment for target in found for piece in target.pieces) + (options.at or 0)
    cost = sum(asked.ways.cost(end) for end in ends) if follows else 0
    if options.ways == "auto" and cost > ways.MOST_FOLLOWED:
        say(f"arn: without the events on the way, for which {cost:,} instructions may run again (--ways yes)")
        follows, cost = False, 0
    asking.say_how_long(direct + cost)
    return follows


def told(asked, target, answer):
    """An answer in lines."""
    run, how = answer.run, "" if answer.linkage == "copy" else f", by {answer.linkage}"
    for index, one in enumerate(run.ranges[:sources.MOST_RANGES]):
        steps = answer.steps[index] if answer.steps else ()
        way = f", by {ways.told(steps, asked.place_of)}" if steps else ""
        said = f"{sources.told(run, one)}{how}{way}"
        yield f"{target.called(run.first, run.last)} <- {said}" if index == 0 else f"    and {said}"
    if len(run.ranges) > sources.MOST_RANGES:
        yield f"    and {len(run.ranges) - sources.MOST_RANGES} more ranges (--json: all)"


def print_answer(asked, target, answers, left):
    """Prints what was found of a target for people."""
    lines = [(answer.run.first, list(told(asked, target, answer))) for answer in answers]
    lines += [(first, [f"{target.called(first, last)} <- from no input"]) for first, last in sources.spans(left)]
    for _, some in sorted(lines, key=lambda one: one[0]):
        print("\n".join(some))


def as_step(asked, step):
    """A step of a way for a JSON object."""
    events, several = step
    return {"one_of": several, "events": [{"event": event, "place": asked.place_of(event)} for event in events]}


def print_objects(asked, target, answers, left):
    """Prints the same as objects."""
    for answer in answers:
        ranges = [{**asking.as_place(one.stretch, *one.span(answer.run.length)), "step": one.step} for one in answer.run.ranges]
        for made, steps in zip(ranges, answer.steps):
            made["way"] = [as_step(asked, step) for step in steps]
        asking.print_object(**bytes_of(target, answer.run.first, answer.run.last), linkage=answer.linkage, sources=ranges)
    for first, last in sources.spans(left):
        asking.print_object(**bytes_of(target, first, last), sources=[])


def bytes_of(target, first, last):
    """What some of a target's bytes are, for a JSON object."""
    made = {"of": target.called(first, last), "from": first, "to": last, "bytes": asking.as_bytes(target.within(first, last))}
    return {**made, **(texts.as_json(target.data[first:last + 1]) if target.data is not None else {})}


class Asked:
    """All that a question about a log needs."""

    def __init__(self, log, path, options):
        self.log, self.history, self.at, self.pid = log, log.history(), options.at, options.pid
        self.inputs, self.programs = places.Inputs(self.history), symbols.Programs(path, self.history)
        self.ways = ways.Ways(log, self.history, self.inputs, places.launch(self.history))

    def end_of(self, target, first, last):
        """Where the ways to some bytes of a target end: in the last event of them, or in the process that is asked about; None for a
        file."""
        pieces = target.within(first, last)
        if pieces:
            return self.history.events[pieces[-1].event]
        if self.pid is None:
            return None
        return ways.Point(asking.event_after(self.history, self.at), self.history.groups.get(self.pid))

    def place_of(self, event):
        """Where an event's call was made."""
        return self.programs.place_of(self.log, event)


def run(options):
    with asking.opened(options) as log:
        asked = Asked(log, options.log, options)
        found, count = chosen(asked, options)
        if count is not None and count > 1 and not options.all and not options.json:
            print(f"the last of {count:,} places (--all: each)")
        linkages = (options.linkage,) if options.linkage else sources.LINKAGES
        follows, has_source = follows_ways(asked, options, found), False
        print_found = print_objects if options.json else print_answer
        for target in found:
            answers, left = answers_of(asked, target, linkages, follows)
            has_source = has_source or bool(answers)
            print_found(asked, target, answers, left)
    return FOUND if has_source else NOTHING
