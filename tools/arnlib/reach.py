"""arn reach: which outputs some input bytes reached."""
from typing import NamedTuple

from arnlib import asking, places, sources, targets, texts
from arnlib.faults import FOUND, NOTHING, UNASKED, Fault

DESCRIPTION = """Says which outputs some bytes of an input reached: the console, files, devices. The bytes are those of a text in
what came in (each place of it), or bytes of an event. The linkage says which instructions pass bytes on (docs/LINEAGE.md): what
a program decides by a byte isn't followed. The status is 1 where they reached nothing."""
EXAMPLE = asking.MADE + """
  tools/arn reach hello.log battery9    which outputs these bytes of the input reached"""

# Ranges of one event that are nearer to each other than this are asked for by one line.
NEAR = 4096


class Flow(NamedTuple):
    """Bytes of an output that bytes of an input reached: of both the stretch; the first and the last byte; spans of the input."""
    source: places.Stretch
    spans: list
    sink: places.Stretch
    first: int
    last: int


class Wanted(NamedTuple):
    """Bytes of an input that are asked about: the stretch, and the spans in it."""
    stretch: places.Stretch
    spans: list

    def asked(self):
        """What lines ask for: of each the event, the first byte, how many, how far they are from their places in the stretch."""
        made = []
        for first, last in self.spans:
            at = first
            for piece in self.stretch.ranges(first, last - first + 1):
                offset, end = at - piece.first, piece.first + piece.length
                is_near = made and made[-1][0] == piece.event and piece.first < made[-1][2] + NEAR
                if is_near and end - made[-1][1] <= sources.MOST_RANGE:
                    made[-1][2] = max(made[-1][2], end)
                else:
                    made += [[piece.event, piece.first + some, piece.first + some + count, offset]
                             for some, count in sources.pieces(piece.length)]
                at += piece.length
        return [(event, first, end - first, offset) for event, first, end, offset in made]


def add_words(parser):
    asking.add_log(parser)
    parser.add_argument("target", metavar="TEXT|E:FROM-TO", help="a text with C's escapes, or bytes of an event")
    parser.add_argument("--text", action="store_true", help="the word is a text, also where it looks like bytes of an event")
    parser.add_argument("--linkage", choices=sources.LINKAGES, default="copy", help="copy where it isn't given")


def wanted_by(history, word, is_text, nothing):
    """The bytes of inputs that a word names, by their stretches. `nothing` is the status where there are none."""
    inputs = places.Inputs(history)
    target = None if is_text else targets.in_words(history, word)
    if target is not None:
        piece = target.pieces[0]
        ends = [inputs.find(piece.event, at) for at in (piece.first, piece.first + piece.length - 1)]
        if None in ends or ends[0][0] is not ends[1][0]:
            raise Fault(f"{target.called(0, target.length - 1)}: these bytes didn't come in", UNASKED)
        stretch, offset = ends[0]
        return [Wanted(stretch, [(piece.first + offset, piece.first + offset + piece.length - 1)])]
    text = targets.text_bytes(word)
    found = {}
    for stretch, at in targets.matches(inputs.given(), text):
        found.setdefault(stretch.name, (stretch, set()))[1].update(range(at, at + len(text)))
    if not found:
        raise Fault(f"nothing that came in has {texts.quoted(text)}", nothing)
    return [Wanted(stretch, sources.spans(numbers)) for stretch, numbers in found.values()]


def reached_by(log, linkage, wanted):
    """The output bytes that bytes of an input reach: of each, an event and a byte of it, the bytes of the input."""
    reached, numbers = {}, {at for first, last in wanted.spans for at in range(first, last + 1)}
    for event, first, count, offset in wanted.asked():
        for byte, pairs in sources.pairs_in(log.ask(f"forth {linkage} {event} {first} {count}"), "forth").items():
            if first + byte + offset in numbers:
                for place in pairs:
                    reached.setdefault(place, []).append(first + byte + offset)
    return reached


def flows(log, history, linkage, wanted):
    """The flows of bytes of an input, in the order of sinks and of their bytes."""
    reached = reached_by(log, linkage, wanted)
    for sink in places.writes(history).values():
        came = {place: reached[event, first + place - begin]
                for begin, (event, first, count) in zip(sink.begins, sink.pieces)
                for place in range(begin, begin + count) if (event, first + place - begin) in reached}
        for first, last in sources.spans(came):
            given = {byte for place in range(first, last + 1) for byte in came[place]}
            yield Flow(wanted.stretch, sources.spans(given), sink, first, last)


def print_flow(options, flow):
    """Prints a flow."""
    pieces = flow.sink.ranges(flow.first, flow.last - flow.first + 1)
    if options.json:
        asking.print_object(sources=[asking.as_place(flow.source, first, last) for first, last in flow.spans],
                            sink=asking.as_place(flow.sink, flow.first, flow.last), linkage=options.linkage)
        return
    of = targets.of_pieces(pieces, None).called(0, flow.last - flow.first)
    line = sources.in_line(flow.sink.data, flow.first, flow.last)
    print(f"{sources.range_told(flow.source, *flow.spans[0])} -> {places.called(flow.sink.name)}, {of} {line}")
    for first, last in flow.spans[1:sources.MOST_RANGES]:
        print(f"    and {sources.range_told(flow.source, first, last)}")
    if len(flow.spans) > sources.MOST_RANGES:
        print(f"    and {len(flow.spans) - sources.MOST_RANGES:,} more ranges (--json: all)")


def run(options):
    is_found = False
    with asking.opened(options) as log:
        history = log.history()
        found = wanted_by(history, options.target, options.text, NOTHING)
        asking.say_how_long(history.total * sum(len(wanted.asked()) for wanted in found))
        for wanted in found:
            for flow in flows(log, history, options.linkage, wanted):
                print_flow(options, flow)
                is_found = True
    if not is_found and not options.json:
        print(f"no output, by {options.linkage}; branches aren't followed")
    return FOUND if is_found else NOTHING
