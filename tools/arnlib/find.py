"""arn find: a text in what came in and what went out."""
from arnlib import asking, places, sources, targets
from arnlib.faults import FOUND, NOTHING

DESCRIPTION = """Finds a text in what came in (input, files, arguments, variables, devices) and in what was written (console,
files, devices): where it is there, its line, and its bytes in events, as `why` and `reach` take them. The status is 1 where it
is nowhere."""
EXAMPLE = asking.MADE + """
  tools/arn find hello.log battery9    where this text is in the input and in the output"""


def add_words(parser):
    asking.add_log(parser)
    parser.add_argument("text", metavar="TEXT", help="a text with C's escapes")


def print_place(options, way, stretch, at, length):
    """Prints one place of the text."""
    if options.json:
        asking.print_object(way=way, **asking.as_place(stretch, at, at + length - 1))
        return
    where = ", ".join(asking.in_event(piece) for piece in stretch.ranges(at, length))
    print(f"{way:3} {sources.range_told(stretch, at, at + length - 1)}, event {where}")


def run(options):
    wanted, is_found = targets.text_bytes(options.text), False
    with asking.opened(options) as log:
        history = log.history()
    for way, stretches in (("in", places.Inputs(history).given()), ("out", places.sinks(history))):
        for stretch, at in targets.matches(stretches, wanted):
            print_place(options, way, stretch, at, len(wanted))
            is_found = True
    return FOUND if is_found else NOTHING
