"""arn cat: a file as it was at a moment."""
import sys

from arnlib import asking, files, targets, texts
from arnlib.faults import FOUND, Fault

DESCRIPTION = """Prints the bytes of a file as they were at a moment, when so many instructions had run. Without a moment: at the
end."""
EXAMPLE = asking.MADE + """
  tools/arn cat hello.log hello > hello.copy    the file of the program itself"""


def add_words(parser):
    asking.add_log(parser, has_json=False)
    parser.add_argument("name", metavar="NAME")
    parser.add_argument("--at", metavar="MOMENT", type=targets.number)


def run(options):
    if not targets.is_name(options.name):
        raise Fault(f"{texts.safe(options.name)!r} is no name of a file")
    with asking.opened(options) as log:
        data = files.content(log, files.moment_of(log.history(), options), options.name)
    sys.stdout.buffer.write(data)
    sys.stdout.buffer.flush()
    return FOUND
