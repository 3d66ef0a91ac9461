"""arn hex: hex of texts, and texts of hex."""
import sys

from arnlib import texts
from arnlib.faults import FOUND, Fault

DESCRIPTION = "Prints the hex of a text with C's escapes, for a line of a session; or with --text the text of such hex."
EXAMPLE = """example:
  tools/arn hex 'ann opensesame\\n'"""


def add_words(parser):
    parser.add_argument("word", metavar="TEXT", nargs="?", help="standard input where it isn't given")
    parser.add_argument("--text", action="store_true", help="the word is hex, and its text is printed")


def run(options):
    if options.text:
        word = options.word if options.word is not None else sys.stdin.read().strip()
        try:
            print(texts.shown(texts.bytes_of(word)))
        except ValueError:
            raise Fault("this is not hex: two digits for each byte, or - for no bytes") from None
        return FOUND
    try:
        data = texts.bytes_in(options.word) if options.word is not None else sys.stdin.buffer.read()
    except ValueError as error:
        raise Fault(str(error)) from None
    print(texts.hex_of(data))
    return FOUND
