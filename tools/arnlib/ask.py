"""arn ask: the program's own lines."""
import re
import sys

from arnlib import asking, texts
from arnlib.faults import FOUND

DESCRIPTION = """Asks the program by its own lines (docs/SESSION.md): those of standard input, or at a prompt with line editing and
history where that is a terminal. Hex in answers is shown as text. Lines that would change the log are refused."""
EXAMPLE = asking.MADE + """
  echo 'back copy event 10 0 27' | tools/arn ask hello.log"""
QUESTIONS = ("back", "forth", "show", "groups", "events", "verify")
HEX = re.compile(r"(out \d+ \d+|mem|file) (-|(?:[0-9a-f]{2})+)")


def add_words(parser):
    asking.add_log(parser, has_json=False)


def readable(words):
    """A line of an answer, with the hex at its end as text."""
    line = " ".join(words)
    match = HEX.fullmatch(line)
    return f"{match[1]} {texts.quoted(texts.bytes_of(match[2]))}" if match else line


def lines():
    """The lines that are asked: of standard input, or of a prompt."""
    if not sys.stdin.isatty():
        yield from (line.rstrip("\n") for line in sys.stdin)
        return
    import readline  # noqa: F401  (it gives `input` line editing and history)
    while True:
        try:
            yield input("> ")
        except EOFError:
            print()
            return


def run(options):
    with asking.opened(options) as log:
        for line in lines():
            word = line.split(" ", 1)[0]
            if not line or word.startswith("#"):
                continue
            if word not in QUESTIONS or not line.isascii():
                print(f"no question: {texts.safe(line)}")
                continue
            for words in log.ask(line):
                print(readable(words), flush=True)
    return FOUND
