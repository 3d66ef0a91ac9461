"""arn lint: what is wrong with the lines of a session."""
import re
import sys

from arnlib import blocks, texts
from arnlib.faults import FOUND, NOTHING, Fault

DESCRIPTION = """Says of the lines of a session why one is `no line`, and of its blocks why one is `no asm`: at which line, which
word, and what was expected. It doesn't run them: what is refused because of what came before, such as a file of a name that is
taken, isn't looked for. The status is 1 where something is wrong. SESSION `-` is standard input."""
EXAMPLE = """example:
  tools/arn lint examples/leak/leak.session"""

LONGEST, MOST, MOST_RUN, MOST_GENERATED = 1_048_576, 2 ** 64, 1_000_000_000, 32
LINKAGES = "copy, data or index"


def is_number(word):
    """The value of a number of a session, or None where the word is none."""
    if re.fullmatch(r"0|[1-9][0-9]*|0x[0-9a-fA-F]{1,16}", word) and int(word, 0) < MOST:
        return int(word, 0)
    return None


def number(word):
    return is_number(word) is not None


def run_number(word):
    return number(word) and is_number(word) <= MOST_RUN


def generated_number(word):
    return number(word) and 1 <= is_number(word) <= MOST_GENERATED


def name(word):
    return re.fullmatch(r"[!-~]{1,64}", word) is not None


def hex_bytes(word):
    return re.fullmatch(r"-|(?:[0-9a-fA-F]{2})+", word) is not None


def linkage(word):
    return word in ("copy", "data", "index")


# What a word of a line may be: what looks at it, and what is expected.
KINDS = {
    "NUMBER": (number, "a number: decimal without leading zeros, or 0x and 1 to 16 hex digits, below 2^64"),
    "RUN": (run_number, "a number, at most 1,000,000,000"),
    "COUNT": (generated_number, "a number from 1 to 32"),
    "NAME": (name, "a name: 1 to 64 characters from ! to ~"),
    "HEX": (hex_bytes, "two hex digits for each byte, or - for no bytes"),
    "LINKAGE": (linkage, LINKAGES),
}
# The lines of a session (docs/SESSION.md). A word in capitals is of a kind, any other one stands as it is.
LINES = [line.split(" ") for line in (
    "file NAME HEX", "asm NAME", "boot NAME", "type HEX", "run RUN", "unplug NUMBER", "gen NUMBER COUNT",
    "back LINKAGE event NUMBER NUMBER NUMBER", "back LINKAGE mem NUMBER NUMBER NUMBER NUMBER",
    "back LINKAGE reg NUMBER NUMBER NUMBER", "back LINKAGE name NUMBER NAME NUMBER NUMBER",
    "forth LINKAGE NUMBER NUMBER NUMBER", "show NUMBER regs NUMBER",
    "show NUMBER mem NUMBER NUMBER NUMBER", "show NUMBER file NAME", "show NUMBER procs", "groups", "events", "verify")]


def add_words(parser):
    parser.add_argument("session", metavar="SESSION")


def fits(word, wanted):
    """Whether a word of a line is what is wanted."""
    return KINDS[wanted][0](word) if wanted in KINDS else word == wanted


def agreed(words, form):
    """How many of the first words are as a form has them."""
    for place, wanted in enumerate(form):
        if place == len(words) or not fits(words[place], wanted):
            return place
    return len(form)


def expected(forms, place):
    """What forms have at a place, in words."""
    found = []
    for form in forms:
        said = "the end of the line" if place == len(form) else KINDS[form[place]][1] if form[place] in KINDS else form[place]
        if said not in found:
            found.append(said)
    return " or ".join(found)


def line_fault(line):
    """What is wrong with a line, or None."""
    if len(line) > LONGEST:
        return f"it has {len(line):,} bytes, and a line has at most {LONGEST:,}"
    text = line.decode("latin-1")
    words = text.split(" ")
    if any(words == form[:len(words)] == form or agreed(words, form) == len(words) == len(form) for form in LINES):
        return None
    if text.endswith("\r"):
        return "it ends with a CR, which is a part of the line"
    if "" in words:
        return "there is one space between words, and none before the first or after the last"
    best = max(agreed(words, form) for form in LINES)
    if best == 0:
        return f"{texts.quoted(words[0].encode('latin-1'))} begins no line: {', '.join(dict.fromkeys(form[0] for form in LINES))}"
    said = expected([form for form in LINES if agreed(words, form) == best], best)
    if best == len(words):
        return f"the line ends too early: {said} is expected"
    return f"word {best + 1}, {texts.quoted(words[best].encode('latin-1')[:40])}: {said} is expected"


def faults(data):
    """Of each faulty line its number and what is wrong, in order."""
    lines = data.split(b"\n")
    if lines[-1] == b"":
        lines.pop()
    place = 0
    while place < len(lines):
        line, place = lines[place], place + 1
        if line == b"" or line.startswith(b"#"):
            continue
        fault = line_fault(line)
        if fault:
            yield place, fault
        elif line.startswith(b"asm "):
            end = next((at for at in range(place, len(lines)) if lines[at] == b"end"), None)
            found = blocks.fault(lines[place:end])
            if end is None and (found is None or found[0] > len(lines) - place):
                found = len(lines) - place + 1, "the block has no end: a line `end` is expected"
            if found:
                yield place + found[0], f"line {found[0]} of the block: {found[1]}"
            place = len(lines) if end is None else end + 1


def run(options):
    try:
        if options.session == "-":
            data = sys.stdin.buffer.read()
        else:
            with open(options.session, "rb") as file:
                data = file.read()
    except OSError as error:
        raise Fault(f"{texts.safe(options.session)}: {error.strerror}") from None
    is_faulty = False
    for number_of, fault in faults(data):
        print(f"{texts.safe(options.session)}:{number_of}: {fault}")
        is_faulty = True
    return NOTHING if is_faulty else FOUND
