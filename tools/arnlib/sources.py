"""Sources of bytes: what `back` answers, as runs, and in words."""
from typing import NamedTuple

from arnlib import places, texts
from arnlib.faults import Fault

LINKAGES = ("copy", "data", "index")
MOST_RANGE = 65_536
# How much of a line is shown on each side of what is meant, and how much of what is meant at each end.
AROUND, MOST_SHOWN = 24, 60
# How many ranges are told of bytes that have several.
MOST_RANGES = 20


class Range(NamedTuple):
    """Source bytes of a run's first byte: where they came in, the first of them, how many; and the step to those of the next byte,
    which is 1, 0 or -1."""
    stretch: places.Stretch
    first: int
    count: int
    step: int

    def span(self, length):
        """The first and the last of the source bytes of a run of so many bytes."""
        moved = self.step * (length - 1)
        return self.first + min(moved, 0), self.first + max(moved, 0) + self.count - 1


class Run(NamedTuple):
    """Bytes whose sources go on together: the first and the last byte that was asked for, and ranges of source bytes."""
    first: int
    last: int
    ranges: tuple

    @property
    def length(self):
        return self.last - self.first + 1

    def wanted(self):
        """All its source bytes: of each the word of the stretch, and its place."""
        spans_of = [(one.stretch.name, *one.span(self.length)) for one in self.ranges]
        return {(word, at) for word, first, last in spans_of for at in range(first, last + 1)}


def ranges_of(found):
    """Source bytes of one byte as ranges: word, first byte, how many."""
    ranges = []
    for word, at in sorted(set(found)):
        if ranges and ranges[-1][0] == word and ranges[-1][1] + ranges[-1][2] == at:
            ranges[-1][2] += 1
        else:
            ranges.append([word, at, 1])
    return [tuple(one) for one in ranges]


def step_between(before, after):
    """With which step two bytes' ranges go on, or None."""
    if [(word, count) for word, _, count in before] != [(word, count) for word, _, count in after]:
        return None
    steps = {later[1] - earlier[1] for earlier, later in zip(before, after)}
    if len(steps) == 1 and (step := steps.pop()) in (-1, 0, 1):
        return step
    return None


def runs_of(found, inputs):
    """The runs of bytes, by what each byte's ranges are."""
    runs, group, step = [], [], None
    for byte in sorted(found):
        ranges = ranges_of(found[byte])
        if group and byte == group[-1][0] + 1 and (next_step := step_between(group[-1][1], ranges)) is not None \
                and step in (None, next_step):
            step = next_step
        elif group:
            runs.append(run_from(group, step, inputs))
            group, step = [], None
        group.append((byte, ranges))
    if group:
        runs.append(run_from(group, step, inputs))
    return runs


def run_from(group, step, inputs):
    """The run of some bytes with their ranges."""
    ranges = tuple(Range(inputs.stretches[word], at, count, step or 0) for word, at, count in group[0][1])
    return Run(group[0][0], group[-1][0], ranges)


def pairs_in(answer, word):
    """The pairs of an answer by the byte that was asked for. What isn't an answer is a Fault."""
    found = {}
    for words in answer:
        if words[0] == "pair":
            found.setdefault(int(words[3]), []).append((int(words[1]), int(words[2])))
        elif words[0] == word:
            return found
        else:
            raise Fault(refusal(words))
    raise Fault("the program gave no answer")


def refusal(words):
    """Why a question has no answer."""
    if words[0] == "damaged":
        return f"the log isn't that of a run: at event {words[1]} it says {words[2]} where the program finds {words[3]}"
    if words == ["no", "point"]:
        return "there are no such bytes"
    return f"the program answers {' '.join(words)}"


def pieces(length):
    """The pieces of a question, since a line asks for at most so many bytes: of each its first byte, and how many."""
    for first in range(0, length, MOST_RANGE):
        yield first, min(MOST_RANGE, length - first)


def back(log, inputs, linkage, parts):
    """The sources of bytes by one linkage: of each byte that has some, the words of stretches and the places in them.

    The bytes are those of parts, one behind the other. A part is how many they are, and the words of a line's target for so many of
    them from a place on. What the launcher made is no source.
    """
    found, begin = {}, 0
    for length, words in parts:
        for first, count in pieces(length):
            for byte, pairs in pairs_in(log.ask(f"back {linkage} {words(first, count)}"), "back").items():
                here = [(place[0].name, at + place[1]) for event, at in pairs if (place := inputs.find(event, at)) is not None]
                if here:
                    found[begin + first + byte] = here
        begin += length
    return found


def cut(data):
    """Bytes in words, without their middle where they are many."""
    if len(data) <= 2 * MOST_SHOWN:
        return texts.shown(data)
    return f"{texts.shown(data[:MOST_SHOWN])} .. {texts.shown(data[-MOST_SHOWN:])}"


def in_line(data, first, last):
    """The line of some bytes with these between brackets, cut on both sides."""
    _, begin, end = places.line_of(data, first)
    end = max(end, last + 1)
    left, right = max(begin, first - AROUND), min(end, last + 1 + AROUND)
    before, after = ".." if left > begin else "", ".." if right < end else ""
    return f'"{before}{texts.shown(data[left:first])}[{cut(data[first:last + 1])}]{texts.shown(data[last + 1:right])}{after}"'


def has_lines(stretch):
    """Whether a stretch is a text, of which a line has a number."""
    return stretch.name.startswith(("input", "file:", "console")) and b"\0" not in stretch.data


def range_told(stretch, first, last, is_backwards=False):
    """A range of an input in words: what it is called, its places, its line."""
    data, called = stretch.data, places.called(stretch.name)
    said = f"{called} {last}-{first}, backwards" if is_backwards else f"{called} {texts.span(first, last)}"
    if has_lines(stretch):
        return f"{said}, line {places.line_of(data, first)[0]} {in_line(data, first, last)}"
    if called.startswith(("argument", "variable")):
        return f"{said} {in_line(data, first, last)}"
    return f'{said} "{cut(data[first:last + 1])}"'


def told(run, one):
    """A range of a run's source bytes in words."""
    return range_told(one.stretch, *one.span(run.length), is_backwards=one.step == -1 and run.length > 1)


def spans(numbers):
    """Numbers as the first and the last of each stretch of them."""
    made = []
    for number in sorted(numbers):
        if made and made[-1][1] == number - 1:
            made[-1][1] = number
        else:
            made.append([number, number])
    return made
