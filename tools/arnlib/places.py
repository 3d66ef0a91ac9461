"""Where bytes are in a history: what came in, and what each sink holds.

A *place* is an event and a byte of it. A sink is the console, a file or a device. What it holds is the bytes of all writes to it
put together, each with its place.
"""
import bisect
import struct
from typing import NamedTuple

from arnlib import launcher, texts
from arnlib.launcher import BLOCK_NAME, BLOCK_TEXTS
from arnlib.programs import ELF, IMAGE

# Names of files that `arn record` makes for itself, and that of the program's input, as records have them.
OWN, INPUT, START = launcher.OWN.encode(), launcher.INPUT.encode(), launcher.START.encode()


class Piece(NamedTuple):
    """Bytes that lie together in a sink or in the input: the event, the first byte of it, and how many."""
    event: int
    first: int
    length: int


class Stretch:
    """Bytes with their places, in order."""

    def __init__(self, name):
        self.name, self.data, self.pieces, self.begins = name, bytearray(), [], []

    def add(self, event, data, first=0):
        """Adds bytes of an event behind the others."""
        if data:
            self.begins.append(len(self.data))
            self.pieces.append(Piece(event, first, len(data)))
            self.data += data

    def place(self, at):
        """The event and the byte of it at a place of the stretch."""
        index = bisect.bisect_right(self.begins, at) - 1
        piece = self.pieces[index]
        return piece.event, piece.first + at - self.begins[index]

    def ranges(self, at, length):
        """The pieces of which a range is made."""
        found = []
        while length:
            index = bisect.bisect_right(self.begins, at) - 1
            piece, offset = self.pieces[index], at - self.begins[index]
            taken = min(length, piece.length - offset)
            found.append(Piece(piece.event, piece.first + offset, taken))
            at, length = at + taken, length - taken
        return found

    def find_all(self, wanted):
        """Where some bytes begin, from the first place on."""
        at = self.data.find(wanted)
        while at >= 0:
            yield at
            at = self.data.find(wanted, at + 1)

    def order(self, at, length):
        """The number of the last event that a range is of."""
        return max(piece.event for piece in self.ranges(at, length))


class Content:
    """A file's bytes as its writes left them. `written` is what was written: of each its begin, its end, the event, and the first
    byte of that."""

    def __init__(self, given=b""):
        self.data, self.written = bytearray(given), []

    def give(self, at, data):
        """Puts bytes that weren't written by the program."""
        end = at + len(data)
        self.data += bytes(max(end - len(self.data), 0))
        self.data[at:end] = data
        first = bisect.bisect_right(self.written, at, key=lambda one: one[1])
        last = bisect.bisect_left(self.written, end, lo=first, key=lambda one: one[0])
        kept = []
        for begin, over, event, place in self.written[first:last]:
            if begin < at:
                kept.append((begin, at, event, place))
            if end < over:
                kept.append((end, over, event, place + end - begin))
        self.written[first:last] = kept

    def put(self, event, at, data):
        """Puts the bytes of a write."""
        if data:
            self.give(at, data)
            bisect.insort(self.written, (at, at + len(data), event, 0))

    def stretch(self, name):
        """Those bytes that were written."""
        made = Stretch(name)
        for begin, end, event, first in self.written:
            made.add(event, self.data[begin:end], first)
        return made


def file_names(history):
    """The names of files by their numbers: those that were given come first, in order."""
    given = [event.name for event in history.events if event.kind == "file"]
    names = dict(enumerate(given))
    names.update({event.file: event.name for event in history.events if event.did == "name" and event.name is not None})
    return names


def file_word(names, number):
    """The word of a file of this number."""
    return "file:" + texts.shown(names.get(number, str(number).encode()))


def sinks(history):
    """What each sink holds. Its name is a word: `console`, `file:NAME`, `device:N`. Files of one name are sinks of their own."""
    names, found, contents, launched = file_names(history), {}, {}, launch(history)
    given = [event for event in history.events if event.kind == "file"]
    for event in history.events:
        if event.did == "put":
            if event.file not in contents:
                contents[event.file] = Content(given[event.file].data if event.file < len(given) else b"")
            if event.number <= launched:
                contents[event.file].give(event.place, event.data)
            else:
                contents[event.file].put(event.number, event.place, event.data)
        elif event.did in ("console", "sent"):
            word = "console" if event.did == "console" else f"device:{event.device}"
            found.setdefault(word, Stretch(word)).add(event.number, event.data)
    return [*found.values(), *(content.stretch(file_word(names, number)) for number, content in contents.items())]


def writes(history):
    """All that was written to each sink, by its word: the bytes of its writes one behind the other."""
    names, found = file_names(history), {}
    for event in history.events[launch(history) + 1:]:
        if event.is_output:
            word = sink_of(names, event)
            found.setdefault(word, Stretch(word)).add(event.number, event.data)
    return found


def sink_of(names, event):
    """The word of the sink that an output went to."""
    if event.did == "console":
        return "console"
    return file_word(names, event.file) if event.did == "put" else f"device:{event.device}"


def called(word):
    """What a sink or an input is called in a sentence."""
    kind, colon, name = word.partition(":")
    return f"{kind} {name}" if colon else word


def is_own(name):
    """Whether a file is one that `arn record` made for itself."""
    return name is not None and name.startswith(OWN)


def launch(history):
    """The number of the event with which the launcher of `arn record` started the program; -1 in a log without a launcher."""
    if not any(event.kind == "boot" and event.name == START for event in history.events):
        return -1
    return next((event.number for event in history.events if event.what == "exec" and event.result == 0), len(history.events))


def wholes(history):
    """Of each piece of a file that the launcher put together, the name of that file."""
    found, whole = {}, None
    for event in history.events[:launch(history) + 1]:
        if event.what == "open" and event.did == "name":
            if is_own(event.name) and event.name != INPUT:
                found[event.name] = whole
            else:
                whole = event.name
    return found


def started_with(image):
    """The words and the variables that the launcher hands over: of each what it is called, its place in the image, its bytes."""
    begin = image.rfind(BLOCK_NAME)
    if begin < 0 or begin + BLOCK_TEXTS > len(image):
        return
    words, variables = struct.unpack_from("<II", image, begin + len(BLOCK_NAME))
    at = begin + BLOCK_TEXTS
    for number, text in enumerate(image[at:].split(b"\0")[:words + variables]):
        if number < words:
            yield f"argument:{number}", at, text
        else:
            yield "variable:" + texts.shown(text.partition(b"=")[0]), at, text
        at += len(text) + 1


def is_program(data):
    """Whether a file is a program of the machine."""
    return data.startswith((IMAGE, ELF))


class Inputs:
    """What came in. `stretches` are by their words: `input`, `file:NAME`, `program:NAME`, `argument:N`, `variable:NAME`,
    `device:N`.

    Typed bytes and the pieces of a recorded input are one input. What the launcher reads beside these is none.
    """

    def __init__(self, history):
        self.stretches, self.of = {}, {}
        whole = wholes(history)
        for event in history.events:
            if event.kind == "type":
                self.add("input", event.number, event.data)
            elif event.did == "reply":
                self.add(f"device:{event.device}", event.number, event.data)
            elif event.kind == "file" and event.name == START and launch(history) >= 0:
                for word, at, text in started_with(event.data):
                    self.add(word, event.number, text, at)
            elif event.kind == "file":
                self.add_file(event, whole.get(event.name, event.name))
        self.add_launched(history)

    def add(self, word, event, data, first=0):
        """Adds bytes of an event to the stretch of a word."""
        stretch = self.stretches.setdefault(word, Stretch(word))
        if data:
            self.of.setdefault(event, []).append((first, first + len(data), stretch, len(stretch.data) - first))
        stretch.add(event, data, first)

    def add_file(self, event, name):
        """Adds a file, or a piece of one."""
        if name == INPUT:
            self.add("input", event.number, event.data)
        elif not is_own(name):
            word = "file:" + texts.shown(name)
            is_first = word not in self.stretches
            self.add("program:" + texts.shown(name) if is_first and is_program(event.data) else word, event.number, event.data)

    def add_launched(self, history):
        """Says of the launcher's writes which bytes of an input they put together."""
        names = file_names(history)
        for event in history.events[:launch(history) + 1]:
            name = names.get(event.file) if event.did == "put" else None
            stretch = name and self.stretches.get("input" if name == INPUT else "file:" + texts.shown(name))
            if stretch:
                self.of[event.number] = [(0, event.length, stretch, event.place)]

    def find(self, event, at):
        """The stretch that a byte of an event is in, and how far its place there is from that in the event; None for none."""
        return next(((stretch, offset) for first, end, stretch, offset in self.of.get(event, ()) if first <= at < end), None)

    def given(self):
        """The stretches in which a text is looked for: all but programs."""
        return [stretch for stretch in self.stretches.values() if not stretch.name.startswith("program:")]


def line_of(data, at):
    """The number of the line in which a byte is, from 1, and where the line begins and ends, without its line feed."""
    begin = data.rfind(b"\n", 0, at) + 1
    end = data.find(b"\n", at)
    return data.count(b"\n", 0, at) + 1, begin, len(data) if end < 0 else end
