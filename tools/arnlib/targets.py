"""What a question is about: a text in what sinks hold, bytes of an event, or bytes of a process or a file at a moment."""
import re
from typing import Callable, NamedTuple

from arnlib import places, texts
from arnlib.faults import Fault

EVENT = re.compile(r"(\d+):(\d+)(?:-(\d+))?")
RANGE = re.compile(r"(.+):(\d+)-(\d+)")
NAMES = ["zero", "ra", "sp", "gp", "tp", "t0", "t1", "t2", "s0", "s1", *(f"a{k}" for k in range(8)),
         *(f"s{k}" for k in range(2, 12)), *(f"t{k}" for k in range(3, 7))]
REGISTERS = {**{name: number for number, name in enumerate(NAMES)}, **{f"x{number}": number for number in range(32)}, "fp": 8}


class Part(NamedTuple):
    """A part of a target that a line asks for: how many bytes; the words of a `back` line for so many of them from a place on."""
    length: int
    words: Callable


class Target(NamedTuple):
    """Bytes that are asked about: what they are called, their parts, and of written bytes which these are and in which events."""
    name: str
    parts: tuple
    data: bytes | None = None
    pieces: tuple = ()

    @property
    def length(self):
        return sum(part.length for part in self.parts)

    def within(self, first, last):
        """The pieces of some of its bytes."""
        found, begin = [], 0
        for piece in self.pieces:
            low, high = max(first, begin), min(last + 1, begin + piece.length)
            if low < high:
                found.append(places.Piece(piece.event, piece.first + low - begin, high - low))
            begin += piece.length
        return found

    def called(self, first, last):
        """What some of its bytes are called, with their text where it is known."""
        pieces = self.within(first, last)
        if not pieces:
            name = self.name + ("" if self.length == last - first + 1 else f", of these {texts.span(first, last)}")
        elif len(pieces) == 1:
            name = f"event {pieces[0].event} {spanned(pieces[0].first, pieces[0].first + pieces[0].length - 1)}"
        else:
            name = f"events {pieces[0].event}-{pieces[-1].event}"
        return f"{name} {texts.quoted(self.data[first:last + 1])}" if self.data is not None else name


def spanned(first, last):
    """Bytes of an event in words."""
    return ("byte " if first == last else "bytes ") + texts.span(first, last)


def of_event(history, number, first, last):
    """Bytes of an event, from the first to the last."""
    if number >= len(history.events):
        raise Fault(f"there is no event {number}: the last one is {len(history.events) - 1}")
    event = history.events[number]
    if not first <= last < event.length:
        raise Fault(f"event {number} has no {spanned(first, last)}: it has {texts.plural(event.length, 'byte')}")
    data = bytes(event.data[first:last + 1]) if event.data is not None else None
    return of_pieces([places.Piece(number, first, last - first + 1)], data)


def of_pieces(pieces, data):
    """Bytes of one event or of several, one behind the other."""
    def words(piece):
        return lambda at, count: f"event {piece.event} {piece.first + at} {count}"
    return Target("", tuple(Part(piece.length, words(piece)) for piece in pieces), data, tuple(pieces))


def in_words(history, word):
    """The target that a word `E:FROM-TO` names, or None where it is no such word."""
    match = EVENT.fullmatch(word)
    if match is None:
        return None
    number, first = int(match[1]), int(match[2])
    return of_event(history, number, first, int(match[3]) if match[3] else first)


def matches(stretches, wanted):
    """Each place of some bytes in some stretches: the stretch and the place, in the order of the events that they are of."""
    found = [(stretch.order(at, len(wanted)), index, stretch, at) for index, stretch in enumerate(stretches)
             for at in stretch.find_all(wanted)]
    return [(stretch, at) for *_, stretch, at in sorted(found, key=lambda one: (one[0], one[1], one[3]))]


def text_bytes(text):
    """The bytes of a text that is looked for."""
    try:
        data = texts.bytes_in(text)
    except ValueError as error:
        raise Fault(str(error)) from None
    if not data:
        raise Fault("an empty text is everywhere")
    return data


def of_place(stretch, at, length):
    """The target of a range of a stretch."""
    return of_pieces(stretch.ranges(at, length), bytes(stretch.data[at:at + length]))


def number(word):
    """A number as a session's line has it."""
    if not re.fullmatch(r"0|[1-9][0-9]*|0x[0-9a-fA-F]+", word) or int(word, 0) >= 2 ** 64:
        raise Fault(f"{texts.safe(word)!r} is no number")
    return int(word, 0)


def one_part(name, length, words):
    """A target of one part."""
    return Target(name, (Part(length, words),))


def of_memory(moment, pid, name, address, length):
    """Bytes of a process's memory."""
    return one_part(f"{name} of process {pid} at moment {moment}", length,
                    lambda at, count: f"mem {moment} {pid} {address + at:#x} {count}")


def of_register(moment, pid, name):
    """The eight bytes of a register."""
    register = REGISTERS.get(name)
    if register is None:
        raise Fault(f"there is no register {texts.safe(name)}")
    return one_part(f"register {name} of process {pid} at moment {moment}", 8, lambda at, count: f"reg {moment} {pid} {register}")


def of_file(moment, word):
    """Bytes of a file."""
    match = RANGE.fullmatch(word)
    if match is None or not is_name(match[1]):
        raise Fault("--file is NAME:FROM-TO")
    first, last = int(match[2]), int(match[3])
    if last < first:
        raise Fault(f"--file {word}: it ends before it begins")
    return one_part(f"file {match[1]} {spanned(first, last)} at moment {moment}", last - first + 1,
                    lambda at, count: f"name {moment} {match[1]} {first + at} {count}")


def is_name(word):
    """Whether a word can be the name of a file."""
    return 1 <= len(word) <= 64 and all("!" <= letter <= "~" for letter in word)


def memory_range(word):
    """The address and the length that a word ADDRESS+LEN says; one byte where there is no length."""
    address, plus, length = word.partition("+")
    address, length = number(address), number(length) if plus else 1
    if length == 0:
        raise Fault(f"{texts.safe(word)}: that are no bytes")
    return address, length


def at_moment(options, variable):
    """The target that --at and its words name. `variable` gives the address and the length of a process's global variable."""
    moment, pid = options.at, options.pid
    if sum(word is not None for word in (options.file, options.mem, options.reg, options.var)) != 1:
        raise Fault("--at wants --pid with --mem, --reg or --var, or --file")
    if options.file is not None:
        return of_file(moment, options.file)
    if pid is None:
        raise Fault("--at wants --pid with --mem, --reg or --var")
    if options.reg is not None:
        return of_register(moment, pid, options.reg)
    if options.var is not None:
        return of_memory(moment, pid, f"variable {options.var}", *variable(options.var))
    address, length = memory_range(options.mem)
    return of_memory(moment, pid, f"memory at {address:#x}, {texts.plural(length, 'byte')},", address, length)
