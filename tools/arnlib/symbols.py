"""C's names for addresses, from the ELF files that a recording kept: functions, files and lines, the calls above, variables."""
import bisect
import hashlib
import json
import os
import re
import shutil
import subprocess
from typing import NamedTuple

from arnlib import texts
from arnlib.faults import say
from arnlib.past import RETURN_ADDRESS, STACK_POINTER, WINDOW, WINDOW_END, Past

ADDR2LINE, NM, READELF = "riscv64-unknown-elf-addr2line", "riscv64-unknown-elf-nm", "riscv64-unknown-elf-readelf"
PACKAGE = "binutils-riscv64-unknown-elf"
NAMES = "names.json"
SUM = re.compile("[0-9a-f]{64}")
# A variable in nm's words: its address, its length, its name, and the path of its source where that is known.
VARIABLE = re.compile(r"(\d+) (\d+) [bBdDrRsS] (\S+)(?:\t(.*):\d+)?")
# Functions of the compiler's that change the stack of the function that called them.
MOVING = "__riscv_"

# Parts of the paths with which libraries were compiled: the SDK's layer, picolibc, the compiler's own.
LIBRARIES = ("/sdk/unix/", "/sdk/kernel.h", "/newlib/", "/picolibc", "/libgcc/")
# How many calls above an instruction are followed.
MOST_CALLS = 64
REGISTERS = {"ra": 1, "sp": 2, "gp": 3, "tp": 4, "s0": 8, "s1": 9, **{f"s{number}": number + 16 for number in range(2, 12)}}


def folder_of(log):
    """Where a recording keeps the ELF files of a log's programs."""
    return log + ".elf"


def keep(log, kept):
    """Keeps ELF files: of each the name of the program, the sum of its image in the log, and its bytes."""
    folder = folder_of(log)
    os.mkdir(folder, 0o700)
    names = {}
    for name, image, elf in kept:
        sum_of = hashlib.sha256(elf).hexdigest()
        write(os.path.join(folder, sum_of + ".elf"), elf)
        names[name] = {"elf": sum_of, "image": hashlib.sha256(image).hexdigest()}
    write(os.path.join(folder, NAMES), json.dumps(names, indent=1).encode())


def write(path, data):
    """Writes a file for its owner alone."""
    with open(path, "wb", opener=lambda name, flags: os.open(name, flags, 0o600)) as file:
        file.write(data)


class Place(NamedTuple):
    """A place in a source: a function, and its file and line where they are known."""
    function: str
    path: str | None = None
    line: int | None = None

    @property
    def brief(self):
        """It in a few words: `main notes.c:12`."""
        return texts.safe(self.function + (f" {os.path.basename(self.path)}:{self.line}" if self.path else ""))

    @property
    def text(self):
        """It as in a list of calls: `main (notes.c:12)`."""
        return texts.safe(self.function + (f" ({os.path.basename(self.path)}:{self.line})" if self.path else ""))

    @property
    def is_library(self):
        """Whether it isn't in the program's own sources."""
        return self.path is None or is_library(self.path)


def is_library(path):
    """Whether the path of a source is that of a library."""
    return any(part in path for part in LIBRARIES)


class Tools:
    """The tools that read ELF files. Where one isn't there, this is said once."""

    def __init__(self):
        self.is_said = False

    def run(self, tool, *words, given=None):
        """What a tool prints."""
        if shutil.which(tool) is None:
            if not self.is_said:
                say(f"arn: names of functions and variables need {tool}: apt-get install {PACKAGE}")
            self.is_said = True
            return ""
        return subprocess.run([tool, *words], input=given, capture_output=True, text=True, errors="replace").stdout


TOOLS = Tools()


class Frame(NamedTuple):
    """Where a function keeps what its caller had: the register and the distance that give the caller's stack pointer, and the
    distances from there at which registers lie."""
    register: int
    distance: int
    kept: dict


class Elf:
    """An ELF file, and what its tools say of it."""

    def __init__(self, path):
        self.path, self.places, self.functions, self.known = path, {}, None, None

    def name_all(self, addresses):
        """Finds the places of some addresses at once. Of an address in a function that stands in another one, that is so too."""
        wanted = sorted(set(addresses) - set(self.places))
        if not wanted:
            return
        said = TOOLS.run(ADDR2LINE, "-a", "-f", "-i", "-e", self.path, given="".join(f"{address:#x}\n" for address in wanted))
        for address in wanted:
            self.places[address] = []
        place_list, rows = None, iter(said.splitlines())
        for row in rows:
            if row.startswith("0x"):
                place_list = self.places.get(int(row, 16))
            elif place_list is not None and (place := place_of(row, next(rows, ""))) is not None:
                place_list.append(place)

    def at(self, address):
        """The places of an address, the innermost first."""
        self.name_all([address])
        return self.places[address]

    def name(self, address):
        """An address in C's words, or None where there are none."""
        return next((place.text for place in self.at(address)), None)

    def frame(self, address):
        """The frame at an instruction, or None where nothing is known of it."""
        if self.functions is None:
            said = TOOLS.run(READELF, "--debug-dump=frames-interp", self.path)
            self.functions = sorted(frames_in(said), key=lambda one: one[0])
        index = bisect.bisect_right(self.functions, address, key=lambda one: one[0]) - 1
        if index < 0 or address >= self.functions[index][1]:
            return None
        rows = [frame for begin, frame in self.functions[index][2] if begin <= address]
        return rows[-1] if rows else Frame(STACK_POINTER, 0, {})

    def variables(self):
        """The global variables: of each name the address and the length."""
        if self.known is None:
            said = TOOLS.run(NM, "--print-size", "--radix=d", "--line-numbers", self.path)
            self.known = {found[3]: (int(found[1]), int(found[2]), found[4]) for line in said.splitlines()
                          if (found := VARIABLE.fullmatch(line))}
        return {name: found[:2] for name, found in self.known.items()}

    def own_variables(self):
        """Those of the program's own sources; all where none is known to be in them."""
        found = self.variables()
        own = {name: found[name] for name, (*_, path) in self.known.items() if path and not is_library(path)}
        return own or found


def place_of(function, place):
    """A place of addr2line; None where the function isn't known."""
    if function == "??":
        return None
    path, _, line = place.rpartition(":")
    line = line.split(" ")[0]
    return Place(function, path, int(line)) if path not in ("", "??") and line.isdecimal() else Place(function)


def frames_in(said):
    """The functions whose frames readelf tells: where each begins and ends, and its frames, each from where on."""
    function, columns = None, []
    for words in map(str.split, said.splitlines()):
        if "FDE" in words or "CIE" in words:
            if function:
                yield function
            span = re.search("pc=([0-9a-f]+)[.][.]([0-9a-f]+)", words[-1])
            function = (int(span[1], 16), int(span[2], 16), []) if span else None
        elif words[:1] == ["LOC"]:
            columns = words[2:]
        elif function and len(words) == len(columns) + 2 and (frame := frame_of(words[1], dict(zip(columns, words[2:])))):
            function[2].append((int(words[0], 16), frame))
    if function:
        yield function


def frame_of(base, kept):
    """A frame in readelf's words; None where it is none that is followed here."""
    match = re.fullmatch("([a-z0-9]+)([+-][0-9]+)", base)
    if not match or match[1] not in REGISTERS:
        return None
    places = {name: int(word[1:]) for name, word in kept.items() if re.fullmatch("c[+-][0-9]+", word)}
    known = {REGISTERS[name]: place for name, place in places.items() if name in REGISTERS}
    return Frame(REGISTERS[match[1]], int(match[2]), known)


def elf_of(log, name, image):
    """The ELF file of a program in a log, if it is kept and is that of these bytes."""
    folder = folder_of(log)
    try:
        with open(os.path.join(folder, NAMES), "rb") as file:
            kept = json.load(file).get(name)
        if kept["image"] != hashlib.sha256(image).hexdigest() or not SUM.fullmatch(kept["elf"]):
            return None
        path = os.path.join(folder, kept["elf"] + ".elf")
        with open(path, "rb") as file:
            return Elf(path) if hashlib.sha256(file.read()).hexdigest() == kept["elf"] else None
    except (OSError, ValueError, AttributeError, KeyError, TypeError):
        return None


class Stack(NamedTuple):
    """The addresses of an instruction and of the calls above it, the innermost first; and whether these are all."""
    addresses: list
    is_whole: bool


def stack_of(elf, past):
    """The calls above the instruction at which a process stood. A call is told by its own address."""
    address, registers = past.registers
    addresses, registers = [address], list(registers)
    while len(addresses) < MOST_CALLS:
        frame = elf.frame(addresses[-1])
        if frame is None and (len(addresses) > 1 or any(place.function.startswith(MOVING) for place in elf.at(address))):
            return Stack(addresses, False)
        registers = caller(frame or Frame(STACK_POINTER, 0, {}), registers, past)
        if registers is None or not WINDOW < registers[RETURN_ADDRESS] <= WINDOW_END:
            return Stack(addresses, registers is not None)
        addresses.append(registers[RETURN_ADDRESS] - 4)
    return Stack(addresses, False)


def caller(frame, registers, past):
    """The registers of a function's caller, or None where they can't be read."""
    base, made = registers[frame.register] + frame.distance, list(registers)
    for register, distance in frame.kept.items():
        data = past.in_window(base + distance, 8)
        if data is None:
            return None
        made[register] = int.from_bytes(data, "little")
    made[STACK_POINTER] = base
    return made


class Programs:
    """Which program each process ran at which event, and what its ELF file says of addresses."""

    def __init__(self, log, history):
        self.begun, self.elves, self.log, self.kept_places = {}, {}, log, {}
        self.events = history.events
        for event in history.events:
            if event.kind == "boot" or event.what == "exec" and event.result == 0:
                origin = history.events[event.origins[0][0]] if event.origins else event
                self.begun.setdefault(event.process, []).append((event.number, origin.name or b"", event.data or b""))
            elif event.what == "fork" and event.result >= 0:
                self.begun[event.result] = [(event.number, *now[1:]) for now in self.begun.get(event.process, ())[-1:]]

    def elf(self, process, event):
        """The ELF file of what a process ran at an event."""
        ran = [one for one in self.begun.get(process, ()) if one[0] < event]
        if not ran:
            return None
        _, name, image = ran[-1]
        if (name, image) not in self.elves:
            self.elves[name, image] = elf_of(self.log, name.decode(errors="replace"), image)
        return self.elves[name, image]

    def where(self, process, event, address):
        """An address of a process's instruction in words."""
        elf = self.elf(process, event)
        name = elf.name(address) if elf else None
        return name or f"at {address:#x}"

    def places(self, log, process, event, moment):
        """The places at which a process stood at a moment, before an event: that of its instruction, then those of the calls
        above; and whether these are all. `log` is anything that has `ask`."""
        elf = self.elf(process, event)
        if elf is None:
            return [], False
        stack = stack_of(elf, Past(log, moment, process))
        elf.name_all(stack.addresses)
        places = [place for address in stack.addresses for place in elf.places[address]]
        main = next((index for index, place in enumerate(places) if place.function == "main"), None)
        return (places, stack.is_whole) if main is None else (places[:main + 1], True)

    def calls(self, log, process, event, moment, address):
        """The same in words: `take (store.c:31) < main (notes.c:12)`."""
        places, is_whole = self.places(log, process, event, moment)
        if not places:
            return f"at {address:#x}"
        return " < ".join([place.text for place in places] + ([] if is_whole else [".."]))

    def called_at(self, log, event):
        """Where the call of an event was made, with the calls above; None where that isn't known."""
        if event.kind != "call" or self.elf(event.process, event.number) is None:
            return None
        address, _ = Past(log, event.moment - 1, event.process).registers
        return self.calls(log, event.process, event.number, event.moment - 1, address)

    def place_of(self, log, number):
        """The innermost place outside the library from which an event's call was made, in few words; None where none is known."""
        if number not in self.kept_places:
            event = self.events[number]
            places = self.places(log, event.process, number, event.moment - 1)[0] if event.kind == "call" else []
            own = [place for place in places if not place.is_library]
            self.kept_places[number] = next((place.brief for place in own or places), None)
        return self.kept_places[number]
