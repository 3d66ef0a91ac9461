"""The program that `arn record` boots: it puts long files together, opens the input, and starts the recorded program.

It is text for an `asm` block, so that no compiler is needed. What it makes for itself has names that begin with `.arn/`, and
these are gone before the program starts.
"""
import struct
from typing import NamedTuple

from arnlib.faults import Fault

OWN = ".arn/"
START, INPUT = OWN + "start", OWN + "input"
# How many bytes a `file` line carries beside a name of 64, and how many a file has at most.
MOST_PIECE = 524_253
MOST_FILE = 1_048_576

# The argument block of the SDK's layer (sdk/unix/layer.h): its name, the counts of texts, 16 descriptions, 16 descriptors, texts.
BLOCK_NAME = b"ARNBLK01"
BLOCK_TEXTS, MOST_TEXTS = 304, 3_792
CONSOLE, PLAIN = 1, 2
READS, WRITES = 1, 2
DESCRIPTIONS = 16

# A part of the launcher that pours the file of a name into the one that s0 has, and takes the name away.
POUR = """
pour:; mv s2, a0; mv s3, a1; li a2, 0; li a7, 9; ecall; mv s1, a0
more:; mv a0, s1; lui a1, 32; lui a2, 16; li a7, 11; ecall; beq a0, zero, poured
mv a2, a0; mv a0, s0; lui a1, 32; li a7, 12; ecall; j more
poured:; mv a0, s1; li a7, 10; ecall; mv a0, s2; mv a1, s3; li a7, 16; ecall; jalr zero, 0(ra)"""


class GivenFile(NamedTuple):
    """A file of the recorded machine: its name and its bytes."""
    name: str
    data: bytes

    def pieces(self, number):
        """The files that lines give of it: it alone, or its parts, which the launcher puts together. `number` tells it from
        others."""
        if len(self.data) <= MOST_PIECE:
            return [self]
        return [GivenFile(f"{OWN}{number}.{part}", self.data[at:at + MOST_PIECE])
                for part, at in enumerate(range(0, len(self.data), MOST_PIECE))]


def argument_block(words, variables, has_input):
    """The block with a program's words and environment. Descriptor 0 is a plain file where it has an input, else the console."""
    texts = b"".join(text + b"\0" for text in [*words, *variables])
    if len(texts) > MOST_TEXTS:
        raise Fault(f"the words and the environment have {len(texts):,} bytes, of which a program gets at most {MOST_TEXTS:,}")
    kinds = [(PLAIN, READS) if has_input else (CONSOLE, READS | WRITES), (CONSOLE, READS | WRITES), (CONSOLE, READS | WRITES)]
    described = b"".join(struct.pack("<qBBBBxxxx", 0, kind, 1, flags, 0) for kind, flags in kinds)
    described += bytes(16 * (DESCRIPTIONS - len(kinds)))
    descriptors = b"".join(bytes([place + 1, 0]) for place in range(len(kinds))) + bytes(2 * (DESCRIPTIONS - len(kinds)))
    return BLOCK_NAME + struct.pack("<II", len(words), len(variables)) + described + descriptors + texts


def bytes_line(label, data):
    """Lines that place bytes under a label."""
    rows = [f".byte {', '.join(map(str, data[at:at + 32]))}" for at in range(0, len(data), 32)]
    return "\n".join([f"{label}:", *rows])


def length_in(register, length):
    """Statements that put a length into a register: an immediate carries 12 bits of it, with a sign."""
    high, low = length + 0x800 >> 12, (length & 0xfff) - (0x1000 if length & 0x800 else 0)
    return f"lui {register}, {high}; addi {register}, {register}, {low}"


class Launcher:
    """The text of the launcher, made call by call."""

    def __init__(self):
        self.code, self.data, self.labels = [], [], {}

    def label(self, name):
        """The label under which a name lies."""
        if name not in self.labels:
            self.labels[name] = f"name{len(self.labels)}"
            self.data.append(bytes_line(self.labels[name], name.encode()))
        return self.labels[name]

    def path(self, name):
        """Statements that put a name into the first two arguments."""
        return f"la a0, {self.label(name)}; li a1, {len(name)}"

    def call(self, number, *statements):
        self.code.append("; ".join([*statements, f"li a7, {number}", "ecall"]))

    def pour(self, made, pieces):
        """Puts the pieces of a file together."""
        self.call(9, self.path(made), "li a2, 1")
        self.code.append("mv s0, a0")
        for piece in pieces:
            self.code.append(f"{self.path(piece.name)}; jal ra, pour")
        self.call(10, "mv a0, s0")

    def open_input(self):
        """The input becomes descriptor 0, and its name goes."""
        self.call(10, "li a0, 0")
        self.call(9, self.path(INPUT), "li a2, 0")
        self.call(16, self.path(INPUT))

    def start(self, program, block):
        """The launcher's own name goes, and the program starts."""
        self.call(16, self.path(START))
        self.data.append(bytes_line("block", block))
        self.call(3, self.path(program), "la a2, block", length_in("a3", len(block)))
        # The program is an image, so this isn't reached.
        self.call(1, "li a0, 126")

    def text(self):
        return "\n".join([*self.code, POUR.strip(), *self.data])


def lines(program, files, block, has_input):
    """The lines of a session up to the boot: files, the launcher, the boot."""
    made, launcher = [], Launcher()
    for number, file in enumerate(files):
        pieces = file.pieces("input" if file.name == INPUT else number)
        made += [f"file {piece.name} {piece.data.hex() or '-'}" for piece in pieces]
        if len(pieces) > 1:
            launcher.pour(file.name, pieces)
    if has_input:
        launcher.open_input()
    launcher.start(program, block)
    return [*made, f"asm {START}", *launcher.text().split("\n"), "end", f"boot {START}"]
