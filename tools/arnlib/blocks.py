"""The texts of `asm` blocks: which line of one has a fault, and what is wrong there (docs/ASSEMBLER.md)."""
import re
from typing import NamedTuple

from arnlib import texts

LONGEST, LARGEST, MOST_SHOWN = 1_048_576, 262_144, 40
LABEL, DEFINED = re.compile(r"[A-Za-z_][A-Za-z0-9_]{0,31}"), re.compile(r"[A-Za-z_][A-Za-z0-9_]{0,31}:")
NUMBER = re.compile(r"-?(?:0|[1-9][0-9]*|0x[0-9a-fA-F]+)")
REGISTERS = {f"{letter}{k}" for letter, count in (("x", 32), ("s", 12), ("a", 8), ("t", 7)) for k in range(count)} \
    | {"zero", "ra", "sp", "gp", "tp", "fp"}

SIGNED_12, UPPER, SHIFT_64, SHIFT_32 = (-2048, 2047), (0, 0xfffff), (0, 63), (0, 31)
BRANCH, JUMP = (-4096, 4094), (-(1 << 20), (1 << 20) - 2)


def shapes():
    """Of each word its operands, and the field of its number: R is a register, M a number before a register in parentheses, L a
    label, N a number."""
    found = {}
    for words, operands, field in (
            ("lui auipc", "RN", UPPER), ("jal", "RL", JUMP), ("jalr lb lh lw ld lbu lhu lwu sb sh sw sd", "RM", SIGNED_12),
            ("beq bne blt bge bltu bgeu", "RRL", BRANCH), ("addi slti sltiu xori ori andi addiw", "RRN", SIGNED_12),
            ("slli srli srai", "RRN", SHIFT_64), ("slliw srliw sraiw", "RRN", SHIFT_32),
            ("add sub sll slt sltu xor srl sra or and addw subw sllw srlw sraw", "RRR", None), ("fence ecall ebreak", "", None),
            ("li", "RN", SIGNED_12), ("mv", "RR", None), ("j", "L", JUMP), ("la", "RL", None), (".zero", "N", (0, LARGEST))):
        found.update(dict.fromkeys(words.split(), (operands, field)))
    return found


SHAPES = shapes()
# The bytes of statements that aren't 4 long.
SIZES = {"la": 8}
SAID = {"R": "a register", "M": "a number before a register in parentheses", "L": "a label", "N": "a number"}


class Wrong(Exception):
    """What is wrong with a statement."""


class Item(NamedTuple):
    """A statement: its line and offset, its word and operands with their shape, the field of its number, and how long it is."""
    line: int
    at: int
    word: str
    operands: list
    shape: str
    field: tuple | None
    size: int


def wrong_operand(shape, operand):
    """Whether an operand isn't of its shape."""
    if shape == "R":
        return operand not in REGISTERS
    if shape == "L":
        return LABEL.fullmatch(operand) is None
    if shape == "N":
        return NUMBER.fullmatch(operand) is None
    match = re.fullmatch(rf"({NUMBER.pattern})[ \t]*\([ \t]*([a-z0-9]+)[ \t]*\)", operand)
    return match is None or match[2] not in REGISTERS


def shown(text):
    return texts.quoted(text.encode()[:MOST_SHOWN])


def operands_of(text):
    """The word of a statement, and its operands."""
    word, _, rest = text.replace("\t", " ").partition(" ")
    return word, [operand.strip() for operand in rest.split(",")] if rest.strip() else []


def check_operands(word, operands, shape):
    """Refuses operands that a word doesn't have."""
    if len(operands) != len(shape):
        wanted = ", ".join(SAID[kind] for kind in shape) or "nothing"
        raise Wrong(f"{word} takes {wanted}, and not {texts.plural(len(operands), 'operand')}")
    for place, (kind, operand) in enumerate(zip(shape, operands), 1):
        if wrong_operand(kind, operand):
            raise Wrong(f"operand {place} of {word}, {shown(operand)}: {SAID[kind]} is expected")


def item_of(line, at, text):
    """The statement of a text at a line and an offset."""
    word, operands = operands_of(text)
    if word == ".byte":
        if not operands or any(wrong_operand("N", operand) for operand in operands):
            raise Wrong(".byte takes one number or more, with commas between them")
        return Item(line, at, word, operands, "N" * len(operands), (0, 255), len(operands))
    if word not in SHAPES:
        raise Wrong(f"there is no statement {shown(word)}")
    shape, field = SHAPES[word]
    check_operands(word, operands, shape)
    size = SIZES.get(word, 4) if word != ".zero" else min(max(int(operands[0], 0), 0), LARGEST + 1)
    return Item(line, at, word, operands, shape, field, size)


def out_of_field(item, labels):
    """What is wrong with the number or the distance of an item, or None."""
    if item.field is None:
        return None
    least, most = item.field
    for kind, operand in zip(item.shape, item.operands):
        if kind in "NM":
            value = int(operand.split("(")[0], 0)
        elif kind == "L" and operand in labels:
            value = labels[operand] - item.at
            if value % 2:
                return f"the distance to {operand} is odd"
        else:
            continue
        if not least <= value <= most:
            return f"{value} is out of the field of {item.word}, {least} to {most}"
    return None


class Block:
    """A block as far as it is read: its statements, the offsets of its labels, where the next statement is, and what is wrong."""

    def __init__(self):
        self.items, self.labels, self.at, self.found = [], {}, 0, []

    def read(self, line, text):
        """Reads a statement, or a label."""
        if DEFINED.fullmatch(text):
            if text[:-1] in self.labels:
                raise Wrong(f"the label {text[:-1]} was defined before")
            self.labels[text[:-1]] = self.at
            return
        item = item_of(line, self.at, text)
        self.items.append(item)
        self.at = min(item.at + item.size, LARGEST)
        if not item.word.startswith(".") and item.at % 4:
            raise Wrong(f"{item.word} is at offset {item.at}, which is no multiple of 4")
        if item.at + item.size > LARGEST:
            raise Wrong(f"with this statement the text exceeds {LARGEST:,} bytes")

    def read_line(self, number, line):
        """Reads the statements of a line."""
        if len(line) > LONGEST:
            self.found.append((number, f"it has more than {LONGEST:,} bytes"))
            return
        for text in line.decode("latin-1").split("#", 1)[0].split(";"):
            try:
                if text := text.strip(" \t"):
                    self.read(number, text)
            except Wrong as wrong:
                self.found.append((number, str(wrong)))

    def check(self, item):
        """Looks at the labels and the number of a statement, when all labels are known."""
        missing = [operand for kind, operand in zip(item.shape, item.operands) if kind == "L" and operand not in self.labels]
        wrong = f"the label {missing[0]} isn't defined" if missing else out_of_field(item, self.labels)
        if wrong:
            self.found.append((item.line, wrong))


def fault(lines):
    """The first faulty line of a block, counted from 1, and what is wrong there; None where nothing is."""
    block = Block()
    for number, line in enumerate(lines, 1):
        block.read_line(number, line)
    for item in block.items:
        block.check(item)
    return min(block.found, key=lambda one: one[0], default=None)
