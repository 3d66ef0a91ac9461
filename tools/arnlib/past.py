"""A process as it was at a moment: its registers and its memory."""
from arnlib import texts
from arnlib.faults import Fault
from arnlib.sources import refusal

# The window of each process (docs/MACHINE.md), and how much of it is asked for at once.
WINDOW, WINDOW_END, PIECE = 0x10000, 0x50000, 0x1000
# How many bytes a line asks for at most.
MOST = 65_536
STACK_POINTER, RETURN_ADDRESS = 2, 1


def answer(log, line, word, missing):
    """What stands behind the word of an answer of one line."""
    *_, words = log.ask(line)
    if words == ["no", "point"]:
        raise Fault(missing)
    if words[0] != word:
        raise Fault(refusal(words))
    return words[1:]


class Past:
    """A process at a moment. What is asked for once is kept. `log` is anything that has `ask`."""

    def __init__(self, log, moment, process):
        self.log, self.moment, self.process, self.pieces, self.found = log, moment, process, {}, None

    @property
    def registers(self):
        """Where it stood, and its 32 registers."""
        if self.found is None:
            words = answer(self.log, f"show {self.moment} regs {self.process}", "regs",
                           f"process {self.process} didn't live at moment {self.moment}")
            self.found = int(words[0], 16), [0] + [int(word, 16) for word in words[1:]]
        return self.found

    def memory(self, address, length):
        """Bytes of its memory."""
        return texts.bytes_of(answer(self.log, f"show {self.moment} mem {self.process} {address:#x} {length}", "mem",
                                     f"process {self.process} has no such memory at moment {self.moment}")[0])

    def in_window(self, address, length):
        """Bytes of its window, which is asked for in pieces; None where they aren't all in it."""
        if not WINDOW <= address <= address + length <= WINDOW_END:
            return None
        first, data = address - address % PIECE, b""
        for at in range(first, address + length, PIECE):
            if at not in self.pieces:
                self.pieces[at] = self.memory(at, PIECE)
            data += self.pieces[at]
        return data[address - first:address - first + length]
