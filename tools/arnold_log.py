"""Reads the log of a session: its records (docs/LOG.md, docs/FORMATS.md) and the events that they record.

    import arnold_log
    history = arnold_log.read_history("some.log")
    for event in history.events:
        print(event.number, event.moment, event.process, event.what, event.length)

Nothing is written. A file that is no log raises a Fault, with one line that says why.
"""
from dataclasses import dataclass, field

NAME = b"ARNLOG01"
OPEN_GATE = 1

# The names of the calls, from 1.
CALLS = ("exit fork exec wait getpid kill sigaction sigreturn open close read write seek dup pipe unlink shm listen connect"
         " accept device yield").split()


class Fault(Exception):
    """What is wrong with a file, in one line."""


@dataclass
class Record:
    """One record. What a field means depends on the kind; a field that a kind doesn't have is None, or empty."""
    kind: str
    process: int | None = None
    name: bytes | None = None
    data: bytes | None = None
    origins: list = field(default_factory=list)
    ran: int = 0
    call: int | None = None
    result: int | None = None
    did: str | None = None
    file: int | None = None
    place: int | None = None
    device: int | None = None
    signal: int | None = None
    handler: int | None = None
    status: int | None = None


@dataclass
class Event(Record):
    """A record that is an event: its number and moment, the group of its process, and how many instructions that had run."""
    number: int = 0
    moment: int = 0
    group: int | None = None
    group_ran: int = 0
    length: int = 0

    @property
    def what(self):
        """The name of the event's kind, or of its call."""
        return call_name(self.call) if self.kind == "call" else self.kind

    @property
    def word(self):
        """What a line of `events` reports it as (docs/SESSION.md)."""
        parts = {"call": (self.call, self.result), "signal": (self.signal,), "unplug": (self.device,), "end": (self.status,)}
        return ".".join(map(str, (self.kind, *parts.get(self.kind, ()))))

    @property
    def is_input(self):
        """Whether its bytes came from outside."""
        return self.kind in ("file", "type") or self.did == "reply"

    @property
    def is_output(self):
        """Whether it wrote bytes to the console, to a file or to a device."""
        return self.did in ("console", "put", "sent") and self.length > 0

    @property
    def is_received(self):
        """Whether a process received its bytes."""
        return self.kind == "boot" or self.did == "give"


@dataclass
class History:
    """All events of a log; of each process its group; how many instructions each group ran, and all."""
    events: list
    groups: dict
    instructions: dict
    total: int


def call_name(number):
    return CALLS[number - 1] if 1 <= number <= len(CALLS) else f"call {number}"


class Reader:
    """Takes the parts of records from bytes, one after the other."""

    def __init__(self, data, at, end):
        self.data, self.at, self.end = data, at, end

    def take(self, count):
        if count > self.end - self.at:
            raise ValueError
        self.at += count
        return self.data[self.at - count:self.at]

    def number(self, bits):
        return int.from_bytes(self.take(bits // 8), "little")

    def flag(self):
        value = self.number(8)
        if value > 1:
            raise ValueError
        return value == 1

    def counted(self):
        return self.take(self.number(32))

    def name(self):
        count = self.number(8)
        if not 1 <= count <= 64:
            raise ValueError
        return self.take(count)

    def give(self):
        """Bytes, and their origins: the event, the place in it, and how many bytes from there on."""
        data = self.counted()
        count = self.number(32)
        if 16 * count > self.end - self.at:
            raise ValueError
        return data, [(self.number(64), self.number(32), self.number(32)) for _ in range(count)]

    def skip_start(self):
        """How a child begins: registers, the save slot and blocks of memory."""
        self.take(32 * 8)
        if self.flag():
            self.take(32 * 8)
        self.take(self.number(16) * (2 + 256))


def read_call(reader):
    record = Record("call", process=reader.number(32), call=reader.number(64))
    result, tag = reader.number(64), reader.number(8)
    record.result = result - 2 ** 64 if result >= 2 ** 63 else result
    names = ("nothing", "give", "start", "put", "console", "reply", "fault", "absent", "name", "sent")
    if tag >= len(names):
        raise ValueError
    record.did = names[tag]
    if record.did == "give":
        record.data, record.origins = reader.give()
    elif record.did == "start":
        reader.skip_start()
    elif record.did == "put":
        record.file, record.place, record.data = reader.number(32), reader.number(32), reader.counted()
    elif record.did == "console":
        record.data = reader.counted()
    elif record.did in ("reply", "sent"):
        record.device, record.data = reader.number(32), reader.counted()
    elif record.did == "name":
        record.file, record.name = reader.number(32), reader.name()
    return record


def read_signal(reader):
    record = Record("signal", process=reader.number(32), signal=reader.number(8))
    if not 1 <= record.signal <= 31:
        raise ValueError
    reader.flag()
    record.handler = reader.number(64)
    if record.handler == 0:
        record.status = (128 + record.signal) % 256
        record.data = bytes([record.status])
    return record


def read_end(reader):
    record = Record("end", process=reader.number(32), status=reader.number(8))
    record.data = bytes([record.status])
    return record


def read_record(reader):
    """The record at the reader's place. A ValueError says that there is none."""
    kind = reader.number(8)
    if kind == 1:
        return Record("file", name=reader.name(), data=reader.counted())
    if kind == 2:
        name, (data, origins) = reader.name(), reader.give()
        return Record("boot", process=1, name=name, data=data, origins=origins)
    if kind == 3:
        return Record("type", data=reader.counted())
    if kind == 4:
        return Record("unplug", device=reader.number(32))
    if kind == 5:
        return Record("slice", process=reader.number(32), ran=reader.number(32))
    if kind == 6:
        return read_signal(reader)
    if kind == 7:
        return read_call(reader)
    if kind == 8:
        return read_end(reader)
    raise ValueError


def payloads(data):
    """Where the payload of each commit begins and ends, in order."""
    if len(data) <= len(NAME) + 1:
        return
    if not data.startswith(NAME):
        raise Fault(f"this is no log: it doesn't begin with {NAME.decode()}")
    gate = len(NAME)
    while data[gate] == OPEN_GATE and gate + 1 < len(data):
        begin = gate + 5
        end = begin + int.from_bytes(data[gate + 1:begin], "little")
        if end >= len(data):
            raise Fault(f"this is no whole log: the commit at byte {gate} breaks off")
        yield begin, end
        gate = end


def read_records(data):
    """The records of a log with these bytes, in order."""
    for begin, end in payloads(data):
        reader = Reader(data, begin, end)
        while reader.at < end:
            place = reader.at
            try:
                yield read_record(reader)
            except ValueError:
                raise Fault(f"this is no whole log: there is no record at byte {place}") from None


def length_of(record):
    """How many bytes an event has."""
    if record.data is not None:
        return len(record.data)
    if record.call == 12 and record.did == "nothing" and 0 <= record.result <= 65536:
        return record.result
    return 1 if record.call == 1 else 0


def group_begun(record, groups):
    """The process that begins with this record, and its group; or None."""
    if record.kind == "boot":
        return 1, 1
    if record.call == 2 and record.result >= 0:
        return record.result, record.result if record.did == "start" else groups.get(record.process)
    return None


def history_of(records):
    """The events of some records, with their numbers, moments and groups."""
    events, groups, instructions = [], {}, {}
    begins = ends = 0
    for record in records:
        if record.kind == "slice":
            begins, ends = ends, ends + record.ran
            group = groups.get(record.process)
            instructions[group] = instructions.get(group, 0) + record.ran
            continue
        begun = group_begun(record, groups)
        if begun:
            groups[begun[0]] = begun[1]
            instructions.setdefault(begun[1], 0)
        group = groups.get(record.process)
        events.append(Event(**vars(record), number=len(events), moment=begins if record.kind == "signal" else ends, group=group,
                            group_ran=instructions.get(group, 0), length=length_of(record)))
    return History(events, groups, instructions, ends)


def read_history(path):
    """The history in the log of this name."""
    try:
        with open(path, "rb") as file:
            data = file.read()
    except OSError as error:
        raise Fault(f"{path}: {error.strerror}") from None
    try:
        return history_of(read_records(data))
    except Fault as fault:
        raise Fault(f"{path}: {fault}") from None
