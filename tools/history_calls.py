"""The calls of a history in words: what they were made with, what their descriptors are, and what they came to.

The log has neither the arguments of calls nor the bytes that were written to a pipe. The program shows the registers and the
memory of the moment before a call, which has them.
"""

# What the number of a call's error means (docs/KERNEL.md, sdk/arnold.h).
ERRORS = {
    2: "no such file", 3: "no such process", 4: "interrupted", 5: "device fault", 8: "not an image", 9: "bad descriptor",
    10: "no child", 11: "no room for a process", 12: "no room", 14: "bad address", 17: "file exists", 19: "no such device",
    22: "bad argument", 24: "too many descriptors", 32: "broken pipe", 38: "no such call", 98: "port in use",
    111: "connection refused",
}
# Calls whose first argument is a descriptor, a port, or a path with its length.
WITH_DESCRIPTOR = ("close", "read", "write", "seek", "dup", "accept")
WITH_PORT = ("listen", "connect")
WITH_PATH = ("exec", "open", "unlink")


def text_of(data):
    return data.decode("ascii", errors="replace")


def plural(count, word):
    return f"{count:,} {word}" + ("" if count == 1 else "s")


def cost_of_arguments(history):
    """How many instructions run again where the arguments of all calls are asked for."""
    return sum(event.group_ran for event in history.events if event.kind == "call")


def ask_arguments(history, session):
    """The registers with which each call was made, by its event: those of the moment before it."""
    calls = [event for event in history.events if event.kind == "call"]
    answers = session.ask([f"show {event.moment - 1} regs {event.process}" for event in calls])
    registers = {}
    for answer, event in zip(answers, calls):
        words = answer.lines[0]
        if words[0] == "regs":
            registers[event.number] = [0] + [int(word, 16) for word in words[2:]]
    return registers


def take_received(history, known):
    """Puts the bytes that later events received of an event where the log doesn't hold them with the event itself."""
    for event in history.events:
        at = 0
        for origin, place, length in event.origins:
            if origin in known:
                known[origin][place:place + length] = event.data[at:at + length]
            at += length


def ask_memory(history, session, registers):
    """Finds bytes that the log doesn't have with their event: a path, a status, and what was written to a pipe."""
    unknown = {event.number: [None] * event.length for event in history.events if event.data is None and event.length > 0}
    take_received(history, unknown)
    asked = []
    for event in history.events:
        words, known = registers.get(event.number), unknown.get(event.number, ())
        if words and event.what == "exit":
            known[0] = words[10] & 255
        elif words and event.what == "write" and None in known:
            asked.append((event, words[11], event.length))
        elif words and event.what in WITH_PATH and event.name is None and 1 <= words[11] <= 64:
            asked.append((event, words[10], words[11]))
    answers = session.ask([f"show {event.moment - 1} mem {event.process} {at} {length}" for event, at, length in asked])
    for answer, (event, _, _) in zip(answers, asked):
        words = answer.lines[0]
        if words[0] == "mem" and event.what == "write":
            unknown[event.number] = list(bytes.fromhex(words[1]))
        elif words[0] == "mem":
            event.name = bytes.fromhex(words[1])
    for number, known in unknown.items():
        if None not in known:
            history.events[number].data = bytes(known)


class Descriptors:
    """What the descriptors of each process are, as the calls of a history opened, copied and closed them."""

    def __init__(self):
        self.of = {}

    def named(self, process, descriptor):
        label = self.of.get(process, {}).get(descriptor)
        return f"{descriptor}: {label}" if label else str(descriptor if descriptor < 2 ** 63 else descriptor - 2 ** 64)

    def happen(self, event, argument):
        mine = self.of.setdefault(event.process, {})
        if event.kind == "boot":
            mine.update({0: "console", 1: "console", 2: "console"})
        elif event.kind != "call" or event.result < 0:
            return
        elif event.what == "fork":
            self.of[event.result] = dict(mine)
        elif event.what == "open":
            mine[event.result] = f"file {text_of(event.name)}" if event.name else "a file"
        elif event.what == "close":
            mine.pop(argument, None)
        elif event.what == "dup":
            mine[event.result] = mine.get(argument, "")
        elif event.what == "pipe":
            mine[event.result & 255] = f"pipe of event {event.number}"
            mine[event.result >> 8] = f"pipe of event {event.number}"
        elif event.what == "listen":
            mine[event.result] = f"port {argument}"
        elif event.what == "connect":
            mine[event.result] = f"connection to port {argument}"
        elif event.what == "accept":
            mine[event.result] = f"connection at {mine.get(argument, 'a port')}"


def argument_text(event, words, descriptors):
    """What a call was made with, or what another event is about."""
    if event.kind in ("file", "boot") or event.what in WITH_PATH and event.name:
        return text_of(event.name)
    if event.kind == "signal":
        return str(event.signal)
    if event.kind != "call" or words is None:
        return ""
    if event.what in WITH_DESCRIPTOR:
        return descriptors.named(event.process, words[10])
    return f"port {words[10]}" if event.what in WITH_PORT else ""


def success_text(event):
    """What a call that succeeded came to."""
    result = event.result
    if event.what in ("open", "dup", "listen", "connect", "accept"):
        return f"descriptor {result}"
    if event.what in ("exec", "read", "write"):
        return plural(event.length, "byte")
    if event.what == "fork":
        return f"process {result}"
    if event.what == "wait":
        return f"process {result}, status {event.data[0]}" if event.data else f"process {result}"
    if event.what == "pipe":
        return f"read end {result & 255}, write end {result >> 8}"
    if event.what == "seek":
        return f"place {result}"
    if event.what == "exit":
        return f"status {event.data[0]}" if event.data else ""
    return str(result) if event.what in ("getpid",) or event.call > 22 else ""


def result_text(event):
    """What an event came to."""
    if event.kind == "call":
        return success_text(event) if event.result >= 0 else f"error {-event.result}: {ERRORS.get(-event.result, 'refused')}"
    if event.kind in ("end", "signal"):
        return f"status {event.status}" if event.status is not None else ""
    return plural(event.length, "byte")
