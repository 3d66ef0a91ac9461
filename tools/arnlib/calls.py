"""Calls in words, as strace says them: names, arguments, texts and results."""
from arnlib import texts

# How many instructions may run again for arguments, where nobody asked for more.
MOST_FOR_ARGUMENTS = 200_000_000
# How many bytes of an event are shown.
MOST_SHOWN = 32
ERRORS = {2: "ENOENT", 3: "ESRCH", 4: "EINTR", 5: "EIO", 8: "ENOEXEC", 9: "EBADF", 10: "ECHILD", 11: "EAGAIN", 12: "ENOMEM",
          14: "EFAULT", 17: "EEXIST", 19: "ENODEV", 22: "EINVAL", 24: "EMFILE", 32: "EPIPE", 38: "ENOSYS", 98: "EADDRINUSE",
          111: "ECONNREFUSED"}
# How many arguments are shown of each call, behind a path or bytes.
COUNTS = {"exit": 1, "kill": 2, "sigaction": 2, "close": 1, "seek": 2, "dup": 1, "listen": 1, "connect": 1, "accept": 1,
          "device": 1, "wait": 1}


def signed(number):
    return number - 2 ** 64 if number >= 2 ** 63 else number


def bytes_text(data):
    """Bytes of an event, cut where they are many."""
    return texts.quoted(data[:MOST_SHOWN]) + (".." if len(data) > MOST_SHOWN else "")


def path_of(event):
    return texts.quoted(event.name) if event.name is not None else "?"


def arguments(event, registers):
    """The arguments of a call in words; `?` for what isn't known."""
    what = event.what
    if what in ("read", "write"):
        data = bytes_text(event.data or b"") if event.data is not None or event.length == 0 else "?"
        descriptor, count = (signed(registers[10]), registers[12]) if registers else ("?", "?")
        return f"{descriptor}, {data}, {count}"
    if what == "open":
        return f"{path_of(event)}, {registers[12] if registers else '?'}"
    if what in ("exec", "unlink"):
        return path_of(event)
    if what == "wait" and event.data:
        return f"status {event.data[0]}"
    count = COUNTS.get(what, 0)
    if not registers:
        return ", ".join("?" * count)
    return ", ".join(str(signed(registers[10 + k])) for k in range(count))


def result(event):
    """What a call came to."""
    if event.result < 0:
        return f"-1 {ERRORS.get(-event.result, -event.result)}"
    if event.what == "pipe":
        return f"{event.result & 255}, {event.result >> 8}"
    return str(event.result)


def line(event, registers):
    """An event in one line, without its number."""
    if event.kind == "call" and event.what == "exit":
        return f"{event.process} exit({event.data[0] if event.data else '?'})"
    if event.kind == "call":
        return f"{event.process} {event.what}({arguments(event, registers)}) = {result(event)}"
    if event.kind == "signal":
        ended = f", ended with status {event.status}" if event.status is not None else ""
        return f"{event.process} signal {event.signal}{ended}"
    if event.kind == "end":
        return f"{event.process} fault, ended with status {event.status}"
    if event.kind == "boot":
        return f"1 boot {path_of(event)}"
    if event.kind == "file":
        return f"- file {path_of(event)}, {texts.plural(event.length, 'byte')}"
    if event.kind == "type":
        return f"- typed {bytes_text(event.data)}"
    return f"- device {event.device} unplugged"
