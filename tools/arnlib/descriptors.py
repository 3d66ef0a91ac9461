"""What a descriptor of a process is, by the events of a history."""
CONSOLE, UNKNOWN = "the console", "what isn't known"
MADE = {"open": "a file", "listen": "a port", "connect": "a connection", "accept": "a connection", "device": "a device"}


def made(event, descriptor):
    """Whether a call made this descriptor."""
    if event.kind != "call" or event.result is None or event.result < 0:
        return False
    if event.what == "pipe":
        return descriptor in (event.result & 255, event.result >> 8)
    return event.what in (*MADE, "dup") and event.result == descriptor


def forked(history, process, before):
    """The event before another one with which a process began as a child, or None."""
    return next((event for event in history.events[:before] if event.what == "fork" and event.result == process), None)


def what_is(history, process, descriptor, argument, before=None):
    """What a descriptor is before an event, or at the end. `argument(event)` gives the first argument of a call.

    It is what the last call made that had it as a result, of the process or, before a fork, of its parent. A process begins with
    the console as the first three.
    """
    before = len(history.events) if before is None else before
    while True:
        fork = forked(history, process, before)
        for event in reversed(history.events[fork.number if fork else 0:before]):
            if event.process == process and made(event, descriptor):
                if event.what == "dup":
                    return what_is(history, process, argument(event), argument, event.number)
                return MADE.get(event.what, "a pipe")
        if fork is None:
            return CONSOLE if descriptor < 3 else UNKNOWN
        process, before = fork.process, fork.number
