"""How recordings end: by an exit, a fault or a signal of process 1, by waiting for what never comes, or from outside."""
import json
from typing import NamedTuple

import arnold_log
from arnlib import descriptors, sources, symbols, texts
from arnlib.faults import FAILED, Fault, say
from arnlib.program import FULL

WAITS = 124
# Why a process ends by a fault, by its status and by what its instruction is.
OUTSIDE = 139
FAULTS = {132: "a word that is no instruction", 133: "an EBREAK", 135: "a jump to an address that is no multiple of 4"}
ACCESSES = {0x03: "load outside its memory", 0x23: "store outside its memory"}
# The calls whose first argument is a descriptor on which they may wait.
ON_DESCRIPTORS = ("read", "write", "accept")


class Ending(NamedTuple):
    """How a recording ended: in a word, by the status of `arn`, in a sentence, and what else `--json` tells of it."""
    how: str
    status: int
    said: str
    parts: dict = {}


def report(ending, is_json):
    """Prints the last line of standard error, and gives the status."""
    if is_json:
        say(json.dumps({"how": ending.how, "status": ending.status, "said": ending.said, **ending.parts}))
    else:
        say(texts.safe(ending.said))
    return ending.status


def failed(said):
    """The ending where `arn` itself fails."""
    return Ending("failed", FAILED, f"arn: {said}")


def killed(recording, name):
    """The ending at a second signal."""
    said = f"{name}: it was stopped at once; what was committed is in {texts.safe(recording.log)}; `arn resume` runs it on"
    return Ending("interrupted", recording.signals.status, said, {"log": recording.log})


def why_ended(ended, log):
    """Why `arnold` ended by itself."""
    if ended.code == FULL:
        try:
            held = arnold_log.read_history(log).total
            return f"{texts.safe(log)}: the log is full: it holds {texts.plural(held, 'instruction')}"
        except arnold_log.Fault:
            pass
    return str(ended)


def ending_of(history, process=1):
    """The event with which a process ended, or None."""
    for event in history.events:
        if event.process == process and (event.what in ("exit", "end") or event.kind == "signal" and event.handler == 0):
            return event
    return None


def total(recording):
    """How many instructions have run in the whole history."""
    return sum(int(words[5]) for words in recording.dialogue.ask("groups") if words[0] == "group")


def live(recording):
    """The moment, and the numbers of the processes that live now."""
    moment = total(recording)
    return moment, [int(words[1]) for words in list(recording.dialogue.ask(f"show {moment} procs")) if words[0] == "proc"]


def has_ended(recording):
    """Whether no process lives any more."""
    return not live(recording)[1]


def registers(recording, moment, process):
    """The registers of a process at a moment; the place of its instruction stands for x0."""
    words = recording.dialogue.last(f"show {moment} regs {process}")
    if words[0] != "regs":
        raise Fault(sources.refusal(words), FAILED)
    return [int(word, 16) for word in words[1:]]


def waiting(recording):
    """Of each live process, its number and its registers."""
    moment, processes = live(recording)
    return [(process, registers(recording, moment, process)) for process in processes]


def described(recording, history):
    """A function that says what a descriptor of a process is now."""
    asked = lambda event: registers(recording, event.moment - 1, event.process)[10]
    return lambda process, descriptor: descriptors.what_is(history, process, descriptor, asked)


def wants_line(recording):
    """Whether a process waits in a read of the console."""
    what_is = described(recording, arnold_log.read_history(recording.log))
    return any(arnold_log.call_name(at[17]) == "read" and what_is(process, at[10]) == descriptors.CONSOLE
               for process, at in waiting(recording))


def waits(recording):
    """Who waits for what never comes."""
    what_is, said = described(recording, arnold_log.read_history(recording.log)), []
    for process, at in waiting(recording):
        call = arnold_log.call_name(at[17])
        of = f" of {what_is(process, at[10])} (descriptor {at[10]})" if call in ON_DESCRIPTORS else ""
        said.append(f"process {process} waits in {call}{of}")
    return "; ".join(said) or "no process can go on"


def exit_status(recording, event):
    """The status byte of an exit: what is in x10 at the moment before it."""
    return registers(recording, event.moment - 1, event.process)[10] & 0xff


def fault_reason(recording, event):
    """Why an instruction ended its process, and where: a text and an address."""
    place = registers(recording, event.moment - 1, event.process)[0]
    if event.status != OUTSIDE:
        return FAULTS.get(event.status, "a fault"), place
    words = recording.dialogue.last(f"show {event.moment - 1} mem {event.process} {place:#x} 4")
    if words[0] != "mem":
        return "no memory where it would run", place
    return ACCESSES.get(int(words[1][:2], 16) & 0x7f, "outside its memory"), place


def of_process(recording, history, event):
    """How a process ended by itself."""
    if event.what == "exit":
        status = exit_status(recording, event)
        return Ending("exit", status, f"status {status}")
    if event.what != "end":
        return Ending("signal", event.status, f"ended by signal {event.signal}, status {event.status}", {"signal": event.signal})
    reason, place = fault_reason(recording, event)
    named = symbols.Programs(recording.log, history)
    where = named.calls(recording.dialogue, event.process, event.number, event.moment - 1, place)
    parts = {"moment": event.moment - 1, "reason": reason, "where": where}
    return Ending("fault", event.status, f"fault {event.status} at moment {event.moment - 1}: {reason}, {where}", parts)


def told(recording, name, stop):
    """How a recording ended, with what its log holds. `stop` is why it stopped where it didn't end by itself."""
    history = arnold_log.read_history(recording.log)
    event = ending_of(history)
    ending = of_process(recording, history, event) if event else stop or Ending("waits", WAITS, "it hasn't ended")
    ran, happened = texts.plural(history.total, "instruction"), texts.plural(len(history.events), "event")
    counts = f"{ran}, {happened}, log {texts.safe(recording.log)}"
    said = f"{name}: {ending.said}, {counts}" + (f"; {stop.said}" if event and stop else "")
    parts = {"program": name, **ending.parts, "instructions": history.total, "events": len(history.events), "log": recording.log}
    return ending._replace(said=said, parts=parts)
