"""What tools/history shows of a log: events with their calls, bytes and sources, and what groups exchanged."""
import base64
import os

from arnold_log import Fault
from history_calls import Descriptors, argument_text, ask_arguments, ask_memory, cost_of_arguments, result_text, text_of

# How many instructions may run again for arguments of calls, and how many instructions and received bytes may be followed again
# for ways, where nobody asked for them.
MOST_FOR_ARGUMENTS = 200_000_000
MOST_FOR_WAYS = 500_000_000

# How many bytes of an output are kept, how many of an input's sources, and how many on each side of one.
MOST_OF_OUTPUT = 4096
MOST_OF_SOURCES = 65536
AROUND = 32


class SourceRuns:
    """The pairs of an answer as runs. A run is [first byte, how many bytes, ranges]: each of its bytes has as many ranges of
    source bytes, [event, place, how many, step], of which the place grows by the step from one byte to the next."""

    def __init__(self):
        self.runs, self.byte, self.ranges = [], None, []

    def add(self, event, place, byte):
        if byte != self.byte:
            self.end_byte()
            self.byte, self.ranges = byte, []
        last = self.ranges[-1] if self.ranges else None
        if last and last[0] == event and last[1] + last[2] == place:
            last[2] += 1
        else:
            self.ranges.append([event, place, 1, 0])

    def steps_to(self, run):
        """The steps with which the byte at hand goes on with a run, or None."""
        first, count, ranges = run
        if first + count != self.byte or len(ranges) != len(self.ranges):
            return None
        steps = []
        for (event, place, length, step), (next_event, next_place, next_length, _) in zip(ranges, self.ranges):
            step = next_place - place if count == 1 else step
            if next_event != event or next_length != length or step not in (0, 1) or next_place != place + step * count:
                return None
            steps.append(step)
        return steps

    def end_byte(self):
        if self.byte is None:
            return
        steps = self.steps_to(self.runs[-1]) if self.runs else None
        if steps is None:
            self.runs.append([self.byte, 1, self.ranges])
        else:
            self.runs[-1][1] += 1
            for known, step in zip(self.runs[-1][2], steps):
                known[3] = step

    def all(self):
        self.end_byte()
        self.byte = None
        return self.runs


def check_same(history, session):
    """Fails where the program reports other events or groups than were read from the log here."""
    reported, groups = (answer.lines for answer in session.ask(["events", "groups"]))
    if reported[-1] != ["events", str(len(history.events))]:
        raise Fault(f"the program reports {' '.join(reported[-1])}, and the log has {len(history.events)}")
    for event, words in zip(history.events, reported):
        process = "-" if event.process is None else event.process
        if words[1:] != [str(part) for part in (event.number, event.moment, process, event.word, event.length)]:
            raise Fault(f"the program reports {' '.join(words)}, and the log has another event {event.number}")
    ran = {int(words[1]): int(words[5]) for words in groups[:-1]}
    if ran != history.instructions:
        raise Fault("the program reports other groups than the log has")


def role_of(event):
    """What the event does with bytes: brings them, puts them out, receives some, gives some, or none of these."""
    if event.is_input:
        return "input"
    if event.is_output:
        return "output"
    if event.is_received:
        return "received"
    return "given" if event.length else "other"


def senders_before(history, outputs):
    """The events that gave bytes which may have come to outputs, through any groups: those of which the ways lead."""
    events, wanted, until = history.events, set(), {}
    received, begun = {}, {}
    for event in events:
        if event.is_received:
            received.setdefault(event.group, []).append(event)
        if event.did == "start":
            begun[event.result] = event
    left = [events[number] for number in outputs]
    while left:
        event = left.pop()
        done, until[event.group] = until.get(event.group, -1), max(until.get(event.group, -1), event.number)
        for earlier in received.get(event.group, ()):
            if done <= earlier.number < event.number:
                for origin, _, _ in earlier.origins:
                    if origin not in wanted and not events[origin].is_input:
                        wanted.add(origin)
                        left.append(events[origin])
        if done < 0 and event.group in begun:
            left.append(begun[event.group])
    return wanted - set(outputs)


def ask_sources(history, session, linkage, numbers, report):
    """Of each event of these numbers the runs of its bytes' sources."""
    asked = [number for number in numbers if history.events[number].length > 0]
    lines = [f"back {linkage} event {number} 0 {min(history.events[number].length, 65536)}" for number in asked]
    found = {}
    for done, (answer, number) in enumerate(zip(session.ask(lines), asked)):
        report(done, len(asked))
        runs, last = SourceRuns(), None
        for words in answer:
            if words[0] == "pair":
                runs.add(int(words[1]), int(words[2]), int(words[3]))
            last = words
        if last[0] != "back":
            raise Fault(f"the program reports no sources of event {number}, but {' '.join(last)}")
        found[number] = runs.all()
    return found


def ranges_kept(event, sources, outputs, most):
    """Which ranges of an event's bytes the page keeps: the first ones, all of an output, and what is around sources."""
    first = min(event.length, max(most, MOST_OF_OUTPUT) if event.number in outputs else most)
    kept = [[0, first]] if first else []
    for begin, end in sorted(sources):
        begin, end = max(0, begin - AROUND), min(event.length, end + AROUND)
        if kept and begin <= kept[-1][1]:
            kept[-1][1] = max(kept[-1][1], end)
        elif sum(high - low for low, high in kept) < MOST_OF_SOURCES:
            kept.append([begin, end])
    return kept


def source_ranges(found, outputs):
    """Which bytes of each event are sources of outputs."""
    ranges = {}
    for number in outputs:
        for _, count, sources in found.get(number, ()):
            for event, place, length, step in sources:
                ranges.setdefault(event, set()).add((place, place + length + step * (count - 1)))
    return ranges


def event_data(event, argument, kept, runs):
    """One event as the page has it. The argument is what its call was made with, in words."""
    data = {"m": event.moment, "w": event.what, "a": argument, "r": result_text(event), "n": event.length, "x": role_of(event)}
    if event.process is not None:
        data.update(p=event.process, g=event.group)
    if event.data is not None and kept:
        data["b"] = [[low, base64.b64encode(event.data[low:high]).decode()] for low, high in kept]
    if event.origins:
        data["o"] = event.origins
    if event.what == "fork" and event.result >= 0:
        data["child"] = event.result
    if runs is not None:
        data["s"] = runs
    return data


def file_names(history):
    """The names of files by their numbers, as records of opened files have them."""
    return {event.file: text_of(event.name) for event in history.events if event.what == "open" and event.file is not None}


def outside_of(event):
    """Where bytes came from, of an event without a process."""
    return "typed" if event.kind == "type" else f"file {text_of(event.name)}"


def written_to(event, names):
    """Where the bytes of an output went."""
    if event.did == "console":
        return "console"
    return f"file {names.get(event.file, event.file)}" if event.did == "put" else f"device {event.device}"


def target_of(event, names):
    """The same as a node of the graph."""
    return "console" if event.did == "console" else f"to {written_to(event, names)}"


def exchange(history):
    """What went from where to where: [from, to, bytes, forks]. A group is named by its number; a name that begins with `to`, and
    the console, take bytes."""
    edges, names = {}, file_names(history)

    def add(source, target, count, forks=0):
        edge = edges.setdefault((source, target), [0, 0])
        edge[0] += count
        edge[1] += forks

    for event in history.events:
        for number, _, length in event.origins:
            origin = history.events[number]
            source = origin.group if origin.group is not None else outside_of(origin)
            if source != event.group:
                add(source, event.group, length)
        if event.did == "reply":
            add(f"device {event.device}", event.group, event.length)
        elif event.did == "start":
            add(event.group, event.result, 0, 1)
        elif event.is_output:
            add(event.group, target_of(event, names), event.length)
    return [[source, target, *counts] for (source, target), counts in edges.items()]


def chosen_outputs(history, options, notes):
    """The outputs whose sources are asked for."""
    outputs = [event.number for event in history.events if event.is_output]
    if options.outputs:
        wrong = sorted(options.outputs - set(outputs))
        if wrong:
            raise Fault(f"event {wrong[0]} is no output")
        chosen = sorted(options.outputs)
    else:
        chosen = outputs[-options.most:] if options.most else []
    if len(chosen) < len(outputs):
        notes.append(f"The page has the sources of {len(chosen)} of {len(outputs)} outputs.")
    return chosen


def asked_arguments(history, session, options, notes):
    """The registers of calls, if they are asked for."""
    cost = cost_of_arguments(history)
    if options.arguments == "yes" or options.arguments == "auto" and cost <= MOST_FOR_ARGUMENTS:
        return ask_arguments(history, session)
    notes.append(f"The page has no arguments of calls: these would run {cost:,} instructions again (--arguments yes).")
    return {}


def cost_of_ways(history, senders):
    """How many instructions and received bytes are followed again at most, where the sources of these events are asked for."""
    cost = got = 0
    for event in history.events:
        cost += event.moment + got if event.number in senders else 0
        got += event.length if event.is_received else 0
    return cost


def asked_senders(history, outputs, options, notes):
    """The events between inputs and outputs whose sources are asked for as well; None where the page has no ways."""
    if options.ways == "no":
        return None
    senders = senders_before(history, outputs)
    most = cost_of_ways(history, senders)
    if options.ways == "yes" or most <= MOST_FOR_WAYS:
        return senders
    notes.append(f"The page has no ways: these might follow {most:,} instructions and received bytes again (--ways yes).")
    return None


def events_data(history, registers, found, outputs, most):
    """All events as the page has them."""
    ranges, descriptors, names = source_ranges(found, outputs), Descriptors(), file_names(history)
    for event in history.events:
        words = registers.get(event.number)
        kept = ranges_kept(event, ranges.get(event.number, ()), outputs, most)
        argument = argument_text(event, words, descriptors) or (written_to(event, names) if event.is_output else "")
        yield event_data(event, argument, kept, found.get(event.number))
        descriptors.happen(event, words[10] if words else None)


def groups_data(history):
    """Each group: its number, how many instructions it ran, and its processes."""
    for group, count in sorted(history.instructions.items()):
        yield [group, count, [process for process, own in history.groups.items() if own == group]]


def page_data(history, session, log, options, report):
    """All that the page shows."""
    notes = []
    check_same(history, session)
    registers = asked_arguments(history, session, options, notes)
    ask_memory(history, session, registers)
    outputs = chosen_outputs(history, options, notes)
    senders = asked_senders(history, outputs, options, notes)
    found = ask_sources(history, session, options.linkage, outputs + sorted(senders or ()), report)
    return {"log": os.path.basename(log), "linkage": options.linkage, "total": history.total, "notes": notes, "outputs": outputs,
            "ways": senders is not None, "inputs": [event.number for event in history.events if event.is_input],
            "groups": list(groups_data(history)), "edges": exchange(history),
            "events": list(events_data(history, registers, found, outputs, options.bytes))}
