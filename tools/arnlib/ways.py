"""The ways of bytes: the events between inputs and an output, and where in the program each call was made.

From one process to another a way is exact: a read's record names the event and the place of each byte that was received. Inside a
group of processes the program doesn't answer which of several receipts of a byte was used, so these are told as `one of`.
"""
import bisect
import collections
from typing import NamedTuple

from arnlib import sources
from arnlib.past import Past

# How many instructions and received bytes are followed again for ways at most, where nobody asked for them.
MOST_FOLLOWED = 500_000_000
# The registers in which a program begins with the address of its argument block and its length, and how long that is at most.
BLOCK, BLOCK_LENGTH, MOST_BLOCK = 10, 11, 4096


class Point(NamedTuple):
    """Where a way ends that ends in no event: in a group of processes, before the event of this number."""
    number: int
    group: int | None


class Ways:
    """Asks for the ways in a log. `inputs` is where bytes came in. What came before the event `launched` is no step of a way."""

    def __init__(self, log, history, inputs, launched):
        self.log, self.events, self.inputs, self.launched = log, history.events, inputs, launched
        self.received, self.begun, self.asked = {}, {}, {}
        self.alone = collections.Counter(history.groups.values())
        for event in self.events[launched + 1:]:
            if event.is_received:
                self.received.setdefault(event.group, []).append(event)
            if event.did == "start":
                self.begun[event.result] = event

    def receipts(self, event):
        """What the group of an event had received before it."""
        return [one for one in self.received.get(event.group, ()) if one.number < event.number]

    def senders(self, end):
        """The events that gave bytes which may have come to an event or a point, through any groups."""
        found, left, seen = set(), [end], {end.number}
        while left:
            event = left.pop()
            before = {origin for one in self.receipts(event) for origin, _, _ in one.origins if not self.is_outside(origin)}
            if event.group in self.begun:
                before.add(self.begun[event.group].number)
            found |= {origin for origin in before if self.events[origin].length}
            left += [self.events[origin] for origin in before - seen]
            seen |= before
        return found

    def cost(self, end):
        """How many instructions and received bytes are followed again at most for the ways to an event or a point."""
        cost = got = 0
        senders = self.senders(end)
        for event in self.events:
            cost += event.moment + got if event.number in senders else 0
            got += event.length if event.is_received else 0
        return cost

    def sources(self, linkage, number):
        """Of each byte of an event the places in inputs that it came from."""
        key = linkage, number
        if key not in self.asked:
            part = min(self.events[number].length, sources.MOST_RANGE), lambda at, count: f"event {number} {at} {count}"
            self.asked[key] = sources.back(self.log, self.inputs, linkage, [part])
        return self.asked[key]

    def is_outside(self, number):
        """Whether an event isn't the program's: it came in, or the launcher made it of what came in."""
        return self.events[number].is_input or number <= self.launched

    def carried(self, linkage, receipt, wanted, places):
        """Of each event of which a receipt has some of the wanted source bytes, which these are. `places` has them by words."""
        found = {}
        for number, place, length in receipt.origins:
            if self.is_outside(number):
                stretch, offset = self.inputs.find(number, place) or (None, 0)
                sought = places.get(stretch.name, ()) if stretch else ()
                here = {(stretch.name, at) for at in within(sought, place + offset, length)}
            else:
                given = self.sources(linkage, number)
                here = {one for at in range(place, place + length) for one in given.get(at, ())} & wanted
            if here:
                found.setdefault(number, set()).update(here)
        return found

    def started_anew(self, event):
        """The last exec of a group before an event: what the group had before is gone, but for the block that was handed over. None
        where there is none, or where the group has several processes."""
        if self.alone.get(event.group) != 1:
            return None
        return next((one for one in reversed(self.receipts(event)) if one.what == "exec"), None)

    def handed_over(self, linkage, started):
        """The places in inputs that the argument block of an exec came from."""
        key = linkage, -started.number
        if key not in self.asked:
            moment, process = started.moment, started.process
            _, registers = Past(self.log, moment, process).registers
            begin, length = registers[BLOCK], registers[BLOCK_LENGTH]
            part = length, lambda at, count: f"mem {moment} {process} {begin + at:#x} {count}"
            found = sources.back(self.log, self.inputs, linkage, [part]) if length <= MOST_BLOCK else {}
            self.asked[key] = {one for here in found.values() for one in here}
        return self.asked[key]

    def step(self, linkage, event, wanted):
        """How the wanted bytes came to an event's group: of each receipt, or of the fork that began the group, which of them it
        had; and the events in front of these, with the bytes that are wanted of them."""
        layer, before, places, started = {}, {}, by_words(wanted), self.started_anew(event)
        for receipt in self.receipts(event):
            if started is not None and receipt.number < started.number:
                continue
            for number, here in self.carried(linkage, receipt, wanted, places).items():
                layer.setdefault(receipt.number, set()).update(here)
                if not self.is_outside(number):
                    before.setdefault(number, set()).update(here)
        fork = self.begun.get(event.group)
        if started is not None:
            here = self.handed_over(linkage, started) & wanted
            if here:
                layer[started.number] = before[started.number] = here
        elif fork is not None:
            earlier, _ = self.step(linkage, fork, wanted)
            if earlier:
                layer[fork.number] = before[fork.number] = set().union(*earlier.values())
        return layer, before

    def to(self, linkage, end, wanted):
        """The way of source bytes to an event or a point: steps, each some events, and whether it is by one of these alone."""
        steps, seen = [], set()
        layer, before = self.step(linkage, end, wanted)
        while layer:
            add_step(steps, layer)
            add_step(steps, {one: here for one, here in before.items() if one not in layer})
            after = {one: here for one, here in before.items() if one not in seen}
            seen |= set(after)
            layer, before = {}, {}
            for event, bytes_of in after.items():
                received, given = self.step(linkage, self.events[event], bytes_of)
                add_to(layer, received)
                add_to(before, given)
        return steps[::-1]


def add_to(found, more):
    """Adds the bytes of some events to those that are found."""
    for one, here in more.items():
        found.setdefault(one, set()).update(here)


def by_words(wanted):
    """Source bytes by the words of their stretches: of each the places in it, in order."""
    found = {}
    for word, at in sorted(wanted):
        found.setdefault(word, []).append(at)
    return found


def within(places, first, length):
    """Those of some places, in order, that are in a range."""
    return places[bisect.bisect_left(places, first):bisect.bisect_left(places, first + length)]


def add_step(steps, layer):
    """Adds a step of a way, if there is one."""
    if layer:
        several = sum(map(len, layer.values())) > len(set().union(*layer.values()))
        steps.append((sorted(layer), several))


def told(steps, place_of):
    """A way in words. `place_of` says of an event where its call was made."""
    said = []
    for events, several in steps:
        names = [f"{event} {place}" if (place := place_of(event)) else str(event) for event in events]
        said.append(("one of " if several else "") + (", " if several else " and ").join(names))
    return " > ".join(said)
