"""`arn record --try`: records a program in many orders, and groups the recordings by what came of them."""
import os

import arnold_log
from arnlib import asking, places, record, texts
from arnlib.faults import FOUND, NOTHING, Fault, say

MOST_TRIES = 100_000
# How many bytes of what was written are shown of a group.
MOST_SHOWN = 48
# The devices that give bytes which differ from time to time, or with the seed.
CHANGING = {0: "the clock", 1: "the entropy device"}


class Group:
    """Recordings of which the same came: how they ended, what was written, how many they are, and the first."""

    def __init__(self, seed, log, ending, written):
        self.seed, self.log, self.ending, self.written, self.count = seed, log, ending, written, 1

    def print(self, tries, is_json):
        how = f"{self.ending.how}, status {self.ending.status}"
        if is_json:
            asking.print_object(count=self.count, seed=self.seed, log=self.log, how=self.ending.how, status=self.ending.status,
                                **texts.as_json(self.written))
            return
        shown = texts.quoted(self.written[:MOST_SHOWN]) + (".." if len(self.written) > MOST_SHOWN else "")
        print(f"{self.count:,} of {tries:,}: {how}, wrote {shown}, first seed {self.seed}, log {texts.safe(self.log)}")


def by_process(history):
    """What each process wrote, in order of process."""
    written, launched = {}, places.launch(history)
    for event in history.events[launched + 1:]:
        if event.is_output:
            written[event.process] = written.get(event.process, b"") + event.data
    return tuple(sorted(written.items()))


def run(options):
    """Records as often as the words say, prints the groups, and gives the status."""
    tries = record.number(options.tries, "--try", 1, MOST_TRIES)
    first = record.number(options.seed, "--seed", 0, record.MOST_SEED - tries) or 0
    if options.round is not None:
        raise Fault("--try records in random orders: no --round beside it")
    options.seed, options.random = None, True
    wanted = record.prepared(options)
    if wanted.typed is not None:
        raise Fault("--try takes no input of a terminal")
    base = options.log.removesuffix(".log") if options.log is not None else wanted.name
    seeds = range(first, first + tries)
    for seed in seeds:
        record.refuse_there(f"{base}.seed{seed}.log")
    groups, devices = {}, set()
    for seed in seeds:
        ending = one(options, wanted, f"{base}.seed{seed}.log", seed, groups, devices)
        if ending.how in ("failed", "interrupted"):
            break
    for group in groups.values():
        group.print(tries, options.json)
    for device in sorted(devices):
        say(f"arn: it read {CHANGING[device]}, device {device}: what that gave differs too")
    if ending.how in ("failed", "interrupted"):
        raise Fault(ending.said.removeprefix("arn: "), ending.status)
    return FOUND if len(groups) == 1 else NOTHING


def one(options, wanted, log, seed, groups, devices):
    """Makes one recording, and keeps its log where it is the first of its group. Gives how it ended."""
    collected = []
    ending = record.made_as(wanted, options, record.new_log(log, wanted.name), ["--seed", str(seed)], collected)
    if ending.how in ("failed", "interrupted"):
        if os.path.exists(log):
            record.drop(log)
        return ending
    history, written = arnold_log.read_history(log), b"".join(collected)
    devices.update(event.device for event in history.events if event.did == "reply" and event.device in CHANGING)
    key = ending.how, ending.status, by_process(history) if options.by_process else written
    if key in groups:
        groups[key].count += 1
        record.drop(log)
    else:
        groups[key] = Group(seed, log, ending, written)
    return ending
