"""A recording while it is made: gives the program its lines, runs it, copies its console, and takes lines of a terminal."""
import os
import signal
import sys
import time

from arnlib import endings, texts
from arnlib.endings import Ending
from arnlib.faults import CLOSED, FAILED, HUNG_UP, INTERRUPTED, TERMINATED, Fault, say
from arnlib.program import Dialogue, Ended

AT_ONCE = 20_000_000
PROGRESS_AFTER, PROGRESS_EACH, PROGRESS_WIDTH = 2.0, 0.5, 70
SIGNALS = {signal.SIGINT: INTERRUPTED, signal.SIGTERM: TERMINATED, signal.SIGHUP: HUNG_UP}
# The byte that the SDK's library takes as the end of what is typed, and how much is taken of a terminal at once.
END_OF_INPUT, MOST_TYPED = b"\x04", 65_536


class Interrupted(Exception):
    """A signal came while a line of the terminal was waited for."""


class Signals:
    """Ctrl-C and its like: the first ends the recording after the line at hand, or earlier where the program writes, the second
    at once."""

    def __init__(self, kill):
        """`kill` ends the program at once."""
        self.status, self.is_waiting, self.is_killed, self.kill = None, False, False, kill
        for number in SIGNALS:
            if signal.getsignal(number) != signal.SIG_IGN:
                signal.signal(number, self.happen)

    def happen(self, number, frame):
        if self.status is not None:
            self.is_killed = True
            self.kill()
        self.status = self.status or SIGNALS[number]
        if self.is_waiting:
            raise Interrupted


class Progress:
    """A line on standard error that says how far a long recording is, where somebody looks."""

    def __init__(self):
        self.begun = self.last = time.monotonic()
        self.is_shown, self.is_watched = False, sys.stderr.isatty()

    def show(self, instructions):
        now = time.monotonic()
        if self.is_watched and now - self.begun > PROGRESS_AFTER and now - self.last > PROGRESS_EACH:
            rate = instructions / (now - self.begun) / 1e6
            say(f"\r{instructions:,} instructions, {rate:.0f} million a second ", end="")
            self.last, self.is_shown = now, True

    def hide(self):
        if self.is_shown:
            say("\r" + " " * PROGRESS_WIDTH + "\r", end="")
            self.is_shown = False


class Recording:
    """The program while it records. `most` is how many instructions it runs at most. `collected` is a list that gets what is
    written to the console; it is copied to standard output where that is None."""

    def __init__(self, program, log, words, most, collected=None):
        self.collected = collected
        self.program, self.log, self.most, self.ran, self.is_closed = program, log, most, 0, False
        self.progress = Progress()
        self.dialogue = Dialogue(program, log, words)
        self.signals = Signals(lambda: self.dialogue.process.kill())

    def __enter__(self):
        return self

    def __exit__(self, *failure):
        self.progress.hide()
        self.dialogue.close()

    def give(self, lines):
        """Gives the lines up to the boot. None of them is refused."""
        in_block = False
        for line in lines:
            self.dialogue.send(line)
            in_block = line.startswith("asm ") or in_block and line != "end"
            if not in_block:
                answer = self.dialogue.line()
                if not answer.startswith(b"event "):
                    raise Fault(f"the line {line[:40]} is refused: {answer.decode()}", FAILED)

    def copy(self, data):
        """Copies what was written to the console."""
        if self.collected is not None:
            self.collected.append(data)
            return
        if self.is_closed:
            return
        self.progress.hide()
        try:
            sys.stdout.buffer.write(data)
            sys.stdout.buffer.flush()
        except BrokenPipeError:
            self.is_closed = True
        except OSError as error:
            raise Fault(f"standard output: {error.strerror}; {texts.safe(self.log)} has what ran until then", FAILED) from None

    def run_line(self):
        """Runs the program by one line, and gives how many instructions ran and how the run ended."""
        left = AT_ONCE if self.most is None else min(AT_ONCE, self.most - self.ran)
        self.dialogue.send(f"run {left}")
        while (line := self.dialogue.line()).startswith(b"out "):
            self.copy(texts.bytes_of(line.rsplit(b" ", 1)[1].decode()))
            if self.stop() is not None:
                return self.leave_line()
        words = line.decode().split(" ")
        if words[0] != "ran":
            raise Fault(f"the program answers {line.decode()}", FAILED)
        self.ran += int(words[1])
        self.progress.show(self.ran)
        return int(words[1]), words[2]

    def leave_line(self):
        """Ends a line before its end: the program ends where it next prints. What ran until then is in the log, which is asked
        anew."""
        self.dialogue.close()
        self.dialogue = Dialogue(self.program, self.log)
        return 0, "left"

    def stop(self):
        """The ending that came from outside, if one did."""
        if self.signals.status is not None:
            return Ending("interrupted", self.signals.status, "it was interrupted; `arn resume` runs it on")
        if self.is_closed:
            return Ending("closed", CLOSED, "standard output was closed; `arn resume` runs it on")
        return None

    def run(self, terminal):
        """Runs the program to its end. `terminal` is the descriptor of one, or None. Gives None where all processes ended."""
        is_typed = False
        while True:
            ran, end = self.run_line()
            stop = self.stop()
            if end == "done" or stop is not None:
                return stop
            if end == "budget" and self.most is not None and self.ran >= self.most:
                said = f"{texts.plural(self.ran, 'instruction')} have run; `arn resume` runs it on"
                return Ending("most", endings.WAITS, said)
            if end == "stalled":
                takes_lines = terminal is not None and not (is_typed and ran == 0) and endings.wants_line(self)
                if not (takes_lines and self.take_line(terminal)):
                    return self.stop() or Ending("waits", endings.WAITS, endings.waits(self))
            is_typed = end == "stalled"

    def take_line(self, terminal):
        """Types a line of the terminal, or the end of the input. False says that a signal came."""
        self.signals.is_waiting = True
        try:
            if self.signals.status is not None:
                return False
            data = os.read(terminal, MOST_TYPED) or END_OF_INPUT
        except Interrupted:
            return False
        except OSError:
            data = END_OF_INPUT
        finally:
            self.signals.is_waiting = False
        self.dialogue.last(f"type {data.hex()}")
        return True


def conduct(arnold, log, words, options, lines, name, terminal, collected=None):
    """Makes a recording, or goes on with one where `lines` is None. Gives how it ended; nothing that goes wrong is raised."""
    try:
        with Recording(arnold, log, words, options.most, collected) as recording:
            try:
                if lines is not None:
                    recording.give(lines)
                has_ended = lines is None and endings.has_ended(recording)
                stop = None if has_ended else recording.run(terminal)
                return endings.told(recording, name, stop)
            except Ended as ended:
                if not recording.signals.is_killed:
                    raise
                return endings.killed(recording, name)
    except Ended as ended:
        return endings.failed(endings.why_ended(ended, log))
    except Fault as fault:
        return endings.failed(str(fault))
