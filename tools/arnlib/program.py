"""The program `arnold`: where it is, and a dialogue with it."""
import os
import subprocess

from arnlib.faults import Fault

HERE = os.path.dirname(os.path.realpath(__file__))
TOP = os.path.dirname(os.path.dirname(HERE))
# Where the program is: beside an installed `arn`, or as it is built in the repository.
PLACES = (os.path.join(os.path.dirname(HERE), "arnold"), os.path.join(TOP, "crates", "arnold", "out", "arnold"))
VARIABLE = "ARNOLD"

# The word with which each line of an answer begins, but the last.
REPEATED = {"run": "out", "back": "pair", "forth": "pair", "groups": "group", "events": "event", "show": "proc"}

# What the statuses of a session mean (docs/SESSION.md).
DISK, DAMAGED, NO_MEMORY, FULL = 3, 4, 5, 8


def find_program(named=None):
    """The path of the program: the one that is named, that of the variable ARNOLD, or one of the places."""
    wanted = named or os.environ.get(VARIABLE)
    for path in (wanted,) if wanted else PLACES:
        if os.path.isfile(path) and os.access(path, os.X_OK):
            return os.path.realpath(path)
    raise Fault(f"there is no program {wanted}" if wanted else "the program arnold isn't built: ./build makes it")


class Ended(Fault):
    """The program ended before it answered: with a status, and with what it said."""

    def __init__(self, status, said):
        super().__init__(f"arnold ended with status {status}" + (f": {said}" if said else ""))
        self.code, self.said = status, said


class Dialogue:
    """The program while it answers lines on a log, one after the other.

        with Dialogue(program, log) as dialogue:
            for words in dialogue.ask("groups"):
                print(words)

    `ask` gives the lines of an answer as lists of words. `last` is the last of them alone, for answers of one line.
    """

    def __init__(self, program, log, words=(), **streams):
        self.process = subprocess.Popen([program, *words, "--", log], stdin=subprocess.PIPE, stdout=subprocess.PIPE,
                                        stderr=subprocess.PIPE, start_new_session=True, **streams)

    def __enter__(self):
        return self

    def __exit__(self, failure, *_):
        """Ends the session; at once where something went wrong, such as Ctrl-C while an answer is waited for."""
        if failure is not None:
            self.process.kill()
        self.close()

    def close(self):
        """Ends the session. A line at hand is answered first."""
        for stream in (self.process.stdin, self.process.stdout):
            try:
                stream.close()
            except BrokenPipeError:
                pass
        self.process.wait()
        self.process.stderr.close()

    def send(self, line):
        """Gives a line, without waiting for its answer."""
        try:
            self.process.stdin.write(line.encode("ascii") + b"\n")
            self.process.stdin.flush()
        except BrokenPipeError:
            self.fail()

    def line(self):
        """The next line of an answer, as bytes without the LF."""
        line = self.process.stdout.readline()
        if not line.endswith(b"\n"):
            self.fail()
        return line[:-1]

    def fail(self):
        """Says how the program ended before its time."""
        status = self.process.wait()
        said = " ".join(self.process.stderr.read().decode(errors="replace").split())
        raise Ended(status, said.removeprefix("arnold: "))

    def answer(self, line):
        """The lines of the answer to a line that was given."""
        repeated = REPEATED.get(line.split(" ", 1)[0])
        while True:
            words = self.line().decode("ascii").split(" ")
            yield words
            if words[0] != repeated:
                return

    def ask(self, line):
        """The lines of the answer to a line, each as its words."""
        self.send(line)
        return self.answer(line)

    def last(self, line):
        """The words of the last line of the answer."""
        *_, words = self.ask(line)
        return words
