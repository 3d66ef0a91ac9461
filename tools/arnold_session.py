"""Asks the program about a log, on a copy: the log itself stays as it is.

    import arnold_session
    with arnold_session.Session("crates/arnold/out/arnold", "some.log") as session:
        for answer in session.ask(["groups", "show 0 procs"]):
            print(answer.lines)

The lines are those of docs/SESSION.md. What goes wrong raises a Fault of arnold_log, with one line that says why.
"""
import os
import shutil
import subprocess
import tempfile

from arnold_log import Fault

BUILT = os.path.join(os.path.dirname(os.path.dirname(os.path.abspath(__file__))), "crates", "arnold", "out", "arnold")

# The word with which each line of an answer begins, but the last.
REPEATED = {"run": "out", "back": "pair", "forth": "pair", "groups": "group", "events": "event", "show": "proc"}


class Running:
    """The program while it answers lines."""

    def __init__(self, program, log, lines, said):
        self.log = log
        self.said = open(said, "w+", encoding="utf-8", errors="replace")
        self.process = subprocess.Popen([program, log], stdin=lines, stdout=subprocess.PIPE, stderr=self.said, text=True)

    def line(self):
        """The next line that it prints, as words."""
        line = self.process.stdout.readline()
        if not line.endswith("\n"):
            self.finish()
            raise Fault("the program ended before it answered all lines")
        return line.split()

    def finish(self):
        """Waits for its end, which must be a good one."""
        status = self.process.wait()
        if status != 0:
            self.said.seek(0)
            said = self.said.read().replace(self.log, "the log")
            raise Fault(" ".join(f"the program ended with status {status}: {said}".split()))

    def stop(self):
        if self.process.poll() is None:
            self.process.kill()
        self.process.stdout.close()
        self.process.wait()
        self.said.close()


class Answer:
    """The answer to one line: an iterator of its lines, each a list of words. Take all lines before the next answer."""

    def __init__(self, asked, running):
        self.running, self.is_done = running, False
        self.repeated = REPEATED.get(asked.split(" ", 1)[0])

    def __iter__(self):
        while not self.is_done:
            words = self.running.line()
            self.is_done = words[0] != self.repeated
            yield words

    @property
    def lines(self):
        return list(self)


class Session:
    """A copy of a log and of the program, in a folder that is removed at the end."""

    def __init__(self, program, log):
        self.folder = tempfile.TemporaryDirectory(prefix="arnold-session-")
        self.program = self.copy(program, "arnold", f"there is no program {program}")
        self.log = self.copy(log, "log", f"{log}: there is no such log")
        os.chmod(self.program, 0o700)
        os.chmod(self.log, 0o600)

    def copy(self, path, name, missing):
        try:
            return shutil.copyfile(path, os.path.join(self.folder.name, name))
        except OSError as error:
            self.folder.cleanup()
            raise Fault(missing if isinstance(error, FileNotFoundError) else f"{path}: {error.strerror}") from None

    def __enter__(self):
        return self

    def __exit__(self, *failure):
        self.folder.cleanup()

    def ask(self, lines):
        """The answers to some lines, in order."""
        if not lines:
            return
        asked, said = (os.path.join(self.folder.name, name) for name in ("lines", "said"))
        with open(asked, "w", encoding="ascii") as file:
            file.write("".join(line + "\n" for line in lines))
        with open(asked, "rb") as given:
            running = Running(self.program, self.log, given, said)
        try:
            for line in lines:
                answer = Answer(line, running)
                yield answer
                for _ in answer:
                    pass
            running.finish()
        finally:
            running.stop()
