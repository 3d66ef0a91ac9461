"""What ends a subcommand early: one line that says why, and a status."""
import sys

# The statuses of questions: something was found, nothing was found, it couldn't be asked. And that of a recording that failed.
FOUND, NOTHING, UNASKED = 0, 1, 2
FAILED = 125
# Those at Ctrl-C, a standard output that is closed, SIGTERM, and a terminal that went.
INTERRUPTED, CLOSED, TERMINATED, HUNG_UP = 130, 141, 143, 129


class Fault(Exception):
    """Why a subcommand ends early. `status` is None where the subcommand's own status for faults is meant."""

    def __init__(self, said, status=None):
        super().__init__(said)
        self.status = status


def say(text, end="\n"):
    """Prints on standard error. Where that is full, nothing is said."""
    try:
        print(text, end=end, file=sys.stderr, flush=True)
    except OSError:
        pass
