"""arn verify: whether a log is the record of a run."""
from arnlib import asking
from arnlib.faults import FOUND, NOTHING

DESCRIPTION = "Runs the whole history again, and says whether the log is the record of a run. The status is 1 if it isn't."
EXAMPLE = asking.MADE + """
  tools/arn verify hello.log    status 0: it is one"""


def add_words(parser):
    asking.add_log(parser)


def run(options):
    with asking.opened(options) as log:
        *_, words = log.ask("verify")
    is_run = words == ["verify", "run"]
    if options.json:
        asking.print_object(run=is_run, **({} if is_run else dict(zip(("record", "byte", "said", "found"), words[2:]))))
    elif is_run:
        print("the log is the record of a run")
    else:
        print(f"no run has these records: byte {words[3]} of record {words[2]} is {words[4]}, and a run has {words[5]}")
    return FOUND if is_run else NOTHING
