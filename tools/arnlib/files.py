"""arn files: the files at a moment."""
from arnlib import asking, past, places, targets, texts
from arnlib.faults import FOUND, NOTHING, Fault

DESCRIPTION = """Lists the files that had a name at a moment, when so many instructions had run, with their lengths. Without a
moment: at the end. The status is 1 where there is none."""
EXAMPLE = asking.MADE + """
  tools/arn files hello.log --at 100    the files when 100 instructions had run"""


def add_words(parser):
    asking.add_log(parser)
    parser.add_argument("--at", metavar="MOMENT", type=targets.number)


def names_at(history, moment):
    """The names that stood for files at a moment, those of `arn` left out."""
    names = set()
    for event in history.events:
        if event.moment > moment:
            break
        if event.kind == "file" or event.what == "open" and event.did == "name":
            names.add(event.name)
        elif event.what == "unlink" and event.did == "name":
            names.discard(event.name)
    return sorted(name for name in names if not places.is_own(name))


def content(log, moment, name):
    """The bytes of a file at a moment."""
    missing = f"no file had the name {texts.safe(name)} at moment {moment}"
    return texts.bytes_of(past.answer(log, f"show {moment} file {name}", "file", missing)[0])


def moment_of(history, options):
    """The moment that is asked about."""
    if options.at is not None and options.at > history.total:
        raise Fault(f"moment {options.at} isn't in the history: the last one is {history.total}")
    return history.total if options.at is None else options.at


def run(options):
    with asking.opened(options) as log:
        history = log.history()
        moment = moment_of(history, options)
        names = names_at(history, moment)
        for name in names:
            length = len(content(log, moment, name.decode("ascii")))
            if options.json:
                asking.print_object(name=name.decode("ascii"), bytes=length)
            else:
                print(f"{length:>9,} {texts.shown(name)}")
    return FOUND if names else NOTHING
