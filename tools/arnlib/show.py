"""arn show: a process at a moment."""
from arnlib import asking, past, symbols, targets, texts
from arnlib.faults import FOUND, Fault

DESCRIPTION = """Shows a process as it was at a moment, when so many instructions had run: where it stood and the calls above, its
registers, the global variables of its own sources; or memory or a variable that is asked for. Without a process: those that
lived then, and where each stood."""
EXAMPLE = asking.MADE + """
  tools/arn show hello.log 300                       which processes lived, and where each stood
  tools/arn show hello.log 300 1                     all of process 1
  tools/arn show hello.log 300 1 --mem 0x102d8+32    bytes of its memory"""
BYTES_A_ROW, REGISTERS_A_ROW = 16, 4
# Where all variables are shown: of how many bytes one is at most, and how many bytes of it are shown.
LONGEST, MOST_SHOWN = 4096, 16


def add_words(parser):
    asking.add_log(parser)
    parser.add_argument("moment", metavar="MOMENT", type=targets.number, help="how many instructions had run in all")
    parser.add_argument("pid", metavar="PID", nargs="?", type=targets.number)
    parser.add_argument("--mem", metavar="ADDRESS+LEN", help="these bytes of its memory alone")
    parser.add_argument("--var", metavar="NAME", help="this global variable alone")


def rows(data, address):
    """Bytes as lines, as xxd has them."""
    for at in range(0, len(data), BYTES_A_ROW):
        part = data[at:at + BYTES_A_ROW]
        pairs = " ".join(part[k:k + 2].hex() for k in range(0, len(part), 2))
        letters = "".join(chr(byte) if 32 <= byte < 127 else "." for byte in part)
        yield f"{address + at:08x}: {pairs:39}  {letters}"


def value(data):
    """A variable's bytes as a number where they are few, else as text."""
    if len(data) in (1, 2, 4, 8):
        number = int.from_bytes(data, "little")
        return f"{number} ({number:#x})"
    return texts.quoted(data[:MOST_SHOWN]) + (".." if len(data) > MOST_SHOWN else "")


def shown_memory(seen, address, length):
    """Bytes of memory that are asked for, in pieces of what a line may ask for."""
    return b"".join(seen.memory(address + at, min(length - at, past.MOST)) for at in range(0, length, past.MOST))


def variables(seen, elf):
    """The global variables with their addresses and bytes. What isn't in the window is passed over: a linker's symbols."""
    for name, (address, length) in sorted(elf.own_variables().items() if elf else (), key=lambda one: one[1]):
        if not name.startswith("_") and 0 < length <= LONGEST and (data := seen.in_window(address, length)) is not None:
            yield name, address, data


def stands(place, where):
    """Where a process stands, in words."""
    return f"at {place:#x}" + ("" if where.startswith("at ") else f", {where}")


def show_all(log, options, programs, event):
    """Prints the processes that lived, and where each stood."""
    for words in list(log.ask(f"show {options.moment} procs")):
        if words[0] == "proc":
            process = int(words[1])
            place, _ = past.Past(log, options.moment, process).registers
            where = programs.calls(log, process, event, options.moment, place)
            if options.json:
                asking.print_object(process=process, group=int(words[3]), pc=place, where=where)
            else:
                print(f"process {process}, group {words[3]}, {stands(place, where)}")
        elif words[0] != "procs":
            raise Fault(f"moment {options.moment} isn't in the history")


def show_registers(found):
    """Prints registers, some a line."""
    for first in range(0, len(found), REGISTERS_A_ROW):
        names = targets.NAMES[first:first + REGISTERS_A_ROW]
        print("  ".join(f"{name:4} {found[first + k]:016x}" for k, name in enumerate(names)))


def show_one(log, options, programs, event):
    """Prints all of one process."""
    seen = past.Past(log, options.moment, options.pid)
    place, found = seen.registers
    where = programs.calls(log, options.pid, event, options.moment, place)
    named = list(variables(seen, programs.elf(options.pid, event)))
    if options.json:
        asking.print_object(process=options.pid, moment=options.moment, pc=place, where=where, registers=found,
                            variables={name: {"address": address, **texts.as_json(data)} for name, address, data in named})
        return
    print(f"process {options.pid} at moment {options.moment}, {stands(place, where)}")
    show_registers(found)
    for name, address, data in named:
        print(f"{texts.safe(name)} at {address:#x} = {value(data)}")


def show_bytes(log, options, address, length):
    """Prints bytes of a process's memory, or a variable."""
    data = shown_memory(past.Past(log, options.moment, options.pid), address, length)
    if options.json:
        asking.print_object(address=address, **texts.as_json(data))
    elif options.var is not None and len(data) <= MOST_SHOWN:
        print(f"{texts.safe(options.var)} at {address:#x} = {value(data)}")
    else:
        print("\n".join(rows(data, address)))


def run(options):
    if options.pid is None and (options.mem is not None or options.var is not None):
        raise Fault("--mem and --var want a process")
    with asking.opened(options) as log:
        history = log.history()
        programs, event = symbols.Programs(options.log, history), asking.event_after(history, options.moment)
        if options.mem is not None:
            show_bytes(log, options, *targets.memory_range(options.mem))
        elif options.var is not None:
            show_bytes(log, options, *asking.variable(programs, history, options.pid, options.moment, options.var))
        elif options.pid is None:
            show_all(log, options, programs, event)
        else:
            show_one(log, options, programs, event)
    return FOUND
