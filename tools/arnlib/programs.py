"""What `arn record` is given as a program: an image, an ELF file, or sources in C."""
import importlib.machinery
import importlib.util
import os
import subprocess
import tempfile
from typing import NamedTuple

from arnlib import texts
from arnlib.faults import FAILED, Fault
from arnlib.launcher import MOST_FILE, OWN
from arnlib.program import HERE, TOP

NO_PROGRAM, NONE_THERE = 126, 127
IMAGE, ELF = b"ARNIMG01", b"\x7fELF"
ENDINGS = (".c", ".elf", ".img")
# How much of a file is read at most: an ELF file is longer than its image.
MOST_READ = 64 * MOST_FILE
SDK_PLACES = (os.path.join(os.path.dirname(HERE), "sdk"), os.path.join(TOP, "sdk"))
COMPILED = ("-g", "-O1")


class Program(NamedTuple):
    """A program of the machine: its name there, its image, and the ELF file that it was made of, if it was."""
    name: str
    image: bytes
    elf: bytes | None


def sdk():
    """The folder of the SDK."""
    for folder in SDK_PLACES:
        if os.path.isfile(os.path.join(folder, "cc")):
            return folder
    raise Fault("the SDK isn't here", FAILED)


def image_script():
    """The SDK's script `image`, as a module."""
    loader = importlib.machinery.SourceFileLoader("image", os.path.join(sdk(), "image"))
    module = importlib.util.module_from_spec(importlib.util.spec_from_loader("image", loader))
    loader.exec_module(module)
    return module


def is_name(name):
    """Whether a `file` line takes the name."""
    return 1 <= len(name) <= 64 and all("!" <= letter <= "~" for letter in name)


def check_name(name):
    """Refuses a name that a file of the machine can't have, or that `arn` keeps for itself."""
    if not is_name(name):
        raise Fault(f"{texts.safe(name)!r} is no name of a file: 1 to 64 characters from ! to ~", FAILED)
    if name.startswith(OWN):
        raise Fault(f"{name}: names that begin with .arn/ are arn's own", FAILED)


def name_of(path):
    """The program's name: that of its file without an ending, or `program` where that is none."""
    name = os.path.basename(path)
    for ending in ENDINGS:
        if name.endswith(ending):
            name = name[:-len(ending)]
            break
    return name if is_name(name) else "program"


def contents(path):
    """The bytes of a file that is given as a program."""
    try:
        with open(path, "rb") as file:
            return file.read(MOST_READ)
    except FileNotFoundError:
        raise Fault(f"{texts.safe(path)}: there is no such program", NONE_THERE) from None
    except OSError as error:
        raise Fault(f"{texts.safe(path)}: {error.strerror}", NO_PROGRAM) from None


def compiled(paths):
    """The ELF file of sources in C. The compiler says by itself what is wrong with them."""
    for path in paths:
        contents(path)
    with tempfile.TemporaryDirectory(prefix="arn-cc-") as folder:
        made = os.path.join(folder, "program")
        status = subprocess.run([os.path.join(sdk(), "cc"), *COMPILED, "-o", made, *paths]).returncode
        if status != 0:
            raise Fault("the sources can't be compiled", FAILED)
        with open(made + ".elf", "rb") as file:
            return file.read()


def image_of(elf, path):
    """The image of an ELF file."""
    script = image_script()
    try:
        return script.image_of(elf)
    except script.Refused as refused:
        raise Fault(f"{texts.safe(path)}: {refused}", NO_PROGRAM) from None


def read_program(paths):
    """The program that some paths name."""
    name = name_of(paths[0])
    if all(path.endswith(".c") for path in paths):
        elf = compiled(paths)
    elif len(paths) > 1:
        raise Fault("several files are one program only where all of them are C sources; its words stand behind --", FAILED)
    else:
        data = contents(paths[0])
        if data.startswith(IMAGE):
            return checked(Program(name, data, None), paths[0])
        if not data.startswith(ELF):
            said = f"{texts.safe(paths[0])}: this is no program of the machine: no image, no ELF file, no C source"
            raise Fault(said, NO_PROGRAM)
        elf = data
    return checked(Program(name, image_of(elf, paths[0]), elf), paths[0])


def checked(program, path):
    """The program, unless its image is longer than a file may be."""
    if len(program.image) > MOST_FILE:
        raise Fault(f"{texts.safe(path)}: a program has at most {MOST_FILE:,} bytes", NO_PROGRAM)
    return program
