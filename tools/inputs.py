"""The words and the files that a tool is given. A fault of them ends the tool with one line on standard error and a status.

Files are read up to the limits of docs/FORMATS.md. It is outside of what is proved.
"""
import argparse
import atexit
import os
import shutil
import sys
import tempfile

import faults
import formats

TOP = os.path.dirname(os.path.dirname(os.path.abspath(__file__)))
PROGRAM = os.path.join(TOP, "strand")
BUILT = "the built program, such as build/strand"
LONGEST = 2_000_000  # bytes of a line that the program puts, at most
READERS = {"machine": formats.read_machine, "image": formats.read_image, "certificate": formats.read_certificate, "crash": bytes}
# A command that reads a file of this kind as its first, whose lines of fault tell what is wrong with it.
FIRST_READ = {"machine": ("run", "", "", "end"), "image": ("list",)}


def printable(text):
    """A text without what a line or a picture can't have, as a file's name may."""
    return "".join(letter if letter.isprintable() else "?" for letter in text)


def say(message):
    """One line on standard error."""
    print(f"{os.path.basename(sys.argv[0])}: {printable(str(message))}", file=sys.stderr)


def stop(message, status=1):
    """Ends with one line on standard error and this status."""
    say(message)
    sys.exit(status)


def answered(work):
    """Does a tool's work and ends with its status. An output that can't be written ends it with a line, one that nobody reads any more
    with none, and Ctrl-C too."""
    try:
        status = work()
        sys.stdout.flush()
    except BrokenPipeError:
        status = None
    except OSError as fault:
        status = fault
    except KeyboardInterrupt:
        sys.exit(130)
    else:
        sys.exit(status)
    os.dup2(os.open(os.devnull, os.O_WRONLY), sys.stdout.fileno())
    if status is not None:
        say(f"{status.filename or 'the output'}: {why_unread(status)}")
    sys.exit(5)


class Words(argparse.ArgumentParser):
    """The words of a tool, whose help is this text. A wrong one is told by one line."""

    def __init__(self, text, usage=None):
        super().__init__(description=text, usage=usage, formatter_class=argparse.RawDescriptionHelpFormatter)

    def error(self, message):
        stop(f"{message}; {self.prog} -h tells its words", 2)

    def add_program(self, *name, **given):
        """A word that is a program to be called."""
        self.add_argument(*name, metavar="PROGRAM", type=program, **given)

    def add_asked(self):
        """The program that is asked, where it is another one than ./strand."""
        self.add_program("--program", default=PROGRAM, help="the program to ask; ./strand")

    def add_run(self, command):
        """The words of a command of the program on a run, and the program."""
        self.add_asked()
        for word in formats.COMMANDS[command]:
            self.add_argument(word.lower(), metavar=word, type=path if word in formats.KINDS else str,
                              help=f"as `strand {command}' takes it")


def program_of(text):
    """The word of a tool that takes a program alone."""
    parser = Words(text)
    parser.add_program("program", help=BUILT)
    return parser.parse_args().program


def program_and_parts(text, metavar, parts):
    """The words of a tool that takes a program, and behind it some of these parts of its work."""
    parser = Words(text)
    parser.add_program("program", help=BUILT)
    parser.add_argument("parts", metavar=metavar, nargs="*", help="all where none is given")
    given = parser.parse_args()
    unknown = [part for part in given.parts if part not in parts]
    if unknown:
        stop(f"there is no {metavar} {unknown[0]}: {'; '.join(parts)} are", 2)
    return given.program, given.parts


def no_words(text):
    """Of a tool that takes none: nothing but its help."""
    Words(text, usage="%(prog)s").parse_args()


def program(name):
    """Where a program stands that can be run."""
    found = shutil.which(name)
    if not found:
        raise argparse.ArgumentTypeError(f"{name} is no program that can be run")
    return os.path.abspath(found)


def number_between(low, high):
    """What takes a word for a number from one to another."""
    def read(word):
        number = formats.number_of(os.fsencode(word))
        if number is None or not low <= number <= high:
            raise argparse.ArgumentTypeError(f"a number from {low} to {high} is due")
        return number
    return read


class Front:
    """The first bytes of a file, past which each kind of file is refused."""

    def __init__(self, file):
        self.file, self.left = file, max(formats.BYTES.values()) + 1

    def read(self, size):
        piece = self.file.read(min(size, self.left))
        self.left -= len(piece)
        return piece


def path(name):
    """The name of a file, which may be read several times: `-` is standard input, which is kept as long as the tool runs."""
    if name != "-":
        return name
    folder = tempfile.mkdtemp()
    atexit.register(shutil.rmtree, folder)
    kept = os.path.join(folder, "standard-input")
    with open(kept, "wb") as file:
        shutil.copyfileobj(Front(sys.stdin.buffer), file)
    return kept


def why_unread(fault):
    return getattr(fault, "strerror", None) or str(fault)


def told(kind, name, fault):
    """What is wrong with a file that its reader refuses."""
    if kind in FIRST_READ:
        command, *rest = FIRST_READ[kind]
        return faults.explain((command, name, *rest), fault.line(1).decode().split()[1:]).message
    return f"{name}: no {faults.KINDS[kind]}: {fault}"


def read(kind, name, status=1):
    """What a file of this kind says."""
    most = formats.BYTES[kind]
    try:
        with open(name, "rb") as file:
            data = file.read(most + 1)
        if len(data) > most:
            stop(f"{name}: a file of this kind ({faults.KINDS[kind]}) has at most {most} bytes", status)
        return READERS[kind](data)
    except (OSError, UnicodeError) as fault:
        return stop(f"{name}: {why_unread(fault)}", status)
    except formats.Refused as fault:
        return stop(told(kind, name, fault), status)


def lines(name, status=1):
    """The lines of a text that the program put, one by one; those of standard input where the name is `-`."""
    try:
        with open(0 if name == "-" else name, "rb") as file:
            while line := file.readline(LONGEST):
                if len(line) == LONGEST:
                    stop(f"{name}: a line of {LONGEST} bytes or more", status)
                yield line.decode("latin1").rstrip("\n")
    except OSError as fault:
        stop(f"{name}: {why_unread(fault)}", status)
