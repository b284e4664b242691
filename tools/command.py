"""What the words of ./streams that are written in Python have in common: wrong use, files, output that may be closed."""

import argparse
import signal
import sys

WRONG_USE = 64


class WrongUse(Exception):
    """The words are wrong, or a file that they name can't be read."""


class Words(argparse.ArgumentParser):
    """Reads the words behind the first; raises WrongUse where they are wrong."""

    def __init__(self, word, about, after):
        form = argparse.RawDescriptionHelpFormatter
        super().__init__(prog=f"streams {word}", description=about, epilog=after, formatter_class=form, allow_abbrev=False)

    def error(self, message):
        raise WrongUse(message)


def read_file(path):
    """The bytes of a file; of standard input for `-`."""
    try:
        if path == "-":
            if sys.stdin.isatty():
                print("streams: reading from the terminal, end it with Ctrl-D", file=sys.stderr)
            return sys.stdin.buffer.read()
        with open(path, "rb") as file:
            return file.read()
    except (OSError, AttributeError) as fault:
        raise WrongUse(f"{path} can't be read: {getattr(fault, 'strerror', 'it is closed')}") from fault


def run(word, main):
    """Ends with the status of `main`, which gets the words behind the first. Output is UTF-8, whatever the locale; a reader that closes it
    ends the word in silence, as an interrupt does."""
    for name in ("SIGPIPE", "SIGINT"):
        signal.signal(getattr(signal, name), signal.SIG_DFL)
    for stream in (sys.stdout, sys.stderr):
        if stream is not None:
            stream.reconfigure(encoding="utf-8", errors="surrogateescape")
    try:
        status = main(sys.argv[1:])
    except WrongUse as fault:
        print(f"streams: {word}: {fault} (./streams {word} --help)", file=sys.stderr)
        status = WRONG_USE
    sys.exit(status)
