"""`./streams audit JOB OUTPUT`: gives the program's audit the topology's line of a job and then an output, as it reads them."""

import os
import shutil
import signal
import subprocess
import sys
from contextlib import suppress
from pathlib import Path

from command import Words, WrongUse, read_file

ABOUT = """Audits the output of a settled `./streams run --journal JOB`: whether its tables are those of a right run of this topology, by its
journal alone. The program does it (`./streams audit` with both on standard input); this word puts the topology's line before the output."""
AFTER = """example:
  ./streams run --journal job.jsonl > output; ./streams audit job.jsonl output

Prints `yes`, or `no L FAULT` where line L shows that it isn't, counted with the topology's line as line 1. Ends as the program does, with 64
where the words are wrong."""
STREAMS = Path(__file__).resolve().parent.parent / "streams"


def parser():
    words = Words("audit", ABOUT, AFTER)
    words.add_argument("job", metavar="JOB")
    words.add_argument("output", metavar="OUTPUT", help="a file, or - for standard input")
    return words


def topology_line(data):
    """The first line of a job that isn't blank, with its LF; nothing where there is none."""
    lines = [line for line in data.split(b"\n") if line.strip(b" \t\r")]
    return lines[0] + b"\n" if lines else b""


def feed(command, line, path):
    """The status of a command that gets a line and then a file on standard input. What it doesn't read is no fault."""
    with open_output(path) as output:
        child = subprocess.Popen(command, stdin=subprocess.PIPE)
        with suppress(BrokenPipeError), child.stdin:
            child.stdin.write(line)
            shutil.copyfileobj(output, child.stdin, 1 << 20)
        return child.wait()


def open_output(path):
    try:
        return sys.stdin.buffer if path == "-" else open(path, "rb")
    except OSError as fault:
        raise WrongUse(f"{path} can't be read: {fault.strerror}") from fault


def main(words):
    chosen = parser().parse_args(words)
    if chosen.job == chosen.output == "-":
        raise WrongUse("one of the two alone can be standard input")
    signal.signal(signal.SIGPIPE, signal.SIG_IGN)
    status = feed([os.environ.get("STREAMS") or STREAMS, "audit"], topology_line(read_file(chosen.job)), chosen.output)
    return status if status >= 0 else 128 - status
