"""What the program printed, taken apart: its answer, tables, answers to a question, and the journal's lines.

    output = output_of(text)                    of bytes
    status, text = run_program(path, job, ["run", "--threads", "4"])
"""

import json
import re
import subprocess
import tempfile
from pathlib import Path
from typing import NamedTuple

from command import WrongUse

ROOT = Path(__file__).resolve().parent.parent
COMMANDS = ("run", "load", "ask", "audit")

# The status that a first line tells.
STATUSES = (
    (0, re.compile(r"settled|yes")),
    (1, re.compile(r"bad words")),
    (2, re.compile(r"bad job line \d+: .*")),
    (3, re.compile(r"late \d+")),
    (5, re.compile(r"collision \w+ \".*\" \d+ \d+")),
    (6, re.compile(r"read fault")),
    (9, re.compile(r"bad ask \d+ \w+")),
    (10, re.compile(r"no \d+ \d+ \w+.*")),
)


class Table(NamedTuple):
    """`rows` are lists: the key, for a windowed count the window's start, and the row; `total` is how many there should be."""

    name: str
    total: int
    rows: list


class Output(NamedTuple):
    """`answer` is the first line, `status` what it tells (None where it tells none); `answers` the lines of a question, `journal` those of
    the journal; `fault` says where the output stops being one of the program's, and is None where it doesn't."""

    answer: str
    status: int | None
    tables: list
    answers: list
    journal: list
    fault: str | None


def status_of(line):
    """The status that the first line of an output tells; None where it is none of the program's."""
    return next((status for status, form in STATUSES if form.fullmatch(line)), None)


def output_of(data):
    """An output's bytes, taken apart."""
    lines = data.decode(errors="replace").split("\n")
    fault = "the last line has no end: the output was cut off" if lines.pop() else None
    tables, answers, at = [], [], 1
    while at < len(lines) and take_line(tables, answers, lines[at]):
        at += 1
    short = next((table for table in tables if len(table.rows) < table.total), None)
    if short:
        fault = f"table {short.name} has {len(short.rows):,} of {short.total:,} rows: the output was cut off"
    answer = lines[0] if lines else ""
    return Output(answer, status_of(answer), tables, answers, lines[at:], fault)


def take_line(tables, answers, line):
    """Takes a line that stands before the journal: a table's head or row, or an answer. False where it is none of these."""
    if tables and len(tables[-1].rows) < tables[-1].total:
        row = row_of(line)
        if row is not None:
            tables[-1].rows.append(row)
        return row is not None
    head = re.fullmatch(r"table (\w+) (\d+)", line)
    if head:
        tables.append(Table(head[1], int(head[2]), []))
    elif line.startswith("answer "):
        answers.append(line)
    return bool(head) or line.startswith("answer ")


def row_of(line):
    """A table's row; None where the line is none."""
    try:
        row = json.loads(line)
    except ValueError:
        return None
    return row if isinstance(row, list) and len(row) in (2, 3) and isinstance(row[-1], dict) else None


# Words, and running the program.


def split_words(words, flags, valued):
    """The options of a tool among its words, and all other words, in order: `flags` have no value, `valued` have one, as the next word or
    behind `=`."""
    options, rest, words = {}, [], list(words)
    while words:
        word = words.pop(0)
        name, sign, value = word.partition("=")
        if word in flags:
            options[word] = True
        elif name in valued and (sign or words):
            options[name] = value if sign else words.pop(0)
        elif name in valued:
            raise WrongUse(f"{name} wants a value")
        else:
            rest.append(word)
    return options, rest


def program_words(words, has_journal=True):
    """The words for the program: `run` where no command stands first, and `--journal` where `run` may have it."""
    words = list(words)
    if not words or words[0] not in COMMANDS:
        words.insert(0, "run")
    if words[0] == "load":
        raise WrongUse("`load` reads no job and has no journal")
    if words[0] == "run" and has_journal and "--journal" not in words:
        words.append("--journal")
    return words


def run_program(path, job, words, program=None):
    """The status and the output of the program over a job: the file of this path, or for `-` these bytes; by the script `streams` where no
    program is given. Its standard error passes through."""
    command = [str(program or ROOT / "streams"), *words]
    with open(path, "rb") if path != "-" else tempfile.TemporaryFile() as file:
        if path == "-":
            file.write(job)
            file.seek(0)
        ended = subprocess.run(command, stdin=file, stdout=subprocess.PIPE)
    return ended.returncode, ended.stdout
