"""What the program prints, as data: its first line, its tables, and the lines behind them."""

import json
from typing import NamedTuple

# The status of a first line, by its first word or words.
STATUSES = {"settled": 0, "bad words": 1, "bad job": 2, "bad ask": 9, "late": 3, "collision": 5, "read fault": 6}


class BadOutput(Exception):
    """This isn't what the program prints, from this line on."""

    def __init__(self, line, why):
        super().__init__(f"line {line}: {why}")
        self.line = line


class Row(NamedTuple):
    """A row of a table; `start` is that of its window, None where the table has none."""

    key: str
    start: int | None
    value: dict


class Output(NamedTuple):
    """`first` is the first line and `status` the status that it stands for; `tables` are lists of rows by name, in the order in which they
    are printed; `rest` has the lines behind them: answers and the journal."""

    first: str
    status: int
    tables: dict
    rest: list


def status_of(first):
    """The status that a first line stands for; None where no run has this one."""
    for words, status in STATUSES.items():
        if first == words or first.startswith(words + " "):
            return status
    return None


def row_of(number, line):
    try:
        cells = json.loads(line)
        key, start, value = cells if len(cells) == 3 else (cells[0], None, cells[1])
        if isinstance(key, str) and isinstance(value, dict):
            return Row(key, start, value)
    except (ValueError, TypeError, IndexError, KeyError):
        pass
    raise BadOutput(number, "a row of a table is wanted")


def parse_output(text):
    """The output in a text; raises BadOutput."""
    lines = text.split("\n")
    ends_whole = lines[-1] == ""
    lines = lines[:-1] if ends_whole else lines
    status = status_of(lines[0]) if lines else None
    if status is None:
        raise BadOutput(1, "this is no output of ./streams run: its first line is `settled`, `late N` or what is wrong")
    tables, at = {}, 1
    while status in (0, 3) and at < len(lines) and lines[at].startswith("table "):
        name, count = table_head(at + 1, lines[at])
        rows = lines[at + 1 : at + 1 + count]
        if len(rows) < count or at + 1 + count == len(lines) and not ends_whole:
            raise BadOutput(len(lines), f"the output ends inside of the table {name}, which has {count:,} rows")
        tables[name] = [row_of(at + 2 + place, row) for place, row in enumerate(rows)]
        at += 1 + count
    return Output(lines[0], status, tables, lines[at:])


def table_head(number, line):
    words = line.split(" ")
    if len(words) != 3 or not words[2].isdigit():
        raise BadOutput(number, "a line `table NAME ROWS` is wanted")
    return words[1], int(words[2])
