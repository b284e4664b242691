"""`./streams from-csv`: makes a job of a topology and CSV files with head lines."""

import csv
import io
import json
import re
import sys
from datetime import datetime, timezone
from decimal import Decimal, InvalidOperation

from command import Words, WrongUse, read_file
from finding import as_text, listed, plural
from job_check import check_topology
from seen import DECIMAL, SECONDS

ABOUT = """Makes a job of a topology and CSV files, each with a head line, and prints it. The topology may stand on several lines.

A file is given as TOPIC=FILE:KEY, where KEY is the column with the records' keys (TOPIC=FILE where there is none; FILE - is standard input).
Every other column is a field: a whole number of 64 bits as a number, else a text. An empty cell is left out, an empty key is none, and a row
without fields deletes its key. COLUMN below is a column of every file that has it, or TOPIC.COLUMN."""
AFTER = """example:
  ./streams from-csv topology.json orders=orders.csv:order customers=customers.csv:id --cents amount --ts created --ts-unit iso > job.jsonl

Standard error tells what is wrong by file, line and column, and then nothing is printed; it warns of decimals without --cents and the like.
Ends with 0 (warnings too), 2 where the topology or a file is faulty, 64 where the words are wrong."""
SHOWN = 20
NUMBER = re.compile(r"-?(0|[1-9][0-9]*)\Z")
AMOUNT = re.compile(r"[-+]?([0-9]+(\.[0-9]*)?|\.[0-9]+)\Z")
LATEST = 2**53
MOST_LINE_BYTES = 65_536


def parser():
    words = Words("from-csv", ABOUT, AFTER)
    words.add_argument("topology", metavar="TOPOLOGY")
    words.add_argument("files", metavar="TOPIC=FILE:KEY", nargs="+")
    words.add_argument("--cents", metavar="COLUMN", action="append", default=[], help="an amount such as 12.50 becomes the number 1250")
    words.add_argument("--decimal-comma", action="store_true", help="amounts have a comma, as in 12,50")
    words.add_argument("--text", metavar="COLUMN", action="append", default=[], help="every cell is a text, as of article numbers")
    words.add_argument("--ts", metavar="COLUMN", action="append", default=[], help="the record's time, and no field")
    unit = "times are milliseconds, seconds, or ISO 8601 (without a zone: UTC)"
    words.add_argument("--ts-unit", choices=("ms", "s", "iso"), default="ms", help=unit)
    words.add_argument("--delimiter", metavar="C", default=",", help="what stands between cells: a character, or tab")
    encoding = "of the CSV files: utf-8 (with or without a byte order mark), latin-1 .."
    words.add_argument("--encoding", metavar="NAME", default="utf-8-sig", help=encoding)
    words.add_argument("--ragged", action="store_true", help="surplus cells are dropped and missing ones are empty, and both are counted")
    return words


class Told:
    """What is told of the files: faults, after which nothing is printed, and warnings."""

    def __init__(self):
        self.faults, self.warnings = [], []

    def fault(self, file, line, column, why):
        place = f"{file}, line {line}" + (f", column {column}" if column is not None else "")
        self.faults.append(f"{place}: {why}")


class Source:
    """A file as the words give it."""

    def __init__(self, text, topology):
        self.topic, found, rest = text.partition("=")
        if not found or not rest:
            raise WrongUse(f"{text}: a file is given as TOPIC=FILE:KEY, such as orders=orders.csv:order")
        if self.topic not in topology.inputs:
            raise WrongUse(f"{text}: the topology has no topic {self.topic}, but {listed(topology.inputs) if topology.inputs else 'none'}")
        self.file, found, self.key = rest.rpartition(":")
        if not found:
            self.file, self.key = rest, None
        self.shown = "standard input" if self.file == "-" else self.file
        self.columns = []


class Cells:
    """Reads one file: `columns` are the kinds of its columns, by place."""

    def __init__(self, source, chosen, told):
        self.source, self.chosen, self.told = source, chosen, told
        self.decimals, self.kinds = {}, {}
        self.surplus = self.short = self.keyless = self.timeless = 0
        self.times = self.seconds = 0

    def rows(self):
        """The line and the cells of each row, the head line first."""
        try:
            text = read_file(self.source.file).decode(self.chosen.encoding)
        except UnicodeDecodeError as fault:
            line = fault.object[: fault.start].count(b"\n") + 1
            byte = fault.object[fault.start]
            self.told.fault(self.source.shown, line, None, f"the byte {byte:02x} is no {fault.encoding}; --encoding latin-1 may read it")
            return
        rows = csv.reader(io.StringIO(text, newline=""), delimiter=self.chosen.delimiter, strict=True)
        line = 1
        try:
            for cells in rows:
                if cells:
                    yield line, cells
                line = rows.line_num + 1
        except csv.Error as fault:
            self.told.fault(self.source.shown, line, None, f"this is no row of a CSV file: {fault}")

    def records(self):
        """The records of the file, as job lines."""
        rows = self.rows()
        head = next(rows, None)
        if head is None:
            if not self.told.faults:
                self.told.fault(self.source.shown, 1, None, "there is no head line with the names of the columns")
            return
        self.source.columns = head[1]
        if self.judge_head(*head):
            self.roles = [self.role_of(name) for name in head[1]]
            for line, cells in rows:
                record = self.record(line, self.fitting(line, cells))
                if record is not None:
                    yield record
            self.warn()

    # The head line.

    def judge_head(self, line, names):
        """Tells what is wrong with the names of the columns; whether nothing is."""
        before = len(self.told.faults)
        for number, name in enumerate(names, 1):
            if not 1 <= len(name.encode()) <= 64:
                why = "it has no name" if not name else "its name has more than 64 bytes, which a field's may not"
                self.told.fault(self.source.shown, line, number, why)
            elif names.index(name) < number - 1:
                self.told.fault(self.source.shown, line, number, f"the name {name} stands twice in the head line")
        if self.source.key is not None and self.source.key not in names:
            self.told.fault(self.source.shown, line, None, f"there is no column {self.source.key}; {self.columns_text(names)}")
        return len(self.told.faults) == before

    def columns_text(self, names):
        """The names, and what separates them where that is not the delimiter."""
        for other, word in ((";", "';'"), ("\t", "tab"), (",", ","), ("|", "'|'")):
            if len(names) == 1 and other in names[0] and other != self.chosen.delimiter:
                return f"the head line is {as_text(names[0])}: is --delimiter {word} wanted?"
        return f"the columns are {listed(names)}"

    # Rows.

    def fitting(self, line, cells):
        """As many cells as there are columns."""
        wanted = len(self.source.columns)
        if len(cells) != wanted and not self.chosen.ragged:
            why = f"the row has {plural(len(cells), 'cell')}, the head line {wanted}"
            self.told.fault(self.source.shown, line, None, f"{why}; --ragged drops surplus cells and fills missing ones")
        self.surplus += len(cells) > wanted
        self.short += len(cells) < wanted
        return cells[:wanted] + [""] * (wanted - len(cells))

    def record(self, line, cells):
        record, value = {"topic": self.source.topic, "key": None}, {}
        time = None
        for name, role, cell in zip(self.source.columns, self.roles, cells):
            if role == "key":
                record["key"] = self.key_of(line, name, cell)
            elif role == "ts":
                self.timeless += not cell
                time = self.time_of(line, name, cell) if cell else None
            elif cell:
                value[name] = getattr(self, role)(line, name, cell)
        record["value"] = value or None
        if time is not None:
            record["ts"] = time
        text = json.dumps(record, ensure_ascii=False, separators=(",", ":"))
        if len(text.encode("utf-8", "replace")) > MOST_LINE_BYTES:
            self.told.fault(self.source.shown, line, None, f"its record has more than {MOST_LINE_BYTES:,} bytes")
        if len(value) > 64:
            self.told.fault(self.source.shown, line, None, f"it has {len(value)} fields, more than 64")
        return text

    def role_of(self, name):
        """What a column is for."""
        if name == self.source.key:
            return "key"
        for role in ("ts", "cents", "text"):
            if {name, f"{self.source.topic}.{name}"} & set(getattr(self.chosen, role)):
                return role
        return "plain"

    def key_of(self, line, name, cell):
        self.keyless += not cell
        if len(cell.encode()) > 1024:
            self.told.fault(self.source.shown, line, name, "a key has at most 1,024 bytes")
        return cell or None

    def plain(self, line, name, cell):
        """A number or a text, by how it is spelled."""
        if NUMBER.match(cell) and cell != "-0" and len(cell) < 21 and -(2**63) <= int(cell) < 2**63:
            self.note(name, "number", line, cell)
            return int(cell)
        if DECIMAL.match(cell):
            self.decimals.setdefault(name, (line, cell))
        self.note(name, "text", line, cell)
        return cell

    def note(self, name, kind, line, cell):
        """Keeps the first cell of each kind."""
        kinds = self.kinds.setdefault(name, {})
        if kind not in kinds:
            kinds[kind] = (line, cell)

    def text(self, line, name, cell):
        return cell

    def cents(self, line, name, cell):
        """An amount in hundredths; None after a fault."""
        plain = cell.strip()
        if self.chosen.decimal_comma:
            plain = plain.replace(",", ".", 1) if "." not in plain else "."
        if not AMOUNT.match(plain):
            hint = "; --decimal-comma reads such amounts" if DECIMAL.match(cell) and "," in cell and not self.chosen.decimal_comma else ""
            wanted = "12,50" if self.chosen.decimal_comma else "12.50"
            return self.told.fault(self.source.shown, line, name, f"{as_text(cell)} is no amount such as {wanted}{hint}")
        cents = Decimal(plain) * 100
        if cents != cents.to_integral_value():
            return self.told.fault(self.source.shown, line, name, f"{cell} has a part of a cent")
        if not -(2**63) <= cents < 2**63:
            return self.told.fault(self.source.shown, line, name, f"{cell} doesn't fit 64 bits")
        return int(cents)

    def time_of(self, line, name, cell):
        """A time in milliseconds; None after a fault."""
        try:
            time = TIMES[self.chosen.ts_unit](cell.strip())
        except (ValueError, InvalidOperation, OverflowError):
            return self.told.fault(self.source.shown, line, name, f"{as_text(cell)} is no time{self.other_unit(cell)}")
        if not 0 <= time <= LATEST:
            return self.told.fault(self.source.shown, line, name, f"{cell} is no time from 1970 on")
        self.times += time > 0
        self.seconds += time in SECONDS
        return time

    def other_unit(self, cell):
        """Which option reads the time, where another one does."""
        for unit, read in TIMES.items():
            try:
                read(cell.strip())
                return f" in {UNITS[self.chosen.ts_unit]}; --ts-unit {unit} reads it"
            except (ValueError, InvalidOperation, OverflowError):
                pass
        return f" in {UNITS[self.chosen.ts_unit]}"

    # What is likely not meant.

    def warn(self):
        name, add = self.source.shown, self.told.warnings.append
        for column, (line, cell) in self.decimals.items():
            add(f"{name}, line {line}, column {column}: {cell} becomes a text, which has no sum; --cents {column} counts hundredths")
        for column, kinds in self.kinds.items():
            if len(kinds) == 2 and column not in self.decimals:
                (line, number), (other, text) = kinds["number"], kinds["text"]
                both = f"{number} is a number (line {line}) and {as_text(text)} a text (line {other})"
                add(f"{name}, column {column}: {both}; --text {column} makes all of them texts")
        if self.keyless:
            add(f"{name}: {plural(self.keyless, 'row')} without a key in the column {self.source.key}")
        if self.timeless:
            add(f"{name}: {plural(self.timeless, 'row')} without a time, which is 0")
        if self.surplus or self.short:
            add(f"{name}: {plural(self.surplus, 'row')} with surplus cells, which are dropped, {plural(self.short, 'row')} with missing ones")
        if self.times and self.seconds == self.times:
            add(f"{name}: the times look like seconds; --ts-unit s reads them")


def milliseconds_of(cell):
    if not (cell.isascii() and cell.isdigit()):
        raise ValueError(cell)
    return int(cell)


def of_seconds(cell):
    if not AMOUNT.match(cell):
        raise ValueError(cell)
    return int(Decimal(cell) * 1000)


def of_iso(cell):
    if cell.isascii() and cell.isdigit():
        raise ValueError(cell)
    time = datetime.fromisoformat(cell)
    time = time if time.tzinfo else time.replace(tzinfo=timezone.utc)
    since = time - datetime(1970, 1, 1, tzinfo=timezone.utc)
    return since.days * 86_400_000 + since.seconds * 1000 + since.microseconds // 1000


TIMES = {"ms": milliseconds_of, "s": of_seconds, "iso": of_iso}
UNITS = {"ms": "milliseconds", "s": "seconds", "iso": "ISO 8601"}


def check_columns(chosen, sources):
    """Each column of an option is one of a file."""
    known = {name for source in sources for each in source.columns for name in (each, f"{source.topic}.{each}")}
    for option in ("cents", "text", "ts"):
        for column in getattr(chosen, option):
            if column not in known:
                raise WrongUse(f"--{option} {column}: no file has this column")


def delimiter_of(text):
    text = {"tab": "\t", "\\t": "\t"}.get(text, text)
    if len(text) != 1 or text in '"\r\n':
        raise WrongUse(f"--delimiter {text}: one character is wanted, or tab")
    return text


def encoding_of(name):
    try:
        b"".decode(name)
    except LookupError as fault:
        raise WrongUse(f"--encoding {name}: there is no such encoding") from fault
    return "utf-8-sig" if name.lower() in ("utf-8", "utf8") else name


def topology_of(path, told):
    """The topology line and the topology of a file; None after faults."""
    line, topology, faults = check_topology(read_file(path))
    told.faults += [f"{path}, {each.told()}" for each in faults]
    return line, topology


def main(words):
    csv.field_size_limit(1 << 30)
    chosen, told = parser().parse_args(words), Told()
    chosen.delimiter, chosen.encoding = delimiter_of(chosen.delimiter), encoding_of(chosen.encoding)
    line, topology = topology_of(chosen.topology, told)
    if topology is None:
        return report(told)
    sources = [Source(text, topology) for text in chosen.files]
    lines = [line]
    for source in sources:
        lines += Cells(source, chosen, told).records()
    if not told.faults:
        check_columns(chosen, sources)
    status = report(told)
    if status == 0:
        sys.stdout.write("".join(line + "\n" for line in lines))
    return status


def report(told):
    """Tells faults and warnings on standard error, and gives the status."""
    for text in told.faults[:SHOWN] or told.warnings:
        print(f"streams: from-csv: {text}", file=sys.stderr)
    if len(told.faults) > SHOWN:
        print(f"streams: from-csv: and {len(told.faults) - SHOWN:,} more faults", file=sys.stderr)
    return 2 if told.faults else 0
