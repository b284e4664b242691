"""`./streams tables`: prints the tables of an output as CSV, or as one JSON object a row."""

import csv
import json
import sys
from pathlib import Path

from command import Words, WrongUse, read_file
from finding import listed
from output import BadOutput, parse_output

ABOUT = """Prints the tables of what `./streams run` printed, which comes on standard input or from a file: as CSV with a head line (key, start
where the table has windows, then the fields by their bytes), or as one JSON object a row."""
AFTER = """example:
  ./streams run examples/orders-by-region.jsonl | ./streams tables orders_by_region
  ./streams run examples/orders-by-region.jsonl | ./streams tables --json | jq -r 'select(.table == "orders_by_region") | .value.count'

CSV on standard output is of one table; --folder writes NAME.csv of each. Ends with the status that the output stands for (0 settled, 3 late,
2 a bad job ..), with 65 where it is no output or a cut one, 64 where the words are wrong."""
NO_OUTPUT = 65


def parser():
    words = Words("tables", ABOUT, AFTER)
    words.add_argument("names", metavar="NAME", nargs="*", help="the tables to print; all where none is named")
    words.add_argument("--from", metavar="OUTPUT", dest="source", default="-", help="the file with the output")
    words.add_argument("--json", action="store_true", help='one object a row: {"table":..,"key":..,"value":{..}}, with "start" for windows')
    words.add_argument("--folder", metavar="FOLDER", help="a file NAME.csv for each table")
    words.add_argument("--delimiter", metavar="C", default=",", help="what stands between cells: a character, or tab")
    return words


def chosen_tables(output, names):
    for name in names:
        if name not in output.tables:
            raise WrongUse(f"{name}: the output has no such table, but {listed(output.tables) if output.tables else 'none'}")
    return {name: output.tables[name] for name in names} if names else output.tables


def columns_of(rows):
    """The names of the fields of all rows, by their bytes."""
    return sorted({name for row in rows for name in row.value}, key=str.encode)


def write_csv(file, rows, delimiter):
    fields = columns_of(rows)
    has_windows = any(row.start is not None for row in rows)
    own = ["key", "start"] if has_windows else ["key"]
    writer = csv.writer(file, delimiter=delimiter, lineterminator="\n")
    writer.writerow([*own, *(f"value.{name}" if name in own else name for name in fields)])
    for row in rows:
        writer.writerow([row.key, *([row.start] if has_windows else []), *(row.value.get(name, "") for name in fields)])


def json_lines(tables):
    for name, rows in tables.items():
        for row in rows:
            start = {} if row.start is None else {"start": row.start}
            yield json.dumps({"table": name, "key": row.key, **start, "value": row.value}, ensure_ascii=False, separators=(",", ":"))


def write_folder(folder, tables, delimiter):
    try:
        Path(folder).mkdir(parents=True, exist_ok=True)
        for name, rows in tables.items():
            with open(Path(folder) / f"{name}.csv", "w", encoding="utf-8", newline="") as file:
                write_csv(file, rows, delimiter)
    except OSError as fault:
        raise WrongUse(f"{folder} can't be written: {fault.strerror}") from fault


def export(chosen, output):
    tables = chosen_tables(output, chosen.names)
    delimiter = {"tab": "\t", "\\t": "\t"}.get(chosen.delimiter, chosen.delimiter)
    if len(delimiter) != 1 or delimiter in '"\r\n':
        raise WrongUse(f"--delimiter {chosen.delimiter}: one character is wanted, or tab")
    if chosen.json:
        for line in json_lines(tables):
            print(line)
    elif chosen.folder:
        write_folder(chosen.folder, tables, delimiter)
    elif len(tables) > 1:
        raise WrongUse(f"name one table, or give --folder or --json: there are {listed(tables)}")
    else:
        for rows in tables.values():
            write_csv(sys.stdout, rows, delimiter)


def main(words):
    chosen = parser().parse_args(words)
    if chosen.json and chosen.folder:
        raise WrongUse("--json goes to standard output, without --folder")
    try:
        output = parse_output(read_file(chosen.source).decode())
    except (BadOutput, UnicodeDecodeError) as fault:
        why = fault if isinstance(fault, BadOutput) else f"the byte at {fault.start} is no UTF-8"
        print(f"streams: tables: {why}", file=sys.stderr)
        return NO_OUTPUT
    if output.status:
        print(f"streams: tables: the output begins with `{output.first}`", file=sys.stderr)
    if output.status in (0, 3):
        export(chosen, output)
    return output.status
