"""The data of a page about a run, as one object for its script. Long lists of numbers are little-endian bytes in base 64.

    data = page_data(run)       of a Run
    data["lines"]["text"]       the journal in words, as far as the page has room for it
    data["marks"] ..            what each entry is, for the lanes

Everything is in the journal or in the tables; nothing is measured, so one run always gives one page.
"""

import json
from array import array
from base64 import b64encode
from typing import NamedTuple

from decode import escaped
from journal_lines import ARGUMENTS, CALLER, counted
from journal_sums import COMMITTED, ENDED, OPEN, TASK_COLUMNS, COLUMNS, is_idle, task_order
from journal_text import Wording

# Bytes of JSON that a page has room for: words of the journal, rows of tables, places of tasks.
LINES_ROOM, TABLES_ROOM, PLACES_ROOM = 15_000_000, 7_000_000, 1_000_000
# The most characters of a line, the first with which all lines fit.
LINE_LENGTHS = (600, 300, 160)
MOST_RECORDS = 12
MOST_COLUMNS = 32
MOST_SAFE = 2**53
NO_TASK = 0xFFFF

REQUESTS = tuple(ARGUMENTS)
# What an entry means for the lane in which it stands.
MARKS = (
    "none",
    "idle",
    "produced",
    "committed",
    "aborted",
    "refused",
    "assigned",
    "begun",
    "lost",
    "parked",
    "taken",
    "joined",
    "left",
    "probed",
    "ended",
)
ENDS = (COMMITTED, "aborted", ENDED, OPEN)


class Run(NamedTuple):
    """A run that a page shows: the topology or None, the output taken apart, the entries of its journal, and what they amount to."""

    topology: object
    output: object
    entries: list
    history: object


def packed(kind, numbers):
    """Numbers as bytes in base 64: `B`, `H` or `I` for 1, 2 or 4 bytes each."""
    return b64encode(array(kind, numbers).tobytes()).decode()


def json_text(value):
    """Compact JSON that may stand inside a page: no `<` in it ends or begins anything."""
    return json.dumps(value, ensure_ascii=False, separators=(",", ":")).replace("<", "\\u003c")


def json_size(value):
    """The bytes that a value takes in a page."""
    return len(json_text(value).encode())


# Tables.


def cell(value):
    """A cell: a text, a number, or, where a script's numbers don't reach, the digits in a list."""
    if isinstance(value, int) and abs(value) > MOST_SAFE:
        return [str(value)]
    return escaped(value) if isinstance(value, str) else value


def columns_of(rows):
    """The names of the fields that rows have, by bytes; those that most rows have where there are too many."""
    counts = {}
    for row in rows:
        for name in row[-1]:
            counts[name] = counts.get(name, 0) + 1
    most = sorted(counts, key=lambda name: (-counts[name], name.encode()))[:MOST_COLUMNS]
    return sorted(most, key=str.encode), len(counts) > MOST_COLUMNS


def table_data(table, room):
    """A printed table, as far as it has room: columns, and rows of cells."""
    names, has_more = columns_of(table.rows)
    is_windowed = any(len(row) == 3 for row in table.rows)
    rows, size = [], 0
    for row in table.rows:
        cells = [cell(each) for each in row[:-1]] + [cell(row[-1].get(name)) for name in names]
        if has_more:
            cells.append(json.dumps({name: field for name, field in row[-1].items() if name not in names}, ensure_ascii=False))
        size += json_size(cells)
        if size > room:
            break
        rows.append(cells)
    columns = ["key", *["start"] * is_windowed, *(escaped(name) for name in names), *["other fields"] * has_more]
    return {"name": table.name, "columns": columns, "rows": rows, "total": table.total}, size


def tables_data(tables):
    room, told = TABLES_ROOM, []
    for table in tables:
        data, size = table_data(table, room)
        room = max(0, room - size)
        told.append(data)
    return told


# The journal.


def who_names(entries, wording):
    """Everybody who asks: the job, the workers by number, the caller, the instances."""
    workers = sorted({entry.worker for entry in entries if entry.worker is not None and not is_idle(entry)})
    instances = sorted({entry["instance"] for entry in entries if "instance" in entry.arguments})
    names = ["job", *(f"worker {worker}" for worker in workers if worker != CALLER), *["caller"] * (CALLER in workers)]
    idle = {wording.who(entry): None for entry in entries if entry.worker is not None}
    return [*names, *(f"instance {instance}" for instance in instances), *(name for name in idle if name not in names)]


def mark_of(entry, lost, drain):
    """What an entry means for its lane."""
    if not entry.is_accepted:
        return "refused"
    if is_idle(entry):
        return "idle"
    if entry.request == "decide":
        return "committed" if entry["commit"] else "aborted"
    if entry.number in lost:
        return "lost"
    if entry.request == "expire":
        return "ended" if entry.number >= drain else "left"
    if entry.request == "assign" and not entry.reply:
        return "none"
    words = {
        "produce": "produced",
        "init": "begun",
        "park": "parked",
        "unpark": "taken",
        "join": "joined",
        "probe": "probed",
        "assign": "assigned",
    }
    return words.get(entry.request, "none")


def line_texts(entries, wording):
    """The entries in words, cut where there are too many, and how many of them have room."""
    texts = [wording.line(entry) for entry in entries]
    sizes = [json_size(text) + 1 for text in texts]
    for length in LINE_LENGTHS:
        if sum(min(size, length) for size in sizes) <= LINES_ROOM:
            break
    told, room = [], LINES_ROOM
    for text in texts:
        short = text if len(text) <= length else text[: length - 1] + "…"
        room -= json_size(short) + 1
        if room < 0:
            break
        told.append(short)
    return told


def lines_data(entries, wording, history):
    names = who_names(entries, wording)
    numbers = {name: number for number, name in enumerate(names)}
    lost = set(history.lost)
    tasks = sorted({task for entry in entries for task in entry.tasks}, key=task_order)
    task_numbers = {task: number for number, task in enumerate(tasks)}
    one_task = [task_numbers[entry["task"]] if "task" in entry.arguments else NO_TASK for entry in entries]
    return {
        "count": len(entries),
        "text": line_texts(entries, wording),
        "who": names,
        "tasks": tasks,
        "requests": list(REQUESTS),
        "marks": list(MARKS),
        "who_of": packed("B", [numbers[wording.who(entry)] for entry in entries]),
        "task_of": packed("H", one_task),
        "request_of": packed("B", [REQUESTS.index(entry.request) for entry in entries]),
        "mark_of": packed("B", [MARKS.index(mark_of(entry, lost, history.drain)) for entry in entries]),
    }


def lanes_of(history, entries):
    """The lanes: the job's records, each worker that did anything, the caller, and the shelf of each instance that had something on it."""
    shelves = {
        entry["instance"] for entry in entries if entry.request == "park" or entry.request == "unpark" and entry.reply is True
    }
    workers = [
        {"name": "caller" if worker == CALLER else f"worker {worker}", "kind": "worker"} for worker in sorted(history.workers)
    ]
    return [
        {"name": "job", "kind": "feed"},
        *workers,
        *({"name": f"instance {shelf}", "kind": "shelf"} for shelf in sorted(shelves)),
    ]


def transactions_data(history, lanes):
    lane_of = {lane["name"]: number for number, lane in enumerate(lanes)}
    rows = history.transactions
    names = ["caller" if row.worker == CALLER else f"worker {row.worker}" for row in rows]
    return {
        "ends": list(ENDS),
        "lane": packed("B", [lane_of[name] for name in names]),
        "end": packed("B", [ENDS.index(row.end) for row in rows]),
        "first": packed("I", [row.first for row in rows]),
        "last": packed("I", [row.last for row in rows]),
        "in": packed("I", [row.records_in() for row in rows]),
        "out": packed("I", [row.records_out() for row in rows]),
    }


def epochs_data(entries, history, lanes):
    """Epochs that a worker has begun, with the entries of their begin and end."""
    lane_of = {lane["name"]: number for number, lane in enumerate(lanes)}
    begun, told = {}, []
    for entry in entries:
        if entry.request not in ("init", "expire") or not entry.is_accepted or is_idle(entry):
            continue
        name = "caller" if entry.worker == CALLER else f"worker {entry.worker}"
        if name in begun:
            told.append((lane_of[name], *begun.pop(name), entry.number))
        if entry.request == "init":
            begun[name] = (entry.reply, entry.number)
    told += [(lane_of[name], *begin, len(entries)) for name, begin in begun.items()]
    told.sort(key=lambda row: row[2])
    kinds = zip(("lane", "epoch", "first", "last"), "BIII")
    return {name: packed(kind, [min(row[at], 2**32 - 1) for row in told]) for at, (name, kind) in enumerate(kinds)}


def places_of(entry, worker):
    """The tasks that an assignment gives to a worker, in words, and how many of them it is active at."""
    chosen = {kind: [task for task, owner in entry[kind] if owner == worker] for kind in ("active", "standby", "warmup")}
    words = "; ".join(f"{kind} {' '.join(tasks)}" for kind, tasks in chosen.items() if tasks)
    return words or "no task", len(chosen["active"])


def assignments_data(entries, history, lanes):
    """Of each assignment that was accepted, by lane, what the worker has then; without the words where there is no room."""
    workers = [
        (number, CALLER if lane["name"] == "caller" else int(lane["name"].split()[1]))
        for number, lane in enumerate(lanes)
        if lane["kind"] == "worker"
    ]
    told, room = [], PLACES_ROOM
    for entry in entries:
        if entry.request != "assign" or entry.reply is not True:
            continue
        places = {str(lane): places_of(entry, worker) for lane, worker in workers}
        room -= json_size(places)
        if room < 0:
            places = {lane: (counted(active, "active task"), active) for lane, (_, active) in places.items()}
        told.append({"line": entry.number, "generation": entry["generation"], "places": places})
    return told


def sums_data(pairs, columns):
    """A table of sums: a name, then its numbers in the order of the columns."""
    return {
        "columns": ["", *columns.values()],
        "rows": [[name, *(getattr(sums, field) for field in columns)] for name, sums in pairs],
    }


def topics_data(topology, history):
    """Of each topic what was written and taken, by committed transactions."""
    rows = []
    for topic in topology.topics:
        counts = history.topics.get(topic.number, {"produced": 0, "appended": 0, "taken": 0})
        rows.append([topic.name, topic.number, topic.role, topic.parts, counts["produced"] + counts["appended"], counts["taken"]])
    return {"columns": ["topic", "number", "role", "partitions", "records", "taken"], "rows": rows}


def page_data(run):
    """All that the page's script shows."""
    data = {"tables": tables_data(run.output.tables)}
    if run.topology is None or not run.entries:
        return data
    history, wording = run.history, Wording(run.topology, MOST_RECORDS)
    lanes = lanes_of(history, run.entries)
    workers = [("caller" if worker == CALLER else f"worker {worker}", sums) for worker, sums in sorted(history.workers.items())]
    return {
        **data,
        "drain": history.drain,
        "workers": sums_data(workers, COLUMNS),
        "tasks": sums_data(history.tasks_in_order(), TASK_COLUMNS),
        "topics": topics_data(run.topology, history),
        "lanes": lanes,
        "lines": lines_data(run.entries, wording, history),
        "transactions": transactions_data(history, lanes),
        "epochs": epochs_data(run.entries, history, lanes),
        "assignments": assignments_data(run.entries, history, lanes),
    }
