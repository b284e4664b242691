"""What the raw lines of a journal amount to, added up by lines that share nothing with the tools but the decoder of bytes, and whether the
data inside a page says the same. Of tests/check-page, which has put tools/ on the path."""

import base64
import json
from array import array
from collections import Counter

import decode


class Different(Exception):
    pass


def expect(what, found, wanted):
    if found != wanted:
        raise Different(f"{what}: {str(found)[:600]}, not {str(wanted)[:600]}")


# The raw journal, added up.


def is_refusal(line):
    return isinstance(line[-1], list) and line[0] != "mark"


def committed_appends(lines):
    """The accepted `append` lines of committed transactions, in the order of their commits, and of aborted or undecided ones how many records."""
    waiting, committed, lost = {}, [], 0
    for line in lines:
        word, worker = line[0], line[1]
        if is_refusal(line):
            continue
        if word == "append":
            waiting.setdefault(worker, []).append(line)
        if word == "decide" and line[3]:
            committed += waiting.pop(worker, [])
        elif word in ("decide", "init", "expire") and line[-1] is not False:
            lost += sum(len(each[7]) for each in waiting.pop(worker, []))
    return committed, lost + sum(len(each[7]) for all_of_one in waiting.values() for each in all_of_one)


def folded_tables(topology, appends):
    """The printed tables, as their changelogs give them, decoded."""
    reader, stores = decode.Reader(topology), {}
    for line in sorted(appends, key=lambda each: (each[5], each[6], each[-1])):
        for record in line[7]:
            key, value = reader.record(line[5], record)
            stores.setdefault(line[5], {})[key] = value
    for name in topology.print:
        node, store = topology.nodes[name], stores.get(topology.internal(name, "changelog").number, {})
        yield name, sorted(
            (shown_row(node, key, value) for key, value in store.items() if value is not None and key != decode.LATEST), key=str
        )


def shown_row(node, key, value):
    """A pair of a store as the program prints it."""
    if not node.is_aggregate:
        return [key, value]
    row = {"sum": value.total} if node.op == "sum" else {"count": value.members}
    return [*key, row] if isinstance(key, decode.WindowKey) else [key, row]


def sums_by_worker(lines):
    """By worker the names of the summary's columns, as the raw lines have them; `in` and `out` with what was lost."""
    told = {}
    for line in lines:
        if line[0] in ("produce", "park", "unpark"):
            continue
        sums = told.setdefault(line[1], Counter())
        sums["refused"] += is_refusal(line)
        sums["epochs"] += line[0] == "init"
        if is_refusal(line):
            continue
        sums["commits"] += line[0] == "decide" and line[3]
        sums["decided aborts"] += line[0] == "decide" and not line[3]
        sums["in"] += sum(count for _, count in line[6]) if line[0] == "offsets" else 0
        sums["out"] += len(line[7]) if line[0] == "append" else 0
    return told


# Holding the page to it.


def numbers(kind, text):
    return array(kind, base64.b64decode(text)).tolist()


def holds_lines(data, lines, texts):
    """The lines of the page are those of the journal."""
    told = data["lines"]
    expect("lines", (told["count"], len(told["text"])), (len(lines), len(lines)))
    expect("requests", [told["requests"][each] for each in numbers("B", told["request_of"])], [line[0] for line in lines])
    who = [told["who"][each] for each in numbers("B", told["who_of"])]
    names = {
        "produce": lambda line: "job",
        "park": lambda line: f"instance {line[1]}",
        "unpark": lambda line: f"instance {line[1]}",
    }
    expect(
        "who", who, [names.get(line[0], lambda line: "caller" if line[1] == 16 else f"worker {line[1]}")(line) for line in lines]
    )
    tasks = [told["tasks"][each] if each != 0xFFFF else None for each in numbers("H", told["task_of"])]
    places = {"append": 4, "offsets": 4, "park": 2, "unpark": 2}
    expect("tasks", tasks, [line[places[line[0]]] if line[0] in places else None for line in lines])
    for number, (text, line) in enumerate(zip(texts, lines), 1):
        expect("text", text.split()[0], str(number))
        if is_refusal(line) != ("-> REFUSED, " in text) or f" {line[0]} " not in text:
            raise Different(text)


def holds_marks(data, lines):
    """What the lanes show is what the lines say."""
    found = Counter(data["lines"]["marks"][each] for each in numbers("B", data["lines"]["mark_of"]))
    accepted = [line for line in lines if not is_refusal(line)]
    decided = Counter(line[3] for line in accepted if line[0] == "decide")
    words = Counter(line[0] for line in accepted if line[-1] is not False)
    wanted = {
        "produced": words["produce"],
        "committed": decided[True],
        "aborted": decided[False],
        "refused": len(lines) - len(accepted),
        "assigned": words["assign"],
        "parked": words["park"],
        "taken": words["unpark"],
        "joined": words["join"],
        "probed": words["probe"],
        "epochs": words["init"] + words["expire"],
    }
    found["epochs"] = found["begun"] + found["lost"] + found["left"] + found["ended"]
    expect("marks", {name: found[name] for name in wanted}, wanted)
    expect("lost", found["lost"], sum(row[-1] for row in data["workers"]["rows"]))
    expect(
        "assignments",
        [each["line"] for each in data["assignments"]],
        [number for number, line in enumerate(lines, 1) if line[0] == "assign" and line[-1] is True],
    )


def epochs_lost(lines):
    """How many epochs of each worker were begun and ended before the caller removes all workers, 0 to 16."""
    begun, lost = set(), Counter()
    removals = [at for at, line in enumerate(lines) if line[:2] == ["expire", 16]]
    for line in lines[: removals[0] - 16 if removals else None]:
        if line[0] not in ("init", "expire") or line[-1] is False:
            continue
        lost[line[1]] += line[1] in begun
        begun.discard(line[1])
        if line[0] == "init":
            begun.add(line[1])
    return lost


def holds_sums(data, lines, is_settled):
    """The sums by worker, task and topic are those of the raw lines."""
    raw = sums_by_worker(lines)
    rows = {row[0]: dict(zip(data["workers"]["columns"], row)) for row in data["workers"]["rows"]}
    lost = epochs_lost(lines)
    expect(
        "epochs lost",
        {name: row["lost"] for name, row in rows.items() if row["lost"]},
        {f"worker {worker}": count for worker, count in lost.items() if count},
    )
    expect(
        "drain",
        lines[data["drain"] - 1 : data["drain"] + 16],
        [["expire", worker, lines[data["drain"] - 1 + worker][-1]] for worker in range(17)],
    )
    for worker, sums in raw.items():
        row = rows.get("caller" if worker == 16 else f"worker {worker}")
        if row is None:
            expect(f"worker {worker}", sum(sums.values()), 0)
            continue
        found = (row["commits"], row["refused"], row["epochs"], row["in"] + row["lost in"], row["out"] + row["lost out"])
        expect(f"worker {worker}", found, tuple(sums[name] for name in ("commits", "refused", "epochs", "in", "out")))
        expect(f"aborts of worker {worker}", row["aborts"] >= sums["decided aborts"], True)
    committed, lost = committed_appends(lines)
    expect(
        "out",
        (column(data, "workers", "out"), column(data, "workers", "lost out")),
        (sum(len(line[7]) for line in committed), lost),
    )
    for name in ("in", "out", "lost in", "lost out", "late"):
        expect(f"{name} by task", column(data, "tasks", name), column(data, "workers", name))
    told = data["transactions"]
    ends = Counter(told["ends"][each] for each in numbers("B", told["end"]))
    expect(
        "transactions",
        (ends["committed"], ends["aborted"] + ends["ended"]),
        (column(data, "workers", "commits"), column(data, "workers", "aborts")),
    )
    holds_topics(data, lines, committed, is_settled)


def column(data, table, name):
    return sum(row[data[table]["columns"].index(name)] for row in data[table]["rows"])


def holds_topics(data, lines, committed, is_settled):
    """What topics have; where the job is settled, all of what is read was taken once."""
    written = Counter(line[1] for line in lines if line[0] == "produce")
    for line in committed:
        written[line[5]] += len(line[7])
    for name, number, role, _, records, taken in data["topics"]["rows"]:
        expect(f"records of {name}", records, written[number])
        if is_settled and not role.endswith("changelog") and (taken or role != "input"):
            expect(f"taken of {name}", taken, records)


def holds_tables(data, output, topology, committed, is_settled):
    """The tables of the page are the printed ones, and those that the changelogs give."""
    printed, name = {}, None
    for line in output.decode().split("\n"):
        if line.startswith("table "):
            name = line.split()[1]
            printed[name] = []
        elif (
            line.startswith('["')
            and name
            and len(printed[name]) < next(table["total"] for table in data["tables"] if table["name"] == name)
        ):
            printed[name].append(json.loads(line))
    expect("tables", [table["name"] for table in data["tables"]], list(printed))
    for table in data["tables"]:
        keys = 2 if "start" in table["columns"][1:2] and len(printed[table["name"]][0]) == 3 else 1
        rows = []
        for cells in table["rows"]:
            fields = {
                field: int(each[0]) if isinstance(each, list) else each
                for field, each in zip(table["columns"][keys:], cells[keys:])
                if each is not None
            }
            rest = json.loads(fields.pop("other fields")) if len(table["columns"]) > 33 else {}
            rows.append([*cells[:keys], {**fields, **rest}])
        expect(f"rows of {table['name']}", rows, [[spelled(part) for part in row] for row in printed[table["name"]]])
    if is_settled:
        for name, rows in folded_tables(topology, committed):
            expect(f"changelog of {name}", rows, sorted(printed[name], key=str))


def spelled(part):
    """A key, a start or a row with what doesn't print spelled, as the page has it."""
    if isinstance(part, dict):
        return {decode.escaped(name): spelled(field) for name, field in part.items()}
    return decode.escaped(part) if isinstance(part, str) else part
