"""The lines of a journal (docs/formats.md, "Journal lines") as entries whose arguments have names.

    entry = entry_of(7, '["decide",0,1,true,[2,2]]')
    entry.request, entry["epoch"], entry["commit"]      decide 1 True
    entry.refusal, refusal_text(entry.refusal)          [2, 2] "fenced: the producer's epoch is 2"

A line that is none raises NotJournal. Nothing here knows a topology: topics are numbers, keys and values are text in base 16.
"""

import json
from typing import NamedTuple

# The arguments of each request, in their order; the reply comes after them.
ARGUMENTS = {
    "produce": ("topic", "partition", "record"),
    "init": ("worker",),
    "add": ("worker", "epoch", "topic", "partition"),
    "append": ("worker", "epoch", "earlier", "task", "topic", "partition", "records"),
    "offsets": ("worker", "epoch", "generation", "task", "offsets", "order", "late"),
    "decide": ("worker", "epoch", "commit"),
    "mark": ("worker",),
    "join": ("worker",),
    "expire": ("worker",),
    "hold": ("worker", "held"),
    "probe": ("worker", "generation"),
    "assign": ("worker", "generation", "active", "standby", "warmup"),
    "park": ("instance", "task"),
    "unpark": ("instance", "task"),
}
# How many things each refusal tells, behind its number.
TOLD = {1: 1, 2: 1, 3: 1, 4: 0, 5: 1, 6: 1, 7: 1, 8: 1, 9: 1}
# The worker that is the caller: it brings the cluster to rest at the end.
CALLER = 16


class NotJournal(Exception):
    """A line that is no entry's."""

    def __init__(self, number, line):
        super().__init__(f"line {number} is no journal line: {line[:120]!r}")
        self.number = number


class Entry(NamedTuple):
    """An entry: its number from 1, its request's name, its arguments by the names of ARGUMENTS, its reply."""

    number: int
    request: str
    arguments: dict
    reply: object

    def __getitem__(self, name):
        return self.arguments[name]

    @property
    def worker(self):
        """The worker that asked, or of which was asked that it be removed; None where the request has none."""
        return self.arguments.get("worker")

    @property
    def refusal(self):
        """The number of the refusal and what it tells; None where the request was accepted."""
        return self.reply if isinstance(self.reply, list) and self.request != "mark" else None

    @property
    def is_accepted(self):
        return self.refusal is None

    @property
    def records(self):
        """The records that a request writes."""
        if self.request == "produce":
            return [self.arguments["record"]]
        return self.arguments.get("records", [])

    @property
    def tasks(self):
        """The tasks that the entry names, each once."""
        named = [self.arguments["task"]] if "task" in self.arguments else []
        for places in ("active", "standby", "warmup", "held"):
            named += [place[0] for place in self.arguments.get(places, ())]
        if self.refusal and self.refusal[0] == 9:
            named.append(self.refusal[1])
        return list(dict.fromkeys(named))


# What an argument and a reply may be.


def is_number(value):
    return type(value) is int and value >= 0


def is_task(value):
    front, _, back = value.partition("_") if isinstance(value, str) else ("", "", "")
    return front.isdecimal() and back.isdecimal()


def is_bytes(value):
    """Bytes in base 16, or none."""
    if value is None:
        return True
    try:
        return isinstance(value, str) and bytes.fromhex(value) is not None
    except ValueError:
        return False


def is_record(value):
    return isinstance(value, list) and len(value) == 3 and is_bytes(value[0]) and is_bytes(value[1]) and is_number(value[2])


def are_pairs(value, is_first):
    return isinstance(value, list) and all(
        isinstance(pair, list) and len(pair) == 2 and is_first(pair[0]) and is_number(pair[1]) for pair in value
    )


def are_records(value):
    return isinstance(value, list) and all(is_record(record) for record in value)


def are_offsets(value):
    return are_pairs(value, is_number)


def are_places(value):
    return are_pairs(value, is_task)


def is_truth(value):
    return isinstance(value, bool)


def is_marker(value):
    """What a written marker is told by, or none."""
    if value is None:
        return True
    return isinstance(value, list) and len(value) == 3 and is_number(value[0]) and is_number(value[1]) and is_truth(value[2])


# Of each argument that isn't a number what it is; of each request whose reply isn't a truth value what that is.
IS_ARGUMENT = {
    "task": is_task,
    "record": is_record,
    "records": are_records,
    "offsets": are_offsets,
    "order": are_offsets,
    "held": are_places,
    "active": are_places,
    "standby": are_places,
    "warmup": are_places,
    "commit": is_truth,
}
IS_REPLY = {"mark": is_marker, **dict.fromkeys(("produce", "append", "init", "join", "probe"), is_number)}


def is_refusal(reply):
    """A list of a refusal's number and what it tells."""
    if not (isinstance(reply, list) and reply and is_number(reply[0]) and len(reply) == 1 + TOLD.get(reply[0], -1)):
        return False
    is_told = {3: is_truth, 6: lambda owner: owner is None or is_number(owner), 9: is_task}.get(reply[0], is_number)
    return all(is_told(each) for each in reply[1:])


def entry_of(number, line):
    """The entry of a line, which is the journal's `number`-th."""
    try:
        items = json.loads(line)
        names = ARGUMENTS[items[0]]
    except (ValueError, KeyError, IndexError, TypeError, RecursionError) as fault:
        raise NotJournal(number, line) from fault
    entry = Entry(number, items[0], dict(zip(names, items[1:])), items[-1])
    is_reply = IS_REPLY.get(entry.request, is_truth)
    if (
        len(items) != len(names) + 2
        or not all(IS_ARGUMENT.get(name, is_number)(value) for name, value in entry.arguments.items())
        or not (is_reply(entry.reply) or entry.request != "mark" and is_refusal(entry.reply))
    ):
        raise NotJournal(number, line)
    return entry


def entries_of(lines):
    """The entries of a journal's lines, numbered from 1."""
    return [entry_of(number, line) for number, line in enumerate(lines, 1)]


def refusal_text(refusal):
    """A refusal in words."""
    number, *told = refusal
    what = told[0] if told else None
    if number == 1:
        return f"out of sequence: the next number is {what}"
    if number == 2:
        return f"fenced: the producer's epoch is {what}"
    if number == 3:
        return f"decided already: {'committed' if what else 'aborted'}"
    if number == 4:
        return "there is no such transaction, or the partition isn't in it"
    if number == 5:
        return f"old generation: the group's is {what}"
    if number == 6:
        return "the task is active at no worker" if what is None else f"the task is active at {worker_name(what)}"
    if number == 7:
        return f"offsets of the task are pending at {worker_name(what)}"
    if number == 8:
        return f"{counted(what, 'marker')} of the last transaction {'waits' if what == 1 else 'wait'} to be written"
    if number == 9:
        return f"the task {what} isn't active at exactly one member"
    return f"refused: {refusal}"


def worker_name(worker):
    return "the caller" if worker == CALLER else f"worker {worker}"


def counted(count, thing):
    """A number and its thing, in the plural where there isn't one."""
    return f"{count:,} {thing}{'' if count == 1 else 's'}"


def drain_start(entries):
    """The index of the entry with which the caller begins to bring the cluster to rest: it removes all workers, 0 to 16, one after
    another, and nobody else removes the caller. Where it didn't, its first entry but those that write markers, which workers write for it
    too; where there is none, the number of entries."""
    for at, entry in enumerate(entries):
        if entry.worker != CALLER or entry.request == "mark":
            continue
        while (
            entry.request == "expire"
            and at > 0
            and entries[at - 1].request == "expire"
            and entries[at - 1].worker == entries[at].worker - 1
        ):
            at -= 1
        return at
    return len(entries)
