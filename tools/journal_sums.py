"""What a journal's entries amount to: transactions, and sums by worker and by task.

    history = history_of(entries)
    history.transactions, history.workers[0].commits, history.tasks["0_1"].records_in

Records in are those that a task took (the counts of its offsets), records out those that it appended, each where the transaction was
committed; those of other transactions are lost and counted apart. So in and lost in together are the sum of the counts of all accepted
`offsets` lines, and so it is with out and the records of accepted `append` lines.
"""

from collections import Counter

from journal_lines import drain_start

# How a transaction ended: decided either way; aborted since the producer's epoch was ended, by its own `init` or by `expire`; not at all.
COMMITTED, ABORTED, ENDED, OPEN = "committed", "aborted", "ended", "open"


class Transaction:
    """A producer's transaction from its first accepted request (`first`, an entry's number) to its end (`last`)."""

    def __init__(self, worker, epoch, first):
        self.worker, self.epoch, self.first, self.last, self.end = worker, epoch, first, first, OPEN
        self.taken, self.replaced, self.written, self.late = {}, Counter(), Counter(), {}

    @property
    def is_committed(self):
        return self.end == COMMITTED

    @property
    def tasks(self):
        return sorted(set(self.taken) | {task for task, _ in self.written}, key=task_order)

    def take(self, entry):
        """Offsets of a task, which stand in place of earlier ones of this transaction."""
        task = entry["task"]
        self.replaced[task] += sum(self.taken.get(task, {}).values())
        self.taken[task] = Counter()
        for topic, count in entry["order"]:
            self.taken[task][topic] += count
        self.late[task] = entry["late"]

    def write(self, entry):
        self.written[entry["task"], entry["topic"]] += len(entry["records"])

    def records_in(self, task=None):
        return sum(sum(counts.values()) for name, counts in self.taken.items() if task in (None, name))

    def records_replaced(self, task=None):
        """Records of offsets in whose place later ones of this transaction stand."""
        return sum(count for name, count in self.replaced.items() if task in (None, name))

    def records_out(self, task=None):
        return sum(count for (name, _), count in self.written.items() if task in (None, name))


class Sums:
    """The sums of a worker (a producer) or of a task."""

    def __init__(self):
        self.commits = self.aborts = self.open = 0
        self.records_in = self.records_out = self.lost_in = self.lost_out = self.late = 0
        self.refused = self.epochs = self.epochs_lost = 0

    def add(self, transaction, task=None):
        """Counts a transaction, or the part of it that is a task's."""
        taken, written = transaction.records_in(task), transaction.records_out(task)
        self.lost_in += transaction.records_replaced(task)
        self.commits += transaction.end == COMMITTED
        self.aborts += transaction.end in (ABORTED, ENDED)
        self.open += transaction.end == OPEN
        if transaction.is_committed:
            self.records_in += taken
            self.records_out += written
            self.late += sum(late for name, late in transaction.late.items() if task in (None, name))
        else:
            self.lost_in += taken
            self.lost_out += written

    def as_object(self):
        return dict(vars(self))


class History:
    """A journal's entries, gone through once.

    transactions  in the order in which they began
    workers       Sums by producer, of those that did anything but stand idle
    tasks         Sums by task
    topics        of each topic's number: records produced, appended and committed, taken and committed
    lost          numbers of entries with which an epoch ended that its worker had begun, before the caller removes all workers: the worker
                  was removed, or began anew
    drain         the number of the entry with which the caller begins; 1 past the last where it never does
    """

    def __init__(self):
        self.transactions, self.workers, self.tasks, self.lost = [], {}, {}, []
        self.topics = {}
        self.drain = 1
        self._current, self._begun = {}, set()

    def take(self, entry):
        """Takes the next entry."""
        if entry.request == "produce":
            self._topic(entry["topic"])["produced"] += 1
        if entry.worker is None:
            return
        if is_idle(entry):
            return
        sums = self.workers.setdefault(entry.worker, Sums())
        if not entry.is_accepted:
            sums.refused += 1
            self._task_refused(entry)
        elif entry.request in ("init", "expire"):
            self._end_epoch(entry, sums)
        elif entry.request in ("add", "append", "offsets"):
            self._write(entry)
        elif entry.request == "decide":
            self._end(entry, COMMITTED if entry["commit"] else ABORTED)

    def _task_refused(self, entry):
        if "task" in entry.arguments:
            self.tasks.setdefault(entry["task"], Sums()).refused += 1

    def _end_epoch(self, entry, sums):
        """`init` and `expire` end the epoch before, with what it had undecided. What the caller ends after the run isn't lost."""
        worker = entry.worker
        self._end(entry, ENDED)
        if worker in self._begun and entry.number < self.drain:
            sums.epochs_lost += 1
            self.lost.append(entry.number)
        self._begun.discard(worker)
        if entry.request == "init":
            sums.epochs += 1
            self._begun.add(worker)

    def _write(self, entry):
        current = self._current.get(entry.worker)
        if current is None:
            current = self._current[entry.worker] = Transaction(entry.worker, entry["epoch"], entry.number)
            self.transactions.append(current)
        current.last = entry.number
        if entry.request == "offsets":
            current.take(entry)
        elif entry.request == "append":
            current.write(entry)

    def _end(self, entry, end):
        current = self._current.pop(entry.worker, None)
        if current is not None:
            current.end, current.last = end, entry.number

    def _topic(self, number):
        return self.topics.setdefault(number, {"produced": 0, "appended": 0, "taken": 0})

    def tasks_in_order(self):
        return sorted(self.tasks.items(), key=lambda pair: task_order(pair[0]))

    def add_up(self):
        """Sums the transactions, once all entries were taken."""
        for transaction in self.transactions:
            sums = self.workers[transaction.worker]
            sums.add(transaction)
            for task in transaction.tasks:
                self.tasks.setdefault(task, Sums()).add(transaction, task)
            if transaction.is_committed:
                self._add_topics(transaction)

    def _add_topics(self, transaction):
        for (_, topic), count in transaction.written.items():
            self._topic(topic)["appended"] += count
        for counts in transaction.taken.values():
            for topic, count in counts.items():
                self._topic(topic)["taken"] += count


def is_idle(entry):
    """Whether the request found nothing to do: nobody to remove, no marker to write, no parked task to take."""
    return entry.request in ("expire", "unpark") and entry.reply is False or entry.request == "mark" and entry.reply is None


def task_order(task):
    """Tasks in the program's order."""
    return tuple(int(part) for part in task.split("_"))


def history_of(entries):
    history = History()
    at = drain_start(entries)
    history.drain = entries[at].number if at < len(entries) else len(entries) + 1
    for entry in entries:
        history.take(entry)
    history.add_up()
    return history


# The summary as a table of text.

COLUMNS = {
    "commits": "commits",
    "aborts": "aborts",
    "records_in": "in",
    "records_out": "out",
    "lost_in": "lost in",
    "lost_out": "lost out",
    "late": "late",
    "refused": "refused",
    "epochs": "epochs",
    "epochs_lost": "lost",
}
# A task has no epochs.
TASK_COLUMNS = {field: title for field, title in COLUMNS.items() if not field.startswith("epochs")}


def sums_of_all(rows):
    """The sums of all rows."""
    total = Sums()
    for row in rows:
        for name, number in vars(row).items():
            setattr(total, name, getattr(total, name) + number)
    return total


def table_lines(rows, columns):
    """A table of pairs of a name and its sums, with a head."""
    cells = [["", *columns.values()]]
    cells += [[name, *(str(getattr(sums, field)) for field in columns)] for name, sums in rows]
    widths = [max(len(row[at]) for row in cells) for at in range(len(cells[0]))]
    for row in cells:
        yield "  ".join([row[0].ljust(widths[0]), *(cell.rjust(width) for cell, width in zip(row[1:], widths[1:]))])
