"""Entries of a journal in words, with the names of topics and with keys and rows as text; the same as objects.

    text = Wording(topology)
    text.line(entry)        '    14 worker 0   append   0_0 to shop-orders-changelog/2 in epoch 1 from 0: "o-1" {"cents":1250} -> offset 0'
    text.object(entry)      {"number":14,"request":"append","worker":0, ..}
"""

from decode import Reader, plain, shown, texts_of
from journal_lines import CALLER, counted, refusal_text, worker_name

# Who asks where the request names no worker.
FEED = "job"


class Wording:
    """Puts the entries of a topology's journal into words. `most_records` is how many records a line shows; None is all."""

    def __init__(self, topology, most_records=None):
        self.topology, self.reader, self.most_records = topology, Reader(topology), most_records

    # Names.

    def topic(self, number):
        topics = self.topology.topics
        return topics[number].name if number < len(topics) else f"topic {number}"

    def place(self, entry):
        """A partition, as `orders/2`."""
        return f"{self.topic(entry['topic'])}/{entry['partition']}"

    def who(self, entry):
        """Who asked: a worker, the caller, an instance, or the job whose record was produced."""
        if "instance" in entry.arguments:
            return f"instance {entry['instance']}"
        return FEED if entry.worker is None else worker_name(entry.worker).removeprefix("the ")

    # Records.

    def decoded(self, entry, record):
        """A record that an entry writes: key, value and time."""
        topic = entry["topic"]
        pair = self.reader.record(topic, record) if topic < len(self.reader.kinds) else record[:2]
        return *pair, record[2]

    def chosen(self, entry, key):
        """The records that an entry writes, or those alone that name this key."""
        records = (self.decoded(entry, record) for record in entry.records)
        return [each for each in records if key is None or key in texts_of(each[0], each[1])]

    def records_text(self, entry, key):
        """The records in words, or those alone that name this key; as many as a line shows."""
        count = len(entry.records)
        if key is None:
            told = [self.decoded(entry, record) for record in entry.records[: self.most_records]]
            front, left = "", count - len(told)
        else:
            chosen = self.chosen(entry, key)
            told = chosen[: self.most_records]
            front = f"{len(chosen):,} of {counted(count, 'record')}: " if len(chosen) < count else ""
            left = len(chosen) - len(told)
        return f"{front}{'; '.join(record_text(*record) for record in told)}{f'; {left:,} more' if left else ''}"

    # Entries.

    def line(self, entry, key=None):
        """One line of text: number, who asked, request, what it asked, reply. With a key, of the records those that name it."""
        words = getattr(self, f"_{entry.request}")(entry, key)
        return f"{entry.number:>6} {self.who(entry):<10} {entry.request:<8}{' ' + words if words else ''} -> {self.reply(entry)}"

    def reply(self, entry):
        """The reply in words."""
        if entry.refusal:
            return f"REFUSED, {refusal_text(entry.refusal)}"
        request, reply = entry.request, entry.reply
        if request in ("produce", "append"):
            return f"offset {reply}"
        if request == "init":
            return f"epoch {reply}"
        if request in ("join", "probe"):
            return f"generation {reply}"
        if request == "mark":
            return "no marker waited" if reply is None else self._marker(reply)
        no = {"expire": "nothing changed", "assign": "the generation has places already", "unpark": "none was kept"}
        return "ok" if reply else no.get(request, "no")

    def _marker(self, reply):
        topic, partition, is_commit = reply
        return f"{'commit' if is_commit else 'abort'} marker in {self.topic(topic)}/{partition}"

    def _produce(self, entry, key):
        return f"{self.place(entry)}: {self.records_text(entry, key)}"

    def _nothing(self, entry, key):
        return ""

    _init = _mark = _join = _expire = _nothing

    def _add(self, entry, key):
        return f"{self.place(entry)} in epoch {entry['epoch']}"

    def _append(self, entry, key):
        return f"{entry['task']} to {self.place(entry)} in epoch {entry['epoch']} from {entry['earlier']}: {self.records_text(entry, key)}"

    def _offsets(self, entry, key):
        read = ", ".join(f"{self.topic(topic)} to {offset}" for topic, offset in entry["offsets"])
        taken = ", ".join(f"{count} of {self.topic(topic)}" for topic, count in entry["order"])
        late = f"; {entry['late']} late" if entry["late"] else ""
        place = f"{entry['task']} in epoch {entry['epoch']}, generation {entry['generation']}"
        return f"{place}: took {taken or 'nothing'}{late}; read {read or 'nothing'}"

    def _decide(self, entry, key):
        return f"{'commit' if entry['commit'] else 'abort'} in epoch {entry['epoch']}"

    def _hold(self, entry, key):
        return ", ".join(f"{task} at {position}" for task, position in entry["held"]) or "nothing"

    def _probe(self, entry, key):
        return f"generation {entry['generation']}"

    def _assign(self, entry, key):
        kinds = ("active", "standby", "warmup")
        places = "; ".join(f"{kind} {places_text(entry[kind])}" for kind in kinds if entry[kind])
        return f"generation {entry['generation']}: {places or 'no places'}"

    def _park(self, entry, key):
        return entry["task"]

    _unpark = _park

    def object(self, entry, key=None):
        """The entry as an object: names of arguments as they are, topics by name, records decoded, `refused` in words or null."""
        told = {"number": entry.number, "request": entry.request, **entry.arguments}
        if "topic" in told:
            told["topic"] = self.topic(told["topic"])
        for pairs in ("offsets", "order"):
            if pairs in told:
                told[pairs] = [[self.topic(topic), number] for topic, number in told[pairs]]
        if entry.records:
            told.pop("record", None)
            told["records"] = [{"key": plain(k), "value": plain(v), "ts": ts} for k, v, ts in self.chosen(entry, key)]
        reply = entry.reply
        if entry.request == "mark" and reply:
            reply = [self.topic(reply[0]), *reply[1:]]
        return {**told, "reply": reply, "refused": refusal_text(entry.refusal) if entry.refusal else None}


def record_text(key, value, time):
    return f"{shown(key)} {shown(value)}{f' at {time}' if time else ''}"


def places_text(places):
    """Tasks by their worker: `0_0 0_1 at 0, 1_0 at 1`."""
    by_worker = {}
    for task, worker in places:
        by_worker.setdefault(worker, []).append(task)
    return ", ".join(
        f"{' '.join(tasks)} at {'the caller' if worker == CALLER else worker}" for worker, tasks in sorted(by_worker.items())
    )
