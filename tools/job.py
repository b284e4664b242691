"""A job as data: its topology, laid out in subtopologies, topics and tasks as the program lays it out, and its records.

    topology, records = read_job("examples/orders-by-region.jsonl")
    topology.tasks              [(0, 0), (0, 1), ..]: subtopology and partition
    topology.topics[5].name     "shop-cents_by_customer-changelog": topics by the numbers that the journal has

The job has to be a valid one (`./streams check` tells what is wrong with one that isn't); where it is none, BadJob says at which line this
was seen, and no more. Nothing here knows the program: tests hold it to the program's journals.
"""

import json
from typing import NamedTuple

STREAM_OPS = ("filter", "map_values")
ROLES = {
    "repartition": "repartition",
    "subscription": "subscription-registration-topic",
    "response": "subscription-response-topic",
    "changelog": "changelog",
    "subscription-changelog": "subscription-store-changelog",
}


class BadJob(Exception):
    """The lines are no valid job."""

    def __init__(self, line, why):
        super().__init__(f"line {line}: {why}; ./streams check tells what is wrong")
        self.line = line


class Record(NamedTuple):
    """A record of a job: its line's number from 1, its topic, its key or None, its row (without nulls) or None, its time in milliseconds."""

    line: int
    topic: str
    key: str | None
    value: dict | None
    ts: int


class Topic(NamedTuple):
    """A topic by its number. `role` is `input` or one of ROLES; `node` is the name of the node that it serves, None for an input topic;
    `key_before` is the text before whose first place a key decides the partition, None where the whole key does."""

    number: int
    name: str
    parts: int
    role: str
    node: str | None
    key_before: str | None


class Node:
    """A node: its name, op and members as the job has them, its input nodes by their names (`inputs`), and what follows of where it stands.

    is_stream        it gives a stream, else a table (`is_windowed`: a windowed one)
    is_repartitioned an aggregate whose groups go through a repartition topic
    parts            partitions; key_before as in Topic
    subtopology      the number of the one in which its result (its store) lies
    """

    def __init__(self, number, line):
        self.number, self.name, self.op, self.members = number, line["name"], line["op"], line
        self.inputs = [line[side] for side in ("from", "left", "right") if side in line]
        self.is_stream = self.is_windowed = self.is_rekeyed = self.is_repartitioned = False
        self.parts, self.key_before, self.subtopology = 1, None, 0

    def __repr__(self):
        return f"<{self.op} {self.name}>"

    @property
    def is_aggregate(self):
        return self.op in ("count", "sum", "windowed_count")

    @property
    def has_store(self):
        return not self.is_stream


class Subtopology(NamedTuple):
    """`reads` are the numbers of the topics that its tasks read, `writes` of those that they send to, `changelogs` of their stores', all
    rising; `nodes` the names of the nodes whose result lies in it, in order; `parts` the number of its tasks."""

    number: int
    parts: int
    nodes: list
    reads: list
    writes: list
    changelogs: list


class Topology:
    """A topology line. `app`, `print` (names) and `inputs` (of each input topic the pair of partitions and `key_before`) as the line has
    them; `nodes` a dictionary by name, in order; `topics` by number; `subtopologies`; `tasks` as pairs, in the program's order."""

    def __init__(self, line):
        self.app, self.print, self.line = line["app"], line["print"], line
        self.inputs = {name: topic_form(form) for name, form in line["topics"].items()}
        self.nodes = {}
        for number, each in enumerate(line["nodes"]):
            self.nodes[each["name"]] = self._resolved(Node(number, each))
        self._number_subtopologies()
        self.topics = [Topic(number, *topic) for number, topic in enumerate(self._all_topics())]
        self.by_name = {topic.name: topic for topic in self.topics}
        self.subtopologies = [self._subtopology(number) for number in range(self._count)]
        self.tasks = [(each.number, part) for each in self.subtopologies for part in range(each.parts)]

    # What a node is, from those before it.

    def _resolved(self, node):
        if "topic" in node.members:
            node.is_stream = node.op == "stream"
            node.parts, node.key_before = self.inputs[node.members["topic"]]
            return node
        first = self.nodes[node.inputs[0]]
        node.parts, node.key_before = first.parts, first.key_before
        node.is_stream = node.op == "select_key" or node.op in STREAM_OPS and first.is_stream
        node.is_windowed = node.op == "windowed_count"
        node.is_rekeyed = node.op == "select_key" or node.is_stream and first.is_rekeyed
        if node.is_aggregate:
            node.is_repartitioned = not first.is_stream or "by" in node.members or first.is_rekeyed
        if node.is_repartitioned:
            node.key_before = None
        return node

    # Subtopologies: of nodes that are connected without a topic between them, by the first of them.

    def _number_subtopologies(self):
        labels = []
        for node in self.nodes.values():
            sides = [labels[self.nodes[name].number] for name in node.inputs]
            if node.op == "join":
                labels = [min(sides) if label in sides else label for label in labels]
            if not sides or node.is_repartitioned:
                labels.append(node.number)
            else:
                labels.append(min(sides) if node.op == "join" else sides[0])
        firsts = sorted(set(labels))
        self._count = len(firsts)
        for node, label in zip(self.nodes.values(), labels):
            node.subtopology = firsts.index(label)

    def right_of(self, node):
        """The right side of a join."""
        return self.nodes[node.members["right"]]

    def _all_topics(self):
        """Name, partitions, role, node and `key_before` of each topic: the inputs by the bytes of their names, then what flows between
        nodes, then the changelogs."""
        for name in sorted(self.inputs, key=str.encode):
            parts, before = self.inputs[name]
            yield name, parts, "input", None, before
        for node in self.nodes.values():
            if node.is_repartitioned:
                yield self._internal(node, "repartition", node)
            if node.op == "fk_join":
                yield self._internal(node, "subscription", self.right_of(node))
                yield self._internal(node, "response", node)
        for node in self.nodes.values():
            if node.has_store:
                yield self._internal(node, "changelog", node)
            if node.op == "fk_join":
                yield self._internal(node, "subscription-changelog", self.right_of(node))

    def _internal(self, node, role, like):
        """A topic of a node, partitioned as the node `like`."""
        return f"{self.app}-{node.name}-{ROLES[role]}", like.parts, role, node.name, like.key_before

    def internal(self, name, role):
        """The topic of this role that serves the node of this name."""
        return self.by_name[f"{self.app}-{name}-{ROLES[role]}"]

    # Who reads and writes a topic.

    def reader(self, topic):
        """The number of the subtopology that reads a topic, or whose stores a changelog restores; None for an input that no node reads."""
        if topic.role == "input":
            readers = [node for node in self.nodes.values() if node.members.get("topic") == topic.name]
            return readers[0].subtopology if readers else None
        node = self.nodes[topic.node]
        is_right = topic.role in ("subscription", "subscription-changelog")
        return (self.right_of(node) if is_right else node).subtopology

    def writer(self, topic):
        """The number of the subtopology whose tasks write a topic; None for an input topic."""
        if topic.role == "input":
            return None
        node = self.nodes[topic.node]
        if topic.role in ("repartition", "subscription"):
            return self.nodes[node.inputs[0]].subtopology
        if topic.role == "response":
            return self.right_of(node).subtopology
        return self.reader(topic)

    def _subtopology(self, number):
        nodes = [node for node in self.nodes.values() if node.subtopology == number]
        logs = [topic for topic in self.topics if topic.role.endswith("changelog")]
        others = [topic for topic in self.topics if topic not in logs]
        return Subtopology(
            number,
            nodes[0].parts,
            [node.name for node in nodes],
            [topic.number for topic in others if self.reader(topic) == number],
            [topic.number for topic in others if self.writer(topic) == number],
            [topic.number for topic in logs if self.reader(topic) == number],
        )

    def task_name(self, task):
        """As the journal has it: `0_2` of subtopology 0, partition 2."""
        return f"{task[0]}_{task[1]}"


def topic_form(form):
    """Partitions and `key_before` of what stands for a topic: a number, or an object."""
    if isinstance(form, dict):
        return form["parts"], form["key_before"]
    return form, None


# Where a record goes.


def murmur2(data):
    """MurmurHash2 of bytes, with the seed of Kafka's clients."""
    full, h = 0xFFFFFFFF, 0x9747B28C ^ len(data)
    whole = len(data) & ~3
    for at in range(0, whole, 4):
        k = int.from_bytes(data[at : at + 4], "little") * 0x5BD1E995 & full
        k = (k ^ k >> 24) * 0x5BD1E995 & full
        h = h * 0x5BD1E995 & full ^ k
    if whole < len(data):
        h = (h ^ int.from_bytes(data[whole:], "little")) * 0x5BD1E995 & full
    h = (h ^ h >> 13) * 0x5BD1E995 & full
    return h ^ h >> 15


def placed_part(key, key_before):
    """The part of a key that decides its partition."""
    if not key_before:
        return key
    front, found, _ = key.partition(key_before)
    return front if found and front else key


def partition_of(key, topic):
    """The partition of a topic to which a record with this key (a text, or None) goes."""
    if key is None:
        return 0
    return (murmur2(placed_part(key, topic.key_before).encode()) & 0x7FFFFFFF) % topic.parts


# Reading.


def job_lines(data):
    """The lines of a job that aren't blank, with their numbers from 1, as bytes."""
    for number, line in enumerate(data.split(b"\n"), 1):
        if line.strip(b" \t\r"):
            yield number, line


def topology_of(number, line):
    try:
        return Topology(json.loads(line))
    except (ValueError, KeyError, IndexError, TypeError, AttributeError, RecursionError) as fault:
        raise BadJob(number, "this is no topology") from fault


def record_of(number, line):
    try:
        record = json.loads(line)
        value = record["value"]
        row = None if value is None else {name: field for name, field in value.items() if field is not None}
        return Record(number, record["topic"], record.get("key"), row, record.get("ts", 0))
    except (ValueError, KeyError, TypeError, AttributeError, RecursionError) as fault:
        raise BadJob(number, "this is no record") from fault


def parse_job(data):
    """The topology and the list of the records of a job's bytes."""
    lines = job_lines(data)
    first = next(lines, None)
    if first is None:
        raise BadJob(1 + data.count(b"\n"), "there is no topology")
    return topology_of(*first), [record_of(*line) for line in lines]


def read_job(path):
    """As `parse_job`, of a file."""
    with open(path, "rb") as file:
        return parse_job(file.read())


def read_topology(path):
    """The topology alone, from the first line of a file that isn't blank."""
    with open(path, "rb") as file:
        for number, line in enumerate(file, 1):
            if line.strip(b" \t\r\n"):
                return topology_of(number, line)
    raise BadJob(1, "there is no topology")
