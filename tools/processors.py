"""The sources, processors and sinks of a topology, as Kafka's Topology#describe prints them, by subtopology."""

from typing import NamedTuple

SOURCE, PROCESSOR, SINK = "source", "processor", "sink"


class Element(NamedTuple):
    """A source, processor or sink. `node` is the node of the job that it is of; `topics` what a source reads or a sink writes; `stores` the
    stores that a processor has; `above` and `below` the names of the elements from which and to which records go; `does` says in words what
    it does."""

    kind: str
    name: str
    node: str
    topics: list
    stores: list
    above: list
    below: list
    does: str


class _Laid:
    """Lays the elements out: `at` has of each subtopology the list of its elements."""

    def __init__(self, topology):
        self.topology = topology
        self.at = {each.number: [] for each in topology.subtopologies}
        for node in topology.nodes.values():
            self.lay(node)
        self.link()

    def add(self, subtopology, kind, name, node, topics=(), stores=(), above=(), does=""):
        self.at[subtopology].append(Element(kind, name, node.name, list(topics), list(stores), list(above), [], does))

    def link(self):
        for elements in self.at.values():
            by_name = {each.name: each for each in elements}
            for each in elements:
                for name in each.above:
                    by_name[name].below.append(each.name)

    def lay(self, node):
        if node.op == "fk_join":
            return self.lay_foreign_key_join(node)
        if "topic" in node.members:
            return self.lay_source(node)
        above = node.inputs
        if node.is_repartitioned:
            topic = self.topology.internal(node.name, "repartition").name
            sender = self.topology.nodes[node.inputs[0]].subtopology
            self.add(sender, SINK, f"{node.name}-repartition-sink", node, [topic], (), above, grouping(node))
            self.add(node.subtopology, SOURCE, f"{node.name}-repartition-source", node, [topic])
            above = [f"{node.name}-repartition-source"]
        stores = [node.name] if node.has_store else []
        self.add(node.subtopology, PROCESSOR, node.name, node, (), stores, dict.fromkeys(above), words_of(node))

    def lay_source(self, node):
        topic = node.members["topic"]
        if node.is_stream:
            return self.add(node.subtopology, SOURCE, node.name, node, [topic], (), (), "stream")
        self.add(node.subtopology, SOURCE, f"{node.name}-source", node, [topic])
        self.add(node.subtopology, PROCESSOR, node.name, node, (), [node.name], [f"{node.name}-source"], "table")

    def lay_foreign_key_join(self, node):
        """The left part sends subscriptions to the right one, whose answers come back to the left one."""
        left, right = (self.topology.nodes[node.members[side]] for side in ("left", "right"))
        asked = self.topology.internal(node.name, "subscription").name
        answered = self.topology.internal(node.name, "response").name
        name, store = node.name, f"{node.name}-subscription-store"
        self.add(left.subtopology, SINK, f"{name}-subscription-registration-sink", node, [asked], (), [left.name], foreign_key(node))
        self.add(right.subtopology, SOURCE, f"{name}-subscription-registration-source", node, [asked])
        above = [f"{name}-subscription-registration-source"]
        self.add(right.subtopology, PROCESSOR, f"{name}-subscription-receive", node, (), [store], above, "keeps and answers subscriptions")
        self.add(right.subtopology, PROCESSOR, f"{name}-right", node, (), [store], [right.name], "answers where a right row changes")
        above = [f"{name}-subscription-receive", f"{name}-right"]
        self.add(right.subtopology, SINK, f"{name}-subscription-response-sink", node, [answered], (), above)
        self.add(node.subtopology, SOURCE, f"{name}-subscription-response-source", node, [answered])
        above = [f"{name}-subscription-response-source"]
        self.add(node.subtopology, PROCESSOR, name, node, (), [name], above, words_of(node))


def grouping(node):
    """How an aggregate makes groups."""
    return f"groups by {node.members['by']}" if "by" in node.members else "groups by the changed key"


def foreign_key(node):
    fk = node.members["fk"]
    if isinstance(fk, str):
        return f"foreign key: the field {fk}"
    if "key_before" in fk:
        return f"foreign key: the left key before {fk['key_before']!r}"
    return "foreign key: the whole left key"


def words_of(node):
    """What a node does, in a few words."""
    members = node.members
    if node.op == "sum":
        return f"sum of {members['field']}"
    if node.op == "select_key":
        return f"select_key {members['key']}"
    if node.op == "windowed_count":
        size = members["size"]
        return f"windowed_count of {size} ms each {members.get('advance', size)} ms, grace {members.get('grace', 86_400_000)} ms"
    if node.op in ("join", "fk_join"):
        return f"{members['kind']} {node.op} of {members['left']} and {members['right']}"
    return node.op


def elements_of(topology):
    """Of each subtopology, by its number, the list of its elements, in the order of the nodes."""
    return _Laid(topology).at
