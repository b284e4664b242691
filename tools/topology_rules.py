"""The faults of a topology whose line was read: names, kinds, windows, limits, in the program's order. What could not be read of a node
is left out of account, so that one fault gives no others."""

from finding import as_text, close_to, listed, plural, too_many

MOST = 64
LATEST = 2**53
DAY = 86_400_000
STREAM, TABLE, WINDOWED = "a stream", "a table", "a windowed count"
INTERNAL = ("repartition", "subscription-registration-topic", "subscription-response-topic", "changelog", "subscription-store-changelog")


class Known:
    """What is known of a node: `kind`, `parts` and `key_before` are None where a fault hides them."""

    def __init__(self, node, kind=None, parts=None, key_before=None, is_rekeyed=False):
        self.node, self.kind, self.parts, self.key_before, self.is_rekeyed = node, kind, parts, key_before, is_rekeyed


def unknown_input(name):
    return f"10 UnknownInput {as_text(name)}"


def wrong_kind(name):
    return f"11 WrongKind {as_text(name)}"


def duplicate(name):
    return f"12 DuplicateName {as_text(name)}"


class Rules:
    def __init__(self, draft, findings):
        self.draft, self.out = draft, findings
        self.known, self.sources = {}, {}

    def judge(self):
        self.sizes()
        for node in self.draft.nodes:
            if node.value.kind == "object":
                self.out.node = node.called()
                self.node(node)
        self.out.node = None
        self.printed()

    # Limits.

    def sizes(self):
        topics, nodes = self.draft.topics or {}, self.draft.nodes
        if len(topics) > MOST:
            todo = f"{MOST} topics are the limit"
            self.out.add(too_many("topics", MOST), self.draft.places["topics"], "topics", f"there are {len(topics)} topics", todo)
        for name, topic in topics.items():
            if topic.parts is not None and topic.parts > MOST:
                todo = f"{MOST} partitions are the limit"
                self.out.add(too_many("partitions", MOST), topic.at, f"topics.{name}", f"it has {topic.parts} partitions", todo)
        if len(nodes) > MOST:
            todo = f"{MOST} nodes are the limit"
            self.out.add(too_many("nodes", MOST), self.draft.places["nodes"], "nodes", f"there are {len(nodes)} nodes", todo)

    # A node.

    def node(self, node):
        if node.name is not None and node.name in self.known:
            todo = "give each node its own name"
            self.out.add(duplicate(node.name), self.at(node, "name"), "name", "an earlier node has this name", todo, node.members["name"])
        self.fields(node)
        inputs = self.inputs(node)
        known = self.resolved(node, inputs)
        self.source_taken(node)
        self.kinds(node, inputs)
        self.copartitioned(node, inputs)
        self.window(node)
        self.internal_names(node, known)
        if node.name is not None:
            self.known.setdefault(node.name, known)

    def at(self, node, member):
        return node.members[member].at if member in node.members else node.at

    def fields(self, node):
        value = node.members.get("set")
        if value is not None and value.kind == "object" and len(value.last()) > MOST:
            todo = f"{MOST} fields are the limit"
            self.out.add(too_many("fields", MOST), value.at, "set", f"it has {len(value.last())} fields", todo)

    def inputs(self, node):
        """What is known of each input that is there, by its member."""
        found = {}
        if node.op in ("stream", "table"):
            self.source(node)
            return found
        for member in ("from", "left", "right"):
            name = node.text(member) if self.has(node, member) else None
            if name in self.known:
                found[member] = self.known[name]
            elif name is not None:
                self.unknown_node(node, member, name)
        return found

    def has(self, node, member):
        """Whether a node of this operation reads such an input; of one whose operation isn't known, whatever stands there."""
        sides = {"join": ("left", "right"), "fk_join": ("left", "right")}.get(node.op, ("from",) if node.op else ("from", "left", "right"))
        return member in sides

    def unknown_node(self, node, member, name):
        todo = "name an earlier node"
        if any(each.name == name for each in self.draft.nodes):
            own = name == node.name
            todo = "a node can't read itself" if own else f"put the node {name} before this one: a node reads earlier nodes alone"
        elif name in (self.draft.topics or {}):
            todo = f'{name} is a topic: put a node before this one that reads it, {{"name":..,"op":"table","topic":{as_text(name)}}}'
        elif close_to(name, self.known):
            todo = f"is {close_to(name, self.known)} meant? {todo}"
        self.out.add(unknown_input(name), self.at(node, member), member, "no earlier node has this name", todo, node.members[member])

    def source(self, node):
        name, topics = node.text("topic"), self.draft.topics
        if name is None or topics is None or name in topics:
            return
        near = close_to(name, topics)
        todo = f"{f'is {near} meant? ' if near else ''}add it to topics, or name one of {listed(topics)}" if topics else "add it to topics"
        self.out.add(unknown_input(name), self.at(node, "topic"), "topic", "no topic of topics has this name", todo, node.members["topic"])

    def source_taken(self, node):
        """One source reads a topic."""
        if node.op not in ("stream", "table"):
            return
        name = node.text("topic")
        if name in self.sources and name in (self.draft.topics or {}):
            first = self.sources[name]
            todo = f'let two nodes read that one ("from":{as_text(first)}), or send the records to two topics'
            why = f"the node {first} reads this topic already"
            self.out.add(duplicate(name), self.at(node, "topic"), "topic", why, todo, node.members["topic"])
        elif name is not None:
            self.sources[name] = node.called()

    def resolved(self, node, inputs):
        if node.op in ("stream", "table"):
            topic = (self.draft.topics or {}).get(node.text("topic"))
            kind = STREAM if node.op == "stream" else TABLE
            return Known(node, kind, topic and topic.parts, topic and topic.key_before)
        first = inputs.get("from") or inputs.get("left")
        kind = {"count": TABLE, "sum": TABLE, "join": TABLE, "fk_join": TABLE, "windowed_count": WINDOWED, "select_key": STREAM}.get(node.op)
        if first is None:
            return Known(node, kind)
        if node.op in ("filter", "map_values") and first.kind != WINDOWED:
            kind = first.kind
        known = Known(node, kind, first.parts, first.key_before)
        known.is_rekeyed = node.op == "select_key" or kind == STREAM and first.is_rekeyed
        if self.is_repartitioned(node, first):
            known.key_before = None
        return known

    def is_repartitioned(self, node, first):
        """Whether an aggregate over this input sends its groups through a topic; of an input of an unknown kind only where it has `by`."""
        if node.op not in ("count", "sum", "windowed_count"):
            return False
        return "by" in node.members or first.is_rekeyed or first.kind == TABLE

    # Kinds, sides, windows.

    def kinds(self, node, inputs):
        wanted = {"select_key": STREAM, "windowed_count": STREAM, "join": TABLE, "fk_join": TABLE}.get(node.op)
        sinks = [member for member, known in inputs.items() if known.kind == WINDOWED]
        for member in sinks:
            todo = "print it; no node may read it"
            fault = f"16 SinkOnly {as_text(node.name)}"
            self.out.add(fault, self.at(node, member), member, "this is a windowed count", todo, node.members[member])
        for member, known in inputs.items():
            if wanted and known.kind and known.kind != wanted and member not in sinks:
                self.not_wanted(node, member, known, wanted)
        first = inputs.get("from")
        if node.op in ("count", "sum") and first and first.kind == TABLE and "by" not in node.members:
            todo = 'name the field to group by, "by":"region"; for one group of all rows give them a constant field by map_values before'
            self.out.add(wrong_kind(node.name), node.at, "by", f"a {node.op} of a table needs it", todo)

    def not_wanted(self, node, member, known, wanted):
        todo = f"a {node.op} takes {wanted}"
        if node.op == "windowed_count":
            todo += '; read the topic by {"op":"stream"}'
        elif node.op in ("join", "fk_join"):
            todo += ": there are no joins of streams; read the topic by {\"op\":\"table\"}"
        else:
            todo += "; a table's key can't be changed, but count and sum group it by a field"
        self.out.add(wrong_kind(node.name), self.at(node, member), member, f"this is {known.kind}", todo, node.members[member])

    def copartitioned(self, node, inputs):
        left, right = inputs.get("left"), inputs.get("right")
        if node.op != "join" or not left or not right or left.parts is None or right.parts is None:
            return
        if left.kind != TABLE or right.kind != TABLE or (left.parts, left.key_before) == (right.parts, right.key_before):
            return
        l, r = node.text("left"), node.text("right")
        why = f"its sides are partitioned differently: {l} {partitioned(left)}, {r} {partitioned(right)}"
        todo = "give both topics the same number of partitions and the same key_before, or use fk_join"
        self.out.add(f"13 NotCopartitioned {as_text(l)} {as_text(r)}", node.at, None, why, todo)

    def window(self, node):
        if node.op != "windowed_count":
            return
        size, advance, grace = (node.integer(member) for member in ("size", "advance", "grace"))
        if size is None or advance is None and "advance" in node.members or grace is None and "grace" in node.members:
            return
        advance = size if advance is None else advance
        grace = DAY if grace is None else grace
        for member, why in window_faults(size, advance, grace):
            todo = "1 <= advance <= size <= 1,000 * advance and 0 <= grace, each at most 9,007,199,254,740,992 milliseconds"
            fault = f"15 BadWindow {as_text(node.name)}"
            self.out.add(fault, self.at(node, member), member, why, todo, node.members.get(member))

    def internal_names(self, node, known):
        """The topics that a node has of its own may not be input topics."""
        if self.draft.app is None or node.name is None or node.op is None or known.kind == STREAM or known.kind is None:
            return
        kinds = {"changelog"}
        if node.op == "fk_join":
            kinds |= set(INTERNAL) - {"repartition"}
        first = self.known.get(node.text("from"))
        if first and self.is_repartitioned(node, first):
            kinds.add("repartition")
        for kind in INTERNAL:
            name = f"{self.draft.app}-{node.name}-{kind}"
            if kind in kinds and name in (self.draft.topics or {}):
                todo = "give the topic, the node or the application another name"
                why = f"this input topic has the name of a topic that the node {node.name} needs for itself"
                self.out.add(duplicate(name), self.draft.topics[name].at, f"topics.{name}", why, todo, as_text(name))

    # What is printed.

    def printed(self):
        seen = set()
        for name, at in self.draft.print:
            known = self.known.get(name)
            if known is None:
                near = close_to(name, self.known)
                todo = f"{f'is {near} meant? ' if near else ''}print names of nodes"
                self.out.add(unknown_input(name), at, "print", "no node has this name", todo, as_text(name))
            if name in seen:
                self.out.add(duplicate(name), at, "print", "it is printed already", "name each table once", as_text(name))
            elif known is not None and known.kind == STREAM:
                todo = f'print a table: {{"op":"count","from":{as_text(name)}}} counts it by key'
                self.out.add(wrong_kind(name), at, "print", "this is a stream; tables alone can be printed", todo, as_text(name))
            seen.add(name)


def partitioned(known):
    before = f" by what stands before {as_text(known.key_before)}" if known.key_before else ""
    return f"{plural(known.parts, 'partition')}{before}"


def window_faults(size, advance, grace):
    """What is wrong with a window: the member and why."""
    if size < 1:
        yield "size", "a window has at least 1 millisecond"
    if advance < 1 and size >= 1:
        yield "advance", "windows advance by at least 1 millisecond"
    if advance > size >= 1:
        yield "advance", f"windows advance by no more than their size, {size}"
    if advance >= 1 and size > 1000 * advance:
        yield "advance" if advance != size else "size", f"a time is in more than 1,000 windows: the size is {size}, the advance {advance}"
    if grace < 0:
        yield "grace", "a grace is 0 or more"
    for member, number in (("size", size), ("advance", advance), ("grace", grace)):
        if number > LATEST and not (member == "advance" and advance == size):
            yield member, "it is past 9,007,199,254,740,992"
