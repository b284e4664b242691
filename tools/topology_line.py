"""Reads the topology's line of a job: all that is wrong with its shape, in the program's order, and a draft of what could be read."""

from expression import expression_faults, predicate_faults
from finding import as_text, bad_number, bad_shape, close_to, kind_of, listed

TOPOLOGY = ("app", "topics", "nodes", "print")
MEMBERS = {
    "stream": ("topic",),
    "table": ("topic",),
    "filter": ("from", "where"),
    "map_values": ("from", "set"),
    "select_key": ("from", "key"),
    "count": ("from", "by"),
    "sum": ("from", "by", "field"),
    "windowed_count": ("from", "by", "size", "advance", "grace"),
    "join": ("left", "right", "kind", "set"),
    "fk_join": ("left", "right", "fk", "kind", "set"),
}
OPTIONAL = ("by", "advance", "grace")
KINDS_OF_JOIN = {"join": ("inner", "left", "outer"), "fk_join": ("inner", "left")}
RECORD = ("topic", "key", "value", "ts")
LABEL = set("abcdefghijklmnopqrstuvwxyzABCDEFGHIJKLMNOPQRSTUVWXYZ0123456789_.-")
# What people of other tools write, and what it is here.
OTHER_WORDS = {
    "ktable": "table", "kstream": "stream", "source": "table", "mapvalues": "map_values", "map": "map_values", "project": "map_values",
    "selectkey": "select_key", "rekey": "select_key", "groupby": "count", "group_by": "count", "aggregate": "sum", "reduce": "sum",
    "where": "filter", "leftjoin": "join", "left_join": "join", "outerjoin": "join", "foreign_key_join": "fk_join", "fkjoin": "fk_join",
    "window": "windowed_count", "windowedby": "windowed_count", "windowed": "windowed_count",
}
MILLISECONDS = "a number of milliseconds: a minute is 60000"


class TopicDraft:
    def __init__(self, at):
        self.at, self.parts, self.key_before = at, None, None


class NodeDraft:
    """What could be read of a node: `members` has the JSON values, `op` is None where it isn't one of the ten."""

    def __init__(self, number, value):
        self.number, self.value, self.at = number, value, value.at
        self.name = self.op = None
        self.members = value.last() if value.kind == "object" else {}

    def text(self, member):
        value = self.members.get(member)
        return value.value if value is not None and value.kind == "text" else None

    def integer(self, member):
        value = self.members.get(member)
        return value.value if value is not None and value.is_integer else None

    def called(self):
        return self.name if self.name is not None else f"number {self.number}"


class Draft:
    """`app` and `topics` are None where they could not be read."""

    def __init__(self):
        self.app, self.topics, self.nodes, self.print = None, None, [], []
        self.places = {}


class TopologyLine:
    """Reads one value; `findings` gets the faults."""

    def __init__(self, findings):
        self.out = findings

    def read(self, value):
        """The draft of a value that is to be a topology, or None where it is no object."""
        if value.kind != "object":
            todo = "write {\"app\":..,\"topics\":{..},\"nodes\":[..],\"print\":[..]} on one line"
            if value.kind == "array":
                todo = "write the topology and then each record on a line of its own, without [ ] and commas (`jq -c '.[]'`)"
            self.out.add(bad_shape("line"), value.at, None, f"the first line has to be an object, not {kind_of(value)}", todo, value)
            return None
        draft = Draft()
        draft.places = {name: at for name, at, _ in value.members}
        self.unknown_members(value, TOPOLOGY, "a topology")
        self.app(value, draft)
        self.topics(value, draft)
        self.nodes(value, draft)
        self.printed(value, draft)
        return draft

    # Members.

    def unknown_members(self, value, known, whose):
        is_record = whose == "a topology" and ("topic" in value.last() or "value" in value.last())
        for name in sorted(set(value.last()) - set(known), key=str.encode):
            todo = f"{whose} has {listed(known)}"
            meant = close_to(name, known)
            if is_record:
                todo = "this looks like a record: the first line of a job has to be the topology"
            elif meant:
                todo = f"is {meant} meant? {todo}"
            elif whose != "a topology":
                todo = f"{todo}; take {as_text(name)} out"
            self.out.add(bad_shape(name), value.place_of(name), name, f"{whose} has no such member", todo)

    def missing(self, at, member, todo):
        self.out.add(bad_shape(member), at, member, "it is missing", todo)

    def text_of(self, value, member, todo):
        """The text of a member, or None after a fault."""
        inner = value.get(member)
        if inner is None:
            self.missing(value.at, member, todo)
        elif inner.kind != "text":
            hint = f"leave {member} out, or " if member in OPTIONAL and inner.kind == "null" else ""
            self.out.add(bad_shape(member), inner.at, member, f"it has to be a text, not {kind_of(inner)}", hint + todo, inner)
        else:
            return inner.value
        return None

    def label(self, text, at, member, fault, allowed=LABEL):
        """Tells what keeps a text from being the name of an application, topic or node."""
        todo = "take 1 to 64 ASCII letters, digits, _" + (", . and -" if "-" in allowed else "; a node's name has no - and no .")
        wrong = sorted(set(text) - allowed)
        if not text or len(text) > 64:
            self.out.add(fault, at, member, "it is empty" if not text else f"it has {len(text)} characters, more than 64", todo, as_text(text))
        if wrong:
            shown = listed(as_text(each) for each in wrong[:4])
            self.out.add(fault, at, member, f"it has {shown}, which such a name may not have", todo, as_text(text))
        return text if text and len(text) <= 64 and not wrong else None

    def field_name(self, value, member, todo):
        """A name of a field: 1 to 64 bytes."""
        text = self.text_of(value, member, todo)
        if text is not None:
            self.short_text(text, value.get(member), member, bad_shape(member), "a field's name")
        return text

    def short_text(self, text, value, member, fault, what):
        size = len(text.encode())
        if not 1 <= size <= 64:
            why = "it is empty" if not text else f"it has {size} bytes, more than 64"
            self.out.add(fault, value.at, member, why, f"{what} has 1 to 64 bytes", value)

    def number(self, value, member, fault_member, todo):
        """Tells what keeps a value from being a number of 64 bits; its number where nothing does."""
        if value.kind != "number":
            self.out.add(bad_shape(fault_member), value.at, member, f"it has to be a number, not {kind_of(value)}", todo, value)
        elif not value.is_integer:
            why = "it has to be a whole number of 64 bits, written without point and exponent"
            self.out.add(bad_number(fault_member), value.at, member, why, todo, value)
        else:
            return value.value
        return None

    # The four members of the topology.

    def app(self, value, draft):
        text = self.text_of(value, "app", 'give the application a name, "app":"shop"')
        if text is not None:
            draft.app = self.label(text, value.get("app").at, "app", bad_shape("app"))

    def topics(self, value, draft):
        inner = value.get("topics")
        todo = 'name the input topics with their numbers of partitions, "topics":{"orders":4}'
        if inner is None:
            return self.missing(value.at, "topics", todo)
        if inner.kind != "object":
            return self.out.add(bad_shape("topics"), inner.at, "topics", f"it has to be an object, not {kind_of(inner)}", todo, inner)
        draft.topics = {}
        for name in sorted(inner.last(), key=str.encode):
            at = inner.place_of(name)
            self.label(name, at, f"topics.{name}", bad_shape(name))
            draft.topics[name] = TopicDraft(at)
            self.topic(name, inner.get(name), draft.topics[name])

    def topic(self, name, value, topic):
        if value.kind == "object":
            return self.partitioning(name, value, topic)
        topic.parts = self.partitions(name, value, f"topics.{name}")

    def partitions(self, name, value, member):
        todo = 'write the number of partitions, 1 to 64'
        number = self.number(value, member, name, todo)
        if number is not None and number < 1:
            self.out.add(bad_shape(name), value.at, member, "a topic has at least 1 partition", todo, value)
        return number if number is not None and number >= 1 else None

    def partitioning(self, name, value, topic):
        """A topic given as an object: what is wrong of shape comes before what is wrong of number."""
        todo = 'write a number of partitions, or {"parts":4,"key_before":"/"} where the front of the key decides the partition'
        for each in sorted(set(value.last()) - {"parts", "key_before"}, key=str.encode):
            self.out.add(bad_shape(name), value.place_of(each), f"topics.{name}.{each}", "a topic has no such member", todo)
        before, parts = value.get("key_before"), value.get("parts")
        if before is None or parts is None:
            self.out.add(bad_shape(name), value.at, f"topics.{name}", f"{'parts' if parts is None else 'key_before'} is missing", todo, value)
        if before is not None and before.kind != "text":
            self.out.add(bad_shape(name), before.at, f"topics.{name}.key_before", f"it has to be a text, not {kind_of(before)}", todo, before)
        elif before is not None:
            self.short_text(before.value, before, f"topics.{name}.key_before", bad_shape(name), "such a text")
            topic.key_before = before.value
        if parts is not None:
            topic.parts = self.partitions(name, parts, f"topics.{name}.parts")

    def nodes(self, value, draft):
        inner = value.get("nodes")
        todo = 'list the nodes, "nodes":[{"name":"orders","op":"table","topic":"orders"}]'
        if inner is None:
            return self.missing(value.at, "nodes", todo)
        if inner.kind != "array":
            return self.out.add(bad_shape("nodes"), inner.at, "nodes", f"it has to be an array, not {kind_of(inner)}", todo, inner)
        for number, each in enumerate(inner.items, 1):
            node = NodeDraft(number, each)
            draft.nodes.append(node)
            node.name = node.text("name")
            self.out.node = node.called()
            self.node(node, each)
            self.out.node = None

    def printed(self, value, draft):
        inner = value.get("print")
        todo = 'name the tables to print, "print":["orders"]'
        if inner is None:
            return self.missing(value.at, "print", todo)
        if inner.kind != "array":
            return self.out.add(bad_shape("print"), inner.at, "print", f"it has to be an array, not {kind_of(inner)}", todo, inner)
        for each in inner.items:
            if each.kind == "text":
                draft.print.append((each.value, each.at))
            else:
                self.out.add(bad_shape("print"), each.at, "print", f"it has to be a node's name, not {kind_of(each)}", todo, each)

    # A node.

    def node(self, node, value):
        if value.kind != "object":
            todo = 'a node is an object such as {"name":"orders","op":"table","topic":"orders"}'
            return self.out.add(bad_shape("nodes"), value.at, "nodes", f"a node has to be an object, not {kind_of(value)}", todo, value)
        node.op = self.op(value)
        if node.op:
            self.unknown_members(value, ("name", "op", *MEMBERS[node.op]), f"a {node.op}")
        self.name(value)
        for member in MEMBERS.get(node.op, ()):
            if member in value.last() or member not in OPTIONAL:
                getattr(self, "read_" + MEMBER_FORMS[member])(value, member, node)

    def op(self, value):
        ops = f"op is one of {listed(MEMBERS)}"
        text = self.text_of(value, "op", ops)
        if text is None or text in MEMBERS:
            return text
        meant = OTHER_WORDS.get(text.lower().replace("-", "_")) or close_to(text, MEMBERS)
        hint = f"is {meant} meant? " if meant else ""
        inner = value.get("op")
        self.out.add(bad_shape("op"), inner.at, "op", "there is no such operation", f"{hint}{ops}", inner)
        return None

    def name(self, value):
        text = self.text_of(value, "name", 'give the node a name, "name":"orders"')
        if text is not None:
            self.label(text, value.get("name").at, "name", bad_shape("name"), LABEL - {".", "-"})

    def read_topic(self, value, member, node):
        self.text_of(value, member, "name a topic of topics")

    def read_input(self, value, member, node):
        self.text_of(value, member, "name an earlier node")

    def read_field(self, value, member, node):
        self.field_name(value, member, f'name a field of the row, "{member}":"customer"')

    def read_number(self, value, member, node):
        if value.get(member) is None:
            self.missing(value.at, member, f"give the length of a window, {MILLISECONDS}")
        else:
            self.number(value.get(member), member, member, f"{member} is {MILLISECONDS}")

    def read_kind(self, value, member, node):
        kinds = KINDS_OF_JOIN[node.op]
        todo = f"the kind of a {node.op} is {' or '.join(kinds)}"
        text = self.text_of(value, member, todo)
        if text is not None and text not in kinds:
            inner = value.get(member)
            self.out.add(bad_shape(member), inner.at, member, "there is no such kind", todo, inner)

    def read_fk(self, value, member, node):
        """A field's name, or an object that takes the foreign key from the left key."""
        inner = value.get("fk")
        todo = 'name a field of the left row, "fk":"customer", or take it from the left key, {"key":"whole"} or {"key_before":"/"}'
        if inner is None or inner.kind == "text":
            return self.field_name(value, "fk", todo)
        if inner.kind != "object" or len(inner.last()) != 1:
            return self.out.add(bad_shape("fk"), inner.at, "fk", f"{kind_of(inner)} of this form is no foreign key", todo, inner)
        [(name, text)] = inner.last().items()
        if name == "key" and text.kind == "text" and text.value == "whole":
            return None
        if name != "key_before" or text.kind != "text":
            return self.out.add(bad_shape("fk"), inner.at, "fk", "an object of this form is no foreign key", todo, inner)
        return self.short_text(text.value, text, "fk.key_before", bad_shape("fk"), "such a text")

    def read_where(self, value, member, node):
        inner = value.get("where")
        if inner is None:
            return self.missing(value.at, "where", 'give a predicate, "where":{"eq":[{"field":"state"},{"text":"paid"}]}')
        self.tell(predicate_faults(inner), "where", "where")

    def read_set(self, value, member, node):
        inner = value.get("set")
        todo = 'give the fields of the new row, "set":{"region":{"' + ("left" if node.op.endswith("join") else "field") + '":"region"}}'
        if inner is None:
            return self.missing(value.at, "set", todo)
        if inner.kind != "object" or not inner.last():
            why = "it is empty" if inner.kind == "object" else f"it has to be an object, not {kind_of(inner)}"
            return self.out.add(bad_shape("set"), inner.at, "set", why, todo, inner)
        for name in sorted(inner.last(), key=str.encode):
            size = len(name.encode())
            if not 1 <= size <= 64:
                why = "a field's name is empty" if not name else f"a field's name has {size} bytes, more than 64"
                self.out.add(bad_shape(name), inner.place_of(name), "set", why, "a field's name has 1 to 64 bytes", as_text(name))
            self.tell(expression_faults(inner.get(name), node.op.endswith("join")), name, f"set.{name}")

    def tell(self, faults, fault_member, member):
        """The faults of one tree, as the program judges them: shapes, then numbers, then depth."""
        for each in faults:
            self.out.add(each.fault(fault_member), each.value.at, f"{member}{each.path}", each.why, each.todo, each.shown)


MEMBER_FORMS = {
    "topic": "topic", "from": "input", "left": "input", "right": "input", "key": "field", "by": "field", "field": "field", "fk": "fk",
    "kind": "kind", "size": "number", "advance": "number", "grace": "number", "where": "where", "set": "set",
}
