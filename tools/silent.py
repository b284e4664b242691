"""Warnings: what is no fault of a job, and is likely not meant. The rows of each node are followed from what the records have."""

from finding import Finding, Findings, as_text, close_to, listed, plural
from job_check import key_topic
from seen import FieldSeen

NUMBER, TEXT = "number", "text"
DAY = 86_400_000


class Rows:
    """What the rows of a node may have: `fields` from names to FieldSeen, None where nothing is known of them. `topic` is the input topic
    whose records they come from one by one, None where there is none."""

    def __init__(self, fields, topic=None):
        self.fields, self.topic = fields, topic


class Silent:
    def __init__(self, check):
        self.check, self.topology, self.draft = check, check.topology, check.draft
        self.out = Findings(check.line)
        self.rows, self.told = {}, set()

    def warnings(self):
        for number, node in enumerate(self.topology.nodes.values()):
            self.members = self.draft.nodes[number].members
            self.out.node = node.name
            self.rows[node.name] = self.follow(node)
        self.out.node = None
        self.topics()
        self.printed()
        return self.out.found

    def warn(self, member, why, todo, value=None):
        """Once for a node, member and text."""
        if (self.out.node, member, why) not in self.told:
            self.told.add((self.out.node, member, why))
            at = value.at if value is not None else self.members.get(member.partition(".")[0], self.members["name"]).at
            self.out.warn(at, member, why, todo, value)

    # Nodes.

    def follow(self, node):
        """The rows of a node, with the warnings of its members."""
        if "topic" in node.members:
            seen = self.check.seen[node.members["topic"]]
            return Rows(seen.fields if seen.rows else None, seen)
        inputs = [self.rows[name] for name in node.inputs]
        return getattr(self, node.op)(node, *inputs)

    def filter(self, node, rows):
        self.predicate(self.members["where"], {"field": (rows, node.inputs[0])}, "where")
        return rows

    def map_values(self, node, rows):
        return Rows(self.projected(node, {"field": (rows, node.inputs[0])}), rows.topic)

    def select_key(self, node, rows):
        self.field(node, "key", rows, "no record goes on from here, since none has a key")
        return rows

    def count(self, node, rows):
        self.field(node, "by", rows, "no row is in a group, and the table is empty")
        return Rows({"count": FieldSeen(numbers=1)})

    def sum(self, node, rows):
        self.field(node, "by", rows, "no row is in a group, and the table is empty")
        seen = self.field(node, "field", rows, "every sum is 0")
        if seen is not None and seen.texts:
            self.summed_text(node.members["field"], seen)
        return Rows({"sum": FieldSeen(numbers=1)})

    def windowed_count(self, node, rows):
        self.field(node, "by", rows, "no row is in a group, and the table is empty")
        if node.is_repartitioned and node.parts > 1 and rows.topic is not None and rows.topic.rows:
            self.window_span(node, rows.topic)
        return Rows({})

    def join(self, node, left, right):
        return Rows(self.projected(node, {"left": (left, node.inputs[0]), "right": (right, node.inputs[1])}))

    def fk_join(self, node, left, right):
        if isinstance(node.members["fk"], str):
            self.field(node, "fk", left, "no left row has a right side")
        elif "key_before" in node.members["fk"]:
            self.key_text(node)
        return self.join(node, left, right)

    # Members.

    def field(self, node, member, rows, effect):
        """A member that names a field of the rows; what was seen of the field."""
        if member not in node.members or rows.fields is None:
            return None
        name = node.members[member]
        if name in rows.fields:
            return rows.fields[name]
        self.absent(member, name, rows, node.inputs[0], effect, self.members[member])
        return None

    def absent(self, member, name, rows, whose, effect, value):
        near = close_to(name, rows.fields)
        has = f"the rows of {whose} have {listed(sorted(rows.fields)[:12])}" if rows.fields else f"the rows of {whose} have no field"
        todo = f"{f'is {near} meant? ' if near else ''}{has}"
        self.warn(member, f"no row has this field, so {effect}", todo, value)

    def summed_text(self, name, seen):
        if seen.text_line is None:
            return self.warn("field", "it is a text, and a text counts as 0", "sum a number", self.members["field"])
        total = seen.numbers + seen.texts
        first = f"first in line {seen.text_line} ({as_text(seen.text)})"
        why = f"it is a text in {seen.texts:,} of {plural(total, 'row')}, {first}, and a text counts as 0"
        todo = f'write whole numbers without quotes, "{name}":1250; count decimals in hundredths (cents)'
        return self.warn("field", why, todo, self.members["field"])

    def window_span(self, node, seen):
        size, grace = node.members["size"], node.members.get("grace", DAY)
        advance = node.members.get("advance", size)
        closes = (seen.first - size) // advance * advance + advance + size if seen.first >= size else size
        if closes + grace > seen.last:
            return
        span = seen.last - seen.first
        why = f"the records span {span:,} ms, more than the grace, behind a repartition of {node.parts} partitions"
        remedies = f"a grace of {span:,} ms or more, one partition, or a topic keyed by the group (without by)"
        todo = f"some may come late, in whatever order: give {remedies}"
        self.warn("grace", why, todo, self.members.get("grace", self.members["size"]))

    def key_text(self, node):
        topic, text = key_topic(self.topology, node), node.members["fk"]["key_before"]
        if topic is None or not self.check.seen[topic].keys or self.check.seen[topic].keys_with[text]:
            return
        todo = f"name a text that stands in the keys of {topic}, behind their first byte"
        self.warn("fk.key_before", f"no key of the topic {topic} has this text, so no left row has a right side", todo, self.members["fk"])

    # Expressions.

    def projected(self, node, sides):
        """What the rows of a `set` may have; None where nothing is known of them."""
        fields = {}
        for name, value in self.members["set"].last().items():
            seen = self.expression(value, sides, f"set.{name}")
            if seen is None or seen.kinds:
                fields[name] = FieldSeen(1, 1) if seen is None else seen
        return fields if fields else None

    def expression(self, value, sides, member):
        """What an expression may give: FieldSeen, or None where nothing is known."""
        [(word, inner)] = value.last().items()
        if word in sides:
            return self.side(inner, sides[word], member)
        if word in ("int", "text"):
            return FieldSeen(numbers=1) if word == "int" else FieldSeen(texts=1)
        for each in inner.items:
            seen = self.expression(each, sides, member)
            if seen is not None and seen.kinds == {TEXT}:
                self.warn(member, f"{word} of a text gives nothing", "it wants numbers on both sides", each)
        return FieldSeen(numbers=1)

    def side(self, value, side, member):
        rows, whose = side
        if rows.fields is None:
            return None
        if value.value in rows.fields:
            return rows.fields[value.value]
        self.absent(member, value.value, rows, whose, "this is absent", value)
        return FieldSeen()

    def predicate(self, value, sides, member):
        [(word, inner)] = value.last().items()
        if word == "has":
            self.expression(inner, sides, member)
        elif word == "not":
            self.predicate(inner, sides, member)
        elif word in ("and", "or"):
            for each in inner.items:
                self.predicate(each, sides, member)
        else:
            self.comparison(inner, sides, member)

    def comparison(self, value, sides, member):
        first, second = (self.expression(each, sides, member) for each in value.items)
        if first is None or second is None or not first.kinds or not second.kinds:
            return
        if not first.kinds & second.kinds:
            why = f"it compares a {min(first.kinds)} with a {min(second.kinds)}, which is never true"
            self.warn(member, why, 'compare numbers with {"int":5} and texts with {"text":"a"}', value)

    # Topics and the whole.

    def topics(self):
        readers = {node.members["topic"]: node for node in self.topology.nodes.values() if "topic" in node.members}
        for name, seen in self.check.seen.items():
            at = self.draft.topics[name].at
            if name not in readers and seen.records:
                todo = 'read it by a node, {"name":..,"op":"table","topic":' + as_text(name) + "}"
                self.out.warn(at, f"topics.{name}", f"no node reads its {plural(seen.records, 'record')}", todo)
            elif seen.without_key and readers[name].op == "table":
                self.keyless(name, readers[name], seen)
            self.times(name, seen)
            self.decimals(name, seen)
            before = self.topology.inputs[name][1]
            if before and seen.keys and not seen.keys_with[before]:
                why = f"no key has the text {as_text(before)}, so the whole key decides the partition"
                self.out.warn(at, f"topics.{name}.key_before", why, "name a text that stands in the keys, behind their first byte")

    def at_line(self, line, member, why, todo, value=None):
        self.out.found.append(Finding(line, None, None, member, value, why, todo, None))

    def keyless(self, name, node, seen):
        has = "has" if seen.without_key == 1 else "have"
        why = f"{plural(seen.without_key, 'record')} of the topic {name} {has} no key, first in this line: not in the table {node.name}"
        self.at_line(seen.keyless_line, "key", why, 'give each a key, "key":"o-1", or read the topic by {"op":"stream"}')

    def times(self, name, seen):
        if not seen.times or seen.second_times < seen.times:
            return
        why = f"the times of the topic {name} look like seconds since 1970, and ts is in milliseconds"
        self.at_line(seen.second_line, "ts", why, f"write {seen.second * 1000}", str(seen.second))

    def decimals(self, name, seen):
        for field, each in seen.fields.items():
            if each.decimals and 2 * each.decimals >= each.texts:
                look = "looks" if each.decimals == 1 else "look"
                why = f"{plural(each.decimals, 'text')} of this field {look} like decimals, first in this line: texts can't be summed"
                todo = "count hundredths (cents) as whole numbers; `./streams from-csv --cents` makes them"
                self.at_line(each.decimal_line, f"value.{field}", why, todo, as_text(each.decimal))

    def printed(self):
        if not self.topology.print:
            self.out.warn(self.draft.places["print"], "print", "nothing is printed but the line settled", "name the tables to print")


def repeated_names(check):
    for name, (count, (line, column)) in check.repeated.items():
        why = f"the name stands more than once in one object{'' if count == 1 else f', in {count:,} objects, first here'}: the last counts"
        yield Finding(line, column, None, name, None, why, "take one of them out", None)


def warnings_of(check):
    """The warnings of a checked job; those of nodes and records only where the topology has no fault."""
    found = Silent(check).warnings() if check.topology is not None else []
    return [*found, *repeated_names(check)]
