"""Reads a record's line of a job: all that is wrong with it, in the program's order. A line that is surely right is told without places."""

import json
import re

from finding import as_text, bad_number, bad_shape, close_to, kind_of, listed, too_many

MEMBERS = ("topic", "key", "value", "ts")
MOST_FIELDS = 64
MOST_KEY_BYTES = 1024
LATEST = 2**53
LOW, HIGH = -(2**63), 2**63 - 1
# What Python's reader takes otherwise than serde_json: minus zero, halves of surrogate pairs, numbers beyond every double.
DOUBTFUL = re.compile(rb"-0|\\u[dD][89a-fA-F]|[0-9]{300}")
OTHER_NAMES = {
    "timestamp": "ts", "time": "ts", "date": "ts", "payload": "value", "val": "value", "id": "key", "k": "key", "v": "value", "t": "topic",
}
NOT_HERE = ("partition", "offset", "headers", "broker", "tstype")


class Doubt(Exception):
    """The line isn't surely right: `judge_record` has to look at it."""


def _doubt(_):
    raise Doubt


def _members(pairs):
    members = dict(pairs)
    if len(members) < len(pairs):
        raise Doubt
    return members


_read = json.JSONDecoder(parse_float=_doubt, parse_constant=_doubt, object_pairs_hook=_members).decode


def surely_right(data, topics):
    """Topic, key, row and time of a line that has no fault and no name twice; raises Doubt where it may have one. `topics` has the names of
    the topics."""
    if DOUBTFUL.search(data) or data.count(b"[") + data.count(b"{") > 100:
        raise Doubt
    try:
        record = _read(data.decode())
    except ValueError:
        raise Doubt from None
    if type(record) is not dict or not record.keys() <= {"topic", "key", "value", "ts"} or "value" not in record:
        raise Doubt
    topic, key, value, time = record.get("topic"), record.get("key"), record["value"], record.get("ts", 0)
    if type(topic) is not str or topic not in topics or type(time) is not int or not 0 <= time <= LATEST:
        raise Doubt
    if key is not None and (type(key) is not str or not 1 <= len(key.encode()) <= MOST_KEY_BYTES):
        raise Doubt
    return topic, key, None if value is None else _row(value), time


def _row(value):
    if type(value) is not dict:
        raise Doubt
    row = {name: field for name, field in value.items() if field is not None}
    if not 1 <= len(row) <= MOST_FIELDS:
        raise Doubt
    for name, field in row.items():
        if not name or len(name) > 64 or len(name.encode()) > 64:
            raise Doubt
        if type(field) is not str and (type(field) is not int or not LOW <= field <= HIGH):
            raise Doubt
    return row


class RecordLine:
    """Judges one value; `topics` has the names of the topics, None where they aren't known."""

    def __init__(self, findings, topics):
        self.out, self.topics = findings, topics

    def judge(self, value):
        if value.kind != "object":
            todo = 'write {"topic":"orders","key":"o-1","value":{"amount":1250}} on a line of its own'
            if value.kind == "array":
                todo = "write each record on a line of its own, without [ ] and commas (`jq -c '.[]'`)"
            return self.out.add(bad_shape("line"), value.at, None, f"a record has to be an object, not {kind_of(value)}", todo, value)
        self.unknown_members(value)
        self.topic(value)
        self.key(value)
        self.value(value)
        self.time(value)

    def unknown_members(self, value):
        known = value.last()
        for name in sorted(set(known) - set(MEMBERS), key=str.encode):
            todo = "a record has topic, key, value and ts; the row's fields stand in value, \"value\":{" + as_text(name) + ":..}"
            meant = OTHER_NAMES.get(name.lower()) or close_to(name, MEMBERS)
            if meant and meant not in known:
                todo = f"is {meant} meant? a record has topic, key, value and ts"
            elif name in NOT_HERE:
                todo = f"take it out: records have no {name} here"
            self.out.add(bad_shape(name), value.place_of(name), name, "a record has no such member", todo)

    def topic(self, value):
        inner = value.get("topic")
        todo = f"name one of the topics: {listed(self.topics)}" if self.topics else "name a topic of the topology"
        if inner is None:
            return self.out.add(bad_shape("topic"), value.at, "topic", "it is missing", todo)
        if inner.kind != "text":
            return self.out.add(bad_shape("topic"), inner.at, "topic", f"it has to be a text, not {kind_of(inner)}", todo, inner)
        if self.topics is not None and inner.value not in self.topics:
            near = close_to(inner.value, self.topics)
            todo = f"{f'is {near} meant? ' if near else ''}mend the name, or add the topic to the topology"
            fault = f"23 UnknownTopic {as_text(inner.value)}"
            self.out.add(fault, inner.at, "topic", "the topology has no topic of this name", todo, inner)

    def key(self, value):
        inner = value.get("key")
        if inner is None or inner.kind == "null":
            return
        todo = "a key is a text of 1 to 1,024 bytes; leave it out, or write null, where there is none"
        if inner.kind == "number":
            todo = f'write it in quotes, "key":"{self.out.line.spelled(inner)}"'
            self.out.add(bad_shape("key"), inner.at, "key", "a number is no key", todo, inner)
        elif inner.kind != "text":
            self.out.add(bad_shape("key"), inner.at, "key", f"it has to be a text, not {kind_of(inner)}", todo, inner)
        elif not 1 <= len(inner.value.encode()) <= MOST_KEY_BYTES:
            size = len(inner.value.encode())
            why = "it is empty" if not size else f"it has {size:,} bytes, more than 1,024"
            self.out.add(bad_shape("key"), inner.at, "key", why, todo, inner)

    def value(self, value):
        inner = value.get("value")
        todo = 'write the row, "value":{"amount":1250}, or null to delete the key\'s row'
        if inner is None:
            return self.out.add(bad_shape("value"), value.at, "value", "it is missing", todo)
        if inner.kind == "null":
            return None
        if inner.kind != "object":
            return self.out.add(bad_shape("value"), inner.at, "value", f"it has to be a row or null, not {kind_of(inner)}", todo, inner)
        return self.row(inner, todo)

    def row(self, value, todo):
        names = [name for name in sorted(value.last(), key=str.encode) if value.get(name).kind != "null"]
        if not names:
            self.out.add(bad_shape("value"), value.at, "value", "a row has at least one field that isn't null", todo, value)
        for number, name in enumerate(names):
            if number == MOST_FIELDS:
                todo = f"{MOST_FIELDS} fields are the limit"
                self.out.add(too_many("fields", MOST_FIELDS), value.at, "value", f"it has {len(names)} fields that aren't null", todo)
            self.field(name, value.get(name), value.place_of(name))

    def field(self, name, value, at):
        size, member = len(name.encode()), f"value.{name}"
        if not 1 <= size <= 64:
            why = "a field's name is empty" if not name else f"a field's name has {size} bytes, more than 64"
            self.out.add(bad_shape(name), at, "value", why, "a field's name has 1 to 64 bytes", as_text(name))
        if value.kind == "number" and not value.is_integer:
            self.number(name, member, value)
        elif value.kind not in ("number", "text"):
            todo = "a row has whole numbers and texts alone"
            if value.kind == "truth":
                todo += ': write 1 and 0, or "true" and "false"'
            elif value.kind == "array":
                todo += f': make fields of its parts, such as "{name}_0"'
            elif value.kind == "object":
                todo += f': make fields of its members, such as "{name}_part"'
            self.out.add(bad_shape(name), value.at, member, f"a field can't be {kind_of(value)}", todo, value)

    def number(self, name, member, value):
        spelled = self.out.line.text[value.at : value.end]
        todo = 'count a smaller unit (cents, grams, seconds), or write it as a text'
        why = "it isn't a whole number"
        if re.fullmatch(r"-?[0-9]+\.[0-9]{1,2}", spelled):
            whole, _, part = spelled.partition(".")
            cents = int(f"{whole}{part.ljust(2, '0')}")
            todo = f'count hundredths (cents): "{name}":{cents}'
            if not part.strip("0"):
                todo = f'write {whole}, or count hundredths (cents): "{name}":{cents}'
        elif re.fullmatch(r"-?[0-9]+", spelled):
            why = "minus zero is no whole number" if spelled == "-0" else "it doesn't fit 64 bits"
            todo = "write 0" if spelled == "-0" else f'write it as a text, "{name}":"{spelled}"'
        elif "." not in spelled:
            why, todo = "it is written with an exponent", "write it out, without point and exponent"
        self.out.add(bad_number(name), value.at, member, why, todo, value)

    def time(self, value):
        inner = value.get("ts")
        todo = "ts is a number of milliseconds since 1970, from 0 to 9,007,199,254,740,992; leave it out for 0"
        if inner is None:
            return
        if inner.kind != "number":
            self.out.add(bad_shape("ts"), inner.at, "ts", f"it has to be a number, not {kind_of(inner)}", todo, inner)
        elif not inner.is_integer:
            self.out.add(bad_number("ts"), inner.at, "ts", "it has to be a whole number, written without point and exponent", todo, inner)
        elif not 0 <= inner.value <= LATEST:
            self.out.add(bad_number("ts"), inner.at, "ts", "it is out of range", todo, inner)
