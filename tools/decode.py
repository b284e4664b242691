"""Bytes of keys and values (docs/formats.md, "For implementers: bytes"), read and shown.

    reader = Reader(topology)
    key, value = reader.record(topic_number, ["6f31", "01016e000000000000000001", 0])
    shown(key), shown(value)        '"o1"'  '{"n":1}'

A key is a text, a WindowKey, a SubscriptionKey, or LATEST; a value is a row (a dictionary), a Subscription, a Response, a Delta, an
Aggregate, a StoredHash, a Time, or None for none. Bytes that spell nothing of their topic's kind are Unread.
"""

import json
from typing import NamedTuple

NO_HASH = 0x80
LATEST_TIME_KEY = b"\x54"
# What the instructions of subscriptions ask, in the order of their numbers.
INSTRUCTIONS = ("unsubscribe", "unsubscribe and answer", "subscribe and answer", "subscribe, answer if there is a row")
MOST_PARTITIONS = 64


class Spelling(Exception):
    """The bytes spell nothing of this kind."""


class Subscription(NamedTuple):
    instruction: int
    hash: str | None
    left: str
    part: int | None

    def shown(self):
        at = "" if self.part is None else f" of partition {self.part}"
        return f"{INSTRUCTIONS[self.instruction]}: {quoted(self.left)}{at}{hash_text(self.hash)}"


class Response(NamedTuple):
    hash: str | None
    row: dict | None

    def shown(self):
        return f"{'no row' if self.row is None else quoted(self.row)}{hash_text(self.hash)}"


class Delta(NamedTuple):
    is_added: bool
    amount: int
    is_count: bool

    def shown(self):
        word = "add" if self.is_added else "take away"
        return f"{word} one" if self.is_count else f"{word} one with {self.amount}"


class Aggregate(NamedTuple):
    members: int
    total: int
    is_count: bool

    def shown(self):
        return f"count {self.members}" if self.is_count else f"sum {self.total} of {self.members}"


class WindowKey(NamedTuple):
    key: str
    start: int

    def shown(self):
        return f"{quoted(self.key)} from {self.start}"


class SubscriptionKey(NamedTuple):
    foreign: str
    left: str

    def shown(self):
        return f"{quoted(self.foreign)} for {quoted(self.left)}"


class LatestKey(NamedTuple):
    def shown(self):
        return "the greatest time"


class StoredHash(NamedTuple):
    hash: str
    part: int | None

    def shown(self):
        at = "" if self.part is None else f", partition {self.part}"
        return f"{hash_text(self.hash).strip()}{at}"


class Time(NamedTuple):
    milliseconds: int

    def shown(self):
        return f"time {self.milliseconds}"


class Unread(NamedTuple):
    """Bytes, in base 16, that spell nothing of their topic's kind."""

    bytes: str

    def shown(self):
        return f"bytes {self.bytes}"


LATEST = LatestKey()


# Showing.


def escaped(text):
    """The text with each character that doesn't print (controls, marks of direction, lone surrogates) as JSON escapes it."""
    if text.isprintable():
        return text
    return "".join(each if each.isprintable() else json.dumps(each)[1:-1] for each in text)


def quoted(value):
    """Compact JSON of a key or a row, in which each character prints."""
    return escaped(json.dumps(value, ensure_ascii=False, separators=(",", ":")))


def hash_text(digits):
    """The front of a hash, behind a space; nothing where there is none."""
    return "" if digits is None else f" hash {digits[:8]}.."


def shown(value):
    """A decoded key or value as text of one line."""
    if value is None:
        return "none"
    return quoted(value) if isinstance(value, (str, dict)) else value.shown()


def plain(value):
    """A decoded key or value as what JSON can have: texts and rows as they are, all else as an object with its parts."""
    if value is None or isinstance(value, (str, dict)):
        return value
    if value == LATEST:
        return {"latest": True}
    return value._asdict()


def texts_of(key, value):
    """The keys that a record names: its own, those inside a key of two parts, and the left key of a subscription."""
    inside = value.left if isinstance(value, Subscription) else None
    parts = (key,) if isinstance(key, str) else tuple(key or ())
    return [text for text in (*parts, inside) if isinstance(text, str)]


# Reading.


def number_at(data, start, width, signed=False):
    if len(data) < start + width:
        raise Spelling
    return int.from_bytes(data[start : start + width], "big", signed=signed)


def text_of(data):
    try:
        return data.decode()
    except UnicodeDecodeError as fault:
        raise Spelling from fault


def key_of(data):
    if not 1 <= len(data) <= 1024:
        raise Spelling
    return text_of(data)


def field_at(data, at):
    """A row's field, and where it ends: its name, and its number or text."""
    size = number_at(data, at, 1)
    name = text_of(data[at + 1 : at + 1 + size])
    kind, at = number_at(data, at + 1 + size, 1), at + 2 + size
    if kind == 0:
        return name, number_at(data, at, 8, signed=True), at + 8
    length = number_at(data, at, 4)
    if kind != 1 or len(data) < at + 4 + length:
        raise Spelling
    return name, text_of(data[at + 4 : at + 4 + length]), at + 4 + length


def row_of(data):
    row, at = {}, 1
    for _ in range(number_at(data, 0, 1)):
        name, field, at = field_at(data, at)
        row[name] = field
    if at != len(data) or not row:
        raise Spelling
    return row


def hash_at(data, start):
    """16 bytes of hash, in base 16."""
    if len(data) < start + 16:
        raise Spelling
    return data[start : start + 16].hex()


def part_of(data):
    """A partition in 4 bytes; None where there are none."""
    if not data:
        return None
    part = number_at(data, 0, 4)
    if len(data) != 4 or part >= MOST_PARTITIONS:
        raise Spelling
    return part


def subscription_of(data):
    first, instruction = number_at(data, 0, 1), number_at(data, 1, 1)
    version = first & ~NO_HASH
    if version > 1 or instruction >= len(INSTRUCTIONS):
        raise Spelling
    digest = None if first & NO_HASH else hash_at(data, 2)
    start, end = 2 if digest is None else 18, len(data) - 4 * version
    if end < start:
        raise Spelling
    return Subscription(instruction, digest, key_of(data[start:end]), part_of(data[end:]))


def response_of(data):
    first = number_at(data, 0, 1)
    if first & ~NO_HASH:
        raise Spelling
    digest = None if first & NO_HASH else hash_at(data, 1)
    rest = data[1 if digest is None else 17 :]
    return Response(digest, row_of(rest) if rest else None)


def stored_hash_of(data):
    return StoredHash(hash_at(data, 0), part_of(data[16:]))


def pair_of(data):
    """A key of two parts: the first with its length before it, and what stands behind it."""
    length = number_at(data, 0, 4)
    return key_of(data[4 : 4 + length]), data[4 + length :]


def subscription_key_of(data):
    foreign, rest = pair_of(data)
    return SubscriptionKey(foreign, key_of(rest))


def window_key_of(data):
    if data == LATEST_TIME_KEY:
        return LATEST
    key, rest = pair_of(data)
    if len(rest) != 8:
        raise Spelling
    return WindowKey(key, number_at(rest, 0, 8))


def whole_number(data, width):
    if len(data) != width:
        raise Spelling
    return number_at(data, 0, width)


class Reader:
    """Reads the records of a topology's topics."""

    def __init__(self, topology):
        self.kinds = [self._kind(topology, topic) for topic in topology.topics]

    def _kind(self, topology, topic):
        """What reads a topic's keys, and what its values."""
        node = topology.nodes.get(topic.node)
        if topic.role == "subscription":
            return key_of, subscription_of
        if topic.role == "response":
            return key_of, response_of
        if topic.role == "subscription-changelog":
            return subscription_key_of, stored_hash_of
        if topic.role == "repartition" and not topology.nodes[node.inputs[0]].is_stream:
            return key_of, lambda data: delta_of(data, node)
        if topic.role == "changelog" and node.is_aggregate:
            keys = window_key_of if node.is_windowed else key_of
            return keys, lambda data: aggregate_of(data, node)
        return key_of, row_of

    def record(self, topic, record):
        """The key and the value of a journal's record in the topic of this number."""
        read_key, read_value = self.kinds[topic]
        return decoded(read_key, record[0]), decoded(read_value, record[1])


def decoded(read, digits):
    """What bytes in base 16 spell, or None where there are none."""
    if digits is None:
        return None
    try:
        return read(bytes.fromhex(digits))
    except Spelling:
        return Unread(digits)


def delta_of(data, node):
    if len(data) != 9 or data[0] > 1:
        raise Spelling
    return Delta(data[0] == 1, number_at(data, 1, 8, signed=True), node.op == "count")


def aggregate_of(data, node):
    """An aggregate of a node; of a windowed count also the greatest time."""
    if node.is_windowed and len(data) == 8:
        return Time(whole_number(data, 8))
    if len(data) != 16:
        raise Spelling
    return Aggregate(number_at(data, 0, 8), number_at(data, 8, 8, signed=True), node.op != "sum")
