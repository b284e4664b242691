"""Checks a whole job: all its faults, line by line, in the program's order, and what was seen of its records."""

import json

from finding import Finding, Findings, Line, as_text, too_many
from job import Topology
from positioned_json import NotJson, parse, parse_first
from record_line import Doubt, RecordLine, surely_right
from seen import TopicSeen
from topology_line import TopologyLine
from topology_rules import Rules

MOST_BYTES = 67_108_864
MOST_LINE_BYTES = 65_536
MOST_RECORDS = 250_000
# How far a value that was laid out over several lines is followed.
LOOK_AHEAD = 1 << 20
BLANK = b" \t\r"


class JobCheck:
    """`faults` has what the program refuses, in its order: the first is what it would tell. `draft` and `topology` are those of the topology
    line (`topology` is None where the line has a fault), `seen` what the records have, by topic, `repeated` the names that stand twice in
    one object, with how often and where first. Where the first fault is enough, nothing behind its line is read."""

    def __init__(self, is_first_enough=False):
        self.is_first_enough = is_first_enough
        self.faults, self.warnings = [], []
        self.draft = self.topology = self.line = None
        self.lines = self.records = 0
        self.seen, self.repeated = {}, {}
        self.is_whole = True

    def read(self, data):
        """Checks the bytes of a job."""
        lines = data.split(b"\n")
        if not lines[-1]:
            lines.pop()
        self.lines, start, number = len(lines), 0, 0
        while number < len(lines) and self.is_whole and not (self.faults and self.is_first_enough):
            line = lines[number]
            ends = start + len(line) + (start + len(line) < len(data))
            is_past = start <= MOST_BYTES < start + min(ends - start, MOST_LINE_BYTES + 1) or start > MOST_BYTES
            if is_past:
                self.stop_at_most_bytes(number + 1)
            elif line.strip(BLANK) or len(line) > MOST_LINE_BYTES:
                taken = self.read_line(lines, number)
                ends += sum(len(each) + 1 for each in lines[number + 1 : number + taken])
                number += taken - 1
            start, number = ends, number + 1
        if self.line is None and not self.faults:
            why, todo = "there are only blank lines", "write the topology on the first line, and each record on a line of its own"
            self.faults.append(Finding(1 + data.count(b"\n"), None, None, None, None, why, todo, "25 NoTopology"))
        return self

    def stop_at_most_bytes(self, number):
        todo = "split the job; what follows was not checked"
        fault = too_many("bytes", MOST_BYTES)
        self.faults.append(Finding(number, None, None, None, None, f"the job has more than {MOST_BYTES:,} bytes", todo, fault))
        self.is_whole = False

    def read_line(self, lines, number):
        """Reads a line that isn't blank, and gives how many lines were taken: more than one where a value is laid out over them."""
        data = lines[number]
        if self.line is not None and len(data) <= MOST_LINE_BYTES and self.is_plain_record(data, number + 1):
            return 1
        out = Findings(Line(number + 1, data))
        if len(data) > MOST_LINE_BYTES:
            todo = "take shorter texts, or fewer fields"
            out.add("24 LineTooLong", 0, None, f"the line has {len(data):,} bytes, more than {MOST_LINE_BYTES:,}", todo)
        if not data.strip(BLANK) or len(data) > LOOK_AHEAD:
            self.faults += out.found
            return 1
        taken = self.judge(lines, number, out)
        self.faults += [each for each in out.found if each.fault]
        return taken

    def is_plain_record(self, data, number):
        """Takes a line that surely has no fault."""
        try:
            topic, key, row, time = surely_right(data, self.seen)
        except Doubt:
            return False
        if self.records >= MOST_RECORDS:
            return False
        self.records += 1
        self.seen[topic].add(number, key, row, time)
        return True

    def judge(self, lines, number, out):
        value, taken = self.value_of(lines, number, out)
        is_topology = self.line is None
        if is_topology:
            self.line = out.line
        else:
            self.records += 1
        if value is None:
            return taken
        self.note_repeated(value, out.line)
        if is_topology:
            self.judge_topology(value, out)
        else:
            self.judge_record(value, out)
        return taken

    # JSON.

    def value_of(self, lines, number, out):
        """The value of a line, and the number of lines that it takes; None after a fault that hides it."""
        text = out.line.text
        try:
            return parse(text), 1
        except NotJson as fault:
            is_first = self.line is None
            if text.startswith("\ufeff"):
                todo = "take it off: save as UTF-8 without byte order mark, or `sed '1s/^\\xef\\xbb\\xbf//'`"
                out.add("20 NotJson", 0, None, "a byte order mark stands before the line", todo)
                return self.value_behind_mark(lines, number, out)
            if fault.is_cut and number + 1 < len(lines):
                whole, taken = self.value_over_lines(lines, number, out)
                if whole is not None:
                    return whole, taken
            out.add("20 NotJson", fault.at, None, f"this is no JSON: {fault.why}", hint_of(text, fault, is_first))
            return None, 1

    def value_behind_mark(self, lines, number, out):
        marked = out.line.text
        try:
            out.line.text = " " + marked[1:]
            return parse(out.line.text), 1
        except NotJson as fault:
            out.add("20 NotJson", fault.at, None, f"this is no JSON: {fault.why}", hint_of(marked, fault, False))
            return None, 1

    def value_over_lines(self, lines, number, out):
        """The value that begins in this line and ends at the end of a later one, and how many lines it has; (None, 1) where there is none."""
        size, last = 0, number
        while last < len(lines) and size < LOOK_AHEAD:
            size += len(lines[last]) + 1
            last += 1
        line = Line(number + 1, b"\n".join(lines[number:last]))
        try:
            value, end = parse_first(line.text)
        except NotJson:
            return None, 1
        rest = line.text[end:].split("\n", 1)[0]
        if rest.strip(" \t\r"):
            return None, 1
        taken = line.place(end - 1)[0] - number
        out.line = line
        todo = "put it on one line: `jq -c . FILE` does it for each value of a file"
        out.add("20 NotJson", value.at, None, f"the value that begins here has {taken} lines; each has to stand on one line of its own", todo)
        return value, taken

    def note_repeated(self, value, line):
        """Notes the names that stand twice in one object, of which the last counts."""
        if value.kind == "object":
            for name, at in value.repeated().items():
                count, place = self.repeated.get(name, (0, line.place(at)))
                self.repeated[name] = (count + 1, place)
            for _, _, inner in value.members:
                self.note_repeated(inner, line)
        for inner in value.items or ():
            self.note_repeated(inner, line)

    # The two kinds of line.

    def judge_topology(self, value, out):
        before = len(out.found)
        if is_record(value):
            return self.topology_missing(value, out)
        self.draft = TopologyLine(out).read(value)
        if self.draft is not None:
            Rules(self.draft, out).judge()
            self.seen = {name: TopicSeen() for name in self.draft.topics or ()}
        if self.draft is not None and len(out.found) == before:
            self.topology = Topology(plain(value))
            self.watch_keys()

    def topology_missing(self, value, out):
        """The first line is a record: told once, as the program tells it."""
        name = min(value.last(), key=str.encode)
        todo = "write the topology before it, {\"app\":..,\"topics\":{..},\"nodes\":[..],\"print\":[..]}"
        why = "the first line of a job has to be the topology, and this looks like a record"
        out.add(f"21 BadShape {as_text(name)}", value.place_of(name), name, why, todo)

    def topology_again(self, value, out):
        """A topology stands where a record may stand: told once, as the program tells it."""
        name = min(set(value.last()) - {"topic", "key", "value", "ts"}, key=str.encode)
        todo = "take it out: a job has one topology, on its first line (`tail -n +2` gives a file without it)"
        out.add(f"21 BadShape {as_text(name)}", value.place_of(name), name, "this looks like a second topology", todo)

    def watch_keys(self):
        """Counts the keys that have a text by which they are cut."""
        for name, (_, before) in self.topology.inputs.items():
            if before:
                self.seen[name].keys_with[before] = 0
        for node in self.topology.nodes.values():
            fk, topic = node.members.get("fk"), key_topic(self.topology, node)
            if isinstance(fk, dict) and "key_before" in fk and topic:
                self.seen[topic].keys_with[fk["key_before"]] = 0

    def judge_record(self, value, out):
        before = len(out.found)
        if is_second_topology(value):
            return self.topology_again(value, out)
        topics = list(self.seen) if self.draft is not None and self.draft.topics is not None else None
        RecordLine(out, topics).judge(value)
        if self.records == MOST_RECORDS + 1:
            out.add(too_many("records", MOST_RECORDS), value.at, None, f"more than {MOST_RECORDS:,} records", "split the job")
        self.note_record(value, out.line.number, len(out.found) > before)

    def note_record(self, value, number, has_fault):
        """What a record that was judged value by value has; of a faulty one what can be told."""
        members = value.last() if value.kind == "object" else {}
        topic = self.seen.get(members["topic"].value) if "topic" in members and members["topic"].kind == "text" else None
        if topic is None:
            return
        key, row, time = (members.get(name) for name in ("key", "value", "ts"))
        key = None if key is None or key.kind == "null" else str(key.value)
        fields = None
        if row is not None and row.kind == "object":
            fields = {name: field.value for name, field in row.last().items() if field.kind != "null"} or None
        time = time.value if time is not None and time.is_integer and time.value >= 0 else 0
        topic.add(number, key, fields, time)


def key_topic(topology, node):
    """The name of the topic whose keys the left side of a foreign-key join has; None where they are made on the way."""
    while node.op not in ("stream", "table"):
        if node.is_aggregate or node.op == "select_key":
            return None
        node = topology.nodes[node.inputs[0]]
    return node.members["topic"]


def is_record(value):
    members = value.last() if value.kind == "object" else {}
    return "value" in members and not members.keys() & {"app", "topics", "nodes", "print"}


def is_second_topology(value):
    members = value.last() if value.kind == "object" else {}
    return members.keys() >= {"app", "topics", "nodes", "print"}


def plain(value):
    """What Python's reader would give."""
    if value.kind == "object":
        return {name: plain(inner) for name, inner in value.last().items()}
    if value.kind == "array":
        return [plain(inner) for inner in value.items]
    return value.value


def hint_of(text, fault, is_first):
    """What to do about a line that is no JSON."""
    rest = text[fault.at :]
    if "\x00" in text or text.startswith("\udcff\udcfe"):
        return "is the file UTF-16? `iconv -f utf-16 -t utf-8` makes it UTF-8"
    if "no UTF-8" in fault.why:
        return "save the file as UTF-8; `iconv -f latin1 -t utf-8` does it for Latin-1"
    if "\r" in text.strip("\r \t"):
        return "a line ends with LF, or CR and LF; not with a CR alone"
    if rest.startswith("'") or "'" in text and '"' not in text:
        return "JSON has double quotes, not single ones"
    if rest.startswith(("NaN", "Infinity", "-Infinity")):
        return "there is no such number; leave the field out"
    if rest.startswith(("//", "/*", "#")):
        return "JSON has no comments; take it out"
    if rest.startswith("\x1a"):
        return "take the Ctrl-Z at the end off"
    if "beyond every double" in fault.why:
        return "write a whole number of 64 bits"
    if "more follows" in fault.why:
        return "write each value on a line of its own"
    if is_first and "{" not in text and ("," in text or ";" in text or "\t" in text):
        return "is this a CSV file? `./streams from-csv --help` makes a job of it"
    return "write one whole JSON value on each line"


def check_topology(data):
    """A topology that may stand on several lines: on one line, as a Topology, and its faults; None, None where it has faults."""
    checked, line = JobCheck(), Line(1, data.removeprefix(b"\xef\xbb\xbf"))
    out = Findings(line)
    try:
        value = parse(line.text)
        checked.judge_topology(value, out)
    except NotJson as fault:
        out.add("20 NotJson", fault.at, None, f"this is no JSON: {fault.why}", hint_of(line.text, fault, False))
    if checked.topology is None:
        return None, None, out.found
    return json.dumps(plain(value), ensure_ascii=False, separators=(",", ":")), checked.topology, []


def check_job(data):
    """The check of a job's bytes, with its warnings."""
    from silent import warnings_of

    checked = JobCheck().read(data)
    checked.warnings = warnings_of(checked)
    return checked
