"""A topology as a drawing: a box for each subtopology, one below another, in it the parts of its nodes from left to right; left of a box
the topics that its tasks read; lines from the parts that send to internal topics.

    svg = topology_svg(topology, {"orders": "5 records"})     of topics' names what stands below them

A node whose groups go through a repartition topic has two parts, a join on a foreign key three: what it sends lies with its input.
"""

from html import escape

PART_WIDTH, PART_HEIGHT, ROW = 184, 48, 74
COLUMN = PART_WIDTH + 68
TOPIC_WIDTH, TOPIC_HEIGHT = 200, 44
# What an internal topic has, below the name of its node.
HOLDS = {"repartition": "groups", "subscription": "subscriptions", "response": "responses"}
MARGIN, BOX_PADDING, BOX_HEAD = 16, 18, 26
TRACK = 7
MOST_TRACKS = 8
# Characters of a name, and how many more what stands below it may have; the whole is the shape's title.
NAME_LENGTH, NOTE_LENGTH = 19, 7


class Part:
    """A part of a node in a subtopology: `inputs` are parts, `reads` and `sends` topics. It stands at a column and a row of its box."""

    def __init__(self, node, note, subtopology, inputs, reads=None, sends=None, is_result=True):
        self.node, self.note, self.subtopology, self.inputs = node, note, subtopology, inputs
        self.reads, self.sends, self.is_result = reads, sends, is_result
        self.column = max((each.column + 1 for each in inputs), default=0)
        self.row = 0
        self.x = self.y = 0


def parts_of(topology):
    """The parts of all nodes, in the order in which records go through them."""
    parts, results = [], {}

    def put(*arguments, **named):
        parts.append(Part(*arguments, **named))
        return parts[-1]

    for node in topology.nodes.values():
        inputs = [results[name] for name in node.inputs]
        if node.op == "fk_join":
            results[node.name] = put_foreign_join(topology, node, inputs, put)
        elif node.is_repartitioned:
            topic = topology.internal(node.name, "repartition")
            put(node, group_note(node), inputs[0].subtopology, inputs, sends=topic, is_result=False)
            results[node.name] = put(node, note_of(node), node.subtopology, [], reads=topic)
        else:
            topic = topology.by_name.get(node.members.get("topic"))
            results[node.name] = put(node, note_of(node), node.subtopology, inputs, reads=topic)
    return parts


def put_foreign_join(topology, node, inputs, put):
    """What asks, what answers, and the result."""
    left, right = inputs
    asked, answered = topology.internal(node.name, "subscription"), topology.internal(node.name, "response")
    put(node, f"asks by {foreign_key_text(node.members['fk'])}", left.subtopology, [left], sends=asked, is_result=False)
    put(node, "subscriptions, answers", right.subtopology, [right], reads=asked, sends=answered, is_result=False)
    return put(node, note_of(node), node.subtopology, [left], reads=answered)


def foreign_key_text(form):
    """What gives a foreign key: a field, the whole key, or the part of it before a text."""
    if isinstance(form, str):
        return form
    return "the key" if "key" in form else f"the key before {form.get('key_before', '')!r}"


def group_note(node):
    return f"groups by {node.members['by']}" if "by" in node.members else "groups by key"


def note_of(node):
    """What a node does, in a few words."""
    members = node.members
    if node.op == "sum":
        return f"sum of {members['field']}"
    if node.op == "windowed_count":
        return f"windows of {members['size']:,} ms"
    if node.op in ("join", "fk_join"):
        return f"{members['kind']} {node.op}"
    if node.op == "select_key":
        return f"key from {members['key']}"
    return node.op


# Places: each part has a cell of its box, so that a topic's line runs along a row that is free left of its reader.


def place_parts(parts):
    """Gives each part its row: that of its first input where the cells between are free, else a new one. Returns the rows of each box."""
    taken, rows = set(), {}
    for part in parts:
        box = part.subtopology
        first = part.inputs[0] if part.inputs else None
        cells = {(box, column, first.row) for column in range(first.column + 1, part.column + 1)} if first else set()
        if first is None or part.reads or first.subtopology != box or cells & taken:
            part.row = rows.get(box, 0)
            cells = {(box, column, part.row) for column in range(part.column + 1)}
        else:
            part.row = first.row
        taken |= cells
        rows[box] = max(rows.get(box, 0), part.row + 1)
    return rows


class Drawing:
    """The places of all shapes, and the shapes."""

    def __init__(self, topology, notes):
        self.topology, self.notes = topology, notes
        self.parts = parts_of(topology)
        self.rows = place_parts(self.parts)
        self.columns = max((part.column for part in self.parts), default=0) + 1
        self.sent = [part.sends for part in self.parts if part.sends]
        self.left = MARGIN + TRACK * (min(len(self.sent), MOST_TRACKS) + 1)
        self.box_x = self.left + TOPIC_WIDTH + 34
        self.box_width = self.columns * COLUMN - (COLUMN - PART_WIDTH) + 2 * BOX_PADDING
        self.tops, self.height = {}, MARGIN
        self._place()

    def _place(self):
        for each in self.topology.subtopologies:
            fed = [topic for topic in self.sent if self.topology.reader(topic) == each.number]
            self.height += TRACK * len(fed)
            self.tops[each.number] = self.height
            self.height += BOX_HEAD + self.rows.get(each.number, 1) * ROW - (ROW - PART_HEIGHT) + 2 * BOX_PADDING + MARGIN
        for part in self.parts:
            part.x = self.box_x + BOX_PADDING + part.column * COLUMN
            part.y = self.tops[part.subtopology] + BOX_HEAD + BOX_PADDING + part.row * ROW
        self.width = self.box_x + self.box_width + MARGIN

    def shapes(self):
        """Boxes first, then lines, then what stands over them."""
        for each in self.topology.subtopologies:
            yield self.box(each)
        for part in self.parts:
            for source in part.inputs:
                yield line_between(source, part)
            if part.reads:
                yield path(
                    "flow", [("M", self.left + TOPIC_WIDTH, part.y + PART_HEIGHT / 2), ("L", part.x - 2, part.y + PART_HEIGHT / 2)]
                )
        for number, part in enumerate(part for part in self.parts if part.sends):
            yield self.send_line(part, number)
        for part in self.parts:
            if part.reads:
                yield self.topic_shape(part)
            yield self.part_shape(part)

    def box(self, each):
        top = self.tops[each.number]
        height = BOX_HEAD + self.rows.get(each.number, 1) * ROW - (ROW - PART_HEIGHT) + 2 * BOX_PADDING
        tasks = (
            f"1 task, {each.number}_0"
            if each.parts == 1
            else f"{each.parts} tasks, {each.number}_0 to {each.number}_{each.parts - 1}"
        )
        return (
            f'<g class="box"><rect x="{self.box_x}" y="{top}" width="{self.box_width}" height="{height}" rx="10"/>'
            f'<text x="{self.box_x + BOX_PADDING}" y="{top + 24}">subtopology {each.number} · {tasks}</text></g>'
        )

    def send_line(self, part, number):
        """From a part that sends through the corridor right of it to the strip above the reader's box, and from the left into the topic."""
        reader = next(each for each in self.parts if each.reads == part.sends)
        track = TRACK * (number % MOST_TRACKS)
        fed = [topic for topic in self.sent if self.topology.reader(topic) == reader.subtopology]
        start, end = part.y + PART_HEIGHT / 2, reader.y + PART_HEIGHT / 2
        corridor = part.x + PART_WIDTH + 12 + track
        strip = self.tops[reader.subtopology] - TRACK * (fed.index(part.sends) + 1)
        margin = self.left - 10 - track
        corners = [
            (part.x + PART_WIDTH, start),
            (corridor, start),
            (corridor, strip),
            (margin, strip),
            (margin, end),
            (self.left - 2, end),
        ]
        return path("send", rounded(corners))

    def topic_shape(self, part):
        topic, y = part.reads, part.y + (PART_HEIGHT - TOPIC_HEIGHT) / 2
        is_input = topic.role == "input"
        partitions = "1 partition" if topic.parts == 1 else f"{topic.parts} partitions"
        name, note = topic.name if is_input else topic.node, partitions if is_input else f"{HOLDS[topic.role]} · {partitions}"
        title = f"{topic.role} topic {topic.name}, number {topic.number}, {partitions}; {self.notes.get(topic.name, '')}".rstrip(
            "; "
        )
        return (
            f'<g class="topic {topic.role}"><title>{escape(title)}</title>'
            f'<rect x="{self.left}" y="{y}" width="{TOPIC_WIDTH}" height="{TOPIC_HEIGHT}" rx="{TOPIC_HEIGHT / 2}"/>'
            f"{texts(self.left + TOPIC_WIDTH / 2, y, name, note, 'middle', NAME_LENGTH + 5)}</g>"
        )

    def part_shape(self, part):
        node = part.node
        is_printed = part.is_result and node.name in self.topology.print
        classes = (
            f"part{' result' if part.is_result else ''}{' printed' if is_printed else ''}{' stream' if node.is_stream else ''}"
        )
        title = f"{node.op} {node.name}: {part.note}" + (", printed" if is_printed else "")
        if part.is_result and node.has_store:
            title += f"; its store's changelog is {self.topology.internal(node.name, 'changelog').name}"
        link = f'<a href="#table-{escape(node.name)}">' if is_printed else ""
        return (
            f'{link}<g class="{classes}"><title>{escape(title)}</title>'
            f'<rect x="{part.x}" y="{part.y}" width="{PART_WIDTH}" height="{PART_HEIGHT}" rx="6"/>'
            f"{store_sign(part) if part.is_result and node.has_store else ''}"
            f"{texts(part.x + 12, part.y + 2, node.name, part.note, 'start', NAME_LENGTH)}</g>{'</a>' if link else ''}"
        )


def store_sign(part):
    """A small drum: the part has a store."""
    x, y = part.x + PART_WIDTH - 24, part.y + 10
    return f'<path class="store" d="M{x} {y + 3}v9a6 3 0 0 0 12 0v-9a6 3 0 0 0 -12 0a6 3 0 0 0 12 0"/>'


def texts(x, y, name, note, anchor, length):
    """A name, and a note below it."""
    return (
        f'<text class="name" x="{x}" y="{y + 19}" text-anchor="{anchor}">{escape(shortened(name, length))}</text>'
        f'<text class="note" x="{x}" y="{y + 35}" text-anchor="{anchor}">{escape(shortened(note, length + NOTE_LENGTH))}</text>'
    )


def shortened(text, length):
    """The text with its middle left out where it is longer."""
    if len(text) <= length:
        return text
    front = (length - 1) // 2
    return f"{text[:front]}…{text[len(text) - (length - 1 - front):]}"


# Lines.


def line_between(source, part):
    """A curve from a part's right side to another's left."""
    x, y, to_x, to_y = source.x + PART_WIDTH, source.y + PART_HEIGHT / 2, part.x - 2, part.y + PART_HEIGHT / 2
    bend = min(40, (to_x - x) / 2)
    if y == to_y:
        return path("flow", [("M", x, y), ("L", to_x, to_y)])
    return path("flow", [("M", x, y), ("C", x + bend, y, to_x - bend, to_y, to_x, to_y)])


def rounded(corners, radius=6):
    """The steps of a path along these corners."""
    steps = [("M", *corners[0])]
    for (x, y), (at_x, at_y), (to_x, to_y) in zip(corners, corners[1:], corners[2:]):
        before = min(radius, (abs(at_x - x) + abs(at_y - y)) / 2)
        after = min(radius, (abs(to_x - at_x) + abs(to_y - at_y)) / 2)
        steps.append(("L", at_x - sign(at_x - x) * before, at_y - sign(at_y - y) * before))
        steps.append(("Q", at_x, at_y, at_x + sign(to_x - at_x) * after, at_y + sign(to_y - at_y) * after))
    return [*steps, ("L", *corners[-1])]


def sign(number):
    return (number > 0) - (number < 0)


def path(kind, steps):
    data = "".join(f"{letter}{' '.join(f'{number:g}' for number in numbers)}" for letter, *numbers in steps)
    return f'<path class="line {kind}" d="{data}" marker-end="url(#arrow-{kind})"/>'


MARKERS = "".join(
    f'<marker id="arrow-{kind}" class="arrow {kind}" viewBox="0 0 8 8" refX="7" refY="4" markerWidth="7" markerHeight="7" orient="auto">'
    '<path d="M0 0L8 4L0 8z"/></marker>'
    for kind in ("flow", "send")
)


def topology_svg(topology, notes):
    """The drawing; `notes` says of topics, by name, what stands below their names."""
    drawing = Drawing(topology, notes)
    parts, boxes = len(topology.nodes), len(topology.subtopologies)
    label = f"The topology {topology.app}: {parts} nodes in {boxes} subtopologies; below it the same stands in words"
    return (
        f'<svg role="img" aria-label="{escape(label)}" width="{drawing.width:g}" height="{drawing.height:g}" '
        f'viewBox="0 0 {drawing.width:g} {drawing.height:g}"><defs>{MARKERS}</defs>{"".join(drawing.shapes())}</svg>'
    )
