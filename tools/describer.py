"""`./streams describe`: prints how a topology is laid out, as Kafka's Topology#describe does, with internal topics, partitions and tasks."""

import json

from command import Words, read_file
from finding import plural
from job_check import JobCheck
from processors import elements_of

ABOUT = """Describes a job's topology as Kafka's Topology#describe does: subtopologies with sources, processors, stores and sinks, then the topics
by the numbers that the journal has, and the tasks."""
AFTER = """JOB is a file, or - for standard input; its first line alone is read. Ends with 0, with 2 where that line has a fault (which is told), 64
where the words are wrong."""
ROLES = {
    "input": "input", "repartition": "repartition", "subscription": "subscription", "response": "response", "changelog": "changelog",
    "subscription-changelog": "changelog",
}


def parser():
    words = Words("describe", ABOUT, AFTER)
    words.add_argument("job", metavar="JOB")
    form = words.add_mutually_exclusive_group()
    form.add_argument("--dot", action="store_true", help="a graph for Graphviz: ./streams describe --dot JOB | dot -Tsvg > topology.svg")
    form.add_argument("--json", action="store_true", help="one JSON object: app, subtopologies, topics, tasks, repartitioned, print")
    return words


# As text.


def text_of(topology):
    """The description, line by line."""
    yield f"Topology of {topology.app}: {counted(topology)}"
    elements = elements_of(topology)
    for sub in topology.subtopologies:
        yield ""
        yield f"Subtopology {sub.number}: {tasks_text(sub)}"
        for element in elements[sub.number]:
            yield from element_text(element)
    yield ""
    yield "Topics"
    yield from table([["number", "name", "partitions", "role", "written by", "read by"], *(topic_cells(topology, each) for each in topology.topics)])
    yield ""
    yield from repartition_text(topology)


def counted(topology):
    counts = (
        plural(len(topology.nodes), "node"), plural(len(topology.subtopologies), "subtopology", "subtopologies"),
        plural(len(topology.topics), "topic"), plural(len(topology.tasks), "task"),
    )
    return ", ".join(counts)


def tasks_text(sub):
    """`tasks 1_0 to 1_3`."""
    if sub.parts == 1:
        return f"task {sub.number}_0"
    return f"tasks {sub.number}_0 to {sub.number}_{sub.parts - 1}"


def element_text(element):
    if element.kind == "processor":
        inside = f"stores: [{', '.join(element.stores)}]"
    else:
        inside = f"topic: {', '.join(element.topics)}"
    does = f"  {element.does}" if element.does else ""
    yield f"  {element.kind.capitalize()}: {element.name} ({inside}){does}"
    if element.below:
        yield f"    --> {', '.join(element.below)}"
    if element.above:
        yield f"    <-- {', '.join(element.above)}"


def topic_cells(topology, topic):
    before = f" by key before {json.dumps(topic.key_before, ensure_ascii=False)}" if topic.key_before and topic.role == "input" else ""
    writer, reader = topology.writer(topic), topology.reader(topic)
    is_log = ROLES[topic.role] == "changelog"
    cells = [topic.number, topic.name, f"{topic.parts}{before}", ROLES[topic.role]]
    cells.append("the job" if writer is None else f"subtopology {writer}")
    cells.append("nobody" if reader is None else f"{'restoring ' if is_log else ''}subtopology {reader}")
    return [str(cell) for cell in cells]


def table(rows):
    """Rows in columns."""
    widths = [max(len(row[column]) for row in rows) for column in range(len(rows[0]))]
    for row in rows:
        yield "  " + "  ".join(cell.ljust(width) for cell, width in zip(row, widths)).rstrip()


def repartition_text(topology):
    aggregates = [node for node in topology.nodes.values() if node.is_aggregate]
    sent = [node.name for node in aggregates if node.is_repartitioned]
    kept = [node.name for node in aggregates if not node.is_repartitioned]
    yield f"Through a repartition topic: {', '.join(sent) or 'no aggregate'}"
    yield f"Counted where they are: {', '.join(kept) or 'no aggregate'}"


# As JSON.


def json_of(topology):
    elements = elements_of(topology)
    return {
        "app": topology.app,
        "subtopologies": [
            {**sub._asdict(), "elements": [element._asdict() for element in elements[sub.number]]} for sub in topology.subtopologies
        ],
        "topics": [
            {**topic._asdict(), "role": ROLES[topic.role], "written_by": topology.writer(topic), "read_by": topology.reader(topic)}
            for topic in topology.topics
        ],
        "tasks": [topology.task_name(task) for task in topology.tasks],
        "repartitioned": [node.name for node in topology.nodes.values() if node.is_repartitioned],
        "print": topology.print,
    }


# As a graph.


def escaped(text):
    return text.replace("\\", "\\\\").replace('"', '\\"')


def quoted(text):
    return f'"{escaped(text)}"'


def graph_of(topology):
    """A graph for Graphviz: a box for each subtopology, topics between them."""
    yield f"digraph {quoted(topology.app)} {{"
    yield '  rankdir=LR; node [fontname="sans-serif", fontsize=10]; edge [color=gray40];'
    for topic in topology.topics:
        if ROLES[topic.role] != "changelog":
            label = f"{topic.name}\\n{plural(topic.parts, 'partition')}"
            yield f'  {quoted("topic " + topic.name)} [shape=cds, label="{label}"];'
    elements = elements_of(topology)
    for sub in topology.subtopologies:
        yield from cluster_of(sub, elements[sub.number])
    for sub in topology.subtopologies:
        yield from topic_edges(sub, elements[sub.number])
    yield "}"


def cluster_of(sub, elements):
    yield f"  subgraph cluster_{sub.number} {{"
    yield f'    label="subtopology {sub.number}: {plural(sub.parts, "task")}"; style=rounded; color=gray60;'
    for element in elements:
        shape = "box" if element.kind == "processor" else "plaintext"
        store = ", peripheries=2" if element.stores else ""
        label = "\\n".join(escaped(text) for text in (element.name, element.does) if text)
        yield f'    {quoted(name_in(sub, element.name))} [shape={shape}{store}, label="{label}"];'
    for element in elements:
        for below in element.below:
            yield f"    {quoted(name_in(sub, element.name))} -> {quoted(name_in(sub, below))};"
    yield "  }"


def name_in(sub, name):
    return f"{sub.number} {name}"


def topic_edges(sub, elements):
    for element in elements:
        for topic in element.topics:
            ends = [quoted("topic " + topic), quoted(name_in(sub, element.name))]
            if element.kind == "sink":
                ends.reverse()
            yield f"  {' -> '.join(ends)};"


# The word.


def first_line(data):
    """The topology's line with its number, and nothing of what follows."""
    lines = data.split(b"\n")
    for number, line in enumerate(lines, 1):
        if line.strip(b" \t\r"):
            return number, line
    return len(lines), b""


def main(words):
    chosen = parser().parse_args(words)
    number, line = first_line(read_file(chosen.job))
    checked = JobCheck().read(b"\n" * (number - 1) + line)
    if checked.topology is None:
        for each in checked.faults:
            print(each.told())
        return 2
    show(checked.topology, chosen)
    return 0


def show(topology, chosen):
    if chosen.json:
        print(json.dumps(json_of(topology), ensure_ascii=False, indent=1))
    else:
        for line in graph_of(topology) if chosen.dot else text_of(topology):
            print(line)
