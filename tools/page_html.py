"""A page about a run: one HTML file that asks for nothing outside of itself.

    html = page_html(run, job, words, told)

What stands still (the answer, the drawing, the subtopologies) is written here, with every text of the job escaped; tables, lanes and the
journal are shown by the page's script of its data, which is a block of JSON. A policy in the page allows its own script and style alone.
"""

import hashlib
import json
from base64 import b64encode
from html import escape
from pathlib import Path

from decode import Reader, escaped, quoted, shown
from journal_lines import counted
from journal_sums import sums_of_all
from page_data import json_text, page_data
from page_topology import topology_svg

PARTS = Path(__file__).resolve().parent / "page_parts"
SCRIPTS = ("base.js", "grid.js", "signs.js", "lane_data.js", "lane_drawing.js", "lanes.js", "journal.js", "main.js")
KINDS = {0: "good", 3: "warn"}
SHOWN_LINES, SHOWN_CHARACTERS = 20, 2_000


def shown_text(text):
    """A text of the job or the output as HTML: what doesn't print is spelled, markup is text, and the rest of a long one is left out."""
    cut = text if len(text) <= SHOWN_CHARACTERS else text[:SHOWN_CHARACTERS] + " …"
    return escape("\n".join(escaped(line) for line in cut.split("\n")))


def element(tag, content, **attributes):
    """An element round HTML; attributes are texts, `class_` is `class`."""
    told = "".join(f' {name.rstrip("_").replace("_", "-")}="{escape(value)}"' for name, value in attributes.items())
    return f"<{tag}{told}>{content}</{tag}>"


def paragraph(text):
    """A paragraph of plain text, in which what stands between backticks is code."""
    parts = text.split("`")
    return element("p", "".join(element("code", escape(part)) if at % 2 else escape(part) for at, part in enumerate(parts)))


def html_table(label, columns, rows):
    """A table of texts; the first cell of a row is its head."""
    head = "".join(element("th", escape(name), scope="col") for name in columns)
    body = "".join(
        element("tr", element("th", escape(row[0]), scope="row") + "".join(element("td", escape(cell)) for cell in row[1:]))
        for row in rows
    )
    caption = element("caption", escape(label), class_="hidden")
    table = f'<table class="names">{caption}<thead><tr>{head}</tr></thead><tbody>{body}</tbody></table>'
    return element("div", table, class_="scroll", tabindex="0", role="region", aria_label=label)


def section(name, title, content):
    return element("section", element("h2", escape(title)) + content, id=name)


# The answer.


def answer_section(run, job, words, told):
    parts = [paragraph(told.meaning)]
    if told.advice:
        parts.append(
            element("p", element("strong", "What to do: ") + paragraph(told.advice).removeprefix("<p>").removesuffix("</p>"))
        )
    parts.append(faulty_line(job, told))
    if told.status == 3:
        parts.append(late_tasks(run))
    if told.status == 5:
        parts.append(collision_rows(run))
    if run.output.fault:
        parts.append(paragraph(f"Not all of the output is there: {run.output.fault}."))
    parts.append(output_lines(run.output, told))
    parts.append(element("p", f"Run with {element('code', escape(escaped(' '.join(words))))}." if words else "", class_="faint"))
    return section("answer", told.title, element("div", "".join(parts), class_="card") + figures(run))


def faulty_line(job, told):
    """The line of the job, or of what was audited, that the answer names."""
    if told.line is None:
        return ""
    lines = job.split(b"\n")
    if told.line > len(lines):
        return paragraph(f"Line {told.line} is past the end of the file.")
    line = lines[told.line - 1].decode(errors="backslashreplace").rstrip("\r")
    return paragraph(f"Line {told.line:,} of the file:") + element("pre", shown_text(line) or "(empty)")


def late_tasks(run):
    """Which tasks dropped how many pairs, by the journal."""
    rows = [(task, sums.late) for task, sums in run.history.tasks_in_order() if sums.late]
    told = ", ".join(f"{late:,} at task {task}" for task, late in rows)
    return paragraph(f"By the journal: {told}.") if told else ""


def collision_rows(run):
    """The two rows of one hash, from the left table's changelog."""
    _, name, *key, first, second = run.output.answer.split(" ")
    key = json.loads(" ".join(key))
    if run.topology is None or name not in run.topology.nodes:
        return ""
    left = run.topology.nodes[name].inputs[0]
    changelog = run.topology.internal(left, "changelog")
    found = [
        record for record in changelog_records(run, changelog.number, key.encode().hex()) if record[0] in (int(first), int(second))
    ]
    rows = [[f"offset {offset:,}", quoted(key), value] for offset, value in found]
    return html_table("The two rows of one hash", ["record", "key", f"row in {left}"], rows) if rows else ""


def changelog_records(run, topic, key):
    """The offsets and rows of a key's records in a topic, by the accepted entries that append them."""
    reader = Reader(run.topology)
    for entry in run.entries:
        if entry.request == "append" and entry.is_accepted and entry["topic"] == topic:
            for at, record in enumerate(entry["records"]):
                if record[0] == key:
                    yield entry.reply + at, shown(reader.record(topic, record)[1])


def output_lines(output, told):
    """The first lines of the output, where it isn't settled, and all answers to a question."""
    parts = []
    if told.status != 0:
        lines = [output.answer, *(f"table {table.name} {table.total}" for table in output.tables)]
        parts.append(paragraph("The output:") + element("pre", shown_text("\n".join(lines[:SHOWN_LINES])) or "(nothing)"))
    if output.answers:
        parts.append(paragraph("The answers, each a row or null with the position at which it was read:"))
        parts.append(element("pre", "\n".join(shown_text(line) for line in output.answers)))
    return "".join(parts)


def figures(run):
    """The run in numbers."""
    told = [(sum(table.total for table in run.output.tables), "rows in tables")] if run.output.tables else []
    if run.entries:
        history = run.history
        total = sums_of_all(history.workers.values())
        produced = sum(1 for entry in run.entries if entry.request == "produce")
        workers = sum(1 for worker in history.workers if worker < 16)
        told = [
            (produced, "records"),
            *told,
            (len(run.topology.tasks), "tasks"),
            (workers, "workers"),
            (total.commits, "commits"),
            (total.aborts, "aborts"),
        ]
        told += [(total.refused, "refused"), (total.epochs_lost, "epochs lost"), (len(run.entries), "journal lines")]
    items = "".join(element("li", element("b", f"{number:,}") + element("span", escape(name))) for number, name in told)
    return element("ul", items, class_="figures") if told else ""


# The topology.


def topology_section(run):
    topology = run.topology
    notes = {}
    if run.entries:
        counts = run.history.topics
        for topic in topology.topics:
            each = counts.get(topic.number, {"produced": 0, "appended": 0})
            notes[topic.name] = counted(each["produced"] + each["appended"], "record")
    drawing = element(
        "div",
        topology_svg(topology, notes),
        class_="drawing card",
        tabindex="0",
        role="region",
        aria_label="Drawing of the topology",
    )
    legend = paragraph(
        "A dashed part sends to a topic; a drum is a store with a changelog; a bold blue frame is a printed table. Point at a shape for "
        "its whole name."
    )
    return section("topology", "Topology", drawing + legend.replace("<p>", '<p class="faint">') + subtopology_table(topology))


def subtopology_table(topology):
    """The drawing in words."""

    def names(numbers):
        return ", ".join(topology.topics[number].name for number in numbers) or "none"

    columns = ["subtopology", "tasks", "reads", "nodes", "sends to", "changelogs"]
    rows = [
        [str(each.number), str(each.parts), names(each.reads), ", ".join(each.nodes), names(each.writes), names(each.changelogs)]
        for each in topology.subtopologies
    ]
    return element("details", element("summary", "The same in words") + html_table("Subtopologies", columns, rows))


# The page.


def run_sections(run):
    """The sections that the script fills."""
    place = '<div id="{}"></div>'.format
    if run.output.tables:
        yield "tables", "Tables", place("tables-place")
    if run.entries:
        sums = (
            element("h3", "By worker")
            + place("workers-place")
            + element("h3", "By task")
            + place("tasks-place")
            + element("h3", "By topic")
            + place("topics-place")
        )
        note = paragraph(
            "From left to right: the lines of the journal, in the order in which the cluster took them. The dotted line is where the "
            "caller begins to bring the cluster to rest. `in` are records that tasks took, `out` those that they wrote, in committed "
            "transactions; `lost in` and `lost out` are what others took and wrote. `epochs` are those that a worker began, `lost` those of "
            "them that ended before the run did."
        )
        yield "workers", "What each worker did", note + element("div", place("lanes-place"), class_="card") + sums
        yield "journal", "Journal", place("journal-place")


def digest(text):
    """What the policy calls a script or style by."""
    return f"'sha256-{b64encode(hashlib.sha256(text.encode()).digest()).decode()}'"


def page_html(run, job, words, told):
    style = (PARTS / "page.css").read_text()
    script = "'use strict';\n" + "\n".join((PARTS / name).read_text() for name in SCRIPTS)
    sections = list(run_sections(run))
    titles = [
        ("answer", "Answer"),
        *[("topology", "Topology")] * (run.topology is not None),
        *((name, title) for name, title, _ in sections),
    ]
    links = "".join(
        element("a", escape(title.removeprefix("What each worker did") or "Workers"), href=f"#{name}") for name, title in titles
    )
    app = run.topology.app if run.topology else "A job"
    badge = element(
        "span", shown_text(run.output.answer[:200]) or "nothing was printed", class_=f"status {KINDS.get(told.status, 'bad')}"
    )
    body = [answer_section(run, job, words, told)]
    if run.topology:
        body.append(topology_section(run))
    body += [section(*each) for each in sections]
    policy = f"default-src 'none'; style-src {digest(style)}; script-src {digest(script)}; base-uri 'none'; form-action 'none'"
    return "\n".join(
        [
            '<!doctype html>\n<html lang="en">\n<head>\n<meta charset="utf-8">',
            '<meta name="viewport" content="width=device-width, initial-scale=1">',
            f'<meta http-equiv="Content-Security-Policy" content="{escape(policy, quote=False)}">',
            element("title", escape(f"{app}: {escaped(run.output.answer[:100])}")),
            f"<style>{style}</style>\n</head>\n<body>",
            element("a", "To the answer", class_="skip", href="#answer"),
            element(
                "header", element("div", element("h1", escape(app)) + badge + element("nav", links, aria_label="Parts of the page"))
            ),
            element("main", "\n".join(body)),
            element("noscript", paragraph("Tables, lanes and the journal are shown by a script, which this browser doesn't run.")),
            f'<script type="application/json" id="data">{json_text(page_data(run))}</script>',
            f"<script>{script}</script>\n</body>\n</html>\n",
        ]
    )
