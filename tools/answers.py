"""What an answer of the program means and what to do: by its status and, where it has one, its fault.

    told = explained('bad job line 4: 22 BadNumber "pieces"')
    told.status, told.line, told.title, told.meaning, told.advice
"""

import re
from typing import NamedTuple

from run_output import status_of


class Told(NamedTuple):
    """`line` is the line that the answer names, in the job or in what was audited; None where it names none."""

    status: int | None
    title: str
    meaning: str
    advice: str
    line: int | None = None


# By status: a title, what it means, what to do.
STATUSES = {
    0: (
        "Settled",
        "The job ran to its end. `settled` says that each table is the topology's query over all records, none lost and none counted twice; "
        "`./streams --version` tells whether the program that says so is proved.",
        "",
    ),
    1: (
        "Bad words",
        "The words of the command are none that the program knows.",
        "See `./streams run --help` for the words and their ranges.",
    ),
    2: ("A line of the job is faulty", "The program names the first faulty line and its fault. No table is printed.", ""),
    3: (
        "Records came late",
        "The job ran to its end. So many pairs of a record and a window were late: the window had closed, by its size and grace, before "
        "the task took the record. The windowed counts lack these pairs, and nothing else does; every other table is complete.",
        "Give the window a longer `grace`; as long as the times of the records reach, nothing is ever late. With one partition, or with a "
        "topic whose key is the group, records in order of time aren't late either; behind a repartition their order in the job doesn't help.",
    ),
    5: (
        "Two rows of one hash",
        "Two rows that one key had in the left table of a join on a foreign key have the same hash of 128 bits, so an answer for one could "
        "be taken for the other's. No table is printed.",
        "Change a field of one of the two rows, for instance by a further field, and run again.",
    ),
    6: (
        "The input could not be read",
        "Standard input was closed, is a folder, or failed while it was read.",
        "Redirect a file or a pipe into the program: `./streams run < JOB`.",
    ),
    7: (
        "The output could not be written",
        "Standard output was closed or full; what stands there is a part.",
        "Write into a file on a disk that has room.",
    ),
    8: (
        "No memory",
        "The program was refused memory, and prints nothing.",
        "Give it more memory or less input; 250,000 records take 0.2 to 0.7 GB.",
    ),
    9: ("The question has no store", "The job was read to its end, and the question can't be asked of it, so no table is printed.", ""),
    10: ("The output is refused", "The audit found where the output isn't that of a run of this topology.", ""),
    70: ("No program", "The script found no program and could make none.", "Put `rt` on the path, or run `./prove`."),
}

EARLY = (
    "A status above 128, or a negative one, is a signal: it was stopped, or the memory of the machine was at an end. Run it again."
)

# By the number of a fault in a job: what it means, what to do.
JOB_FAULTS = {
    10: (
        "A name is no topic of `topics`, no earlier node, or no node to print.",
        "Mend the name, or put the node after those that it reads.",
    ),
    11: (
        "A node's input has the wrong kind, an aggregate of a table lacks `by`, or a stream is to be printed.",
        "See the table of nodes in docs/formats.md.",
    ),
    12: (
        "A name stands twice: a node, a source's topic, a printed name, or an input topic named as an internal one.",
        "Give each its own name; let two nodes read one `table`.",
    ),
    13: (
        "The sides of a `join` have different numbers of partitions, or are partitioned differently.",
        "Give both topics the same.",
    ),
    14: ("There are more of them than the limit allows.", 'See docs/formats.md, "All limits"; split the job or the node.'),
    15: (
        "The window hasn't 1 <= advance <= size <= 1,000 * advance, or a number is out of range.",
        "Mend `size`, `advance` or `grace`, in milliseconds.",
    ),
    16: (
        "A node reads a windowed count, which may only be printed.",
        "Print the windowed count, and group by a `count` or `sum` instead.",
    ),
    20: (
        "The line is no JSON of its own.",
        "One JSON value on each line, in UTF-8 without a byte order mark; `jq -c` puts a value on one line.",
    ),
    21: (
        "The named member is missing, unknown, or of the wrong form.",
        "See the tables of members in docs/formats.md; `./streams check` names what is wrong.",
    ),
    22: ("The named member's number isn't whole, or is out of range.", "Count in whole numbers: cents, grams, milliseconds."),
    23: ("The record's topic isn't in the topology's `topics`.", "Mend the name, or add the topic."),
    24: ("The line has more than 65,536 bytes.", "Shorten the row."),
    25: ("The input has no line but blank ones.", "The first line is the topology."),
}

ASK_FAULTS = {
    30: ("No table and no windowed count has this name.", "Ask for a node that has a store: `./streams describe JOB` lists them."),
    31: (
        "A start of a window goes with a windowed count, and with nothing else.",
        "Add `--start` for a windowed count; leave it out for a table.",
    ),
}

AUDIT_FAULTS = {
    40: ("The line isn't of the form that stands at its place.", "Look whether the output was cut off or changed."),
    41: (
        "The line is no step that a cluster makes at this place.",
        "The journal isn't that of a run: a reply, a place or an argument was changed, or a line is missing.",
    ),
    42: (
        "A commit isn't what the named task makes of the records that it took.",
        "A record in the journal was changed, or the output is of another topology.",
    ),
    43: ("At the end something is still to be taken or decided.", "The journal is a part: its last lines are missing."),
    44: ("Two rows of a key have one hash.", "See status 5."),
    45: ("Records came late, so the windowed counts aren't complete.", "Only a settled run can be audited."),
    46: ("The named table isn't what its changelog amounts to.", "A row was changed, or is missing."),
    47: ("A line or the whole is longer than an audit reads.", "At most 64 MiB a line and 512 MiB in all."),
}


def explained(answer, status=None):
    """What the first line of an output means; with the status where the line tells none."""
    told = status_of(answer)
    status = status if told is None else told
    title, meaning, advice = STATUSES.get(status) or (
        "The program ended early",
        f"It ended with status {status}, before it had an answer.",
        EARLY,
    )
    if answer == "yes":
        title, meaning = (
            "The output stands",
            "The audit found a legal, faithful and settled journal, whose tables are the printed ones.",
        )
    number, line = None, None
    if status == 2:
        line, number = (int(each) for each in re.match(r"bad job line (\d+): (\d+)", answer).groups())
        return with_fault(Told(status, title, meaning, advice, line), JOB_FAULTS.get(number))
    if status == 9:
        return with_fault(Told(status, title, meaning, advice), ASK_FAULTS.get(int(answer.split()[2])))
    if status == 10:
        line, number = (int(each) for each in answer.split()[1:3])
        return with_fault(Told(status, title, meaning, advice, line), AUDIT_FAULTS.get(number))
    return Told(status, title, meaning, advice, line)


def with_fault(told, fault):
    """The explanation with that of its fault."""
    if fault is None:
        return told
    return told._replace(meaning=f"{told.meaning} {fault[0]}", advice=fault[1])
