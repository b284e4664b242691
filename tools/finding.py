"""What a check finds in a job: faults and warnings, each with its place, and how they are told."""

import json
from bisect import bisect_right
from typing import NamedTuple

SHOWN_BYTES = 48
KINDS = {
    "object": "an object", "array": "an array", "text": "a text", "number": "a number", "truth": "true or false", "null": "null",
}


class Finding(NamedTuple):
    """A fault or a warning. `fault` is what the program prints behind `bad job line L: `, None for a warning. `node`, `member` (a path such
    as `value.amount`), `column` and `value` (as the job spells it) are None where there is no such thing."""

    line: int
    column: int | None
    node: str | None
    member: str | None
    value: str | None
    why: str
    todo: str
    fault: str | None

    @property
    def verdict(self):
        """The program's line."""
        return f"bad job line {self.line}: {self.fault}"

    def what(self):
        """Place, value and reason, in one line."""
        place = [f"line {self.line}"] + [f"column {self.column}"] * (self.column is not None)
        place += [f"node {self.node}"] * (self.node is not None) + [f"member {self.member}"] * (self.member is not None)
        value = "" if self.value is None else f"{self.value}: "
        return f"{', '.join(place)}: {value}{self.why}"

    def told(self):
        """Two lines for people."""
        head, fault = ("warning: ", "") if self.fault is None else ("", f"  [{self.fault}]")
        return f"{head}{self.what()}{fault}\n  {self.todo}"

    def as_json(self):
        return {name: value for name, value in self._asdict().items() if value is not None}


class Line:
    """A line of a job as a text, in which bytes that are no UTF-8 are what `surrogateescape` makes of them. The text may have more lines
    than one, where a value was laid out over several."""

    def __init__(self, number, data):
        self.number, self.text = number, data.decode("utf-8", "surrogateescape")
        self._starts = [0]
        if "\n" in self.text:
            self._starts += [at + 1 for at, character in enumerate(self.text) if character == "\n"]

    def place(self, at):
        """Line and column, both from 1, of a place in the text."""
        row = bisect_right(self._starts, at) - 1
        return self.number + row, at - self._starts[row] + 1

    def spelled(self, value):
        """How the text spells a value, cut short."""
        return shortened(self.text[value.at : value.end])


class Findings:
    """The findings of one line, in the order in which the program would meet the faults."""

    def __init__(self, line):
        self.line, self.found, self.node = line, [], None

    def add(self, fault, at, member, why, todo, value=None):
        """A fault at a place of the line; `value` is a JSON value whose spelling is shown, or a text."""
        spelled = value if isinstance(value, str) or value is None else self.line.spelled(value)
        number, column = self.line.place(at)
        self.found.append(Finding(number, column, self.node, member, spelled, why, todo, fault))

    def warn(self, at, member, why, todo, value=None):
        self.add(None, at, member, why, todo, value)


def shortened(text, most=SHOWN_BYTES):
    text = " ".join(text.split()).encode("utf-8", "replace").decode()
    return text if len(text) <= most else text[: most - 3] + "..."


def as_text(name):
    """A name as serde_json prints it."""
    return json.dumps(name, ensure_ascii=False)


def bad_shape(member):
    return f"21 BadShape {as_text(member)}"


def bad_number(member):
    return f"22 BadNumber {as_text(member)}"


def too_many(what, most):
    return f"14 TooMany {what} {most}"


def kind_of(value):
    """What a JSON value is, in words."""
    return KINDS[value.kind]


def close_to(word, known):
    """The known word that was likely meant, or None."""
    from difflib import get_close_matches

    if not isinstance(word, str):
        return None
    lower = {each.lower(): each for each in known}
    found = get_close_matches(word.lower(), lower, 1, 0.7)
    return lower[found[0]] if found else None


def listed(words):
    """`a, b and c`."""
    words = list(words)
    return words[0] if len(words) == 1 else f"{', '.join(words[:-1])} and {words[-1]}"


def plural(count, word, several=None):
    """`1 fault`, `2 faults`."""
    return f"{count:,} {word if count == 1 else several or word + 's'}"
