"""A small reader of JSON that keeps where each value stands, and judges a text as serde_json does.

    value = parse('{"a": [1, 2.5]}')
    value.get("a").items[1].at      10: the place of 2.5 in the text, from 0

serde_json takes what RFC 8259 says, and refuses more than Python's own reader: NaN and Infinity, halves of surrogate pairs, numbers
without a finite double (1e999), 128 arrays or objects in one another, a byte order mark. Bytes that are no UTF-8 come in as the
characters that the error handler `surrogateescape` makes of them, and are refused too. A whole number outside 64 bits is a double to it,
and so is -0. Of members with one name the last counts; `Value.members` has them all.
"""

import re
from math import isinf

DEEPEST = 127
SPACE = re.compile(r"[ \t\r\n]*")
PLAIN = re.compile(r'[^"\\\x00-\x1f\ud800-\udfff]*')
NUMBER = re.compile(r"-?(?:0|[1-9][0-9]*)(\.[0-9]+)?([eE][+-]?[0-9]+)?")
HEX = re.compile(r"[0-9a-fA-F]{4}")
ESCAPES = {'"': '"', "\\": "\\", "/": "/", "b": "\b", "f": "\f", "n": "\n", "r": "\r", "t": "\t"}
LITERALS = {"true": ("truth", True), "false": ("truth", False), "null": ("null", None)}
LOW, HIGH = -(2**63), 2**63 - 1


class NotJson(Exception):
    """The text is no JSON: at this place, for this reason. `is_cut` where the text ended inside of a value."""

    def __init__(self, at, why, is_cut=False):
        super().__init__(why)
        self.at, self.why, self.is_cut = at, why, is_cut


class Value:
    """A value at `at` to `end` of the text. `kind` is object, array, text, number, truth or null; `value` is a Python value for the last
    four, `items` the values of an array, `members` the triples of name, the name's place and value of an object."""

    __slots__ = ("kind", "at", "end", "value", "items", "members", "_last")

    def __init__(self, kind, at, end, value=None):
        self.kind, self.at, self.end, self.value = kind, at, end, value
        self.items = self.members = self._last = None

    def get(self, name):
        """The member of this name that counts, or None."""
        return self.last().get(name)

    def last(self):
        """The members that count, by name."""
        if self._last is None:
            self._last = {name: value for name, _, value in self.members or ()}
        return self._last

    def place_of(self, name):
        """Where the name of the member that counts stands."""
        return [at for each, at, _ in self.members if each == name][-1]

    def repeated(self):
        """The names that stand more than once, each with its last place."""
        names = [name for name, _, _ in self.members or ()]
        return {name: at for name, at, _ in self.members or () if names.count(name) > 1} if len(set(names)) < len(names) else {}

    @property
    def is_integer(self):
        """Whether it is a whole number of 64 bits with a sign, written as one."""
        return self.kind == "number" and isinstance(self.value, int)


class _Reader:
    def __init__(self, text):
        self.text, self.at, self.depth = text, 0, 0

    def fail(self, why, at=None):
        at = self.at if at is None else at
        is_cut = at >= len(self.text)
        raise NotJson(at, f"the text ends here, where {why}" if is_cut else why, is_cut)

    def skip_space(self):
        self.at = SPACE.match(self.text, self.at).end()
        return self.text[self.at : self.at + 1]

    def value(self):
        first = self.skip_space()
        if first == "{":
            return self.nested(self.object)
        if first == "[":
            return self.nested(self.array)
        if first == '"':
            start = self.at
            text = self.string()
            return Value("text", start, self.at, text)
        if first == "-" or first.isascii() and first.isdigit():
            return self.number()
        return self.literal()

    def nested(self, read):
        self.depth += 1
        if self.depth > DEEPEST:
            self.fail("more than 127 arrays and objects stand in one another")
        value = read()
        self.depth -= 1
        value.end = self.at
        return value

    def literal(self):
        for word, (kind, meant) in LITERALS.items():
            if self.text.startswith(word, self.at):
                self.at += len(word)
                return Value(kind, self.at - len(word), self.at, meant)
        rest = self.text[self.at : self.at + 8]
        if rest and any(word.startswith(rest) for word in LITERALS):
            raise NotJson(len(self.text), f"the text ends inside of the word {rest}", True)
        self.fail(f"a value is wanted{shown(rest)}")

    def number(self):
        start, found = self.at, NUMBER.match(self.text, self.at)
        if not found:
            self.fail("a minus sign wants a digit behind it", start + 1)
        self.at = found.end()
        text, follows = found.group(), self.text[self.at : self.at + 1]
        if follows in (".", "e", "E") and follows:
            self.fail("a number wants a digit behind its point or exponent", self.at + 1)
        if text.lstrip("-") == "0" and follows.isdigit():
            self.fail("a number begins with no zero", start)
        return Value("number", start, self.at, self.number_of(text, start))

    def number_of(self, text, start):
        if len(text) < 21 and text.lstrip("-").isdigit() and text != "-0" and LOW <= int(text) <= HIGH:
            return int(text)
        double = float(text)
        if isinf(double):
            raise NotJson(start, "this number is beyond every double")
        return double

    def string(self):
        """A text in quotes, which begins here."""
        start, parts = self.at, []
        self.at += 1
        while True:
            found = PLAIN.match(self.text, self.at)
            parts.append(found.group())
            self.at = found.end()
            follows = self.text[self.at : self.at + 1]
            if follows == '"':
                self.at += 1
                return "".join(parts)
            if follows == "\\":
                parts.append(self.escape())
            elif not follows:
                raise NotJson(len(self.text), f"the text that begins at column {start + 1} has no closing quote", True)
            else:
                self.fail(unfit(follows))

    def escape(self):
        word = self.text[self.at + 1 : self.at + 2]
        if word in ESCAPES and word:
            self.at += 2
            return ESCAPES[word]
        if word != "u":
            self.fail(f"\\{word} is no escape")
        code = self.hexadecimal(self.at + 2)
        if 0xDC00 <= code < 0xE000:
            self.fail("this is the second half of a surrogate pair alone")
        if not 0xD800 <= code < 0xDC00:
            self.at += 6
            return chr(code)
        if self.text[self.at + 6 : self.at + 8] != "\\u":
            self.fail("this is the first half of a surrogate pair alone")
        low = self.hexadecimal(self.at + 8)
        if not 0xDC00 <= low < 0xE000:
            self.fail("this is the first half of a surrogate pair alone")
        self.at += 12
        return chr(0x10000 + (code - 0xD800 << 10) + low - 0xDC00)

    def hexadecimal(self, at):
        found = HEX.match(self.text, at)
        if not found:
            self.fail("\\u wants four hexadecimal digits", min(at, len(self.text) - 1))
        return int(found.group(), 16)

    def array(self):
        value = Value("array", self.at, self.at)
        value.items = []
        self.at += 1
        if self.skip_space() == "]":
            self.at += 1
            return value
        while True:
            value.items.append(self.value())
            follows = self.skip_space()
            if follows == "]":
                self.at += 1
                return value
            if follows != ",":
                self.fail(f"a comma or a ] is wanted{shown(follows)}")
            comma = self.at
            self.at += 1
            if self.skip_space() == "]":
                self.fail("a comma stands before the closing ]", comma)

    def object(self):
        value = Value("object", self.at, self.at)
        value.members = []
        self.at += 1
        if self.skip_space() == "}":
            self.at += 1
            return value
        while True:
            value.members.append(self.member())
            follows = self.skip_space()
            if follows == "}":
                self.at += 1
                return value
            if follows != ",":
                self.fail(f"a comma or a }} is wanted{shown(follows)}")
            comma = self.at
            self.at += 1
            if self.skip_space() == "}":
                self.fail("a comma stands before the closing }", comma)

    def member(self):
        at, first = self.at, self.text[self.at : self.at + 1]
        if first != '"':
            quote = "; names stand in double quotes" if first else ""
            self.fail(f"a name in quotes is wanted{shown(first)}{quote}")
        name = self.string()
        if self.skip_space() != ":":
            self.fail("a colon is wanted behind the name")
        self.at += 1
        return name, at, self.value()


def shown(text):
    return f", not {text[0]}" if text and text[0].isprintable() else ""


def unfit(character):
    if "\udc80" <= character <= "\udcff":
        return f"the byte {ord(character) - 0xDC00:02x} is no UTF-8"
    return f"the control character U+{ord(character):04X} stands in a text; write \\u{ord(character):04x}"


def parse(text):
    """The one value of a text; raises NotJson."""
    reader = _Reader(text)
    value = reader.value()
    rest = reader.skip_space()
    if rest:
        reader.fail(f"more follows the value{shown(rest)}")
    return value


def parse_first(text):
    """The value with which a text begins, and the place behind it; raises NotJson."""
    reader = _Reader(text)
    return reader.value(), reader.at
