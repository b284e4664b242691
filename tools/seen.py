"""What the records of a job were seen to have, by topic and field, for the warnings."""

import re

DECIMAL = re.compile(r"[-+]?[0-9]*[.,][0-9]+\Z")
# Whole numbers from 2000 to 2100, where they are seconds since 1970.
SECONDS = range(946_684_800, 4_102_444_800)


class FieldSeen:
    """How often a field was a number and a text, and the first line with each; `decimals` counts the texts that spell a decimal."""

    def __init__(self, numbers=0, texts=0):
        self.numbers, self.texts, self.decimals = numbers, texts, 0
        self.text_line = self.decimal_line = self.text = self.decimal = None

    @property
    def kinds(self):
        return {name for name, count in (("number", self.numbers), ("text", self.texts)) if count}

    def add_text(self, text, line):
        if not self.texts:
            self.text_line, self.text = line, text
        self.texts += 1
        if len(text) < 40 and DECIMAL.match(text):
            if not self.decimals:
                self.decimal_line, self.decimal = line, text
            self.decimals += 1


class TopicSeen:
    """The records of a topic."""

    def __init__(self):
        self.records = self.rows = self.without_key = 0
        self.keyless_line = None
        self.first = self.last = None
        self.times = self.second_times = 0
        self.second_line = self.second = None
        self.fields = {}
        self.keys_with = {}
        self.keys = 0

    def add(self, line, key, row, time):
        """A record; `row` has numbers and texts, and what is no number and no text as None."""
        self.records += 1
        if key is None:
            self.add_keyless(line)
        else:
            self.add_key(key)
        if time:
            self.add_time(line, time)
        if row is None:
            return
        self.rows += 1
        self.first = time if self.first is None or time < self.first else self.first
        self.last = time if self.last is None or time > self.last else self.last
        for name, value in row.items():
            field = self.fields.get(name)
            if field is None:
                field = self.fields[name] = FieldSeen()
            if type(value) is str:
                field.add_text(value, line)
            else:
                field.numbers += 1

    def add_keyless(self, line):
        if not self.without_key:
            self.keyless_line = line
        self.without_key += 1

    def add_key(self, key):
        self.keys += 1
        for text, count in self.keys_with.items():
            if key.find(text) > 0:
                self.keys_with[text] = count + 1

    def add_time(self, line, time):
        self.times += 1
        if time in SECONDS:
            if not self.second_times:
                self.second_line, self.second = line, time
            self.second_times += 1
