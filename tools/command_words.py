"""The program's words: their grammar, and what is wrong with words that aren't in it. (Imports stand where something is wrong, so that a
run begins at once.)"""

# Each option: least and greatest value. `--journal` has no value.
RANGES = {
    "--instances": (1, 4),
    "--threads": (1, 4),
    "--standbys": (0, 3),
    "--commit-every": (1, 10_000),
    "--chaos": (0, 2**63 - 1),
    "--stop-after": (1, 1_000_000),
    "--cache": (0, 100_000),
    "--start": (0, 2**53),
}
COMMON = [name for name in RANGES if name != "--start"]
OPTIONS = {"run": [*COMMON, "--journal"], "load": COMMON, "ask": [*COMMON, "--start"], "audit": []}
# How many words each has beside its options.
PLAIN = {"run": 0, "load": 1, "ask": 2, "audit": 0}
TOOLS = ("check", "describe", "from-csv", "tables", "page", "journal")
MOST_ORDERS = 150_000
LARGEST = 2**64 - 1


def number_of(text):
    """What Rust's u64 reads from a text; None where it reads nothing."""
    digits = text[1:] if text.startswith("+") else text
    if not (digits.isascii() and digits.isdigit()) or int(digits) > LARGEST:
        return None
    return int(digits)


def split_words(words):
    """The words behind the first: pairs of option and value (None where it is absent) and the plain ones with their places."""
    options, plain, at = [], [], 1
    while at < len(words):
        word = words[at]
        if not word.startswith("-") or word == "-":
            plain.append((at, word))
        elif "=" in word:
            options.append(tuple(word.split("=", 1)))
        elif word in RANGES:
            at += 1
            options.append((word, words[at] if at < len(words) else None))
        else:
            options.append((word, None))
        at += 1
    return options, plain


def first_fault(words):
    """What is wrong with the words of the program, in words; None where nothing is."""
    if not words or words[0] not in OPTIONS:
        return word_fault(words[0] if words else None)
    options, plain = split_words(words)
    return option_fault(words[0], options) or plain_fault(words[0], [word for _, word in plain])


def word_fault(word):
    from finding import close_to, listed

    known = (*OPTIONS, *TOOLS)
    near = close_to(word, known)
    hint = f"is {near} meant? " if near else ""
    return f"{'a word is wanted' if word is None else f'there is no word {word}'}: {hint}the words are {listed(known)}"


def unknown_option(word, name):
    from finding import close_to

    near = close_to(name, OPTIONS[word])
    return f"there is no option {name}{f': is {near} meant?' if near else ''}"


def option_fault(word, options):
    seen = set()
    for name, value in options:
        if name not in RANGES and name != "--journal":
            return unknown_option(word, name)
        if name not in OPTIONS[word]:
            return f"{word} has no option {name}"
        if name in seen:
            return f"{name} stands twice"
        seen.add(name)
        fault = value_fault(name, value)
        if fault:
            return fault
    return None


def value_fault(name, value):
    if name == "--journal":
        return None if value is None else "--journal has no value"
    low, high = RANGES[name]
    span = f"a number from {low:,} to {high:,}"
    if value is None:
        return f"{name} wants a value, {span}"
    number = number_of(value)
    if number is None:
        return f"{name} {value}: its value is {span}"
    return None if low <= number <= high else f"{name} {value}: its range is {low:,} to {high:,}"


def plain_fault(word, plain):
    if len(plain) > PLAIN[word]:
        extra = plain[PLAIN[word]]
        if word == "run":
            return f"{extra}: run takes one file, and reads standard input where none is given"
        return f"{extra}: {word} takes {('no word', 'one word, the number of orders', 'two words, a node and a key')[PLAIN[word]]} beside its options"
    if word == "load" and (not plain or number_of(plain[0]) is None or not 1 <= number_of(plain[0]) <= MOST_ORDERS):
        return f"load wants the number of orders, from 1 to {MOST_ORDERS:,}{f', not {plain[0]}' if plain else ''}"
    if word == "ask":
        return question_fault(*plain) if len(plain) == 2 else "ask wants the name of a table and a key"
    return None


def question_fault(node, key):
    """What is wrong with the name of a node or with a key."""
    if not (node.isascii() and node.replace("_", "a").isalnum() and len(node) <= 64):
        return f'"{node}": a node has a name of 1 to 64 letters, digits and _'
    if key.startswith("-") or not is_key(key.encode(errors="surrogateescape")):
        return "a key has 1 to 1,024 bytes of UTF-8, of which the first is no hyphen here"
    return None


def is_key(text):
    try:
        return bool(text.decode()) and len(text) <= 1024
    except UnicodeDecodeError:
        return False


def job_file(words):
    """The words without the name of a file that stands behind those of `run` and `ask`, and that name; None where there is none."""
    if not words or words[0] not in ("run", "ask"):
        return words, None
    _, plain = split_words(words)
    if len(plain) != PLAIN[words[0]] + 1:
        return words, None
    at, name = plain[-1]
    return words[:at] + words[at + 1 :], name


def has_option(words, name):
    options, _ = split_words(words)
    return any(each == name for each, _ in options)
