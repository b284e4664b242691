"""What the scripts of this folder share: the crates of crates.txt, the parts of a README, and lines of at most 132 columns."""
import argparse
import os
import re
import sys

ROOT = os.path.dirname(os.path.dirname(os.path.realpath(__file__)))
COLUMNS = 132
# What no line break may stand in: a link, or a span of code with what follows it without a space.
WHOLE = re.compile(r"(?:\[[^\]]*\]\([^)]*\)|`[^`]+`|[^\s`\[]+|[\[`])+")
# A word that would begin a list, a heading, a table or a quotation at the start of a line.
STARTS_A_BLOCK = re.compile(r"([-+*>|]|#+|\d+[.)])$")


def read(path):
    """The text of a file of the repository."""
    with open(os.path.join(ROOT, path), encoding="utf-8") as file:
        return file.read()


def read_lines(path):
    """The lines of a file of the repository."""
    return read(path).split("\n")


def wrap(text, first="", further=""):
    """A paragraph as lines of at most COLUMNS columns; `first` begins the first line, `further` the others."""
    lines, line = [], first
    words = WHOLE.findall(text)
    for place, word in enumerate(words):
        glued = word
        if place + 1 < len(words) and STARTS_A_BLOCK.match(words[place + 1]):
            glued += " " + words[place + 1]
        begun = line not in (first, further)
        if begun and len(line) + 1 + len(glued) > COLUMNS and not STARTS_A_BLOCK.match(word):
            lines.append(line)
            line, begun = further, False
        line += (" " if begun else "") + word
    return lines + [line]


def crate_groups():
    """The crates of crates.txt in their order, as pairs of a head (the comment just above) and the names below it."""
    groups, head = [], []
    for line in read_lines("crates.txt"):
        if line.startswith("#"):
            head.append(line.lstrip("#- ").strip())
        elif not line.strip():
            head = []
        else:
            if head or not groups:
                groups.append((" ".join(head), []))
                head = []
            groups[-1][1].append(re.split(r"[\s:]", line)[0])
    return groups


def crate_deps():
    """Each crate's line of crates.txt: the crates of the repository that it stands on."""
    deps = {}
    for line in read_lines("crates.txt"):
        line = line.split("#")[0]
        if line.strip():
            name, _, rest = line.partition(":")
            deps[name.split()[0]] = rest.split()
    return {name: [other for other in rest if other in deps] for name, rest in deps.items()}


def sections(crate):
    """A crate's README as a dictionary from the titles of its parts to their text; what stands before the first has the title ""."""
    parts, title = {"": []}, ""
    for line in read_lines(f"crates/{crate}/README.md"):
        if line.startswith("## "):
            title = line[3:].strip()
            parts[title] = []
        elif not line.startswith("# "):
            parts[title].append(line)
    return {title: "\n".join(lines).strip() for title, lines in parts.items()}


def first_paragraph(text):
    """The first paragraph of a text, on one line."""
    return " ".join(text.strip().split("\n\n")[0].split())


def sentences(text):
    """The sentences of a paragraph; a full stop within code, or before a small letter, ends none."""
    masked = re.sub(r"`[^`]*`|\([^()]*\)|\"[^\"]*\"", lambda found: "x" * len(found.group()), text)
    ends = [found.end() for found in re.finditer(r"[.?!](?=\s+[A-Z`*\[x(])", masked)]
    return [text[start:end].strip() for start, end in zip([0] + ends, ends + [len(text)])]


def run(script, page, make, doc):
    """The command of a script that makes a page: prints it, or with --check ends with 1 where the page isn't what it would print."""
    parser = argparse.ArgumentParser(description=doc, formatter_class=argparse.RawDescriptionHelpFormatter)
    parser.add_argument("--check", action="store_true", help=f"say whether {page} is up to date, in place of printing it")
    check = parser.parse_args().check
    text = f"<!-- made by `{script} > {page}` from the sources; do not edit -->\n\n" + "\n".join(make()) + "\n"
    if not check:
        sys.stdout.write(text)
    elif not os.path.exists(os.path.join(ROOT, page)) or read(page) != text:
        sys.exit(f"{page} is older than its sources: {script} > {page}")
