"""What tests/plant, tests/wrong-bodies/run and tests/wrong-programs/run keep as data, and the page that is made of it, docs/planted.md. It
has no command of its own: `tests/plant --page` makes the page.

planted.jsonl has a line for each crate that was planted whole, and for each part of one that was planted since: crate, only (the part, "":
the whole), refused, not_judged, not_tried (null: not counted), let_through, commit (with +: of a tree with changes; `told`: the one that
told of it, where that is all that is known), kit, note. A body that was let through has its function, the body in code or in words, count
(of how many bodies like it there were) and note: what shows it, or why it is right. Notes are by hand, and stay where the body does."""
import collections
import json
import re
import sys
import textwrap

sys.dont_write_bytecode = True
import tree

PLANTED = tree.ROOT / "tests/planted.jsonl"
TRIED = tree.ROOT / "tests/wrong-bodies/results.jsonl"
SEEN = tree.ROOT / "tests/wrong-programs/results.jsonl"
PAGE = tree.ROOT / "docs/planted.md"
WIDTH = 132
LET_THROUGH = re.compile(r"proves +(src/\S+):\d+ (.+?): \{ (.*?) ?\}(?:  \(and in (\d+) more impls\))?$")
COUNTS = re.compile(r"plants crate=\w+ .*untested=(\d+) .* refused=(\d+) .* not-judged=(\d+) .* not-run=(\d+)$")

HEAD = """**This page is made, by `tests/plant`, `tests/wrong-bodies/run` and `tests/wrong-programs/run`, of what they keep in
`tests/planted.jsonl`, `tests/wrong-bodies/results.jsonl` and `tests/wrong-programs/results.jsonl`. Change those (notes in them are by
hand), and then run `tests/plant --page`.**"""
PLANTED_HEAD = """`rt plant` puts wrong bodies under the contracts of a crate's public functions: bodies that give up, and the real call with
an argument, its result or its state changed. `tests/plant CRATE` does so over libraries that stand. Refused: the prover doesn't prove it. Not
judged: the search met its limit. Not tried: constructors and functions whose values may not be let go, which can't be judged at all, and
places where time was up. A body that means the same as the one that stands isn't counted. The commit is that of the tree that was planted;
with `told`, of an older row, the one that told of it."""
HAND_HEAD = """Each changes a line or two of one crate, and is named in words. The check tries those of `crates/*/must-fail/`, and
`tests/wrong-bodies/run CRATE` those of `tests/wrong-bodies/` (with `--all` the check's too). The goals are those that the prover didn't
prove when the script tried it last; "limit" tells that at each of them a search met its limit, which says less than that it found no proof."""
SEEN_HEAD = """No clause speaks of ending, of waking and resting, of the status with which the process ends, or of when records are fed: no
contract refuses what is wrong in that alone. `tests/wrong-programs/run` compiles the program that each of these bodies makes, without
proofs, and runs tests of `tests/run` over it, which pass over the right program: one at least has to fail."""

# How many letters of two goals stand side by side in a row of the page.
MOST_GOALS = 36


def read_rows(path):
    """The lines of a file of data; none where there is no such file."""
    return [json.loads(line) for line in path.read_text(encoding="utf-8").splitlines()] if path.exists() else []


def write_rows(path, rows):
    path.write_text("".join(json.dumps(row, ensure_ascii=False) + "\n" for row in rows), encoding="utf-8")


def keep_planted(crate, only, printed):
    """Keeps what `rt plant` printed of a crate, or of the part of it that `only` names; notes stay with their bodies."""
    counts = next((found for line in printed.split("\n") if (found := COUNTS.match(line))), None)
    if not counts:
        return
    rows = read_rows(PLANTED)
    old = [body for row in rows if row["crate"] == crate for body in row["let_through"]]
    notes = {(body["function"], body["body"]): body["note"] for body in old}
    let_through = []
    for file, function, body, more in (found.groups() for line in printed.split("\n") if (found := LET_THROUGH.match(line))):
        name = f"{file} {function}"
        let_through.append({"function": name, "body": body, "count": 1 + int(more or 0), "note": notes.get((name, body), "")})
    untested, refused, not_judged, not_run = map(int, counts.groups())
    row = {"crate": crate, "only": only, "refused": refused, "not_judged": not_judged, "not_tried": untested + not_run}
    row |= {"let_through": let_through, "commit": tree.commit_now(), "kit": tree.kit_name(), "note": ""}
    others = [it for it in rows if it["crate"] != crate or only and it["only"] != only]
    write_rows(PLANTED, sorted([*others, row], key=lambda it: (it["crate"], it["only"])))
    write_page()


def wrapped(text, indent=""):
    """A paragraph in lines that aren't too long; spaces within code may become breaks."""
    return textwrap.fill(text, WIDTH, subsequent_indent=indent, break_long_words=False, break_on_hyphens=False)


def paragraph(text):
    return wrapped(" ".join(text.split()))


def shown(number):
    return "" if number is None else str(number)


def let_through_of(row):
    return sum(body["count"] for body in row["let_through"])


def planted_part():
    """What was planted: a table of the crates, what the notes on them say, and each body that got through."""
    rows = read_rows(PLANTED)
    lines = ["| Crate | Refused | Let through | Not judged | Not tried | Commit |", "|---|---|---|---|---|---|"]
    for row in rows:
        part = f", of it {row['only']}" * bool(row["only"])
        cells = [row["refused"], let_through_of(row), row["not_judged"], row["not_tried"]]
        lines.append(f"| `{row['crate']}`{part} | {' | '.join(map(shown, cells))} | {row['commit']} |")
    refused, let_through = (sum(row["refused"] or 0 for row in rows), sum(map(let_through_of, rows)))
    sums = f"{len({row['crate'] for row in rows})} crates: {refused} bodies refused, {let_through} let through (below)."
    head = ["## Planted by the kit", "", paragraph(PLANTED_HEAD), "", sums, ""]
    return [*head, *lines, "", *notes_part(rows), "", "### Let through, and what shows it", "", *bodies_part(rows)]


def notes_part(rows):
    """A line for each note on what was planted, with the crates that it is on."""
    crates = collections.defaultdict(list)
    for row in rows:
        if row["note"]:
            crates[row["note"]].append(f"`{row['crate']}`")
    return [wrapped(f"- {', '.join(names)}: {note}", "  ") for note, names in crates.items()]


def bodies_part(rows):
    """A line for each body that got through."""
    for row in rows:
        for body in row["let_through"]:
            times = f" ({body['count']} bodies)" if body["count"] > 1 else ""
            code = body["body"] if not body["function"].startswith("src/") else f"`{{ {body['body']} }}`"
            function = f", `{body['function']}`" if body["function"] else ""
            yield wrapped(f"- `{row['crate']}`{function}: {code}{times}. {body['note'] or '**Nothing says yet what shows it.**'}", "  ")


def is_by_limit(row):
    """Whether a wrong body was refused only since a search met its limit at each goal, which says less than that it found no proof."""
    return row["outcome"] == "refused" and all("limit" in goal for goal in row["told"])


def failure_shown(row):
    return "**FAILED**: " + row["told"][0].replace("|", "/")[:44]


def first_shown(told):
    """One of these in code, or two where they are short, and how many more there are; without what stands behind them in brackets."""
    told = [f"`{one.partition(' (')[0]}`" for one in told]
    shown = told[:2] if sum(map(len, told[:2])) <= MOST_GOALS else told[:1]
    more = f" and {len(told) - len(shown)} more" if len(told) > len(shown) else ""
    return ", ".join(shown) + more


def goals_shown(row):
    """What refused a wrong body, or why it failed, in a cell."""
    if row["outcome"] != "refused":
        return failure_shown(row)
    return first_shown(row["told"]) + " (limit)" * is_by_limit(row)


def hand_part():
    """The wrong bodies that were written by hand: a line for each, with what refused it when it was tried last."""
    tried = {(row["crate"], row["edit"]): row for row in read_rows(TRIED)}
    lines, counts = ["| Crate | Wrong body | In the check | Refused by | Commit |", "|---|---|---|---|---|"], collections.Counter()
    for crate in sorted(tree.read_crates()):
        for folder in (tree.ROOT / "crates" / crate / "must-fail", tree.ROOT / "tests/wrong-bodies" / crate):
            for path in sorted(folder.glob("*.edit")):
                row, place = tried.get((crate, path.stem)), "yes" if folder.name == "must-fail" else ""
                counts[row["outcome"] if row else "not tried", place] += 1
                last = [goals_shown(row), row["commit"]] if row else ["not tried since it is kept", ""]
                lines.append(f"| `{crate}` | {path.stem.replace('_', ' ')} | {place} | {' | '.join(last)} |")
    sums = [f"{counts[outcome, ''] + counts[outcome, 'yes']} {outcome}" for outcome in ("refused", "failed", "not tried")]
    checked = sum(count for (_, place), count in counts.items() if place)
    limits = sum(map(is_by_limit, tried.values()))
    whole = f"{sum(counts.values())} wrong bodies, {checked} of them in the check: {', '.join(sums)}; {limits} refused only at limits."
    return ["", "## Written by hand", "", paragraph(HAND_HEAD), "", whole, "", *lines]


def tests_shown(row):
    """The tests that saw a wrong body, or why it failed, in a cell."""
    if row["outcome"] != "seen":
        return failure_shown(row)
    return first_shown(row["told"]) + " (past its time)" * all("(past" in test for test in row["told"])


def seen_part():
    """The wrong bodies that no contract refuses: a line for each, with the tests that saw it when it was tried last."""
    tried = {row["edit"]: row for row in read_rows(SEEN)}
    lines, counts = ["| Crate | Wrong body | Seen by | Commit |", "|---|---|---|---|"], collections.Counter()
    for path in sorted((tree.ROOT / "tests/wrong-programs").glob("*.edit")):
        crate = re.search(r"^file: crates/(\w+)/", path.read_text(encoding="utf-8"), re.MULTILINE)[1]
        row = tried.get(path.stem)
        counts[row["outcome"] if row else "not tried"] += 1
        last = [tests_shown(row), row["commit"]] if row else ["not tried since it is kept", ""]
        lines.append(f"| `{crate}` | {path.stem.replace('_', ' ')} | {' | '.join(last)} |")
    sums = [f"{counts[outcome]} {outcome}" for outcome in ("seen", "failed", "not tried")]
    whole = f"{sum(counts.values())} wrong bodies: {', '.join(sums)}."
    return ["", "## Seen by tests alone", "", paragraph(SEEN_HEAD), "", whole, "", *lines]


def write_page():
    """Makes docs/planted.md."""
    lines = ["# Wrong bodies", "", paragraph(HEAD), "", *planted_part(), *hand_part(), *seen_part()]
    PAGE.write_text("\n".join(lines) + "\n", encoding="utf-8")
