"""`./streams check`: tells all faults of a job, and what is no fault and likely not meant."""

import json

from command import Words, read_file
from finding import plural
from job_check import check_job

SHOWN_OF_A_KIND = 10
ABOUT = """Checks a job without running it: tells every fault with line, column, node and member, the value, why, and what to do, and warns of
what is silent when it runs (a field that no record has, a text in a sum, records without a key, times in seconds ..)."""
AFTER = """JOB is a file, or - for standard input. In brackets stands the fault as the program prints it; of these it would tell the first.
Ends with 0 (warnings too), 2 where there is a fault, 3 where there are warnings alone and --strict, 64 where the words are wrong."""


def parser():
    words = Words("check", ABOUT, AFTER)
    words.add_argument("job", metavar="JOB")
    words.add_argument("--json", action="store_true", help="one JSON object: verdict, faults, warnings, lines, records")
    words.add_argument("--strict", action="store_true", help="end with 3 where there are warnings")
    words.add_argument("--all", action="store_true", help=f"tell each finding, where else {SHOWN_OF_A_KIND} of a kind are told")
    return words


def told(findings, most):
    """The findings as text: of each kind (one fault, one reason) at most so many, then how many more there are."""
    counts = {}
    for each in findings:
        kind = (each.fault, each.why)
        counts[kind] = counts.get(kind, 0) + 1
        if most is None or counts[kind] <= most:
            yield each.told()
    for (fault, why), count in counts.items():
        if most is not None and count > most:
            yield f"and {count - most:,} more of the kind: {why}{f'  [{fault}]' if fault else ''}\n  --all tells each"


def summary(path, checked):
    """The last line: how much was found, and what the program would print."""
    found = f"{plural(len(checked.faults), 'fault')}, {plural(len(checked.warnings), 'warning')}"
    read = f"{plural(checked.lines, 'line')}, {plural(checked.records, 'record')}"
    verdict = f"; the program prints: {checked.faults[0].verdict}" if checked.faults else ""
    return f"{'standard input' if path == '-' else path}: {found} ({read}){verdict}"


def as_json(checked):
    return {
        "verdict": checked.faults[0].verdict if checked.faults else None,
        "faults": [each.as_json() for each in checked.faults],
        "warnings": [each.as_json() for each in checked.warnings],
        "lines": checked.lines,
        "records": checked.records,
    }


def status_of(checked, is_strict):
    if checked.faults:
        return 2
    return 3 if checked.warnings and is_strict else 0


def main(words):
    chosen = parser().parse_args(words)
    checked = check_job(read_file(chosen.job))
    if chosen.json:
        print(json.dumps(as_json(checked), ensure_ascii=False, indent=1))
    else:
        most = None if chosen.all else SHOWN_OF_A_KIND
        for text in told([*checked.faults, *checked.warnings], most):
            print(text)
        print(summary(chosen.job, checked))
    return status_of(checked, chosen.strict)
