"""What a status of the program means and what to do, in one line."""

import os
import signal
import stat

from command_words import first_fault

GRAMMAR = "./streams run --help has the words and their ranges"
MEANS = {
    3: "some records came after their window had closed and aren't counted in it (`late N`: N pairs of record and window); all else is whole. "
    "A grace as long as the data's span, or one partition, counts them (docs/formats.md)",
    5: "two rows of one key have one hash, so no table is printed; change a field of one of the two rows that the line names",
    6: "standard input could not be read (it is closed, or a folder); name a file, ./streams run JOB",
    7: "standard output could not be written (its reader closed it, or the disk is full): what stands there is a part",
    8: "there was not enough memory, and nothing is printed; take fewer records, or raise the limit (docs/formats.md, \"All limits\")",
    9: "no table has this name, or --start is missing for a windowed count or given for another node; ./streams describe JOB names the nodes",
    10: "this is not the output of a right run of this job, or it is too long to be judged (47): the line says where and why",
}
QUIET_SIGNALS = (signal.SIGINT, signal.SIGTERM, signal.SIGHUP, signal.SIGPIPE, signal.SIGQUIT)


def job_of_input(place):
    """The name of the file that standard input is, where it was read from its start (`place` 0); None where it can't be read again."""
    try:
        if place != 0 or not stat.S_ISREG(os.fstat(0).st_mode):
            return None
        name = os.readlink("/proc/self/fd/0")
        return name if os.path.samestat(os.stat(name), os.fstat(0)) else None
    except OSError:
        return None


def faulty_job(place):
    """The first fault of the job, with what to do, where the job can be read again."""
    name = job_of_input(place)
    if name is None:
        return "the job has a faulty line, which standard output names; put the job in a file, and ./streams check JOB tells every fault"
    from job_check import JobCheck

    with open(name, "rb") as file:
        faults = JobCheck(is_first_enough=True).read(file.read()).faults
    shown = os.path.relpath(name)
    shown = shown if len(shown) < len(name) else name
    if not faults:
        return f"the job has a faulty line; ./streams check {shown} finds none: is it older than the program?"
    return f"{faults[0].what()}; {faults[0].todo} (./streams check {shown} tells all faults)"


def wrong_words(words):
    fault = first_fault(words)
    if fault is None:
        return "these words are right, but the program doesn't know them: it is older than this script"
    if words and os.path.isfile(words[0]):
        return f"{words[0]} is a file: ./streams run {words[0]}"
    return f"{fault} ({GRAMMAR})"


def ended_by(number):
    """By a signal: what sent it, where that can be told."""
    if number in QUIET_SIGNALS:
        return None
    name = signal.Signals(number).name
    if number == signal.SIGILL:
        return f"ended by {name}: a check of the program that was compiled without proofs failed; please report the job"
    if number == signal.SIGKILL:
        return f"ended by {name}: was it killed for want of memory? take fewer records"
    return f"ended by {name}"


def explained(status, words, place):
    """One line for a status (below 0: a signal) of the program with these words, whose input was read from `place` on; None where nothing
    is to be said."""
    if status < 0:
        return ended_by(-status)
    if status == 1:
        return wrong_words(words)
    if status == 2:
        return faulty_job(place)
    return MEANS.get(status, f"the program ended with {status}, which docs/formats.md doesn't know")
