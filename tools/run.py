"""Runs the program for ./streams, as its child: hands signals on, tells on standard error what a status means and that a long run still runs,
and ends as the program ended. Nothing of standard input and output passes through here.

Use: tools/run.py PROGRAM WORD.., of the script `streams` alone. Where standard error is closed or is /dev/null nothing can be told, and the
program takes this process's place."""

import os
import select
import signal
import sys
import time

sys.pycache_prefix = os.path.join(os.path.dirname(os.path.dirname(os.path.realpath(__file__))), "out", "python")

from command_words import first_fault, has_option, job_file

SECONDS_BETWEEN = 10
HANDED_ON = ("SIGINT", "SIGTERM", "SIGHUP", "SIGQUIT", "SIGUSR1", "SIGUSR2", "SIGALRM")
KILL_WITH_PARENT = 1


def tell(text):
    try:
        os.write(2, f"streams: {text}\n".encode("utf-8", "surrogateescape"))
    except OSError:
        pass


def is_terminal(number):
    try:
        return os.isatty(number)
    except OSError:
        return False


def is_heard():
    """Whether somebody may read standard error."""
    try:
        return not os.path.samestat(os.fstat(2), os.stat(os.devnull))
    except OSError:
        return False


def open_job(words):
    """Makes the file that the words name the standard input. The words without it, and why it can't be read, if so."""
    rest, name = job_file(words)
    if name is None or first_fault(rest):
        return words, None
    if name == "-":
        return rest, None
    try:
        file = os.open(name, os.O_RDONLY | os.O_CLOEXEC)
    except OSError as fault:
        return words, f"{name} can't be read: {fault.strerror}; `{words[0]}` takes the name of a job's file, or reads standard input"
    os.dup2(file, 0)
    if file != 0:
        os.close(file)
    return rest, None


# The child.


def start(program, words):
    """The number of the program's process, to which signals are handed on from now on."""
    handed = [getattr(signal, name) for name in HANDED_ON]
    handed = [each for each in handed if signal.getsignal(each) is not signal.SIG_IGN]
    signal.pthread_sigmask(signal.SIG_BLOCK, handed)
    child = os.fork()
    if child == 0:
        become(program, words, handed)
    for each in handed:
        signal.signal(each, lambda number, _: hand_on(child, number))
    signal.pthread_sigmask(signal.SIG_UNBLOCK, handed)
    return child


def become(program, words, handed):
    """In the child: is the program from now on, and ends where this process's parent is killed."""
    try:
        import ctypes

        ctypes.CDLL(None).prctl(KILL_WITH_PARENT, signal.SIGKILL, 0, 0, 0)
    except (ImportError, OSError, AttributeError):
        pass
    replace(program, words, handed)


def replace(program, words, handed=()):
    """This process becomes the program, with signals as they were at its start."""
    for each in (*handed, signal.SIGPIPE, signal.SIGXFSZ):
        signal.signal(each, signal.SIG_DFL)
    signal.pthread_sigmask(signal.SIG_UNBLOCK, handed)
    try:
        os.execv(program, [program, *words])
    except OSError as fault:
        tell(f"{program} can't be run: {fault.strerror}")
        os._exit(70)


def hand_on(child, number):
    try:
        os.kill(child, number)
    except ProcessLookupError:
        pass


def wait(child):
    """Waits for the child, and tells each ten seconds that it runs where standard error is a terminal. How it ended, as waitpid has it."""
    if is_terminal(2):
        watch(child)
    return os.waitpid(child, 0)[1]


def watch(child):
    try:
        ends = os.pidfd_open(child)
    except OSError:
        return
    poll, begun = select.poll(), time.monotonic()
    poll.register(ends, select.POLLIN)
    told = 1
    while True:
        left = begun + told * SECONDS_BETWEEN - time.monotonic()
        if poll.poll(max(0, left) * 1000):
            break
        if time.monotonic() >= begun + told * SECONDS_BETWEEN:
            tell(f"still running, {told * SECONDS_BETWEEN} s{memory_of(child)}")
            told += 1
    os.close(ends)


def memory_of(child):
    """`, 310 MB`, as the kernel has it; nothing where it doesn't tell."""
    try:
        with open(f"/proc/{child}/status") as file:
            lines = [line.split() for line in file if line.startswith("VmRSS:")]
        return f", {int(lines[0][1]) * 1024 // 1_000_000:,} MB"
    except (OSError, IndexError, ValueError):
        return ""


def end_as(ended):
    """Ends this process as the child ended: with its status, or by its signal."""
    if not os.WIFSIGNALED(ended):
        os._exit(os.waitstatus_to_exitcode(ended))
    number = os.WTERMSIG(ended)
    import resource

    resource.setrlimit(resource.RLIMIT_CORE, (0, resource.getrlimit(resource.RLIMIT_CORE)[1]))
    try:
        signal.signal(number, signal.SIG_DFL)
    except (OSError, ValueError):
        pass
    signal.pthread_sigmask(signal.SIG_UNBLOCK, [number])
    os.kill(os.getpid(), number)
    os._exit(128 + number)


def tell_before(words):
    if first_fault(words):
        return
    if words[0] in ("run", "ask", "audit") and is_terminal(0):
        tell("reading a job from the terminal, end it with Ctrl-D")
    if has_option(words, "--chaos") and not has_option(words, "--stop-after"):
        tell("--chaos without --stop-after may run very long from tens of thousands of records on; --stop-after 2000 bounds it")


def place_in_input():
    """How far standard input has been read, None where that is no file."""
    try:
        return os.lseek(0, 0, os.SEEK_CUR)
    except OSError:
        return None


def tell_after(status, words, place, unread):
    """One line on a status; `unread` is why a file that the words name could not be read, which the program calls bad words."""
    from statuses import explained

    text = unread if unread and status == 1 else explained(status, words, place)
    if text:
        tell(text)


def main(program, words):
    words, unread = open_job(words)
    if not is_heard():
        replace(program, words)
    if unread is None:
        tell_before(words)
    place = place_in_input()
    ended = wait(start(program, words))
    if ended:
        tell_after(os.waitstatus_to_exitcode(ended), words, place, unread)
    end_as(ended)


if __name__ == "__main__":
    main(sys.argv[1], sys.argv[2:])
