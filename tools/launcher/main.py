"""Which program answers ./hmreplay, its run, and what is said besides, on standard error: which build answers, and of
refused words and of faults what was wrong."""
import contextlib, os, re, signal, sys
import journal_faults, running, signals, trace_faults, unproved, words
from crates import crates, stand, toolchain_fault
from given import Given
from progress import Progress
from told import say, tell

REFUSED, NO_TRACE, NO_VERDICT, FAILED = 2, 3, 1, 70
# Signals by which a run-time check, or a fault that none found, ends the unproved build.
FAULTS = {signal.SIGILL, signal.SIGTRAP, signal.SIGSEGV, signal.SIGBUS, signal.SIGABRT, signal.SIGFPE}
STATUSES = {
    4: "standard input could not be read: a file is wanted there, as in run < FILE",
    5: "standard output could not be written",
    6: "there was no memory",
    7: "more than 67108864 bytes were read: no trace is longer, and no longer journal is judged",
    9: "the words could not be taken from the system: they are no UTF-8",
}


def tell_refusal(asked):
    """Says what is wrong with refused words, or how the program is used."""
    refusal = words.refusal(asked)
    if words.asks_help(asked) or refusal is None:
        say(words.USAGE)
    else:
        tell(f"{refusal} (./hmreplay --help lists all)")


def refuse(asked):
    """Answers refused words as the program would."""
    status = REFUSED if running.write_all(b"fault: usage\n") else running.SINK_FAILED
    tell_refusal(asked)
    return status


def unproved_program(why, progress):
    """Returns the unproved build, and makes it where none is kept."""
    fault = toolchain_fault()
    if fault:
        raise unproved.BuildFailed(fault)
    kept = unproved.kept()
    first = "" if kept else ", which is built first, in about a minute, and kept"
    tell(f"{why}{first}; ./prove makes the proved one")
    return kept or unproved.build(progress)


def tell_fault(asked, given, ended):
    """Says in words what the program wrote of a fault."""
    front = ended.front.decode("ascii", "replace")
    trace = re.match(r"fault: trace line (\d+) (\w+)\n", front)
    verdict = re.match(r"check: no line (\d+) (\w+)\n", front)
    if ended.status == REFUSED:
        return tell_refusal(asked)
    told = STATUSES.get(ended.status)
    if ended.status == NO_TRACE and trace:
        told = trace_faults.in_words(given.text(), int(trace[1]), trace[2])
    if ended.status == NO_VERDICT and verdict and asked[:1] == ["check"]:
        told = journal_faults.in_words(given.text(), int(verdict[1]), verdict[2])
    if told:
        tell(told)
    return None


def answer(program, is_proved, asked, progress):
    """Runs the program, and returns the status to end with."""
    if not running.has_streams():
        os.execv(program, [program, *asked])
    is_read = asked[:1] and asked[0] in words.READING and words.refusal(asked) is None
    if is_read and os.isatty(0) and progress.is_terminal:
        tell(f"{asked[0]} reads from this terminal, up to Ctrl-D at a line's start; of a file: {asked[0]} < FILE")
    given = Given(is_read, progress)
    ended = running.run(program, asked, given, progress)
    if ended.status >= 0:
        # What is said of a fault never changes the status.
        with contextlib.suppress(Exception):
            tell_fault(asked, given, ended)
        return ended.status
    number = signal.Signals(-ended.status)
    if not is_proved and number in FAULTS:
        tell(f"no answer: the unproved build stopped at a run-time check ({number.name}), which `rt try` would name")
        return FAILED
    signals.end_by(number)
    return FAILED


def main(asked, may_be_proved=True):
    """Answers the words. Where a proved program is not wanted, an unproved one answers also where one stands."""
    signals.watch()
    progress, program = Progress(), crates()[-1]
    is_proved = may_be_proved and stand([program])
    why = "no proved build stands, so an unproved one answers" if may_be_proved else "an unproved build answers"
    try:
        if is_proved:
            return answer(program.made, True, asked, progress)
        if words.are_readable(asked) and words.refusal(asked) is not None:
            return refuse(asked)
        return answer(unproved_program(why, progress), False, asked, progress)
    except signals.Stopped as stopped:
        progress.clear()
        signals.end_by(stopped.number)
        return FAILED
    except (unproved.BuildFailed, OSError) as failed:
        tell(failed)
        return FAILED


if __name__ == "__main__":
    sys.exit(main(sys.argv[1:]))
