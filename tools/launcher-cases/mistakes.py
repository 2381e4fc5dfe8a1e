"""Mistakes of a new user: what was called, what the launcher has to say of it, and the next try, which succeeds."""

HEAD = "hmtrace 1\nround\nthread 1\n"
WELL = f"{HEAD}malloc x 100\nfree x\nend\n"


class Mistake:
    """A call's words and input, a text that standard error must have, and the words and input of the next call."""

    def __init__(self, words, given, told, next_words=None, next_given=None):
        self.words, self.given, self.told = words.split(" ") if words else [], given, told
        self.next_words = self.words if next_words is None else next_words.split(" ")
        self.next_given = given if next_given is None else next_given


def of_trace(given, told, next_given=WELL):
    return Mistake("run", given, told, "run", next_given)


WORDS = [
    Mistake("", WELL, "usage: ./hmreplay COMMAND", "run"),
    Mistake("--help", WELL, "example: ./hmreplay run --seed 7 < examples/", "run --seed 7"),
    Mistake("run examples/first.hmtrace", WELL, "comes by standard input: run < examples/first.hmtrace", "run"),
    Mistake("examples/first.hmtrace", WELL, "the command comes first, and the trace by standard input: run <", "run"),
    Mistake("replay", WELL, "replay: no command has this name; commands are run, ", "run"),
    Mistake("--seed 1 run", WELL, "--seed 1 run: the command comes first", "run --seed 1"),
    Mistake("run --seed -1", WELL, "--seed -1: a number from 0 to 18446744073709551615 is wanted", "run --seed 1"),
    Mistake("run --seed=1", WELL, "the value comes in the next word: --seed 1", "run --seed 1"),
    Mistake("run --seeds 1", WELL, "--seeds: no option has this name; options are ", "run --seed 1"),
    Mistake("run --config fast", WELL, "--config fast: standard or light is wanted", "run --config light"),
    Mistake("run --seed --config light", WELL, "--seed: its value is missing; a number", "run --seed 1 --config light"),
    Mistake("run --large-space 1G", WELL, "in plain decimal digits: 1073741824", "run --large-space 1073741824"),
    Mistake("run --class-region 2000000", WELL, "; 1998848 is the nearest", "run --class-region 1998848"),
    Mistake("check --seed 1", WELL, "nothing stands behind check, which takes no option", "run --seed 1"),
    Mistake("stress 0x7", "", "is wanted behind stress, in plain decimal digits: 7", "stress 7"),
]
TRACES = [
    of_trace(WELL.replace("\n", "\r\n"), "it ends with a carriage return (CRLF)"),
    of_trace(f"\ufeff{WELL}", "it begins with a byte order mark"),
    of_trace("", "the trace comes by standard input, as in ./hmreplay run < FILE"),
    of_trace(WELL.replace("hmtrace 1\n", ""), "the first line of a trace is `hmtrace 1` or `hmtrace 2`"),
    of_trace(WELL.replace("malloc", "mallc"), 'line 4 is "mallc x 100": no line has the word mallc first; steps are'),
    of_trace(WELL.replace("thread 1\n", ""), "a line `thread T` must come before it"),
    of_trace(WELL.replace(" 100", ""), "malloc has 2 words behind it, NAME SIZE; found: 1"),
    of_trace(WELL.replace(" x 100", " x  100"), "words are separated by exactly one space"),
    of_trace(WELL.replace("x", "X"), "X: a NAME is wanted: a letter a to z, then up to 31 letters a to z, digits or _"),
    of_trace(WELL.replace("100", "0x64"), "in plain decimal digits: 100"),
    of_trace(WELL.replace("malloc x 100", "malloc x, 100"), "x,: a NAME is wanted: a letter a to z, then"),
    of_trace(WELL.replace("free x", "free NULL"), "NULL: a REF is wanted: null,", WELL.replace("free x", "free null")),
    of_trace(f"{HEAD}write @0 1 FF\nend\n", "0 to 9 and a to f; ff is one", f"{HEAD}write @0 1 ff\nend\n"),
    of_trace(WELL.replace("free x\n", "# done\nfree x\n"), "a trace has no comments"),
    of_trace(WELL.replace("free x\n", "\nfree x\n"), "the line is empty; a trace has no empty lines"),
    of_trace(WELL.replace("thread", "note go\nthread"), "notes are of version 2, with `hmtrace 2` as line 1"),
    of_trace(WELL.replace("thread 1", "thread 17"), "version 2, with `hmtrace 2` as line 1, has 64"),
    of_trace(f"{HEAD}malloc x 8\nthread 2\nmalloc x 8\nend\n", "thread 1 sets x in line 4 of the same round"),
    of_trace(f"{HEAD}thread 1\nend\n", "thread 1 stands in line 3; in a round threads ascend"),
    of_trace(WELL[:-4], "its last line must be `end`"),
    of_trace(WELL[:-1], "it has no line feed at its end"),
    of_trace(WELL + WELL, "it follows `end`, which is the last line"),
    Mistake("run", "hmjournal 1\n", "this is a journal, which is judged by ./hmreplay check < FILE", "run", WELL),
    Mistake("check", WELL, "this is a trace, which is run by ./hmreplay run < FILE", "run"),
]
