"""What `fault: trace line L KIND` means, in words, with what to do: by the line at fault where it is known."""
import difflib
import spellings
from lines import Text, quoted, spelling_fault
from trace_words import MEANING, STEPS, hint, is_well, number_in

LINES = ("round", "thread", "note", "end", *STEPS)
MOST_THREADS = {1: 16, 2: 64}
MOST_STEPS = {1: 200000, 2: 400000}
# What is said of a kind alone, where the input is not known.
KINDS = {
    "AfterEnd": "it follows `end`, which is the last line",
    "LineTooLong": "it has more than 256 bytes; each line is one step, and notes are shorter than that",
    "NotAscii": "it has a byte that is no ASCII character from space to ~, as a tab or a carriage return",
    "BadHeader": "the first line of a trace is `hmtrace 1` or `hmtrace 2`",
    "BadWord": "its first word is not known or may not stand there, or it has not the stated number of words",
    "BadName": "a word of it is no name, or no reference to one",
    "BadNumber": "a number of it is out of its range, or not spelled in plain decimal digits",
    "TooManyThreads": "a thread is 1 to 16 in version 1 and 1 to 64 in version 2, which begins `hmtrace 2`",
    "TooManyRounds": "a trace has at most 1024 rounds; more scripts can go into one round, or into two traces",
    "TooManySteps": "a trace has at most 200000 steps in version 1 and 400000 in version 2, which begins `hmtrace 2`",
    "TooManyNotes": "a trace has at most 1024 notes; leave some out",
    "NameSetTwice": "it sets a name that another thread of the round sets; take another name in one of them",
    "NoEnd": "the trace ends before its last line, `end` and a line feed",
}


class Place:
    """Where a line stands: the version, the round and the thread, and who set names in the round before it."""

    def __init__(self, text, number):
        self.version = 2 if text.line(1) == b"hmtrace 2" else 1
        self.is_in_round, self.thread, self.thread_line, self.setters = False, None, None, {}
        for at, line in enumerate(text.lines[1 : number - 1], 2):
            self.pass_line(at, line.decode("ascii", "replace").split(" "))

    def pass_line(self, at, words):
        """Goes past one line before it."""
        if words[0] == "round":
            self.is_in_round, self.thread, self.thread_line, self.setters = True, None, None, {}
        elif words[0] == "thread":
            self.thread, self.thread_line = words[1], at
        elif words[0] in STEPS and STEPS[words[0]][0] == "NAME":
            self.setters.setdefault(words[1], (self.thread, at))


def in_words(given, number, kind):
    """Returns the fault in words. The bytes that were given are None where they are not known."""
    if kind not in KINDS:
        return None
    if given is None:
        return f"line {number}: {KINDS[kind]}"
    text = Text(given)
    line = text.line(number)
    if line is None:
        return ended(text, number)
    what = explain(text, number, line, kind)
    return f"line {number} is {quoted(line)}: {what}"


def ended(text, number):
    """Returns what is wrong where the text has ended before a line."""
    if number == 1:
        return "nothing was read: the trace comes by standard input, as in ./hmreplay run < FILE"
    return f"the trace ends with line {number - 1}, {quoted(text.lines[-1])}: its last line must be `end`"


def explain(text, number, line, kind):
    """Returns what is wrong with a line that stands there."""
    place, words = Place(text, number), line.decode("ascii", "replace").split(" ")
    if kind == "NoEnd":
        no_text = f"; and {spelling_fault(line)}" if spelling_fault(line) else ""
        return f"it has no line feed at its end, and is the last; the last line must be `end` and a line feed{no_text}"
    if kind == "NotAscii":
        return spelling_fault(line) or KINDS[kind]
    if kind == "BadHeader":
        return bad_header(line)
    if kind == "BadWord":
        return bad_word(place, words)
    if kind in ("BadName", "BadNumber"):
        return bad_value(place, words)
    if kind == "TooManyThreads":
        more = "; version 2, with `hmtrace 2` as line 1, has 64" if place.version == 1 else ""
        return f"in version {place.version} a thread is 1 to {MOST_THREADS[place.version]}{more}"
    if kind == "TooManySteps":
        more = "; version 2, with `hmtrace 2` as line 1, has 400000" if place.version == 1 else ""
        return f"a trace of version {place.version} has at most {MOST_STEPS[place.version]} steps{more}"
    if kind == "NameSetTwice":
        thread, at = place.setters.get(words[1], ("another", 0))
        return f"thread {thread} sets {words[1]} in line {at} of the same round; take another name in one of them"
    return KINDS[kind]


def bad_header(line):
    if line.startswith(b"hmjournal"):
        return "this is a journal, which is judged by ./hmreplay check < FILE; run reads a trace"
    if line.strip() in (b"hmtrace 1", b"hmtrace 2"):
        return f"there is a space too much: the line is exactly `{line.strip().decode()}`"
    return KINDS["BadHeader"]


def bad_word(place, words):
    """Returns what is wrong where the first word is not known, may not stand there, or has other words behind it."""
    first = words[0]
    if words == [""]:
        return "the line is empty; a trace has no empty lines"
    if first.startswith(("#", "//", ";")):
        return "a trace has no comments; in version 2 a round has lines `note TEXT` before its first thread"
    if first not in LINES:
        return unknown_word(first)
    if first in STEPS and place.thread is None:
        before = "a line `thread T`" if place.is_in_round else "a line `round` and a line `thread T`"
        return f"a step stands in a thread's script: {before} must come before it"
    if first == "note":
        return bad_note(place)
    if first == "thread" and not place.is_in_round:
        return "a thread stands in a round: a line `round` must come before it"
    if "" in words:
        return "words are separated by exactly one space, with none at the line's ends"
    return wanted_words(first, len(words) - 1)


def unknown_word(first):
    """Returns what may stand in the place of a first word that no line has."""
    if first == "":
        return "the line begins with a space; it must begin with its first word"
    if first == "hmtrace":
        return "the header stands in line 1 alone"
    near = difflib.get_close_matches(first.lower(), LINES, 1)
    meant = f"; is {near[0]} meant?" if near else ""
    others = "other lines are round, thread, note, end"
    return f"no line has the word {first} first; steps are {', '.join(STEPS)}, {others}{meant}"


def wanted_words(first, found):
    """Returns which words stand behind the first word of a line, where others, so many, are found."""
    wanted = STEPS.get(first, ("T",) if first == "thread" else ())
    if not wanted:
        return f"{first} stands alone in its line, with no word behind it"
    return f"{first} has {len(wanted)} word{'s' * (len(wanted) > 1)} behind it, {' '.join(wanted)}; found: {found}"


def bad_note(place):
    if place.version == 1:
        return "notes are of version 2, with `hmtrace 2` as line 1"
    if not place.is_in_round or place.thread is not None:
        return "a note stands in a round, before its first thread"
    return "a note has one or more words, separated by exactly one space, with none at the line's end"


def bad_value(place, words):
    """Returns which word of a line is the first that is wrong, and what may stand in its place."""
    if words[0] == "thread":
        return bad_thread(place, words[1])
    for kind, word in zip(STEPS.get(words[0], ()), words[1:]):
        if not is_well(kind, word):
            found = word or "an empty word, as a space stands at the line's end or two stand together"
            return f"{found}: {MEANING[kind]}{hint(kind, word)}"
    return KINDS["BadNumber"]


def bad_thread(place, word):
    most = MOST_THREADS[place.version]
    if place.thread is not None and number_in(word, 1, most) is not None:
        return f"thread {place.thread} stands in line {place.thread_line}; in a round threads ascend, each at most once"
    return f"thread T has a number from 1 to {most}{spellings.hint(word)}"
