"""What `check: no line L FAULT` means, in words, with what such a line would have to be: docs/JOURNAL.md."""
import re
from lines import Text, quoted, spelling_fault

CONFIG = (
    "config ARENAS CLASS_REGION LARGE_SPACE GUARD_INTERVAL ARRAY_BASE RING_BASE PARK_LENGTH CHECK_REUSE RANDOM_SLOTS"
)
FIRST_LINES = ("`hmjournal 1` is wanted", f"`{CONFIG}` is wanted, of numbers that are valid", "`seed N` is wanted")
ENTRY = "eighteen words, a call, a colon as a word, and the reply"
# What is said of a fault alone, where the input is not known.
FAULTS = {
    "BadText": "no journal has this line after those before it, or the text ends before it (docs/JOURNAL.md)",
    "NotLegal": "the allocator's rules do not allow this entry after those of its region before it",
    "NotDrawn": "its words or choices are not those that the number of `seed` gives",
}


def in_words(given, number, fault):
    """Returns the fault in words. The bytes that were given are None where they are not known."""
    if fault not in FAULTS:
        return None
    if given is None:
        return f"line {number}: {FAULTS[fault]}"
    text = Text(given)
    line = text.line(number)
    if line is None:
        return ended(text, number)
    return f"line {number} is {quoted(line)}: {explain(text, number, line, fault)}"


def ended(text, number):
    """Returns what is wrong where the text has ended before a line."""
    if number == 1:
        return "nothing was read: the journal comes by standard input, as in ./hmreplay check < FILE"
    return f"the text ends with line {number - 1}, {quoted(text.lines[-1])}: behind it {wanted(text, number)}"


def explain(text, number, line, fault):
    """Returns what is wrong with a line that stands there."""
    if fault == "BadText":
        return bad_text(text, number, line)
    step = step_of(line)
    if fault == "NotLegal":
        if line.startswith(b"closed"):
            return "the last count of page faults is another than that of the region's last entry"
        return f"{step}the rules do not allow this reply, or these choices, after the region's entries before it"
    if line.startswith(b"region"):
        return f"FIRST is another one than {text.line(3).decode()} and the line `config` give for this region"
    return f"{step}the words or choices are not those that {text.line(3).decode()} and the line `config` give"


def step_of(line):
    """Returns the name that the report has for the step of an entry."""
    words = line.decode("ascii", "replace").split(" ")
    return f"of step {'.'.join(words[1:4])}, call {' '.join(words[18:19])}: " if len(words) > 18 else ""


def bad_text(text, number, line):
    """Returns what is wrong with a line that no journal has there."""
    if number == 1 and line.startswith(b"hmtrace"):
        return "this is a trace, which is run by ./hmreplay run < FILE; check reads what ./hmreplay journal writes"
    if number == 1 and re.match(rb"[0-9]+(\.[0-9]+\.[0-9]+| note) ", line):
        return "this is a report; check reads what ./hmreplay journal < TRACE writes"
    if number > len(text.lines):
        return "it has no line feed at its end, as where a text was cut off"
    return spelling_fault(line) or wanted(text, number)


def wanted(text, number):
    """Returns what has to stand in a line, by the lines before it."""
    if number <= 3:
        return FIRST_LINES[number - 1]
    at, region = 4, None
    while at < number:
        words = text.line(at).split(b" ")
        if words == [b"end"]:
            return "nothing may stand, as `end` is the last line"
        region, count = words[1].decode(), int(words[3])
        if at + count >= number:
            return f"an entry of region {region} is wanted, entry {number - at} of {count}: {ENTRY}"
        if at + count + 1 == number:
            return f"`closed FAULTS` is wanted, as region {region} has had its {count} entries"
        at += count + 2
    return "`region R FIRST COUNT` is wanted, R ascending" + (", or `end`" if region else "")
