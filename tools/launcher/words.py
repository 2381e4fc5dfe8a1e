"""The words after the program's name, as the program reads them: whether they are accepted, and of refused ones which
word is at fault, what stands there and what may. The program's own reading is crates/hm_run/src/words.rt."""
import difflib, os, re
import spellings

MOST_NUMBER = (1 << 64) - 1
PAGE, LEAST_SPACE = 4096, 1 << 20
READING = ("run", "journal", "stats", "watch", "check")
COMMANDS = (*READING, "stress")
HELP = ("-h", "--help", "help", "--version")
USAGE = """\
usage: ./hmreplay COMMAND [OPTION VALUE].. < FILE     the command first; each option at most once
  run, journal      the report of the trace in FILE; every history of its run
  stats, watch      what the histories come to; the bytes of live large blocks after each round
  check             whether FILE is a journal of legal and drawn histories; it takes no option
  stress SEED       one line of counts of the stress trace of a seed, 0 to 18446744073709551615; it reads no FILE
  --config standard or light, --seed 0 to 18446744073709551615; a number is 1 to 20 digits
  --class-region, --large-space: multiples of 4096 from 1048576, to 34359738368 and to 1099511627776
statuses: 0 no finding, 1 a finding or the verdict no, 2 words, 3 no trace, 4 and 5 input and output failed, 6 and 9 no
  memory and no words, 7 too much input, 70 no program could be built or run
example: ./hmreplay run --seed 7 < examples/double_free.hmtrace     (docs/COMMANDS.md has more of each)
"""


def number_in(word):
    """Returns the number that a word is, or None."""
    number = int(word) if re.fullmatch("[0-9]{1,20}", word, re.ASCII) else MOST_NUMBER + 1
    return number if number <= MOST_NUMBER else None


class Number:
    """An option whose value is any number."""

    wanted = f"a number from 0 to {MOST_NUMBER}"

    def takes(self, word):
        return number_in(word) is not None

    def hint(self, word):
        return spellings.hint(word)


class Space:
    """An option whose value is a number of bytes, in whole pages."""

    def __init__(self, most):
        self.most, self.wanted = most, f"a multiple of {PAGE} from {LEAST_SPACE} to {most}"

    def takes(self, word):
        number = number_in(word)
        return number is not None and LEAST_SPACE <= number <= self.most and number % PAGE == 0

    def hint(self, word):
        number = number_in(word)
        near = None if number is None else min(max(number // PAGE * PAGE, LEAST_SPACE), self.most)
        return spellings.hint(word) if near is None else f"; {near} is the nearest"


class Choice:
    """An option whose value is one of some words."""

    def __init__(self, *choices):
        self.choices, self.wanted = choices, " or ".join(choices)

    def takes(self, word):
        return word in self.choices

    def hint(self, word):
        return nearest(word, self.choices)


OPTIONS = {
    "--config": Choice("standard", "light"),
    "--seed": Number(),
    "--class-region": Space(1 << 35),
    "--large-space": Space(1 << 40),
}


def are_readable(words):
    """Returns whether each word is UTF-8. Of others the program answers what it can take from the system."""
    try:
        return all(os.fsencode(word).decode() is not None for word in words)
    except UnicodeDecodeError:
        return False


def asks_help(words):
    return not words or any(word in HELP for word in words)


def refusal(words):
    """Returns what is wrong with the words, or None where the program accepts them."""
    if not words:
        return "a command is wanted"
    command, behind = words[0], words[1:]
    if command not in COMMANDS:
        return no_command(words)
    if command == "check":
        return check_refusal(behind[0]) if behind else None
    if command != "stress":
        return options_refusal(command, behind)
    if not behind or number_in(behind[0]) is None:
        found = f" {shown(behind[0])}" if behind else ""
        return f"stress{found}: {Number.wanted} is wanted behind stress{spellings.hint(behind[0]) if behind else ''}"
    return options_refusal(command, behind[1:])


def shown(word):
    """Returns a word as it is shown in a line: as it is where it can be told from the words beside it."""
    return word if word and word.isprintable() and " " not in word else repr(word)


def is_file(word):
    """Returns whether a word seems to be meant as a file."""
    return word == "-" or "/" in word or word.endswith((".hmtrace", ".hmjournal")) or os.path.isfile(word)


def nearest(word, names):
    """Returns which of the names is likely to be meant, as a question, or an empty text."""
    near = difflib.get_close_matches(word.lower(), names, 1)
    return f"; is {near[0]} meant?" if near else ""


def no_command(words):
    """Returns what is wrong with a first word that is no command."""
    word = words[0]
    if word in OPTIONS or word == "--" or word.partition("=")[0] in OPTIONS:
        found = " ".join(map(shown, words[:3]))
        return f"{found}: the command comes first, then options, each value in a word of its own"
    if os.path.basename(word) == "hmreplay":
        return f"{shown(word)}: a command is wanted in its place; commands are {', '.join(COMMANDS)}"
    if is_file(word):
        return f"{shown(word)}: the command comes first, and the trace by standard input: run {input_from(word)}"
    return f"{shown(word)}: no command has this name; commands are {', '.join(COMMANDS)}{nearest(word, COMMANDS)}"


def input_from(word):
    """Returns how the file is given as standard input."""
    return "< FILE" if word == "-" else f"< {shown(word)}"


def check_refusal(word):
    if is_file(word):
        return f"check {shown(word)}: the journal comes by standard input: check {input_from(word)}"
    return f"check {shown(word)}: nothing stands behind check, which takes no option; a journal names its own seed"


def options_refusal(command, words):
    """Returns what is wrong with the words behind a command, or None where they are options with their values."""
    given = set()
    for at in range(0, len(words), 2):
        name, value = words[at], words[at + 1] if words[at + 1 :] else None
        if name not in OPTIONS:
            return no_option(command, name)
        if name in given:
            return f"{name} {shown(value or '')}: {name} stands there twice; each option comes at most once"
        if value is None or value in OPTIONS:
            return f"{name}: its value is missing; {OPTIONS[name].wanted} is wanted"
        if not OPTIONS[name].takes(value):
            return f"{name} {shown(value)}: {OPTIONS[name].wanted} is wanted{OPTIONS[name].hint(value)}"
        given.add(name)
    return None


def no_option(command, word):
    """Returns what is wrong with a word that stands where an option may."""
    name, equals, value = word.partition("=")
    if equals and name in OPTIONS:
        return f"{shown(word)}: the value comes in the next word: {name} {shown(value) if value else 'VALUE'}"
    if word in COMMANDS:
        return f"{command} {word}: one command is taken; options are {', '.join(OPTIONS)}"
    if is_file(word):
        return f"{command} {shown(word)}: the trace comes by standard input: {command} {input_from(word)}"
    return f"{shown(word)}: no option has this name; options are {', '.join(OPTIONS)}{nearest(word, OPTIONS)}"
