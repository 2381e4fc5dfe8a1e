"""The words of a trace's lines, as docs/TRACES.md has them: which may stand where, and what may be one."""
import re
import spellings

MOST_NUMBER = (1 << 64) - 1
MOST_LENGTH = 1 << 20
MOST_OFFSET = 1 << 40
STEPS = {
    "malloc": ("NAME", "SIZE"),
    "calloc": ("NAME", "COUNT", "SIZE"),
    "aligned": ("NAME", "ALIGN", "SIZE"),
    "realloc": ("NAME", "REF", "SIZE"),
    "free": ("REF",),
    "sfree": ("REF", "SIZE"),
    "write": ("REF", "LEN", "BYTE"),
    "read": ("REF", "LEN"),
    "size": ("REF",),
}
A_NAME = "a letter a to z, then up to 31 letters a to z, digits or _, and not null"
MEANING = {
    "NAME": f"a NAME is wanted: {A_NAME}",
    "REF": "a REF is wanted: null, @ and 1 to 16 lower-case hexadecimal digits, or a NAME, behind which + or - and a "
    f"number from 1 to {MOST_OFFSET} may stand; a NAME is {A_NAME}",
    "SIZE": f"a SIZE is wanted: a number from 0 to {MOST_NUMBER}",
    "COUNT": f"a COUNT is wanted: a number from 0 to {MOST_NUMBER}",
    "ALIGN": f"an ALIGN is wanted: a number from 0 to {MOST_NUMBER}",
    "LEN": f"a LEN is wanted: a number from 1 to {MOST_LENGTH}",
    "BYTE": "a BYTE is wanted: two digits of 0 to 9 and a to f",
}
RANGES = {
    "SIZE": (0, MOST_NUMBER),
    "COUNT": (0, MOST_NUMBER),
    "ALIGN": (0, MOST_NUMBER),
    "LEN": (1, MOST_LENGTH),
}


def number_in(word, least, most):
    """Returns the number that a word is in a trace, without a leading zero, or None."""
    number = int(word) if re.fullmatch("0|[1-9][0-9]{0,19}", word) else -1
    return number if least <= number <= most else None


def is_name(word):
    return bool(re.fullmatch("[a-z][a-z0-9_]{0,31}", word)) and word != "null"


def is_reference(word):
    name, sign, offset = re.fullmatch("(?s)([^+-]*)([+-]?)(.*)", word).groups()
    if word.startswith("@"):
        return bool(re.fullmatch("@(0|[1-9a-f][0-9a-f]{0,15})", word))
    if not sign:
        return name == "null" or is_name(name)
    return is_name(name) and number_in(offset, 1, MOST_OFFSET) is not None


def is_well(kind, word):
    """Returns whether a word of a step may be one of this kind."""
    if kind == "NAME":
        return is_name(word)
    if kind == "REF":
        return is_reference(word)
    if kind == "BYTE":
        return bool(re.fullmatch("[0-9a-f]{2}", word))
    return number_in(word, *RANGES[kind]) is not None


def hint(kind, word):
    """Returns what may help where a word is another spelling of what is wanted, or an empty text."""
    if kind == "BYTE":
        return one_of(kind, word.lower().replace("0x", "", 1).zfill(2))
    if word.startswith("@"):
        return one_of(kind, "@" + (re.sub("^(0x)?0*", "", word[1:].lower()) or "0"))
    if kind == "REF" and re.search("[+-]", word):
        return ""
    if kind in ("NAME", "REF"):
        return one_of(kind, re.sub("[^a-z0-9_]", "", word.lower().replace("-", "_")))
    return spellings.hint(word)


def one_of(kind, other):
    """Returns another word as one that may stand there, if it may."""
    return f"; {other} is one" if is_well(kind, other) else ""
