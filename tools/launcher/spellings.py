"""Other spellings of a number than plain decimal digits, as a user may write one."""
import re

SUFFIXES = {"": 0, "k": 10, "m": 20, "g": 30, "t": 40}


def number_meant(word):
    """Returns the number that is likely to be meant by a word, or None."""
    text = word.strip().lower().replace(",", "").replace("_", "")
    if re.fullmatch("0x[0-9a-f]+|0o[0-7]+|0b[01]+", text):
        return int(text, 0)
    found = re.fullmatch(r"\+?([0-9]+)([kmgt]?)(i?b)?", text, re.ASCII)
    return int(found[1]) << SUFFIXES[found[2]] if found else None


def hint(word):
    """Returns how the number that is likely to be meant is written, or an empty text."""
    number = number_meant(word)
    return f", in plain decimal digits: {number}" if number is not None and str(number) != word else ""
