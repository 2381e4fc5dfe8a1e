"""Lines of a text that a program reads, and how one is shown in a message."""

BYTE_ORDER_MARKS = (b"\xef\xbb\xbf", b"\xff\xfe", b"\xfe\xff")
MOST_SHOWN = 60


class Text:
    """A text's lines, each without its line feed, and the last piece, which has none."""

    def __init__(self, text):
        *self.lines, self.last_piece = text.split(b"\n")

    def line(self, number):
        """Returns the line of that number, from 1; the last piece counts as one. None where the text has ended."""
        if number <= len(self.lines):
            return self.lines[number - 1]
        return self.last_piece if number == len(self.lines) + 1 and self.last_piece else None


def quoted(line):
    """Returns a line, or its front, in quotation marks, and what is no ASCII character as an escape."""
    shown = "".join(chr(byte) if 32 <= byte < 127 else f"\\x{byte:02x}" for byte in line[:MOST_SHOWN])
    return f'"{shown}{".." if len(line) > MOST_SHOWN else ""}"'


def spelling_fault(line):
    """Returns what is wrong with a line that has a byte other than the ASCII characters, or None."""
    if line.startswith(BYTE_ORDER_MARKS):
        return "it begins with a byte order mark: save the file as plain ASCII text"
    if b"\0" in line:
        return "it has a zero byte, as UTF-16 has: save the file as plain ASCII text"
    if line.endswith(b"\r"):
        return "it ends with a carriage return (CRLF): lines end with a line feed alone, as `tr -d '\\r'` makes them"
    at = next((at for at, byte in enumerate(line) if not 32 <= byte < 127), None)
    if at is None:
        return None
    kind = "a tab" if line[at] == 9 else f"the byte {line[at]:02x}"
    return f"it has {kind} at column {at + 1}: only the ASCII characters from space to ~ may stand there"
