"""How far a call is: one line on a terminal, from two seconds on, which goes again."""
import shutil, sys, time
from told import say

SILENT = 2.0


def clock(seconds):
    return f"{int(seconds) // 60}:{int(seconds) % 60:02}"


class Progress:
    def __init__(self):
        self.is_terminal, self.is_shown = sys.stderr is not None and sys.stderr.isatty(), False
        self.begin()

    def begin(self):
        self.begun = time.monotonic()

    def show(self, text):
        """Shows the text, with the time since it was begun, where that is long enough."""
        seconds = time.monotonic() - self.begun
        if self.is_terminal and seconds >= SILENT:
            line = f"hmreplay: {text}, {clock(seconds)} so far"
            say(f"\r\033[K{line[: shutil.get_terminal_size().columns - 1]}")
            self.is_shown = True

    def clear(self):
        if self.is_shown:
            say("\r\033[K")
            self.is_shown = False
