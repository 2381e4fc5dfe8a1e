"""What the launcher says, on standard error. Where that cannot be written nothing else changes."""
import contextlib, sys


def say(text):
    """Writes the text as it is."""
    if sys.stderr is not None:
        with contextlib.suppress(OSError):
            sys.stderr.write(text)
            sys.stderr.flush()


def tell(line):
    """Says one line."""
    say(f"hmreplay: {line}\n")
