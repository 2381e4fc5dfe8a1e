"""A run of a program: its words, standard input, output and status are its own, and nothing of them is changed."""
import os, select, subprocess
import signals

PIECE = 1 << 20
STEP_SECONDS = 0.5
FRONT = 4096
SINK_FAILED = 5


class Ended:
    """How a run ended: its status, below 0 by a signal, and the front of what it wrote."""

    def __init__(self, status, front):
        self.status, self.front = status, front


def has_streams():
    """Returns whether standard input, output and error are open. Else an opened file would come in their place."""
    try:
        return all(os.fstat(descriptor) for descriptor in range(3))
    except OSError:
        return False


def run(program, words, given, progress):
    """Runs the program and hands on what it writes, as it comes."""
    signals.hold()
    running = subprocess.Popen([program, *words], stdin=given.descriptor, stdout=subprocess.PIPE)
    progress.begin()
    try:
        signals.release()
        front, is_written = hand_on(running, given, progress)
        running.stdout.close()
        status = running.wait()
    except signals.Stopped as stopped:
        running.send_signal(stopped.number)
        running.wait()
        raise
    finally:
        progress.clear()
    return Ended(status if is_written else SINK_FAILED, front)


def hand_on(running, given, progress):
    """Writes all that the run writes to standard output. Returns the front of it, and whether it could be written."""
    front, written = b"", running.stdout.fileno()
    while True:
        if not select.select([written], [], [], STEP_SECONDS)[0]:
            progress.show(how_far(given))
            continue
        piece = os.read(written, PIECE)
        progress.clear()
        if not piece:
            return front, True
        front += piece[: FRONT - len(front)]
        if not write_all(piece):
            return front, False


def how_far(given):
    """Returns how far a run is: how much of its input it has read, and then only that it goes on."""
    count = given.count_read()
    if count is None or count >= given.size:
        return "running"
    return f"{count:,} of {given.size:,} bytes read"


def write_all(piece):
    """Writes the bytes to standard output, and returns whether that could be done."""
    at = 0
    try:
        while at < len(piece):
            at += os.write(1, piece[at:])
    except OSError:
        return False
    return True
