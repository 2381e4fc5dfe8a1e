"""Standard input of a program that is run twice: what a pipe brings is kept, as the first run reads it."""

import os
import stat
import subprocess
import tempfile
import threading

MOST_KEPT = 1 << 28
PIECE = 1 << 16


class Input:
    """Standard input, for a first run and a second one. What is behind the first 256 MiB of a pipe is not kept."""

    def __init__(self, is_kept):
        try:
            mode = os.fstat(0).st_mode
        except OSError:
            mode = 0
        self.is_file = stat.S_ISREG(mode)
        self.is_other = stat.S_ISCHR(mode) and not os.isatty(0)
        self.is_pipe = is_kept and (stat.S_ISFIFO(mode) or stat.S_ISSOCK(mode))
        self.start = os.lseek(0, 0, os.SEEK_CUR) if self.is_file else 0
        self.kept = tempfile.TemporaryFile() if self.is_pipe else None

    def for_first_run(self):
        """What the first run reads: standard input, or a pipe through which it comes."""
        if not self.is_pipe:
            return None
        out, into = os.pipe()
        os.set_inheritable(into, False)
        threading.Thread(target=self.hand_on, args=(into,), daemon=True).start()
        return out

    def hand_on(self, into):
        """Keeps what comes and hands it on, until it ends or no one reads it."""
        size = 0
        try:
            while piece := os.read(0, PIECE):
                if size < MOST_KEPT:
                    self.kept.write(piece)
                    self.kept.flush()
                size += len(piece)
                while piece:
                    piece = piece[os.write(into, piece):]
        except OSError:
            pass
        finally:
            os.close(into)

    def for_second_run(self):
        """What the second run reads: the same, or nothing where it is a terminal."""
        if self.is_file:
            os.lseek(0, self.start, os.SEEK_SET)
            return None
        if self.is_other:
            return None
        if self.kept is None:
            return subprocess.DEVNULL
        return os.open('/proc/self/fd/%d' % self.kept.fileno(), os.O_RDONLY)
