"""What standard input gives to the program: a file as it is, and else a copy in memory, so that the line of a fault
can be looked at once the program has ended."""
import os, select, stat

# The program ends with 7 above so many bytes.
MOST_READ = 1 << 26
PIECE = 1 << 20
STEP_SECONDS = 0.5


class Given:
    """`descriptor` is what the program reads from, at `start`; `is_known` says whether the bytes can be looked at."""

    def __init__(self, is_read, progress):
        self.descriptor, self.start, self.size, self.is_known = 0, 0, None, False
        if not is_read:
            return
        mode = os.fstat(0).st_mode
        if stat.S_ISREG(mode):
            self.start, self.is_known = os.lseek(0, 0, os.SEEK_CUR), True
            self.size = max(0, os.fstat(0).st_size - self.start)
        elif not stat.S_ISDIR(mode):
            self.copy(progress)

    def copy(self, progress):
        """Takes a copy of what comes, up to what the program would read. Where that fails the program reads itself."""
        try:
            descriptor = os.memfd_create("hmreplay")
            self.size = fill(descriptor, progress)
            os.lseek(descriptor, 0, os.SEEK_SET)
        except OSError:
            return
        self.descriptor, self.is_known = descriptor, True

    def count_read(self):
        """Returns how many bytes the program has read, or None where that is not known."""
        return os.lseek(self.descriptor, 0, os.SEEK_CUR) - self.start if self.is_known else None

    def text(self):
        """Returns the bytes that were given, up to what the program reads, or None where they are not known."""
        if not self.is_known:
            return None
        pieces, at = [], self.start
        while at < self.start + MOST_READ:
            piece = os.pread(self.descriptor, PIECE, at)
            if not piece:
                break
            pieces.append(piece)
            at += len(piece)
        return b"".join(pieces)


def fill(descriptor, progress):
    """Writes into a file what standard input gives, and returns how many bytes that is."""
    count = 0
    while count <= MOST_READ:
        is_ready = select.select([0], [], [], STEP_SECONDS)[0]
        progress.show(f"{count:,} bytes read; standard input goes on")
        if not is_ready:
            continue
        piece = os.read(0, min(PIECE, MOST_READ + 1 - count))
        if not piece:
            break
        at = 0
        while at < len(piece):
            at += os.write(descriptor, piece[at:])
        count += len(piece)
    progress.clear()
    return count
