"""Reads the files that notes.c writes: the notes of one process each, with its misuses and live blocks."""

import mmap
import os
import re
import struct
from collections import namedtuple

(NO_NOTE, MALLOC, CALLOC, ALIGNED, REALLOC, FREE, SIZED_FREE, USABLE, TAIL_WRITE, FREED_WRITE,
 GUARD_WRITE, GUARD_READ) = range(12)
# Made here, of the blocks with which a trace begins.
INHERITED, INHERITED_FREE = 20, 21
LIVE, KEPT, GONE = 1, 2, 3

HEAD = struct.Struct('=12Q64s')
HEAD_BYTES = 4096
FAULT = struct.Struct('=3B5x6Q' + 'QII' * 4 + '8x')
MOST_FAULTS = 4096
RECORD = struct.Struct('=4BI6QII')
LIVE_BLOCK = struct.Struct('=QQQIIQ')

Record = namedtuple('Record', 'kind failed state align thread block reference offset first second size site '
                              'given_thread')
Event = namedtuple('Event', 'call site thread')
Misuse = namedtuple('Misuse', 'kind state align block size offset first second end here given freed right')
LiveBlock = namedtuple('LiveBlock', 'number size call site thread align')
StartBlock = namedtuple('StartBlock', 'number size align thread is_freed')


def misuse_of(words):
    """A misuse, of the numbers of its form."""
    events = [Event(*words[place:place + 3]) for place in range(9, 21, 3)]
    return Misuse(*words[:9], *events)


def records_of(block):
    """The records of a block with which a trace begins."""
    made = Record(INHERITED, 0, 0, 0, block.thread, block.number, 0, 0, block.size, block.align, 0, 0, 0)
    gone = Record(INHERITED_FREE, 0, LIVE, block.align, block.thread, 0, block.number, 0, 0, 0, block.size, 0, 0)
    return [made, gone] if block.is_freed else [made]


class Notes:
    """The notes of one process, from its first call to its end or to an exec.

    `command` has its words, `calls` counts its calls, `total` what it noted, stray writes too, `count` what is kept of
    it, `left_out` what found no room in the file; `first` is the number of the first note that is kept.
    """

    def __init__(self, path):
        with open(path, 'rb') as file:
            self.bytes = mmap.mmap(file.fileno(), 0, access=mmap.ACCESS_READ)
        (self.total, self.left_out, self.started, self.process, is_fork, self.most, misuses, self.misuses_left_out,
         self.ended_by, length, self.threads, stray_writes, sites) = HEAD.unpack_from(self.bytes)
        self.path, self.is_fork, self.calls = path, bool(is_fork), self.total - stray_writes
        self.sites_path = os.path.join(os.path.dirname(path), sites.rstrip(b'\0').decode()) if sites[0] else None
        self.count = min(self.total, self.most)
        self.first = self.total - self.count
        behind = HEAD_BYTES + MOST_FAULTS * FAULT.size
        self.records = memoryview(self.bytes)[behind:behind + self.most * RECORD.size]
        words = self.bytes[HEAD.size:HEAD.size + length].rstrip(b'\0').split(b'\0')
        self.command = re.sub(rb'[^ -~]', b'?', b' '.join(words)).decode('ascii')
        self.misuses = [misuse_of(words) for words in
                        FAULT.iter_unpack(self.bytes[HEAD_BYTES:HEAD_BYTES + misuses * FAULT.size])]
        self.live = self.read_live()

    def read_live(self):
        """The blocks that were live at the end, where it wrote them down."""
        try:
            with open(self.path + '.live', 'rb') as file:
                return [LiveBlock._make(words) for words in LIVE_BLOCK.iter_unpack(file.read())]
        except (OSError, struct.error):
            return []

    def kept(self, last=None):
        """The records that are kept, in the order in which they were noted; with `last` so many of the end."""
        begin = self.first if last is None else max(self.first, self.total - last)
        at, to = begin % self.most * RECORD.size, self.total % self.most * RECORD.size
        if self.total == begin:
            return
        pieces = [(at, to)] if at < to else [(at, self.most * RECORD.size), (0, to)]
        for start, stop in pieces:
            yield from map(Record._make, RECORD.iter_unpack(self.records[start:stop]))

    def start_blocks(self, records):
        """The blocks with which these records begin, in the order in which they were given: those that they name and
        did not make, and those that were live before them and still at the end."""
        made, found = set(), {}
        for record in records:
            if record.block:
                made.add(record.block)
            named = record.reference
            if named and named not in made and named not in found:
                found[named] = StartBlock(named, record.size, record.align, record.given_thread or 1,
                                          record.state != LIVE)
        for block in self.live:
            if block.number not in made and block.number not in found:
                found[block.number] = StartBlock(block.number, block.size, block.align, block.thread or 1, False)
        return [found[number] for number in sorted(found)]

    def has_calls(self):
        """Whether anything stands there."""
        return self.total > 0


def read_folder(folder):
    """The notes of all processes, in the order in which they began."""
    paths = [os.path.join(folder, name) for name in os.listdir(folder) if name.endswith('.notes')]
    notes = [Notes(path) for path in paths if os.path.getsize(path) >= HEAD_BYTES]
    return sorted(notes, key=lambda one: one.started)
