"""Makes a trace of the notes of one process: one script a thread, and a new round wherever a thread names a block that
another one named in the same round, so that the order of the two stays."""

import string

from notes import (ALIGNED, CALLOC, FREE, FREED_WRITE, INHERITED, INHERITED_FREE, MALLOC, REALLOC, SIZED_FREE,
                   TAIL_WRITE, USABLE, records_of)

MOST_ROUNDS = 1024
MOST_THREADS = {1: 16, 2: 64}
MOST_STEPS = {1: 200000, 2: 400000}
GREATEST_REQUEST = 2 ** 30
GREATEST_ALIGN = 2 ** 21
MOST_WRITTEN = 2 ** 20
SMALL_ALIGN = 16
TOUCH_BYTE = 0x5a
# Where a region of the modelled space may lie, whatever its options.
CLASS_REGIONS = range(2 ** 40, 2 ** 40 + 4 * 49 * 2 * 2 ** 35)
LARGE_REGION = range(2 ** 46, 2 ** 46 + 2 ** 40)


class Cut(Exception):
    """The trace ends here, for this reason; `needs_steps` where it is that of steps."""

    def __init__(self, reason, needs_steps=False):
        super().__init__(reason)
        self.needs_steps = needs_steps


def short_name(number):
    """The name of that number: a letter, then letters or digits."""
    letters, others = string.ascii_lowercase, string.ascii_lowercase + string.digits
    places, first = 0, number
    while first >= 26 * 36 ** places:
        first -= 26 * 36 ** places
        places += 1
    rest = ''
    for _ in range(places):
        first, digit = divmod(first, 36)
        rest = others[digit] + rest
    return letters[first] + rest


def all_names():
    """All names, the short ones first."""
    number = 0
    while True:
        name = short_name(number)
        if name != 'null':
            yield name
        number += 1


def outside_address(address):
    """An address that lies in no region of the modelled space: the address itself, or its low 40 bits."""
    if address in CLASS_REGIONS or address in LARGE_REGION:
        return address % 2 ** 40
    return address


def write_steps(name, offset, length, byte):
    """The steps that write a byte, as many times as stated, from an offset of a block on."""
    steps = []
    while length:
        part = min(length, MOST_WRITTEN)
        place = '%s+%d' % (name, offset) if offset else name
        steps.append('write %s %d %02x' % (place, part, byte))
        offset, length = offset + part, length - part
    return steps


def asked_of(record):
    """The bytes that a call asks for."""
    if record.kind == CALLOC:
        return record.first * record.second
    return record.second if record.kind == ALIGNED else record.first


def is_refused(record):
    """Whether the replayer refuses that call too, whatever memory there is."""
    if record.kind == ALIGNED:
        align = record.first
        if align == 0 or align & (align - 1) or align > GREATEST_ALIGN:
            return True
    return asked_of(record) > GREATEST_REQUEST


class Threads:
    """The numbers of a trace's threads. Where those of version 1 are used up, a thread that makes no more call leaves
    its number to a later one."""

    def __init__(self, notes):
        self.last_call = {record.thread: place for place, record in enumerate(notes)}
        self.numbers, self.used = {}, set()

    def number_of(self, thread, place):
        """The number of the thread of the record at that place."""
        if thread not in self.numbers:
            self.numbers = {one: number for one, number in self.numbers.items() if self.last_call[one] >= place}
            self.numbers[thread] = self.free_number()
            self.used.add(self.numbers[thread])
        return self.numbers[thread]

    def free_number(self):
        """A number of version 1 if there is one, and then one that no thread had."""
        taken = set(self.numbers.values())
        free = [number for number in range(1, MOST_THREADS[2] + 1) if number not in taken]
        if not free:
            raise Cut('a trace has at most %d threads at a time' % MOST_THREADS[2])
        return min(free, key=lambda number: (number > MOST_THREADS[1], number in self.used, number))


class Rounds:
    """The rounds of a trace, each with the steps of its threads. In a round a block is named by one thread alone.
    `origins` has, for each step, the number of the note of which it is."""

    def __init__(self):
        self.rounds, self.named_by, self.steps, self.threads, self.origins = [{}], {}, 0, 0, {}

    def add(self, thread, blocks, steps, origin=None):
        """Adds the steps of one call, which names these blocks."""
        if self.steps + len(steps) > MOST_STEPS[2]:
            raise Cut('a trace has at most %d steps' % MOST_STEPS[2], needs_steps=True)
        for block in blocks:
            if self.named_by.setdefault(block, thread) != thread:
                self.begin_round()
                self.named_by = dict.fromkeys(blocks, thread)
                break
        self.rounds[-1].setdefault(thread, []).extend(steps)
        self.origins.setdefault((len(self.rounds), thread), []).extend([origin] * len(steps))
        self.steps += len(steps)
        self.threads = max(self.threads, thread)

    def origin_of(self, place):
        """The number of the note of a step, by its round, thread and number."""
        return self.origins[place[:2]][place[2] - 1]

    def begin_round(self):
        """Begins a round, in which no block was named yet."""
        if len(self.rounds) == MOST_ROUNDS:
            raise Cut('a trace has at most %d rounds, and threads go on to free blocks of each other' % MOST_ROUNDS)
        self.rounds.append({})
        self.named_by = {}

    def version(self):
        """The least version that has room for it."""
        return 1 if self.threads <= MOST_THREADS[1] and self.steps <= MOST_STEPS[1] else 2

    def text(self):
        """The trace."""
        lines = ['hmtrace %d' % self.version()]
        for scripts in self.rounds:
            lines.append('round')
            for thread in sorted(scripts):
                lines.append('thread %d' % thread)
                lines += scripts[thread]
        return '\n'.join(lines + ['end', ''])


class Maker:
    """Makes a trace of notes, record by record: of all that are kept, or of so many of the last. It begins with the
    blocks that were live before. With `one_thread` all calls stand in one thread, in their order. `first` is the number
    of the first note that stands in it.

    `freed_writes` has, of each block, the stray writes that were found when it had been kept for a while. They stand
    right behind its free, where the slot still waits. `stray_writes` counts the writes that stand in the trace, and
    `without_memory` the calls that failed where the replayer would have served them, which are left out.
    """

    def __init__(self, notes, touches, last=None, one_thread=False):
        self.notes, self.touches, self.one_thread = notes, touches, one_thread
        self.records = list(notes.kept(last))
        self.first = notes.total - len(self.records)
        self.rounds, self.all_names = Rounds(), all_names()
        self.names, self.asked, self.freed_writes = {}, {}, {}
        self.stray_writes, self.without_memory, self.left_out = 0, 0, notes.left_out
        self.reason, self.needs_steps = None, False
        self.start_blocks = notes.start_blocks(self.records)
        self.starts = [record for block in self.start_blocks for record in records_of(block)]
        self.threads = Threads(self.starts + self.records)
        for record in self.starts + self.records:
            self.look_ahead(record)

    def look_ahead(self, record):
        """Gathers what is noted late."""
        if record.kind == FREED_WRITE:
            self.freed_writes.setdefault(record.reference, []).append(record)

    def make(self):
        """Adds all records, up to a limit of traces."""
        for place, record in enumerate(self.starts + self.records):
            origin = place - len(self.starts) + self.first if place >= len(self.starts) else None
            try:
                thread = 1 if self.one_thread else self.threads.number_of(record.thread, place)
                self.add(thread, record, origin)
            except Cut as cut:
                self.reason, self.needs_steps = str(cut), cut.needs_steps
                self.left_out += len(self.starts) + len(self.records) - place
                return

    def add(self, thread, record, origin=None):
        """Adds the steps of one record."""
        if record.failed and not is_refused(record):
            self.without_memory += 1
            return
        steps = self.steps_of(record)
        if steps:
            self.rounds.add(thread, {record.block, record.reference} - {0}, steps, origin)

    def steps_of(self, record):
        """The steps of one record."""
        if record.kind in (MALLOC, CALLOC, ALIGNED, REALLOC):
            return self.giving_steps(record)
        if record.kind == INHERITED:
            return self.inherited_steps(record)
        if record.kind in (FREE, SIZED_FREE):
            return [self.free_step(record)] + self.writes_behind(record)
        if record.kind == INHERITED_FREE and record.reference in self.names:
            return ['free ' + self.place(record)] + self.writes_behind(record)
        if record.kind == USABLE:
            return ['size ' + self.place(record)]
        if record.kind == TAIL_WRITE:
            return self.stray_steps(record)
        return []

    def giving_steps(self, record):
        """A step that asks for a block, the stray writes to the block that it took, and one that touches it."""
        name = self.new_name(record)
        words = {MALLOC: 'malloc %s %d' % (name, record.first),
                 CALLOC: 'calloc %s %d %d' % (name, record.first, record.second),
                 ALIGNED: 'aligned %s %d %d' % (name, record.first, record.second)}
        if record.kind == REALLOC:
            steps = ['realloc %s %s %d' % (name, self.place(record), record.first)] + self.writes_behind(record)
        else:
            steps = [words[record.kind]]
        return steps + self.touching_steps(name, record)

    def inherited_steps(self, record):
        """A block that the process or the window began with."""
        name = self.new_name(record)
        if record.second > 4:
            return ['aligned %s %d %d' % (name, 2 ** min(record.second, 21), record.first)]
        return ['malloc %s %d' % (name, record.first)] + self.touching_steps(name, record)

    def touching_steps(self, name, record):
        """With --touch the whole block is written."""
        size = asked_of(record)
        return write_steps(name, 0, size, TOUCH_BYTE) if self.touches and size <= GREATEST_REQUEST else []

    def free_step(self, record):
        """A free. A size that is stated right of an aligned block is left out, as `sfree` compares with `malloc`."""
        align, size = self.asked.get(record.reference, (1, None))
        if record.kind == FREE or (align > SMALL_ALIGN and size == record.first):
            return 'free ' + self.place(record)
        return 'sfree %s %d' % (self.place(record), record.first)

    def writes_behind(self, record):
        """The stray writes to a block that this record frees; its first free has them."""
        writes = self.freed_writes.pop(record.reference, []) if not record.offset else []
        return [step for write in writes for step in self.stray_steps(write)]

    def stray_steps(self, record):
        """One stray write."""
        self.stray_writes += 1
        return write_steps(self.names[record.reference], record.offset, record.first, record.second)

    def new_name(self, record):
        """Gives the record's block a name, and keeps what was asked for."""
        name = next(self.all_names)
        self.names[record.block] = name
        align = record.first if record.kind == ALIGNED else 2 ** record.second if record.kind == INHERITED else 1
        self.asked[record.block] = (align, asked_of(record))
        return name

    def place(self, record):
        """What a record names, as a trace refers to it."""
        if record.reference:
            name = self.names[record.reference]
            return '%s+%d' % (name, record.offset) if record.offset else name
        return '@%x' % outside_address(record.offset) if record.offset else 'null'
