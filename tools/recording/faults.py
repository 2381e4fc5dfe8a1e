"""A fault: what the recorder saw of a misuse, with its stacks, and what the allocator would do of it."""

import json

from notes import FREE, FREED_WRITE, GUARD_READ, GUARD_WRITE, LIVE, REALLOC, SIZED_FREE, TAIL_WRITE, USABLE
from sizes import usable
from stacks import lines_of, shown, words_of

CALLS = {FREE: 'free', SIZED_FREE: 'free', REALLOC: 'realloc', USABLE: 'malloc_usable_size'}


def count(number, word):
    """A number with its word."""
    return '%s %s%s' % (format(number, ','), word, '' if number == 1 else 's')


class Fault:
    """A fault. Its `stacks` have the frames of where the block was allocated and freed, where it was right for the last
    time (`right`), where the fault was made or seen (`here`), and where a second run saw it made (`done`).

    `blocks` has the numbers of its blocks, as equal faults are one. `stops` has, by the seed of a replay, the text with
    which the allocator stopped it, and the stack of that call; `tried` the seeds; `passes` says why it would not.
    `is_first` is false where an earlier fault is of the same block, `is_early` is true where it came before the calls
    that are replayed.
    """

    def __init__(self, seen, sites):
        self.seen, self.times, self.blocks = seen, 1, {seen.block}
        self.site_hash = sites.stable_hash(seen.given.site) if sites and seen.given.site else None
        events = {'allocated': seen.given, 'freed': seen.freed, 'right': seen.right, 'here': seen.here}
        self.stacks = {name: sites.frames(event.site) if sites else [] for name, event in events.items()}
        self.kind, self.what = self.kind_of(), self.what_of()
        self.done_by = None
        self.stops, self.tried, self.passes = {}, [], None
        self.is_first, self.is_early = True, False

    def kind_of(self):
        """What was done."""
        seen = self.seen
        if seen.kind in (GUARD_READ, GUARD_WRITE, TAIL_WRITE, FREED_WRITE):
            word = 'read' if seen.kind == GUARD_READ else 'write'
            if seen.kind == TAIL_WRITE or (seen.kind != FREED_WRITE and seen.state == LIVE):
                return word + ' past the end of a block'
            return 'read of a freed block' if word == 'read' else 'write to a freed block'
        call = CALLS[seen.kind]
        if not seen.block:
            return call + ' of an address that was never given'
        if seen.offset:
            return call + ' of an address inside a %sblock' % ('' if seen.state == LIVE else 'freed ')
        if seen.state == LIVE:
            return 'free of a block by the wrong size'
        return 'double free' if call == 'free' else call + ' of a freed block'

    def what_of(self):
        """How far it went, or where."""
        seen = self.seen
        if seen.kind == TAIL_WRITE:
            return self.changed(seen.offset - seen.size, 'past its end', 'right behind it')
        if seen.kind == FREED_WRITE:
            return self.changed(seen.offset, 'from its start', 'from its start on')
        if seen.kind in (GUARD_READ, GUARD_WRITE):
            return 'at byte %s' % format(seen.offset, ',')
        if not seen.block:
            return 'the address 0x%x' % seen.offset
        if seen.offset:
            return '%s above its start' % count(seen.offset, 'byte')
        return 'freed as one of %s' % count(seen.first, 'byte') if seen.state == LIVE else ''

    def changed(self, distance, where, directly):
        """Which bytes were changed."""
        seen = self.seen
        place = '%s %s' % (count(distance, 'byte'), where) if distance else directly
        return '%s changed %s, the first to %02x' % (count(seen.end - seen.offset, 'byte'), place, seen.second)

    def is_write(self):
        """Whether it is a stray write that was seen later."""
        return self.seen.kind in (TAIL_WRITE, FREED_WRITE)

    def was_traced(self):
        """Whether a second run saw it."""
        return self.seen.kind in (GUARD_READ, GUARD_WRITE)

    def key(self):
        """What is the same in equal faults: of a write that a second run saw made, its line."""
        names = ('allocated', 'done') if 'done' in self.stacks else ('allocated', 'freed', 'here')
        return (self.kind, *(tuple(self.stacks[name]) for name in names))

    def weight(self):
        """The most certain first: what a call did, what a second run saw, and what was seen later; then by time."""
        return (self.is_write() and 'done' not in self.stacks, self.was_traced(), self.seen.here.call)

    def has_lines(self, most):
        """Whether a frame that is shown has a line."""
        return any(frame.file for frames in self.stacks.values() for frame in shown(frames, most))

    def take_in(self, other):
        """Counts an equal fault."""
        self.times += other.times
        self.blocks |= other.blocks
        self.stops = {**other.stops, **self.stops}
        self.tried = sorted({*self.tried, *other.tried})

    # ---- in words ----

    def title(self):
        """What was done of which block."""
        text = self.kind
        if self.seen.block:
            text += ': %s, allocated by thread %d' % (count(self.seen.size, 'byte'), self.seen.given.thread)
        for part in [self.what, 'seen %s times' % format(self.times, ',') if self.times > 1 else '']:
            text += ('; ' if self.seen.block or part != self.what else ': ') + part if part else ''
        return text

    def lines_of_doing(self, most):
        """Where it was done: by the second run, between two calls, or by a call."""
        thread = self.seen.here.thread
        if 'done' in self.stacks:
            return lines_of('here, by thread %d (second run)' % self.done_by, self.stacks['done'], most) + \
                lines_of('seen later, by thread %d' % thread, self.stacks['here'], most)
        if self.is_write():
            return lines_of('by someone between (thread %d)' % self.seen.right.thread, self.stacks['right'], most) + \
                lines_of('and (thread %d)' % thread, self.stacks['here'], most)
        when = ' (second run)' if self.was_traced() else ''
        return lines_of('here, by thread %d%s' % (thread, when), self.stacks['here'], most)

    def paragraph(self, most):
        """The fault in lines, with at most so many frames of each stack."""
        seen = self.seen
        lines = [self.title()] + self.lines_of_doing(most)
        if seen.block and seen.state != LIVE:
            lines += lines_of('freed by thread %d' % seen.freed.thread, self.stacks['freed'], most)
        if seen.block:
            lines += lines_of('allocated by thread %d' % seen.given.thread, self.stacks['allocated'], most)
        return '\n'.join(lines + ['  ' + line for line in [self.verdict()] if line])

    def verdict(self):
        """What the allocator would do of it. Of what follows from an earlier fault of the block nothing is said."""
        if self.is_early:
            return 'It came before the calls that are replayed.'
        if not self.is_first or not self.tried:
            return ''
        if not self.stops:
            seeds = ', with each of %d seeds' % len(self.tried) if len(self.tried) > 1 else ''
            return 'A hardened allocator would let it pass%s: %s.' % (seeds, self.passes)
        seeds = ' with %d of %d seeds' % (len(self.stops), len(self.tried)) if len(self.tried) > 1 else ''
        text, frames = self.stops[min(self.stops)]
        where = ', at ' + words_of(shown(frames, 1)[0]) if frames else ''
        if self.is_write() and text.startswith('trap'):
            where = ', at the write itself'
        return 'A hardened allocator stops it%s: "%s"%s.' % (seeds, text, where)

    def as_json(self):
        """The fault as a line of JSON."""
        seen = self.seen
        stacks = {name: [{'file': one.file, 'line': one.line, 'function': one.function, 'module': one.module,
                          'offset': one.offset} for one in frames] for name, frames in self.stacks.items() if frames}
        return json.dumps({'kind': self.kind, 'block': seen.block, 'size': seen.size if seen.block else None,
                           'offset': seen.offset, 'times': self.times, 'thread': seen.here.thread, 'stacks': stacks,
                           'allocator': self.verdict()})


# ---- why the allocator would let a fault pass ----

def why_tail_passes(seen, was_freed):
    """Why a write past the end would pass."""
    size, is_large = usable(seen.size, seen.align)
    if seen.end <= size:
        return 'the block has %s that may be used, and no byte behind them was changed' % count(size, 'byte')
    if not is_large and seen.end == size + 1 and seen.second == 0:
        return 'the first byte of a canary is zero, as is the one that was written'
    if not was_freed:
        return 'the block was not freed any more, so its canary was not compared'
    return 'no byte that it compares was changed'


def why_freed_passes(seen):
    """Why a write to a freed block would pass."""
    size, _ = usable(seen.size, seen.align)
    if seen.second == 0 and seen.end - seen.offset == 1:
        return 'a freed slot is zero, as is the byte that was written'
    if seen.offset >= size:
        return 'the last 8 bytes of a freed slot are not compared'
    return 'its slot was not given again before the end'


def why_it_passes(seen, was_freed):
    """Why the allocator would not stop a fault."""
    if seen.kind == TAIL_WRITE:
        return why_tail_passes(seen, was_freed)
    if seen.kind == FREED_WRITE:
        return why_freed_passes(seen)
    if seen.kind == SIZED_FREE and usable(seen.size, seen.align) == usable(seen.first, 0):
        return 'blocks of both sizes lie in slots of one size'
    return 'the replay shows nothing here'
