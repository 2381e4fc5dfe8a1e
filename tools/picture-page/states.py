"""Follows the entries of a region: which slab, slot or large block each entry is about, and what it changes there.

Each slab, slot and large block is a thing with a number and a state. An entry's changes are pairs of a thing and its
new state, so that the page needs no rules of its own.
"""

import bisect
from collections import namedtuple

from checker import (
    CANARY, DOUBLE_FREE, FREED, GIVEN, NO_SLOT, NOT_LIVE, OVERWRITTEN, FILLED, TRAP, UNUSED, WRONG_SIZE)
from journal import NoJournal
from model import PAGE, QUARANTINED_BELOW, SIZE_CLASSES

# States of a slot; a large block has the middle three. WRITTEN is added where a byte that is not zero was written to
# the usable bytes of a slot that is not live.
NEVER, LIVE, QUARANTINED, AGAIN, CONDEMNED = range(5)
WRITTEN = 8
# States of a slab.
SHUT, OPEN, RETIRED = range(3)

FINDINGS = {OVERWRITTEN, NO_SLOT, UNUSED, DOUBLE_FREE, WRONG_SIZE, CANARY, TRAP, NOT_LIVE}
MOST_TOUCHED = 64

Effect = namedtuple('Effect', 'subject address delta changes')


def address_of(entry):
    """The address that an entry is about, or None."""
    reply, call = entry.reply, entry.call
    if reply[0] in (GIVEN, OVERWRITTEN, TRAP):
        return reply[1]
    return None if call[0] == 'allot' else call[1]


class Things:
    """Numbers for things, and the state of each."""

    def __init__(self):
        self.states = []

    def add(self, count):
        """So many new things; the number of the first."""
        first = len(self.states)
        self.states += [0] * count
        return first


class Follower:
    """What both kinds of region share."""

    def __init__(self, region, things):
        self.region, self.things, self.changes = region, things, []

    def become(self, thing, state):
        """A change of one thing."""
        self.things.states[thing] = state
        self.changes += [thing, state]

    def follow(self, placed):
        """What an entry is about and what it changes."""
        self.placed, self.changes = placed, []
        delta = getattr(self, placed.entry.call[0])(placed.entry)
        address = address_of(placed.entry)
        subject = None if address is None else self.thing_at(address)
        return Effect(-1 if subject is None else subject, address or 0, delta or 0, self.changes)

    def need(self, condition, why):
        """What an entry says has to fit what stood before it."""
        if not condition:
            raise NoJournal('line %d: %s' % (self.placed.line, why))

    def measure(self, entry):
        """Asking for a size changes nothing."""

    def fetch(self, entry):
        """Reading changes nothing."""


class ClassFollower(Follower):
    """The slabs of a class region that are ever opened, and those that a finding is about."""

    def __init__(self, region, config, things):
        super().__init__(region, things)
        self.size_class = SIZE_CLASSES[region.number % len(SIZE_CLASSES)]
        self.stride, self.config = self.size_class.slots + 1, config
        self.slabs = self.shown_slabs()
        self.index = {n: k for k, n in enumerate(self.slabs)}
        self.base = things.add(len(self.slabs) * self.stride)
        self.usable = {}

    def shown_slabs(self):
        """The numbers of the slabs to show: a guard is shown beside the slab before it."""
        entries = [placed.entry for placed in self.region.entries]
        opened = {entry.opened for entry in entries if entry.opened is not None}
        touched = set()
        for entry in entries:
            if entry.reply[0] in FINDINGS and len(touched) < MOST_TOUCHED:
                touched.add(self.slab_beside(address_of(entry)))
        limit = self.config.class_region // self.size_class.slab
        return sorted(n for n in opened | touched if n is not None and n < limit)

    def slab_beside(self, address):
        """The slab of an address, or the one before it where that is a guard."""
        if address < self.region.first:
            return None
        n, interval = (address - self.region.first) // self.size_class.slab, self.config.guard_interval
        return n - 1 if n % (interval + 1) == interval else n

    def slab_thing(self, n):
        """The thing that is slab n, or None where it is not shown."""
        return self.base + self.index[n] * self.stride if n in self.index else None

    def thing_at(self, address):
        """The slot at an address, or else the slab, which stands for its rest and the guard behind it, or None."""
        n = self.slab_beside(address)
        slab = self.slab_thing(n)
        if slab is None:
            return None
        slot = (address - self.region.first - n * self.size_class.slab) // self.size_class.slot
        return slab + 1 + slot if slot < self.size_class.slots else slab

    def slot_at(self, address, states, why):
        """The slot that begins at an address, in one of these states, of an open slab."""
        n, within = divmod(address - self.region.first, self.size_class.slab)
        slab = self.slab_thing(n)
        slot, rest = divmod(within, self.size_class.slot)
        self.need(slab is not None and self.things.states[slab] == OPEN and rest == 0, why)
        self.need(slot < self.size_class.slots, why)
        self.need(self.things.states[slab + 1 + slot] % WRITTEN in states, why)
        return slab + 1 + slot

    def allot(self, entry):
        """A slab may be opened; a slot is given, or found overwritten."""
        if entry.opened is not None:
            slab = self.slab_thing(entry.opened)
            self.need(slab is not None and self.things.states[slab] != OPEN, 'the slab cannot be opened')
            self.become(slab, OPEN)
        if entry.reply[0] not in (GIVEN, OVERWRITTEN):
            return 0
        is_given = entry.reply[0] == GIVEN
        slot = self.slot_at(entry.reply[1], (NEVER, AGAIN), 'the slot is not available')
        self.become(slot, LIVE if is_given else CONDEMNED)
        return entry.reply[2] if is_given else 0

    def giveback(self, entry):
        """A live slot goes to quarantine, another may leave it, and a slab may be retired."""
        if entry.reply[0] != FREED:
            return 0
        self.become(self.slot_at(entry.call[1], (LIVE,), 'the slot is not live'), QUARANTINED)
        if entry.released is not None:
            slot = self.slot_at(entry.released, (QUARANTINED,), 'the released slot is not in quarantine')
            self.become(slot, self.things.states[slot] - QUARANTINED + AGAIN)
        for n, state in ((entry.retired, RETIRED), (entry.purged, OPEN)):
            if n is not None:
                self.empty(n, state)
        return -self.size_class.usable

    def empty(self, n, state):
        """A slab drops what was written to it."""
        slab = self.slab_thing(n)
        self.need(slab is not None and self.things.states[slab] == OPEN, 'the slab is not open')
        self.become(slab, state)
        for slot in range(slab + 1, slab + self.stride):
            if self.things.states[slot] >= WRITTEN:
                self.become(slot, self.things.states[slot] - WRITTEN)

    def fill(self, entry):
        """Slots that are not live are marked where something but zeros was written to their usable bytes."""
        if entry.reply[0] != FILLED:
            return
        address = entry.call[1]
        for byte, length in entry.call[2]:
            if byte:
                self.write(address - self.region.first, address + length - self.region.first)
            address += length

    def write(self, low, high):
        """Marks the slots that are not live and have a usable byte among these."""
        slot_size = self.size_class.slot
        for n in range(low // self.size_class.slab, (high - 1) // self.size_class.slab + 1):
            slab, start = self.slab_thing(n), n * self.size_class.slab
            self.need(slab is not None and self.things.states[slab] == OPEN, 'the written slab is not open')
            last = min(self.size_class.slots - 1, (high - 1 - start) // slot_size)
            for k in range(max(0, (low - start) // slot_size), last + 1):
                begins = low < start + k * slot_size + self.size_class.usable
                state = self.things.states[slab + 1 + k]
                if begins and state in (NEVER, QUARANTINED, AGAIN):
                    self.become(slab + 1 + k, state + WRITTEN)

    def described(self):
        """What the page has to know of the region."""
        c = self.size_class
        return {'number': self.region.number, 'first': self.region.first, 'base': self.base, 'slot': c.slot,
                'slots': c.slots, 'slab': c.slab, 'usable': c.usable, 'slabs': self.slabs}


class LargeFollower(Follower):
    """Each large block that was ever given, in its order."""

    def __init__(self, region, config, things):
        super().__init__(region, things)
        self.base = things.add(sum(placed.entry.reply[0] == GIVEN for placed in region.entries))
        self.blocks, self.starts, self.latest = [], [], {}

    def allot(self, entry):
        """A block is placed, with its guards."""
        if entry.reply[0] != GIVEN:
            return 0
        address, size = entry.reply[1:]
        self.need(entry.guard is not None, 'the block has no guard')
        bisect.insort(self.starts, address)
        self.latest[address] = self.base + len(self.blocks)
        self.blocks.append((address, size, entry.guard * PAGE))
        self.become(self.latest[address], LIVE)
        return size

    def block_of(self, address, state, why):
        """The block at an address, in a state."""
        thing = self.latest.get(address)
        self.need(thing is not None and self.things.states[thing] == state, why)
        return thing

    def giveback(self, entry):
        """A live block goes to quarantine, or is free at once; another may leave quarantine."""
        if entry.reply[0] != FREED:
            return 0
        thing = self.block_of(entry.call[1], LIVE, 'the block is not live')
        size = self.blocks[thing - self.base][1]
        if size < QUARANTINED_BELOW:
            self.become(thing, QUARANTINED)
        else:
            self.leave(thing)
        if entry.released is not None:
            self.leave(self.block_of(entry.released, QUARANTINED, 'the released block is not in quarantine'))
        return -size

    def leave(self, thing):
        """The range of a block is free."""
        self.starts.remove(self.blocks[thing - self.base][0])
        self.become(thing, AGAIN)

    def fill(self, entry):
        """Only live blocks can be written to."""

    def thing_at(self, address):
        """The block that has an address, within it or within its guards, or that began there last, or None."""
        k = bisect.bisect_right(self.starts, address)
        for start in self.starts[max(0, k - 1):k + 1]:
            if self.has(self.latest[start], address):
                return self.latest[start]
        return self.latest.get(address)

    def has(self, thing, address):
        """Whether an address lies in a block or in its guards."""
        start, size, guard = self.blocks[thing - self.base]
        return start - guard <= address < start + size + guard

    def described(self):
        """What the page has to know of the region."""
        return {'number': self.region.number, 'first': self.region.first, 'base': self.base, 'blocks': self.blocks}
