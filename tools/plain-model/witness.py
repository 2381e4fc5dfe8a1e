"""Does a journal tell what the scripts of a trace did, in whatever order their threads ran?

The scripts are gone through again, each reply being taken from the journal: every part of every
call has to stand once in the history of its region, under its script's numbers, and nothing else
may stand there.  A caller's entries have to ascend, and those of a round to stand before those of
every later round.
"""

from collections import defaultdict

from checker import read_entry
from model import (
    CLASSES, LARGE_REGION, REPLY_NUMBERS, SIZE_CLASSES, Heap, Who, read_trace, run_rounds)

REPLY_NAMES = {number: name for name, number in REPLY_NUMBERS.items()}


class Mismatch(Exception):
    """What the journal lacks, has too much, or has in a wrong order."""


def read_histories(journal):
    """The entries of each region."""
    histories, region = {}, None
    for line in journal.decode('ascii').splitlines()[3:-1]:
        if line.startswith('region '):
            region = int(line.split(' ')[1])
            histories[region] = []
        elif not line.startswith('closed '):
            histories[region].append(read_entry(line))
    return histories


class ToldRegion:
    """A region whose replies are those of its history."""

    def __init__(self, number, entries):
        self.number = number
        self.c = SIZE_CLASSES[number % CLASSES] if number != LARGE_REGION else None
        self.entries, self.asked = {}, set()
        for entry in entries:
            who = Who(entry.caller, entry.round, entry.thread, entry.step, entry.part)
            if who in self.entries:
                raise Mismatch('region %d has %r twice' % (number, who))
            self.entries[who] = entry

    def told(self, who, *call):
        """The reply that the history has for a part."""
        entry = self.entries.get(who)
        if entry is None or entry.call != call:
            raise Mismatch('region %d: %r should be %r, is %r' % (self.number, who, call, entry))
        self.asked.add(who)
        return (REPLY_NAMES[entry.reply[0]],) + entry.reply[1:]

    def allot(self, who, asked, align):
        """Asks for a block."""
        return self.told(who, 'allot', asked, align)

    def give_back(self, who, addr, stated):
        """Gives a block back."""
        return self.told(who, 'giveback', addr, stated)

    def measure(self, who, addr):
        """Asks for the usable bytes."""
        return self.told(who, 'measure', addr)

    def fetch(self, who, addr, length):
        """Reads bytes."""
        return self.told(who, 'fetch', addr, length)

    def fill(self, who, addr, runs):
        """Writes bytes."""
        return self.told(who, 'fill', addr, runs)


class ToldHeap(Heap):
    """A heap over such regions."""

    def __init__(self, config, histories):
        self.config = config
        self.regions = [ToldRegion(number, histories[number])
                        for number in range(config.arenas * CLASSES)]
        self.large = ToldRegion(LARGE_REGION, histories[LARGE_REGION])


def check_order(number, entries):
    """Rounds ascend, and each caller's entries ascend by step and part."""
    latest, round_number = defaultdict(lambda: (0, 0)), 0
    for entry in entries:
        if entry.round < round_number:
            raise Mismatch('region %d: round %d after %d' % (number, entry.round, round_number))
        round_number = entry.round
        if (entry.step, entry.part) <= latest[entry.caller]:
            raise Mismatch('region %d: a step of caller %d too late' % (number, entry.caller))
        latest[entry.caller] = (entry.step, entry.part)


def witnessed(trace_text, journal, config):
    """The results that a journal tells for a trace, or a mismatch."""
    histories = read_histories(journal)
    heap = ToldHeap(config, histories)
    results = run_rounds(heap, read_trace(trace_text))
    for region in heap.all_regions():
        check_order(region.number, histories[region.number])
        if len(region.asked) != len(region.entries):
            extra = set(region.entries) - region.asked
            raise Mismatch('region %d: no step made %r' % (region.number, sorted(extra)[:3]))
    return results


def interleavings(journal):
    """How often one caller's entry follows another's of the same round, back and forth."""
    count = 0
    for entries in read_histories(journal).values():
        for a, b, c in zip(entries, entries[1:], entries[2:]):
            if a.round == b.round == c.round and a.caller != b.caller and b.caller != c.caller:
                count += 1
    return count
