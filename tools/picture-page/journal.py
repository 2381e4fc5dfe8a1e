"""Reads the text of a journal, and puts the entries of all regions into one order.

A journal has an order within each region alone. `in_one_order` keeps that of each region, that of each script's calls,
and the rounds; between these nothing is known, and of the entries that may come next the one of the lowest thread does.
"""

import heapq
import sys
from collections import namedtuple
from pathlib import Path

sys.path.insert(0, str(Path(__file__).resolve().parent.parent / 'plain-model'))
from checker import Fault, number, read_config, read_entry  # noqa: E402 (it stands beside this folder)

LARGE_REGION = 196

Placed = namedtuple('Placed', 'line region entry')
Region = namedtuple('Region', 'number first entries')
Journal = namedtuple('Journal', 'config seed regions')


class NoJournal(Exception):
    """Why a text is no journal."""


class Lines:
    """The lines of a text, one after another."""

    def __init__(self, data):
        text = data.decode('latin-1')
        if not text.startswith('hmjournal 1\n'):
            raise NoJournal('it does not begin with the line "hmjournal 1"')
        if not text.endswith('\n'):
            raise NoJournal('its last line is not ended')
        self.lines, self.at = text[:-1].split('\n'), 1

    def take(self, what, read):
        """The next line as `read` reads it, which has to be `what`."""
        self.at += 1
        try:
            return read(self.lines[self.at - 1])
        except (Fault, IndexError):
            raise NoJournal('line %d is not %s' % (self.at, what)) from None


def words_of(line, first, count):
    """The words of a line behind its first one, which is known, as numbers."""
    words = line.split(' ')
    if words[0] != first or len(words) != count + 1:
        raise Fault('BadText')
    return [number(word) for word in words[1:]]


def read_region(lines, former):
    """The next region, or None at the journal's end."""
    head = lines.take('a region or the end', lambda line: line == 'end' or words_of(line, 'region', 3))
    if head is True:
        return None
    region, first, count = head
    if region <= former or region > LARGE_REGION:
        raise NoJournal('line %d: the regions do not ascend up to %d' % (lines.at, LARGE_REGION))
    entries = []
    for _ in range(min(count, len(lines.lines))):
        entry = lines.take('an entry', read_entry)
        entries.append(Placed(lines.at, region, entry))
    lines.take('"closed" and a number', lambda line: words_of(line, 'closed', 1))
    return Region(region, first, entries)


def read_journal(data):
    """The journal that the bytes spell."""
    lines = Lines(data)
    config = lines.take('the configuration', read_config)
    seed = lines.take('"seed" and a number', lambda line: words_of(line, 'seed', 1))[0]
    regions, former = [], -1
    while True:
        region = read_region(lines, former)
        if region is None:
            break
        former = region.number
        regions.append(region)
    if lines.at != len(lines.lines):
        raise NoJournal('line %d follows the end' % (lines.at + 1))
    return Journal(config, seed, regions)


def who(placed):
    """Round, thread, step and part of an entry."""
    entry = placed.entry
    return entry.round, entry.thread, entry.step, entry.part


def need_ascending(chain, key):
    """The entries of a chain have to ascend by a key."""
    for one, other in zip(chain, chain[1:]):
        if key(one) > key(other):
            raise NoJournal('line %d: the entry belongs before that of line %d' % (other.line, one.line))


def in_one_order(journal):
    """The entries of all regions in one order."""
    chains = {}
    for region in journal.regions:
        need_ascending(region.entries, lambda placed: placed.entry.round)
        for placed in region.entries:
            chains.setdefault(placed.entry.caller, []).append(placed)
    scripts = [sorted(chain, key=who) for chain in chains.values()]
    after, waits = links([region.entries for region in journal.regions] + scripts)
    ready = [(who(placed), line) for line, (placed, count) in waits.items() if count == 0]
    heapq.heapify(ready)
    ordered = []
    while ready:
        _, line = heapq.heappop(ready)
        ordered.append(waits[line][0])
        for later in after[line]:
            waits[later][1] -= 1
            if waits[later][1] == 0:
                heapq.heappush(ready, (who(waits[later][0]), later))
    if len(ordered) != len(waits):
        raise NoJournal('no order keeps that of each region and that of each thread')
    return ordered


def links(chains):
    """By lines: which entries follow each one at once in a chain, and each one with how many it follows."""
    after, waits = {}, {}
    for chain in chains:
        for placed in chain:
            after.setdefault(placed.line, [])
            waits.setdefault(placed.line, [placed, 0])
        for one, other in zip(chain, chain[1:]):
            after[one.line].append(other.line)
            waits[other.line][1] += 1
    return after, waits
