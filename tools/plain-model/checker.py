"""A plain checker of journals: is a text a journal, was each call allowed, was each choice drawn?

It looks back over what stands in the journal, and has no lists of slabs, no array, no ring and no
parking places of its own.  `check` gives ('yes', entries) or ('no', line, fault), the fault being
'BadText', 'NotLegal' or 'NotDrawn'.
"""

import re
from collections import namedtuple

from model import (
    CHOICES, CLASSES, GREATEST_ALIGN, GREATEST_REQUEST, KEPT_EMPTY_BYTES, LARGE_ARRAY,
    LARGE_REGION, LARGE_RING, LARGE_SPACE_START, PAGE, QUARANTINED_BELOW, Config, Keystream,
    Shape, block_size, bytes_of, canary_of, large_size, raised, rounded_up, runs_of, scaled)

NUMBER = re.compile(r'0|[1-9][0-9]*')
BYTE = re.compile(r'[0-9a-f]{2}')
BITS8, BITS32, BITS64 = 2 ** 8 - 1, 2 ** 32 - 1, 2 ** 64 - 1
GREATEST_ADDRESS = 2 ** 47
FIELDS = (('caller', BITS32), ('round', BITS32), ('thread', BITS32), ('step', BITS32),
          ('part', BITS8), ('before', BITS64), ('after', BITS64), ('used', BITS8),
          ('w0', BITS32), ('w1', BITS32), ('w2', BITS32))
Entry = namedtuple('Entry', [name for name, _ in FIELDS] + list(CHOICES) + ['call', 'reply'])
CALLS = {'allot': 'nn', 'giveback': 'no', 'measure': 'n', 'fetch': 'nn', 'fill': 'nr'}
REPLIES = {1: 'nn', 2: 'nnb', 3: '', 4: '', 5: '', 7: '', 8: '', 9: '', 10: '', 11: 'nn', 12: 'nn',
           13: 'n', 14: 'r', 15: '', 16: 'n', 17: ''}
GIVEN, OVERWRITTEN, EXHAUSTED, NO_SPACE, PAGES_FAILED, FREED = 1, 2, 3, 4, 5, 7
NO_SLOT, UNUSED, DOUBLE_FREE, WRONG_SIZE, CANARY = 8, 9, 10, 11, 12
USABLE, BYTES, FILLED, TRAP, NOT_LIVE = 13, 14, 15, 16, 17


class Fault(Exception):
    """A line at fault: its kind."""


def need(condition, kind):
    """Raises a fault where a condition does not hold."""
    if not condition:
        raise Fault(kind)


# --- text ---------------------------------------------------------------------------------------

def number(word, greatest=BITS64):
    """The value of a decimal number."""
    need(NUMBER.fullmatch(word) is not None, 'BadText')
    need(len(word) <= 20 and int(word) <= greatest, 'BadText')
    return int(word)


def optional(word):
    """A number, or None for `-`."""
    return None if word == '-' else number(word)


def byte(word):
    """The value of two digits."""
    need(BYTE.fullmatch(word) is not None, 'BadText')
    return int(word, 16)


def runs(word):
    """Runs of bytes: lengths from 1, neighbours different, their sum a number of 64 bits."""
    if word == '-':
        return []
    pairs = []
    for piece in word.split(','):
        parts = piece.split('*')
        need(len(parts) == 2, 'BadText')
        pairs.append((byte(parts[0]), number(parts[1])))
    need(all(length >= 1 for _, length in pairs), 'BadText')
    need(all(a[0] != b[0] for a, b in zip(pairs, pairs[1:])), 'BadText')
    need(sum(length for _, length in pairs) <= BITS64, 'BadText')
    return pairs


READERS = {'n': number, 'o': optional, 'b': byte, 'r': runs}


def fields(words, shape):
    """The values of words, by a letter for each."""
    need(len(words) == len(shape), 'BadText')
    return tuple(READERS[letter](word) for word, letter in zip(words, shape))


def read_entry(line):
    """An entry from its line."""
    words = line.split(' ')
    need(len(words) >= 21, 'BadText')
    values = [number(word, greatest) for word, (_, greatest) in zip(words, FIELDS)]
    values += [optional(word) for word in words[11:18]]
    need(words[18] in CALLS, 'BadText')
    end = 19 + len(CALLS[words[18]])
    call = (words[18],) + fields(words[19:end], CALLS[words[18]])
    need(len(words) > end + 1 and words[end] == ':', 'BadText')
    kind = number(words[end + 1])
    need(kind in REPLIES, 'BadText')
    return Entry(*values, call, (kind,) + fields(words[end + 2:], REPLIES[kind]))


def read_config(line):
    """The configuration from its line."""
    words = line.split(' ')
    need(len(words) == 10 and words[0] == 'config', 'BadText')
    config = Config(*[number(word) for word in words[1:]])
    page_bound = config.class_region % PAGE == 0 and config.large_space % PAGE == 0
    need(page_bound and 1 <= config.arenas <= 4, 'BadText')
    need(2 ** 20 <= config.class_region <= 2 ** 35, 'BadText')
    need(2 ** 20 <= config.large_space <= 2 ** 40, 'BadText')
    need(1 <= config.guard_interval <= 8 and 1 <= config.park_length <= 32, 'BadText')
    need(config.array_base <= 1 and config.ring_base <= 1, 'BadText')
    need(config.check_reuse <= 1 and config.random_slots <= 1, 'BadText')
    return config


# --- what both kinds of region share ------------------------------------------------------------

class History:
    """What the entries so far have made of one region."""

    def __init__(self, seed, region):
        self.stream, self.place, self.last_faults = Keystream(seed, region), 0, 0

    def step(self, entry):
        """Takes the next entry: whether it is allowed, and then whether it was drawn."""
        used = min(entry.used, 3)
        self.entry, self.words = entry, (entry.w0, entry.w1, entry.w2)[:used]
        need(not any((entry.w0, entry.w1, entry.w2)[used:]), 'NotLegal')
        need(entry.before == self.last_faults and entry.after >= entry.before, 'NotLegal')
        self.allowed_choices, self.drawn_rule = set(), None
        getattr(self, entry.call[0])(*entry.call[1:])
        for name in CHOICES:
            need(name in self.allowed_choices or getattr(entry, name) is None, 'NotLegal')
        self.last_faults = entry.after
        self.check_drawn()

    def check_drawn(self):
        """The words are the next ones of the stream, as many as the entry needs."""
        wanted, rule = self.drawn_rule or (0, lambda: True)
        need(self.entry.used == wanted, 'NotDrawn')
        need(all(word == self.stream.word_at(self.place + k)
                 for k, word in enumerate(self.words)), 'NotDrawn')
        self.place += wanted
        need(rule(), 'NotDrawn')

    def reply_is(self, *reply):
        """The reply has to be this one."""
        need(self.entry.reply == reply, 'NotLegal')

    def rose(self):
        """Whether the count of faults rose in this entry."""
        return self.entry.after > self.entry.before

    def fetch(self, addr, length):
        """Reads bytes."""
        need(1 <= length <= GREATEST_REQUEST and addr < GREATEST_ADDRESS, 'NotLegal')
        data, trap = self.accessible(addr, length)
        if trap is not None:
            self.reply_is(TRAP, trap)
        else:
            self.reply_is(BYTES, runs_of(data))

    def fill(self, addr, pairs):
        """Writes bytes."""
        length = sum(count for _, count in pairs)
        need(1 <= length <= GREATEST_REQUEST and addr < GREATEST_ADDRESS, 'NotLegal')
        _, trap = self.accessible(addr, length)
        if trap is not None:
            self.reply_is(TRAP, trap)
        else:
            self.reply_is(FILLED)
            self.put(addr, bytes_of(pairs))


class Delay:
    """The frees so far, and which of them are still quarantined."""

    def __init__(self, array, ring):
        self.array, self.ring = array, ring
        self.frees, self.last_at, self.quarantined = [], {}, set()
        self.latest_in, self.left = {}, []

    def add(self, addr, released):
        """One more free, with what was released at it."""
        self.frees.append(addr)
        self.last_at[addr] = len(self.frees) - 1
        self.quarantined.add(addr)
        if released is not None:
            need(released in self.quarantined, 'NotLegal')
            later = len(self.frees) - 1 - self.last_at[released]
            need(later >= self.ring + min(self.array, 1), 'NotLegal')
            self.quarantined.discard(released)
        need(len(self.quarantined) <= self.array + self.ring, 'NotLegal')

    def drawn(self, word):
        """What has to be released at the last free, by the word of its place."""
        addr, left = self.frees[-1], None
        if self.array:
            place = scaled(word, self.array)
            left, self.latest_in[place] = self.latest_in.get(place), addr
        else:
            left = addr
        if left is None:
            return None
        self.left.append(left)
        return self.left[-1 - self.ring] if len(self.left) > self.ring else None


# --- a region of one class ----------------------------------------------------------------------

class ClassHistory(History):
    """What the entries so far have made of a class region."""

    def __init__(self, config, seed, region):
        super().__init__(seed, region)
        self.config = config
        self.shape = Shape(config, region, self.stream.word_at(0))
        self.place = 1
        self.first, self.c = self.shape.first, self.shape.size_class
        self.live, self.condemned, self.given = {}, set(), set()
        self.open, self.parked, self.shut, self.next = {}, [], [], 0
        self.taken = {}
        self.since, self.clock = {}, 0
        self.delay = Delay(self.shape.array, self.shape.ring)
        self.retirements = []

    def slab_state(self, n):
        """'full', 'partial' or 'empty', of an open slab."""
        return self.kind_of(len(self.taken[n]))

    def kind_of(self, taken):
        """Likewise, by the number of slots that are not available."""
        return 'empty' if taken == 0 else 'partial' if taken < self.c.slots else 'full'

    def change(self, n, slot, is_taken):
        """A slot is taken or released; when the slab came to its state is kept."""
        self.clock += 1
        before = self.slab_state(n)
        (self.taken[n].add if is_taken else self.taken[n].discard)(slot)
        if self.slab_state(n) != before:
            self.since[n] = self.clock

    def of_state(self, state):
        """The open slabs of a state."""
        return [n for n in self.open if self.slab_state(n) == state]

    def allot(self, asked, align):
        """Asks for a block."""
        need(align == 1 and raised(asked) <= self.c.size, 'NotLegal')
        for state in ('partial', 'empty'):
            if self.of_state(state):
                return self.allot_from(self.of_state(state), asked)
        if self.shut:
            return self.allot_opening(self.shut[0], asked)
        if self.next < self.shape.limit:
            return self.allot_opening(self.next, asked)
        return self.reply_is(EXHAUSTED)

    def allot_opening(self, n, asked):
        """The slot comes from a slab that has to be opened."""
        if self.entry.reply[0] == PAGES_FAILED:
            return need(self.c.number and self.rose(), 'NotLegal')
        self.allowed_choices.add('opened')
        need(self.entry.opened == n, 'NotLegal')
        if self.c.number:
            self.allowed_choices.add('canary')
            need(self.entry.canary is not None, 'NotLegal')
        if self.shut:
            self.shut.pop(0)
        else:
            self.next = self.shape.after(n)
        self.open[n] = (bytearray(self.c.slab if self.c.number else 0), self.entry.canary)
        self.taken[n] = set()
        self.clock += 1
        self.since[n] = self.clock
        return self.allot_from([n], asked)

    def allot_from(self, sources, asked):
        """A slot of one of these slabs is picked."""
        need(self.entry.reply[0] in (GIVEN, OVERWRITTEN), 'NotLegal')
        addr = self.entry.reply[1]
        place = self.shape.place_of(addr)
        need(place is not None and place[0] in sources, 'NotLegal')
        n, i = place
        need(i not in self.taken[n], 'NotLegal')
        self.plan_draw(sources, n, i)
        usable = self.open[n][0][i * self.c.slot:i * self.c.slot + self.c.usable]
        at = len(usable) - len(usable.lstrip(b'\0'))
        self.change(n, i, True)
        if self.config.check_reuse and at < len(usable):
            self.reply_is(OVERWRITTEN, addr, at, usable[at])
            self.condemned.add(addr)
            return
        self.reply_is(GIVEN, addr, self.c.usable)
        self.live[addr] = asked
        self.given.add(addr)
        if self.c.number:
            end = (i + 1) * self.c.slot
            self.open[n][0][end - 8:end] = self.open[n][1].to_bytes(8, 'little')

    def plan_draw(self, sources, n, i):
        """What has to be drawn where slot i of slab n is picked from these slabs."""
        latest = max(sources, key=lambda slab: self.since[slab])
        available = [k for k in range(self.c.slots) if k not in self.taken[n]]
        opens_bytes = self.entry.opened is not None and self.c.number != 0
        canary = self.entry.canary

        def rule():
            start = scaled(self.words[-1], self.c.slots) if self.config.random_slots else 0
            first = min(available, key=lambda k: (k - start) % self.c.slots)
            drawn_canary = canary_of(*self.words[:2]) if opens_bytes else None
            return n == latest and i == first and canary == drawn_canary

        self.drawn_rule = ((2 if opens_bytes else 0) + self.config.random_slots, rule)

    def refusal(self, addr):
        """The reply for an address that is no live block's, or None."""
        if self.shape.place_of(addr) is None:
            return NO_SLOT
        if addr not in self.given:
            return UNUSED
        return None if addr in self.live else DOUBLE_FREE

    def giveback(self, addr, stated):
        """Gives a block back."""
        refusal = self.refusal(addr)
        if refusal is not None:
            return self.reply_is(refusal)
        if stated is not None and block_size(stated) != self.c.size:
            return self.reply_is(WRONG_SIZE, self.c.size, block_size(stated))
        n, i = self.shape.place_of(addr)
        data, canary = self.open[n]
        end = (i + 1) * self.c.slot
        if self.c.number and data[end - 8:end] != canary.to_bytes(8, 'little'):
            return self.reply_is(CANARY, canary, int.from_bytes(data[end - 8:end], 'little'))
        self.reply_is(FREED)
        del self.live[addr]
        if self.c.number:
            data[end - self.c.slot:end - 8] = bytes(self.c.usable)
        self.allowed_choices.add('released')
        self.delay.add(addr, self.entry.released)
        retires = self.entry.released is not None and self.release(self.entry.released)
        self.plan_free(retires)
        return None

    def release(self, addr):
        """A slot becomes available; answers whether its slab is retired."""
        n, i = self.shape.place_of(addr)
        self.change(n, i, False)
        if self.slab_state(n) != 'empty':
            return False
        if len(self.of_state('empty')) * self.c.slab <= KEPT_EMPTY_BYTES:
            return False
        if self.entry.purged is not None:
            self.allowed_choices.add('purged')
            need(self.entry.purged == n and self.c.number and self.rose(), 'NotLegal')
            need(self.entry.retired is None, 'NotLegal')
            self.open[n][0][:] = bytes(self.c.slab)
            return False
        self.allowed_choices |= {'retired', 'unparked'}
        need(self.entry.retired == n, 'NotLegal')
        self.retire(n, self.entry.unparked)
        return True

    def retire(self, n, unparked):
        """A slab is parked, and another one may leave its place."""
        if unparked is not None:
            need(unparked in self.parked, 'NotLegal')
            self.parked.remove(unparked)
            self.shut.append(unparked)
        self.parked.append(n)
        need(len(self.parked) <= self.config.park_length, 'NotLegal')
        del self.open[n], self.taken[n], self.since[n]

    def plan_free(self, retires):
        """What has to be drawn at an accepted free."""
        entry = self.entry
        array_words = 1 if self.shape.array else 0

        def rule():
            if entry.released != self.delay.drawn(self.words[0] if array_words else None):
                return False
            return not retires or self.unparked_was_drawn(entry, self.words[-1])

        self.drawn_rule = (array_words + int(retires), rule)

    def unparked_was_drawn(self, entry, word):
        """Whether the slab that left parking is that of the latest retirement to this place."""
        place = scaled(word, self.config.park_length)
        latest = next((n for n, other in reversed(self.retirements) if other == place), None)
        self.retirements.append((entry.retired, place))
        return entry.unparked == latest

    def measure(self, addr):
        """The usable bytes of a live block."""
        refusal = self.refusal(addr)
        if refusal is not None:
            self.reply_is(refusal)
        else:
            self.reply_is(USABLE, self.c.usable)

    def accessible(self, addr, length):
        """The bytes of a range, or the first address that is not accessible."""
        data = b''
        while len(data) < length:
            at = addr + len(data)
            n, offset = divmod(at - self.first, self.c.slab)
            if at < self.first or n not in self.open or not self.open[n][0]:
                return None, at
            data += bytes(self.open[n][0][offset:offset + length - len(data)])
        return data, None

    def put(self, addr, data):
        """Writes bytes that are accessible."""
        while data:
            n, offset = divmod(addr - self.first, self.c.slab)
            room = self.c.slab - offset
            self.open[n][0][offset:offset + len(data[:room])] = data[:room]
            addr, data = addr + room, data[room:]


# --- the region of large blocks -----------------------------------------------------------------

class LargeHistory(History):
    """What the entries so far have made of the region of large blocks."""

    def __init__(self, config, seed):
        super().__init__(seed, LARGE_REGION)
        self.first = LARGE_SPACE_START
        self.end = self.first + config.large_space
        self.live, self.quarantined = {}, {}
        self.delay = Delay(LARGE_ARRAY, LARGE_RING)

    def candidates_from(self, size, front, align):
        """The least address for a block with its guards, or None."""
        taken = sorted((addr - block[1], addr + block[0] + block[1])
                       for blocks in (self.live, self.quarantined) for addr, block in blocks.items())
        addr = rounded_up(self.first + front, align)
        for low, high in taken:
            if addr - front < high and low < addr + size + front:
                addr = rounded_up(high + front, align)
        return addr if addr + size + front <= self.end else None

    def allot(self, asked, align):
        """Asks for a block."""
        need(asked <= GREATEST_REQUEST, 'NotLegal')
        need(1 <= align <= GREATEST_ALIGN and align & (align - 1) == 0, 'NotLegal')
        self.allowed_choices.add('guard')
        guard, size = self.entry.guard, large_size(raised(asked))
        need(guard is not None, 'NotLegal')
        self.drawn_rule = (1, lambda: guard == 1 + scaled(self.words[0],
                                                          max(1, size // PAGE // 2)))
        addr = self.candidates_from(size, guard * PAGE, max(align, PAGE))
        if addr is None:
            return self.reply_is(NO_SPACE)
        if self.entry.reply[0] == PAGES_FAILED:
            return need(self.rose(), 'NotLegal')
        self.reply_is(GIVEN, addr, size)
        self.live[addr] = (size, guard * PAGE, bytearray(size))
        return None

    def giveback(self, addr, stated):
        """Gives a block back."""
        if addr not in self.live:
            return self.reply_is(NOT_LIVE)
        size = self.live[addr][0]
        if stated is not None and block_size(stated) != size:
            return self.reply_is(WRONG_SIZE, size, block_size(stated))
        if self.entry.reply[0] == PAGES_FAILED:
            return need(self.rose(), 'NotLegal')
        self.reply_is(FREED)
        block = self.live.pop(addr)
        if size >= QUARANTINED_BELOW:
            return None
        self.quarantined[addr] = block
        released = self.entry.released
        self.allowed_choices.add('released')
        self.delay.add(addr, released)
        if released is not None:
            del self.quarantined[released]
        self.drawn_rule = (1, lambda: released == self.delay.drawn(self.words[0]))
        return None

    def measure(self, addr):
        """The usable bytes of a live block."""
        if addr in self.live:
            self.reply_is(USABLE, self.live[addr][0])
        else:
            self.reply_is(NOT_LIVE)

    def accessible(self, addr, length):
        """The bytes of a range, or the first address that is not accessible."""
        for start, block in self.live.items():
            if start <= addr < start + block[0]:
                end = start + block[0]
                if addr + length > end:
                    return None, end
                return bytes(block[2][addr - start:addr - start + length]), None
        return None, addr

    def put(self, addr, data):
        """Writes bytes that are accessible."""
        for start, block in self.live.items():
            if start <= addr < start + block[0]:
                block[2][addr - start:addr - start + len(data)] = data


# --- the whole text -----------------------------------------------------------------------------

class Lines:
    """The lines of a text, one after another."""

    def __init__(self, text):
        pieces = text.split(b'\n')
        self.lines, self.rest, self.number = pieces[:-1], pieces[-1], 0

    def next(self):
        """The next line, which has to be there and to have its line feed."""
        self.number += 1
        need(self.number <= len(self.lines), 'BadText')
        line = self.lines[self.number - 1]
        need(all(32 <= code <= 126 for code in line), 'BadText')
        return line.decode('ascii')

    def no_more(self):
        """Nothing may follow."""
        self.number += 1
        need(self.number > len(self.lines) and not self.rest, 'BadText')


def check_lines(lines):
    """Goes through a journal; gives the number of entries, or raises a fault."""
    need(lines.next() == 'hmjournal 1', 'BadText')
    config = read_config(lines.next())
    words = lines.next().split(' ')
    need(len(words) == 2 and words[0] == 'seed', 'BadText')
    seed, entries = number(words[1]), 0
    for region in list(range(config.arenas * CLASSES)) + [LARGE_REGION]:
        entries += check_region(lines, config, seed, region)
    need(lines.next() == 'end', 'BadText')
    lines.no_more()
    return entries


def check_region(lines, config, seed, region):
    """Goes through one region's lines."""
    words = lines.next().split(' ')
    need(len(words) == 4 and words[0] == 'region', 'BadText')
    need(number(words[1]) == region, 'BadText')
    first, count = number(words[2]), number(words[3])
    history = (LargeHistory(config, seed) if region == LARGE_REGION
               else ClassHistory(config, seed, region))
    need(first == history.first, 'NotDrawn')
    for _ in range(count):
        history.step(read_entry(lines.next()))
    words = lines.next().split(' ')
    need(len(words) == 2 and words[0] == 'closed', 'BadText')
    need(number(words[1]) == history.last_faults, 'NotLegal')
    return count


def check(text):
    """The verdict on a text."""
    lines = Lines(text)
    try:
        return ('yes', check_lines(lines))
    except Fault as fault:
        return ('no', lines.number, str(fault))
