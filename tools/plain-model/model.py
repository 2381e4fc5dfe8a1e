"""A plain model of a hardened allocator that replays traces.

`replay` takes the text of a trace, the number from which all choices are drawn, and the
configuration, and gives what the replayer has to write: the report, the exit status and the
journal.  The model keeps lists and dictionaries alone, and runs the scripts of a round one after
another, in the order of their threads.  It reads good traces only.
"""

import re
from collections import namedtuple

# --- the stream of random words ----------------------------------------------------------------

MASK32 = 0xFFFFFFFF
MASK64 = 0xFFFFFFFFFFFFFFFF
QUARTERS = ((0, 4, 8, 12), (1, 5, 9, 13), (2, 6, 10, 14), (3, 7, 11, 15),
            (0, 5, 10, 15), (1, 6, 11, 12), (2, 7, 8, 13), (3, 4, 9, 14))


def chacha_block(key_words, counter, number):
    """The 16 words of one block: 64-bit counter and 64-bit stream number, 8 rounds."""
    start = [0x61707865, 0x3320646E, 0x79622D32, 0x6B206574] + list(key_words) + [
        counter & MASK32, counter >> 32, number & MASK32, number >> 32]
    state = list(start)
    for _ in range(4):
        for a, b, c, d in QUARTERS:
            quarter_round(state, a, b, c, d)
    return [(one + two) & MASK32 for one, two in zip(state, start)]


def quarter_round(state, a, b, c, d):
    """One quarter round on four of the sixteen words."""
    xa, xb, xc, xd = state[a], state[b], state[c], state[d]
    xa = (xa + xb) & MASK32
    xd ^= xa
    xd = ((xd << 16) | (xd >> 16)) & MASK32
    xc = (xc + xd) & MASK32
    xb ^= xc
    xb = ((xb << 12) | (xb >> 20)) & MASK32
    xa = (xa + xb) & MASK32
    xd ^= xa
    xd = ((xd << 8) | (xd >> 24)) & MASK32
    xc = (xc + xd) & MASK32
    xb ^= xc
    xb = ((xb << 7) | (xb >> 25)) & MASK32
    state[a], state[b], state[c], state[d] = xa, xb, xc, xd


def seed_key(seed):
    """The eight key words: the number's 8 bytes, lowest first, and 24 zero bytes."""
    return [seed & MASK32, seed >> 32, 0, 0, 0, 0, 0, 0]


def scaled(word, below):
    """The choice below `below` that a word makes."""
    return (word * below) >> 32


def canary_of(low, high):
    """The canary of two words: its lowest byte is zero."""
    return ((high << 32) | low) & ~0xFF


class Keystream:
    """The words of one region, in order."""

    def __init__(self, seed, number):
        self.key, self.number = seed_key(seed), number
        self.words, self.taken = [], 0

    def word_at(self, index):
        """The word at a place of the stream, counted from 0."""
        while index >= len(self.words):
            self.words += chacha_block(self.key, len(self.words) // 16, self.number)
        return self.words[index]

    def word(self):
        """The next word."""
        self.taken += 1
        return self.word_at(self.taken - 1)


# --- sizes and addresses -----------------------------------------------------------------------

PAGE = 4096
CLASS_LIMIT = 131072
GREATEST_REQUEST = 2 ** 30
GREATEST_ALIGN = 2 ** 21
CLASS_SPACE_START = 2 ** 40
LARGE_SPACE_START = 2 ** 46
LARGE_REGION = 196
CLASSES = 49
KEPT_EMPTY_BYTES = 131072
QUARANTINED_BELOW = 33554432
LARGE_ARRAY, LARGE_RING = 256, 1024

SLOTS_OF_SIZE = (
    (16, 256), (16, 256), (32, 128), (48, 85), (64, 64), (80, 51), (96, 42), (112, 36), (128, 64),
    (160, 51), (192, 64), (224, 54), (256, 64), (320, 64), (384, 64), (448, 64), (512, 64),
    (640, 64), (768, 64), (896, 64), (1024, 64), (1280, 16), (1536, 16), (1792, 16), (2048, 16),
    (2560, 8), (3072, 8), (3584, 8), (4096, 8), (5120, 8), (6144, 8), (7168, 8), (8192, 8),
    (10240, 6), (12288, 5), (14336, 4), (16384, 4), (20480, 1), (24576, 1), (28672, 1), (32768, 1),
    (40960, 1), (49152, 1), (57344, 1), (65536, 1), (81920, 1), (98304, 1), (114688, 1), (131072, 1))


def rounded_up(value, step):
    """The least multiple of `step` that is not below `value`."""
    return -(-value // step) * step


class SizeClass:
    """What is fixed for one class of small blocks."""

    def __init__(self, number):
        self.number = number
        self.slot, self.slots = SLOTS_OF_SIZE[number]
        self.slab = rounded_up(self.slot * self.slots, PAGE)
        self.size = self.slot if number else 0
        self.usable = self.slot - 8 if number else 0
        self.length = 2 ** (17 - (self.slot.bit_length() - 1))


SIZE_CLASSES = [SizeClass(number) for number in range(CLASSES)]


def raised(asked):
    """The bytes that a request needs with its canary."""
    return asked + 8 if 1 <= asked <= CLASS_LIMIT else asked


def large_size(needed):
    """The size of a large block that holds so many bytes."""
    needed = max(needed, 1)
    spacing = PAGE if needed <= 32768 else 2 ** ((needed - 1).bit_length() - 3)
    return rounded_up(needed, spacing)


def kind_of(asked):
    """What serves a request: ('small', class), ('large', size) or ('too large',)."""
    if asked > GREATEST_REQUEST:
        return ('too large',)
    needed = raised(asked)
    if needed > CLASS_LIMIT:
        return ('large', large_size(needed))
    return ('small', next(c.number for c in SIZE_CLASSES if c.size >= needed))


def kind_aligned(asked, align):
    """Likewise at an alignment; None for one that is not allowed."""
    if align < 1 or align > GREATEST_ALIGN or align & (align - 1):
        return None
    if align <= 16 or asked > GREATEST_REQUEST:
        return kind_of(asked)
    needed = raised(asked)
    if align > PAGE or needed > CLASS_LIMIT:
        return ('large', large_size(needed))
    return ('small', next(c.number for c in SIZE_CLASSES[1:]
                          if c.slot >= needed and c.slot % align == 0))


def block_size(asked):
    """The size of the block that `malloc` gives for a request, itself where it is too large."""
    kind = kind_of(asked)
    if kind[0] == 'small':
        return SIZE_CLASSES[kind[1]].size
    return kind[1] if kind[0] == 'large' else asked


Config = namedtuple('Config', 'arenas class_region large_space guard_interval array_base ring_base '
                              'park_length check_reuse random_slots')


def standard_config(class_region, large_space):
    """The configuration that the program runs with where no other is named."""
    return Config(4, class_region, large_space, 1, 1, 1, 32, 1, 1)


def light_config(class_region, large_space):
    """No quarantine of slots, no look at their bytes, no drawn start, and a guard after eight slabs."""
    return Config(4, class_region, large_space, 8, 0, 0, 32, 0, 0)


CONFIGS = {'standard': standard_config, 'light': light_config}


def home_of(config, addr):
    """The region of an address, or None where it lies in none."""
    if LARGE_SPACE_START <= addr < LARGE_SPACE_START + config.large_space:
        return LARGE_REGION
    if addr >= CLASS_SPACE_START:
        region = (addr - CLASS_SPACE_START) // (2 * config.class_region)
        if region < config.arenas * CLASSES:
            return region
    return None


class Shape:
    """Where the slabs and slots of one class region stand."""

    def __init__(self, config, region, gap_word):
        self.size_class = SIZE_CLASSES[region % CLASSES]
        gap = (scaled(gap_word, config.class_region // PAGE) + 1) * PAGE
        self.first = CLASS_SPACE_START + region * 2 * config.class_region + gap
        self.limit = config.class_region // self.size_class.slab
        self.guard_interval = config.guard_interval
        self.array = config.array_base * self.size_class.length
        self.ring = config.ring_base * self.size_class.length

    def is_guard(self, n):
        """Whether slab n is a guard."""
        return n % (self.guard_interval + 1) == self.guard_interval

    def after(self, n):
        """The least greater slab number that is no guard."""
        n += 1
        while self.is_guard(n):
            n += 1
        return n

    def place_of(self, addr):
        """The slab and the slot that start at an address, or None."""
        c = self.size_class
        if addr < self.first:
            return None
        n, within = divmod(addr - self.first, c.slab)
        i, rest = divmod(within, c.slot)
        if n >= self.limit or self.is_guard(n) or rest or i >= c.slots:
            return None
        return n, i

    def address(self, n, i):
        """The address of a slot."""
        return self.first + n * self.size_class.slab + i * self.size_class.slot


# --- entries ------------------------------------------------------------------------------------

Who = namedtuple('Who', 'caller round thread step part')
Entry = namedtuple('Entry', 'who call reply choices words')
CHOICES = ('canary', 'opened', 'released', 'retired', 'purged', 'unparked', 'guard')
REPLY_NUMBERS = {'Given': 1, 'Overwritten': 2, 'Exhausted': 3, 'NoSpace': 4, 'PagesFailed': 5,
                 'Freed': 7, 'NoSlot': 8, 'Unused': 9, 'DoubleFree': 10, 'WrongSize': 11,
                 'Canary': 12, 'Usable': 13, 'Bytes': 14, 'Filled': 15, 'Trap': 16, 'NotLive': 17,
                 'Overflow': 18, 'BadAlignment': 19, 'TooLarge': 20, 'Outside': 21,
                 'HalfMoved': 23, 'Kept': 24, 'Nothing': 25}
FINDINGS = {2, 8, 9, 10, 11, 12, 16, 17, 21, 23}
RUN = re.compile(rb'(.)\1*', re.DOTALL)


def runs_of(data):
    """Bytes as runs of equal ones: pairs of a byte and a length."""
    return [(found.group()[0], found.end() - found.start()) for found in RUN.finditer(data)]


def bytes_of(runs):
    """The bytes of such runs."""
    return b''.join(bytes([byte]) * length for byte, length in runs)


class Region:
    """What class regions and the large one share: their words and their history."""

    def __init__(self, seed, number):
        self.number, self.stream, self.entries = number, Keystream(seed, number), []
        self.drawn, self.chosen = [], {}

    def draw(self, below):
        """One choice below `below`; its word is kept for the entry."""
        self.drawn.append(self.stream.word())
        return scaled(self.drawn[-1], below)

    def record(self, who, call, reply):
        """Adds the entry of a call that was answered."""
        choices = tuple(self.chosen.get(name) for name in CHOICES)
        self.entries.append(Entry(who, call, reply, choices, tuple(self.drawn)))
        self.drawn, self.chosen = [], {}
        return reply


class Quarantine:
    """An array of random places, and a ring behind it."""

    def __init__(self, array, ring):
        self.array, self.ring_length, self.ring = [None] * array, ring, []

    def replace(self, item, place):
        """Puts an item at a place of the array; what stood there goes to the ring, whose oldest
        item leaves where it is full.  The answer is what leaves, or None."""
        item, self.array[place] = self.array[place], item
        if item is None:
            return None
        return self.enter_ring(item)

    def enter_ring(self, item):
        """Puts an item at the end of the ring; the answer is what leaves, or None."""
        self.ring.append(item)
        return self.ring.pop(0) if len(self.ring) > self.ring_length else None


# --- a region of one class ----------------------------------------------------------------------

class Slab:
    """An open slab: its bytes, its canary, and the slots that can't be given."""

    def __init__(self, size_class, canary):
        self.data = bytearray(size_class.slab if size_class.number else 0)
        self.canary, self.slots, self.taken = canary, size_class.slots, set()

    def is_empty(self):
        """Whether each slot is available."""
        return not self.taken

    def is_partial(self):
        """Whether some slots are available, but not all."""
        return 0 < len(self.taken) < self.slots


class ClassRegion(Region):
    """One class of one arena."""

    def __init__(self, config, seed, number):
        super().__init__(seed, number)
        self.config = config
        self.shape = Shape(config, number, self.stream.word())
        self.first, self.c = self.shape.first, self.shape.size_class
        self.slabs, self.partial, self.empty = {}, [], []
        self.shut, self.parking = [], [None] * config.park_length
        self.next = 0
        self.live, self.given, self.condemned = {}, set(), set()
        self.quarantine = Quarantine(self.shape.array, self.shape.ring)

    def allot(self, who, asked, align=1):
        """Asks for a block."""
        return self.record(who, ('allot', asked, align), self.allot_reply(asked))

    def allot_reply(self, asked):
        n = self.source_slab()
        if n is None:
            return ('Exhausted',)
        i = self.pick_slot(self.slabs[n])
        addr = self.shape.address(n, i)
        self.slabs[n].taken.add(i)
        self.sort_in(n)
        usable = self.usable_bytes(n, i)
        rest = usable.lstrip(b'\0') if self.config.check_reuse else b''
        if rest:
            self.condemned.add(addr)
            return ('Overwritten', addr, len(usable) - len(rest), rest[0])
        self.live[addr] = asked
        self.given.add(addr)
        if self.c.number:
            self.write_canary(n, i)
        return ('Given', addr, self.c.usable)

    def source_slab(self):
        """The slab from which the next slot comes, opened where it was not."""
        if self.partial:
            return self.partial[0]
        if self.empty:
            return self.empty[0]
        if self.shut:
            n = self.shut.pop(0)
        elif self.next < self.shape.limit:
            n, self.next = self.next, self.shape.after(self.next)
        else:
            return None
        self.open_slab(n)
        return n

    def open_slab(self, n):
        """Makes a slab accessible, with a canary of its own."""
        self.chosen['opened'] = n
        canary = None
        if self.c.number:
            self.drawn += [self.stream.word(), self.stream.word()]
            canary = self.chosen['canary'] = canary_of(*self.drawn)
        self.slabs[n] = Slab(self.c, canary)
        self.empty.insert(0, n)

    def pick_slot(self, slab):
        """The first available slot from the start, which is random or 0, round the slab's end."""
        start = self.draw(self.c.slots) if self.config.random_slots else 0
        return next(i for k in range(self.c.slots)
                    for i in [(start + k) % self.c.slots] if i not in slab.taken)

    def sort_in(self, n):
        """Keeps a slab in the list that it belongs to: where it is new there, at the front."""
        slab = self.slabs[n]
        for slabs, belongs in ((self.partial, slab.is_partial()), (self.empty, slab.is_empty())):
            if belongs and n not in slabs:
                slabs.insert(0, n)
            elif not belongs and n in slabs:
                slabs.remove(n)

    def usable_bytes(self, n, i):
        """The usable bytes of a slot."""
        return bytes(self.slabs[n].data[i * self.c.slot:i * self.c.slot + self.c.usable])

    def write_canary(self, n, i):
        """Writes the slab's canary to the last 8 bytes of a slot."""
        end = (i + 1) * self.c.slot
        self.slabs[n].data[end - 8:end] = self.slabs[n].canary.to_bytes(8, 'little')

    def give_back(self, who, addr, stated):
        """Gives a block back."""
        reply = self.refusal(addr) or self.refusal_of_live(addr, stated)
        if reply is None:
            self.free_slot(addr)
            reply = ('Freed',)
        return self.record(who, ('giveback', addr, stated), reply)

    def refusal(self, addr):
        """Why an address is no live block's, or None."""
        if self.shape.place_of(addr) is None:
            return ('NoSlot',)
        if addr not in self.given:
            return ('Unused',)
        return None if addr in self.live else ('DoubleFree',)

    def refusal_of_live(self, addr, stated):
        """Why a live block is not taken back, or None."""
        if stated is not None and block_size(stated) != self.c.size:
            return ('WrongSize', self.c.size, block_size(stated))
        if self.c.number:
            n, i = self.shape.place_of(addr)
            end = (i + 1) * self.c.slot
            found = int.from_bytes(self.slabs[n].data[end - 8:end], 'little')
            if found != self.slabs[n].canary:
                return ('Canary', self.slabs[n].canary, found)
        return None

    def free_slot(self, addr):
        """Zeroes a live block, and sends it into quarantine."""
        n, i = self.shape.place_of(addr)
        if self.c.number:
            start = i * self.c.slot
            self.slabs[n].data[start:start + self.c.usable] = bytes(self.c.usable)
        del self.live[addr]
        released = self.quarantined(addr)
        if released is not None:
            self.chosen['released'] = released
            self.release(released)

    def quarantined(self, addr):
        """Sends a slot into quarantine, at a random place of the array where there is one; what leaves, or None."""
        if not self.shape.array:
            return self.quarantine.enter_ring(addr)
        return self.quarantine.replace(addr, self.draw(self.shape.array))

    def release(self, addr):
        """Makes a slot available again; the slab is retired where too many are empty."""
        n, i = self.shape.place_of(addr)
        self.slabs[n].taken.discard(i)
        if self.slabs[n].is_empty() and (len(self.empty) + 1) * self.c.slab > KEPT_EMPTY_BYTES:
            self.retire(n)
        else:
            self.sort_in(n)

    def retire(self, n):
        """Closes a slab and parks it; the one that stood at its parking place is shut."""
        self.chosen['retired'] = n
        del self.slabs[n]
        if n in self.partial:
            self.partial.remove(n)
        place = self.draw(len(self.parking))
        unparked, self.parking[place] = self.parking[place], n
        if unparked is not None:
            self.chosen['unparked'] = unparked
            self.shut.append(unparked)

    def measure(self, who, addr):
        """The usable bytes of a live block."""
        reply = self.refusal(addr) or ('Usable', self.c.usable)
        return self.record(who, ('measure', addr), reply)

    def fetch(self, who, addr, length):
        """Reads bytes."""
        data, trap = self.accessible(addr, length)
        reply = ('Trap', trap) if trap is not None else ('Bytes', runs_of(data))
        return self.record(who, ('fetch', addr, length), reply)

    def fill(self, who, addr, runs):
        """Writes bytes."""
        data = bytes_of(runs)
        _, trap = self.accessible(addr, len(data))
        if trap is None:
            for k, byte in self.pieces(addr, data):
                n, offset = divmod(k - self.first, self.c.slab)
                self.slabs[n].data[offset:offset + len(byte)] = byte
        reply = ('Trap', trap) if trap is not None else ('Filled',)
        return self.record(who, ('fill', addr, runs), reply)

    def pieces(self, addr, data):
        """Bytes from an address on, cut where a slab ends."""
        while data:
            room = self.c.slab - (addr - self.first) % self.c.slab
            yield addr, data[:room]
            addr, data = addr + room, data[room:]

    def accessible(self, addr, length):
        """The bytes of a range and None, or nothing and the first address that has none."""
        data = b''
        while length:
            n, offset = divmod(addr - self.first, self.c.slab)
            slab = self.slabs.get(n)
            if slab is None or not slab.data:
                return b'', addr
            piece = bytes(slab.data[offset:offset + length])
            data, addr, length = data + piece, addr + len(piece), length - len(piece)
        return data, None


# --- the region of large blocks -----------------------------------------------------------------

Block = namedtuple('Block', 'asked size guard data')


class LargeRegion(Region):
    """All large blocks."""

    def __init__(self, config, seed):
        super().__init__(seed, LARGE_REGION)
        self.first, self.end = LARGE_SPACE_START, LARGE_SPACE_START + config.large_space
        self.live, self.taken = {}, {}
        self.quarantine = Quarantine(LARGE_ARRAY, LARGE_RING)

    def allot(self, who, asked, align):
        """Asks for a block at an alignment."""
        size = large_size(raised(asked))
        guard = 1 + self.draw(max(1, size // PAGE // 2))
        self.chosen['guard'] = guard
        addr = self.lowest_fit(size, guard * PAGE, max(align, PAGE))
        if addr is None:
            return self.record(who, ('allot', asked, align), ('NoSpace',))
        self.live[addr] = Block(asked, size, guard, bytearray(size))
        self.taken[addr] = (addr - guard * PAGE, addr + size + guard * PAGE)
        return self.record(who, ('allot', asked, align), ('Given', addr, size))

    def lowest_fit(self, size, front, align):
        """The lowest address at which guard, block and guard are free, or None."""
        free_from = self.first
        for low, high in sorted(self.taken.values()) + [(self.end, self.end)]:
            addr = rounded_up(free_from + front, align)
            if addr + size + front <= low:
                return addr
            free_from = max(free_from, high)
        return None

    def give_back(self, who, addr, stated):
        """Gives a block back."""
        return self.record(who, ('giveback', addr, stated), self.give_back_reply(addr, stated))

    def give_back_reply(self, addr, stated):
        if addr not in self.live:
            return ('NotLive',)
        size = self.live[addr].size
        if stated is not None and block_size(stated) != size:
            return ('WrongSize', size, block_size(stated))
        del self.live[addr]
        if size >= QUARANTINED_BELOW:
            del self.taken[addr]
            return ('Freed',)
        released = self.quarantine.replace(addr, self.draw(LARGE_ARRAY))
        if released is not None:
            self.chosen['released'] = released
            del self.taken[released]
        return ('Freed',)

    def live_bytes(self):
        """The bytes of all live blocks."""
        return sum(block.size for block in self.live.values())

    def measure(self, who, addr):
        """The usable bytes of a live block."""
        block = self.live.get(addr)
        reply = ('Usable', block.size) if block else ('NotLive',)
        return self.record(who, ('measure', addr), reply)

    def block_at(self, addr):
        """The start and the bytes of the live block that has an address, or None."""
        for start, block in self.live.items():
            if start <= addr < start + block.size:
                return start, block.data
        return None

    def trap_of(self, addr, length):
        """The first address of a range that lies in no live block, or None."""
        found = self.block_at(addr)
        if found is None:
            return addr
        end = found[0] + len(found[1])
        return None if addr + length <= end else end

    def fetch(self, who, addr, length):
        """Reads bytes."""
        trap = self.trap_of(addr, length)
        if trap is not None:
            return self.record(who, ('fetch', addr, length), ('Trap', trap))
        start, data = self.block_at(addr)
        runs = runs_of(bytes(data[addr - start:addr - start + length]))
        return self.record(who, ('fetch', addr, length), ('Bytes', runs))

    def fill(self, who, addr, runs):
        """Writes bytes."""
        new = bytes_of(runs)
        trap = self.trap_of(addr, len(new))
        if trap is not None:
            return self.record(who, ('fill', addr, runs), ('Trap', trap))
        start, data = self.block_at(addr)
        data[addr - start:addr - start + len(new)] = new
        return self.record(who, ('fill', addr, runs), ('Filled',))


# --- the heap -----------------------------------------------------------------------------------

class Pass:
    """Who calls: a script of a round, and the number of the step that it is at."""

    def __init__(self, caller, round_number, thread):
        self.caller, self.round, self.thread = caller, round_number, thread
        self.step, self.part = 0, 0

    def next_step(self):
        """Goes on to the next step."""
        self.step, self.part = self.step + 1, 0

    def who(self):
        """Names the next part of the step."""
        self.part += 1
        return Who(self.caller, self.round, self.thread, self.step, self.part)


class Heap:
    """All regions, and the calls that a program makes."""

    def __init__(self, config, seed):
        self.config = config
        self.regions = [ClassRegion(config, seed, number)
                        for number in range(config.arenas * CLASSES)]
        self.large = LargeRegion(config, seed)

    def all_regions(self):
        """Every region, the large one last."""
        return self.regions + [self.large]

    def home(self, addr):
        """The region of an address, or None."""
        number = home_of(self.config, addr)
        if number is None:
            return None
        return self.large if number == LARGE_REGION else self.regions[number]

    def source(self, thread, kind):
        """The region that serves a request of a thread."""
        if kind[0] == 'large':
            return self.large
        return self.regions[(thread - 1) % self.config.arenas * CLASSES + kind[1]]

    def malloc(self, who, asked):
        """Asks for a block."""
        kind = kind_of(asked)
        if kind[0] == 'too large':
            return ('TooLarge',)
        return self.source(who.thread, kind).allot(who.who(), asked, 1)

    def calloc(self, who, count, size):
        """Asks for a block of so many elements."""
        if count * size > MASK64:
            return ('Overflow',)
        return self.malloc(who, count * size)

    def aligned(self, who, align, asked):
        """Asks for a block at an alignment."""
        kind = kind_aligned(asked, align)
        if kind is None:
            return ('BadAlignment',)
        if kind[0] == 'too large':
            return ('TooLarge',)
        region = self.source(who.thread, kind)
        return region.allot(who.who(), asked, align if region is self.large else 1)

    def free(self, who, addr, stated=None):
        """Gives a block back, with or without its size."""
        if addr == 0:
            return ('Nothing',)
        region = self.home(addr)
        return region.give_back(who.who(), addr, stated) if region else ('Outside',)

    def usable(self, who, addr):
        """The usable bytes of a block."""
        if addr == 0:
            return ('Usable', 0)
        region = self.home(addr)
        return region.measure(who.who(), addr) if region else ('Outside',)

    def read(self, who, addr, length):
        """Reads bytes."""
        region = self.home(addr)
        return region.fetch(who.who(), addr, length) if region else ('Outside',)

    def write(self, who, addr, runs):
        """Writes bytes."""
        region = self.home(addr)
        return region.fill(who.who(), addr, runs) if region else ('Outside',)

    def realloc(self, who, addr, asked):
        """Asks for a block in place of another one."""
        kind = kind_of(asked)
        if kind[0] == 'too large':
            return ('TooLarge',)
        if addr == 0:
            return self.malloc(who, asked)
        old = self.home(addr)
        if old is None:
            return ('Outside',)
        measured = old.measure(who.who(), addr)
        if measured[0] != 'Usable':
            return measured
        usable = measured[1]
        if kind == (('large', usable) if old is self.large else ('small', old.c.number)):
            return ('Kept', addr, usable)
        new = self.source(who.thread, kind)
        given = new.allot(who.who(), asked, 1)
        if given[0] != 'Given':
            return given
        return self.move(who, old, addr, new, given, min(usable, asked))

    def move(self, who, old, addr, new, given, length):
        """The second half of `realloc`: the bytes are copied, and the old block is given back."""
        if length:
            fetched = old.fetch(who.who(), addr, length)
            if fetched[0] != 'Bytes':
                return ('HalfMoved', given[1], given[2], fetched)
            filled = new.fill(who.who(), given[1], fetched[1])
            if filled[0] != 'Filled':
                return ('HalfMoved', given[1], given[2], filled)
        freed = old.give_back(who.who(), addr, None)
        return given if freed[0] == 'Freed' else ('HalfMoved', given[1], given[2], freed)


# --- traces and scripts -------------------------------------------------------------------------

Round = namedtuple('Round', 'notes scripts')
Script = namedtuple('Script', 'thread steps')
Place = namedtuple('Place', 'name number')
REFERENCE = re.compile(r'([a-z][a-z0-9_]*)(?:([+-])([0-9]+))?')


def read_trace(text):
    """The rounds of a good trace of either version: notes, and scripts whose steps are lists of words."""
    rounds = []
    for line in text.decode('ascii').splitlines()[1:-1]:
        words = line.split(' ')
        if words[0] == 'round':
            rounds.append(Round([], []))
        elif words[0] == 'note':
            rounds[-1].notes.append(' '.join(words[1:]))
        elif words[0] == 'thread':
            rounds[-1].scripts.append(Script(int(words[1]), []))
        else:
            rounds[-1].scripts[-1].steps.append(words)
    return rounds


def read_place(word):
    """What a reference says: a name, if any, and the number to add to its address."""
    if word == 'null':
        return Place(None, 0)
    if word.startswith('@'):
        return Place(None, int(word[1:], 16))
    name, sign, number = REFERENCE.fullmatch(word).groups()
    return Place(name, int((sign or '+') + (number or '0')))


PLACE_WORD = {'realloc': 2, 'free': 1, 'sfree': 1, 'write': 1, 'read': 1, 'size': 1}
StepResult = namedtuple('StepResult', 'base answer')


class Names:
    """The names that one script sees, and those that it set itself."""

    def __init__(self, shared):
        self.shared, self.own = shared, {}

    def get(self, name):
        """The address of a name, or None."""
        return self.own[name] if name in self.own else self.shared.get(name)

    def set(self, name, addr):
        """Sets a name, or unsets it by None."""
        self.own[name] = addr


def run_step(heap, who, words, names):
    """Makes one step, and gives the address that it referred to and its answer."""
    who.next_step()
    base = 0
    if words[0] in PLACE_WORD:
        place = read_place(words[PLACE_WORD[words[0]]])
        if place.name is not None and names.get(place.name) is None:
            return StepResult(0, None)
        base = place.number + (names.get(place.name) if place.name is not None else 0)
    answer = make_call(heap, who, words, base)
    set_names(words, answer, names)
    return StepResult(base, answer)


def make_call(heap, who, words, base):
    """The call of the heap that a step makes."""
    word = words[0]
    if word == 'malloc':
        return heap.malloc(who, int(words[2]))
    if word == 'calloc':
        return heap.calloc(who, int(words[2]), int(words[3]))
    if word == 'aligned':
        return heap.aligned(who, int(words[2]), int(words[3]))
    if word == 'realloc':
        return heap.realloc(who, base, int(words[3]))
    if word == 'free':
        return heap.free(who, base)
    if word == 'sfree':
        return heap.free(who, base, int(words[2]))
    if word == 'write':
        return heap.write(who, base, [(int(words[3], 16), int(words[2]))])
    if word == 'read':
        return heap.read(who, base, int(words[2]))
    return heap.usable(who, base)


def set_names(words, answer, names):
    """What a step does to the names."""
    if words[0] in ('malloc', 'calloc', 'aligned'):
        names.set(words[1], answer[1] if answer[0] == 'Given' else None)
    elif words[0] == 'realloc' and answer[0] in ('Given', 'Kept', 'HalfMoved'):
        names.set(words[1], answer[1])


def merged(shared, all_names):
    """The names after a round: the former ones with each script's settings."""
    result = dict(shared)
    for names in all_names:
        result.update(names.own)
    return {name: addr for name, addr in result.items() if addr is not None}


def run_rounds(heap, rounds, after_round=lambda: None):
    """Runs all rounds, with a call after each of them; gives (round, thread, results) for each script."""
    shared, results, caller = {}, [], 0
    for number, one_round in enumerate(rounds, 1):
        all_names = []
        for script in one_round.scripts:
            caller += 1
            who, names = Pass(caller, number, script.thread), Names(shared)
            items = [run_step(heap, who, words, names) for words in script.steps]
            results.append((number, script.thread, items))
            all_names.append(names)
        shared = merged(shared, all_names)
        after_round()
    return results


# --- what is written ----------------------------------------------------------------------------

WORDS_ALONE = {'Exhausted': 'exhausted', 'NoSpace': 'no space', 'PagesFailed': 'pages failed',
               'Freed': 'freed', 'NoSlot': 'no slot', 'Unused': 'unused',
               'DoubleFree': 'double free', 'Filled': 'written', 'NotLive': 'not live',
               'Overflow': 'overflow', 'BadAlignment': 'bad alignment', 'TooLarge': 'too large',
               'Outside': 'outside', 'Nothing': 'nothing'}


def first_difference(kept, found):
    """The first of 8 bytes, lowest first, in which two numbers differ; 8 where none does."""
    return next((k for k in range(8) if (kept ^ found) >> (8 * k) & 0xFF), 8)


def runs_text(runs, between):
    """Runs of bytes as text."""
    return between.join('%02x*%d' % pair for pair in runs)


def answer_text(base, answer, inside=False):
    """The text of an answer in the report."""
    if answer is None:
        return 'skipped'
    kind = answer[0]
    if kind in WORDS_ALONE:
        return WORDS_ALONE[kind]
    if kind == 'Given':
        return 'given %d' % answer[2]
    if kind == 'Kept':
        return 'kept %d' % answer[2]
    if kind == 'Overwritten':
        return 'overwritten at %d found %02x' % answer[2:]
    if kind == 'WrongSize':
        return 'wrong size %d %d' % answer[1:]
    if kind == 'Canary':
        return 'canary at %d' % first_difference(*answer[1:])
    if kind == 'Usable':
        return 'size %d' % answer[1]
    if kind == 'Bytes':
        return ('bytes ' + runs_text(answer[1], ' ')).rstrip()
    if kind == 'Trap':
        return 'trap' if inside else 'trap at +%d' % max(0, answer[1] - base)
    return 'half moved %d: %s' % (answer[2], answer_text(base, answer[3], True))


def report_text(rounds, results):
    """The report: of each round one line for each note, and then one for each step."""
    lines = [['%d note %s\n' % (number, note) for note in one_round.notes]
             for number, one_round in enumerate(rounds, 1)]
    for number, thread, items in results:
        lines[number - 1] += ['%d.%d.%d %s\n' % (number, thread, step, answer_text(item.base, item.answer))
                              for step, item in enumerate(items, 1)]
    return ''.join(''.join(of_round) for of_round in lines)


def status_of(results):
    """1 where an answer is a finding, else 0."""
    return int(any(item.answer and REPLY_NUMBERS[item.answer[0]] in FINDINGS
                   for _, _, items in results for item in items))


def call_text(call):
    """A region's call in the journal."""
    if call[0] == 'fill':
        return 'fill %d %s' % (call[1], runs_text(call[2], ',') or '-')
    return ' '.join([call[0]] + [option_text(field) for field in call[1:]])


def reply_text(reply):
    """A region's reply in the journal."""
    words = [str(REPLY_NUMBERS[reply[0]])]
    if reply[0] == 'Bytes':
        return words[0] + ' ' + (runs_text(reply[1], ',') or '-')
    if reply[0] == 'Overwritten':
        return '%s %d %d %02x' % (words[0], *reply[1:])
    return ' '.join(words + [str(field) for field in reply[1:]])


def option_text(value):
    """A number, or `-` where there is none."""
    return '-' if value is None else str(value)


def entry_text(entry):
    """One line of the journal; no page ever fails here."""
    words = [str(field) for field in entry.who] + ['0', '0', str(len(entry.words))]
    words += [str(word) for word in (entry.words + (0, 0, 0))[:3]]
    words += [option_text(choice) for choice in entry.choices]
    return ' '.join(words) + ' %s : %s\n' % (call_text(entry.call), reply_text(entry.reply))


def journal_text(config, seed, regions):
    """The journal of all regions."""
    lines = ['hmjournal 1\n', 'config %s\n' % ' '.join(map(str, config)), 'seed %d\n' % seed]
    for region in regions:
        lines.append('region %d %d %d\n' % (region.number, region.first, len(region.entries)))
        lines += [entry_text(entry) for entry in region.entries]
        lines.append('closed 0\n')
    return ''.join(lines + ['end\n'])


def watch_text(sums):
    """A line for each round."""
    return ''.join('round %d large %d\n' % (number, total) for number, total in enumerate(sums, 1))


def replay(trace_text, seed, config):
    """What the replayer writes for a good trace: the report, the exit status, the journal, the lines of `watch`."""
    heap = Heap(config, seed)
    rounds = read_trace(trace_text)
    sums = []
    results = run_rounds(heap, rounds, lambda: sums.append(heap.large.live_bytes()))
    journal = journal_text(config, seed, heap.all_regions())
    return report_text(rounds, results).encode(), status_of(results), journal.encode(), watch_text(sums).encode()
