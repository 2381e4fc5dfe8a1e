"""Random good traces of both versions, heavy on hard cases, for the plain model and a program to be compared on.

Each step is tried on the model as it is made, so that references can aim at addresses that matter
(canaries, neighbouring slots, guards, freed blocks), and so that the scripts of one round can be
kept in regions of their own, where their order can't be seen.
"""

import random

from model import (
    CLASSES, CLASS_SPACE_START, CONFIGS, GREATEST_ALIGN, LARGE_REGION, LARGE_SPACE_START, MASK64, PAGE,
    PLACE_WORD, SIZE_CLASSES, Heap, Names, Pass, home_of, kind_aligned, kind_of, large_size, merged,
    read_place, run_step)

GREATEST_OFFSET = 2 ** 40
LENGTH_LIMIT = 1048576
GREATEST_THREAD = {1: 16, 2: 64}
NOTES_LIMIT, NOTE_LENGTH = 1024, 251

THEMES = {
    # name: (classes asked for, share of large requests, names in use, weights of the kinds of step)
    'mixed': (range(0, 49), 0.08, 40, {}),
    'big': (range(37, 49), 0.02, 10, {'malloc': 30, 'free': 30}),
    'top': (range(44, 49), 0.0, 7, {'malloc': 40, 'free': 40}),
    'last': ((47, 48, 48, 48), 0.0, 8, {'malloc': 40, 'free': 40}),
    'medium': (range(24, 38), 0.01, 25, {'malloc': 35, 'free': 35}),
    'tiny': (range(0, 9), 0.0, 60, {}),
    'large': ((48, 36, 12), 0.8, 12, {'malloc': 25, 'free': 25, 'aligned': 15}),
    'moves': (range(0, 49), 0.15, 15, {'realloc': 60}),
    'after free': ((40, 43, 44, 45, 46, 47, 48), 0.02, 8,
                   {'malloc': 25, 'free': 20, 'write': 25}),
    'aligned': (range(0, 49), 0.1, 20, {'aligned': 60}),
    'wild': (range(0, 49), 0.1, 12, {'read': 30, 'write': 30, 'size': 20}),
}
WEIGHTS = {'malloc': 20, 'calloc': 4, 'aligned': 6, 'realloc': 10, 'free': 16, 'sfree': 8,
           'write': 14, 'read': 8, 'size': 6, 'story': 8}
NOTE_WORDS = ['warm', 'up', 'note', 'end', 'round', 'thread 64', 'free x', '1.1.1 freed', '~', '!#', 'x' * 251]
ODD_NAMES = ['nullx', 'null_', 'nul', 'a' * 32, 'z9_', 'free', 'round', 'end', 'x0', 'thread']


class TraceMaker:
    """Makes one trace, and the numbers that go with it."""

    def __init__(self, seed, config='standard', steps=None):
        self.rng, self.config_name = random.Random(seed), config
        self.classes, self.large_share, count, weights = THEMES[self.rng.choice(sorted(THEMES))]
        self.weights = dict(WEIGHTS, **weights)
        self.pool = ['n%d' % k for k in range(count)] + self.rng.sample(ODD_NAMES, 3)
        self.seed = self.rng.choice([0, 1, 7, 2 ** 32, MASK64, self.rng.getrandbits(64),
                                     self.rng.getrandbits(64), self.rng.getrandbits(20)])
        self.class_region = self.some_class_region()
        self.large_space = self.some_large_space()
        self.steps_left = steps or self.rng.choice([20, 60, 150, 400, 400, 900, 1800])
        self.heap = self.new_heap()
        version = self.rng.choice([1, 2])
        self.greatest_thread, self.notes_left = GREATEST_THREAD[version], NOTES_LIMIT * (version - 1)
        self.lines, self.shared, self.caller, self.round = ['hmtrace %d' % version], {}, 0, 0
        self.owned_names, self.allowed, self.waiting = {}, None, []

    def config(self):
        """The configuration that the trace is made for."""
        return CONFIGS[self.config_name](self.class_region, self.large_space)

    def new_heap(self):
        """A heap of it."""
        return Heap(self.config(), self.seed)

    def some_class_region(self):
        """A size of the class regions: often the least one."""
        return self.rng.choice([2 ** 20, 2 ** 20, 2 ** 20 + PAGE * self.rng.randrange(1, 300),
                                2 ** 22, 2 ** 25 + PAGE * 3, 2 ** 35, 2 ** 35, 2 ** 35 - PAGE])

    def some_large_space(self):
        """A size of the large space: often a small one."""
        return self.rng.choice([2 ** 20, 2 ** 20 + PAGE * self.rng.randrange(1, 300), 2 ** 22,
                                2 ** 24, 2 ** 26, 2 ** 30, 2 ** 40, 2 ** 40, 2 ** 40 - PAGE])

    def make(self):
        """The trace."""
        rounds = self.rng.choice([1, 1, 2, 3, 5, 9])
        share = self.steps_left // rounds + 1
        while self.steps_left > 0:
            self.make_round(min(share, self.steps_left))
        self.lines.append('end')
        return ('\n'.join(self.lines) + '\n').encode()

    # --- rounds and scripts ---

    def some_thread(self):
        """A thread of the version."""
        return self.rng.randrange(1, self.greatest_thread + 1)

    def begin_round(self):
        """A new round, with its notes where the version has them."""
        count = min(self.rng.choice([0, 0, 1, 3]), self.notes_left)
        notes = [' '.join(self.rng.choices(NOTE_WORDS, k=self.rng.randrange(1, 5)))[:NOTE_LENGTH].rstrip()
                 for _ in range(count)]
        self.notes_left -= count
        return ['round'] + ['note ' + note for note in notes]

    def make_round(self, steps):
        """One round of one script, or of several that meet in no region; now and then of none."""
        self.round += 1
        self.lines += self.begin_round()
        self.owned_names = {}
        if self.rng.random() < 0.05:
            return
        grants = self.some_grants()
        all_names = []
        for thread, allowed in grants:
            self.caller += 1
            self.lines.append('thread %d' % thread)
            self.allowed, names = allowed, Names(self.shared)
            if self.rng.random() > 0.03:
                self.make_script(thread, names, steps // len(grants) + 1)
            all_names.append(names)
        self.shared = merged(self.shared, all_names)

    def some_grants(self):
        """The threads of a round, each with the arenas whose regions it may use (None: all); where there are as many as
        there may be, most have none."""
        if self.rng.random() < 0.6:
            return [(self.rng.choice([1, 1, self.some_thread()]), None)]
        arenas = self.rng.sample(range(4), self.rng.randrange(2, 5))
        threads = sorted(arena + 1 + 4 * self.rng.randrange(self.greatest_thread // 4) for arena in arenas)
        owner = {(thread - 1) % 4: thread for thread in threads}
        for arena in range(4):
            owner.setdefault(arena, self.rng.choice(threads))
        owner[4] = self.rng.choice(threads)
        if self.rng.random() < 0.2:
            threads = range(1, self.greatest_thread + 1)
        return [(thread, {arena for arena in owner if owner[arena] == thread})
                for thread in threads]

    def make_script(self, thread, names, steps):
        """One script."""
        who, self.waiting = Pass(self.caller, self.round, thread), []
        made = tries = 0
        while made < steps and tries < 10 * steps:
            tries += 1
            words = self.waiting.pop(0) if self.waiting else self.some_step(names)
            if not self.may_make(thread, words, names):
                continue
            if words[0] in ('malloc', 'calloc', 'aligned', 'realloc'):
                self.owned_names[words[1]] = thread
            self.lines.append(' '.join(words))
            run_step(self.heap, who, words, names)
            made += 1
            self.steps_left -= 1

    def may_make(self, thread, words, names):
        """Whether a step keeps to the script's regions and names, and takes little memory."""
        if words[0] in ('malloc', 'calloc', 'aligned', 'realloc'):
            if self.owned_names.get(words[1], thread) != thread:
                return False
        touched = self.touched(thread, words, names)
        if LARGE_REGION in touched and self.is_greedy(words):
            return False
        arenas = {region // CLASSES for region in touched}
        return self.allowed is None or arenas <= self.allowed

    def is_greedy(self, words):
        """Whether the step may take very much memory."""
        if words[0] not in ('malloc', 'calloc', 'aligned', 'realloc'):
            return False
        size = int(words[2]) * int(words[3]) if words[0] == 'calloc' else int(words[-1])
        if size > 2 ** 30 or large_size(size) >= self.large_space:
            return False
        kept = sum(block.size for block in self.heap.large.live.values())
        if size >= 33554432 and self.rng.random() < 0.8:
            return True
        return size + kept > (2 ** 27 if self.large_space > 2 ** 26 else 2 ** 25)

    def touched(self, thread, words, names):
        """The numbers of the regions that a step may change or look at."""
        found = set()
        if words[0] in PLACE_WORD:
            place = read_place(words[PLACE_WORD[words[0]]])
            base = names.get(place.name) if place.name else 0
            if base is None:
                return found
            found.add(home_of(self.heap.config, base + place.number))
        kind = None
        if words[0] == 'malloc':
            kind = kind_of(int(words[2]))
        elif words[0] == 'calloc':
            kind = kind_of(int(words[2]) * int(words[3]))
        elif words[0] == 'aligned':
            kind = kind_aligned(int(words[3]), int(words[2]))
        elif words[0] == 'realloc':
            kind = kind_of(int(words[3]))
        if kind and kind[0] != 'too large':
            found.add(self.heap.source(thread, kind).number)
        return found - {None}

    # --- steps ---

    def some_step(self, names):
        """A random step."""
        kinds = sorted(self.weights)
        kind = self.rng.choices(kinds, [self.weights[k] for k in kinds])[0]
        if self.set_name(names) is None and self.rng.random() < 0.8:
            kind = 'malloc'
        if kind == 'story':
            self.waiting = self.some_story()
            return self.waiting.pop(0)
        name, size = self.rng.choice(self.pool), str(self.some_size())
        if kind == 'malloc':
            return ['malloc', self.free_name(names), size]
        if kind == 'calloc':
            return ['calloc', name] + self.some_product()
        if kind == 'aligned':
            return ['aligned', name, str(self.some_align()), size]
        if kind == 'realloc':
            return self.some_realloc(name, names)
        if kind == 'free':
            live = self.set_name(names, True)
            if live and self.rng.random() < 0.6:
                return ['free', live]
            return ['free', self.some_place(names, 0.8)]
        if kind == 'sfree':
            return self.some_sized_free(names)
        if kind == 'write':
            return self.some_write(names)
        if kind == 'read':
            return ['read', self.some_place(names), str(self.some_length())]
        return ['size', self.some_place(names)]

    def free_name(self, names):
        """A name, mostly one that holds no live block."""
        for _ in range(4):
            name = self.rng.choice(self.pool)
            if not self.is_live(names.get(name)):
                break
        return name

    def is_live(self, addr):
        """Whether a live block starts at an address."""
        home = self.heap.home(addr) if addr else None
        return home is not None and addr in home.live

    def some_size(self):
        """A size to ask for."""
        draw = self.rng.random()
        if draw < self.large_share:
            return self.some_large_size()
        if draw > 0.97:
            return self.rng.choice([0, 1, 2 ** 30, 2 ** 30 + 1, MASK64, 131064, 131065, 131072,
                                    131073, 131080, 131081, 2 ** 63, 2 ** 32])
        greatest = SIZE_CLASSES[self.rng.choice(self.classes)].usable
        return max(0, greatest + self.rng.choice([0, 0, 0, 1, -1, -self.rng.randrange(40)]))

    def some_large_size(self):
        """A size that is served by a large block."""
        base = self.rng.choice([131065, 131072, 131073, 163840, 163841, 196608, 200000, 229376,
                                262144, 262145, 327680, 500000, 524288, 1048576, 1048577, 3000000,
                                self.rng.randrange(131065, 600000)])
        if self.rng.random() < 0.02:
            base = self.rng.choice([29360128, 29360129, 33554431, 33554432, 33554433, 36000000])
        return base

    def some_product(self):
        """The two words of a `calloc`."""
        draw = self.rng.random()
        if draw < 0.15:
            return self.rng.choice([['4294967296', '4294967296'], ['9223372036854775808', '2'],
                                    ['18446744073709551615', '2'], ['0', '18446744073709551615'],
                                    ['18446744073709551615', '1'], ['18446744073709551615', '0'],
                                    ['6148914691236517205', '3'], ['6148914691236517206', '3']])
        size = self.some_size() % 10 ** 7
        count = self.rng.choice([1, 2, 3, 7, 10, 24])
        return [str(count), str(size // count)]

    def some_align(self):
        """An alignment, now and then a bad one."""
        if self.rng.random() < 0.15:
            return self.rng.choice([0, 3, 6, 12, 24, 4095, 4097, 2 ** 22, 2 ** 63, MASK64,
                                    GREATEST_ALIGN - 1, GREATEST_ALIGN + 1])
        return 2 ** self.rng.randrange(0, 22)

    def some_realloc(self, name, names):
        """A `realloc`: mostly of a live block, at times to a size that it has already."""
        sizes = [0, 1, self.some_size(), self.some_size(), self.some_size(),
                 self.some_large_size(), 2 ** 30 + 1]
        live = self.set_name(names, True)
        if live is None or self.rng.random() < 0.4:
            return ['realloc', name, self.some_place(names), str(self.rng.choice(sizes))]
        usable = self.usable_at(names.get(live))
        sizes += [usable, max(0, usable - 1), usable + 1, max(0, usable - self.rng.randrange(30))]
        return ['realloc', name, live, str(self.rng.choice(sizes))]

    def some_length(self):
        """How many bytes to read or write."""
        greatest = SIZE_CLASSES[self.rng.choice(self.classes)].slot
        return max(1, min(LENGTH_LIMIT, self.rng.choice(
            [1, 1, 2, 7, 8, 9, 16, 100, greatest - 8, greatest - 7, greatest, greatest + 1,
             self.rng.randrange(1, 300), self.rng.randrange(1, greatest + 1), 4096, 4097,
             65536 if self.rng.random() < 0.2 else 5,
             LENGTH_LIMIT if self.rng.random() < 0.05 else 3])))

    def some_byte(self):
        """A byte as two digits."""
        return '%02x' % self.rng.choice([0, 0, 0x41, 0x42, 0xFF, self.rng.randrange(256)])

    def some_write(self, names):
        """A write: anywhere, or to the last bytes of a slot."""
        name, dead = self.set_name(names), self.set_name(names, False)
        if name is None or self.rng.random() < 0.3:
            length = self.some_length()
            return ['write', self.some_place(names), str(length), self.some_byte()]
        if dead and self.rng.random() < 0.6:
            at = self.rng.randrange(self.usable_at(names.get(dead)) + 8)
            return ['write', self.moved(dead, at), str(self.rng.choice([1, 1, 2, 8, 20])),
                    self.some_byte()]
        return self.write_near_canary(name, names.get(name))

    def write_near_canary(self, name, addr):
        """A write to one or more of the 8 bytes behind a block; at times of the right byte."""
        usable, canary = self.usable_at(addr), self.canary_at(addr)
        k = self.rng.randrange(8)
        length = self.rng.choice([1, 1, 1, 8 - k, self.rng.randrange(1, 10)])
        byte = self.some_byte()
        if canary is not None and self.rng.random() < 0.4:
            length, byte = 1, '%02x' % (canary >> (8 * k) & 0xFF)
        return ['write', self.moved(name, usable + k), str(length), byte]

    def usable_at(self, addr):
        """The usable bytes of the block or slot at an address, live or not."""
        home = self.heap.home(addr)
        if home is self.heap.large:
            return home.live[addr].size if addr in home.live else 131072
        return home.c.usable

    def canary_at(self, addr):
        """The canary of the open slab at an address, or None."""
        home = self.heap.home(addr)
        if home is self.heap.large or home.shape.place_of(addr) is None:
            return None
        slab = home.slabs.get(home.shape.place_of(addr)[0])
        return slab.canary if slab else None

    def some_sized_free(self, names):
        """A free with a size: mostly the right one."""
        name = self.set_name(names)
        if name is None or self.rng.random() < 0.2:
            return ['sfree', self.some_place(names), str(self.some_size())]
        addr = names.get(name)
        home = self.heap.home(addr)
        asked = home.live.get(addr) if home is not self.heap.large else (
            home.live[addr].asked if addr in home.live else 200000)
        asked = self.usable_at(addr) if asked is None else asked
        usable = self.usable_at(addr)
        stated = self.rng.choice([asked, asked, asked, usable, usable + 1, asked + 1, 0, 1,
                                  max(0, asked - 1), MASK64, 2 ** 30, 2 ** 30 + 1,
                                  self.some_size()])
        return ['sfree', name, str(stated)]

    def some_story(self):
        """A few steps that belong together."""
        name, other = self.rng.choice(self.pool), self.rng.choice(self.pool)
        size = self.some_size() % 10 ** 6
        usable = SIZE_CLASSES[kind_of(size)[1]].usable if kind_of(size)[0] == 'small' else size
        at = self.rng.randrange(usable + 8) if usable else 0
        give = ['malloc', name, str(size)]
        give_up = ['free', name]
        again = ['malloc', other, str(size)]
        touch = ['write', self.moved(name, at), str(self.rng.choice([1, 3, 8])), self.some_byte()]
        look = ['read', name, str(max(1, min(usable, LENGTH_LIMIT)))]
        full = ['write', name, str(max(1, min(usable + self.rng.randrange(9), LENGTH_LIMIT))),
                self.some_byte()]
        return self.rng.choice([
            [give, give_up, touch, again, again, again],
            [give, full, give_up, look, again, ['read', other, look[2]]],
            [give, give_up, give_up, ['size', name], ['sfree', name, str(size)],
             ['realloc', other, name, '100']],
            [give, touch, ['realloc', other, name, str(self.some_size())], look],
            [give, full, ['realloc', other, name, str(self.some_size())],
             ['read', other, look[2]], give_up],
            [give, ['free', self.moved(name, 8)], ['free', self.moved(name, 16)],
             ['free', self.moved(name, usable + 8)], give_up],
            [give, again, give_up, ['free', other]] * 4,
            [give, give_up, full, ['malloc', other, str(size)]] * 3,
        ])[:]

    # --- references ---

    def set_name(self, names, live=None):
        """A name that holds an address, of a live block or of none where it is said; or None."""
        held = [name for name in self.pool if names.get(name) is not None
                and (live is None or self.is_live(names.get(name)) == live)]
        return self.rng.choice(held) if held else None

    def moved(self, name, distance):
        """A reference to a distance from a name."""
        if distance == 0:
            return name
        return '%s%s%d' % (name, '+' if distance > 0 else '-', abs(distance))

    def some_place(self, names, plain=0.5):
        """A reference."""
        draw, name = self.rng.random(), self.set_name(names)
        if draw < 0.02:
            return 'null'
        if draw < 0.03 or name is None:
            return self.rng.choice(self.pool)
        if draw < 0.11:
            return '@%x' % self.some_address(names)
        if self.rng.random() < plain:
            return name
        distance = self.some_distance(names, name)
        if not 0 < abs(distance) <= GREATEST_OFFSET or names.get(name) + distance < 0:
            return name
        return self.moved(name, distance)

    def some_distance(self, names, name):
        """How far a reference goes from its name."""
        addr, usable = names.get(name), self.usable_at(names.get(name))
        home = self.heap.home(addr)
        if home is self.heap.large:
            steps = [PAGE, usable, 1]
        else:
            steps = [home.c.slot, home.c.slab, 2 * home.c.slab, PAGE]
        other = names.get(self.set_name(names))
        return self.rng.choice([
            1, 8, -1, -8, 16, usable - 1, usable, usable + self.rng.randrange(8), usable + 8,
            usable // 2, self.rng.randrange(usable + 1), GREATEST_OFFSET, -GREATEST_OFFSET,
            other - addr, other - addr, other - addr, other - addr + usable,
            other - addr + self.rng.randrange(usable + 9),
            self.rng.choice(steps) * self.rng.choice([1, 1, 1, 2, 3, -1, -1, -2, 5]),
            self.rng.choice(steps) * self.rng.choice([1, -1]) + self.rng.choice([1, -1, 8])])

    def some_address(self, names):
        """An address: of a block, of a border, or any."""
        config = self.heap.config
        region = self.rng.choice(self.heap.regions)
        start = CLASS_SPACE_START + region.number * 2 * config.class_region
        end = CLASS_SPACE_START + CLASSES * 4 * 2 * config.class_region
        large_end = LARGE_SPACE_START + config.large_space
        name = self.set_name(names)
        place = region.first + region.c.slab * self.rng.randrange(9) + (
            region.c.slot * self.rng.randrange(region.c.slots))
        used = [addr for other in self.heap.regions for addr in other.given][-500:]
        used += list(self.heap.large.taken) or [LARGE_SPACE_START + PAGE]
        if self.rng.random() < 0.3:
            return self.rng.choice(used) + self.rng.choice([0, 0, 0, 1, 8, 16, 4096])
        return self.rng.choice([
            0, 1, 0xFFF, CLASS_SPACE_START - 1, CLASS_SPACE_START, start, start - 1,
            region.first - 1, region.first, region.first - region.c.slot, place, place, place + 1,
            region.first + region.shape.limit * region.c.slab,
            region.first + region.shape.limit * region.c.slab - region.c.slot,
            region.first + (region.shape.limit - 1) * region.c.slab,
            start + config.class_region, start + 2 * config.class_region - 1, end - 1, end,
            LARGE_SPACE_START - 1, LARGE_SPACE_START, large_end - 1, large_end, 2 ** 47 - 1,
            2 ** 47, 2 ** 63, MASK64, self.rng.getrandbits(64), self.rng.getrandbits(47),
            names.get(name) if name else 0, names.get(name) if name else 16,
            (names.get(name) if name else 0) + self.rng.randrange(5000)])


class BulkMaker(TraceMaker):
    """Makes a long trace of one small class: many blocks, all of them freed, and some more."""

    def __init__(self, seed, config, size_class, count):
        super().__init__(seed, config, steps=1)
        self.size_class, self.count = SIZE_CLASSES[size_class], count
        self.class_region = max(self.class_region, 2 ** 25)
        self.heap = self.new_heap()

    def make(self):
        """The trace."""
        thread = self.some_thread()
        self.lines += self.begin_round() + ['thread %d' % thread]
        order = list(range(self.count))
        if self.rng.random() < 0.3:
            self.rng.shuffle(order)
        asked = self.size_class.usable
        for k in range(self.count):
            self.lines.append('malloc b%d %d' % (k, asked))
        self.lines += self.round_break(thread)
        for k in order:
            self.lines.append('free b%d' % k)
            if self.rng.random() < 0.01 and asked:
                self.lines.append('write b%d+%d 2 %s' % (
                    self.rng.randrange(self.count), self.rng.randrange(1, asked + 4),
                    self.some_byte()))
        self.lines += self.round_break(thread)
        for k in range(self.count // 2):
            self.lines.append('malloc c%d %d' % (k % 500, asked))
            if k % 3 == 0:
                self.lines.append('free c%d' % self.rng.randrange(500))
            if k % 11 == 0:
                self.lines.append('size b%d' % self.rng.randrange(self.count))
        self.lines.append('end')
        return ('\n'.join(self.lines) + '\n').encode()

    def round_break(self, thread):
        """A new round for the same thread, at times."""
        return self.begin_round() + ['thread %d' % thread] if self.rng.random() < 0.5 else []


class ContestMaker(TraceMaker):
    """Makes a trace whose threads meet in the same regions; it is made without the model."""

    def make(self):
        """The trace."""
        self.sizes = self.rng.sample([0, 8, 100, 100, 1000, 20000, 50000, 60000, 90000, 130000,
                                      131064, 150000, 200000], 3)
        self.known = []
        for self.round in range(1, self.rng.randrange(2, 7)):
            self.lines += self.begin_round()
            threads = sorted(self.rng.sample(range(1, self.greatest_thread + 1),
                                             self.rng.choice([1, 2, 4, 8, self.greatest_thread])))
            new = []
            for thread in threads:
                self.lines.append('thread %d' % thread)
                new += self.contest_script(thread, self.rng.choice([5, 30, 120]))
            self.known = self.known[-30:] + new
        self.lines.append('end')
        return ('\n'.join(self.lines) + '\n').encode()

    def contest_script(self, thread, steps):
        """One script: its own names, and those of all threads in the rounds before."""
        mine = ['t%dk%d' % (thread, k) for k in range(8)]
        for _ in range(steps):
            size, name = self.rng.choice(self.sizes), self.rng.choice(mine)
            place = self.rng.choice(mine + self.known[-40:])
            if self.rng.random() < 0.1:
                place += self.rng.choice(['+8', '+100', '-4096', '+131072', '+1'])
            self.lines.append(self.rng.choice([
                'malloc %s %d' % (name, size), 'malloc %s %d' % (name, size),
                'free %s' % place, 'free %s' % place, 'sfree %s %d' % (place, size),
                'realloc %s %s %d' % (name, place, self.rng.choice(self.sizes)),
                'write %s %d %s' % (place, self.rng.choice([1, 8, 50]), self.some_byte()),
                'read %s %d' % (place, self.rng.choice([1, 60])), 'size %s' % place,
                'aligned %s 4096 %d' % (name, size), 'calloc %s 3 %d' % (name, size // 3)]))
        return mine


class LargeBulkMaker(TraceMaker):
    """Makes a long trace of large blocks, so that they leave their quarantine."""

    def __init__(self, seed, config, count):
        super().__init__(seed, config, steps=1)
        self.count = count
        self.large_space = self.rng.choice([2 ** 40, 2 ** 30, 2 ** 28 + PAGE * 77, 2 ** 29])
        self.heap = self.new_heap()

    def make(self):
        """The trace."""
        self.lines += self.begin_round() + ['thread %d' % self.some_thread()]
        for k in range(self.count):
            self.lines.append('malloc b%d %d' % (k % 40, self.rng.choice(
                [131065, 131073, 163840, 163841, self.rng.randrange(131065, 500000)])))
            if self.rng.random() < 0.1:
                self.lines.append('aligned d%d %d %d' % (
                    k % 4, 2 ** self.rng.randrange(13, 22), self.rng.randrange(300000)))
                self.lines.append('free d%d' % self.rng.randrange(4))
            self.lines.append('free b%d' % ((k + 20) % 40))
            if self.rng.random() < 0.1:
                self.lines.append('write b%d+%d 9 41' % (k % 40, self.rng.randrange(1, 163835)))
                self.lines.append('realloc b%d b%d %d' % (
                    k % 40, k % 40, self.rng.randrange(131065, 600000)))
                self.lines.append('size b%d' % self.rng.randrange(40))
        self.lines.append('end')
        return ('\n'.join(self.lines) + '\n').encode()


def make_trace(seed, config):
    """A maker whose trace is to be made: mostly of mixed steps, now and then a long one."""
    if seed % 50 == 12:
        return LargeBulkMaker(seed, config, 2600)
    if seed % 25 == 24:
        rng = random.Random(seed)
        size_class = rng.randrange(8, 49)
        length = SIZE_CLASSES[size_class].length
        slots = max(1, 131072 // SIZE_CLASSES[size_class].slot)
        return BulkMaker(seed, config, size_class, min(12000, 8 * length + 3 * slots + 60))
    return TraceMaker(seed, config)
