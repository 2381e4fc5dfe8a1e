"""How large a block is that serves a request (docs/SIZES.md), in the standard configuration."""

CANARY_BYTES = 8
LARGEST_SLOT = 131072
PAGE_BYTES = 4096
PAGE_POWER = 12
USUAL_POWER = 4  # alignments up to 16 are as none


def all_slots():
    """The bytes of the slots of all classes but class 0: multiples of 16, then four to each power of two."""
    slots = list(range(16, 129, 16))
    while slots[-1] < LARGEST_SLOT:
        power = slots[-1]
        slots += [power + power // 4 * part for part in range(1, 5)]
    return slots


SLOTS = all_slots()


def large_size(size):
    """The bytes of a large block: a multiple of an eighth of the power of two above, and of a page."""
    power = 1 << max(0, size - 1).bit_length()
    unit = max(PAGE_BYTES, power // 8)
    return (size + unit - 1) // unit * unit


def usable(size, align):
    """The bytes that may be used of the block for a request, aligned to a power of two, and whether it is a large
    block."""
    raised = size + CANARY_BYTES if 1 <= size <= LARGEST_SLOT else size
    if align > PAGE_POWER or raised > LARGEST_SLOT:
        return large_size(raised), True
    if align <= USUAL_POWER:
        if size == 0:
            return 0, False
        align = 0
    return next(slot for slot in SLOTS if slot >= raised and slot % 2 ** align == 0) - CANARY_BYTES, False
