"""Lists of words after the program's name, by which the launcher's reading is compared with the program's."""
import itertools, random

COMMANDS = ["run", "journal", "stats", "watch", "check", "stress"]
OPTIONS = ["--config", "--seed", "--class-region", "--large-space"]
NUMBERS = [
    "0", "1", "7", "00", "007", "-1", "+1", " 7", "7 ", "", "0x10", "1e3", "1_000", "1.0", "seven", "٣", "²",
    "18446744073709551615", "18446744073709551616", "00000000000000000001", "000000000000000000001",
    "99999999999999999999", "4096", "1044480", "1048575", "1048576", "1048577", "1052672", "34359738368",
    "34359742464", "1099511627776", "1099511631872", "549755813888", "001048576",
]
NAMES = ["standard", "light", "Light", "STANDARD", "lite", "standard ", "", "0", "1048576"]
OTHERS = [
    "", "-", "--", "-h", "--help", "help", "--version", "Run", "rnu", "runs", "run ", "--Seed", "--seed=1", "-seed",
    "--config=light", "file.hmtrace", "/dev/null", "a\nb", "é", "--seed\t", "&&", "*", "null",
]
RANDOM_LISTS = 4000


def by_hand():
    """Lists that are built by one rule each: one word, two words, an option with each value, an option twice."""
    words = [*COMMANDS, *OPTIONS, *NUMBERS[:9], *NAMES[:3], *OTHERS]
    yield []
    yield from ([word] for word in words)
    pairs = itertools.product([*COMMANDS, *OPTIONS, "--", "x"], [*OPTIONS, *OTHERS, "run", "7"])
    yield from (list(pair) for pair in pairs)
    yield from (["run", option, value] for option in OPTIONS for value in [*NUMBERS, *NAMES])
    yield from (["check", option, "1048576"] for option in OPTIONS)
    yield from (["stress", number] for number in NUMBERS if number not in ("0", "1", "7"))
    for one, two in itertools.product(OPTIONS, OPTIONS):
        yield ["stats", one, "1048576", two, "1048576"]
        yield ["run", one, well(one), two, well(two)]


def well(option):
    """Returns a value that the option takes."""
    return "light" if option == "--config" else "1048576"


def at_random(seed):
    """Lists of one to nine words, of which about a half are accepted."""
    chosen = random.Random(seed)
    for _ in range(RANDOM_LISTS):
        options = chosen.sample(OPTIONS, chosen.randrange(5))
        words = [chosen.choice(COMMANDS[:4]), *itertools.chain(*[[option, well(option)] for option in options])]
        if chosen.random() < 0.5:
            at = chosen.randrange(len(words))
            words[at] = chosen.choice([*COMMANDS, *OPTIONS, *NUMBERS, *NAMES, *OTHERS])
        if chosen.random() < 0.2:
            words.insert(chosen.randrange(len(words) + 1), chosen.choice([*COMMANDS, *OPTIONS, *NUMBERS, *OTHERS]))
        yield words


def all_lists(others):
    """Returns every list once, with other ones, and without those that run a stress trace."""
    lists = dict.fromkeys(map(tuple, [*others, *by_hand(), *at_random(1)]))
    return [list(words) for words in lists]
