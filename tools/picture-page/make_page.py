"""Makes the page that shows a journal: the text of page.html, with what it has to know put in."""

import json
import sys
from pathlib import Path

from journal import LARGE_REGION, NoJournal, in_one_order, read_journal
from states import (
    CANARY, FINDINGS, OVERWRITTEN, TRAP, WRONG_SIZE, ClassFollower, LargeFollower, Things)
from model import first_difference

HELP = """usage: tools/picture [JOURNAL] [-o FILE.html]

Draws a journal, as `./hmreplay journal` writes it (docs/JOURNAL.md), as one page of HTML that needs no network. Without
the names it reads standard input and writes standard output:

    ./hmreplay journal < examples/write_after_free.hmtrace | tools/picture -o page.html

What one sees: each slab with its slots, live, free or waiting in quarantine, and each large block, as they stand after
any entry; a slider, which the arrow keys move by one entry; each finding with the number of its line in the report;
and the live bytes after each entry. `page.html#1.1.8` opens at the entry of step 1.1.8.

It takes about half a second, and three to five more for each 50,000 entries; so long a page also takes some seconds to
open, and it is not meant for more. Steps that leave no entry are not shown, as one whose address lies outside.

It ends with 0; with 1 where the text is no journal; with 2 where the words are not accepted or a file can't be read or
written; and with 127 where Python is missing.
"""
TEMPLATE = Path(__file__).resolve().parent / 'page.html'
LONGEST_TEXT = 60
WORDS = {3: 'exhausted', 4: 'no space', 5: 'pages failed', 7: 'freed', 8: 'no slot', 9: 'unused', 10: 'double free',
         15: 'written', 17: 'not live'}
FIRST_OF_MOVE = 3


class WrongWords(Exception):
    """The words of the command are not accepted."""


def shortened(text):
    """A text, cut where it is long."""
    return text if len(text) <= LONGEST_TEXT else text[:LONGEST_TEXT] + '..'


def runs_text(runs, between):
    """Runs of bytes as text."""
    return shortened(between.join('%02x*%d' % pair for pair in runs))


def call_text(call):
    """A call in the words of the journal, a size that is not stated being left out."""
    words = [runs_text(word, ',') if isinstance(word, list) else str(word) for word in call[1:] if word is not None]
    return ' '.join([call[0]] + words)


def reply_text(entry):
    """A reply in the words of a report."""
    kind, fields = entry.reply[0], entry.reply[1:]
    if kind in WORDS:
        return WORDS[kind]
    if kind == 1:
        return 'given %d' % fields[1]
    if kind == OVERWRITTEN:
        return 'overwritten at %d found %02x' % fields[1:]
    if kind == WRONG_SIZE:
        return 'wrong size %d %d' % fields
    if kind == CANARY:
        return 'canary at %d' % first_difference(*fields)
    if kind == 13:
        return 'size %d' % fields
    if kind == TRAP:
        return 'trap at +%d' % max(0, fields[0] - entry.call[1])
    return ('bytes ' + runs_text(fields[0], ' ')).rstrip()


def line_text(entry, moved):
    """The line of the report that a finding makes, without its numbers: in the move of a `realloc` after its block was
    given, that is another one."""
    text = reply_text(entry)
    if entry.part < FIRST_OF_MOVE:
        return text
    return 'half moved %d: %s' % (moved.get((entry.caller, entry.step), 0), text.split(' at +')[0])


def rows_of(journal, followers):
    """What the page has to know of each entry, in one order."""
    place = {number: k for k, number in enumerate(followers)}
    moved, rows = {}, []
    for placed in in_one_order(journal):
        entry = placed.entry
        effect = followers[placed.region].follow(placed)
        if entry.call[0] == 'allot' and entry.reply[0] == 1:
            moved[entry.caller, entry.step] = entry.reply[2]
        finding = line_text(entry, moved) if entry.reply[0] in FINDINGS else ''
        rows.append([place[placed.region], entry.round, entry.thread, entry.step, entry.part, placed.line,
                     effect.subject, effect.address, effect.delta, call_text(entry.call), reply_text(entry), finding,
                     effect.changes])
    return rows


def page_data(journal):
    """What the page has to know of a journal."""
    things, followers = Things(), {}
    for region in journal.regions:
        if region.entries:
            if region.number == LARGE_REGION:
                followers[region.number] = LargeFollower(region, journal.config, things)
            else:
                followers[region.number] = ClassFollower(region, journal.config, things)
    things_count = len(things.states)
    rows = rows_of(journal, followers)
    return {'seed': str(journal.seed), 'interval': journal.config.guard_interval, 'things': things_count,
            'count': len(journal.regions), 'entries': rows,
            'regions': [follower.described() for follower in followers.values()]}


def page_of(data):
    """The whole page, of the bytes of a journal."""
    told = json.dumps(page_data(read_journal(data)), separators=(',', ':'))
    return TEMPLATE.read_text('utf-8').replace('{{JOURNAL}}', told)


def asked(words):
    """The names of the file to read and of the one to write, each None where it is left out."""
    source = target = None
    while words:
        word = words.pop(0)
        if word == '-o' and words and target is None:
            target = words.pop(0)
        elif not word.startswith('-') and source is None:
            source = word
        else:
            raise WrongWords('usage: picture [JOURNAL] [-o FILE.html]')
    return source, target


def main(words):
    """Makes a page as the words ask for; answers the exit status."""
    if words in (['--help'], ['-h']):
        print(HELP, end='')
        return 0
    try:
        source, target = asked(words)
        data = Path(source).read_bytes() if source else sys.stdin.buffer.read()
        page = page_of(data).encode()
        if target:
            Path(target).write_bytes(page)
        else:
            sys.stdout.buffer.write(page)
            sys.stdout.buffer.flush()
    except NoJournal as why:
        print('picture: no journal: %s' % why, file=sys.stderr)
        return 1
    except WrongWords as why:
        print('picture: %s' % why, file=sys.stderr)
        return 2
    except OSError as why:
        print('picture: %s: %s' % (why.filename or 'standard input or output', why.strerror), file=sys.stderr)
        return 2
    return 0


if __name__ == '__main__':
    sys.exit(main(sys.argv[1:]))
