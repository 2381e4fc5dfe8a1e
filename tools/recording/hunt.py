"""usage: tools/hunt [options] -- PROGRAM ARGS..

Runs a program, notes its calls of malloc and free with their stacks, and says what is wrong: of each fault the block,
where it was allocated, freed, and misused or seen, and whether a hardened allocator would stop it, by a replay. All of
this goes to standard error; standard output, the status and the signals are the program's own.

  --again        the program is run a second time, whatever the first took
  --once         it is not: by itself it is run again where a stray write was seen and the run took less than a minute
  --last N       so many calls at the end are replayed (as many as a trace takes, 400,000)
  --one-thread   they are replayed in one thread, in the order in which they were made
  --seeds N      with so many seeds it is replayed where the first shows nothing (8); with 0 it is not replayed
  --frames N     so many frames of a stack are shown (5)
  --look-at SIG  at this signal, as SIGUSR2, blocks are compared, and the program goes on
  --json FILE    each fault becomes a line of JSON
  -o FOLDER      keeps the trace, the stacks, the report, the journal and a page that shows it, for each process
  --replayer C   a command that reads a trace and writes its report, in place of ./hmreplay

The second run does all that the program does once more: files are written, messages sent. It reads what standard input
brought (nothing where that is a terminal), and its output is left out. In it the blocks that the allocating lines of
overwritten blocks give lie at the end of pages of their own, so the line of a stray write is told, and of reads behind
them or after they were freed. After twice the time of the first run, and ten seconds, it is ended by SIGTERM.

What it does not see: reads in the first run; writes in front of a block, within it, or more than 64 bytes behind it;
what happens to memory that is not malloc's, or in a process that is static, runs with other rights, or has its own
malloc; use of a freed block whose address was given again; in the second run a system call that writes to a guarded
block, as it fails. A line is named where the program was compiled with -g.

The status is 0 where nothing was found, 1 where something was, 2 where the words are wrong, and 3 where the program
could not be recorded.
"""

import os
import shutil
import signal
import subprocess
import sys
import tempfile
import time

import record
from faults import Fault, count
from inputs import Input
from notes import read_folder
from record import Failed
from replay import TOP, Replay, Replayer
from second_run import LONGEST_FIRST_RUN, second_run
from sites import Sites
from stacks import shown, words_of

RING_RECORDS = 1 << 19
LONGEST_COMMAND = 60
MOST_ENTRIES = 50000
NUMBERS = {'--last': 'last', '--seeds': 'seeds', '--frames': 'frames'}
FILES = {'-o': 'folder', '--json': 'json', '--replayer': 'replayer'}


def say(text):
    """Writes for the user."""
    print(text, file=sys.stderr, flush=True)


class Options:
    """What the words ask for. `runs_again` is None where the time of the first run decides."""

    def __init__(self):
        self.runs_again, self.one_thread, self.look_at = None, False, 0
        self.last, self.seeds, self.frames = None, 8, 5
        self.folder = self.json = self.replayer = None

    def take(self, word, words):
        """Takes an option, and its value of the words behind it; answers whether there is such a one."""
        if word in ('--again', '--once'):
            self.runs_again = word == '--again'
        elif word == '--one-thread':
            self.one_thread = True
        elif word in NUMBERS and words and words[0].isdigit() and (int(words[0]) or word == '--seeds'):
            setattr(self, NUMBERS[word], int(words.pop(0)))
        elif word in FILES and words:
            setattr(self, FILES[word], words.pop(0))
        elif word == '--look-at' and words and words[0] in signal.Signals.__members__:
            self.look_at = int(signal.Signals[words.pop(0)])
        else:
            return False
        return True


def read_words(words):
    """The options, and the program's words."""
    options = Options()
    while words and words[0] != '--':
        word = words.pop(0)
        if word in ('-h', '--help'):
            print(__doc__, end='')
            sys.exit(0)
        if not word.startswith('-'):
            raise Failed('-- is missing in front of %s' % word, 2)
        if not options.take(word, words):
            raise Failed('the word %s is not known, or its value is not; see tools/hunt --help' % word, 2)
    if len(words) < 2:
        raise Failed('usage: tools/hunt [options] -- PROGRAM ARGS..', 2)
    return options, words[1:]


# ---- one process ----

class Process:
    """A process that was recorded: its notes, its faults, and its replay, where there is one."""

    def __init__(self, notes, options, replayer):
        self.notes = notes
        self.sites = Sites(notes.sites_path) if notes.sites_path else None
        self.replay, self.faults = None, []
        if (notes.misuses and options.seeds) or options.folder:
            self.replay = Replay(notes, options, replayer)
            self.replay.run(options.seeds if notes.misuses else 1)
        self.name_sites()
        self.make_faults()

    def name_sites(self):
        """Asks for all names that are needed, at once."""
        wanted = {event.site for seen in self.notes.misuses
                  for event in (seen.here, seen.given, seen.freed, seen.right)}
        if self.sites:
            self.sites.name(wanted | (self.replay.sites() if self.replay else set()))

    def make_faults(self):
        """Makes a fault of each misuse; the first of a block is the one of which the allocator is asked."""
        seen_blocks, merged = set(), {}
        for seen in self.notes.misuses:
            fault = Fault(seen, self.sites)
            fault.is_first = not seen.block or seen.block not in seen_blocks
            seen_blocks.add(seen.block)
            if self.replay:
                self.replay.join(fault, self.sites)
            one = merged.setdefault(fault.key(), fault)
            if one is not fault:
                one.take_in(fault)
        self.faults = list(merged.values())

    def keep(self, base, replayer):
        """Writes what -o asks for."""
        texts = {'.hmtrace': self.replay.text, '.report': self.replay.reports.get(0, ''),
                 '.sites': self.sites.text() if self.sites else '', '.journal': replayer.journal(self.replay.text)}
        for ending, text in texts.items():
            with open(base + ending, 'w', encoding='utf-8', errors='surrogateescape') as file:
                file.write(text)
        if texts['.journal'].count('\n') > MOST_ENTRIES:
            say('hunt: %s.journal is too long for a page' % base)
        elif texts['.journal']:
            subprocess.run([os.path.join(TOP, 'tools', 'picture'), '-o', base + '.html', base + '.journal'])

    def tell(self, options):
        """Says what was replayed, and what was not."""
        notes, replay, command = self.notes, self.replay, self.notes.command[:LONGEST_COMMAND]
        if notes.misuses_left_out:
            say('hunt: %s of %s are not shown' % (count(notes.misuses_left_out, 'fault'), command))
        if not replay:
            return
        if replay.failure:
            say('hunt: %s was not replayed: %s' % (command, replay.failure))
            return
        if replay.maker.first:
            say('hunt: of %s the last %s of %s calls are replayed, from %s on' % (
                command, format(len(replay.maker.records), ','), format(notes.total, ','),
                count(len(replay.maker.start_blocks), 'live block')))
        if replay.is_one_thread and not options.one_thread:
            say('hunt: the calls of %s are replayed in one thread: their order is kept; that threads ran together, and '
                'their arenas, are not' % command)
        if replay.maker.reason:
            say('hunt: the trace of %s is cut, since %s' % (command, replay.maker.reason))


# ---- the whole ----

def record_program(program, options, folder, given):
    """Runs the program and answers how many seconds it took."""
    started = time.monotonic()
    try:
        library = record.build_library(folder, ['TAKES_STACKS=1', 'KEEPS_LAST=1', 'MOST_RECORDS=%d' % RING_RECORDS,
                                                'LOOK_AT=%d' % options.look_at])
        _, status = record.run_program(program, library, given.for_first_run())
    except Failed as failed:
        raise Failed(str(failed), 3)
    say('hunt: %s ended with %s' % (program[0], record.ending(status)))
    record.wait_for_others(lambda text: say('hunt: ' + text))
    return time.monotonic() - started


def merge(faults):
    """Equal faults are one, the most certain first."""
    merged = {}
    for fault in faults:
        one = merged.setdefault(fault.key(), fault)
        if one is not fault:
            one.take_in(fault)
    return sorted(merged.values(), key=Fault.weight)


def look_again(program, faults, given, seconds, options):
    """Runs the program again where it helps; answers the faults as they are known then."""
    is_short = seconds < LONGEST_FIRST_RUN
    if not any(fault.is_write() for fault in faults) or not (is_short if options.runs_again is None else
                                                             options.runs_again):
        return faults
    try:
        second_run(program, faults, given.for_second_run(), seconds, options.look_at)
    except (OSError, Failed) as error:
        say('hunt: the second run failed: %s' % error)
    faults = merge(faults)
    missing = sum(fault.is_write() and 'done' not in fault.stacks for fault in faults)
    if missing:
        say('hunt: the second run did not show the line of %s' % count(missing, 'stray write'))
    return faults


def summary(faults, processes):
    """The last line."""
    calls = sum(process.notes.calls for process in processes)
    threads = sum(process.notes.threads for process in processes)
    text = 'hunt: %s in %s of %s' % (count(len(faults), 'fault'), count(calls, 'call'), count(threads, 'thread'))
    if len(processes) > 1:
        text += ' and %s' % count(len(processes), 'process').replace('processs', 'processes')
    replays = [process.replay for process in processes if process.replay]
    if any(0 in replay.findings for replay in replays):
        findings = sum(len(replay.findings.get(0, [])) for replay in replays)
        text += '; replayed with seed 0: ' + count(findings, 'finding')
    elif replays:
        text += '; not replayed'
    return text


def tell(options, faults, processes):
    """Writes what was found, and answers the status."""
    for fault in faults:
        say(fault.paragraph(options.frames) + '\n')
    for process in processes:
        process.tell(options)
    if faults and not any(fault.has_lines(options.frames) for fault in faults):
        say('hunt: compile with -g, and lines are named')
    if options.json:
        with open(options.json, 'w', encoding='utf-8') as file:
            file.writelines(fault.as_json() + '\n' for fault in faults)
    say(summary(faults, processes))
    return 1 if faults else 0


def keep_all(options, processes, replayer):
    """Keeps what -o asks for; the text goes into the folder too."""
    os.makedirs(options.folder, exist_ok=True)
    for number, process in enumerate(processes, 1):
        process.keep(os.path.join(options.folder, 'run' if number == 1 else 'run.%d' % number), replayer)


def hunt(words):
    """Does what the words ask for, and answers the status."""
    options, program = read_words(words)
    folder = tempfile.mkdtemp(prefix='hunt-')
    record.adopt_orphans()
    try:
        given = Input(options.runs_again is not False)
        seconds = record_program(program, options, folder, given)
        all_notes = [notes for notes in read_folder(folder) if notes.has_calls()]
        if not all_notes:
            raise Failed(record.NOTHING_NOTED, 3)
        replayer = Replayer(options.replayer)
        processes = [Process(notes, options, replayer) for notes in all_notes]
        faults = merge([fault for process in processes for fault in process.faults])
        faults = look_again(program, faults, given, seconds, options)
        if options.folder:
            keep_all(options, processes, replayer)
        return tell(options, faults, processes)
    finally:
        shutil.rmtree(folder, ignore_errors=True)


def main():
    """Ends with the status that the help tells."""
    signal.signal(signal.SIGTERM, signal.default_int_handler)
    try:
        sys.exit(hunt(sys.argv[1:]))
    except KeyboardInterrupt:
        say('hunt: interrupted')
        sys.exit(3)
    except Failed as failed:
        say('hunt: %s' % failed)
        sys.exit(failed.status)
    except OSError as error:
        say('hunt: %s: %s' % (error.filename, error.strerror))
        sys.exit(3)


if __name__ == '__main__':
    main()
