"""Replays of what was recorded: the trace of a process, the findings, and the faults of which they are."""

import functools
import os
import re
import shlex
import subprocess
import sys

from faults import why_it_passes
from notes import FREE, FREED_WRITE, LIVE, REALLOC, SIZED_FREE, TAIL_WRITE
from sizes import usable
from trace import MOST_STEPS, Maker, asked_of

TOP = os.path.dirname(os.path.dirname(os.path.dirname(os.path.abspath(__file__))))
# The marked texts of docs/TRACES.md.
MARKED = re.compile(r'(\d+)\.(\d+)\.(\d+) ((?:overwritten|no slot|unused|double free|not live|outside|wrong size|'
                    r'canary|trap|half moved).*)')
MOST_TRIES = 6
STATUS_OF_FINDINGS = 1


class Replayer:
    """The program that replays: `./hmreplay`, or a command that reads a trace and writes its report, which takes no
    seed."""

    def __init__(self, command):
        self.command = shlex.split(command) if command else None
        self.program = os.path.join(TOP, 'hmreplay')

    @functools.cached_property
    def is_proved(self):
        """Whether a proved program stands."""
        return not self.command and subprocess.run(
            [os.path.join(TOP, 'prove'), '--look'], stdin=subprocess.DEVNULL, stdout=subprocess.DEVNULL,
            stderr=subprocess.DEVNULL).returncode == 0

    def seeds(self, most):
        """The seeds with which it may replay: only a proved program is asked for several."""
        return range(most) if self.is_proved else range(1)

    def run(self, text, seed):
        """The status, the report, and what it says of an error."""
        if not self.is_proved and not self.command:
            print('hunt: no program is proved yet (./prove makes it), so an unproved build replays, which is made once, '
                  'in about a minute', file=sys.stderr)
        words = self.command or [self.program, 'run', '--seed', str(seed)]
        done = subprocess.run(words, input=text, stdout=subprocess.PIPE, stderr=subprocess.PIPE, text=True)
        return done.returncode, done.stdout, done.stderr

    def journal(self, text):
        """The journal of a trace, empty where it can't be made."""
        if self.command:
            return ''
        return subprocess.run([self.program, 'journal'], input=text, stdout=subprocess.PIPE, stderr=subprocess.DEVNULL,
                              text=True).stdout


def is_release(record):
    """Whether it frees a live block, or resizes it."""
    return record.kind in (FREE, SIZED_FREE, REALLOC) and record.reference and not record.offset and \
        record.state == LIVE


class Replay:
    """The trace of a process, and what replays of it found: `findings` has, by the seed, the number of each finding's
    note and its text, and `reports` the reports."""

    def __init__(self, notes, options, replayer):
        self.notes, self.replayer = notes, replayer
        self.findings, self.reports, self.failure = {}, {}, None
        self.make(options)
        self.text = self.maker.rounds.text()
        self.releases = {record.reference: number
                         for number, record in enumerate(self.maker.records, self.maker.first) if is_release(record)}

    def first_guess(self, last):
        """So many of the last calls as may have room beside the blocks that are live before them."""
        if last + len(self.notes.live) <= MOST_STEPS[2]:
            return last
        starts = self.notes.start_blocks(self.notes.kept(last))
        return max(1, min(last, MOST_STEPS[2] - len(starts) * 11 // 10 - 3 * len(self.notes.misuses) - 500))

    def make(self, options):
        """Makes the trace of the last calls, as many as it takes, in one thread where rounds are not enough."""
        last = self.first_guess(min(options.last or MOST_STEPS[2], self.notes.count))
        self.is_one_thread = options.one_thread
        for _ in range(MOST_TRIES):
            self.maker = Maker(self.notes, False, last, self.is_one_thread)
            self.maker.make()
            if not self.maker.reason:
                return
            if not self.is_one_thread and not self.maker.needs_steps:
                self.is_one_thread = True
            else:
                last = max(1, last - (self.maker.left_out - self.notes.left_out) * 11 // 10 - 500)

    def run(self, seeds):
        """Replays it with the first seed, and where nothing is found with all the others."""
        self.run_once(0)
        if self.findings.get(0) == []:
            for seed in self.replayer.seeds(seeds)[1:]:
                self.run_once(seed)

    def run_once(self, seed):
        """Replays it with a seed. A replayer that fails may end with the status of findings, so lines are counted."""
        status, report, told = self.replayer.run(self.text, seed)
        if status > STATUS_OF_FINDINGS or report.count('\n') != self.maker.rounds.steps:
            self.failure = 'the replayer ended with status %d: %s' % (status, (report[:200] + told[-200:]).strip())
            return
        self.reports[seed] = report
        found = []
        for match in map(MARKED.match, report.splitlines()):
            if match:
                place = tuple(map(int, match.groups()[:3]))
                found.append((self.maker.rounds.origin_of(place), match.group(4)))
        self.findings[seed] = found

    def record_at(self, call):
        """The note of that number, None where it does not stand in the trace."""
        return self.maker.records[call - self.maker.first] if call is not None and call >= self.maker.first else None

    def sites(self):
        """The stacks of all findings."""
        notes = [self.record_at(call) for found in self.findings.values() for call, _ in found]
        return {note.site for note in notes if note}

    # ---- the findings of a fault ----

    def join(self, fault, sites):
        """Gives a fault what the replays say of it."""
        seen = fault.seen
        fault.is_early = seen.here.call < self.maker.first
        if fault.is_early:
            return
        fault.tried = sorted(self.findings)
        fault.passes = why_it_passes(seen, seen.block in self.releases)
        for seed, found in self.findings.items():
            for call, text in found:
                if self.is_of(seen, call, text):
                    note = self.record_at(call)
                    fault.stops[seed] = (text, sites.frames(note.site) if sites and note else [])
                    break

    def is_of(self, seen, call, text):
        """Whether a finding is of a misuse: of its own call, of the one that frees the block, or of a write to its
        freed slot."""
        calls = {seen.here.call}
        if seen.kind == TAIL_WRITE:
            calls.add(self.releases.get(seen.block))
        if seen.kind == FREED_WRITE:
            calls.add(seen.freed.call)
        return call is not None and (call in calls or self.is_given_again(seen, call, text))

    def is_given_again(self, seen, call, text):
        """Whether a finding is that of a slot that was to be given again, with these bytes changed."""
        note, words = self.record_at(call), text.split()
        if seen.kind != FREED_WRITE or words[0] != 'overwritten' or note is None:
            return False
        return seen.offset <= int(words[2]) < seen.end and \
            usable(asked_of(note), note.align) == usable(seen.size, seen.align)
