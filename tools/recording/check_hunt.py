"""usage: python3 check_hunt.py FOLDER [--replayer COMMAND]

Hunts in each program of a folder and compares the lines that are named with those that are marked in its source, and
how it ends with how it ends by itself. tools/check calls it.

A mark is in a comment: `@allocated`, `@freed`, `@here` (what a call did), `@write`, `@read` (by the second run),
`@seen` (where a stray write was noticed; it is compared where there is such a mark). `@stops TEXT`, or `@passes`, says
what the allocator does. A program without marks has no fault.
"""

import json
import os
import re
import subprocess
import sys
import tempfile

from record import ending

HUNT = os.path.join(os.path.dirname(os.path.dirname(os.path.abspath(__file__))), 'hunt')
MARK = re.compile(r'@(allocated|freed|here|write|read|seen)\b')
VERDICT = re.compile(r'@(stops (.*?)|passes) *(\*/)?$', re.MULTILINE)
LIBRARIES = ['-pthread', '-ldl']
COMPILERS = {'.c': ['cc'], '.cpp': ['c++', '-std=c++17', '-fsized-deallocation']}
WAYS_OF_ENDING = ['exit', '_exit', '_Exit', 'quick_exit', 'abort', 'raise', 'exec', 'handler', 'null', 'divide', 'trap',
                  'TERM', 'INT', 'HUP', 'QUIT', 'PIPE', 'ALRM', 'USR1', 'USR2', 'SEGV', 'BUS', 'FPE', 'ILL', 'XCPU']


def marks(path):
    """The marked lines of a source, by their marks."""
    found = {}
    with open(path, encoding='utf-8') as file:
        for number, line in enumerate(file, 1):
            for mark in MARK.findall(line):
                found.setdefault(mark, set()).add(number)
    return found


def is_judged(path, faults):
    """Whether the faults say of the allocator what the source says, where they were replayed."""
    with open(path, encoding='utf-8') as file:
        mark = VERDICT.search(file.read())
    told = [fault['allocator'] for fault in faults if fault['allocator']]
    if not mark or not told:
        return True
    return any('stops it' in text and '"%s"' % mark.group(2) in text if mark.group(2) else 'let it pass' in text
               for text in told)


def mark_of(fault, stack):
    """The mark of a stack of a fault, None for one that is not compared."""
    if stack == 'done':
        return 'write'
    if stack == 'here':
        if fault['kind'].startswith('read'):
            return 'read'
        return 'seen' if fault['kind'].startswith('write') and 'right' in fault['stacks'] else 'here'
    return stack if stack in ('allocated', 'freed') else None


def named(path, faults):
    """The lines of a source that faults name, by their marks: the innermost of each stack."""
    found, file = {}, os.path.basename(path)
    for fault in faults:
        for stack, frames in fault['stacks'].items():
            lines = [frame['line'] for frame in frames if os.path.basename(frame['file'] or '') == file]
            mark = mark_of(fault, stack)
            if mark and lines:
                found.setdefault(mark, set()).add(lines[0])
    return found


class Checker:
    """Compares, and counts what differs."""

    def __init__(self, work, options):
        self.work, self.options, self.failed = work, options, 0

    def build(self, path):
        """Builds a program."""
        name, kind = os.path.splitext(os.path.basename(path))
        program = os.path.join(self.work, name)
        words = [*COMPILERS[kind], '-g', '-O0', '-w', '-o', program, path, *LIBRARIES]
        if subprocess.run(words).returncode:
            self.differs(name, 'not built')
            return None
        return program

    def differs(self, name, text):
        """Tells that a comparison failed."""
        print('hunt %s: %s' % (name, text), flush=True)
        self.failed += 1

    def hunt(self, program, words, more):
        """The status, the faults and the text of a hunt."""
        faults = os.path.join(self.work, 'faults.json')
        if os.path.exists(faults):
            os.unlink(faults)
        done = subprocess.run([HUNT, *self.options, *more, '--json', faults, '--', program, *words],
                              stdin=subprocess.DEVNULL, stdout=subprocess.DEVNULL, stderr=subprocess.PIPE, text=True)
        if not os.path.exists(faults):
            return done.returncode, [], done.stderr
        with open(faults, encoding='utf-8') as file:
            return done.returncode, [json.loads(line) for line in file], done.stderr

    def compare(self, path, program, words=(), more=()):
        """Hunts in a program, and compares. Marks that are not wanted, or not found for want of a second run, are left
        out."""
        name = ' '.join([os.path.basename(path), *words])
        plain = subprocess.run([program, *words], stdin=subprocess.DEVNULL, stdout=subprocess.DEVNULL,
                               stderr=subprocess.DEVNULL)
        status, faults, text = self.hunt(program, words, more)
        wanted, found = marks(path), named(path, faults)
        if 'seen' not in wanted:
            found.pop('seen', None)
        if '--once' in more:
            wanted.pop('write', None)
        ended = 'hunt: %s ended with %s\n' % (program, ending(plain.returncode))
        if status != (1 if wanted else 0):
            self.differs(name, 'status %d:\n%s' % (status, text))
        elif found != wanted:
            self.differs(name, 'named %s, not %s:\n%s' % (found, wanted, text))
        elif ended not in text and not self.is_stopped_by_library(plain):
            self.differs(name, 'it does not end as by itself, with %s:\n%s' % (ending(plain.returncode), text))
        elif not is_judged(path, faults):
            self.differs(name, 'it says another thing of the allocator:\n%s' % text)
        else:
            lines = ', '.join('%s %s' % (mark, ' '.join(map(str, sorted(found[mark])))) for mark in sorted(found))
            print('hunt %s: as expected: %s' % (name, lines or 'no fault'), flush=True)

    @staticmethod
    def is_stopped_by_library(plain):
        """Whether the C library itself sees the misuse and aborts, which the recorder leaves out."""
        return plain.returncode == -6


def main():
    """Ends with 1 where something differs."""
    folder, options = sys.argv[1], sys.argv[2:]
    with tempfile.TemporaryDirectory() as work:
        checker = Checker(work, options)
        for file in sorted(os.listdir(folder)):
            path = os.path.join(folder, file)
            program = checker.build(path)
            if program and file == 'ends.c':
                for way in WAYS_OF_ENDING:
                    checker.compare(path, program, [way], ['--once', '--seeds', '0'])
            elif program:
                checker.compare(path, program)
        sys.exit(1 if checker.failed else 0)


main()
