"""A second run of a program, in which the blocks of suspect call sites lie on guarded pages, so that the line of a
stray write or read is known."""

import os
import shutil
import signal
import struct
import subprocess
import tempfile
import time

import record
from faults import Fault
from notes import GUARD_READ, GUARD_WRITE, LIVE, TAIL_WRITE, read_folder
from sites import Sites

MOST_SUSPECTS = 64
MOST_RECORDS = 1024
LONGEST_FIRST_RUN = 60
SECONDS_MORE = 10
SECONDS_TO_END = 5
SECONDS_BETWEEN = 0.02


def suspects_of(faults):
    """The call sites whose blocks were written to by someone."""
    return sorted({fault.site_hash for fault in faults if fault.is_write() and fault.site_hash})[:MOST_SUSPECTS]


def children():
    """The processes that this one has started or adopted."""
    found = []
    for name in filter(str.isdigit, os.listdir('/proc')):
        try:
            with open('/proc/%s/stat' % name, encoding='latin-1') as file:
                words = file.read().rpartition(')')[2].split()
        except OSError:
            continue
        if int(words[1]) == os.getpid():
            found.append(int(name))
    return found


def have_ended(until):
    """Waits until all children have ended; answers whether they have by that time."""
    while time.monotonic() < until:
        try:
            if os.waitpid(-1, os.WNOHANG)[0] == 0:
                time.sleep(SECONDS_BETWEEN)
        except ChildProcessError:
            return True
    return False


def end_children():
    """Ends them as a user would, and then for certain, also those that are adopted meanwhile."""
    for number in (signal.SIGTERM, signal.SIGKILL, signal.SIGKILL):
        for process in children():
            os.kill(process, number)
        if have_ended(time.monotonic() + SECONDS_TO_END):
            return


def run_guarded(program, folder, given, seconds, look_at):
    """Runs the program in a session of its own, its output left out, for so many seconds at the most; what it leaves
    behind, as a daemon, too."""
    library = record.build_library(folder, ['TAKES_STACKS=1', 'KEEPS_LAST=1', 'MOST_RECORDS=%d' % MOST_RECORDS,
                                            'LOOK_AT=%d' % look_at, 'SUSPECTS="%s/suspects"' % folder])
    subprocess.Popen(program, env=record.surroundings(library), stdin=given, stdout=subprocess.DEVNULL,
                     stderr=subprocess.DEVNULL, start_new_session=True)
    if not have_ended(time.monotonic() + seconds):
        end_children()


def same_write(first, second):
    """Whether a write that the second run saw made is the one that the first saw later."""
    return first.is_write() and second.seen.kind == GUARD_WRITE and first.site_hash == second.site_hash and \
        (first.seen.kind == TAIL_WRITE) == (second.seen.state == LIVE)


def join(faults, second):
    """Gives a stray write its line: that of the same block, else of the same call site. What the first run did not see,
    as a read, is a fault of its own."""
    same = [fault for fault in faults if same_write(fault, second)]
    same.sort(key=lambda fault: second.seen.block not in fault.blocks)
    line = second.stacks['here']
    for fault in same:
        is_known = fault.stacks.setdefault('done', line) == line
        if is_known:
            fault.done_by = fault.done_by or second.seen.here.thread
            return
    faults.append(second)


def read_touches(folder, faults):
    """Joins each touch of a guarded block to the faults."""
    for notes in read_folder(folder):
        if not notes.sites_path:
            continue
        sites = Sites(notes.sites_path)
        touches = [seen for seen in notes.misuses if seen.kind in (GUARD_READ, GUARD_WRITE)]
        sites.name({event.site for seen in touches for event in (seen.here, seen.given, seen.freed)})
        for seen in touches:
            join(faults, Fault(seen, sites))


def second_run(program, faults, given, seconds, look_at):
    """Runs the program again and completes the faults."""
    folder = tempfile.mkdtemp(prefix='hunt-')
    try:
        suspects = suspects_of(faults)
        with open(os.path.join(folder, 'suspects'), 'wb') as file:
            file.write(struct.pack('=%dQ' % len(suspects), *suspects))
        os.chmod(os.path.join(folder, 'suspects'), 0o644)
        run_guarded(program, folder, given, 2 * seconds + SECONDS_MORE, look_at)
        read_touches(folder, faults)
    finally:
        shutil.rmtree(folder, ignore_errors=True)
