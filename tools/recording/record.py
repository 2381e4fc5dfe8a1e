"""usage: tools/record [--touch] [--last N] [--one-thread] -o FILE -- PROGRAM ARGS..

Runs a program, notes each call of malloc, calloc, realloc, reallocarray, aligned_alloc, posix_memalign, memalign,
valloc, pvalloc, malloc_usable_size, free and sized deletion (C++) of every thread, and writes them to FILE as a trace
for `./hmreplay run`. A child that the program forks, and a program that is run by exec, have a trace each: FILE.2,
FILE.3 and so on, in the order of their first calls. A program that is killed or aborts loses nothing that was noted.
It waits until all these processes have ended; an interrupt (Ctrl-C) ends the waiting, and what was noted is written.
To look for a bug take tools/hunt, which names source lines.

  -o FILE       the trace
  --touch       each block that is given is written whole, for the memory that the program would need at the most
  --last N      the last N calls; the trace begins with the blocks that are live before them
  --one-thread  all calls stand in one thread, in the order in which they were made

In a trace threads are numbered in the order of their first calls; from the 17th on, one takes the number of a thread
that makes no more call, if there is one. A new round begins where a thread names a block that another one named in the
same round. The text is of version 1 where 16 threads and 200,000 steps are enough, else of version 2. Where 64 threads,
400,000 steps or 1,024 rounds are not enough it ends there, and this is told.

Stray writes become steps where they can be seen. Each block has a tail of 64 bytes, which is filled, and compared when
the block is freed or resized or the program ends. A freed block is filled and kept while 4,096 more are freed (less
where they come to more than 64 MiB; one above 1 MiB is not kept), and compared when it leaves or the program ends. What
was changed is a step `write`, before the free or right behind it. A free of a block that was freed, of a place in a
block or of another address is a step and is not carried out, so the program goes on; an address that was never given
is written as it is (`@HEX`), or as its low 40 bits where it would lie in a region of the replay.

What it does not see: reads; writes in front of a block, to live blocks, more than 64 bytes behind one, or of the very
bytes of the filling (a5 behind a block, db in a freed one); who wrote, and when; more than 64 runs of changed bytes of
one block; a write to a freed block that is given back already, and a second free of one whose address was given again.
Blocks that are live or kept are compared at every end but SIGKILL, or where another thread holds the recorder for two
seconds. Calls that failed for want of memory are left out. Programs that are static, that run with other rights
(setuid), or that have a malloc of their own are not noted; memory by mmap or sbrk is not, nor is what a program does
with pieces of a block itself.

The status is 0 where a trace was written, 1 where there is none, 2 where the words are wrong or a C compiler is
missing. How the program ended is told, and how its children did where a signal ended them.
"""

import ctypes
import os
import shutil
import signal
import subprocess
import sys
import tempfile

from notes import read_folder
from trace import Maker

HERE = os.path.dirname(os.path.abspath(__file__))
SOURCES = [os.path.join(HERE, name) for name in sorted(os.listdir(HERE)) if name.endswith('.c')]
PR_SET_CHILD_SUBREAPER = 36
STATUS_OF_WORDS = 2
NOTHING_NOTED = 'nothing was noted: the program made no call, is static, runs with other rights or has its own malloc'


class Failed(Exception):
    """The tool ends with a line and a status."""

    def __init__(self, line, status):
        super().__init__(line)
        self.status = status


def say(line):
    """Writes a line for the user."""
    print('record: ' + line, file=sys.stderr, flush=True)


class Options:
    """What the words ask for."""

    def __init__(self):
        self.path, self.touches, self.last, self.one_thread = None, False, None, False

    def take(self, word, words):
        """Takes an option, and its value of the words behind it; answers whether there is such a one."""
        if word == '--touch':
            self.touches = True
        elif word == '--one-thread':
            self.one_thread = True
        elif word == '--last' and words and words[0].isdigit() and int(words[0]):
            self.last = int(words.pop(0))
        elif word == '-o' and words:
            self.path = words.pop(0)
        else:
            return False
        return True


def read_words(words):
    """The options, and the program's words."""
    options = Options()
    while words and words[0] != '--':
        word = words.pop(0)
        if word in ('-h', '--help'):
            print(__doc__, end='')
            sys.exit(0)
        if not word.startswith('-'):
            raise Failed('-- is missing in front of %s' % word, STATUS_OF_WORDS)
        if not options.take(word, words):
            raise Failed('the word %s is not known; see tools/record --help' % word, STATUS_OF_WORDS)
    if not options.path or len(words) < 2:
        raise Failed('usage: tools/record [options] -o FILE -- PROGRAM ARGS..', STATUS_OF_WORDS)
    return options, words[1:]


def compiler():
    """The C compiler."""
    for name in (os.environ.get('CC'), 'cc', 'gcc', 'clang'):
        if name and shutil.which(name):
            return name
    raise Failed('no C compiler was found (cc, gcc or clang), which this tool needs', 2)


def build_library(folder, settings=()):
    """Builds the library that writes to this folder, with settings that recorder.h has. Programs that run with other
    rights may write there too."""
    library = os.path.join(folder, 'noting.so')
    if any(sign in folder for sign in ' :"\\'):
        raise Failed('the folder for temporary files may have no space, colon, quote or backslash in its path',
                     STATUS_OF_WORDS)
    settings = ['NOTES_FOLDER="%s"' % folder, '_GNU_SOURCE', *settings]
    words = [compiler(), '-std=gnu11', '-O2', '-shared', '-fPIC', '-ftls-model=initial-exec', '-pthread',
             '-static-libgcc', *('-D' + setting for setting in settings), '-o', library, *SOURCES, '-ldl']
    done = subprocess.run(words, capture_output=True, text=True)
    if done.returncode:
        raise Failed('the C compiler failed: %s' % (done.stderr.strip().splitlines() or ['no message'])[0], 2)
    if os.geteuid() == 0:
        os.chmod(folder, 0o1733)
        os.chmod(library, 0o755)
    return library


def surroundings(library):
    """The environment of a program with the library in front."""
    before = os.environ.get('LD_PRELOAD')
    return dict(os.environ, LD_PRELOAD=library + (':' + before if before else ''))


def run_program(words, library, given=None):
    """Runs the program with the library in front, and answers its number and status. An interrupt is the program's to
    take. It reads `given`, a file that is closed here then, or standard input."""
    try:
        program = subprocess.Popen(words, env=surroundings(library), stdin=given)
    except OSError as error:
        raise Failed('%s: %s' % (words[0], error.strerror), 1)
    finally:
        if given is not None:
            os.close(given)
    signal.signal(signal.SIGINT, signal.SIG_IGN)
    signal.signal(signal.SIGTERM, lambda number, frame: program.terminate())
    return program.pid, program.wait()


def adopt_orphans():
    """Makes this process the parent of what its children leave behind, so that it can wait for that too."""
    ctypes.CDLL(None).prctl(PR_SET_CHILD_SUBREAPER, 1, 0, 0, 0)


def wait_for_others(tell_user=say):
    """Waits until all that the program has left behind has ended, or for an interrupt."""
    for number in (signal.SIGINT, signal.SIGTERM):
        signal.signal(number, signal.default_int_handler)
    try:
        while os.waitpid(-1, os.WNOHANG)[0]:
            pass
        tell_user('waiting for processes that the program has left behind (Ctrl-C ends this)')
        while True:
            os.wait()
    except (ChildProcessError, KeyboardInterrupt):
        signal.signal(signal.SIGINT, signal.SIG_IGN)


def ending(status):
    """How a program ended, in words."""
    if status >= 0:
        return 'status %d' % status
    try:
        return 'signal ' + signal.Signals(-status).name
    except ValueError:
        return 'signal %d' % -status


def count(number, word):
    """A number with its word."""
    return '%d %s%s' % (number, word, '' if number == 1 else 's')


def tell(path, maker, ended):
    """Says what stands in a trace, and what does not."""
    rounds, notes = maker.rounds, maker.notes
    say('%s: %s, %s, %s, version %d, of %s%s' % (
        path, count(rounds.steps, 'step'), count(len(rounds.rounds), 'round'), count(rounds.threads, 'thread'),
        rounds.version(), notes.command[:100], ended))
    if maker.first:
        say('%s: the last %d of %d calls, from %s on' % (path, len(maker.records), notes.total,
                                                        count(len(maker.start_blocks), 'live block')))
    if maker.stray_writes:
        say('%s: stray writes that were seen: %d' % (path, maker.stray_writes))
    if maker.without_memory:
        say('%s: calls that failed in the program and are left out: %d' % (path, maker.without_memory))
    if maker.reason:
        say('%s: cut, since %s' % (path, maker.reason))
    if maker.left_out:
        say('%s: notes that are left out: %d' % (path, maker.left_out))


def ending_of(notes, process, status):
    """How a process ended, in words, as far as it is known."""
    if notes.process == process:
        return ', ended with ' + ending(status)
    return ', ended with ' + ending(-notes.ended_by) if notes.ended_by else ''


def write_traces(options, folder, process, status):
    """Writes the trace of each process, and answers how many there are."""
    all_notes = [notes for notes in read_folder(folder) if notes.has_calls()]
    for number, notes in enumerate(all_notes, 1):
        to = options.path if number == 1 else '%s.%d' % (options.path, number)
        maker = Maker(notes, options.touches, options.last, options.one_thread)
        maker.make()
        with open(to, 'w', encoding='ascii') as file:
            file.write(maker.rounds.text())
        tell(to, maker, ending_of(notes, process, status))
    return len(all_notes)


def record(words):
    """Does what the words ask for."""
    options, program = read_words(words)
    is_new = not os.path.exists(options.path)
    open(options.path, 'a').close()
    folder = tempfile.mkdtemp(prefix='record-')
    adopt_orphans()
    written = 0
    try:
        process, status = run_program(program, build_library(folder, ['KEEPS_LAST=1'] if options.last else []))
        say('%s ended with %s' % (program[0], ending(status)))
        wait_for_others()
        written = write_traces(options, folder, process, status)
        if not written:
            raise Failed(NOTHING_NOTED, 1)
    finally:
        shutil.rmtree(folder, ignore_errors=True)
        if is_new and not written:
            os.unlink(options.path)


def main():
    """Ends with the status that the help tells."""
    signal.signal(signal.SIGTERM, signal.default_int_handler)
    try:
        record(sys.argv[1:])
    except KeyboardInterrupt:
        say('interrupted before the program began')
        sys.exit(1)
    except Failed as failed:
        say(str(failed))
        sys.exit(failed.status)
    except OSError as error:
        say('%s: %s' % (error.filename, error.strerror))
        sys.exit(1)


if __name__ == '__main__':
    main()
