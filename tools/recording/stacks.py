"""Stacks in words: the frames that are shown of them, and how."""

import os
import re

# Modules that are no part of the program: the C and C++ libraries and the loader, and then interpreters.
SYSTEM = re.compile(r'(ld-linux|ld-musl|lib(c|m|dl|rt|pthread|stdc\+\+|c\+\+|c\+\+abi|gcc_s)[-.])')
INTERPRETER = re.compile(r'(lib)?(python|perl|ruby|node|lua|php|guile|tcl|bash|dash)[-\d.]*m?(\.so[\d.]*)?$')
ENDS = ('exit', '_exit', '_dl_fini', '__run_exit_handlers', 'quick_exit')
BEGINNINGS = ('_start', '__libc_start', 'start_thread', 'clone', '__clone', 'operator new', 'operator delete')


def module_name(frame):
    """The last part of the path of a frame's module."""
    return os.path.basename(frame.module or '?')


def is_of_system(frame):
    """Whether it is of the system's libraries, or of what begins a program or a thread."""
    return bool(SYSTEM.match(module_name(frame))) or (frame.function or '').startswith(BEGINNINGS)


def shown(frames, most):
    """The frames to show, at most so many: the program's own, from the innermost that has a name on; where there is
    none, those of an interpreter too."""
    outside = [frame for frame in frames if not is_of_system(frame)]
    own = [frame for frame in outside if not INTERPRETER.match(module_name(frame))]
    kept = own or outside or frames
    first_named = next((place for place, frame in enumerate(kept) if frame.function), 0)
    return kept[first_named:][:most]


def words_of(frame):
    """A frame in words: its line where it is known, else its place in the function or the module."""
    if frame.file:
        inside = frame.file.startswith(os.getcwd() + '/')
        return '%s:%d (%s)' % (os.path.relpath(frame.file) if inside else frame.file, frame.line,
                               frame.function or '?')
    if frame.function and frame.above is not None:
        return '%s+0x%x (%s)' % (frame.function, frame.above, module_name(frame))
    if frame.function:
        return '%s (%s+0x%x)' % (frame.function, module_name(frame), frame.offset)
    return '%s+0x%x' % (module_name(frame), frame.offset)


def lines_of(title, frames, most):
    """A stack with its title."""
    if not frames:
        return ['  %s: not known' % title]
    if all(map(is_of_system, frames)) and any(frame.function in ENDS for frame in frames):
        return ['  %s:' % title, '    at the end of the program']
    return ['  %s:' % title] + ['    ' + words_of(frame) for frame in shown(frames, most)]
