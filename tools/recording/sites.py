"""Reads the stacks that sites.c writes, and names their functions and lines by llvm-symbolizer or addr2line, which is
asked once for each module."""

import json
import mmap
import os
import shutil
import struct
import subprocess
from collections import namedtuple

MODULE = struct.Struct('=4Q224s')
STACK = struct.Struct('=II16H16Q')
HEAD = struct.Struct('=3Q')
HEAD_BYTES, MOST_MODULES, MOST_FRAMES = 4096, 4096, 16
STABLE_FRAMES = 6
FNV_BASIS, FNV_PRIME = 14695981039346656037, 1099511628211

Module = namedtuple('Module', 'start end bias path')
# `offset` is one in the module, `above` one in the function, None where it is not known.
Frame = namedtuple('Frame', 'function file line module offset above')


class Sites:
    """The stacks of a process and of those that it forked, by number. Number 0 is none."""

    def __init__(self, path):
        with open(path, 'rb') as file:
            self.bytes = mmap.mmap(file.fileno(), 0, access=mmap.ACCESS_READ)
        self.stacks, modules, self.left_out = HEAD.unpack_from(self.bytes)
        self.modules = []
        for number in range(min(modules, MOST_MODULES)):
            start, end, bias, _, name = MODULE.unpack_from(self.bytes, HEAD_BYTES + number * MODULE.size)
            self.modules.append(Module(start, end, bias, name.rstrip(b'\0').decode('utf-8', 'surrogateescape')))
        self.named = {}

    def places(self, number):
        """The module and the address in its file of each frame; the address is one of the call itself."""
        if not number:
            return []
        words = STACK.unpack_from(self.bytes, HEAD_BYTES + MOST_MODULES * MODULE.size + number * STACK.size)
        behind, addresses = 2 + words[0], words[2 + MOST_FRAMES:]
        modules = [self.modules[module - 1] if module else Module(0, 0, 0, None) for module in words[2:behind]]
        return [(module.path, address - 1 - module.bias) for module, address in zip(modules, addresses)]

    def stable_hash(self, number):
        """The number of a stack that is the same in each run, as sites.c makes it."""
        mixed = FNV_BASIS
        for module, address in self.places(number)[:STABLE_FRAMES]:
            if module:
                for word in [*os.path.basename(module).encode('utf-8', 'surrogateescape'), address + 1]:
                    mixed = (mixed ^ word) * FNV_PRIME % 2 ** 64
        return mixed

    def name(self, numbers):
        """Asks for the names of all frames of these stacks."""
        wanted = {}
        for number in numbers:
            for module, address in self.places(number):
                if module and (module, address) not in self.named:
                    wanted.setdefault(module, set()).add(address)
        for module, addresses in wanted.items():
            for address, frames in ask(module, sorted(addresses)).items():
                self.named[module, address] = frames

    def frames(self, number):
        """The frames of a stack, the innermost first, functions that were put into others too."""
        frames = []
        for module, address in self.places(number):
            frames += self.named.get((module, address)) or [Frame(None, None, 0, module, address, None)]
        return frames

    def text(self):
        """The modules and all stacks, a line each."""
        lines = ['module %x %x %x %s' % one for one in self.modules]
        for number in range(1, self.stacks + 1):
            places = ' '.join('%s+%x' % (module or '?', address) for module, address in self.places(number))
            lines.append('stack %d %s' % (number, places))
        return '\n'.join(lines) + '\n'


# ---- the tools that know names ----

def ask(module, addresses):
    """The frames at each address of a module; nothing where no tool knows them."""
    if not os.path.exists(module):
        return {}
    words = ''.join('0x%x\n' % address for address in addresses)
    answer = ask_symbolizer(module, words) if shutil.which('llvm-symbolizer') else None
    if answer is None and shutil.which('addr2line'):
        answer = ask_addr2line(module, addresses, words)
    return answer or {}


def output_of(command, words):
    """What a tool prints, None where it fails."""
    done = subprocess.run(command, input=words, stdout=subprocess.PIPE, stderr=subprocess.DEVNULL, text=True,
                          errors='replace')
    return done.stdout if done.returncode == 0 else None


def ask_symbolizer(module, words):
    """The frames by llvm-symbolizer, None where it is too old for this."""
    command = ['llvm-symbolizer', '--obj=' + module, '--demangle', '--inlining', '--output-style=JSON']
    text = output_of(command + ['--no-debuginfod'], words) or output_of(command, words)
    try:
        parts = [json.loads(line) for line in (text or '').splitlines()]
        return {int(part['Address'], 16): [by_symbolizer(module, int(part['Address'], 16), symbol)
                                           for symbol in part['Symbol']] for part in parts} or None
    except (ValueError, KeyError, TypeError):
        return None


def by_symbolizer(module, address, symbol):
    """A frame, of what llvm-symbolizer says."""
    start = int(symbol.get('StartAddress') or '0', 16)
    line = symbol.get('Line') or 0
    file = symbol.get('FileName') if line else None
    return Frame(symbol.get('FunctionName') or None, os.path.normpath(file) if file else None, line, module, address,
                 address - start if start else None)


def ask_addr2line(module, addresses, words):
    """The frames by addr2line: it prints the address, and a function and a place for each frame."""
    text = output_of(['addr2line', '-a', '-f', '-i', '-C', '-e', module], words)
    answer, lines = {}, (text or '').splitlines()
    starts = [number for number, line in enumerate(lines) if line.startswith('0x')] + [len(lines)]
    for address, begin, end in zip(addresses, starts, starts[1:]):
        answer[address] = [by_addr2line(module, address, function, place)
                           for function, place in zip(lines[begin + 1:end:2], lines[begin + 2:end:2])]
    return answer


def by_addr2line(module, address, function, place):
    """A frame, of what addr2line says."""
    file, _, line = place.rpartition(':')
    line = line.split(' ')[0]
    known = file not in ('', '??') and line.isdigit() and line != '0'
    return Frame(None if function.startswith('??') else function, os.path.normpath(file) if known else None,
                 int(line) if known else 0, module, address, None)
