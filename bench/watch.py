"""Runs a program one machine instruction at a time and says how much stack one call of it takes.

Two readings of one run: the lowest stack pointer between the entry's first instruction and its return, and the lowest byte that was written on a stack painted
before; a function may write a little below its stack pointer. The larger of the two counts.
"""

import ctypes
import os
import signal
import struct
import sys
from collections import namedtuple

Call = namedtuple("Call", "host own")  # bytes of the calling function's frame; and of the entry with all that it calls and its return address
ADDRESS = 8  # bytes of a return address

TRACEME, PEEKUSER, POKEUSER, CONT, STEP = 0, 3, 6, 7, 9
RIP, RSP = 8 * 16, 8 * 19  # places in the kernel's struct of registers
UNPLACED = 0x0040000  # personality: every run has its stack at the same address
PAINT, PAINTED = 0xA5, 131072  # the byte, and how many of them below the call
C = ctypes.CDLL(None, use_errno=True)
C.ptrace.argtypes, C.ptrace.restype = [ctypes.c_long] * 4, ctypes.c_long


def symbols(path):
    """The addresses of an ELF file's functions, by name."""
    with open(path, "rb") as file:
        data = file.read()
    start, size, number = struct.unpack_from("<Q", data, 40)[0], *struct.unpack_from("<HH", data, 58)
    sections = [struct.unpack_from("<IIQQQQIIQQ", data, start + size * n) for n in range(number)]
    table = next(section for section in sections if section[1] == 2)
    names = sections[table[6]][4]
    found = {}
    for at in range(table[4], table[4] + table[5], 24):
        name, address = names + struct.unpack_from("<I", data, at)[0], struct.unpack_from("<Q", data, at + 8)[0]
        found[data[name:data.index(0, name)].decode()] = address
    return found


class Process:
    """A program that is stopped at its start."""

    def __init__(self, path, arguments, folder):
        self.path = path
        self.output, output = os.pipe()
        self.pid = os.fork()
        if self.pid == 0:
            self.become(arguments, folder, output)
        os.close(output)
        self.wait()
        if not os.WIFSTOPPED(self.status):
            sys.exit("%s can't be run and traced" % path)
        self.memory = open("/proc/%d/mem" % self.pid, "r+b", buffering=0)
        self.base = min(start for start, _, name in self.maps() if name == path)

    def become(self, arguments, folder, output):
        """In the child: the program, without the caller's environment, so that its stack begins alike."""
        try:
            os.dup2(output, 1)
            os.chdir(folder)
            C.personality(UNPLACED)
            C.ptrace(TRACEME, 0, 0, 0)
            os.execve(self.path, [self.path] + arguments, {})
        finally:
            os._exit(127)

    def maps(self):
        with open("/proc/%d/maps" % self.pid, encoding="utf-8") as file:
            for line in file:
                words = line.rstrip("\n").split(None, 5)
                start, end = (int(word, 16) for word in words[0].split("-"))
                yield start, end, words[5] if len(words) > 5 else ""

    def wait(self):
        _, self.status = os.waitpid(self.pid, 0)

    def go(self, request):
        C.ptrace(request, self.pid, 0, 0)
        self.wait()
        if not os.WIFSTOPPED(self.status) or os.WSTOPSIG(self.status) != signal.SIGTRAP:
            sys.exit("the program ended before its call did, with status %d" % self.status)

    def register(self, place):
        return C.ptrace(PEEKUSER, self.pid, place, 0)

    def read(self, address, size):
        self.memory.seek(address)
        return self.memory.read(size)

    def write(self, address, data):
        self.memory.seek(address)
        self.memory.write(data)

    def run_to(self, address):
        """Lets it run to an instruction, which is replaced by a trap until then."""
        kept = self.read(address, 1)
        self.write(address, b"\xcc")
        self.go(CONT)
        self.write(address, kept)
        C.ptrace(POKEUSER, self.pid, RIP, address)

    def step_to(self, address):
        while self.register(RIP) != address:
            self.go(STEP)

    def lowest_until_return(self):
        """The lowest stack pointer until it is above where it is now."""
        top = lowest = self.register(RSP)
        last = max(end for _, end, name in self.maps() if name == self.path)
        pid, ptrace, waitpid = self.pid, C.ptrace, os.waitpid
        while True:
            ptrace(STEP, pid, 0, 0)
            _, self.status = waitpid(pid, 0)
            at = ptrace(PEEKUSER, pid, RSP, 0)
            if at > top:
                return lowest
            lowest = min(lowest, at)
            if not self.base <= ptrace(PEEKUSER, pid, RIP, 0) < last:
                self.leave_library(at)

    def leave_library(self, stack):
        """The C library's copies are let run to their return: one can take a step for each byte. What they write is seen by the paint."""
        if not os.WIFSTOPPED(self.status):
            sys.exit("the program ended within its call, with status %d" % self.status)
        self.run_to(struct.unpack("<Q", self.read(stack, 8))[0])

    def finish(self):
        """What it prints; and it must end well."""
        C.ptrace(CONT, self.pid, 0, 0)
        self.wait()
        if self.status != 0:
            sys.exit("the program ended with status %d" % self.status)
        self.memory.close()
        with os.fdopen(self.output) as file:
            return file.read()


def lowest_written(process, start, top):
    """The first byte from the start that has lost its paint."""
    data = process.read(start, top - start)
    return start + len(data) - len(data.lstrip(bytes([PAINT])))


def watched(path, caller, entry, arguments, folder):
    """The stack of the caller's one call of the entry, and what the program printed."""
    process, addresses = Process(path, arguments, folder), symbols(path)
    process.run_to(process.base + addresses[caller])
    before = process.register(RSP)
    process.step_to(process.base + addresses[entry])
    top = process.register(RSP)
    process.write(top - PAINTED, bytes([PAINT]) * PAINTED)
    lowest = min(process.lowest_until_return(), lowest_written(process, top - PAINTED, top))
    return Call(max(before - top - ADDRESS, 0), top + ADDRESS - lowest), process.finish()
