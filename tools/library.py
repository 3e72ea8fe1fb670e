"""The calls of c/spireslate.h from Python, through one process of c/calls, whose script and outcomes c/calls.c tells.

A call is given all that is lent to it as bytes, and gives back what all of these are afterwards.
"""
import os
import struct
import subprocess
from collections import namedtuple

from comparing import ROOT
from independent_tables import as_numbers

CALLS = ("open", "arrive", "read", "check", "write", "line", "list", "locate", "groups")
SLOTS = ("counters", "records", "objects", "groups", "record", "file", "output")
COUNTERS = struct.Struct("<BxHH16H2xI")
MADE = struct.Struct("<cBBQQ")
GIVEN = struct.Struct("<BBBHQB")
CHANGE = struct.Struct("<II")

# what the slots are to hold, by name, and the numbers that the call takes beside them
Call = namedtuple("Call", "name slots n line start", defaults=(0, 0, 0))
# what was given back, which slots' guards were touched, and what each slot holds
Result = namedtuple("Result", "number sites form records value touched slots")


def as_slots(t):
    """Counters and tables as C keeps them."""
    return {"counters": COUNTERS.pack(t.sites, t.records, t.objects, *t.held, t.sum), "records": t.places,
            "objects": struct.pack("<%dH" % len(t.entries), *t.entries), "groups": as_numbers(t.groups)}


def script_of(call, held=None):
    """The bytes that ask for the call; what the slots hold already is left out."""
    held = held or {}
    parts = [struct.pack("<cBI", b"F", SLOTS.index(s), len(data)) + data
             for s, data in call.slots.items() if held.get(s) != data]
    return b"".join(parts) + MADE.pack(b"C", CALLS.index(call.name), call.n, call.line, call.start)


class Library:
    """The process of c/calls. What a slot holds stays from one call to the next."""

    def __init__(self):
        self.process = subprocess.Popen([os.path.join(ROOT, "c", "calls")], stdin=subprocess.PIPE,
                                        stdout=subprocess.PIPE)
        # as the process starts
        self.held = {**{s: b"" for s in SLOTS}, "counters": bytes(COUNTERS.size)}

    def send(self, data):
        try:
            self.process.stdin.write(data)
            self.process.stdin.flush()
        except BrokenPipeError:
            raise EOFError("c/calls ended before a call, with status %d" % self.process.wait()) from None

    def take(self, size):
        data = self.process.stdout.read(size)
        if len(data) != size:
            raise EOFError("c/calls ended within a call, with status %d" % self.process.wait())
        return data

    def make(self, call):
        self.send(script_of(call, self.held))
        self.held.update(call.slots)
        given = GIVEN.unpack(self.take(GIVEN.size))
        for slot in SLOTS:
            first, length = CHANGE.unpack(self.take(CHANGE.size))
            if length:
                was = self.held[slot]
                self.held[slot] = was[:first] + self.take(length) + was[first + length:]
        return Result(*given, dict(self.held))

    def end(self):
        self.process.stdin.close()
        if self.process.wait():
            raise EOFError("c/calls ended with status %d" % self.process.returncode)
