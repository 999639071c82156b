#!/usr/bin/env python3
"""Tells what is on a device file, as the command `check` does, by docs/FORMATS.md alone: it shares
nothing with the program.

Usage: read_device.py DEVICE [SLOT]
With SLOT it shows the entries of that slot's log or queue as well, a line each: the number, and the
payload in hex.
The status is 0, 2 where the file cannot be read, or 6 where the table of grants is damaged."""

import re
import sys

BLOCK = 512
SLOTS = 128
AREAS = 8
LONGEST = 32768
LAST_NUMBER = 2**62
KINDS = {1: "raw", 2: "log", 3: "queue"}
NAME = re.compile(rb"[a-z][a-z0-9_]{0,14}")


class Damaged(Exception):
    """The least block of a device that breaks a rule of its table."""

    def __init__(self, block):
        super().__init__(block)
        self.block = block


def number(block, at, end):
    return int.from_bytes(block[at:end], "big")


def superblock(blocks):
    return b"ARRAKIS1" + blocks.to_bytes(8, "big") + SLOTS.to_bytes(2, "big") + bytes(494)


def name_at(block, at):
    """The name in the 16 bytes from a place on, or None where that is none."""
    length = block[at]
    name = block[at + 1 : at + 1 + length]
    right = NAME.fullmatch(name) and not any(block[at + 1 + length : at + 16])
    return name.decode() if right and length < 16 else None


class Slot:
    """A slot in use: its number, whose area it says, and the area's blocks in their order."""

    def __init__(self, index, block, size):
        self.index = index
        self.kind = KINDS.get(block[4])
        self.app, self.label = name_at(block, 6), name_at(block, 22)
        count = block[5]
        if block[:4] != b"VSA1" or not (self.kind and self.app and self.label and 1 <= count <= 16):
            raise Damaged(index)
        if any(block[38 + 8 * count :]):
            raise Damaged(index)
        at = [38 + 8 * i for i in range(count)]
        self.extents = [(number(block, i, i + 4), number(block, i + 4, i + 8)) for i in at]
        if not self.are_extents(size):
            raise Damaged(index)
        self.blocks = [first + k for first, length in self.extents for k in range(length)]
        self.own = set(self.blocks)
        if len(self.own) < len(self.blocks) or (self.kind != "raw" and len(self.blocks) < 2):
            raise Damaged(index)

    def are_extents(self, size):
        inside = all(n >= 1 and first > SLOTS and first + n <= size for first, n in self.extents)
        pairs = zip(self.extents, self.extents[1:])
        return inside and all(first + n != second for (first, n), (second, _) in pairs)

    def agrees(self, below):
        """Whether the slot breaks no rule against those below it."""
        mine = [slot for slot in below if slot.app == self.app]
        taken = any(slot.label == self.label for slot in mine)
        return not taken and len(mine) < AREAS and all(self.own.isdisjoint(s.own) for s in below)


class Device:
    """A device's blocks, with its slots in use. Damaged is raised where its table breaks a rule."""

    def __init__(self, content):
        self.size = len(content) // BLOCK
        self.content = content
        if not 130 <= self.size <= 1048576 or self.block(0) != superblock(self.size):
            raise Damaged(0)
        self.slots = []
        for index in range(1, SLOTS + 1):
            if any(self.block(index)):
                slot = Slot(index, self.block(index), self.size)
                if not slot.agrees(self.slots):
                    raise Damaged(index)
                self.slots.append(slot)

    def block(self, n):
        return self.content[n * BLOCK : (n + 1) * BLOCK]

    def area(self, slot):
        return [self.block(n) for n in slot.blocks]


def header_of(kind, ring, block):
    """The first number, its place and the count of a header; None where the block is none."""
    if not any(block):
        return 1, 0, 0
    first, start = number(block, 8, 16), number(block, 16, 20)
    count, end = number(block, 20, 24), number(block, 24, 28)
    begins = b"CAL1" + bytes([2 if kind == "log" else 3, 0]) + BLOCK.to_bytes(2, "big")
    right = block[:8] == begins and not any(block[28:])
    fields = first >= 1 and start < ring and count <= ring and end < ring
    return (first, start, count) if right and fields and first + count <= LAST_NUMBER + 1 else None


def entry_at(ring, place, wanted, room):
    """The payload of the entry of this number at a place, and its blocks; None where is none."""
    head = ring[place]
    length = number(head, 4, 8)
    count = (length + 28 + BLOCK - 1) // BLOCK
    if head[:4] != b"ENT1" or length > LONGEST or count > room or wanted > LAST_NUMBER:
        return None
    behind = (place + count) % len(ring)
    if number(head, 8, 16) != wanted or number(head, 16, 20) != behind:
        return None
    content = b"".join(ring[(place + k) % len(ring)] for k in range(count))
    return (content[20 : 20 + length], count) if content.endswith(b"CALADAN!") else None


def entries_of(kind, area):
    """The first number and the payloads of a log or queue, or the number at which it is damaged."""
    ring = area[1:]
    header = header_of(kind, len(ring), area[0])
    if header is None:
        return 0, None
    first, place, count = header
    payloads, room = [], len(ring)
    while room > 0:
        entry = entry_at(ring, place, first + len(payloads), room)
        if entry is None:
            break
        payloads.append(entry[0])
        place, room = (place + entry[1]) % len(ring), room - entry[1]
    if len(payloads) < count:
        return first + len(payloads), None
    return first, payloads


def contents(device, slot):
    if slot.kind == "raw":
        return ""
    first, payloads = entries_of(slot.kind, device.area(slot))
    return f" damaged {first}" if payloads is None else f" {first} {len(payloads)}"


def report(device):
    """The lines of the report of a device."""
    yield f"device {device.size} {len(device.slots)}"
    for s in device.slots:
        words = f"slot {s.index} {s.app} {s.label} {s.kind} {len(s.blocks)} {len(s.extents)}"
        yield words + contents(device, s)


def shown(device, index):
    """A line for each entry of the log or queue of a slot."""
    for slot in device.slots:
        if slot.index == index and slot.kind != "raw":
            first, payloads = entries_of(slot.kind, device.area(slot))
            for i, payload in enumerate(payloads or []):
                yield f"{first + i} {payload.hex() or '-'}"


def main(words):
    if len(words) not in (1, 2):
        print(__doc__, file=sys.stderr)
        return 2
    try:
        with open(words[0], "rb") as file:
            device = Device(file.read())
    except OSError as error:
        print(f"read_device.py: {error}", file=sys.stderr)
        return 2
    except Damaged as damaged:
        print(f"fault damaged {damaged.block}")
        return 6
    lines = list(report(device)) + (list(shown(device, int(words[1]))) if len(words) > 1 else [])
    print("\n".join(lines))
    return 0


if __name__ == "__main__":
    sys.exit(main(sys.argv[1:]))
