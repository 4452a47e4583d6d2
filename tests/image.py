"""Images of sorted files, made anew from the entries that `show` writes, by docs/FORMATS.md alone."""

import re
import struct

BLOCK = 64
PARTS = 4


def unescaped(text):
    """The bytes that a text of an answer stands for."""
    return re.sub(rb"\\x([0-9a-f]{2})", lambda found: bytes.fromhex(found[1].decode()), text)


def entry_of(line):
    """The entry of a line of `show`: its four parts, its time, whether it is a marker, and its value."""
    row, column, time, value = line.split(b" ")
    parts = [row, *column.split(b":")]
    return [unescaped(part) for part in parts], int(time[1:]), value == b"-", unescaped(value[1:])


def entries_of(text):
    """The entries of what `show` writes, whose last line counts them."""
    *lines, last = text.splitlines()
    if last != b"entries %d" % len(lines):
        raise ValueError(f"{len(lines)} entries are shown, and counted as {last!r}")
    return [entry_of(line) for line in lines]


def shared(parts, before):
    """How many leading parts equal those of the entry before."""
    same = 0
    while same < PARTS and before is not None and parts[same] == before[same]:
        same += 1
    return same


def field(part, form):
    return struct.pack(form, len(part)) + part


def image_of(version, entries):
    """The one image of a list of entries in a version."""
    image = b"ITSF" + bytes([version])
    places, before = [], None
    for count, (parts, time, deleted, value) in enumerate(entries):
        if count % BLOCK == 0:
            places.append(len(image))
            before = None
        same = 0
        if version == 2:
            same = shared(parts, before)
            image += bytes([same])
        image += b"".join(field(part, ">H") for part in parts[same:])
        image += struct.pack(">qB", time, deleted) + field(value, ">I")
        before = parts
    image += b"\0\0" if version == 1 else b"\xff"
    image += b"".join(struct.pack(">Q", place) for place in places)
    return image + struct.pack(">Q", len(entries)) + b"FSTI"
