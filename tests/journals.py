"""Files of journals, built and read entry by entry (docs/VERIFYING.md has their form)."""
import struct
from typing import NamedTuple

MAGIC = b"IPMJ"
VERSION = 1

PASS = "policy 1\nrule for * in * from * to * pass\nrule for * in * from * to * element * keep\n"
WITHHOLD = "policy 1\nrule for * in * from * to * withhold\n"


def numbered(kind, number):
    return struct.pack("!BQ", kind, number)


def opened(session):
    return numbered(1, session)


def closed(session):
    return numbered(2, session)


def message(session, number, octets):
    return struct.pack("!BQQI", 3, session, number, len(octets)) + octets


def edit(text):
    octets = text.encode()
    return numbered(4, len(octets)) + octets


def subscribe(sub, name):
    octets = name.encode()
    return struct.pack("!BQB", 5, sub, len(octets)) + octets


def unsubscribe(sub):
    return numbered(6, sub)


def advance(time):
    return numbered(7, time)


def cut(sub):
    return numbered(8, sub)


def file_of(*entries, magic=MAGIC, version=VERSION, count=None):
    """The file of these entries, which may announce another number of them."""
    head = magic + struct.pack("!HQ", version, len(entries) if count is None else count)
    return head + b"".join(entries)


class Entry(NamedTuple):
    """An entry that was read: its position, its kind, its numbers in their order, and its octets, which are a message, a policy's text
    or a subscriber's name."""

    position: int
    kind: int
    numbers: tuple
    octets: bytes


OPENED, CLOSED, MESSAGE, EDIT, SUBSCRIBE, UNSUBSCRIBE, ADVANCE, CUT = range(1, 9)

# How the numbers of an entry stand; behind those of three kinds stand as many octets as the last number says.
NUMBERS = {kind: struct.Struct("!Q") for kind in (OPENED, CLOSED, EDIT, UNSUBSCRIBE, ADVANCE, CUT)}
NUMBERS |= {MESSAGE: struct.Struct("!QQI"), SUBSCRIBE: struct.Struct("!QB")}
WITH_OCTETS = (MESSAGE, EDIT, SUBSCRIBE)


def entries_of(file):
    """The entries of a file, given as octets."""
    magic, (version, count) = file[:4], struct.unpack_from("!HQ", file, 4)
    assert (magic, version) == (MAGIC, VERSION), (magic, version)
    at = 14
    for position in range(count):
        kind = file[at]
        form = NUMBERS[kind]
        numbers = form.unpack_from(file, at + 1)
        at += 1 + form.size
        length = numbers[-1] if kind in WITH_OCTETS else 0
        octets = bytes(file[at : at + length])
        assert len(octets) == length, f"entry {position} is cut off"
        at += length
        yield Entry(position, kind, numbers, octets)
    assert at == len(file), "octets stand behind the last entry"
