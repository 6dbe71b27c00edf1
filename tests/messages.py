"""IPFIX messages (RFC 7011): built as an exporter builds them, and read as a collector reads them.

A record that was read is a tuple of its fields in the template's order, each an element and the octets of its value. An
element is its number, or behind an enterprise's number (enterprise, number).
"""
import socket
import struct
from typing import NamedTuple

VERSION = 10
TEMPLATES = 2
OPTIONS_TEMPLATES = 3
FIRST_DATA_SET = 256
VARIABLE = 0xFFFF
ENTERPRISE = 0x8000

HEADER = struct.Struct("!HHIII")
SET_HEADER = struct.Struct("!HH")

# What an exporter of these tests says of its messages: the Export Time and the Observation Domain ID.
EXPORTED = 1700000000
DOMAIN = 7

address = socket.inet_aton


class NotIpfix(AssertionError):
    """Octets that RFC 7011 doesn't let a collector be sent."""


def expect(holds, what):
    if not holds:
        raise NotIpfix(what)


class Template(NamedTuple):
    """A template: its ID, and the element and the length of each field."""

    number: int
    fields: tuple

    def octets(self):
        """The Template Set that defines it (RFC 7011, section 3.4.1)."""
        content = struct.pack("!HH", self.number, len(self.fields))
        for element, length in self.fields:
            if isinstance(element, tuple):
                enterprise, number = element
                content += struct.pack("!HHI", ENTERPRISE | number, length, enterprise)
            else:
                content += struct.pack("!HH", element, length)
        return set_of(TEMPLATES, content)

    def record(self, *values):
        """The octets of a record with these values, each a number or octets."""
        pieces = zip(self.fields, values, strict=True)
        return b"".join(value_octets(value, length, True) for (_, length), value in pieces)

    def seen(self, *values):
        """The record with these values, as it is read."""
        pieces = zip(self.fields, values, strict=True)
        return tuple((element, value_octets(value, length, False)) for (element, length), value in pieces)

    def data(self, *records):
        """The Data Set of these records, given as octets."""
        return set_of(self.number, b"".join(records))


def value_octets(value, length, framed):
    """A value's octets, behind their length where that varies and it is asked for (RFC 7011, section 7)."""
    if isinstance(value, int):
        return value.to_bytes(length, "big")
    if length != VARIABLE or not framed:
        return value
    front = bytes([len(value)]) if len(value) < 255 else struct.pack("!BH", 255, len(value))
    return front + value


def set_of(number, content):
    """A set (RFC 7011, section 3.3)."""
    return SET_HEADER.pack(number, SET_HEADER.size + len(content)) + content


def message(before, *sets, domain=DOMAIN):
    """A message behind so many records, with these sets (RFC 7011, section 3.1)."""
    content = b"".join(sets)
    length = HEADER.size + len(content)
    return HEADER.pack(VERSION, length, EXPORTED, before % 2**32, domain) + content


# Source address, source port, octet count.
FLOW = Template(256, ((8, 4), (7, 2), (1, 4)))


def flow_message(before, port=443):
    """The message of one record, behind so many, with this source port; its template comes with it."""
    return message(before, FLOW.octets(), FLOW.data(FLOW.record(address("192.0.2.77"), port, 1500)))


class Message(NamedTuple):
    """A message that was read."""

    export_time: int
    sequence: int
    domain: int
    records: list
    octets: bytes


def cut(octets):
    """The messages of a stream, as octets (RFC 7011, section 10.4)."""
    pieces, at = [], 0
    while at < len(octets):
        expect(len(octets) - at >= HEADER.size, "half a header at the end")
        version, length = struct.unpack_from("!HH", octets, at)
        expect(version == VERSION, f"version {version}")
        expect(HEADER.size <= length <= len(octets) - at, f"length {length}")
        pieces.append(octets[at : at + length])
        at += length
    return pieces


def read(octets):
    """The messages of a stream. Each sequence number must be the number of the records before it (RFC 7011, section 3.1)."""
    templates, found, before = {}, [], 0
    for piece in cut(octets):
        one = read_message(piece, templates)
        expect(one.sequence == before % 2**32, f"sequence number {one.sequence} behind {before} records")
        before += len(one.records)
        found.append(one)
    return found


def records(octets):
    """All records of a stream, in order."""
    return [record for one in read(octets) for record in one.records]


def read_message(octets, templates):
    """A message, read by the templates that came before it; those that it brings are added."""
    _, _, export_time, sequence, domain = HEADER.unpack_from(octets)
    found, at = [], HEADER.size
    while at < len(octets):
        expect(len(octets) - at >= SET_HEADER.size, "half a set's header")
        number, length = SET_HEADER.unpack_from(octets, at)
        expect(SET_HEADER.size <= length <= len(octets) - at, f"a set of {length} octets")
        content = octets[at + SET_HEADER.size : at + length]
        if number in (TEMPLATES, OPTIONS_TEMPLATES):
            read_templates(content, templates, number == OPTIONS_TEMPLATES)
        else:
            expect(number >= FIRST_DATA_SET, f"a set with ID {number}")
            expect(number in templates, f"records before template {number}")
            found += read_records(content, templates[number])
        at += length
    return Message(export_time, sequence, domain, found, octets)


def read_templates(content, templates, options):
    """Adds the templates of a Template Set, or of an Options Template Set. None may be there already."""
    for number, _, fields in template_records(content, options):
        expect(number not in templates, f"template {number} a second time")
        templates[number] = fields


def template_records(content, options):
    """The templates of a Template Set, or of an Options Template Set (RFC 7011, section 3.4.2): of each its ID, how many of its
    fields are of the scope, and its fields."""
    at = 0
    while at < len(content):
        number, count = struct.unpack_from("!HH", content, at)
        expect(number >= FIRST_DATA_SET and count > 0, f"template {number} with {count} fields")
        at += 4
        scopes = 0
        if options:
            scopes = struct.unpack_from("!H", content, at)[0]
            expect(0 < scopes <= count, f"template {number} with {scopes} scope fields of {count}")
            at += 2
        fields = []
        for _ in range(count):
            element, length = struct.unpack_from("!HH", content, at)
            at += 4
            if element & ENTERPRISE:
                element = (struct.unpack_from("!I", content, at)[0], element & ~ENTERPRISE)
                at += 4
            fields.append((element, length))
        yield number, scopes, fields


def read_records(content, fields):
    """The records of a Data Set. They must fill it: padding is allowed by RFC 7011, but not wanted here."""
    elements = [element for element, _ in fields]
    if all(length != VARIABLE for _, length in fields):
        layout = struct.Struct("!" + "".join(f"{length}s" for _, length in fields))
        expect(content and layout.size and len(content) % layout.size == 0, "a Data Set that records don't fill")
        return [tuple(zip(elements, values)) for values in layout.iter_unpack(content)]
    found, at = [], 0
    while at < len(content):
        values = []
        for _, length in fields:
            value, at = read_value(content, at, length)
            values.append(value)
        found.append(tuple(zip(elements, values)))
    return found


def read_value(content, at, length):
    """The value that stands at a place, and the place behind it."""
    if length == VARIABLE:
        length, at = content[at], at + 1
        if length == 255:
            length, at = struct.unpack_from("!H", content, at)[0], at + 2
    expect(at + length <= len(content), "a record that ends behind its set")
    return content[at : at + length], at + length
