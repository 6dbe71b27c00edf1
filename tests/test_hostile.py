"""Exporters that send nonsense, stay with half a message, or fail: each ends its own connection alone."""
import contextlib
import random
import socket
import struct
import unittest
from concurrent.futures import ThreadPoolExecutor

from messages import EXPORTED, FLOW, OPTIONS_TEMPLATES, VARIABLE, Template, address, flow_message, message, records, set_of
from serving import ServeTest

# One record, and what may stand behind it.
GOOD = flow_message(0)

# What a hostile exporter sends, whether it ends itself, and what is noted of it.
HOSTILE = [
    (b"GET / HTTP/1.1\r\nHost: localhost\r\n\r\n", False, "failed, BadVersion: messages 0 records 0 gaps 0"),
    # A header of NetFlow version 9.
    (bytes.fromhex("00090001 00000000 6553f100 00000000 00000007"), False, "failed, BadVersion: messages 0 records 0 gaps 0"),
    # A length that has no room for the header.
    (bytes.fromhex("000a000f 6553f100 00000000 000000"), False, "failed, BadLength: messages 0 records 0 gaps 0"),
    # A set that is shorter than its own header.
    (bytes.fromhex("000a0014 6553f100 00000000 00000007 00020003"), False, "failed, Malformed: messages 0 records 0 gaps 0"),
    # One record, and behind it octets that begin no message.
    (GOOD + bytes.fromhex("00090010"), False, "failed, BadVersion: messages 1 records 1 gaps 0"),
    # One record, and half of a header behind it.
    (GOOD + bytes.fromhex("000a0032 6553"), True, "failed, CutOff: messages 1 records 1 gaps 0"),
    # As many octets as a message may have are announced, and a few come.
    (bytes.fromhex("000affff 6553f100 00000000 00000007 0002ffef"), True, "failed, CutOff: messages 0 records 0 gaps 0"),
    (b"\0", True, "failed, CutOff: messages 0 records 0 gaps 0"),
    (b"", True, "ended: messages 0 records 0 gaps 0"),
]

# How many good exporters there are beside them, and how many messages each sends before the hostile ones come, and again
# when they are gone.
GOOD_EXPORTERS = 9
MESSAGES = 10

# How many exporters send streams with faults at random places.
STRANGERS = 300

# A template of an interface's name, of a value of an enterprise's, and of an address; and options of interfaces by their number.
NAMED = Template(257, ((82, VARIABLE), ((29305, 1), 4), (8, 4)))
OPTIONS = set_of(OPTIONS_TEMPLATES, struct.pack("!HHHHHHHHH", 258, 3, 1, 10, 4, 82, VARIABLE, 4, 1))
OPTIONS_DATA = set_of(258, struct.pack("!I", 3) + b"\x04eth0\x06" + struct.pack("!I", 4) + b"\x04eth1\x11")

# Templates of three values of one octet in all, and of eight and nine values: a message may have two values for each of its octets at most,
# for each Data Set those of as many records as fit in, and of one more.
THIN = Template(259, ((4, 1), *(((29305, number), 0) for number in range(1, 3))))
PLAIN = Template(259, ((4, 1),))
EIGHT = Template(260, ((4, 1),) * 8)
NINE = Template(260, ((4, 1),) * 9)

# Streams of messages that are as wide as they may be, or too wide, and what is noted of them.
WIDE = [
    # 57 octets with 114 values, and 58 with 117; with their template 141 with 282, and 142 with 285.
    (message(0, THIN.octets()) + message(0, set_of(259, bytes(37))), "ended: messages 2 records 37 gaps 0"),
    (message(0, THIN.octets()) + message(0, set_of(259, bytes(38))), "failed, TooWide: messages 1 records 0 gaps 0"),
    (GOOD + message(1, THIN.octets(), set_of(259, bytes(93))), "ended: messages 2 records 94 gaps 0"),
    (GOOD + message(1, THIN.octets(), set_of(259, bytes(94))) + GOOD, "failed, TooWide: messages 1 records 1 gaps 0"),
    # By the template that the ID was given last.
    (message(0, THIN.octets(), PLAIN.octets(), set_of(259, bytes(60_000))), "ended: messages 1 records 60000 gaps 0"),
    (message(0, PLAIN.octets(), THIN.octets(), set_of(259, bytes(60_000))), "failed, TooWide: messages 0 records 0 gaps 0"),
    (message(0, THIN.octets()) + message(0, PLAIN.octets()) + message(0, set_of(259, bytes(60_000))), "ended: messages 3 records 60000 gaps 0"),
    (message(0, PLAIN.octets()) + message(0, THIN.octets()) + message(0, set_of(259, bytes(60_000))), "failed, TooWide: messages 2 records 0 gaps 0"),
    # Data Sets without a record: 144 octets with 288 values, and 148 with 297.
    (message(0, EIGHT.octets()) + message(0, *[set_of(260, b"")] * 16_379), "ended: messages 2 records 0 gaps 0"),
    (message(0, NINE.octets()) + message(0, *[set_of(260, b"")] * 32), "ended: messages 2 records 0 gaps 0"),
    (message(0, NINE.octets()) + message(0, *[set_of(260, b"")] * 33), "failed, TooWide: messages 1 records 0 gaps 0"),
    # Data Sets of a template that isn't known have no values.
    (message(0, *[set_of(261, b"")] * 16_379), "ended: messages 1 records 0 gaps 0"),
]

# Records of a time and a protocol, which count for each subscription but the last one: a message may have 131,072 counts at most.
TIMED = Template(262, ((150, 4), (4, 1)))
COUNTING = """policy 1
aggregate protocols key protocolIdentifier interval 300 grace 60
rule for quiet in * from * to * withhold
rule for * in * from * to * aggregate protocols
"""
COUNTING_SUBSCRIBERS = 16


def timed(count):
    return TIMED.data(*[TIMED.record(EXPORTED, 6)] * count)


# Streams of messages with as many counts as they may have, or more, and what is noted of them. Of two such messages the second one is
# whole with a later read, and is prepared by the template that the first one brought.
COUNTED = [
    (message(0, TIMED.octets(), timed(8192)), "ended: messages 1 records 8192 gaps 0"),
    (message(0, TIMED.octets(), timed(8193)), "failed, TooManyCounts: messages 0 records 0 gaps 0"),
    (message(0, TIMED.octets(), timed(8192)) + message(8192, timed(8192)), "ended: messages 2 records 16384 gaps 0"),
    (message(0, TIMED.octets(), timed(8192)) + message(8192, timed(8193)) + GOOD, "failed, TooManyCounts: messages 1 records 8192 gaps 0"),
]

# A stream with a template again, values of any length, options, a withdrawal and a template behind it.
STREAM = (
    GOOD
    + message(1, FLOW.octets(), FLOW.data(*(FLOW.record(address(f"192.0.2.{n}"), n, n) for n in range(20))))
    + message(21, NAMED.octets(), NAMED.data(*(NAMED.record(b"x" * n, n, address("192.0.2.1")) for n in (3, 300))))
    + message(23, OPTIONS, OPTIONS_DATA)
    + message(25, Template(256, ()).octets())
    + message(25, FLOW.octets(), FLOW.data(FLOW.record(address("192.0.2.1"), 1, 2)))
)

# Beta is shown no names, and of addresses the first 24 bits.
RULES = """policy 1
rule for * in * from * to * pass
rule for beta in * from * to * element sourceIPv4Address truncate 24
rule for beta in * from * to * element interfaceName remove
rule for * in * from * to * element * keep
"""


def faulty(chance):
    """The stream with one to four faults: octets that are others, are missing, or are too many."""
    octets = bytearray(STREAM)
    for _ in range(chance.choice((1, 1, 1, 2, 4))):
        place, count, kind = chance.randrange(len(octets)), chance.randrange(1, 5), chance.randrange(8)
        if kind == 0:
            del octets[place : place + count]
        elif kind == 1:
            octets[place:place] = chance.randbytes(count)
        elif kind < 5:
            octets[place] = chance.randrange(256)
        else:
            octets[place] = chance.choice((0, 1, 2, 3, 128, 255))
    return bytes(octets)


def ports_of(octets):
    """The source ports of the records that a collector got."""
    return [int.from_bytes(dict(record)[7], "big") for record in records(octets)]


def outcomes(notes):
    """What is noted of the ends of exporters, without their addresses."""
    return [line.partition(" exporter ")[2].partition(" ")[2] for line in notes.splitlines() if " messages " in line]


class Hostile(ServeTest):
    def attack(self, run, octets, ends):
        """A hostile exporter, to the end of its connection: it is sent nothing."""
        stranger = run.exporter()
        stranger.send(octets)
        if ends:
            # The connection may have been ended already, for a fault.
            with contextlib.suppress(OSError):
                stranger.end_sending()
        self.assertEqual(stranger.take_end(), b"")

    def send_good(self, exporters, before):
        """Each of the good exporters sends messages behind so many."""
        for port, exporter in enumerate(exporters, 1):
            for n in range(before, before + MESSAGES):
                exporter.send(flow_message(n, port))

    def test_hostile_exporters(self):
        """Nine hostile exporters come and go between the messages of nine good ones, of which none is lost."""
        run = self.start(connections=GOOD_EXPORTERS + len(HOSTILE))
        collector = run.collector()
        run.admin().close()
        good = [run.exporter() for _ in range(GOOD_EXPORTERS)]
        self.send_good(good, 0)
        for octets, ends, _ in HOSTILE:
            self.attack(run, octets, ends)
        self.send_good(good, MESSAGES)
        for exporter in good:
            exporter.close()
        # Nine exporters with twenty messages each, and two messages of hostile ones, of one record each.
        self.assertEqual(sorted(ports_of(collector.take_all())), sorted([*range(1, 10)] * 20 + [443] * 2))
        self.expect_noted(self.expect_served(run, 182, 182).notes)

    def expect_noted(self, notes):
        """Nine good exporters and nine others, a collector and an administrator begin and end; the begin, the first policy, the totals,
        and a warning that most of the connections were taken."""
        for _, _, text in HOSTILE:
            self.assertIn(f" {text}\n", notes)
        self.assertEqual(notes.count(" ended: messages 20 records 20 gaps 0\n"), GOOD_EXPORTERS)
        self.assertEqual(len(notes.splitlines()), 44, notes)

    def test_wide_messages(self):
        """A message that may have more values than are allowed ends its connection; what came before it stays."""
        run = self.start(subscribers=(), connections=len(WIDE))
        run.admin().close()
        for octets, _ in WIDE:
            self.attack(run, octets, True)
        notes = run.end().notes
        self.assertEqual(outcomes(notes), [text for _, text in WIDE])

    def test_many_counts(self):
        """A message of which more records count than are allowed, added up over all subscriptions, ends its connection."""
        run = self.start(COUNTING, subscribers=(), connections=len(COUNTED))
        admin = run.admin()
        for name in [*(f"s{n}" for n in range(COUNTING_SUBSCRIBERS)), "quiet"]:
            self.assertRegex(admin.ask(f"subscribe {name}"), r"^ok \d+$")
        admin.close()
        for octets, _ in COUNTED:
            self.attack(run, octets, True)
        notes = self.expect_served(run, 4, 0).notes
        self.assertEqual(outcomes(notes), [text for _, text in COUNTED])

    def test_half_a_message_stays(self):
        """A stranger sends half a message and stays: nobody else waits for it, and the run ends when it goes."""
        run = self.start(connections=3)
        collector, admin, stranger = run.collector(), run.admin(), run.exporter()
        stranger.send(GOOD[:30])
        got = b""
        for port in (1, 2):
            exporter = run.exporter()
            exporter.send(flow_message(0, port))
            got += collector.take_message()
            exporter.close()
        run.wait_for_note(" ended: messages 1 records 1 gaps 0\n", 2)
        self.assertEqual(admin.ask("status 1"), "ok 0 2 live")
        admin.close()
        run.wait_for_note(" ended: commands 1\n")
        self.assertIsNone(run.child.poll())
        stranger.close()
        self.assertEqual(collector.take_all(), b"")
        self.assertEqual(ports_of(got), [1, 2])
        self.assertIn(" failed, CutOff: messages 0 records 0 gaps 0\n", self.expect_served(run, 2, 2).notes)

    def test_random_faults(self):
        """Strangers send streams with faults at random places: the run goes on, and all that collectors are sent is IPFIX."""
        run = self.start(RULES, subscribers=("acme", "beta"), connections=STRANGERS + 1, shapes=65280)
        chance = random.Random(7011)
        run.admin().close()
        with ThreadPoolExecutor(2) as pool:
            taking = [pool.submit(run.collector(name).take_all) for name in ("acme", "beta")]
            for _ in range(STRANGERS):
                self.attack(run, faulty(chance), True)
            exporter = run.exporter()
            exporter.send(STREAM)
            exporter.close()
            acme, beta = (records(one.result()) for one in taking)
        # The last is whole: its 26 records are those that acme gets last, as they are.
        self.assertEqual([dict(one).get(1) for one in acme[-26:]].count(None), 4)
        self.assertEqual(acme[-1], FLOW.seen(address("192.0.2.1"), 1, 2))
        self.assertEqual(beta[-1], FLOW.seen(address("192.0.2.0"), 1, 2))
        self.assertFalse([one for one in beta if 82 in dict(one) or dict(one).get(8, b"\0")[-1]])
        ended = run.end()
        self.assertTrue(ended.output.endswith(f" handed {len(acme) + len(beta)}\n"), ended.output)
        self.assertEqual(ended.status, 0, ended.notes)

    def test_octet_by_octet(self):
        """A message that comes in as many pieces as it has octets is one message."""
        run = self.start()
        collector, exporter = run.collector(), run.exporter()
        run.admin().close()
        for place in range(len(GOOD)):
            exporter.send(GOOD[place : place + 1])
        exporter.close()
        self.assertEqual(ports_of(collector.take_all()), [443])
        self.expect_served(run, 1, 1)

    def test_turns(self):
        """A connection that was read as often as the settings allow is ended; what it brought stays."""
        run = self.start(turns=2)
        collector, exporter = run.collector(), run.exporter()
        run.admin().close()
        got = b""
        for before in (0, 1):
            exporter.send(flow_message(before))
            got += collector.take_message()
        self.assertEqual(exporter.take_end(), b"")
        self.assertEqual(collector.take_all(), b"")
        self.assertEqual(ports_of(got), [443, 443])
        self.assertIn(" failed, Turns: messages 2 records 2 gaps 0\n", self.expect_served(run, 2, 2).notes)

    def test_endless(self):
        """An exporter whose stream has no end, of messages without records, is read as often as the settings allow."""
        run = self.start(turns=20)
        collector, exporter = run.collector(), run.exporter()
        run.admin().close()
        with self.assertRaises(OSError):
            while True:
                exporter.send(message(0) * 1000)
        self.assertEqual(collector.take_all(), b"")
        ended = run.end()
        self.assertRegex(ended.notes, r" failed, Turns: messages \d+ records 0 gaps 0\n")
        self.assertRegex(ended.output, r"^accepted \d+ handed 0\n$")
        self.assertEqual(ended.status, 0, ended.notes)

    def test_reset(self):
        """An exporter that resets its connection has failed; what it brought before is delivered."""
        run = self.start()
        collector, exporter = run.collector(), run.exporter()
        run.admin().close()
        exporter.send(GOOD)
        got = collector.take_message()
        # Closed with no time to linger, a connection is reset.
        exporter.stream.setsockopt(socket.SOL_SOCKET, socket.SO_LINGER, struct.pack("ii", 1, 0))
        exporter.close()
        self.assertEqual(collector.take_all(), b"")
        self.assertEqual(ports_of(got), [443])
        self.assertIn(" failed, Read: messages 1 records 1 gaps 0\n", self.expect_served(run, 1, 1).notes)


if __name__ == "__main__":
    unittest.main()
