"""Ten exporters with 10,000 records each and three collectors, while the administrator edits the policy."""
import unittest
from concurrent.futures import ThreadPoolExecutor

from messages import Template, address, message, read
from serving import ServeTest

EXPORTERS = 10

# How many messages each of them sends, and how many records each message has.
MESSAGES = 100
BURST = 100

# How often the administrator edits.
EDITS = 20

# Source address, source port, octet count, and the record's own number.
NUMBERED = Template(256, ((8, 4), (7, 2), (1, 4), (148, 4)))
ADDRESS, PORT, COUNT, NUMBER = 8, 7, 1, 148

# Acme is told all. Beta is told no ports, and of addresses the first 24 bits. Gamma is told of the first eight addresses alone.
POLICY = """policy 1
rule for gamma in * from 192.0.2.0/29 to * pass
rule for gamma in * from * to * withhold
rule for * in * from * to * pass
rule for beta in * from * to * element sourceIPv4Address truncate 24
rule for beta in * from * to * element sourceTransportPort remove
rule for * in * from * to * element * keep
"""

# The same, and acme is told no octet counts.
NO_COUNTS = POLICY.replace(
    "rule for beta in * from * to * element sourceIPv4Address",
    "rule for acme in * from * to * element octetDeltaCount remove\nrule for beta in * from * to * element sourceIPv4Address",
)


def values(number):
    """The values of a record, by its number: each exporter has a port of its own, and ten addresses again and again."""
    return address(f"192.0.2.{number % 10}"), 5000 + number // (MESSAGES * BURST), 7 * number, number


def burst(first):
    """The message of the hundred records from this number on."""
    octets = [NUMBERED.record(*values(number)) for number in range(first, first + BURST)]
    return message(first % (MESSAGES * BURST), NUMBERED.octets(), NUMBERED.data(*octets))


def record(number, without=(), bits=32):
    """What a collector gets of a record: without some elements, and with so many bits of the address."""
    source, *others = values(number)
    cut = source if bits == 32 else source[:3] + b"\0"
    return tuple(field for field in NUMBERED.seen(cut, *others) if field[0] not in without)


def export(exporter, place):
    """Sends an exporter's messages to their end."""
    for n in range(MESSAGES):
        exporter.send(burst((place * MESSAGES + n) * BURST))
    exporter.close()


def numbers(messages):
    """The numbers of the records in messages, in order."""
    return [int.from_bytes(dict(one)[NUMBER], "big") for each in messages for one in each.records]


class Crowd(ServeTest):
    def administer(self, admin):
        """Puts the two policies in force, one after the other, again and again."""
        for n in range(EDITS):
            self.assertEqual(admin.edit(POLICY if n % 2 else NO_COUNTS), f"ok {n + 2}")
        admin.close()

    def play(self, run):
        """All take part at once; answers what acme, beta and gamma got."""
        admin, exporters = run.admin(), [run.exporter() for _ in range(EXPORTERS)]
        with ThreadPoolExecutor(EXPORTERS + 4) as pool:
            taking = [pool.submit(run.collector(name).take_all) for name in ("acme", "beta", "gamma")]
            others = [pool.submit(export, exporter, place) for place, exporter in enumerate(exporters)]
            others.append(pool.submit(self.administer, admin))
            for one in others:
                one.result()
            return [read(one.result()) for one in taking]

    def test_crowd(self):
        """Each collector gets exactly the records that the policy discloses to it, all in one order, each exporter's as sent."""
        run = self.start(POLICY, subscribers=("acme", "beta", "gamma"), connections=EXPORTERS)
        acme, beta, gamma = self.play(run)
        self.expect_served(run, EXPORTERS * MESSAGES, 280_000)
        order = numbers(acme)
        self.expect_order(order)
        self.expect_acme(acme, order)
        # Beta's and gamma's records come in the same order.
        self.assertEqual([one for each in beta for one in each.records], [record(n, (PORT,), 24) for n in order])
        self.assertEqual([one for each in gamma for one in each.records], [record(n) for n in order if n % 10 < 8])

    def expect_order(self, order):
        """That messages come whole, and each exporter's in the order in which they were sent."""
        firsts = order[::BURST]
        self.assertEqual(order, [first + n for first in firsts for n in range(BURST)])
        for place in range(EXPORTERS):
            own = range(place * MESSAGES * BURST, (place + 1) * MESSAGES * BURST, BURST)
            self.assertEqual([first for first in firsts if first in own], list(own))

    def expect_acme(self, acme, order):
        """That acme's records are whole, or have no counts; and the same for all records of one message that was sent."""
        got = [one for each in acme for one in each.records]
        for at in range(0, len(order), BURST):
            without = () if COUNT in dict(got[at]) else (COUNT,)
            self.assertEqual(got[at : at + BURST], [record(n, without) for n in order[at : at + BURST]])


if __name__ == "__main__":
    unittest.main()
