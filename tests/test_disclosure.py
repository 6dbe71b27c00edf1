"""What collectors are sent is what the policy discloses: which records, which fields, in which order, and what the audit says."""
import unittest

from messages import HEADER, VARIABLE, Template, address, message, read, records
from serving import ServeTest

# Source and destination address, source and destination port, protocol, octets.
FIELDS = ((8, 4), (12, 4), (7, 2), (11, 2), (4, 1), (1, 4))
FLOW = Template(256, FIELDS)
SOURCE, DESTINATION, SOURCE_PORT, OCTETS = 8, 12, 7, 1

# Acme is shown the flows from and to its network, 198.51.100.0/24, with others' addresses truncated, and no source port of what
# comes in. Beta is shown what the domain 7 sends to 203.0.113.0/24, without octets and with sources truncated to 16 bits.
POLICY = """policy 1
rule for acme in * from 198.51.100.0/24 to * pass
rule for acme in * from * to 198.51.100.0/24 pass
rule for acme in * from 198.51.100.0/24 to * element sourceIPv4Address keep
rule for acme in * from * to 198.51.100.0/24 element destinationIPv4Address keep
rule for acme in * from * to * element sourceIPv4Address truncate 24
rule for acme in * from * to * element destinationIPv4Address truncate 24
rule for acme in * from * to 198.51.100.0/24 element sourceTransportPort remove
rule for acme in * from * to * element * keep
rule for beta in 7 from * to 203.0.113.0/24 pass
rule for beta in * from * to * element octetDeltaCount remove
rule for beta in * from * to * element sourceIPv4Address truncate 16
rule for beta in * from * to * element * keep
"""

# Three flows: to acme's network, to beta's, and from acme's.
FLOWS = [
    ("192.0.2.77", "198.51.100.9", 49153, 443, 6),
    ("192.0.2.78", "203.0.113.5", 49154, 53, 17),
    ("198.51.100.16", "192.0.3.5", 80, 54321, 6),
]

MESSAGES = 40

# The audit of one message at this place: beta sees none but the second flow, and that without its octets, the field at place 5.
AUDIT = [
    "{0} 0 1 removed 2:7",
    "{0} 0 2 withheld 0 rule",
    "{0} 1 1 withheld 0 rule",
    "{0} 1 2 removed 5:10",
    "{0} 2 2 withheld 0 rule",
]


def record(source, destination, *others):
    """The octets of a flow's record."""
    return FLOW.record(address(source), address(destination), *others)


def seen(without, source, destination, *others):
    """What is read of a flow's record, without an element."""
    fields = FLOW.seen(address(source), address(destination), *others)
    return tuple(field for field in fields if field[0] != without)


def flows_message(n, domain=7):
    """The n-th message of the three flows, each with as many octets as records are before it."""
    octets = [record(*flow, 3 * n + place) for place, flow in enumerate(FLOWS)]
    return message(3 * n, FLOW.octets(), FLOW.data(*octets), domain=domain)


def for_acme(n):
    """What acme is shown of the n-th message."""
    return [
        seen(SOURCE_PORT, "192.0.2.0", "198.51.100.9", 49153, 443, 6, 3 * n),
        seen(None, "198.51.100.16", "192.0.3.0", 80, 54321, 6, 3 * n + 2),
    ]


def for_beta(n):
    """What beta is shown of the n-th message."""
    return [seen(OCTETS, "192.0.0.0", "203.0.113.5", 49154, 53, 17, 3 * n + 1)]


class Disclosure(ServeTest):
    def start_two(self, **asked):
        """A run for acme and beta: their collectors, the administrator, and the run."""
        run = self.start(POLICY, subscribers=("acme", "beta"), **asked)
        return run.collector("acme"), run.collector("beta"), run.admin(), run

    def test_two_collectors(self):
        """Two collectors get, in order, exactly what the policy discloses to each; no message is longer than is asked for."""
        acme, beta, admin, run = self.start_two(target=150)
        exporter = run.exporter()
        for n in range(MESSAGES):
            exporter.send(flows_message(n))
        exporter.close()
        admin.close()
        got, other = acme.take_all(), beta.take_all()
        self.assertEqual(records(got), [one for n in range(MESSAGES) for one in for_acme(n)])
        self.assertEqual(records(other), [one for n in range(MESSAGES) for one in for_beta(n)])
        for one in read(got) + read(other):
            self.assertEqual(one.domain, 0)
            self.assertLessEqual(len(one.octets), 150)
            self.assertGreater(len(one.octets), HEADER.size)
        self.expect_served(run, MESSAGES, 3 * MESSAGES)

    def test_audit(self):
        """The audit names each record and field that was kept back, from whom, and by which rule; what was read is gone."""
        acme, beta, admin, run = self.start_two()
        exporter = run.exporter()
        for n in range(2):
            exporter.send(flows_message(n))
        exporter.close()
        run.wait_for_note(" ended: messages 2 records 6 gaps 0\n")
        # The policy, two subscriptions and a session stand before the messages.
        due = [line.format(position) for position in (4, 5) for line in AUDIT]
        self.assertEqual(admin.audit(3), due[:3])
        self.assertEqual(admin.audit(), due[3:])
        self.assertEqual(admin.audit(), [])
        admin.close()
        self.assertEqual(len(records(acme.take_all())), 4)
        self.assertEqual(len(records(beta.take_all())), 2)
        self.expect_served(run, 2, 6)

    def test_domains(self):
        """A rule for one observation domain shows nothing of another's records, on one connection or on two."""
        acme, beta, admin, run = self.start_two(connections=2)
        first, second = run.exporter(), run.exporter()
        first.send(flows_message(0, domain=7))
        # Each domain has sequence numbers and templates of its own.
        first.send(flows_message(0, domain=8))
        second.send(flows_message(0, domain=9))
        for one in (first, second, admin):
            one.close()
        self.assertEqual(records(acme.take_all()), 3 * for_acme(0))
        self.assertEqual(records(beta.take_all()), for_beta(0))
        self.assertNotIn("gaps 1", self.expect_served(run, 3, 7).notes)

    def test_template_changes(self):
        """An exporter sends its template again, and then another with the same ID: each record is read by the one in force."""
        run = self.start()
        collector, exporter = run.collector(), run.exporter()
        run.admin().close()
        other = Template(256, ((8, 4), (1, 8)))
        exporter.send(message(0, FLOW.octets(), FLOW.data(record(*FLOWS[0], 1))))
        exporter.send(message(1, FLOW.octets(), FLOW.data(record(*FLOWS[1], 2))))
        withdrawal = Template(256, ()).octets()
        exporter.send(message(2, withdrawal, other.octets(), other.data(other.record(address("192.0.2.1"), 3))))
        exporter.close()
        due = [seen(None, *FLOWS[0], 1), seen(None, *FLOWS[1], 2), other.seen(address("192.0.2.1"), 3)]
        self.assertEqual(records(collector.take_all()), due)
        self.expect_served(run, 3, 3)

    def test_values(self):
        """Values of an enterprise's element and of any length pass as they are."""
        template = Template(300, (((29305, 1), 4), (82, VARIABLE), (8, 4), (210, VARIABLE)))
        values = [(length, b"a" * length, address("192.0.2.1"), b"b" * (length // 2)) for length in (0, 1, 254, 255, 256, 2000)]
        run = self.start(target=65535)
        collector, exporter = run.collector(), run.exporter()
        run.admin().close()
        exporter.send(message(0, template.octets(), template.data(*(template.record(*one) for one in values))))
        exporter.close()
        self.assertEqual(records(collector.take_all()), [template.seen(*one) for one in values])
        self.expect_served(run, 1, len(values))

    def test_least_target(self):
        """Where a message may have 16 octets alone, each record goes in one of its own, which is as long as it must be."""
        run = self.start(target=16)
        collector, exporter = run.collector(), run.exporter()
        run.admin().close()
        for n in range(MESSAGES):
            exporter.send(flows_message(n))
        exporter.close()
        got = read(collector.take_all())
        due = [seen(None, *flow, 3 * n + place) for n in range(MESSAGES) for place, flow in enumerate(FLOWS)]
        self.assertEqual([record for one in got for record in one.records], due)
        self.assertLessEqual(max(len(one.records) for one in got), 1)
        self.expect_served(run, MESSAGES, len(due))

    def test_longest_message(self):
        """A message of 65,535 octets, the longest there is, is taken and passed on."""
        run = self.start(target=65535)
        collector, exporter = run.collector(), run.exporter()
        run.admin().close()
        template = Template(256, ((210, VARIABLE),))
        value = bytes(range(256)) * 256
        # Behind the header stand the Template Set's 12 octets, the Data Set's header, and three of the value's length.
        value = value[: 65535 - HEADER.size - 12 - 4 - 3]
        octets = message(0, template.octets(), template.data(template.record(value)))
        self.assertEqual(len(octets), 65535)
        exporter.send(octets)
        exporter.close()
        self.assertEqual(records(collector.take_all()), [template.seen(value)])
        self.expect_served(run, 1, 1)


if __name__ == "__main__":
    unittest.main()
