"""The administrator's connection: the policy, subscriptions, the clock and the audit while a run lasts; and the run's limits."""
import socket
import unittest

from messages import FLOW, Template, address, flow_message, message, records
from peers import HOST
from serving import PASS, ServeTest

# Nothing is disclosed.
DENY = "policy 1\n"

# Octets and packets to each port, in intervals of five minutes, each closed a minute after its end.
SUMS = """policy 1
aggregate web key destinationTransportPort interval 300 grace 60
rule for acme in * from * to * aggregate web
"""

# The start in milliseconds, the destination port, octets, packets.
STARTED = Template(256, ((152, 8), (11, 2), (1, 8), (2, 4)))

# The interval that begins at 1700000100 has two flows to port 443, and the next one has one.
FLOWS = [(1700000100000, 443, 100, 1), (1700000399999, 443, 200, 2), (1700000400000, 443, 50, 1)]

# The key, the interval's start and end, the sums of octets, packets and flows.
SUM = Template(256, ((11, 2), (152, 8), (153, 8), (1, 8), (2, 8), (3, 8)))


class Admin(ServeTest):
    def test_edit(self):
        """A policy judges what is accepted while it is in force; a text that is none changes nothing."""
        run = self.start()
        collector, exporter, admin = run.collector(), run.exporter(), run.admin()
        exporter.send(flow_message(0, port=1))
        got = collector.take_message()
        self.assertEqual(admin.edit(DENY), "ok 2")
        exporter.send(flow_message(1, port=2))
        exporter.end_sending()
        self.assertEqual(exporter.take_end(), b"")
        self.assertEqual(admin.edit("policy 3\n"), "err Policy 1 NoHeader")
        # The policy, a subscription and a session stand before the first message, and the edit before the second.
        self.assertEqual(admin.audit(), ["5 0 1 withheld 0 rule"])
        self.assertEqual(admin.ask("status 1"), "ok 0 1 live")
        admin.close()
        got += collector.take_all()
        self.assertEqual(records(got), [FLOW.seen(address("192.0.2.77"), 1, 1500)])
        self.expect_served(run, 2, 1)

    def test_aggregates(self):
        """An advance of the clock closes intervals, and the collector gets their sums; a record that comes behind it is late."""
        run = self.start(SUMS)
        collector, exporter, admin = run.collector(), run.exporter(), run.admin()
        exporter.send(message(0, STARTED.octets(), STARTED.data(*(STARTED.record(*flow) for flow in FLOWS))))
        run.wait_for_audit(admin, ["3 0 1 aggregated 1", "3 1 1 aggregated 1", "3 2 1 aggregated 1"])
        self.assertEqual(admin.ask("advance 1700000459999"), "ok")
        self.assertEqual(admin.ask("status 1"), "ok 0 0 live")
        self.assertEqual(admin.ask("advance 1700000460000"), "ok")
        got = collector.take_message()
        exporter.send(message(3, STARTED.data(STARTED.record(1700000200000, 443, 300, 3))))
        run.wait_for_audit(admin, ["6 0 1 withheld 1 late"])
        self.assertEqual(admin.ask("advance 1700000760000"), "ok")
        self.assertEqual(admin.ask("advance 1700000759999"), "err ClockBack 1700000760000")
        got += collector.take_message()
        exporter.close()
        admin.close()
        self.assertEqual(collector.take_all(), b"")
        first = SUM.seen(443, 1700000100000, 1700000400000, 300, 3, 2)
        second = SUM.seen(443, 1700000400000, 1700000700000, 50, 1, 1)
        self.assertEqual(records(got), [first, second])
        self.expect_served(run, 2, 2)

    def test_unsubscribe(self):
        """A subscription that the administrator ends is told nothing more, and its collector is left; the others go on."""
        run = self.start(subscribers=("acme", "beta"))
        acme, beta, exporter, admin = run.collector("acme"), run.collector("beta"), run.exporter(), run.admin()
        exporter.send(flow_message(0))
        got, other = acme.take_message(), beta.take_message()
        self.assertEqual(admin.ask("unsubscribe 1"), "ok")
        self.assertEqual(acme.take_all(), b"")
        self.assertEqual(admin.ask("status 1"), "err UnknownSub")
        self.assertEqual(admin.ask("unsubscribe 1"), "err UnknownSub")
        exporter.send(flow_message(1))
        other += beta.take_message()
        # The name is free again, and the number is not.
        self.assertEqual(admin.ask("subscribe acme"), "ok 3")
        exporter.close()
        admin.close()
        self.assertEqual(beta.take_all(), b"")
        self.assertEqual((len(records(got)), len(records(other))), (1, 2))
        self.expect_served(run, 2, 3)

    def test_bad_line(self):
        """A line that is no command is answered, ends the administrator's connection, and nothing else."""
        run = self.start()
        collector, exporter, admin = run.collector(), run.exporter(), run.admin()
        self.assertEqual(admin.ask("status one"), "err Line")
        self.assertEqual(admin.take_all(), b"")
        exporter.send(flow_message(0))
        exporter.close()
        self.assertEqual(len(records(collector.take_all())), 1)
        self.assertIn(" ended: commands 0\n", self.expect_served(run, 1, 1).notes)

    def test_as_many_as_asked_for(self):
        """A run takes as many exporters as the settings say; who comes later is refused."""
        run = self.start(connections=1)
        collector, exporter, admin = run.collector(), run.exporter(), run.admin()
        run.wait_for_note("exporter 127.0.0.1:")
        run.wait_for_note("admin 127.0.0.1:")
        with self.assertRaises(ConnectionRefusedError):
            socket.create_connection((HOST, run.ports["exporters"]), 5).close()
        exporter.close()
        admin.close()
        self.assertEqual(collector.take_all(), b"")
        self.expect_served(run, 0, 0)


class Limits(ServeTest):
    def test_audit_full(self):
        """Where the audit has no room a message is refused and its exporter closed; when it was read, another's is accepted."""
        run = self.start(DENY, connections=3, audit=1)
        collector, admin = run.collector(), run.admin()
        for _ in range(2):
            exporter = run.exporter()
            exporter.send(flow_message(0))
            exporter.end_sending()
            exporter.take_end()
        run.wait_for_note(" failed, AuditFull: messages 0 records 0 gaps 0\n")
        self.assertEqual(admin.audit(), ["3 0 1 withheld 0 rule"])
        exporter = run.exporter()
        exporter.send(flow_message(0))
        # The second session stands behind the end of the first, and the third behind the second's.
        run.wait_for_audit(admin, ["8 0 1 withheld 0 rule"])
        exporter.close()
        admin.close()
        self.assertEqual(collector.take_all(), b"")
        self.expect_served(run, 2, 0)

    def test_shapes(self):
        """A subscription that would want one layout more than the settings allow is cut; what it had is delivered."""
        run = self.start(shapes=1)
        collector, exporter, admin = run.collector(), run.exporter(), run.admin()
        exporter.send(flow_message(0))
        got = collector.take_message()
        other = Template(257, ((8, 4),))
        exporter.send(message(1, other.octets(), other.data(other.record(address("192.0.2.1")))))
        run.wait_for_audit(admin, ["4 0 1 cut"])
        self.assertEqual(collector.take_reset(), b"")
        self.assertEqual(admin.ask("status 1"), "ok 0 1 cut")
        exporter.send(flow_message(2))
        exporter.close()
        admin.close()
        self.assertEqual(len(records(got)), 1)
        self.assertIn(" was cut: octets 50 records 1\n", self.expect_served(run, 3, 1).notes)

    def test_journal_full(self):
        """A full journal takes no message and no edit any more; what was accepted is delivered, and the administrator has one
        answer more."""
        # An edit counts for 9 octets and its own, a subscription for 10 and its name's, a session for 9, a message for 21 more.
        room = 9 + len(PASS) + 10 + len("acme") + 9 + 21 + len(flow_message(0))
        run = self.start(journal_octets=room)
        collector, exporter, admin = run.collector(), run.exporter(), run.admin()
        exporter.send(flow_message(0))
        got = collector.take_message()
        exporter.send(flow_message(1))
        self.assertEqual(exporter.take_end(), b"")
        self.assertEqual(admin.edit(DENY), "err JournalFull")
        self.assertEqual(admin.take_end(), b"")
        self.assertEqual(collector.take_all(), b"")
        self.assertEqual(len(records(got)), 1)
        self.assertIn(" failed, JournalFull: messages 1 records 1 gaps 0\n", self.expect_served(run, 1, 1).notes)


if __name__ == "__main__":
    unittest.main()
