"""Runs of `ipmd serve` that do what they are asked."""
import socket
import time
import unittest

from messages import FLOW, address, flow_message, message, read, records
from peers import PATIENCE, Admin, Peer, free_port
from serving import PASS, ServeTest

# Its header; a template of source address, source port and octet count; and one record of it.
ONE_RECORD = bytes.fromhex(
    "000a0032 6553f100 00000000 00000007"
    "00020014 01000003 00080004 00070002 00010004"
    "0100000e c000024d 01bb 000005dc"
)

# What a collector gets of it, but for the Export Time: domain 0, the template, and the record.
DISCLOSED = bytes.fromhex(
    "000a0032 00000000 00000000 00000000"
    "00020014 01000003 00080004 00070002 00010004"
    "0100000e c000024d 01bb 000005dc"
)

BURST = 100

# Addresses are truncated to 24 bits.
TRUNCATE = """policy 1
rule for * in * from * to * pass
rule for * in * from * to * element sourceIPv4Address truncate 24
rule for * in * from * to * element * keep
"""


def burst_values(before):
    """The values of the hundred records behind so many: ten addresses again and again, and counts that go up."""
    return [(f"192.0.2.{n % 10}", 80, before + n) for n in range(BURST)]


def burst(before):
    """The message of these records."""
    octets = [FLOW.record(address(source), port, count) for source, port, count in burst_values(before)]
    return message(before, FLOW.octets(), FLOW.data(*octets))


def has_ipv6():
    """Whether this machine has the loopback address of IPv6."""
    try:
        with socket.create_server(("::1", 0), family=socket.AF_INET6):
            return True
    except OSError:
        return False


class Sessions(ServeTest):
    def test_builder(self):
        """What these tests build of a record is what the standard says, octet for octet."""
        self.assertEqual(flow_message(0), ONE_RECORD)

    def test_loopback(self):
        """An exporter sends a record, its collector gets it, the clock is advanced; all is counted and noted."""
        run = self.start()
        collector = run.collector()
        begin = int(time.time())
        exporter = run.exporter()
        exporter.send(ONE_RECORD)
        exporter.close()
        got = collector.take(len(DISCLOSED))
        self.assertEqual(got[:4], DISCLOSED[:4])
        self.assertEqual(got[8:], DISCLOSED[8:])
        self.assertIn(read(got)[0].export_time, range(begin, int(time.time()) + 1))
        admin = run.admin()
        self.assertEqual(admin.ask("advance 1000"), "ok")
        admin.close()
        self.assertEqual(collector.take_all(), b"")
        self.expect_noted(self.expect_served(run, 1, 1).notes)

    def expect_noted(self, notes):
        """That a collector, an exporter and an administrator are noted as they begin and end; and the totals."""
        for text in (
            "[INFO  ipmd] run 1\n",
            "[INFO  ipmd] collector acme 127.0.0.1:",
            "[INFO  ipmd] exporter 127.0.0.1:",
            " ended: messages 1 records 1 gaps 0\n",
            "[INFO  ipmd] admin 127.0.0.1:",
            " ended: commands 1\n",
            " ended: octets 50 records 1\n",
            "[INFO  ipmd] accepted 1 handed 1\n",
        ):
            self.assertIn(text, notes)
        self.assertEqual(len(notes.splitlines()), 9, notes)

    def test_two_mediators(self):
        """A mediator that truncates addresses delivers to a second one, which passes all on to a collector."""
        far = self.start(PASS, connections=1)
        collector = far.collector()
        far_admin = far.admin()
        address_of_far = {"next": far.settings["exporters"]}
        near = self.start(TRUNCATE, subscribers=(), deliver=address_of_far)
        exporter = near.exporter()
        for n in range(10):
            exporter.send(burst(n * BURST))
        exporter.close()
        near.admin().close()
        self.expect_served(near, 10, 1000)
        far_admin.close()
        got = records(collector.take_all())
        values = [one for n in range(10) for one in burst_values(n * BURST)]
        self.assertEqual(got, [FLOW.seen(address("192.0.2.0"), port, count) for _, port, count in values])
        ended = far.end()
        self.assertTrue(ended.output.endswith(" handed 1000\n"), ended.output)
        self.assertEqual(ended.status, 0)

    def test_gap(self):
        """A gap in an exporter's sequence numbers ends nothing and is counted; the collector's numbers have none."""
        run = self.start()
        collector = run.collector()
        run.admin().close()
        exporter = run.exporter()
        for before in (0, 5, 6):
            exporter.send(flow_message(before))
        exporter.close()
        self.assertEqual(len(records(collector.take_all())), 3)
        self.assertIn(" ended: messages 3 records 3 gaps 1\n", self.expect_served(run, 3, 3).notes)

    @unittest.skipUnless(has_ipv6(), "this machine has no IPv6")
    def test_other_addresses(self):
        """Exporters connect to a name, and the administrator to an address of IPv6."""
        exporters, admin = free_port(), free_port()
        run = self.start(exporters=f"localhost:{exporters}", admin=f"[::1]:{admin}")
        collector = run.collector()
        asker = run.keep(Admin(socket.create_connection(("::1", admin), PATIENCE)))
        self.assertEqual(asker.ask("status 1"), "ok 0 0 live")
        asker.close()
        exporter = run.keep(Peer(socket.create_connection(("localhost", exporters), PATIENCE)))
        exporter.send(ONE_RECORD)
        exporter.close()
        self.assertEqual(len(records(collector.take_all())), 1)
        self.assertIn("[INFO  ipmd] admin [::1]:", self.expect_served(run, 1, 1).notes)


if __name__ == "__main__":
    unittest.main()
