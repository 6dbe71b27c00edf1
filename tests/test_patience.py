"""Nobody waits for another: exporters that send as fast as they can, many that stay, and an administrator who reads nothing, or
stops inside a command."""
import threading
import unittest

from messages import FLOW, address, flow_message, message, records
from serving import PASS, ServeTest

# Fifty messages without records, which cost the mediator time and no queue: each has the same template sixty times.
FLOOD = b"".join(message(0, *[FLOW.octets()] * 60) for _ in range(50))

# The source ports of the messages that are sent meanwhile.
PORTS = range(1, 11)


class Patience(ServeTest):
    def send_meanwhile(self, run, collector):
        """Exporters come one after another, each with one message; answers what the collector got of them, in time."""
        got = b""
        for port in PORTS:
            exporter = run.exporter()
            exporter.send(flow_message(0, port))
            got += collector.take_message()
            exporter.close()
        return got

    def expect_delivered(self, got):
        self.assertEqual(records(got), [FLOW.seen(address("192.0.2.77"), port, 1500) for port in PORTS])

    def test_flood(self):
        """Three exporters send as fast as they are read: what others send is delivered meanwhile."""
        limits = {"journal_octets": 10_000_000_000, "journal_entries": 10_000_000}
        run = self.start(connections=3 + len(PORTS), **limits)
        collector, floods, over = run.collector(), [run.exporter() for _ in range(3)], threading.Event()
        run.admin().close()

        def flood(exporter):
            while not over.is_set():
                exporter.send(FLOOD)
            exporter.close()

        threads = [threading.Thread(target=flood, args=(exporter,)) for exporter in floods]
        for thread in threads:
            thread.start()
        try:
            got = self.send_meanwhile(run, collector)
        finally:
            over.set()
            for thread in threads:
                thread.join()
        self.assertEqual(collector.take_all(), b"")
        self.expect_delivered(got)
        self.assertTrue(run.end().output.endswith(f" handed {len(PORTS)}\n"))

    def test_many_stay(self):
        """Two hundred exporters are connected and silent, or have sent half a message: others are served meanwhile."""
        run = self.start(connections=200 + len(PORTS))
        collector, strangers = run.collector(), [run.exporter() for _ in range(200)]
        run.admin().close()
        for stranger in strangers[::2]:
            stranger.send(flow_message(0)[:25])
        got = self.send_meanwhile(run, collector)
        for stranger in strangers:
            stranger.close()
        self.assertEqual(collector.take_all(), b"")
        self.expect_delivered(got)
        notes = self.expect_served(run, len(PORTS), len(PORTS)).notes
        self.assertEqual(notes.count(" failed, CutOff: messages 0 records 0 gaps 0\n"), 100)
        self.assertEqual(notes.count(" ended: messages 0 records 0 gaps 0\n"), 100)

    def test_deaf_administrator(self):
        """The administrator asks and asks, and reads no answer, until nothing more is taken: others are served meanwhile."""
        run = self.start(connections=len(PORTS))
        collector, admin = run.collector(), run.admin()
        admin.stream.settimeout(1)
        with self.assertRaises(TimeoutError):
            while True:
                admin.stream.sendall(b"status 1\n" * 1000)
        got = self.send_meanwhile(run, collector)
        admin.close()
        self.assertEqual(collector.take_all(), b"")
        self.expect_delivered(got)
        self.assertRegex(self.expect_served(run, len(PORTS), len(PORTS)).notes, r"\[WARN  ipmd\] admin 127.0.0.1:\d+ failed, ")

    def test_half_a_command(self):
        """The administrator stops inside an edit, and so changes nothing: others are served meanwhile."""
        run = self.start(connections=len(PORTS))
        collector, admin = run.collector(), run.admin()
        admin.send(b"edit %d\n" % len(PASS) + PASS.encode()[:20])
        got = self.send_meanwhile(run, collector)
        admin.close()
        self.assertEqual(collector.take_all(), b"")
        self.expect_delivered(got)
        self.assertIn(" failed, CutOff\n", self.expect_served(run, len(PORTS), len(PORTS)).notes)


if __name__ == "__main__":
    unittest.main()
