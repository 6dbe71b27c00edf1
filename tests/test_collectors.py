"""Collectors that close, take nothing, or wake late: the others go on, and the run ends."""
import time
import unittest
from concurrent.futures import ThreadPoolExecutor

from messages import VARIABLE, Template, flow_message, message, records
from peers import Listener, wait_until
from serving import ServeTest

# One value of 60,000 octets, of the element paddingOctets.
BROAD = Template(256, ((210, VARIABLE),))
BREADTH = 60_000

# More records than the queue and the system keep for a collector that takes nothing.
MOST = 1000

# More messages of 1,000 octets than the system keeps for a collector that takes nothing.
STEADY = 8000
STEADY_OCTETS = 1000

# How many seconds a collector may take nothing.
GIVEN_UP_AFTER = 12.0

# How many records may wait. They are more octets than the system keeps for a collector that takes nothing, so that it holds up
# its delivery whenever the subscription is cut.
QUEUE = 150


def broad_value(n):
    """The value of the n-th record."""
    return n.to_bytes(4, "big") * (BREADTH // 4)


def broad_message(n):
    return message(n, BROAD.octets(), BROAD.data(BROAD.record(broad_value(n))))


def steady_value(n):
    """The value of the n-th record: as long as it may be in a message of 1,000 octets."""
    # The message's header, the Template Set where it is there, the Data Set's header, and the value's length.
    before = 16 + (12 if n == 0 else 0) + 4 + 3
    return n.to_bytes(4, "big").ljust(STEADY_OCTETS - before, b".")


def steady_message(n):
    """The message of the n-th record, 1,000 octets; so long it is for a collector too."""
    template = [BROAD.octets()] if n == 0 else []
    return message(n, *template, BROAD.data(BROAD.record(steady_value(n))))


class Collectors(ServeTest):
    def test_closes(self):
        """Acme's collector closes in the middle of a message: its subscription ends, and beta is told all."""
        run = self.start(subscribers=("acme", "beta"))
        closing, other = run.collector("acme"), run.collector("beta")
        admin, exporter = run.admin(), run.exporter()
        exporter.send(flow_message(0))
        closing.take(10)
        closing.close()
        sent = self.send_until_gone(exporter, admin)
        # The name is free again, and has a new number.
        self.assertEqual(admin.ask("subscribe acme"), "ok 3")
        exporter.close()
        admin.close()
        self.assertEqual(len(records(other.take_all())), sent)
        ended = run.end()
        self.assertEqual(ended.status, 0)
        self.assertTrue(ended.output.startswith(f"accepted {sent} handed "), ended.output)
        self.assertRegex(ended.notes, r"\[WARN  ipmd\] collector acme 127.0.0.1:\d+ failed, Write: octets \d+ records \d+ dropped \d+\n")
        self.assertIn(f" ended: messages {sent} records {sent} gaps 0\n", ended.notes)

    def start_tight(self, **asked):
        """A run in which few records may wait, and acme's collector takes nothing yet."""
        listeners = {"acme": Listener(room=65536), "beta": Listener()}
        run = self.start(subscribers=(), listeners=listeners, queue=QUEUE, target=65535, **asked)
        return run, run.collector("acme"), run.collector("beta")

    def send_until_cut(self, exporter, admin, other):
        """Sends broad records, each when beta's collector has the one before, until acme is cut; answers how many."""
        got = b""
        for n in range(MOST):
            exporter.send(broad_message(n))
            got += other.take_message()
            if admin.ask("status 1").endswith(" cut"):
                self.assertEqual(admin.ask("status 2"), f"ok 0 {n + 1} live")
                # The policy, two subscriptions and a session stand before the messages, and the cut before the last of them.
                self.assertEqual(admin.audit(), [f"{4 + n} 0 1 cut"])
                self.assertEqual(records(got), [BROAD.seen(broad_value(one)) for one in range(n + 1)])
                return n + 1
        self.fail("acme was not cut")

    def test_takes_nothing(self):
        """Acme's collector takes nothing until its subscription is cut, and goes: beta is told all, and the run ends."""
        run, idle, other = self.start_tight()
        admin, exporter = run.admin(), run.exporter()
        sent = self.send_until_cut(exporter, admin, other)
        exporter.close()
        admin.close()
        idle.close()
        self.assertEqual(other.take_all(), b"")
        ended = run.end()
        self.assertEqual(ended.status, 0)
        self.assertTrue(ended.output.startswith(f"accepted {sent} handed "), ended.output)
        self.assertRegex(ended.notes, r"\[WARN  ipmd\] collector acme 127.0.0.1:\d+ failed, Write: ")

    def test_wakes_late(self):
        """Acme's collector takes nothing until its subscription is cut, and then all: it is sent what was queued by then, and then
        its connection is reset."""
        run, idle, other = self.start_tight()
        admin, exporter = run.admin(), run.exporter()
        sent = self.send_until_cut(exporter, admin, other)
        exporter.close()
        admin.close()
        self.assertEqual(records(idle.take_reset()), [BROAD.seen(broad_value(n)) for n in range(sent - 1)])
        self.assertEqual(other.take_all(), b"")
        notes = self.expect_served(run, sent, sent + sent - 1).notes
        self.assertRegex(notes, rf"\[WARN  ipmd\] collector acme 127.0.0.1:\d+ was cut: octets \d+ records {sent - 1}\n")

    def test_given_up(self):
        """Acme's collector takes nothing and stays: nobody else waits, after 12 seconds it is given up, and the run ends.

        This is the one test that lasts 12 seconds, since no setting makes that time shorter. The collector asks for segments of
        1,000 octets, as many as a message has. So a write that waits has sent nothing of its message, and the 12 seconds
        don't begin a second time.
        """
        listeners = {"acme": Listener(room=65536, segment=STEADY_OCTETS), "beta": Listener()}
        run = self.start(subscribers=(), listeners=listeners)
        run.collector("acme")
        other, admin, exporter = run.collector("beta"), run.admin(), run.exporter()
        with ThreadPoolExecutor(1) as pool:
            taken = pool.submit(other.take, STEADY * STEADY_OCTETS)
            begin = time.monotonic()
            for n in range(STEADY):
                exporter.send(steady_message(n))
            got = taken.result()
        self.assertEqual(records(got), [BROAD.seen(steady_value(n)) for n in range(STEADY)])
        self.assertEqual(admin.ask("status 2"), f"ok 0 {STEADY} live")
        self.assertTrue(admin.ask("status 1").endswith(" live"))
        wait_until(lambda: admin.ask("status 1") == "err UnknownSub", "acme is given up", 90)
        self.assertGreaterEqual(time.monotonic() - begin, GIVEN_UP_AFTER)
        exporter.close()
        admin.close()
        self.assertEqual(other.take_all(), b"")
        ended = run.end()
        self.assertEqual(ended.status, 0)
        self.assertTrue(ended.output.startswith(f"accepted {STEADY} handed "), ended.output)
        self.assertRegex(ended.notes, r"\[WARN  ipmd\] collector acme 127.0.0.1:\d+ failed, Write: octets \d+ records \d+ dropped \d+\n")


if __name__ == "__main__":
    unittest.main()
