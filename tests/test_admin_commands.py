"""The lines of the admin connection: commands, lines that are none, and what each is answered. Answers that no run is brought to
give are shown by the tests of `crates/tests_program`."""
import unittest

from messages import FLOW, Template, address, message
from peers import wait_until
from serving import PASS, ServeTest

GREATEST = 2**64 - 1

# A policy of 1,048,576 octets, the longest that there may be.
LONGEST_POLICY = PASS.ljust(2**20 - 1, "#") + "\n"

# Commands in a row in one run, the least and greatest of each among them, and their answers.
COMMANDS = [
    (b"status 1", "ok 0 0 live"),
    (b"advance 0", "ok"),
    (b"subscribe acme", "err AlreadySubscribed 1"),
    (b"subscribe beta", "ok 2"),
    (b"advance 1000", "ok"),
    (b"advance 5", "err ClockBack 1000"),
    (b"audit 1", "ok 0"),
    (b"audit 10", "ok 0"),
    (b"audit 10000", "ok 0"),
    (b"unsubscribe 2", "ok"),
    (b"unsubscribe 2", "err UnknownSub"),
    (b"unsubscribe 0", "err UnknownSub"),
    (b"unsubscribe %d" % GREATEST, "err UnknownSub"),
    (b"status 2", "err UnknownSub"),
    (b"status 0", "err UnknownSub"),
    (b"status %d" % GREATEST, "err UnknownSub"),
    (b"edit 5\nhello", "err Policy 1 NoHeader"),
    (b"edit 0\n", "err Policy 1 NoHeader"),
    (b"edit 2\n\xff\xfe", "err Text"),
    (b"edit 1048576\n" + LONGEST_POLICY.encode(), "ok 2"),
    (b"advance %d" % GREATEST, "ok"),
    # Any word may stand for a name, also one of no letters, and one that is no UTF-8.
    (b"subscribe Acme", "err BadName"),
    (b"subscribe 1", "err BadName"),
    (b"subscribe *", "err BadName"),
    (b"subscribe a\tb", "err BadName"),
    (b"subscribe acme\r", "err BadName"),
    (b"subscribe \xff\xfe", "err BadName"),
    (b"subscribe \0", "err BadName"),
    # The longest line.
    (b"subscribe ".ljust(1024, b"a"), "err BadName"),
]

# Lines that are no commands.
OTHERS = [
    b"",
    b" ",
    # No argument, or an empty one.
    b"edit",
    b"edit ",
    b"subscribe",
    b"subscribe ",
    b"unsubscribe",
    b"advance",
    b"audit",
    b"run ",
    b"policy 1",
    # Other spaces than the one between two words.
    b" status 1",
    b"status  1",
    b"status 1 ",
    b"status\t1",
    b"status 1\r",
    b"subscribe  acme",
    b"subscribe acme ",
    # A word too many.
    b"status 1 1",
    b"subscribe acme now",
    # Numbers in another form.
    b"edit 05",
    b"edit +5",
    b"edit five",
    b"advance -1",
    b"advance 1.5",
    b"status 00",
    b"status 0x1",
    b"status \xff",
    # Numbers out of range.
    b"edit 1048577",
    b"edit 4294967301",
    b"unsubscribe 18446744073709551616",
    b"advance 18446744073709551616",
    b"status 18446744073709551616",
    b"audit 0",
    b"audit 10001",
    # Words before or behind the one that stands alone.
    b"stop ",
    b"stop 1",
    b" stop",
    b"stop\r",
    # Other names of commands.
    b"Status 1",
    b"Stop",
    b"stops",
    b"statu 1",
    b"statuses 1",
    b"open 1",
    b"pull 1",
    b"\xff 1",
    b"1",
    # An octet more than the longest line.
    b"subscribe ".ljust(1025, b"a"),
]

# Acme is shown what comes from this network.
NETWORK = """policy 1
rule for acme in * from 192.0.2.0/24 to * pass
rule for * in * from * to * element * keep
"""

INSIDE = FLOW.record(address("192.0.2.77"), 443, 1500)
OUTSIDE = FLOW.record(address("198.51.100.1"), 443, 1500)

# A second and a third layout.
SECOND = Template(257, ((8, 4), (1, 4)))
THIRD = Template(258, ((8, 4), (2, 4)))

# The octet count is kept, and all else removed since no rule matches it.
NARROW = """policy 1
rule for acme in * from * to * pass
rule for acme in * from * to * element octetDeltaCount keep
"""

# One octet count, and eight thousand numbers of protocols.
WIDE = Template(256, ((1, 1), *[(4, 1)] * 8000))


def flows(before, template, *records):
    return message(before, template.octets(), template.data(*records))


class AdminLines(ServeTest):
    def test_commands(self):
        run = self.start()
        admin = run.admin()
        for line, answer in COMMANDS:
            with self.subTest(line[:40]):
                # An edit's line end stands before its octets.
                admin.send(line if line.startswith(b"edit") else line + b"\n")
                self.assertEqual(admin.take_line(), answer)
        admin.close()
        run.exporter().close()
        self.expect_served(run, 0, 0)

    def test_other_lines(self):
        """A line that is no command is answered, and ends the connection."""
        for line in OTHERS:
            with self.subTest(line[:40]):
                admin = self.start(subscribers=()).admin()
                admin.send(line + b"\n")
                self.assertEqual(admin.take_all(), b"err Line\n")

    def test_stop(self):
        """A stop ends the connection and the run, in which an exporter is still connected. Nothing behind it is answered."""
        run = self.start()
        admin, exporter, collector = run.admin(), run.exporter(), run.collector()
        exporter.send(flows(0, FLOW, INSIDE))
        wait_until(lambda: admin.ask("status 1") == "ok 0 1 live", "the record is handed out")
        admin.send(b"stop\nstatus 1\n")
        self.assertEqual(admin.take_all(), b"ok\n")
        collector.take_all()
        self.expect_served(run, 1, 1)

    def test_waiting(self):
        """A subscription that no collector takes from has its records in its queue."""
        run = self.start(subscribers=())
        admin = run.admin()
        self.assertEqual(admin.ask("subscribe acme"), "ok 1")
        run.exporter().send(flows(0, FLOW, INSIDE))
        wait_until(lambda: admin.ask("status 1") == "ok 1 0 live", "a record waits")

    def test_cut(self):
        """Seven records of two layouts are handed out; the third layout cuts the subscription."""
        run = self.start(shapes=2)
        admin, collector, exporter = run.admin(), run.served_collector(), run.exporter()
        exporter.send(flows(0, FLOW, *[INSIDE] * 6))
        exporter.send(flows(6, SECOND, SECOND.record(address("192.0.2.77"), 1500)))
        exporter.send(flows(7, THIRD, THIRD.record(address("192.0.2.77"), 15)))
        collector.take_reset()
        self.assertEqual(admin.ask("status 1"), "ok 0 7 cut")

    def test_audit(self):
        """A record that no rule lets pass, and the cut before the message behind it: the message of the first is at position 3,
        after an edit, a subscription and an opened session."""
        run = self.start(NETWORK, shapes=1)
        admin, collector, exporter = run.admin(), run.served_collector(), run.exporter()
        exporter.send(flows(0, FLOW, INSIDE, OUTSIDE))
        exporter.send(flows(2, SECOND, SECOND.record(address("192.0.2.77"), 1500)))
        collector.take_reset()
        self.assertEqual(admin.audit(10), ["3 1 1 withheld 0 rule", "4 0 1 cut"])
        self.assertEqual(admin.audit(10), [])

    def test_long_line(self):
        """Of a record that loses eight thousand of its fields the audit's line has some 70,000 octets, and all of them come."""
        run = self.start(NARROW)
        admin, exporter = run.admin(), run.exporter()
        exporter.send(flows(0, WIDE, WIDE.record(*[1] * len(WIDE.fields))))
        lost = ",".join(f"{place}:0" for place in range(1, len(WIDE.fields)))
        run.wait_for_audit(admin, [f"3 0 1 removed {lost}"])
        self.assertEqual(admin.audit(10), [])


if __name__ == "__main__":
    unittest.main()
