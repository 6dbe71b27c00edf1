"""What an operator asks a run: how subscriptions stand, how the run stands, the policy in force, the commands; and what notes say by
which a line of the audit can be traced."""
import re
import time
import unittest
from datetime import datetime, timezone

from messages import Template, flow_message, message
from peers import wait_until
from serving import PASS, ServeTest

# Another layout than that of `flow_message`.
NARROW = Template(257, ((7, 2),))

# Octets by port in each minute, and nothing else.
SUMS = """policy 1
aggregate ports key destinationTransportPort interval 60 grace 0
rule for acme in * from * to * aggregate ports
"""

# The octet count is kept, and all else removed since no rule matches it.
COUNTS = """policy 1
rule for acme in * from * to * pass
rule for acme in * from * to * element octetDeltaCount keep
"""

# One octet count, and eight thousand numbers of protocols: the audit's line of such a record has some 70,000 octets.
WIDE = Template(256, ((1, 1), *[(4, 1)] * 8000))

# The most octets of the lines of one answer to `audit`.
MOST_AUDIT = 1 << 20

COMMANDS = ["status", "status SUB", "run", "policy", "audit MAX", "edit OCTETS", "subscribe NAME", "unsubscribe SUB", "advance T", "stop", "help"]


def numbers(lines):
    """The lines of `run` by their names: one number, or one with its limit."""
    found = {}
    for line in lines:
        name, *values = line.split(" ")
        found[name] = tuple(int(one) for one in values)
    return found


class Status(ServeTest):
    """`status` with no number: all subscriptions."""

    def test_all(self):
        """Two have a collector, and one that an admin begins has none: what comes waits for it, and it can end."""
        run = self.start(subscribers=("acme", "beta"))
        acme, beta, admin = run.collector("acme"), run.collector("beta"), run.admin()
        ready = ["1 acme 0 0 live connected", "2 beta 0 0 live connected"]
        wait_until(lambda: admin.page("status") == ready, "both are connected")
        self.assertEqual(admin.ask("subscribe gamma"), "ok 3")
        exporter = run.exporter()
        exporter.send(flow_message(0))
        wanted = ["1 acme 0 1 live connected", "2 beta 0 1 live connected", "3 gamma 1 0 live none"]
        wait_until(lambda: admin.page("status") == wanted, "the record is handed out")
        self.assertEqual(admin.ask("unsubscribe 3"), "ok")
        self.assertEqual(admin.page("status"), wanted[:2])
        self.assertEqual(admin.ask("stop"), "ok")
        for one in (acme, beta):
            one.take_all()
        self.assertEqual(run.end().status, 0)

    def test_cut_and_absent(self):
        """A subscription is cut, and its collector gone."""
        run = self.start(subscribers=("acme",), reconnect=3600, shapes=1)
        collector, exporter, admin = run.collector(), run.exporter(), run.admin()
        exporter.send(flow_message(0))
        collector.take_message()
        exporter.send(message(1, NARROW.octets(), NARROW.data(NARROW.record(443))))
        self.assertEqual(collector.take_reset(), b"")
        wait_until(lambda: admin.page("status") == ["1 acme 0 1 cut absent"], "acme is cut")
        self.assertEqual(admin.ask("stop"), "ok")
        self.assertEqual(run.end().status, 0)

    def test_none(self):
        """There is no subscription."""
        run = self.start(subscribers=())
        self.assertEqual(run.admin().page("status"), [])


class Run(ServeTest):
    """`run`, `policy` and `help`."""

    def test_run(self):
        """What is told of a run, before and behind messages, an edit, an advance, and a message that is refused."""
        before = time.time()
        run = self.start(subscribers=(), connections=9, journal_entries=50, journal_octets=70_000, audit=60)
        admin, exporter = run.admin(), run.exporter()
        exporter.send(flow_message(0))
        wait_until(lambda: "messages 1" in admin.page("run"), "the message is accepted")
        # An edit counts for 9 octets and its own, a session for 9, a message for 21 more.
        octets = 9 + len(PASS) + 9 + 21 + len(flow_message(0))
        lines = admin.page("run")
        started = int(lines[1].removeprefix("started "))
        self.assertTrue(before - 1 <= started / 1000 <= time.time() + 1, lines)
        wanted = ["run 1", f"started {started}", "entries 3 50", f"octets {octets} 70000", "audit 0 60", "exporters 1 9", "messages 1", "records 1"]
        wanted += ["gaps 0", "refused 0", "edits 1", "clock 0"]
        self.assertEqual(lines, wanted)
        self.assertEqual(admin.edit(PASS), "ok 2")
        self.assertEqual(admin.ask("advance 1700000000000"), "ok")
        exporter.send(flow_message(7))
        exporter.send(b"\0\1no message of IPFIX")
        exporter.take_end()
        wait_until(lambda: "exporters 0 9" in admin.page("run"), "the exporter has ended")
        found = numbers(admin.page("run"))
        self.assertEqual((found["messages"], found["records"], found["gaps"], found["refused"]), ((2,), (2,), (1,), (1,)))
        self.assertEqual((found["edits"], found["clock"]), ((2,), (1_700_000_000_000,)))

    def test_next_run(self):
        """The next run has the next number, and begins to count anew."""
        run = self.start(subscribers=(), runs=2, journal_entries=3)
        admin, exporter = run.admin(), run.exporter()
        exporter.send(flow_message(0))
        wait_until(lambda: "messages 1" in admin.page("run"), "the message is accepted")
        self.assertEqual(admin.ask("advance 5"), "err JournalFull")
        run.wait_for_note("[INFO  ipmd] run 2\n")
        again = run.admin()
        found = numbers(again.page("run"))
        self.assertEqual((found["run"], found["messages"], found["entries"]), ((2,), (0,), (1, 3)))

    def test_audit_waits(self):
        """As many entries as wait are told: one of a record that isn't shown, and one of the cut of a subscription."""
        run = self.start("policy 1\n")
        collector, admin, exporter = run.collector(), run.admin(), run.exporter()
        exporter.send(flow_message(0))
        wait_until(lambda: numbers(admin.page("run"))["audit"] == (1, 1_000_000), "the entry waits")
        self.assertEqual(len(admin.audit(10)), 1)
        self.assertEqual(numbers(admin.page("run"))["audit"], (0, 1_000_000))
        self.assertEqual(admin.ask("stop"), "ok")
        collector.take_all()

    def test_policy(self):
        """The policy's own lines, its comments among them; where the last has no line feed, it's a line all the same."""
        first = "# The first.\npolicy 1\n\n"
        run = self.start(first, subscribers=())
        admin = run.admin()
        self.assertEqual(admin.page("policy"), ["# The first.", "policy 1", ""])
        self.assertEqual(admin.edit(PASS), "ok 2")
        self.assertEqual(admin.page("policy"), PASS.splitlines())
        self.assertEqual(admin.edit("hello"), "err Policy 1 NoHeader")
        self.assertEqual(admin.page("policy"), PASS.splitlines())
        self.assertEqual(admin.edit("policy 1"), "ok 3")
        self.assertEqual(admin.page("policy"), ["policy 1"])

    def test_help(self):
        """There is a line for each command."""
        lines = self.start(subscribers=()).admin().page("help")
        self.assertEqual([line.partition(":")[0] for line in lines], COMMANDS)


class Audit(ServeTest):
    def test_long_answer(self):
        """Entries whose lines have 1.4 MiB in all come in answers of at most 1 MiB, each once and in order."""
        run = self.start(COUNTS, subscribers=())
        admin, exporter = run.admin(), run.exporter()
        self.assertEqual(admin.ask("subscribe acme"), "ok 1")
        count = 20
        exporter.send(message(0, WIDE.octets()))
        for n in range(count):
            exporter.send(message(n, WIDE.data(WIDE.record(*[1] * len(WIDE.fields)))))
        wait_until(lambda: numbers(admin.page("run"))["audit"][0] == count, "all wait")
        lost = ",".join(f"{place}:0" for place in range(1, len(WIDE.fields)))
        found, answers = [], 0
        while lines := admin.audit():
            self.assertLessEqual(sum(len(line) + 1 for line in lines), MOST_AUDIT)
            found += lines
            answers += 1
        # The policy, a session or a subscription, the other of both, and the message of the template stand before.
        self.assertEqual(found, [f"{4 + n} 0 1 removed {lost}" for n in range(count)])
        self.assertEqual(answers, 2)


class Notes(ServeTest):
    """What notes say by which a line of the audit can be traced."""

    def test_where(self):
        """The first policy, an exporter's session and an edit with their positions in the journal."""
        run = self.start(subscribers=())
        run.wait_for_note("[INFO  ipmd] edit 1 at 0\n")
        exporter = run.exporter()
        run.wait_for_note("exporter {}:{} connected: session 1 at 1\n".format(*exporter.stream.getsockname()))
        admin = run.admin()
        self.assertEqual(admin.edit(PASS), "ok 2")
        run.wait_for_note("[INFO  ipmd] admin {}:{} edit 2 at 2\n".format(*admin.stream.getsockname()))

    def test_gaps(self):
        """A gap is told when it comes, and not more than one within a second; at the end all are counted."""
        run = self.start(subscribers=())
        exporter = run.exporter()
        name = "{}:{}".format(*exporter.stream.getsockname())
        exporter.send(flow_message(0) + flow_message(5) + flow_message(9) + flow_message(11))
        told = f"[WARN  ipmd] exporter {name} gap: sequence number"
        run.wait_for_note(f"{told} 5 for 1 in the message at 3\n")
        time.sleep(1.2)
        self.assertEqual(run.notes().count(told), 1)
        exporter.send(flow_message(20))
        run.wait_for_note(f"{told} 20 for 12 in the message at 6\n")
        exporter.close()
        run.wait_for_note(f"exporter {name} ended: messages 5 records 5 gaps 4\n")

    def test_groups_left(self):
        """A group that no advance closes is told at the end."""
        run = self.start(SUMS)
        collector, exporter, admin = run.collector(), run.exporter(), run.admin()
        timed = Template(256, ((11, 2), (152, 8), (153, 8), (1, 8)))
        start = 1_700_000_000_000
        exporter.send(message(0, timed.octets(), timed.data(timed.record(443, start, start + 5, 1500))))
        run.wait_for_audit(admin, ["3 0 1 aggregated 1"])
        self.assertEqual(admin.ask("stop"), "ok")
        self.assertEqual(collector.take_all(), b"")
        self.assertIn("[WARN  ipmd] groups not closed: 1\n", run.end().notes)

    def test_time(self):
        """Each note begins with the machine's time."""
        run = self.start(subscribers=())
        run.exporter().close()
        run.wait_for_note(" ended: messages 0 ")
        for line in run.notes().splitlines():
            time_of, _, _ = line.partition(" [")
            self.assertRegex(time_of, r"^\d{4}-\d\d-\d\dT\d\d:\d\d:\d\d(\.\d+)?Z$")
            noted = datetime.strptime(re.sub(r"(\.\d+)?Z", "", time_of), "%Y-%m-%dT%H:%M:%S").replace(tzinfo=timezone.utc)
            self.assertLess(abs(time.time() - noted.timestamp()), 120)


if __name__ == "__main__":
    unittest.main()
