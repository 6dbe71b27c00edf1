"""A service that goes on: nothing that a peer does ends a run, admins come one after another, and a run ends when it is told to."""
import contextlib
import os
import pathlib
import resource
import threading
import time
import unittest
from concurrent.futures import ThreadPoolExecutor

from messages import Template, flow_message, message, records
from peers import HOST, free_port
from serving import ServeTest

# How many seconds an admin is silent before it gives way to another one, and is served when no exporter is left.
ADMIN_PATIENCE = 10.0

# Another layout than that of `flow_message`.
NARROW = Template(256, ((7, 2),))

# The kinds of timers in /proc/net/tcp: one that asks a silent peer whether it is there.
KEEP_ALIVE = "02"


def limit(run, kind, most):
    """Sets a limit of a run's process, and answers the one before."""
    before = resource.prlimit(run.child.pid, kind)
    resource.prlimit(run.child.pid, kind, (most, before[1]))
    return before[0]


def processor_time(run):
    """How many seconds of a processor a run has taken so far."""
    words = pathlib.Path(f"/proc/{run.child.pid}/stat").read_text(encoding="ascii").rpartition(")")[2].split()
    return (int(words[11]) + int(words[12])) / os.sysconf("SC_CLK_TCK")


def timer_of(local, remote):
    """The kind of timer of the connection between two ports of this machine."""
    for line in pathlib.Path("/proc/net/tcp").read_text(encoding="ascii").splitlines()[1:]:
        words = line.split()
        ports = tuple(int(words[place].partition(":")[2], 16) for place in (1, 2))
        if ports == (local, remote):
            return words[5].partition(":")[0]
    raise AssertionError("no such connection")


class GoesOn(ServeTest):
    """What a peer does, or what is short, ends no run."""

    def send_one(self, run, collector, number):
        """An exporter comes with one record, which the collector gets."""
        exporter = run.exporter()
        exporter.send(flow_message(0, number))
        got = collector.take_message()
        exporter.close()
        # The Sequence Number counts the records before, and the record's port is as it was sent.
        self.assertEqual(int.from_bytes(got[8:12], "big"), number - 1)
        self.assertIn(number.to_bytes(2, "big"), got[16:])

    def begin(self):
        """A run that has served one exporter, with its collector and an admin."""
        run = self.start(connections=10)
        collector, admin = run.collector(), run.admin()
        self.send_one(run, collector, 1)
        run.wait_for_note(" ended: messages 1 records 1 gaps 0\n")
        return run, collector, admin

    def expect_on(self, run, collector, admin, strangers, kind, before):
        """That a run goes on where something is short, and takes exporters again when it isn't any more."""
        self.assertEqual(admin.ask("status 1"), "ok 0 1 live")
        limit(run, kind, before)
        for stranger in strangers:
            stranger.close()
        self.send_one(run, collector, 2)
        self.assertEqual(admin.ask("stop"), "ok")
        self.assertEqual(collector.take_all(), b"")
        self.expect_served(run, 2, 2)

    def test_no_descriptor(self):
        """A connection for which no descriptor is left is closed with a note, and all others go on; meanwhile nothing is in haste."""
        run, collector, admin = self.begin()
        descriptors = [int(name) for name in os.listdir(f"/proc/{run.child.pid}/fd")]
        before = limit(run, resource.RLIMIT_NOFILE, max(descriptors) + 1)
        strangers = [run.exporter() for _ in range(3)]
        for stranger in strangers[-2:]:
            self.assertEqual(stranger.take_end(), b"")
        used = processor_time(run)
        time.sleep(1)
        self.assertLess(processor_time(run) - used, 0.3)
        self.expect_on(run, collector, admin, strangers, resource.RLIMIT_NOFILE, before)
        self.assertIn(" refused: Too many open files (os error 24)\n", run.notes())

    def test_no_memory(self):
        """An exporter for whose messages no memory is left is closed with a note, and the run takes others when there is some again."""
        run = self.start(subscribers=(), connections=10)
        stranger = run.exporter()
        run.wait_for_note(" connected: session 1 at 1\n")
        pages = pathlib.Path(f"/proc/{run.child.pid}/statm").read_text(encoding="ascii").split()[0]
        before = limit(run, resource.RLIMIT_AS, int(pages) * resource.getpagesize())
        stranger.send(message(0, NARROW.octets()))
        long = NARROW.data(*[NARROW.record(443)] * 30_000)
        with self.assertRaises(OSError):
            for n in range(5000):
                stranger.send(message(30_000 * n, long))
        run.wait_for_note(" failed, OutOfMemory: messages ")
        limit(run, resource.RLIMIT_AS, before)
        other = run.exporter()
        other.send(flow_message(0))
        other.close()
        run.wait_for_note(" ended: messages 1 records 1 gaps 0\n")
        self.assertEqual(run.admin().ask("stop"), "ok")
        self.assertEqual(run.end().status, 0)

    def test_no_thread(self):
        """A connection for which no thread is left is closed with a note, and all others go on."""
        run, collector, admin = self.begin()
        # A thread's stack is 8 MiB.
        pages = pathlib.Path(f"/proc/{run.child.pid}/statm").read_text(encoding="ascii").split()[0]
        size = int(pages) * resource.getpagesize()
        before = limit(run, resource.RLIMIT_AS, size + (4 << 20))
        strangers = [run.exporter() for _ in range(4)]
        run.wait_for_note(" refused: no thread\n")
        self.assertEqual(strangers[-1].take_end(), b"")
        self.expect_on(run, collector, admin, strangers, resource.RLIMIT_AS, before)

    def test_idle(self):
        """An exporter from which nothing comes for a second is closed, one that sends meanwhile isn't."""
        run = self.start(connections=2, idle=1)
        collector, silent, busy = run.collector(), run.exporter(), run.exporter()
        run.admin().close()
        begin = time.monotonic()
        silent.send(flow_message(0)[:20])
        got = b""
        for n in range(8):
            busy.send(flow_message(n, 443))
            got += collector.take_message()
            time.sleep(0.3)
        self.assertEqual(silent.take_end(), b"")
        self.assertGreaterEqual(time.monotonic() - begin, 1.0)
        busy.close()
        self.assertEqual(len(records(got + collector.take_all())), 8)
        notes = self.expect_served(run, 8, 8).notes
        self.assertRegex(notes, r"\[WARN  ipmd\] exporter 127.0.0.1:\d+ closed, idle: messages 0 records 0 gaps 0\n")

    def test_one_layout_too_many(self):
        """An exporter whose templates cut a subscription is named, and the position of the message."""
        run = self.start(connections=2, shapes=1)
        collector, exporter, other = run.collector(), run.exporter(), run.exporter()
        run.admin().close()
        exporter.send(flow_message(0))
        got = collector.take_message()
        other.send(message(0, NARROW.octets(), NARROW.data(NARROW.record(443))))
        self.assertEqual(len(records(got + collector.take_reset())), 1)
        name = "{}:{}".format(*other.stream.getsockname())
        # The policy, the subscription, two sessions and a message stand before the cut.
        run.wait_for_note(f"[WARN  ipmd] exporter {name} cut subscriptions: 1 by the message at 6\n")
        exporter.close()
        other.close()
        self.assertIn(" was cut: octets ", self.expect_served(run, 2, 1).notes)

    def test_keep_alive(self):
        """The system asks silent peers of all kinds whether they are still there."""
        run = self.start()
        collector, exporter, admin = run.collector(), run.exporter(), run.admin()
        run.wait_for_note(" connected", 3)
        for peer in (collector, exporter, admin):
            local, remote = (end[1] for end in (peer.stream.getpeername(), peer.stream.getsockname()))
            self.assertEqual(timer_of(local, remote), KEEP_ALIVE)
        exporter.close()
        admin.close()
        self.assertEqual(collector.take_all(), b"")
        self.expect_served(run, 0, 0)

    def test_own_address(self):
        """A collector's address that is the server's own is refused: at the start, or once and for all."""
        for key in ("exporters", "admin"):
            with self.subTest(key=key):
                own = f"{HOST}:{free_port()}"
                ended = self.start(subscribers=(), deliver={"acme": own}, **{key: own}).end()
                self.assertEqual((ended.status, ended.output), (3, ""))
                self.assertIn(f"[ERROR ipmd] cannot connect to collector acme {own}: ", ended.notes)
        own = f"{HOST}:{free_port()}"
        run = self.start(subscribers=(), exporters=own, deliver={"acme": own}, reconnect=1, connections=2)
        run.wait_for_note(f"[WARN  ipmd] cannot connect to collector acme {own} yet: ")
        admin = run.admin()
        time.sleep(1.5)
        self.assertEqual(admin.ask("stop"), "ok")
        self.assertNotIn(" exporter ", self.expect_served(run, 0, 0).notes)


class Admins(ServeTest):
    """Admins are served one after another."""

    def test_one_after_another(self):
        """The second waits until the first has ended; a line that is no command ends its own connection alone."""
        run = self.start()
        collector, exporter = run.collector(), run.exporter()
        first, second = run.admin(), run.admin()
        second.send(b"advance 2000\n")
        self.assertEqual(first.ask("advance 1000"), "ok")
        self.assertEqual(first.ask("hello"), "err Line")
        self.assertEqual(first.take_end(), b"")
        self.assertEqual(second.take_line(), "ok")
        second.close()
        third = run.admin()
        self.assertEqual(third.ask("advance 1000"), "err ClockBack 2000")
        third.close()
        exporter.close()
        self.assertEqual(collector.take_all(), b"")
        self.expect_served(run, 0, 0)

    def test_silent(self):
        """An admin that is silent for ten seconds gives way to another one that waits."""
        run = self.start()
        collector, exporter = run.collector(), run.exporter()
        silent = run.admin()
        self.assertEqual(silent.ask("advance 1000"), "ok")
        begin = time.monotonic()
        other = run.admin()
        self.assertEqual(other.ask("advance 999"), "err ClockBack 1000")
        self.assertGreaterEqual(time.monotonic() - begin, ADMIN_PATIENCE - 1)
        self.assertEqual(silent.take_end(), b"")
        other.close()
        exporter.close()
        self.assertEqual(collector.take_all(), b"")
        self.assertIn(" closed: silent while another waits\n", self.expect_served(run, 0, 0).notes)

    def test_too_many(self):
        """Of those who wait, eight wait; one more is closed at once."""
        run = self.start()
        collector, first = run.collector(), run.admin()
        self.assertEqual(first.ask("advance 1"), "ok")
        waiting = [run.admin() for _ in range(8)]
        # They are taken in the order in which they come.
        last = run.admin()
        self.assertEqual(last.take_end(), b"")
        for one in [first, *waiting]:
            one.close()
        run.exporter().close()
        self.assertEqual(collector.take_all(), b"")
        self.assertIn(" refused: others wait, or the run ends\n", self.expect_served(run, 0, 0).notes)


class Ends(ServeTest):
    """How a run ends."""

    def test_stop(self):
        """`stop` ends a run: exporters are closed behind the message in hand, what is queued is sent, and no run follows."""
        run = self.start(connections=10, runs=5)
        collector, exporter, admin = run.collector(), run.exporter(), run.admin()
        other = run.admin()
        exporter.send(flow_message(0) + flow_message(1)[:20])
        got = collector.take_message()
        self.assertEqual(admin.ask("stop"), "ok")
        self.assertEqual(exporter.take_end(), b"")
        self.assertEqual(admin.take_end(), b"")
        self.assertEqual(other.take_end(), b"")
        self.assertEqual(collector.take_all(), b"")
        self.assertEqual(len(records(got)), 1)
        notes = self.expect_served(run, 1, 1).notes
        self.assertIn(" closed, the run ends: messages 1 records 1 gaps 0\n", notes)
        self.assertEqual(notes.count("[INFO  ipmd] run "), 1)

    def test_stop_while_sending(self):
        """Twelve exporters send as fast as they can when the run is stopped: each is noted as closed by the run, and none as failed."""
        run = self.start(subscribers=(), connections=12)
        stopped = threading.Event()

        def send(exporter):
            with contextlib.suppress(OSError):
                for n in range(1_000_000):
                    exporter.send(flow_message(n))
                    if stopped.is_set():
                        return

        exporters = [run.exporter() for _ in range(12)]
        admin = run.admin()
        run.wait_for_note(" connected", 13)
        with ThreadPoolExecutor(12) as pool:
            sending = [pool.submit(send, exporter) for exporter in exporters]
            time.sleep(0.3)
            self.assertEqual(admin.ask("stop"), "ok")
            ended = run.end()
            stopped.set()
            for one in sending:
                one.result()
        self.assertEqual(ended.status, 0)
        self.assertEqual(ended.notes.count(" closed, the run ends: messages "), 12, ended.notes)
        self.assertNotIn(" failed, ", ended.notes)

    def test_endless(self):
        """Any number of exporters may come, but so many at a time; the run goes on until it is stopped."""
        run = self.start(connections=2, endless=True)
        collector, admin = run.collector(), run.admin()
        stays, got = run.exporter(), b""
        for n in range(5):
            exporter = run.exporter()
            exporter.send(flow_message(0, 1 + n))
            got += collector.take_message()
            exporter.close()
            run.wait_for_note(" ended: messages 1 records 1 gaps 0\n", n + 1)
        second = run.exporter()
        run.wait_for_note(" connected", 9)
        third = run.exporter()
        self.assertEqual(third.take_end(), b"")
        run.wait_for_note(" turned away: 2 are connected\n")
        stays.send(flow_message(0, 99))
        got += collector.take_message()
        second.close()
        self.assertEqual(admin.ask("stop"), "ok")
        self.assertEqual(stays.take_end(), b"")
        self.assertEqual(collector.take_all(), b"")
        self.assertEqual(len(records(got)), 6)
        self.expect_served(run, 6, 6)

    def test_full(self):
        """A full journal ends the run, though an exporter stays silent and the admin too; the next one begins."""
        run = self.start(connections=10, runs=2, journal_entries=6)
        collector, silent, admin = run.collector(), run.exporter(), run.admin()
        self.assertEqual(admin.ask("status 1"), "ok 0 0 live")
        exporter = run.exporter()
        # The policy, the subscription and two sessions stand before the messages, of which the third has no room.
        for n in range(3):
            exporter.send(flow_message(n))
        self.assertEqual(exporter.take_end(), b"")
        self.assertEqual(silent.take_end(), b"")
        self.assertEqual(admin.take_end(), b"")
        self.assertEqual(len(records(collector.take_all())), 2)
        collector = run.collector()
        admin = run.admin()
        self.assertEqual(admin.ask("stop"), "ok")
        self.assertEqual(collector.take_all(), b"")
        ended = run.end()
        self.assertEqual((ended.status, ended.output), (0, "accepted 2 handed 2\naccepted 0 handed 0\n"))
        self.assertIn("[WARN  ipmd] the journal is full: the run ends\n", ended.notes)

    def test_all_gone(self):
        """When all exporters have come and gone, the run ends within some seconds, though the admin goes on."""
        run = self.start()
        collector, admin = run.collector(), run.admin()
        run.exporter().close()
        begin = time.monotonic()
        try:
            for n in range(600):
                admin.ask(f"advance {n}")
                time.sleep(0.1)
        except (AssertionError, OSError):
            pass
        self.assertLess(time.monotonic() - begin, ADMIN_PATIENCE + 20)
        self.assertGreaterEqual(time.monotonic() - begin, ADMIN_PATIENCE - 1)
        self.assertEqual(collector.take_all(), b"")
        self.assertIn(" closed, the run ends\n", self.expect_served(run, 0, 0).notes)

    def test_no_admin(self):
        """Where no admin ever comes, the run ends some seconds behind the last exporter."""
        run = self.start()
        collector = run.collector()
        run.exporter().close()
        self.assertEqual(collector.take_all(), b"")
        self.expect_served(run, 0, 0)

    def test_warnings(self):
        """It is warned when four fifths of the connections were taken, or of the journal's entries."""
        run = self.start(connections=5, journal_entries=200)
        collector, admin = run.collector(), run.admin()
        for _ in range(3):
            run.exporter().close()
        run.wait_for_note(" ended: messages 0 records 0 gaps 0\n", 3)
        self.assertNotIn("nearly", run.notes())
        exporter = run.exporter()
        run.wait_for_note("[WARN  ipmd] connections are nearly used up: 4 of 5\n")
        for n in range(185):
            exporter.send(flow_message(n))
            collector.take_message()
        run.wait_for_note("[WARN  ipmd] the journal is nearly full: entries ")
        self.assertEqual(admin.ask("stop"), "ok")
        self.assertEqual(collector.take_all(), b"")
        self.assertEqual(self.expect_served(run, 185, 185).notes.count("nearly full"), 1)


if __name__ == "__main__":
    unittest.main()
