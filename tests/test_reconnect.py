"""Collectors come and go: those that are absent or have gone are tried again, those that are slow are waited for, and what is queued
is sent to the end."""
import contextlib
import os
import signal
import socket
import time
import unittest
from concurrent.futures import ThreadPoolExecutor

from messages import DOMAIN, EXPORTED, FLOW, VARIABLE, Template, address, flow_message, message, records
from peers import HOST, PATIENCE, Listener, Peer, free_port, wait_until
from serving import ServeTest

# Records of one message, and how many messages make a stream that is larger than a queue of a thousand.
MANY = 200
MESSAGES = 100

# What a run is told so that a message waits for room in a queue, for ten seconds at most.
HOLD = {"hold": 10_000, "queue": 1000}

# Records of one domain count in groups by their source ports, and those of the other are passed.
GROUPS = """policy 1
aggregate ports key sourceTransportPort interval 1 grace 0
rule for * in 7 from * to * aggregate ports
rule for * in 8 from * to * pass
rule for * in * from * to * element * keep
"""
TIMED = Template(262, ((150, 4), (7, 2)))

# One value of any length, of the element paddingOctets; and more of such messages than the system keeps for a collector.
BROAD = Template(257, ((210, VARIABLE),))
BROAD_MESSAGES = 500


def burst(number, port=443):
    """A message of many records."""
    template = [FLOW.octets()] if number == 0 else []
    data = FLOW.data(*[FLOW.record(address("192.0.2.77"), port, 1500)] * MANY)
    return message(number * MANY, *template, data)


def broad(number, domain=DOMAIN):
    """A message of one record of 60,000 octets."""
    return message(number, BROAD.octets(), BROAD.data(BROAD.record(bytes(60_000))), domain=domain)


class LateListener:
    """Where a collector will listen."""

    def __init__(self):
        self.port = free_port()
        self.listener = None

    def open(self):
        """Begins to listen, and answers the collector's end of the connection."""
        self.listener = socket.create_server((HOST, self.port))
        self.listener.settimeout(PATIENCE)
        self.peer = Peer(self.listener.accept()[0])
        self.listener.close()
        return self.peer

    def close(self):
        with contextlib.suppress(AttributeError):
            self.listener.close()
            self.peer.close()


class Reconnects(ServeTest):
    def test_absent_at_the_start(self):
        """Acme's collector comes late: others are served meanwhile, and it is sent what waited for it."""
        late = LateListener()
        run = self.start(subscribers=("beta",), listeners={"acme": late}, reconnect=1)
        other, admin, exporter = run.collector("beta"), run.admin(), run.exporter()
        run.wait_for_note(f"[WARN  ipmd] cannot connect to collector acme {HOST}:{late.port} yet: Connection refused (os error 111)")
        exporter.send(flow_message(0))
        self.assertEqual(len(records(other.take_message())), 1)
        collector = late.open()
        self.assertEqual(len(records(collector.take_message())), 1)
        self.assertEqual(admin.ask("stop"), "ok")
        self.assertEqual(collector.take_all() + other.take_all(), b"")
        self.expect_served(run, 1, 2)

    def test_comes_back(self):
        """Acme's collector goes and comes back: it has a new subscription, its templates anew, and a note tells what it missed."""
        late = LateListener()
        run = self.start(subscribers=("beta",), listeners={"acme": late}, reconnect=1)
        other, admin, exporter = run.collector("beta"), run.admin(), run.exporter()
        first = late.open()
        exporter.send(flow_message(0))
        self.assertEqual(len(records(first.take_message())), 1)
        first.close()
        sent = self.send_until_gone(exporter, admin)
        gone = sent
        for _ in range(7):
            exporter.send(flow_message(sent))
            sent += 1
        wait_until(lambda: admin.ask("status 2") == f"ok 0 {sent} live", "beta has all")
        second = late.open()
        run.wait_for_note(" connected again: dropped ")
        exporter.send(flow_message(sent))
        # The Sequence Number begins anew, and the template comes before the record.
        got = second.take_message()
        self.assertEqual(got[8:12], bytes(4))
        self.assertEqual(len(records(got)), 1)
        self.assertEqual(admin.ask("stop"), "ok")
        self.assertEqual(second.take_all(), b"")
        self.assertEqual(len(records(other.take_all())), sent + 1)
        ended = run.end()
        self.assertEqual(ended.status, 0, ended.notes)
        missed = int(ended.notes.partition(" accepted meanwhile ")[2].split()[0])
        # What was accepted since the failure was seen: at least the seven, and at most what was sent since the collector had gone.
        self.assertTrue(7 <= missed <= sent - 1 and gone > 1, ended.notes)

    def test_after_a_cut(self):
        """Acme's collector takes nothing until it is cut: it gets what was queued, and then a new subscription."""
        listeners = {"acme": Listener(room=65536)}
        run = self.start(subscribers=(), listeners=listeners, queue=MANY, target=65535, reconnect=1)
        idle, admin, exporter = run.collector("acme"), run.admin(), run.exporter()
        sent = 0
        while not admin.ask("status 1").endswith(" cut"):
            exporter.send(burst(sent))
            sent += 1
            self.assertLess(sent, 10_000)
            time.sleep(0.002)
        run.wait_for_note(f" cut subscriptions: 1 by the message at ")
        first = records(idle.take_reset())
        second = listeners["acme"].accept()
        run.wait_for_note(" connected again: dropped 0 accepted meanwhile ")
        exporter.send(burst(sent))
        self.assertEqual(len(records(second.take_message())), MANY)
        self.assertEqual(admin.ask("stop"), "ok")
        self.assertEqual(second.take_all(), b"")
        notes = self.run_ended(run)
        self.assertIn(" was cut: octets ", notes)
        self.assertEqual(len(first) % MANY, 0)

    def run_ended(self, run):
        ended = run.end()
        self.assertEqual(ended.status, 0, ended.notes)
        return ended.notes

    def test_absent_at_the_end(self):
        """A collector that never came holds nothing up, and a note tells what waited for it."""
        late = LateListener()
        run = self.start(subscribers=(), listeners={"acme": late}, reconnect=1)
        admin, exporter = run.admin(), run.exporter()
        exporter.send(flow_message(0))
        wait_until(lambda: admin.ask("status 1") == "ok 1 0 live", "a record waits")
        self.assertEqual(admin.ask("stop"), "ok")
        self.assertIn(f"collector acme {HOST}:{late.port} absent at the end: dropped 1\n", self.expect_served(run, 1, 0).notes)


class Slow(ServeTest):
    """Collectors that are slow, or do what they shouldn't."""

    def take_slowly(self, collector, pause):
        """Takes to the end, with pauses."""
        got = b""
        while more := collector.stream.recv(65536):
            got += more
            time.sleep(pause)
        return got

    def test_held(self):
        """An exporter sends as fast as it can: it waits for a collector that is slower, which isn't cut."""
        run = self.start(subscribers=("acme", "beta"), target=65535, **HOLD)
        with ThreadPoolExecutor(2) as pool:
            slow = pool.submit(self.take_slowly, run.collector("acme"), 0.005)
            fast = pool.submit(run.collector("beta").take_all)
            exporter = run.exporter()
            run.admin().close()
            for n in range(MESSAGES):
                exporter.send(burst(n))
            exporter.close()
            for one in (slow, fast):
                self.assertEqual(len(records(one.result())), MESSAGES * MANY)
        self.expect_served(run, MESSAGES, 2 * MESSAGES * MANY)

    def test_held_too_long(self):
        """A message waits no longer than it may: then a collector that takes nothing is cut."""
        listeners = {"acme": Listener(room=65536), "beta": Listener()}
        run = self.start(subscribers=(), listeners=listeners, hold=500, queue=1000, target=65535)
        idle, admin, exporter = run.collector("acme"), run.admin(), run.exporter()
        with ThreadPoolExecutor(1) as pool:
            taking = pool.submit(run.collector("beta").take_all)
            sent = 0
            while not admin.ask("status 1").endswith(" cut"):
                exporter.send(burst(sent))
                sent += 1
                self.assertLess(sent, 10_000)
            begin = time.monotonic()
            exporter.send(burst(sent))
            wait_until(lambda: admin.ask("status 2") == f"ok 0 {(sent + 1) * MANY} live", "beta has all")
            # Who is cut is waited for no more.
            self.assertLess(time.monotonic() - begin, 20)
            self.assertEqual(admin.ask("stop"), "ok")
            idle.close()
            self.assertEqual(len(records(taking.result())), (sent + 1) * MANY)
        self.assertIn(" cut subscriptions: 1 by the message at ", run.end().notes)

    def test_held_advance(self):
        """An advance that closes more groups than the queue has room for waits for the collector."""
        listeners = {"acme": Listener(room=65536)}
        run = self.start(GROUPS, subscribers=(), listeners=listeners, target=65535, queue=200, hold=60_000)
        collector, admin, exporter = run.collector("acme"), run.admin(), run.exporter()
        sent = self.fill(admin, exporter)
        exporter.send(message(sent, FLOW.octets(), FLOW.data(*[FLOW.record(address("192.0.2.77"), 443, 1500)] * 100), domain=8))
        exporter.send(message(0, TIMED.octets(), TIMED.data(*(TIMED.record(EXPORTED, port) for port in range(150)))))
        exporter.close()
        run.wait_for_note(" ended: messages ")
        with ThreadPoolExecutor(1) as pool:
            answer = pool.submit(admin.ask, f"advance {(EXPORTED + 10) * 1000}")
            time.sleep(0.5)
            self.assertFalse(answer.done())
            got = b""
            while not answer.done():
                got += collector.stream.recv(65536)
            self.assertEqual(answer.result(), "ok")
        self.assertTrue(admin.ask("status 1").endswith(" live"))
        self.assertEqual(admin.ask("stop"), "ok")
        got += collector.take_all()
        self.assertEqual(len(records(got)), sent + 250)
        self.expect_served(run, sent + 2, sent + 250)

    def fill(self, admin, exporter):
        """Sends records of many octets until some wait, since the system takes no more for the collector; answers how many."""
        sent, stands, before = 0, admin.ask("status 1"), None
        while stands != before or stands.split()[1] == "0":
            exporter.send(broad(sent, 8))
            sent += 1
            wait_until(lambda: sum(map(int, admin.ask("status 1").split()[1:3])) == sent, "it is accepted")
            before = admin.ask("status 1")
            time.sleep(0 if before.split()[1] == "0" else 2)
            stands = admin.ask("status 1")
        return sent

    def test_sends_an_octet(self):
        """A collector that sends something gets its stream to the end."""
        run = self.start(target=65535)
        collector, exporter = run.collector(), run.exporter()
        run.admin().close()
        collector.send(b"hello")
        for n in range(MESSAGES):
            exporter.send(burst(n))
        exporter.close()
        self.expect_sent(run, collector)

    def expect_sent(self, run, collector):
        """A collector that begins late gets all."""
        run.wait_for_note(f" ended: messages {MESSAGES} records {MESSAGES * MANY} gaps 0\n")
        self.assertEqual(len(records(collector.take_all())), MESSAGES * MANY)
        collector.close()
        self.expect_served(run, MESSAGES, MESSAGES * MANY)

    def test_stopped_process(self):
        """A process that is stopped for a while, as it writes and waits, goes on as if nothing had been."""
        listeners = {"acme": Listener(room=65536)}
        run = self.start(subscribers=(), listeners=listeners, target=65535)
        collector, exporter = run.collector("acme"), run.exporter()
        run.admin().close()
        for n in range(MESSAGES):
            exporter.send(burst(n))
        for _ in range(5):
            os.kill(run.child.pid, signal.SIGSTOP)
            time.sleep(0.1)
            os.kill(run.child.pid, signal.SIGCONT)
            time.sleep(0.1)
        exporter.close()
        self.expect_sent(run, collector)

    def test_drain(self):
        """The end of a run waits no longer for a slow collector than it may, and a note tells what was dropped."""
        listeners = {"acme": Listener(room=65536)}
        run = self.start(subscribers=(), listeners=listeners, drain=1)
        run.collector("acme")
        admin, exporter = run.admin(), run.exporter()
        for n in range(BROAD_MESSAGES):
            exporter.send(broad(n))
        exporter.close()
        run.wait_for_note(f" ended: messages {BROAD_MESSAGES} ")
        begin = time.monotonic()
        self.assertEqual(admin.ask("stop"), "ok")
        ended = run.end()
        self.assertLess(time.monotonic() - begin, 10)
        self.assertEqual(ended.status, 0, ended.notes)
        self.assertIn("[WARN  ipmd] collectors given up: 1 did not take what is queued in time\n", ended.notes)
        self.assertRegex(ended.notes, r"collector acme 127.0.0.1:\d+ failed, Write: octets \d+ records \d+ dropped [1-9]")

    def test_trickle(self):
        """A collector that takes some octets now and then is given up as one that takes none, since all of a message counts."""
        listeners = {"acme": Listener(room=65536)}
        run = self.start(subscribers=(), listeners=listeners)
        collector, admin, exporter = run.collector("acme"), run.admin(), run.exporter()
        for n in range(BROAD_MESSAGES):
            exporter.send(broad(n))
        begin = time.monotonic()

        def trickle():
            collector.stream.recv(1000)
            time.sleep(0.25)
            return admin.ask("status 1") == "err UnknownSub"

        wait_until(trickle, "acme is given up", 60)
        # It takes nothing, or too little, for 12 seconds; a part of it may have been taken before.
        self.assertLess(time.monotonic() - begin, 40)
        exporter.close()
        admin.close()
        self.assertEqual(run.end().status, 0)


if __name__ == "__main__":
    unittest.main()
