"""`ipmd serve` with several workers: what they read outside the lock is what is read under it."""
import os
import unittest

from messages import FLOW, Template, address, message, records, set_of
from serving import ServeTest, wait_until

# Another template under the ID of FLOW: source port and source address.
TURNED = Template(256, ((7, 2), (8, 4)))

# The withdrawal of that ID (RFC 7011, section 8.1).
WITHDRAWAL = set_of(2, bytes.fromhex("0100 0000"))

NUMBERS = (1, 2, 4, 64)

# How many pieces of 64 messages are sent to count the threads that read them.
PIECES = 30


def threads_of(child):
    """How many threads a process has."""
    return len(os.listdir(f"/proc/{child.pid}/task"))


def flow(port):
    return FLOW.record(address("192.0.2.77"), port, 1500)


class Workers(ServeTest):
    def serve(self, workers, messages):
        """What a collector gets of these messages, sent in one piece, and the note of their exporter's end."""
        run = self.start(workers=workers)
        collector = run.collector()
        run.admin().close()
        exporter = run.exporter()
        exporter.send(b"".join(messages))
        exporter.close()
        got = records(collector.take_all())
        ended = run.end()
        self.assertEqual(ended.status, 0, ended.notes)
        return got, next(line for line in ended.notes.splitlines() if " ended: messages " in line)

    def expect_by_each(self, messages, due, counts):
        """However many workers there are, a collector gets these records, and the note of the exporter's end has these counts."""
        for workers in NUMBERS:
            with self.subTest(workers=workers):
                got, note = self.serve(workers, messages)
                self.assertEqual(got, due)
                self.assertTrue(note.endswith(counts), note)

    def test_templates_between(self):
        """Templates come, change and go between the messages of one piece: each record is read by the one in force before it."""
        piece = (
            message(0, FLOW.octets()),
            message(0, FLOW.data(flow(1), flow(2))),
            message(2, TURNED.octets()),
            message(2, TURNED.data(TURNED.record(3, address("192.0.2.78")))),
            message(3, WITHDRAWAL),
            message(3, FLOW.data(flow(4))),
            message(3, FLOW.octets(), FLOW.data(flow(5))),
            message(4, FLOW.data(flow(6))),
        )
        due = [FLOW.seen(address("192.0.2.77"), port, 1500) for port in (1, 2)]
        due.append(TURNED.seen(3, address("192.0.2.78")))
        due += [FLOW.seen(address("192.0.2.77"), port, 1500) for port in (5, 6)]
        self.expect_by_each(piece, due, " messages 8 records 5 gaps 0")

    def test_many(self):
        """A thousand messages of one piece after another keep their order."""
        messages = [message(0, FLOW.octets())] + [message(n, FLOW.data(flow(n))) for n in range(1000)]
        due = [FLOW.seen(address("192.0.2.77"), n, 1500) for n in range(1000)]
        self.expect_by_each(messages, due, " messages 1001 records 1000 gaps 0")

    def threads(self, workers):
        """How many threads a server has while pieces of 64 messages are read, one after another: before, at most, and once their exporter is
        gone."""
        run = self.start(workers=workers)
        collector, exporter = run.collector(), run.exporter()
        run.admin().close()
        exporter.send(message(0, FLOW.octets()))
        wait_until(lambda: threads_of(run.child) > 3, "the exporter has a thread")
        before, most, octets = threads_of(run.child), 0, b""
        for piece in range(PIECES):
            exporter.send(b"".join(message(n, FLOW.data(flow(80))) for n in range(64 * piece, 64 * piece + 64)))
            while len(records(octets)) < 64 * (piece + 1):
                octets += collector.take_message()
            most = max(most, threads_of(run.child))
        exporter.close()
        return before, most, run

    def test_threads(self):
        """An exporter is helped by as many threads as are asked for, less its own: from the first piece of several messages, and until it
        goes."""
        for workers in NUMBERS:
            with self.subTest(workers=workers):
                before, most, run = self.threads(workers)
                self.assertEqual(most, before + workers - 1)
                wait_until(lambda: threads_of(run.child) < before, "all of them end")

    def test_bad_message(self):
        """A message that is refused ends the stream; those before it in its piece were accepted, those behind it weren't."""
        too_long = bytes.fromhex("0100 0010") + flow(3)
        piece = (
            message(0, FLOW.octets()),
            message(0, FLOW.data(flow(1))),
            message(1, too_long),
            message(1, FLOW.data(flow(2))),
        )
        for workers in NUMBERS:
            with self.subTest(workers=workers):
                run = self.start(workers=workers)
                collector = run.collector()
                run.admin().close()
                run.exporter().send(b"".join(piece))
                self.assertEqual(records(collector.take_all()), [FLOW.seen(address("192.0.2.77"), 1, 1500)])
                self.assertIn("messages 2 records 1 gaps 0", run.end().notes)


if __name__ == "__main__":
    unittest.main()
