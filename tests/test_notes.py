"""Notes that nobody reads: standard error is a pipe that is full. Nobody waits for its reader, and what was dropped is counted.
And what is noted where there may be too few descriptors."""
import fcntl
import os
import re
import subprocess
import unittest

import program
from messages import FLOW, address, flow_message, records
from runs import ProgramTest
from serving import PASS, ROOMY, Run, ServeTest, settings_text

# How many exporters send what is no IPFIX. Each is noted when it comes and when it goes.
STRANGERS = 300
NONSENSE = b"GET / HTTP/1.1\r\n\r\n"

# A pipe of so many octets, a page, is full after some fifty notes.
ROOM = 4096

# A whole note, and the one that counts those that were dropped.
NOTE = re.compile(r"\[(INFO |WARN |ERROR) ipmd\] \S.*")
DROPPED = re.compile(r"\[WARN  ipmd\] ([0-9]+) notes dropped")


class Unread(Run):
    """A run whose notes go to a pipe, which is read only when its notes are asked for."""

    def open_notes(self):
        self.reader, writer = os.pipe()
        fcntl.fcntl(writer, fcntl.F_SETPIPE_SZ, ROOM)
        os.set_blocking(self.reader, False)
        self.found = b""
        return open(writer, "wb")

    def notes(self):
        """What was read up to here, and what can be read now."""
        try:
            while more := os.read(self.reader, ROOM):
                self.found += more
        except BlockingIOError:
            pass
        return self.found.decode()

    def __exit__(self, *error):
        super().__exit__(*error)
        os.close(self.reader)


def come_and_go(run):
    """An exporter comes that sends what is no IPFIX, and is closed."""
    stranger = run.exporter()
    stranger.send(NONSENSE)
    stranger.take_end()
    stranger.close()


def count_dropped(notes):
    """How many notes were dropped, as these say."""
    return sum(int(found[1]) for found in DROPPED.finditer(notes))


class Notes(ServeTest):
    def expect_all(self, notes):
        """Each line is a whole note, and what is told and what was dropped are no less than what there was to tell."""
        lines = notes.splitlines()
        for line in lines:
            self.assertRegex(line, NOTE)
        self.assertGreater(count_dropped(notes), 0)
        self.assertGreaterEqual(len(lines) + count_dropped(notes), 2 * STRANGERS)

    def export(self, run, collector, port):
        """An exporter's record reaches the collector in time."""
        exporter = run.exporter()
        exporter.send(flow_message(0, port))
        self.assertIn(FLOW.seen(address("192.0.2.77"), port, 1500), records(collector.take_message()))
        exporter.close()

    def test_never_read(self):
        """The run does its work, and ends."""
        run = self.enterContext(Unread(connections=STRANGERS + 1))
        collector = run.collector()
        run.admin().close()
        for _ in range(STRANGERS):
            come_and_go(run)
        self.export(run, collector, 1)
        self.assertEqual(run.child.wait(20), 0)
        self.assertEqual(run.text("output"), "accepted 1 handed 1\n")

    def test_read_again(self):
        """When the pipe has room again, the next note comes behind the number of those that were dropped."""
        run = self.enterContext(Unread(connections=STRANGERS + 1))
        collector = run.collector()
        run.admin().close()
        for _ in range(STRANGERS):
            come_and_go(run)
        self.assertEqual(count_dropped(run.notes()), 0)
        self.export(run, collector, 1)
        run.wait_for_note("notes dropped")
        ended = run.end()
        self.assertEqual((ended.status, ended.output), (0, "accepted 1 handed 1\n"))
        self.expect_all(ended.notes)


# Descriptors that a run may have, beside what it asks for: 100 connections, a collector, and twenty for the rest.
ASKED = ROOMY | {"exporters": "127.0.0.1:0", "admin": "127.0.0.1:0", "connections": 100, "deliver": {"acme": "127.0.0.1:0"}}
FEW = [
    ("121", ""),
    ("120", "[WARN  ipmd] 120 descriptors are too few for 100 connections and 1 collectors: allow 121\n"),
    ("40", "[WARN  ipmd] 40 descriptors are too few for 100 connections and 1 collectors: allow 121\n"),
]


class Descriptors(ProgramTest):
    def test_few(self):
        """Too few are warned of before the first run, and the run goes on: here to a collector that isn't there."""
        asked = ASKED | {"policy": str(self.file("policy.txt", PASS))}
        words = [program.path(), "serve", "--settings", self.file("settings.toml", settings_text(asked))]
        for allowed, warning in FEW:
            with self.subTest(allowed):
                limited = ["bash", "-c", f'ulimit -n {allowed} && exec "$@"', "limited", *words]
                # As systemd has it, whose journal has the time of each note.
                journal = os.environ | {"JOURNAL_STREAM": "8:4711"}
                ran = subprocess.run(limited, capture_output=True, text=True, timeout=60, env=journal)
                self.assertTrue(ran.stderr.startswith(warning + "[INFO  ipmd] run 1\n"), ran.stderr)
                self.assertEqual((ran.stdout, ran.returncode), ("", 3))


if __name__ == "__main__":
    unittest.main()
