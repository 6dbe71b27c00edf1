"""Runs of `ipmd serve` that follow each other: a run whose journal is full ends, the next one begins with the policy in force,
and the journal of each is kept in a file of its own."""
import errno
import os
import socket
import unittest

from messages import FLOW, address, flow_message, records
from peers import HOST
from runs import failed
from runs import run as run_program
from serving import ServeTest

# What passes nothing.
WITHHOLD = "policy 1\nrule for * in * from * to * withhold\n"

# An edit, a subscription's begin, a session's, and two messages.
FIVE = {"journal_entries": 5, "journal": "journal"}


class Runs(ServeTest):
    def send(self, run, count, first=0):
        """An exporter that has sent so many messages of a record each."""
        exporter = run.exporter()
        exporter.send(b"".join(flow_message(before) for before in range(first, first + count)))
        return exporter

    def fill(self, run):
        """Fills the journal of five entries: the third message is refused, and its exporter's connection closed."""
        exporter = self.send(run, 3)
        self.assertEqual(exporter.take_end(), b"")

    def verify(self, run, name):
        """What `ipmd verify` says of a journal's file."""
        said = run_program(["verify", "--journal", run.path(name)])
        self.assertEqual(said.status, 0, said.errors)
        return said.output.decode()

    def files(self, run):
        """The files of journals in the run's folder."""
        return sorted(name for name in os.listdir(run.folder.name) if name.startswith("journal"))

    def make_short_run(self, run):
        """A run of one exporter with one message, whose administrator says nothing."""
        collector = run.collector()
        run.admin().close()
        self.send(run, 1).close()
        return collector.take_all()

    def test_two_runs(self):
        """The third message finds the journal full. The second run has everything anew."""
        run = self.start(runs=2, **FIVE)
        collector = run.collector()
        run.admin().close()
        self.fill(run)
        first = collector.take_all()
        second = self.make_short_run(run)
        ended = run.end()
        self.assertEqual((ended.status, ended.output), (0, "accepted 2 handed 2\naccepted 1 handed 1\n"))
        # Their messages' sequence numbers begin with 0.
        flow = FLOW.seen(address("192.0.2.77"), 443, 1500)
        self.assertEqual((records(first), records(second)), ([flow, flow], [flow]))
        self.assertEqual(self.files(run), ["journal.1", "journal.2"])
        self.assertEqual(self.verify(run, "journal.1"), "sub 1 acme disclosed 2\n")
        self.assertEqual(self.verify(run, "journal.2"), "sub 1 acme disclosed 1\n")
        for note in ("run 1", "journal journal.1 written", "run 2", "journal journal.2 written"):
            self.assertIn(f"[INFO  ipmd] {note}\n", ended.notes)

    def test_last_policy(self):
        """What the administrator put in force last is in force in the next run."""
        run = self.start(runs=2, journal_entries=6, journal="journal")
        collector, admin = run.collector(), run.admin()
        self.assertEqual(admin.edit(WITHHOLD), "ok 2")
        admin.close()
        self.fill(run)
        self.assertEqual(collector.take_all(), b"")
        self.assertEqual(self.make_short_run(run), b"")
        self.assertEqual(run.end().output, "accepted 2 handed 0\naccepted 1 handed 0\n")
        self.assertEqual(self.verify(run, "journal.2"), "sub 1 acme disclosed 0\n3 0 1 withheld 1 rule\n")

    def test_no_more_than_asked(self):
        """After as many runs as there may be none begins, though the journal is full; the second one's is."""
        run = self.start(runs=2, **FIVE)
        for _ in range(2):
            collector = run.collector()
            run.admin().close()
            self.fill(run)
            collector.take_all()
        ended = run.end()
        self.assertEqual((ended.status, ended.output), (0, "accepted 2 handed 2\n" * 2))

    def test_one_run(self):
        """Where one run may be made, its journal's file has the number 1, and another of that name is replaced."""
        run = self.start(**FIVE)
        run.write("journal.1", "an older one")
        run.write("journal.7", "one of another run")
        collector = run.collector()
        run.admin().close()
        self.fill(run)
        collector.take_all()
        self.assertEqual(run.end().output, "accepted 2 handed 2\n")
        self.assertEqual(self.files(run), ["journal.1", "journal.7"])
        self.assertEqual(self.verify(run, "journal.1"), "sub 1 acme disclosed 2\n")

    def test_numbers_go_on(self):
        """Where several runs may be made, no file of the folder is written again: the numbers go on behind the greatest."""
        names = ("journal.1", "journal.11", "journal.012", "journal.13.part", "journal.x", "journal", "other.20")
        run = self.start(runs=3, files=names, **FIVE)
        self.make_short_run(run)
        self.assertEqual(run.end().output, "accepted 1 handed 1\n")
        self.assertEqual(self.verify(run, "journal.12"), "sub 1 acme disclosed 1\n")
        for name in names:
            self.assertEqual(run.text(name), "")

    def test_no_journal(self):
        """Without a path for it no journal is written."""
        run = self.start(runs=2, journal_entries=5)
        collector = run.collector()
        run.admin().close()
        self.fill(run)
        collector.take_all()
        self.make_short_run(run)
        self.assertEqual(run.end().output, "accepted 2 handed 2\naccepted 1 handed 1\n")
        self.assertEqual(self.files(run), [])

    def test_full_disk(self):
        """The file finds no room: the run's line stands before the fault, no file has the journal's name, and no run follows."""
        run = self.start(runs=2, links={"journal.1.part": "/dev/full"}, **FIVE)
        collector = run.collector()
        run.admin().close()
        self.fill(run)
        collector.take_all()
        ended = run.end()
        self.assertEqual((ended.status, ended.output), (3, "accepted 2 handed 2\n"))
        self.assertTrue(ended.notes.endswith("\n" + failed("journal.1.part", errno.ENOSPC)), ended.notes)
        self.assertEqual(self.files(run), ["journal.1.part"])

    def test_no_name(self):
        """The file is written, and can't get its name: a folder has it."""
        run = self.start(journal="journal")
        os.mkdir(run.path("journal.1"))
        self.make_short_run(run)
        ended = run.end()
        self.assertEqual((ended.status, ended.output), (3, "accepted 1 handed 1\n"))
        self.assertTrue(ended.notes.endswith("\n" + failed("journal.1", errno.EISDIR)), ended.notes)

    def test_full_output(self):
        """The run's line isn't taken, behind the journal that was kept."""
        run = self.start(journal="journal", links={"output": "/dev/full"})
        self.make_short_run(run)
        self.assertEqual(run.child.wait(20), 3)
        said = " [INFO  ipmd] journal journal.1 written\n" + failed("standard output", errno.ENOSPC)
        self.assertTrue(run.notes().endswith(said), run.notes())
        self.assertEqual(self.files(run), ["journal.1"])

    def test_no_folder(self):
        """A folder that isn't there, or is a file, is seen before anything is served."""
        for runs in (1, 2):
            for folder, why in (("nowhere/", errno.ENOENT), ("policy.txt/", errno.ENOTDIR)):
                with self.subTest(runs=runs, folder=folder):
                    ended = self.start(runs=runs, journal=f"{folder}journal").end()
                    self.assertEqual((ended.status, ended.output, ended.notes), (3, "", failed(folder, why)))

    def test_who_comes_when_full(self):
        """When the journal is full the administrator has one answer more, and nobody is taken any more."""
        run = self.start(connections=5, **FIVE)
        collector, admin = run.collector(), run.admin()
        self.assertEqual(admin.ask("status 1"), "ok 0 0 live")
        self.fill(run)
        self.assertEqual(admin.ask("advance 1000"), "err JournalFull")
        self.assertEqual(admin.take_end(), b"")
        collector.take_all()
        with self.assertRaises(ConnectionRefusedError):
            socket.create_connection((HOST, run.ports["exporters"]), 5).close()
        ended = run.end()
        self.assertEqual((ended.status, ended.output), (0, "accepted 2 handed 2\n"))
        self.assertEqual(ended.notes.count("the journal is full: the run ends\n"), 1)

    def test_full_at_the_listener(self):
        """An exporter for whose session the journal has no room is closed, and the last that is let in."""
        run = self.start(connections=5, journal_entries=3)
        collector, first = run.collector(), run.exporter()
        run.wait_for_note(" connected", 2)
        second = run.exporter()
        self.assertEqual(second.take_end(), b"")
        first.close()
        self.assertEqual(collector.take_all(), b"")
        ended = run.end()
        self.assertEqual((ended.status, ended.output), (0, "accepted 0 handed 0\n"))
        self.assertEqual(ended.notes.count(" refused: JournalFull\n"), 1)

    def test_full_by_the_administrator(self):
        """A command that finds the journal full is answered, and its connection ends behind that; that the run ends is noted once."""
        run = self.start(journal_entries=2)
        collector, admin = run.collector(), run.admin()
        self.assertEqual(admin.ask("advance 1000"), "err JournalFull")
        self.assertEqual(admin.take_end(), b"")
        self.assertEqual(collector.take_all(), b"")
        ended = run.end()
        self.assertEqual(ended.output, "accepted 0 handed 0\n")
        self.assertEqual(ended.notes.count("the journal is full: the run ends\n"), 1, ended.notes)

    def test_any_folder(self):
        """The journals' folder may have any number of files, with names of any length."""
        for count in range(0, 60, 3):
            with self.subTest(files=count):
                files = [f"{'n' * (1 + 7 * n % 97)}-{n}" for n in range(count)]
                run = self.start(subscribers=(), files=files, journal="journal", endless=True)
                self.assertEqual(run.admin().ask("stop"), "ok")
                self.expect_ended(run)

    def expect_ended(self, run):
        ended = run.end()
        self.assertEqual((ended.status, ended.output), (0, "accepted 0 handed 0\n"), ended.notes)

    def test_full_before_it_begins(self):
        """A journal without room for the first edit and the subscriptions ends it all."""
        ended = self.start(runs=2, journal_entries=1, journal="journal").end()
        self.assertEqual((ended.status, ended.output), (1, ""))
        self.assertTrue(ended.notes.endswith("ipmd: JournalFull\n"), ended.notes)


if __name__ == "__main__":
    unittest.main()
