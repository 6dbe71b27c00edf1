"""A soak of `ipmd serve` for some seconds: everything at once, over three runs; and that its check finds what is wrong, where something is.

`bench/soak` is the same for two minutes.
"""
import contextlib
import unittest
from unittest import mock

from journals import MESSAGE, entries_of
from messages import cut, read
from soak_checks import check, check_memory, checks_of, runs_noted
from soaking import SHORT, Soak


@contextlib.contextmanager
def altered(path, alter):
    """A file has other octets for a while."""
    octets = path.read_bytes()
    path.write_bytes(alter(octets))
    try:
        yield
    finally:
        path.write_bytes(octets)


def without_last_message(octets):
    return b"".join(cut(octets)[:-1])


def with_a_message_doubled(octets):
    """The last message comes a second time, behind as many records as it says."""
    last = read(octets)[-1]
    before = last.sequence + len(last.records)
    return octets + last.octets[:8] + before.to_bytes(4, "big") + last.octets[12:]


def with_another_octet(octets):
    return octets[:-1] + bytes([octets[-1] ^ 1])


def with_another_record(octets):
    """The last record of a journal's last message has another number."""
    last = [entry for entry in entries_of(octets) if entry.kind == MESSAGE][-1]
    return with_another_octet(last.octets).join(octets.rsplit(last.octets, 1))


def without_first_line(octets):
    return octets.partition(b"\n")[2]


class SoakTest(unittest.TestCase):
    """The tests of one soak. What is altered is of a run in which acme was there from its begin to its end, as it is in each unless the
    machine is very slow."""

    @classmethod
    def setUpClass(cls):
        cls.soak = cls.enterClassContext(Soak(SHORT))
        cls.soak.play()
        cls.rows, cls.wrong = check(cls.soak)
        cls.place = next(place for place, row in enumerate(cls.rows) if row.got["acme"] == row.records)

    def test_nothing_is_wrong(self):
        self.assertEqual(self.wrong, [])
        # Something was done.
        row = self.rows[self.place]
        for what in (row.messages, row.counted, row.audit_read, row.edits, row.advances):
            self.assertGreater(what, 0)

    def run_check(self):
        """The check of that run, which wasn't made yet."""
        return checks_of(self.soak, runs_noted(self.soak.ended.notes)[0])[self.place]

    def expect_found(self, complaint):
        """That the check complains so."""
        check = self.run_check()
        self.assertRegex("\n".join(check.check().wrong), f"run {check.noted.number}: {complaint}")

    def test_streams(self):
        """A message that a collector lacks, or got twice or with another octet, is found."""
        path = self.run_check().taken["acme"][0].path
        for alter, found in (
            (without_last_message, "[1-9][0-9]* are missing, 0 too many"),
            (with_a_message_doubled, "0 are missing, [1-9][0-9]* too many"),
            (with_another_octet, "1 are missing, 1 too many"),
            (lambda octets: octets + octets, "sequence number 0 behind"),
            (lambda octets: octets[:-1], "length"),
        ):
            with altered(path, alter):
                self.expect_found(f"acme's subscription 1, .*{found}")

    def test_sent(self):
        """A message that was accepted otherwise than it was sent, or before another, or not at all, is found."""
        check = self.run_check()
        sent = next(one for one in check.sent if len(one.messages) > 2 and check.noted.exporters[one.port][0] == "ended")
        for messages, found in (
            ([sent.messages[1], sent.messages[0], *sent.messages[2:]], "are not the first that it sent"),
            ([*sent.messages, sent.messages[0]], "messages accepted of"),
            (sent.messages[:-1], "are not the first that it sent"),
        ):
            with mock.patch.object(sent, "messages", messages):
                self.expect_found(f"the exporter at {sent.port}, which ends, .*{found}")

    def test_audit(self):
        """A line of the audit that wasn't read is found."""
        with altered(self.run_check().asked[0].path, without_first_line):
            self.expect_found("the audit that was read: line 0 is ")

    def test_journal(self):
        """A journal that is legal and not the run's is found, and one that is none."""
        path = self.run_check().path
        with altered(path, with_another_record):
            self.expect_found("acme's subscription 1, .*1 are missing, 1 too many")
        with altered(path, lambda octets: octets[:-1]):
            self.expect_found("ipmd verify says: ipmd: journal Truncated")

    def test_whole(self):
        """Other counts, a note of level ERROR, another status and a journal too many are found."""
        ended, totals = self.soak.ended, "accepted {} handed {}\n".format(*self.run_check().noted.totals)
        for other, found in (
            (ended._replace(status=1), "the program ended with status 1"),
            (ended._replace(notes=ended.notes + "[ERROR ipmd] cannot accept\n"), "noted: [ERROR ipmd] cannot accept"),
            (ended._replace(notes=ended.notes.replace(totals, "accepted 1 handed 1\n")), "noted accepted and handed (1, 1) and not "),
            (ended._replace(output=""), "standard output says ''"),
        ):
            with mock.patch.object(self.soak, "ended", other):
                self.assertIn(found, "\n".join(check(self.soak)[1]))
        part = self.soak.folder / "journal.7.part"
        part.touch()
        self.addCleanup(part.unlink)
        self.assertIn("journal.7.part", "\n".join(check(self.soak)[1]))

    def test_memory(self):
        """Memory that grows from run to run is found."""
        for found in ([90_000, 100_000, 95_000, 92_000, 97_000, 100_000, 103_000], [5_000, 5_500, 6_000], [90_000, 200_000]):
            self.assertEqual(check_memory(found), [])
        for found in ([90_000 + 20_000 * run for run in range(10)], [50_000, 60_000, 75_000]):
            self.assertEqual(len(check_memory(found)), 1)


if __name__ == "__main__":
    unittest.main()
