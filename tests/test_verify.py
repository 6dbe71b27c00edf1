"""`ipmd verify`: whether a file is a journal's, whether its history is legal, and what that discloses."""
import errno
import os
import subprocess
import unittest

import program
from journals import PASS, WITHHOLD, advance, closed, cut, edit, file_of, message, opened, subscribe, unsubscribe
from messages import FLOW, address, flow_message
from messages import message as flows
from runs import LONGEST, ProgramTest, failed, run

# A policy, a subscription, a session and its first message, of one record.
FIRST = (edit(PASS), subscribe(1, "acme"), opened(1), message(1, 0, flow_message(0)))

# Of two subscriptions the first is cut by a message of three records.
THREE = flows(1, FLOW.data(*(FLOW.record(address("192.0.2.77"), port, 1500) for port in (1, 2, 3))))
CUT = (
    edit(PASS),
    subscribe(1, "acme"),
    subscribe(2, "beta"),
    opened(1),
    message(1, 0, flow_message(0)),
    cut(1),
    message(1, 1, THREE),
)
CUT_COUNTS = "sub 1 acme disclosed 1\nsub 2 beta disclosed 4\n"


class Verify(ProgramTest):
    def verify(self, content, *words):
        """What a run on a file of this content leaves."""
        return run(["verify", "--journal", self.file("run.journal", content), *words])

    def expect_legal(self, entries, output, *words):
        self.expect_ran(self.verify(file_of(*entries), *words), 0, output, "")

    def expect_refused(self, content, fault):
        self.expect_ran(self.verify(content), 1, "", f"ipmd: journal {fault}\n")

    def test_legal(self):
        """What is disclosed to each subscription, and what the audit names."""
        self.expect_legal((), "")
        self.expect_legal(FIRST, "sub 1 acme disclosed 1\n")
        self.expect_legal(CUT, CUT_COUNTS + "5 0 1 cut\n")
        withheld = (edit(WITHHOLD), *FIRST[1:])
        self.expect_legal(withheld, "sub 1 acme disclosed 0\n3 0 1 withheld 1 rule\n")
        ended = (*FIRST, unsubscribe(1), closed(1), subscribe(2, "acme"))
        self.expect_legal(ended, "sub 1 acme disclosed 1\nsub 2 acme disclosed 0\n")

    def test_quiet(self):
        """The audit's lines are left out."""
        self.expect_legal(CUT, CUT_COUNTS, "--quiet")

    def test_bad_history(self):
        """The first entry is named that may not stand where it does, and nothing is written."""
        for name, entries, position in (
            ("the cut has no message behind it", CUT[:-1], 5),
            ("the cut has an edit behind it", (*CUT[:-1], edit(PASS), CUT[-1]), 5),
            ("the message has the second one's number", (*FIRST[:3], message(1, 1, flow_message(0))), 3),
            ("the session isn't open", (*FIRST[:2], FIRST[3]), 2),
            ("the octets are no message", (*FIRST[:3], message(1, 0, b"hello")), 3),
            ("the session's number is not the next", (opened(2),), 0),
            ("the subscription's number is not the next", (subscribe(2, "acme"),), 0),
            ("a live subscription has the name", (*FIRST, subscribe(2, "acme")), 4),
            ("the subscription isn't live", (*FIRST, unsubscribe(2)), 4),
            ("the text is no policy", (edit("hello"),), 0),
            ("the clock goes back", (advance(1000), advance(999)), 1),
            ("a later entry is bad too", (opened(1), opened(1), opened(1)), 1),
        ):
            with self.subTest(name):
                self.expect_refused(file_of(*entries), f"BadHistory {position}")

    def expect_altered(self, entries, altered, where):
        """Each altered history is legal, or has its first bad entry where it is said."""
        self.assertEqual(len(altered), len(where))
        for changed, position in zip(altered, where):
            ran = self.verify(file_of(*changed), "--quiet")
            fault = "" if position is None else f"ipmd: journal BadHistory {position}\n"
            with self.subTest(entries=entries, fault=fault):
                self.assertEqual((ran.errors, ran.status), (fault, 0 if position is None else 1))

    def test_altered(self):
        """Each entry of a legal history is dropped, doubled and exchanged with the next; what is still legal is taken."""
        ended = (*FIRST, message(1, 1, flow_message(1)), unsubscribe(1), closed(1))
        for entries, dropped, doubled, exchanged in (
            (ended, (None, 4, 2, 3, None, None, None), (None, 2, 3, 4, 5, 6, 7), (None, None, 2, 3, None, None)),
            (CUT, (4, 1, None, 3, 4, None, 5), (None, 2, 3, 4, 5, 6, 7), (None, 1, None, 3, None, 6)),
        ):
            places = range(len(entries))
            self.expect_altered(entries, [entries[:n] + entries[n + 1:] for n in places], dropped)
            self.expect_altered(entries, [entries[:n + 1] + entries[n:] for n in places], doubled)
            swapped = [entries[:n] + (entries[n + 1], entries[n]) + entries[n + 2:] for n in places[:-1]]
            self.expect_altered(entries, swapped, exchanged)

    def test_cut_off(self):
        """Each front of a file is cut off, and with an octet more it has an entry too many."""
        whole = file_of(*FIRST)
        self.assertEqual(len(whole), 202)
        for length in range(len(whole)):
            with self.subTest(length=length):
                self.expect_refused(whole[:length], "Truncated")
        self.expect_refused(whole + b"\0", "BadEntry")

    def test_no_file(self):
        """The file's first fault is named."""
        self.expect_refused(file_of(magic=b"IPMK"), "BadMagic")
        self.expect_refused(file_of(version=2), "BadVersion")
        self.expect_refused(file_of(version=2, magic=b"ipmj"), "BadMagic")
        self.expect_refused(file_of(b"\0" + b"\0" * 8), "BadEntry")
        self.expect_refused(file_of(b"\x09" + b"\0" * 8), "BadEntry")
        self.expect_refused(file_of(subscribe(1, "Acme")), "BadEntry")
        self.expect_refused(file_of(*FIRST, count=5), "Truncated")
        self.expect_refused(file_of(*FIRST, count=3), "BadEntry")
        self.expect_refused(file_of(opened(1), count=2**64 - 1), "Truncated")

    def test_file_before_history(self):
        """A fault of the file is named, also where the history before it is none."""
        self.expect_refused(file_of(opened(2), b"\0"), "BadEntry")
        self.expect_refused(file_of(opened(2), count=2), "Truncated")

    def test_device(self):
        """The file can't be opened or read, or the output can't be written."""
        missing = self.file("missing")
        self.expect_ran(run(["verify", "--journal", missing]), 3, "", failed(missing, errno.ENOENT))
        folder = str(self.folder)
        self.expect_ran(run(["verify", "--journal", folder]), 3, "", failed(folder, errno.EISDIR))
        words = [program.path(), "verify", "--journal", self.file("run.journal", file_of(*FIRST))]
        with open("/dev/full", "wb") as full:
            ran = subprocess.run(words, stdout=full, stderr=subprocess.PIPE, timeout=LONGEST)
        self.assertEqual((ran.returncode, ran.stderr.decode()), (3, failed("standard output", errno.ENOSPC)))

    def on_terminal(self, *words):
        """What a run writes to a terminal as its standard error, beside its output and its status."""
        ours, its = os.openpty()
        self.addCleanup(os.close, ours)
        try:
            ran = subprocess.run([program.path(), *words], stdout=subprocess.PIPE, stderr=its, timeout=LONGEST)
        finally:
            os.close(its)
        shown = b""
        try:
            while piece := os.read(ours, 65536):
                shown += piece
        except OSError as why:
            # All was read, and nobody writes any more.
            self.assertEqual(why.errno, errno.EIO)
        return ran.returncode, ran.stdout, shown

    def test_terminal(self):
        """On a terminal, and nowhere else, the entries that were read are counted, on a line that is blanked."""
        path = self.file("long.journal", file_of(*(advance(time) for time in range(20_000))))
        status, output, shown = self.on_terminal("verify", "--journal", path)
        self.assertEqual((status, output), (0, b""))
        self.assertTrue(shown.startswith(b"\r16384 of 20000 entries read, 81 %\r "), shown)
        self.assertTrue(shown.endswith(b" \r"), shown)
        self.assertEqual(self.on_terminal("verify", "--journal", path, "--quiet"), (0, b"", b""))
        self.expect_ran(run(["verify", "--journal", path]), 0, "", "")


if __name__ == "__main__":
    unittest.main()
