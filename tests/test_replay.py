"""`ipmd replay --journal`: the journal of what was accepted is kept in a file."""
import errno
import pathlib
import unittest

from journals import advance, closed, cut, edit, file_of, message, opened, subscribe, unsubscribe
from messages import FLOW, address, flow_message
from messages import message as flows
from runs import ProgramTest, failed, run

# A policy that passes each record whole, as a call's line has it and as the journal keeps it.
PASS = "policy 1;rule for * in * from * to * pass;rule for * in * from * to * element * keep;"

# At most one record waits for a subscription, so two at once cut it.
TWO = flows(1, FLOW.data(*(FLOW.record(address("192.0.2.77"), port, 1500) for port in (1, 2))))
CALLS = f"""limits 1 10 10 100 100000
edit {PASS}
subscribe slow
open
receive 1 1 {flow_message(0).hex()}
receive 1 0 {flow_message(0).hex()}
pull 1 0 1400
receive 1 1 {TWO.hex()}
advance 60
advance 59
unsubscribe 1
close 1
"""

# What was refused and what was pulled leaves nothing.
ENTRIES = (
    edit(PASS.replace(";", "\n")),
    subscribe(1, "slow"),
    opened(1),
    message(1, 0, flow_message(0)),
    cut(1),
    message(1, 1, TWO),
    advance(60),
    unsubscribe(1),
    closed(1),
)


class Keep(ProgramTest):
    def replay(self, calls, journal):
        """What a run of these calls leaves that keeps its journal in this file."""
        return run(["replay", "--calls", self.file("calls", calls), "--journal", journal])

    def test_kept(self):
        """The file has an entry for each call that was accepted, and for each cut; the answers are as without it."""
        journal = self.file("journal", "what was there before, which is longer than nothing")
        answers = run(["replay", "--calls", self.file("calls", CALLS)])
        self.assertEqual(self.replay(CALLS, journal), answers)
        self.assertEqual(pathlib.Path(journal).read_bytes(), file_of(*ENTRIES))
        self.expect_ran(run(["verify", "--journal", journal]), 0, "sub 1 slow disclosed 1\n4 0 1 cut\n", "")

    def test_empty(self):
        """A run that accepts nothing has a journal of no entry."""
        journal = self.file("journal", "")
        self.expect_ran(self.replay("close 1\n", journal), 0, "err UnknownSession\n", "")
        self.assertEqual(pathlib.Path(journal).read_bytes(), file_of())

    def test_refused(self):
        """Where no call is made no file is made, and where there can be none nothing is answered."""
        journal = str(pathlib.Path(self.file("calls", "")).parent / "none")
        self.expect_ran(self.replay("nothing that there is\n", journal), 1, "", "ipmd: calls line 1\n")
        self.assertFalse(pathlib.Path(journal).exists())
        for path, why in (("/nowhere/journal", errno.ENOENT), ("/tmp", errno.EISDIR), ("/dev/full", errno.ENOSPC)):
            with self.subTest(path):
                self.expect_ran(self.replay(CALLS, path), 3, "", failed(path, why))


if __name__ == "__main__":
    unittest.main()
