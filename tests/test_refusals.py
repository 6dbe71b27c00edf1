"""Runs of `ipmd serve` that can't begin, or can't go on."""
import socket
import unittest

from messages import flow_message
from peers import HOST, Listener, free_port
from serving import PASS, ServeTest

DEVICE = "ipmd: device\n"


class Refusals(ServeTest):
    def expect_refused(self, status, fault, note="", rules=PASS, **asked):
        """That a run ends at once with this status and this last line, behind one that begins with this note, and that nothing is said
        on standard output."""
        run = self.start(rules, **asked)
        ended = run.end()
        before, _, last = ended.notes.removesuffix("\n").rpartition("\n")
        self.assertEqual(last + "\n", fault, ended.notes)
        # The note's time stands before it, and has no space.
        noted = before.rpartition("\n")[2].partition(" ")[2]
        self.assertEqual(noted[: len(note)], note, ended.notes)
        self.assertEqual((ended.status, ended.output), (status, ""), ended.notes)

    def test_address_in_use(self):
        """Someone else listens where exporters, or the administrator, would connect."""
        with socket.create_server((HOST, 0)) as taken:
            address = f"{HOST}:{taken.getsockname()[1]}"
            for key in ("exporters", "admin"):
                with self.subTest(key=key):
                    note = f"[ERROR ipmd] cannot listen on {address}: Address already in use (os error 98)"
                    self.expect_refused(3, DEVICE, note, subscribers=(), **{key: address})

    def test_no_address(self):
        """The administrator's address is none, or it isn't this machine's."""
        for address in ("nowhere", "192.0.2.1:4750"):
            with self.subTest(address=address):
                note = f"[ERROR ipmd] cannot listen on {address}: "
                self.expect_refused(3, DEVICE, note, subscribers=(), admin=address)

    def test_no_collector(self):
        """The second of two collectors doesn't listen: the first is left again, and sent nothing."""
        nobody = f"{HOST}:{free_port()}"
        note = f"[ERROR ipmd] cannot connect to collector beta {nobody}: Connection refused (os error 111)"
        with Listener() as listener:
            deliver = {"acme": f"{HOST}:{listener.port}", "beta": nobody}
            self.expect_refused(3, DEVICE, note, subscribers=(), deliver=deliver)
            self.assertEqual(listener.accept().take_all(), b"")

    def test_no_policy(self):
        """The policy's file has none."""
        self.expect_refused(1, "ipmd: policy line 1: NoHeader\n", rules="hello")

    def test_no_subscription(self):
        """A subscriber can't be named in a policy, or the journal has no room for it, or for the policy."""
        self.expect_refused(1, "ipmd: BadName\n", subscribers=("Acme", "beta"))
        # The policy and one subscription have room.
        self.expect_refused(1, "ipmd: JournalFull\n", subscribers=("acme", "beta"), journal_entries=2)
        # An edit counts for its own octets, and nine more.
        room = 9 + len(PASS)
        self.expect_refused(1, "ipmd: JournalFull\n", subscribers=(), journal_octets=room - 1)

    def test_subscribed_twice(self):
        """A subscriber has one subscription: the administrator can't make a second one."""
        run = self.start()
        admin = run.admin()
        self.assertEqual(admin.ask("subscribe acme"), "err AlreadySubscribed 1")
        self.assertEqual(admin.ask("subscribe beta"), "ok 2")
        admin.close()
        run.exporter().close()
        self.expect_served(run, 0, 0)

    def test_no_room_for_a_message(self):
        """The exporter's message has no room in the journal: it is closed, and the run ends."""
        run = self.start(subscribers=(), connections=2, journal_entries=2)
        # The policy and one session have room.
        first = run.exporter()
        first.send(flow_message(0))
        self.assertEqual(first.take_end(), b"")
        notes = self.expect_served(run, 0, 0).notes
        self.assertIn(" failed, JournalFull: messages 0 records 0 gaps 0\n", notes)
        self.assertIn("[WARN  ipmd] the journal is full: the run ends\n", notes)


if __name__ == "__main__":
    unittest.main()
