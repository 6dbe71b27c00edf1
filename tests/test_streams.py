"""Files and streams that fail: each is named on a line with the system's words for why, and then comes `ipmd: device`, with
status 3, unless a fault came before. Reads and writes that fail in mid-stream are shown by the tests of `crates/tests_program`."""
import errno
import os
import pathlib
import resource
import subprocess
import unittest

import messages
import program
from runs import FLOW, LONGEST, NOW, OFFLINE, OFFLINE_HEX, PASS, WITHHOLD, Case, ProgramTest, failed, octets, run

CHECK = ["check-policy", "--policy-text", PASS]

WITHHOLD_OCTETS = ["offline", "--policy-text", WITHHOLD, "--subscriber", "acme"]
WITHHOLD_HEX = [*WITHHOLD_OCTETS, "--hex"]

# Commands that read a file, by its path.
READERS = [
    ("a policy to check", lambda path: ["check-policy", "--policy", path]),
    ("a policy to filter by", lambda path: ["offline", "--policy", path, "--subscriber", "acme"]),
    ("a list of calls", lambda path: ["replay", "--calls", path]),
    ("settings", lambda path: ["serve", "--settings", path]),
]
JOURNAL_READERS = [
    ("a journal to verify", lambda path: ["verify", "--journal", path]),
    ("a journal to explain", lambda path: ["explain", "--journal", path, "--sub", "1"]),
]

# Files that can't be read: what they are, the path, the name that is said, and why.
UNREADABLE = [
    ("isn't there", "/nowhere/file", "/nowhere/file", errno.ENOENT),
    ("a folder", "/tmp", "/tmp", errno.EISDIR),
    ("below a file", "/dev/null/file", "/dev/null/file", errno.ENOTDIR),
    ("a name that is too long", "x" * 256, "x" * 256, errno.ENAMETOOLONG),
    ("no name", "", "", errno.ENOENT),
    # A name of two lines, that goes back over the first, and one with characters that are none of ASCII's.
    ("a name with control characters", "/nowhere/a\nb\rc\x1b\x7f\x85d", "/nowhere/a?b?c???d", errno.ENOENT),
    ("a name of other letters", "/nowhere/\u00fc \u65e5", "/nowhere/\u00fc \u65e5", errno.ENOENT),
]

# A file that not even root may read, and one that it may not write, where the system has them.
WRITE_ONLY = "/proc/sys/net/ipv4/route/flush"
READ_ONLY = "/proc/sys/kernel/ostype"

# Texts that aren't UTF-8, and how many octets stand before the first that isn't.
NO_TEXTS = [
    ("in the second line", b"policy 1\n# \xff\n", 11),
    ("at once", b"\x80", 0),
    ("a letter that is cut off", "open\n# \u00e9".encode()[:-1], 7),
    ("half a pair", b"# \xed\xa0\x80", 2),
]

# Files that can't be written: what they are, the path, and why.
UNWRITABLE = [
    ("in no folder", "/nowhere/file", errno.ENOENT),
    ("in a folder that takes no file", "/proc/file", errno.ENOENT),
    ("a folder", "/tmp", errno.EISDIR),
    ("full", "/dev/full", errno.ENOSPC),
]

# Commands that write, what is said where the output takes nothing, and the status. A fault that comes before is said.
OUTPUTS = [
    ("offline", OFFLINE_HEX, FLOW, 3, None),
    ("offline, of octets", OFFLINE, bytes.fromhex(FLOW), 3, None),
    ("check-policy", CHECK, "", 3, None),
    ("--help", ["--help"], "", 3, None),
    ("--version", ["--version"], "", 3, None),
    ("a policy that is none", ["check-policy", "--policy-text", ""], "", 1, "ipmd: policy line 1: NoHeader\n"),
]

# Commands whose report or fault isn't taken: the output and the status stay.
UNTOLD = [
    ("a report", OFFLINE_HEX, FLOW, 0),
    ("a fault", OFFLINE_HEX, "0g", 1),
    ("a refused command line", ["ofline"], "", 2),
]

# A policy that passes each record without its source port.
REMOVE = (
    "policy 1;rule for * in * from * to * pass;rule for * in * from * to * element sourceTransportPort remove"
    ";rule for * in * from * to * element * keep"
)

# A stream of 4 MB, of messages with as many records as fit: many more octets, and lines of an audit, than may wait to be written.
MANY_MESSAGES, MANY_RECORDS = 80, 5000

# How many octets are taken of what is written.
TAKEN = 1_000_000


def much():
    """The stream: a message that brings the template, and many of records."""
    record = messages.FLOW.record(messages.address("192.0.2.77"), 443, 1500)
    data = messages.FLOW.data(*[record] * MANY_RECORDS)
    parts = [messages.message(number * MANY_RECORDS, data) for number in range(MANY_MESSAGES)]
    return messages.message(0, messages.FLOW.octets()) + b"".join(parts)


def much_audited(what):
    """Its audit where each record has this line."""
    places = [(message, record) for message in range(MANY_MESSAGES) for record in range(MANY_RECORDS)]
    return "".join(f"{4 + message} {record} 1 {what}\n" for message, record in places).encode()


def run_to(words, given, **streams):
    """Runs a command with these streams in place of the usual ones."""
    streams = {"stdout": subprocess.PIPE, "stderr": subprocess.PIPE} | streams
    return subprocess.run(words, input=octets(given), timeout=LONGEST, **streams)


class Streams(ProgramTest):
    def writers(self):
        """Commands that write a file, by its path, each with what it is given."""
        calls = self.file("calls", "open\n")
        return [
            ("an audit", lambda path: [*WITHHOLD_HEX, "--audit", path], FLOW),
            ("a journal", lambda path: ["replay", "--calls", calls, "--journal", path], ""),
        ]

    def expect_failed(self, name, words, given, which, why):
        """A run fails at what has this name, and nothing is written."""
        self.expect(Case(name, words, given, 3, "", failed(which, why)))

    def test_unreadable(self):
        for role, words in READERS + JOURNAL_READERS:
            for kind, path, which, why in UNREADABLE:
                self.expect_failed(f"{role}: {kind}", words(path), FLOW, which, why)

    def test_forbidden(self):
        """A file that may not be read, or not written."""
        for role, words in READERS + JOURNAL_READERS:
            if os.path.exists(WRITE_ONLY):
                self.expect_failed(role, words(WRITE_ONLY), FLOW, WRITE_ONLY, errno.EACCES)
        for role, words, given in self.writers():
            if os.path.exists(READ_ONLY):
                self.expect_failed(role, words(READ_ONLY), given, READ_ONLY, errno.EACCES)

    def test_no_text(self):
        for role, words in READERS:
            for kind, content, place in NO_TEXTS:
                path = self.file("text", content)
                self.expect_failed(f"{role}: {kind}", words(path), FLOW, path, f"not UTF-8, octet {place}")

    def test_unwritable(self):
        for role, words, given in self.writers():
            for kind, path, why in UNWRITABLE:
                self.expect_failed(f"{role}: {kind}", words(path), given, path, why)

    def test_first_device(self):
        """Of two devices that fail, the one that fails first is named."""
        nothing = ["offline", "--policy", "/nowhere/policy", "--subscriber", "acme", "--audit", "/nowhere/audit"]
        self.expect_failed("a policy, then an audit", nothing, "", "/nowhere/policy", errno.ENOENT)
        self.expect_failed("an audit, then no digits", [*OFFLINE_HEX, "--audit", "/nowhere/audit"], "0g", "/nowhere/audit", errno.ENOENT)
        with open("/dev/full", "wb") as full:
            ran = run_to([program.path(), *OFFLINE_HEX, "--audit", "/dev/full"], FLOW, stdout=full)
        self.expect_said("an output, and an audit with nothing in it", ran, 3, failed("standard output", errno.ENOSPC))

    def test_words(self):
        """Words of a command line that aren't UTF-8."""
        ran = subprocess.run([program.path(), b"check-policy", b"--policy", b"\xff"], capture_output=True, timeout=LONGEST)
        self.expect_said("a path", ran, 3, failed("command line", "not UTF-8"))

    def expect_said(self, name, ran, status, errors):
        with self.subTest(name):
            self.assertEqual((ran.stderr.decode(), ran.returncode), (errors, status))

    def expect_unsaid(self, name, ran, status, fault, why):
        """The output took nothing, for this reason: that is said, or a fault that came before."""
        self.expect_said(name, ran, status, failed("standard output", why) if fault is None else fault)

    def test_full_output(self):
        for name, words, given, status, fault in OUTPUTS:
            with open("/dev/full", "wb") as full:
                ran = run_to([program.path(), *words], given, stdout=full)
            self.expect_unsaid(name, ran, status, fault, errno.ENOSPC)

    def test_closed_pipe(self):
        """A pipe whose reader has gone."""
        for name, words, given, status, fault in OUTPUTS:
            reader, writer = os.pipe()
            os.close(reader)
            with open(writer, "wb") as pipe:
                ran = run_to([program.path(), *words], given, stdout=pipe)
            self.expect_unsaid(name, ran, status, fault, errno.EPIPE)

    def test_much_to_full_output(self):
        """An output that takes nothing, where much is due: that is seen while more is read."""
        with open("/dev/full", "wb") as full:
            ran = run_to([program.path(), *OFFLINE], much(), stdout=full)
        self.expect_said("an output", ran, 3, failed("standard output", errno.ENOSPC))

    def test_much_to_full_audit(self):
        ran = run_to([program.path(), *WITHHOLD_OCTETS, "--audit", "/dev/full"], much())
        self.expect_said("an audit", ran, 3, failed("/dev/full", errno.ENOSPC))

    def test_reader_goes(self):
        """A pipe whose reader goes in the middle has got a front of what is due."""
        path = self.file("stream", much())
        words = [program.path(), *OFFLINE, "--now", NOW]
        with open(path, "rb") as stream, subprocess.Popen(words, stdin=stream, stdout=subprocess.PIPE, stderr=subprocess.PIPE) as child:
            taken = child.stdout.read(TAKEN)
            child.stdout.close()
            said = child.stderr.read().decode()
            self.assertEqual((said, child.wait(LONGEST)), (failed("standard output", errno.EPIPE), 3))
        self.assertTrue(run([*OFFLINE, "--now", NOW], much()).output.startswith(taken))

    def test_closed_output(self):
        for name, words, given, status, fault in OUTPUTS:
            ran = run_to(["sh", "-c", 'exec "$0" "$@" >&-', program.path(), *words], given)
            self.expect_unsaid(name, ran, status, fault, errno.EBADF)

    def test_failed_input(self):
        """A folder as standard input, which can be opened, and not read; and one that is closed."""
        for name, words in [("octets", OFFLINE), ("digits", OFFLINE_HEX)]:
            folder = os.open("/tmp", os.O_RDONLY)
            ran = subprocess.run([program.path(), *words], stdin=folder, capture_output=True, timeout=LONGEST)
            os.close(folder)
            self.expect_said(name, ran, 3, failed("standard input", errno.EISDIR))
            ran = subprocess.run(["sh", "-c", 'exec "$0" "$@" <&-', program.path(), *words], capture_output=True, timeout=LONGEST)
            self.expect_said(f"{name}, closed", ran, 3, failed("standard input", errno.EBADF))
            self.assertEqual(ran.stdout, b"")

    def test_full_errors(self):
        for name, words, given, status in UNTOLD:
            with self.subTest(name), open("/dev/full", "wb") as full:
                ran = run_to([program.path(), *words], given, stderr=full)
                self.assertEqual((ran.stdout, ran.returncode), (run(words, given).output, status))

    def run_short(self, words, given, room):
        """Runs a command for which each file takes so many octets, and fails then."""

        def limit():
            resource.setrlimit(resource.RLIMIT_FSIZE, (room, room))

        # The signal that comes with the fault is one that Python ignores, and so does what it starts in this way.
        return run_to([program.path(), *words], given, restore_signals=False, preexec_fn=limit)

    def expect_fronts(self, words, given, path, whole):
        """A file that takes fewer octets than are due has as many of them, and the run ends for the device."""
        for room in range(len(whole) + 1):
            with self.subTest(room=room):
                ran = self.run_short([*words, path], given, room)
                is_whole = room == len(whole)
                self.assertEqual(pathlib.Path(path).read_bytes(), whole[:room])
                self.assertEqual(ran.returncode, 0 if is_whole else 3, ran.stderr)
                if not is_whole:
                    self.assertEqual(ran.stderr.decode(), failed(path, errno.EFBIG))

    def test_short_audit(self):
        """What an audit's file has is a front of the lines that are due: two records are withheld."""
        lines = b"3 0 1 withheld 1 rule\n4 0 1 withheld 1 rule\n"
        self.expect_fronts([*WITHHOLD_HEX, "--audit"], FLOW + FLOW, self.file("audit"), lines)

    def test_short_journal(self):
        """The same of a journal's file, of a session and an advance of the clock; no answer is written before it is whole."""
        words = ["replay", "--calls", self.file("calls", "open\nadvance 5\n"), "--journal"]
        whole = bytes.fromhex("49504d4a 0001 0000000000000002 01 0000000000000001 07 0000000000000005")
        path = self.file("journal")
        self.expect_fronts(words, "", path, whole)
        self.assertEqual(self.run_short([*words, path], "", len(whole) - 1).stdout, b"")

    def test_short_audit_of_much(self):
        """An audit's file that takes a front of what is due, where much more is, has that front."""
        path = self.file("audit")
        ran = self.run_short([*WITHHOLD_OCTETS, "--audit", path], much(), TAKEN)
        self.expect_said("an audit", ran, 3, failed(path, errno.EFBIG))
        self.assertTrue(pathlib.Path(path).read_bytes() == much_audited("withheld 1 rule")[:TAKEN])

    def test_much(self):
        """An output and an audit that take much get all of it, in order."""
        path = self.file("audit")
        ran = run(["offline", "--policy-text", REMOVE, "--subscriber", "acme", "--audit", path], much())
        count = MANY_MESSAGES * MANY_RECORDS
        self.assertEqual((ran.errors, ran.status), (f"messages {MANY_MESSAGES + 1} records {count} disclosed {count}\n", 0))
        self.assertTrue(pathlib.Path(path).read_bytes() == much_audited("removed 1:2"))
        self.assertTrue(messages.records(ran.output) == [((8, messages.address("192.0.2.77")), (1, (1500).to_bytes(4, "big")))] * count)


if __name__ == "__main__":
    unittest.main()
