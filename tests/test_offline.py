"""`ipmd offline`: what one subscriber gets of a stream, worked out by hand; streams that are none; and a subscription's cut."""
import errno
import os
import select
import struct
import subprocess
import time
import unittest
from typing import NamedTuple

import program
from runs import FLOW, FLOW_PASSED, FLOW_REPORT, LONGEST, NOW, OFFLINE, OFFLINE_HEX, PASS, WITHHOLD, Case, ProgramTest, failed, run

KEEP = "rule for * in * from * to * element * keep"


def policy(*lines):
    """A policy as a word."""
    return ";".join(["policy 1", *lines])


class Worked(NamedTuple):
    """A stream for acme in hexadecimal digits and blanks, and what must be written, audited and said of it."""

    name: str
    policy: str
    input: str
    output: str = ""
    audit: str = ""
    errors: str = FLOW_REPORT
    status: int = 0
    target: str = "1400"
    subscriber: str = "acme"


WITHHELD = "messages 1 records 1 disclosed 0\n"

# Messages of one record; the first in the first turn of a session, the second with Sequence Number 5, the third of domain 8.
FLOW_AT_5 = FLOW.replace("6553f100 00000000", "6553f100 00000005")
FLOW_OF_8 = FLOW.replace("00000007", "00000008")

# A message with a template of two source addresses, and a record of them; then the same with the addresses exchanged.
TWO_SOURCES = "000a002c 6553f100 00000000 00000007  00020010 01000002 00080004 00080004  0100000c c0000201 c6336401"
EXCHANGED = "000a002c 6553f100 00000000 00000007  00020010 01000002 00080004 00080004  0100000c c6336401 c0000201"

# A rule that permits needs both addresses inside, and one that denies needs one.
ONE_OUTSIDE = policy("rule for acme in * from 192.0.2.0/24 to * pass", KEEP)
ONE_INSIDE = policy("rule for acme in * from 198.51.100.0/24 to * withhold", "rule for * in * from * to * pass", KEEP)

NO_INTERFACE = policy(
    "rule for * in * from * to * pass", "rule for * in * from * to * element ingressInterface remove", KEEP
)

# A template of start, destination port, octets and packets, and one record of it.
ONE_START = (
    "000a0042 6553f100 00000000 00000007  00020018 01000004 00980008 000b0002 00010008 00020004"
    "  0100001a 0000018bcfe6eea0 01bb 0000000000000064 00000001"
)

# Starts in seconds and destination ports of two records, the first in the first second of 1970; then a start alone.
STARTS = (
    "000a0030 6553f100 00000000 00000007  00020010 01000002 00960004 000b0002  01000010 00000000 01bb 6553f100 0050"
    "  000a0024 6553f100 00000002 00000007  0002000c 01010001 00960004  01010008 6553f100"
)

# What goes to each port in five minutes, closed a minute after their end.
WEB = policy(
    "aggregate web key destinationTransportPort interval 300 grace 60",
    "rule for acme in * from * to * aggregate web",
)

# The same in the shortest intervals, closed at their end.
SHORTEST = policy(
    "aggregate web key destinationTransportPort interval 1 grace 0",
    "rule for acme in * from * to * aggregate web",
)

# Domain 8 is withheld from acme, and all else passes.
NOT_EIGHT = policy("rule for acme in 8 from * to * withhold", "rule for * in * from * to * pass", KEEP)

# Of 137 records, 136 fill a message of 1,400 octets; one octet more would not be taken.
RECORD = "c000024d01bb000005dc"
TEMPLATE = "00020014 01000003 00080004 00070002 00010004"

WORKED = [
    Worked("one record", PASS, FLOW, FLOW_PASSED),
    Worked("an empty input", PASS, "", errors="messages 0 records 0 disclosed 0\n"),
    Worked(
        "an empty message",
        PASS,
        "000a0010 6553f100 00000000 00000007",
        errors="messages 1 records 0 disclosed 0\n",
    ),
    Worked("cut off", PASS, FLOW[:-2], errors="ipmd: framing CutOff\n", status=1),
    Worked(
        "a bad version",
        PASS,
        "000a0010 6553f100 00000000 00000007  00090010",
        errors="ipmd: framing BadVersion\n",
        status=1,
    ),
    Worked("a bad length", PASS, "000a000f", errors="ipmd: framing BadLength\n", status=1),
    # What was accepted before a malformed message is written.
    Worked(
        "malformed: half a template's header",
        PASS,
        FLOW + "000a0014 6553f100 00000001 00000007 00020003",
        FLOW_PASSED,
        errors="ipmd: Malformed\n",
        status=1,
    ),
    Worked(
        "malformed: a short set",
        PASS,
        FLOW + "000a0014 6553f100 00000001 00000007 01000003",
        FLOW_PASSED,
        errors="ipmd: Malformed\n",
        status=1,
    ),
    Worked(
        "malformed: a template without its field",
        PASS,
        FLOW + "000a0018 6553f100 00000001 00000007 00020008 01000001",
        FLOW_PASSED,
        errors="ipmd: Malformed\n",
        status=1,
    ),
    # The first record of a refused message isn't accepted either: a template of interface names, and then a message of two
    # records, of which the second goes past its set.
    Worked(
        "malformed: a record past its set",
        PASS,
        "000a001c 6553f100 00000000 00000007  0002000c 01000001 0052ffff"
        "  000a0019 6553f100 00000000 00000007  01000009 0161 036263",
        errors="ipmd: Malformed\n",
        status=1,
    ),
    # What follows a gap is accepted, and the subscriber's numbers know nothing of it: its template is announced, and the
    # second record comes under number 1.
    Worked(
        "a gap in the sequence numbers",
        PASS,
        FLOW + FLOW_AT_5,
        FLOW_PASSED + "000a001e 6553f13c 00000001 00000000  0100000e c000024d 01bb 000005dc\n",
        errors="messages 2 records 2 disclosed 2\n",
    ),
    # What is withheld leaves no trace in what a subscriber gets: neither a number nor a template.
    Worked("isolation: one domain", NOT_EIGHT, FLOW, FLOW_PASSED),
    Worked(
        "isolation: two domains",
        NOT_EIGHT,
        FLOW_OF_8 + FLOW,
        FLOW_PASSED,
        "3 0 1 withheld 1 rule\n",
        "messages 2 records 2 disclosed 1\n",
    ),
    Worked("two addresses: one outside", ONE_OUTSIDE, TWO_SOURCES, "", "3 0 1 withheld 0 rule\n", WITHHELD),
    Worked("two addresses: one inside", ONE_INSIDE, TWO_SOURCES, "", "3 0 1 withheld 1 rule\n", WITHHELD),
    Worked("two addresses: one outside, exchanged", ONE_OUTSIDE, EXCHANGED, "", "3 0 1 withheld 0 rule\n", WITHHELD),
    Worked("two addresses: one inside, exchanged", ONE_INSIDE, EXCHANGED, "", "3 0 1 withheld 1 rule\n", WITHHELD),
    Worked(
        "the first rule decides: pass",
        policy("rule for * in * from * to * pass", "rule for * in * from * to * withhold", KEEP),
        FLOW,
        FLOW_PASSED,
    ),
    Worked(
        "the first rule decides: withhold",
        policy("rule for * in * from * to * withhold", "rule for * in * from * to * pass", KEEP),
        FLOW,
        "",
        "3 0 1 withheld 1 rule\n",
        WITHHELD,
    ),
    Worked(
        "nothing left: one field",
        policy("rule for * in * from * to * pass", "rule for * in * from * to * element protocolIdentifier remove", KEEP),
        "000a0025 6553f100 00000000 00000007  00020010 01000002 00520000 00040001  01000005 06",
        "",
        "3 0 1 withheld 2 empty\n",
        WITHHELD,
    ),
    Worked(
        "nothing left: nothing kept",
        policy("rule for * in * from * to * pass"),
        FLOW,
        "",
        "3 0 1 withheld 0 empty\n",
        WITHHELD,
    ),
    Worked(
        "the scope is lost: options",
        NO_INTERFACE,
        "000a002f 6553f100 00000000 00000007  00030012 01000002 0001 000a0004 0052ffff  0100000d 00000003 0465746830",
        "",
        "3 0 1 withheld 2 scope-lost\n",
        WITHHELD,
    ),
    Worked(
        "the scope is lost: a plain record has none",
        NO_INTERFACE,
        "000a002d 6553f100 00000000 00000007  00020010 01000002 000a0004 0052ffff  0100000d 00000003 0465746830",
        "000a0025 6553f13c 00000000 00000000  0002000c 01000001 0052ffff  01000009 0465746830\n",
        "3 0 1 removed 0:2\n",
    ),
    Worked(
        "truncate and remove",
        policy(
            "rule for * in * from * to * pass",
            "rule for * in * from * to * element sourceIPv4Address truncate 24",
            "rule for * in * from * to * element sourceTransportPort remove",
            KEEP,
        ),
        FLOW,
        "000a002c 6553f13c 00000000 00000000  00020010 01000002 00080004 00010004  0100000c c0000200 000005dc\n",
        "3 0 1 removed 1:3\n",
    ),
    # A start of 1700000399.999 is lowered to 1700000100.000, and the audit says nothing of it.
    Worked(
        "times that are degraded",
        "policy 2;rule for * in * from * to * pass;"
        "rule for * in * from * to * element flowStartMilliseconds degrade 300;" + KEEP,
        "000a002d 6553f100 00000000 00000007  00020010 01000002 00980008 00040001  0100000d 0000018bcfeb827f 06",
        "000a002d 6553f13c 00000000 00000000  00020010 01000002 00980008 00040001  0100000d 0000018bcfe6eea0 06\n",
    ),
    Worked(
        "a removed field is named",
        policy("rule for * in * from * to * pass", "rule for * in * from * to * element octetDeltaCount remove", KEEP),
        FLOW,
        "000a002a 6553f13c 00000000 00000000  00020010 01000002 00080004 00070002  0100000a c000024d 01bb\n",
        "3 0 1 removed 2:2\n",
    ),
    # The template of `FLOW` and two records, where one part fills a message.
    Worked(
        "a small target",
        PASS,
        f"000a003c 6553f100 00000000 00000007  {TEMPLATE}  01000018 c000024d 01bb 000005dc c000024e 01bb 000005dd",
        f"000a0024 6553f13c 00000000 00000000  {TEMPLATE}\n"
        "000a001e 6553f13c 00000000 00000000  0100000e c000024d 01bb 000005dc\n"
        "000a001e 6553f13c 00000001 00000000  0100000e c000024e 01bb 000005dd\n",
        errors="messages 1 records 2 disclosed 2\n",
        target="16",
    ),
    Worked(
        "withdraw and redefine",
        PASS,
        "000a003f 6553f100 00000000 00000007  0002000c 01000001 00040001  01000005 06"
        "  00020008 01000000  01000005 11  0002000c 01000001 003c0001  01000005 04",
        "000a0032 6553f13c 00000000 00000000  0002000c 01000001 00040001  01000005 06"
        "  0002000c 01010001 003c0001  01010005 04\n",
        errors="messages 1 records 2 disclosed 2\n",
    ),
    # Values of 0, 254, 255 and 3 octets, the last with its length in the long form, which becomes short.
    Worked(
        "lengths of values",
        PASS,
        "000a0228 6553f100 00000000 00000007  0002000c 01000001 0052ffff  0100020c"
        "00fe" + 254 * "2d" + "ff00ff" + 255 * "2e" + "ff0003616263",
        "000a0226 6553f13c 00000000 00000000  0002000c 01000001 0052ffff  0100020a"
        "00fe" + 254 * "2d" + "ff00ff" + 255 * "2e" + "03616263\n",
        errors="messages 1 records 4 disclosed 4\n",
    ),
    # Nothing closes, so nothing is written of what counts.
    Worked("aggregates: a record that counts", WEB, ONE_START, "", "3 0 1 aggregated 1\n", WITHHELD),
    Worked("aggregates: a record without a start", WEB, FLOW, "", "3 0 1 withheld 1 no-time\n", WITHHELD),
    Worked(
        "aggregates: none is late, and one without the key",
        SHORTEST,
        STARTS,
        "",
        "3 0 1 aggregated 1\n3 1 1 aggregated 1\n4 0 1 withheld 1 no-key\n",
        "messages 2 records 3 disclosed 0\n",
    ),
    Worked("a name that is none", PASS, FLOW, errors="ipmd: BadName\n", status=1, subscriber="Acme"),
    Worked("a name that is none, of an empty input", PASS, "", errors="ipmd: BadName\n", status=1, subscriber="Acme"),
    Worked(
        "a policy is judged before the name",
        "policy 3\n",
        FLOW,
        errors="ipmd: policy line 1: NoHeader\n",
        status=1,
        subscriber="Acme",
    ),
    Worked(
        "a policy with a fault",
        "policy 1;rule for a in * from 192.0.2.1/24 to * pass",
        "",
        errors="ipmd: policy line 2: BadPrefix\n",
        status=1,
    ),
    # Capitals, and white space of each kind.
    Worked(
        "digits as they come",
        PASS,
        "000A0032 6553F100\t00000000\r\n00000007 000200140100000300080004\n0007000200010004 0100000EC000024D01BB000005DC\n",
        FLOW_PASSED,
    ),
]

# The target that holds where none is given.
DEFAULT_TARGET = Case(
    "default target",
    [*OFFLINE_HEX, "--now", NOW],
    "000a0582 6553f100 00000000 00000007" + TEMPLATE + "0100055e" + 137 * RECORD,
    output=("000a0578 6553f13c 00000000 00000000" + TEMPLATE + "01000554").replace(" ", "")
    + 136 * RECORD
    + "\n000a001e6553f13c00000088000000000100000ec000024d01bb000005dc\n",
    errors="messages 1 records 137 disclosed 137\n",
)

BAD_VERSION = "ipmd: framing BadVersion\n"

# Another protocol or another form of the input.
MISUSE = [
    # The front of an export packet of NetFlow version 9 (RFC 3954): version, count, uptime, time, sequence, source.
    Case(
        "NetFlow version 9",
        OFFLINE,
        bytes.fromhex("00090001 00000001 6553f100 00000000 00000007  0000000c 01000001 00080004"),
        1,
        "",
        BAD_VERSION,
    ),
    # The front of a file that gzip made (RFC 1952).
    Case("a packed input", OFFLINE, bytes.fromhex("1f8b0800000000000003"), 1, "", BAD_VERSION),
    # A file that is shorter than the octets that tell a message's length.
    Case("two octets", OFFLINE, bytes.fromhex("1f8b"), 1, "", "ipmd: framing CutOff\n"),
    Case("hexadecimal read as octets", OFFLINE, FLOW, 1, "", BAD_VERSION),
    Case("octets read as hexadecimal", OFFLINE_HEX, bytes.fromhex(FLOW), 1, "", "ipmd: hex\n"),
]

# What comes first of two faults, and what is left in an audit file that held a text before. The policy's file comes before the
# audit file, which is made empty; then the input is read, and then the policy.
ORDER = [
    ("no policy's file", ["--policy", "/nowhere/policy"], "0g", failed("/nowhere/policy", errno.ENOENT), "before\n"),
    ("no digits", ["--policy-text", "no policy"], "0g", "ipmd: hex\n", ""),
    ("half an octet", ["--policy-text", "no policy"], "000", "ipmd: hex\n", ""),
    ("no policy", ["--policy-text", "no policy"], "00", "ipmd: policy line 1: NoHeader\n", ""),
    ("no message", ["--policy-text", PASS], "00", "ipmd: framing CutOff\n", ""),
    ("none, and nothing is kept back", ["--policy-text", PASS], FLOW, FLOW_REPORT, ""),
    ("none, and a record is kept back", ["--policy-text", WITHHOLD], FLOW, WITHHELD, "3 0 1 withheld 1 rule\n"),
]

# How many layouts a message brings, and how many messages bring 65,280, as many as there are Template IDs from 256 on
# (RFC 7011, section 3.4.1).
LAYOUTS = 2040
MESSAGES = 32


def layouts_message(first, count):
    """A message that brings so many layouts, from this one on: each one field of an enterprise, under template ID 256 in turn."""
    content = b""
    for layout in range(first, first + count):
        field = struct.pack("!HHI", 32768 + layout % 32768, 1, 1 + layout // 32768)
        content += bytes.fromhex("0002001001000001") + field + bytes.fromhex("010000052a")
    return struct.pack("!HHIII", 10, 16 + len(content), 0, 0, 0) + content


# Two messages behind the first.
FLOW_AT_1, FLOW_AT_2 = (FLOW.replace("6553f100 00000000", f"6553f100 0000000{before}") for before in (1, 2))

# How long a message may take, in seconds, and how long none comes, so that who waits for one sleeps.
SOON = 20
REST = 0.2


def read_soon(stream, count):
    """The next octets of a stream, as many as are asked for, or fewer where they don't come."""
    found = b""
    while len(found) < count and select.select([stream], [], [], SOON)[0]:
        piece = os.read(stream.fileno(), count - len(found))
        if not piece:
            break
        found += piece
    return found


class Offline(ProgramTest):
    def test_worked(self):
        """Each stream, in digits and as octets, with an audit and without."""
        for case in WORKED:
            words = ["offline", "--policy-text", case.policy, "--subscriber", case.subscriber, "--now", NOW]
            words += ["--target", case.target]
            lines = case.output.replace(" ", "")
            with self.subTest(case.name, form="digits"):
                audit = self.file("audit.txt")
                ran = run([*words, "--audit", audit, "--hex"], case.input)
                self.expect_ran(ran, case.status, lines, case.errors)
                self.expect_file(audit, case.audit)
            with self.subTest(case.name, form="octets"):
                audit = self.file("audit.txt")
                given, written = bytes.fromhex(case.input), bytes.fromhex(lines)
                ran = run([*words, "--audit", audit], given)
                self.expect_ran(ran, case.status, written, case.errors)
                self.expect_file(audit, case.audit)
                self.expect_ran(run(words, given), case.status, written, case.errors)

    def test_default_target(self):
        self.expect(DEFAULT_TARGET)

    def test_fronts(self):
        """Each front of a message is cut off, and nothing is written of it."""
        message = bytes.fromhex(FLOW)
        for length in range(1, len(message)):
            with self.subTest(length=length):
                self.expect_ran(run(OFFLINE, message[:length]), 1, b"", "ipmd: framing CutOff\n")

    def test_as_it_comes(self):
        """What a message discloses is written before more comes, also when none came for a while."""
        words = [*OFFLINE, "--now", NOW]
        given = [bytes.fromhex(text) for text in (FLOW, FLOW_AT_1, FLOW_AT_2)]
        wholes = [run(words, b"".join(given[: count + 1])).output for count in range(len(given))]
        self.assertEqual(wholes[0], bytes.fromhex(FLOW_PASSED))
        streams = {"stdin": subprocess.PIPE, "stdout": subprocess.PIPE, "stderr": subprocess.PIPE, "bufsize": 0}
        with subprocess.Popen([program.path(), *words], **streams) as child:
            written = b""
            for message, whole in zip(given, wholes):
                child.stdin.write(message)
                written += read_soon(child.stdout, len(whole) - len(written))
                self.assertEqual(written, whole)
                time.sleep(REST)
            child.stdin.close()
            self.assertEqual(child.stdout.read(), b"")
            self.assertEqual(child.stderr.read(), b"messages 3 records 3 disclosed 3\n")
            self.assertEqual(child.wait(LONGEST), 0)

    def test_misuse(self):
        self.expect_all(MISUSE)

    def test_order_of_faults(self):
        for name, source, given, errors, left in ORDER:
            with self.subTest(name):
                audit = self.file("audit.txt", "before\n")
                ran = run(["offline", *source, "--subscriber", "acme", "--audit", audit, "--hex"], given)
                self.assertEqual(ran.errors, errors)
                self.expect_file(audit, left)

    def test_cut(self):
        """All layouts that there may be are taken, and one more is not. The cut stands in the journal before the message that
        would have brought it, after an edit, a subscription, an opened session and 32 messages."""
        stream = b"".join(layouts_message(number * LAYOUTS, LAYOUTS) for number in range(MESSAGES))
        audit = self.file("audit.txt")
        whole = run([*OFFLINE, "--audit", audit], stream)
        self.assertEqual((whole.errors, whole.status), ("messages 32 records 65280 disclosed 65280\n", 0))
        cut = run([*OFFLINE, "--audit", audit], stream + layouts_message(MESSAGES * LAYOUTS, 1))
        self.assertEqual((cut.errors, cut.status), ("ipmd: Cut\n", 1))
        self.assertTrue(cut.output == whole.output)
        self.expect_file(audit, "35 0 1 cut\n")


if __name__ == "__main__":
    unittest.main()
