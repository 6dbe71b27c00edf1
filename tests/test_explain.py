"""`ipmd explain`: what a subscription saw of each record of a journal, and by which rules, worked out by hand."""
import errno
import pathlib
import socket
import subprocess
import unittest

import program
from journals import PASS, WITHHOLD, advance, closed, cut, edit, file_of, message, opened, subscribe, unsubscribe
from messages import FLOW, Template, address, flow_message
from messages import message as flows
from runs import LONGEST, ProgramTest, failed, run

EXAMPLES = pathlib.Path(__file__).resolve().parent.parent / "examples"

# A flow with addresses and ports, of either family.
ENDS = Template(256, ((8, 4), (12, 4), (7, 2), (11, 2)))
LONG_ENDS = Template(257, ((27, 16), (28, 16), (7, 2), (11, 1)))

# A flow that starts at 1700000100.000.
STARTS = Template(258, ((152, 8), (11, 2)))
LATE = """policy 1
aggregate web key destinationTransportPort interval 300 grace 60
rule for acme in * from * to * aggregate web
"""

# A policy of its own for each of three messages; a subscription comes late, and another is cut.
CHANGES = (
    edit(PASS),
    subscribe(1, "acme"),
    opened(1),
    message(1, 0, flow_message(0)),
    edit(WITHHOLD),
    message(1, 1, flows(1, FLOW.data(FLOW.record(address("192.0.2.77"), 1, 1500)))),
    subscribe(2, "beta"),
    edit("policy 1\nrule for beta in * from * to * pass\nrule for * in * from * to * element octetDeltaCount keep\n"),
    message(1, 2, flows(2, FLOW.data(*(FLOW.record(address("192.0.2.77"), port, 1500) for port in (1, 2))))),
    cut(2),
    message(1, 3, flows(4, FLOW.data(FLOW.record(address("192.0.2.77"), 3, 1500)))),
    unsubscribe(1),
    closed(1),
)


def messages_in(name):
    """The messages of an example's stream."""
    stream = bytes.fromhex("".join((EXAMPLES / name).read_text().split()))
    found = []
    while stream:
        length = int.from_bytes(stream[2:4], "big")
        found.append(stream[:length])
        stream = stream[length:]
    return found


def journal_of(policy, name, stream):
    """The journal of an example's policy and stream, with one subscription of this name; the first message stands at 3."""
    brought = [message(1, number, one) for number, one in enumerate(messages_in(stream))]
    return file_of(edit((EXAMPLES / policy / "policy.txt").read_text()), subscribe(1, name), opened(1), *brought)


# The fields of the records of examples, in their order.
FLOWS = ("sourceIPv4Address", "destinationIPv4Address", "sourceTransportPort", "destinationTransportPort", "protocolIdentifier", "octetDeltaCount")
STARTED = ("protocolIdentifier", "destinationTransportPort", "packetDeltaCount", "octetDeltaCount")
SHORT = ("sourceIPv4Address", "sourceTransportPort", "octetDeltaCount")


def kept(rule, *names):
    """What is said of fields that one rule keeps."""
    return "".join(f"; {name} kept by rule {rule}" for name in names)


def lines(*said):
    """The lines of records, each its position, its index and what is said of it."""
    return "".join(f"position {position} index {index}: {words}\n" for position, index, words in said)


class Explain(ProgramTest):
    def explain(self, content, sub, *words):
        """What a run on a file of this content leaves."""
        return run(["explain", "--journal", self.file("run.journal", content), "--sub", str(sub), *words])

    def expect_said(self, content, sub, said, *words):
        self.expect_ran(self.explain(content, sub, *words), 0, lines(*said), "")

    def expect_refused(self, content, sub, fault, *words):
        self.expect_ran(self.explain(content, sub, *words), 1, "", f"ipmd: journal {fault}\n")

    def test_passing(self):
        """What becomes of the fields of records that pass, and which rule says so."""
        inward = "192.0.2.77:49153 -> 198.51.100.9:443; rule 2 passes it; "
        self.expect_said(journal_of("customer", "acme", "flows.hex"), 1, (
            (3, 0, inward + "sourceIPv4Address cut to 24 bits by rule 5; destinationIPv4Address kept by rule 4; "
             "sourceTransportPort removed by rule 7" + kept(8, *FLOWS[3:])),
            (3, 1, "192.0.2.78:49154 -> 203.0.113.5:53; withheld, no rule matches it"),
            (4, 0, "198.51.100.16:80 -> 192.0.3.5:54321; rule 1 passes it; sourceIPv4Address kept by rule 3; "
             "destinationIPv4Address cut to 24 bits by rule 6" + kept(8, *FLOWS[2:])),
        ))
        self.expect_said(journal_of("everything", "acme", "flows.hex"), 1, (
            (3, 0, "192.0.2.77:49153 -> 198.51.100.9:443; rule 1 passes it" + kept(2, *FLOWS)),
            (3, 1, "192.0.2.78:49154 -> 203.0.113.5:53; rule 1 passes it" + kept(2, *FLOWS)),
            (4, 0, "198.51.100.16:80 -> 192.0.3.5:54321; rule 1 passes it" + kept(2, *FLOWS)),
        ))
        self.expect_said(journal_of("research", "research", "two-domains.hex"), 1, (
            (3, 0, "198.51.100.23:50000 -> 203.0.113.80:443; rule 1 passes it; flowStartSeconds kept by rule 4; "
             "sourceIPv4Address cut to 16 bits by rule 2; "
             "destinationIPv4Address cut to 16 bits by rule 3; sourceTransportPort removed, no rule matches it; "
             "destinationTransportPort removed, no rule matches it; "
             "protocolIdentifier kept by rule 5; octetDeltaCount kept by rule 6"),
            (4, 0, "withheld, no rule matches it"),
        ))
        coarse = "sourceIPv4Address cut to 24 bits by rule 6; destinationIPv4Address cut to 24 bits by rule 7"
        lowered = "lowered to a multiple of 300 seconds by rule"
        self.expect_said(journal_of("coarse-times", "research", "starts.hex"), 1, (
            *((3, index, f"rule 1 passes it; flowStartMilliseconds {lowered} 2; {coarse}{kept(8, *STARTED)}") for index in range(3)),
            (4, 0, f"rule 1 passes it; flowStartSeconds {lowered} 4; {coarse}{kept(8, 'protocolIdentifier', 'octetDeltaCount')}"),
            (4, 1, f"rule 1 passes it; {coarse}{kept(8, 'protocolIdentifier', 'destinationTransportPort', 'octetDeltaCount')}"),
        ))

    def test_withheld(self):
        """Why a record is withheld: by a rule, for a lost scope field, or since nothing is left."""
        self.expect_said(journal_of("first-match", "acme", "flows.hex"), 1, (
            (3, 0, "192.0.2.77:49153 -> 198.51.100.9:443; withheld by rule 1"),
            (3, 1, "192.0.2.78:49154 -> 203.0.113.5:53; withheld by rule 1"),
            (4, 0, "198.51.100.16:80 -> 192.0.3.5:54321; rule 2 passes it" + kept(6, *FLOWS[:2]) + kept(4, FLOWS[2]) + kept(6, *FLOWS[3:])),
        ))
        lost = "rule 1 passes it; ingressInterface removed by rule 2; interfaceName removed by rule 4; "
        lost += "withheld, since a scope field is removed by rule 2"
        cut_down = "rule 1 passes it; ingressInterface removed by rule 2; sourceIPv4Address cut to 24 bits by rule 7; "
        cut_down += "destinationIPv4Address cut to 24 bits by rule 8; octetDeltaCount kept by rule 12"
        self.expect_said(journal_of("peer", "peer", "interfaces.hex"), 1, ((3, 0, lost), (3, 1, lost), (3, 2, cut_down)))
        others = ("destinationIPv4Address", "sourceTransportPort", "destinationTransportPort", "protocolIdentifier", "octetDeltaCount")
        removed = "".join(f"; {name} removed, no rule matches it" for name in others)
        nothing = f"rule 1 passes it; sourceIPv4Address removed by rule 2{removed}; withheld, since all is removed by rule 2"
        self.expect_said(journal_of("nothing-left", "acme", "flows.hex"), 1, (
            (3, 0, f"192.0.2.77:49153 -> 198.51.100.9:443; {nothing}"),
            (3, 1, f"192.0.2.78:49154 -> 203.0.113.5:53; {nothing}"),
            (4, 0, f"198.51.100.16:80 -> 192.0.3.5:54321; {nothing}"),
        ))

    def test_counted(self):
        """Which records count in an aggregate, and why others don't."""
        counts = "counted in the aggregate services by rule 3"
        self.expect_said(journal_of("aggregate", "acme", "starts.hex"), 1, (
            (3, 0, counts),
            (3, 1, "rule 2 passes it" + kept(4, "flowStartMilliseconds", "sourceIPv4Address", "destinationIPv4Address", *STARTED)),
            (3, 2, counts),
            (4, 0, "withheld by rule 3: the aggregate services finds no key in it"),
            (4, 1, "withheld by rule 3: the aggregate services finds no time in it"),
        ))
        begins = (edit(LATE), subscribe(1, "acme"), opened(1))
        one = message(1, 0, flows(0, STARTS.octets(), STARTS.data(STARTS.record(1700000100000, 443))))
        self.expect_said(file_of(*begins, advance(1700000459999), one), 1, ((4, 0, "counted in the aggregate web by rule 1"),))
        self.expect_said(file_of(*begins, advance(1700000460000), one), 1, (
            (4, 0, "withheld by rule 1: it is late for the aggregate web"),
        ))

    def test_in_force(self):
        """Each record is judged by the policy of its own time, and only while the subscription is served."""
        content = file_of(*CHANGES)
        self.expect_said(content, 1, (
            (3, 0, "rule 1 passes it" + kept(2, *SHORT)),
            (5, 0, "withheld by rule 1"),
            (8, 0, "withheld, no rule matches it"),
            (8, 1, "withheld, no rule matches it"),
            (10, 0, "withheld, no rule matches it"),
        ))
        removed = "sourceIPv4Address removed, no rule matches it; sourceTransportPort removed, no rule matches it"
        seen = f"rule 1 passes it; {removed}; octetDeltaCount kept by rule 2"
        self.expect_said(content, 2, ((8, 0, seen), (8, 1, seen)))

    def test_named(self):
        """One message or one record is asked for."""
        content = file_of(*CHANGES)
        withheld = "withheld, no rule matches it"
        self.expect_said(content, 1, ((8, 0, withheld), (8, 1, withheld)), "--position", "8")
        self.expect_said(content, 1, ((8, 1, withheld),), "--position", "8", "--index", "1")
        self.expect_said(content, 1, ((8, 1, withheld),), "--index", "1")
        self.expect_said(content, 2, (), "--position", "3")
        self.expect_said(content, 2, (), "--position", "10", "--index", "0")

    def test_absent(self):
        """What is asked for and isn't there is named: the subscription first, and then the message, and then the record."""
        content = file_of(*CHANGES)
        self.expect_refused(content, 3, "NoSubscription 3")
        self.expect_refused(content, 0, "NoSubscription 0")
        self.expect_refused(content, 3, "NoSubscription 3", "--position", "4")
        self.expect_refused(content, 1, "NoMessage 4", "--position", "4", "--index", "7")
        self.expect_refused(content, 1, "NoMessage 13", "--position", "13")
        self.expect_refused(content, 1, "NoRecord 8 2", "--position", "8", "--index", "2")
        self.expect_refused(file_of(), 1, "NoSubscription 1")

    def test_flows(self):
        """Where from and to a flow goes stands there with both addresses and both ports alone, in their usual lengths."""
        begins = (edit(PASS), subscribe(1, "acme"), opened(1))
        source, destination = socket.inet_pton(socket.AF_INET6, "2001:db8:1:2::1"), socket.inet_pton(socket.AF_INET6, "ff02::fb")
        long_end = LONG_ENDS.record(source, destination, 5353, 53)
        self.expect_said(
            file_of(*begins, message(1, 0, flows(0, LONG_ENDS.octets(), LONG_ENDS.data(long_end)))),
            1,
            ((3, 0, "[2001:db8:1:2:0:0:0:1]:5353 -> [ff02:0:0:0:0:0:0:fb]:53; rule 1 passes it"
              + kept(2, "sourceIPv6Address", "destinationIPv6Address", *FLOWS[2:4])),),
        )
        end = ENDS.record(address("0.0.0.0"), address("255.255.255.255"), 0, 65535)
        self.expect_said(
            file_of(*begins, message(1, 0, flows(0, ENDS.octets(), ENDS.data(end)))),
            1,
            ((3, 0, "0.0.0.0:0 -> 255.255.255.255:65535; rule 1 passes it" + kept(2, *FLOWS[:4])),),
        )

    def test_refused(self):
        """A file that is none, or whose history is bad, is refused as it is by `ipmd verify`, and nothing is written."""
        whole = file_of(*CHANGES)
        self.expect_refused(whole[:-1], 1, "Truncated")
        self.expect_refused(whole + b"\0", 1, "BadEntry")
        self.expect_refused(file_of(*CHANGES, magic=b"IPMK"), 1, "BadMagic")
        self.expect_refused(file_of(*CHANGES, closed(1)), 1, f"BadHistory {len(CHANGES)}")
        self.expect_refused(file_of(*CHANGES[:10]), 1, "BadHistory 9")
        self.expect_refused(file_of(opened(2)), 1, "BadHistory 0")
        missing = self.file("missing")
        self.expect_ran(run(["explain", "--journal", missing, "--sub", "1"]), 3, "", failed(missing, errno.ENOENT))
        words = [program.path(), "explain", "--journal", self.file("run.journal", whole), "--sub", "1"]
        with open("/dev/full", "wb") as full:
            ran = subprocess.run(words, stdout=full, stderr=subprocess.PIPE, timeout=LONGEST)
        self.assertEqual((ran.returncode, ran.stderr.decode()), (3, failed("standard output", errno.ENOSPC)))


if __name__ == "__main__":
    unittest.main()
