"""Others' tools and `ipmd serve` understand each other: softflowd and python3-ipfix export, python3-ipfix collects, and
libfixbuf's ipfixDump and tshark read files of what collectors are sent. Where a tool isn't installed its test is skipped.
Debian's packages are softflowd, python3-ipfix, libfixbuf-tools and tshark."""
import functools
import json
import os
import shutil
import subprocess
import sys
import unittest

import capture
import program
from messages import Template, address, message, records
from peers import HOST
from serving import ServeTest

POLICY = (program.TOP / "examples" / "serve" / "policy.txt").read_text(encoding="utf-8")
SUBSCRIBERS = ("acme", "beta", "peer")

# How many seconds a tool may take.
PATIENCE = 60

# Of each packet: source, destination, protocol, ports, octets of payload, TCP's flags.
PACKETS = [
    ("192.0.2.77", "198.51.100.9", capture.TCP, 49153, 443, 100, 2),
    ("192.0.2.77", "198.51.100.9", capture.TCP, 49153, 443, 1000, 16),
    ("192.0.2.78", "203.0.113.5", capture.UDP, 49154, 53, 50, 0),
    ("198.51.100.16", "192.0.3.5", capture.TCP, 80, 54321, 900, 16),
]
CAPTURED = 1700000000

# The flows that they are: an IPv4 header has 20 octets, TCP's 20, UDP's 8. Addresses, ports, protocol, octets, packets.
FLOWS = [
    ("192.0.2.77", "198.51.100.9", 49153, 443, 6, 1180, 2),
    ("192.0.2.78", "203.0.113.5", 49154, 53, 17, 78, 1),
    ("198.51.100.16", "192.0.3.5", 80, 54321, 6, 940, 1),
]

# What the policy discloses of them.
DISCLOSED = {
    "acme": [
        ("192.0.2.0", "198.51.100.9", 49153, 443, 6, 1180, 2),
        ("198.51.100.16", "192.0.3.0", 80, 54321, 6, 940, 1),
    ],
    "beta": [("192.0.2.0", "203.0.113.5", 49154, 53, 17, 78, 1)],
}

# The interval of five minutes in which the flows begin, and the sums of each service in it: protocol, port, the interval, octets,
# packets, flows.
INTERVAL = (1699999800000, 1700000100000)
SUMS = [(6, 443, *INTERVAL, 1180, 2, 1), (6, 54321, *INTERVAL, 940, 1, 1), (17, 53, *INTERVAL, 78, 1, 1)]

# A flow's elements, in the order of its values above, and the templates of a flow and of a sum.
ELEMENTS = (8, 12, 7, 11, 4, 1, 2)
FLOW = Template(256, ((8, 4), (12, 4), (7, 2), (11, 2), (4, 1), (1, 8), (2, 8), (152, 8)))
SUM = Template(256, ((4, 1), (11, 2), (152, 8), (153, 8), (1, 8), (2, 8), (3, 8)))

NAMES = [
    "sourceIPv4Address", "destinationIPv4Address", "sourceTransportPort", "destinationTransportPort",
    "protocolIdentifier", "octetDeltaCount", "packetDeltaCount",
]
SUM_NAMES = ["protocolIdentifier", "destinationTransportPort", "octetDeltaCount", "packetDeltaCount", "deltaFlowCount"]

# A collector on python3-ipfix: prints its port, and then the values of these elements in each record.
COLLECTOR = """
import json, socket, sys
import ipfix.ie, ipfix.reader
ipfix.ie.use_iana_default()
with socket.create_server(("127.0.0.1", 0)) as listener:
    listener.settimeout(60)
    print(listener.getsockname()[1], flush=True)
    stream = listener.accept()[0].makefile("rb")
for record in ipfix.reader.from_stream(stream).namedict_iterator():
    values = (record[name] for name in sys.argv[1:])
    print(json.dumps([one if isinstance(one, int) else str(one) for one in values]))
"""

# An exporter on python3-ipfix: sends these flows to this port, in messages of up to 150 octets.
EXPORTER = """
import ipaddress, json, socket, sys
import ipfix.ie, ipfix.template, ipfix.writer
ipfix.ie.use_iana_default()
names = sys.argv[3:]
with socket.create_connection(("127.0.0.1", int(sys.argv[1])), 15) as stream, stream.makefile("wb") as file:
    writer = ipfix.writer.to_stream(file, mtu=150)
    writer.set_domain(7)
    writer.add_template(ipfix.template.from_ielist(256, ipfix.ie.spec_list(names)))
    writer.set_export_template(256)
    for flow in json.loads(sys.argv[2]):
        values = [ipaddress.ip_address(one) if isinstance(one, str) else one for one in flow]
        writer.export_namedict(dict(zip(names, values)))
    writer.flush()
"""


def tool(name):
    """The path of a tool, where it is installed. Debian has softflowd where an administrator's programs lie."""
    return shutil.which(name, path=os.environ.get("PATH", "") + ":/usr/sbin")


@functools.cache
def python_with_ipfix():
    """A python3 that has python3-ipfix; Debian's package is for the system's own."""
    for python in (sys.executable, "/usr/bin/python3"):
        words = [python, "-c", "import ipfix.reader"]
        if shutil.which(python) and subprocess.run(words, capture_output=True, check=False).returncode == 0:
            return python
    return None


def said_by(*words, cwd=None):
    """What a tool says on standard output."""
    done = subprocess.run(words, cwd=cwd, check=True, capture_output=True, text=True, timeout=PATIENCE)
    return done.stdout


def flow_of(record):
    """A flow as a tuple of its values, in the order of ELEMENTS."""
    values = dict(record)
    addresses = [".".join(map(str, values[element])) for element in ELEMENTS[:2]]
    return (*addresses, *(int.from_bytes(values[element], "big") for element in ELEMENTS[2:]))


def dumped(path, names):
    """The values of these elements in each record that ipfixDump finds in a file, as it prints them."""
    found = []
    for part in said_by(tool("ipfixDump"), "--in", path, "--data").split("--- data record ")[1:]:
        lines = (line.split(" : ") for line in part.splitlines() if " : " in line)
        values = {element.split()[1]: value.strip() for element, value in lines}
        found.append(tuple(values[name] for name in names))
    return found


def send_flows(test, run):
    """An exporter sends the flows, and the administrator closes their interval."""
    admin, exporter = run.admin(), run.exporter()
    octets = [FLOW.record(address(one[0]), address(one[1]), *one[2:], CAPTURED * 1000) for one in FLOWS]
    exporter.send(message(0, FLOW.octets(), FLOW.data(*octets)))
    exporter.close()
    run.wait_for_note(" ended: messages 1 records 3 gaps 0\n")
    test.assertEqual(admin.ask("advance 1700000160000"), "ok")
    admin.close()


class Exporting(ServeTest):
    @unittest.skipUnless(tool("softflowd"), "softflowd isn't installed")
    def test_softflowd(self):
        """softflowd exports the flows of a capture: each subscriber gets what the policy discloses of them."""
        run = self.start(POLICY, subscribers=SUBSCRIBERS)
        collectors = {name: run.collector(name) for name in SUBSCRIBERS}
        admin = run.admin()
        capture.write(run.path("flows.pcap"), PACKETS, CAPTURED)
        target = run.settings["exporters"]
        # It has no control socket: with one, softflowd 1.1.0 may wait there for good where it reads a capture.
        words = ["-r", "flows.pcap", "-v", "10", "-P", "tcp", "-n", target, "-A", "milli", "-d", "-c", "none", "-p", "process"]
        said_by(tool("softflowd"), *words, cwd=run.folder.name)
        # Beside the three flows it exports a record of an Options Template, about itself, which the policy shows to nobody.
        run.wait_for_note(" ended: messages 1 records 4 gaps 0\n")
        self.assertEqual(admin.ask("advance 1700000160000"), "ok")
        admin.close()
        got = {name: records(collector.take_all()) for name, collector in collectors.items()}
        for name, flows in DISCLOSED.items():
            self.assertEqual(sorted(map(flow_of, got[name])), sorted(flows), name)
        self.assertEqual(got["peer"], [SUM.seen(*one) for one in SUMS])
        self.assertTrue(run.end().output.endswith(" handed 6\n"))

    @unittest.skipUnless(python_with_ipfix(), "python3-ipfix isn't installed")
    def test_python_exporter(self):
        """An exporter on python3-ipfix sends the flows in several messages: each subscriber gets what the policy discloses."""
        run = self.start(POLICY, subscribers=("acme", "beta"))
        collectors = {name: run.collector(name) for name in DISCLOSED}
        run.admin().close()
        flows = json.dumps(3 * FLOWS)
        said_by(python_with_ipfix(), "-c", EXPORTER, str(run.ports["exporters"]), flows, *NAMES)
        for name, due in DISCLOSED.items():
            self.assertEqual(list(map(flow_of, records(collectors[name].take_all()))), 3 * due, name)
        self.assertRegex(run.end().notes, r" ended: messages [3-9] records 9 gaps 0\n")


class Collecting(ServeTest):
    def start_collector(self, names):
        """A collector on python3-ipfix, and its port."""
        words = [python_with_ipfix(), "-c", COLLECTOR, *names]
        collector = subprocess.Popen(words, stdout=subprocess.PIPE, text=True)
        self.addCleanup(collector.stdout.close)
        self.addCleanup(collector.wait)
        self.addCleanup(collector.kill)
        return collector, int(collector.stdout.readline())

    @unittest.skipUnless(python_with_ipfix(), "python3-ipfix isn't installed")
    def test_python_collectors(self):
        """Collectors on python3-ipfix take over their connections what was disclosed, flows and sums, and no more."""
        names = {"acme": NAMES, "beta": NAMES, "peer": SUM_NAMES}
        collectors = {name: self.start_collector(elements) for name, elements in names.items()}
        deliver = {name: f"{HOST}:{port}" for name, (_, port) in collectors.items()}
        run = self.start(POLICY, subscribers=(), deliver=deliver)
        send_flows(self, run)
        self.expect_served(run, 1, 6)
        sums = [(*one[:2], *one[4:]) for one in SUMS]
        for name, due in (DISCLOSED | {"peer": sums}).items():
            said, _ = collectors[name][0].communicate(timeout=PATIENCE)
            self.assertEqual([tuple(json.loads(line)) for line in said.splitlines()], due, name)


class Reading(ServeTest):
    """What tools read in files of the octets that collectors are sent."""

    def setUp(self):
        run = self.run_ = self.start(POLICY, subscribers=SUBSCRIBERS)
        collectors = {name: run.collector(name) for name in SUBSCRIBERS}
        send_flows(self, run)
        for name, collector in collectors.items():
            with open(self.file(name), "wb") as file:
                file.write(collector.take_all())
        self.expect_served(run, 1, 6)

    def file(self, name):
        """The file of what a collector was sent."""
        return os.path.join(self.run_.folder.name, name + ".ipfix")

    @unittest.skipUnless(tool("ipfixDump"), "ipfixDump isn't installed")
    def test_ipfixdump(self):
        """libfixbuf's ipfixDump reads the records that were disclosed, and no others."""
        for name, flows in DISCLOSED.items():
            self.assertEqual(dumped(self.file(name), NAMES), [tuple(map(str, flow)) for flow in flows], name)
        sums = [(*map(str, one[:2]), *map(str, one[4:])) for one in SUMS]
        self.assertEqual(dumped(self.file("peer"), SUM_NAMES), sums)

    @unittest.skipUnless(tool("tshark"), "tshark isn't installed")
    def test_tshark(self):
        """tshark reads the records that were disclosed, and no others."""
        fields = ("srcaddr", "dstaddr", "srcport", "dstport", "protocol", "octets", "packets")
        asked = [word for field in fields for word in ("-e", "cflow." + field)]
        for name, flows in DISCLOSED.items():
            said = said_by(tool("tshark"), "-r", self.file(name), "-T", "fields", "-E", "aggregator=,", *asked)
            found = []
            for line in said.splitlines():
                columns = [column.split(",") for column in line.split("\t")]
                found += [(row[0], row[1], *map(int, row[2:])) for row in zip(*columns)]
            self.assertEqual(found, flows, name)


if __name__ == "__main__":
    unittest.main()
