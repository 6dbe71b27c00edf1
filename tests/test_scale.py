"""The operator's example of several mediators, examples/scale: HAProxy spreads exporters over three, a fourth adds up what they pass on,
`edit-all` and `audit-all` go through all. What HAProxy does is skipped where it isn't installed (Debian's package haproxy)."""
import collections
import contextlib
import os
import pathlib
import random
import re
import shutil
import subprocess
import tempfile
import time
import tomllib
import unittest

import program
from messages import Template, address, flow_message, message, records
from peers import Listener, free_port, reach, wait_until
from serving import SCRIPTS, ServeTest

SCALE = program.TOP / "examples" / "scale"
NAMES = ("first", "second", "third")
HAPROXY = shutil.which("haproxy", path=os.environ.get("PATH", "") + ":/usr/sbin")

# Of a file of settings, what a run of these tests chooses for itself.
CHOSEN = ("exporters", "admin", "policy", "journal", "deliver")

# The policy by which one mediator does the same.
SERVED = (SCRIPTS / "policy.txt").read_text(encoding="utf-8")

# How many seconds a script may take.
PATIENCE = 60

# Nothing is disclosed.
DENY = "policy 1\n"

EXPORTERS = 9
MESSAGES = 20
BURST = 8

# Flows as exporters tell them: with a start in milliseconds or in seconds, without one, and without a port.
BEGIN, INTERVAL, INTERVALS = 1700000100, 300, 3
FLOW = Template(256, ((152, 8), (8, 4), (12, 4), (7, 2), (11, 2), (4, 1), (2, 4), (1, 8)))
COUNTED = Template(257, ((150, 4), (8, 4), (12, 4), (11, 2), (4, 1), (1, 4), (3, 4)))
TIMELESS = Template(258, ((8, 4), (12, 4), (11, 2), (4, 1), (1, 4)))
PING = Template(259, ((152, 8), (8, 4), (12, 4), (4, 1), (1, 4)))
TEMPLATES = (FLOW, COUNTED, TIMELESS, PING)

# The clock, in milliseconds, when all intervals are closed with every grace behind them.
CLOSED = 1000 * (BEGIN + INTERVALS * INTERVAL + 3600)


def text_of(name):
    return (SCALE / name).read_text(encoding="utf-8")


def settings_of(name):
    """The example's settings of a mediator."""
    return tomllib.loads(text_of(f"{name}.toml"))


def roomy_of(name):
    """The same without what a run chooses for itself."""
    return {key: value for key, value in settings_of(name).items() if key not in CHOSEN}


def values_of(chance, template):
    """The values of a flow, by chance."""
    one = {
        152: 1000 * BEGIN + chance.randrange(1000 * INTERVAL * INTERVALS),
        150: BEGIN + chance.randrange(INTERVAL * INTERVALS),
        7: chance.randrange(1024, 65536),
        11: chance.choice((53, 80, 443, 8080)),
        4: chance.choice((6, 17)),
        1: chance.randrange(40, 1 << 20),
        2: chance.randrange(1, 1000),
        3: chance.randrange(1, 10),
    }
    for element in (8, 12):
        one[element] = address(f"{chance.choice(('198.51.100', '203.0.113', '192.0.2'))}.{chance.randrange(256)}")
    return [one[element] for element, _ in template.fields]


def messages_of(place):
    """The messages of an exporter, each of which has flows of one layout; the same whenever it is asked."""
    chance, found, told = random.Random(place), [], set()
    for n in range(MESSAGES):
        template = chance.choice(TEMPLATES)
        sets = [] if template in told else [template.octets()]
        told.add(template)
        flows = [template.record(*values_of(chance, template)) for _ in range(BURST)]
        found.append(message(n * BURST, *sets, template.data(*flows), domain=100 + place))
    return found


def connected(run):
    """The ports from which exporters have connected to a run, as its notes have them."""
    return re.findall(r"\] exporter \S+:(\d+) connected\b", run.notes())


def counted(streams):
    """How often each record stands in these streams."""
    return collections.Counter(record for stream in streams for record in records(stream))


class Files(unittest.TestCase):
    def test_agree(self):
        """The mediators' settings differ in names and ports alone, and the addresses in all files fit each other."""
        first = text_of("first.toml")
        for place, name in enumerate(NAMES, 1):
            wanted = first.replace("first", name).replace(":4731", f":473{place}").replace(":4751", f":475{place}")
            self.assertEqual(text_of(f"{name}.toml"), wanted)
        balancer = text_of("haproxy.cfg")
        servers = dict(re.findall(r"(?m)^    server (\S+) (\S+) ", balancer))
        self.assertEqual(servers, {name: settings_of(name)["exporters"] for name in NAMES})
        page = re.search(r"frontend state\n    bind (\S+):(\d+)\n", balancer).groups()
        self.assertEqual(re.findall(r"check addr (\S+) port (\d+) ", balancer), [page])
        self.assertEqual(settings_of("first")["deliver"]["sums"], settings_of("sums")["exporters"])
        self.assertLess(int(re.search(r"default-server maxconn (\d+)", balancer)[1]), settings_of("first")["connections"])
        listed = [line.split()[0] for line in text_of("mediators").splitlines() if not line.startswith("#")]
        self.assertEqual(listed, [*NAMES, "sums"])


class ScaleTest(ServeTest):
    def scratch(self):
        """A folder that is gone when the test is over."""
        return pathlib.Path(self.enterContext(tempfile.TemporaryDirectory(prefix="ipmd-test-")))

    def send(self, exporters):
        """Exporters send their messages, one of each in turn, to their ends."""
        streams = [messages_of(place) for place in range(len(exporters))]
        for turn in zip(*streams):
            for exporter, octets in zip(exporters, turn):
                exporter.send(octets)
        for exporter in exporters:
            exporter.end_sending()
        for exporter in exporters:
            self.assertEqual(exporter.take_end(), b"")

    def stop(self, run, *collectors):
        """Stops a run, and answers what its collectors were sent."""
        self.assertEqual(run.admin().ask("stop"), "ok")
        streams = [collector.take_all() for collector in collectors]
        ended = run.end()
        self.assertEqual(ended.status, 0, ended.notes)
        return streams

    def close_intervals(self, run):
        """Advances a run's clock to where all intervals are closed."""
        admin = run.admin()
        self.assertEqual(admin.ask(f"advance {CLOSED}"), "ok")
        admin.close()

    def by_one(self):
        """What acme, beta and peer are sent where one mediator serves all exporters, by the policy of examples/serve."""
        names = ("acme", "beta", "peer")
        run = self.start(SERVED, subscribers=names, connections=EXPORTERS + 1)
        listeners = [run.collector(name) for name in names]
        self.send([run.exporter() for _ in range(EXPORTERS)])
        run.wait_for_note(" ended: messages ", EXPORTERS)
        self.close_intervals(run)
        return self.stop(run, *listeners)

    def start_sums(self, listener):
        """The mediator of the sums, for which somebody listens at this listener, and the connection over which it tells them."""
        run = self.start(text_of("sums.txt"), subscribers=(), listeners={"peer": listener}, **roomy_of("sums"))
        return run, run.collector("peer")

    def expect_sums(self, run, collector, wanted):
        """That the mediator of the sums gives these, when those that feed it have ended."""
        run.wait_for_note(" gaps 0\n", len(NAMES))
        self.close_intervals(run)
        (added,) = self.stop(run, collector)
        self.assertGreater(len(wanted), 10)
        self.assertEqual(records(added), wanted)


@unittest.skipUnless(HAPROXY, "haproxy isn't installed")
class Balanced(ScaleTest):
    """Exporters reach the mediators through HAProxy, as the example has it but for ports that are free."""

    def start_balancer(self, tier):
        """HAProxy before these mediators, by name."""
        self.port, page = free_port(), free_port()
        ports = {"4739": self.port, "4760": page}
        for name, run in tier.items():
            ports[settings_of(name)["exporters"].partition(":")[2]] = run.ports["exporters"]
        folder = self.scratch()
        self.log = folder / "log"
        (folder / "haproxy.cfg").write_text(re.sub(r"\b47\d\d\b", lambda port: str(ports[port[0]]), text_of("haproxy.cfg")))
        with open(self.log, "wb") as log:
            child = subprocess.Popen([HAPROXY, "-db", "-f", folder / "haproxy.cfg"], stdin=subprocess.DEVNULL, stdout=log, stderr=log)
        self.addCleanup(child.wait)
        self.addCleanup(child.kill)
        reach(page).close()

    def exporter(self):
        """An exporter that has connected to HAProxy."""
        exporter = reach(self.port)
        self.addCleanup(exporter.close)
        return exporter

    def exporters(self, runs, count):
        """So many exporters, one after another, each when the one before has come to one of these mediators."""
        found, before = [], sum(len(connected(run)) for run in runs)
        for place in range(count):
            found.append(self.exporter())
            wait_until(lambda due=before + place + 1: sum(len(connected(run)) for run in runs) >= due, "a mediator has the exporter")
        return found

    def test_as_one(self):
        """Nine exporters come to three mediators, three to each. Their collectors get the records that one mediator gives, and the
        mediator of the sums gives its sums."""
        acme, beta, peer = self.by_one()
        listeners = {name: self.enterContext(Listener()) for name in ("acme", "beta", "peer")}
        sums, adding = self.start_sums(listeners["peer"])
        tier, taking = {}, {}
        for name in NAMES:
            deliver = {"acme": f"127.0.0.1:{listeners['acme'].port}", "beta": f"127.0.0.1:{listeners['beta'].port}", "sums": sums.settings["exporters"]}
            tier[name] = self.start(text_of("policy.txt"), subscribers=(), deliver=deliver, **roomy_of(name))
            taking[name] = [listeners["acme"].accept(), listeners["beta"].accept()]
            tier[name].wait_for_note("] collector sums ")
        self.start_balancer(tier)
        exporters = self.exporters(tier.values(), EXPORTERS)
        self.assertEqual({name: len(connected(run)) for name, run in tier.items()}, dict.fromkeys(NAMES, EXPORTERS // len(NAMES)))
        for exporter in exporters:
            name, port = self.place_of(exporter)
            self.assertIn(port, connected(tier[name]))
        self.send(exporters)
        for run in tier.values():
            run.wait_for_note(f" ended: messages {MESSAGES} records {MESSAGES * BURST} gaps 0\n", EXPORTERS // len(NAMES))
        streams = [self.stop(run, *taking[name]) for name, run in tier.items()]
        # Nobody else has come to a mediator: HAProxy made no connection of its own.
        self.assertEqual(sum(len(connected(run)) for run in tier.values()), EXPORTERS)
        for place, one in enumerate((acme, beta)):
            wanted = counted([one])
            self.assertGreater(wanted.total(), 100)
            self.assertEqual(counted(stream[place] for stream in streams), wanted)
        self.expect_sums(sums, adding, records(peer))

    def place_of(self, exporter):
        """To which mediator HAProxy's log says that an exporter has come, and the port that it has there."""
        port = exporter.stream.getsockname()[1]
        line = re.compile(rf"exporter 127.0.0.1:{port} is 127.0.0.1:(\d+) at (\w+), --")
        found = wait_until(lambda: line.search(self.log.read_text()), f"HAProxy logs the exporter at port {port}")
        return found[2], found[1]

    def test_absent(self):
        """Two mediators end: their exporters find out, and all who come then are with the third, until another one is there again."""
        tier = {name: self.start(**roomy_of(name)) for name in NAMES}
        collectors = {name: run.collector() for name, run in tier.items()}
        self.start_balancer(tier)
        at = {self.place_of(exporter)[0]: exporter for exporter in self.exporters(tier.values(), len(NAMES))}
        for name in NAMES[:2]:
            self.stop(tier[name], collectors[name])
            self.assertEqual(at[name].take_end(), b"")
        last, collector = tier["third"], collectors["third"]
        for exporter in [at["third"], *self.exporters([last], 6)]:
            exporter.send(flow_message(0))
            collector.take_message()
        again = self.start(**roomy_of("first") | {"exporters": tier["first"].settings["exporters"]})
        again.collector()

        def has_come():
            time.sleep(0.2)
            self.exporters([last, again], 1)
            return connected(again)

        wait_until(has_come, "an exporter comes to the mediator that is there again", PATIENCE)


class Sums(ScaleTest):
    def test_sums_of_sums(self):
        """Where each mediator adds up its own exporters' flows, the one behind them adds up these sums, and gives those of one mediator."""
        _, _, peer = self.by_one()
        sums, adding = self.start_sums(self.enterContext(Listener()))
        deliver = {"peer": sums.settings["exporters"]}
        tier = [self.start(SERVED, subscribers=(), deliver=deliver, connections=EXPORTERS) for _ in NAMES]
        self.send([run.exporter() for run in tier for _ in range(EXPORTERS // len(NAMES))])
        for run in tier:
            run.wait_for_note(" ended: messages ", EXPORTERS // len(NAMES))
            self.close_intervals(run)
            self.stop(run)
        self.expect_sums(sums, adding, records(peer))


class Scripts(ScaleTest):
    """`edit-all` and `audit-all`."""

    def start_tier(self, third=None, absent=()):
        """Four mediators that `advance` administers, but for those that are to be absent. The third may have other settings; the fourth,
        `sums`, has a policy of its own. Answers a folder, and the mediators by name."""
        folder = self.scratch()
        tier = {name: self.start(**(third or {}) if name == "third" else {}) for name in (*NAMES, "sums")}
        for name, run in tier.items():
            run.collector()
            if name not in absent:
                self.start_advance(run)
        listed = folder / "mediators"
        lines = (f"{name} {run.path('admin')}" for name, run in tier.items())
        listed.write_text("# All of them.\n\n" + "\n".join(lines) + " own-policy\n")
        self.environment = os.environ | {"IPMD": program.path(), "IPMD_MEDIATORS": str(listed)}
        return folder, tier

    def script(self, name, *words, status=0):
        """What a script says on standard output and on standard error; it ends in this status."""
        words = [SCALE / name, *words]
        done = subprocess.run(words, env=self.environment, capture_output=True, text=True, timeout=PATIENCE, check=False)
        self.assertEqual(done.returncode, status, done.stderr)
        return done.stdout, done.stderr

    def edit(self, folder, policy, *names, status=0):
        """What `edit-all` says: of each mediator that has the policy, its name and its revision; and what is wrong."""
        path = folder / "new.txt"
        path.write_text(policy)
        said, wrong = self.script("edit-all", path, *names, status=status)
        taken = re.findall(r"(?m)^(\w+) 20\d\d-\d\d-\d\dT\d\d:\d\d:\d\d\.\d{3}\+00:00 revision (\d+)$", said)
        self.assertEqual(len(taken), said.count("\n"), said)
        return taken, wrong

    def send_flows(self, run, count):
        """An exporter sends so many messages of one record, and ends."""
        exporter = run.exporter()
        exporter.send(b"".join(map(flow_message, range(count))))
        exporter.close()
        run.wait_for_note(f" ended: messages {count} records {count} gaps 0\n")

    def test_edit(self):
        """`edit-all` puts a policy in force in all that have one policy, or in those that are named; `audit-all` reads what each has
        withheld by it."""
        folder, tier = self.start_tier()
        self.assertEqual(self.edit(folder, DENY), ([(name, "2") for name in NAMES], ""))
        self.assertEqual(self.edit(folder, DENY, "sums"), ([("sums", "2")], ""))
        for count, run in enumerate(tier.values(), 1):
            self.send_flows(run, count)
        audit = folder / "audit.txt"
        self.assertEqual(self.script("audit-all", "--once", audit), ("", ""))
        lines = audit.read_text()
        found = collections.Counter(re.findall(r"(?m)^(\w+) \d+ 0 1 withheld 0 rule$", lines))
        self.assertEqual((found, found.total()), ({name: count for count, name in enumerate(tier, 1)}, lines.count("\n")))
        self.script("audit-all", "--once", audit)
        self.assertEqual(audit.read_text(), lines)

    def test_no_policy(self):
        """A text that is no policy is given to nobody, and neither is one for a mediator that isn't listed."""
        folder, _ = self.start_tier()
        said = self.edit(folder, "policy 1\nrule for\n", status=1)
        self.assertEqual(said, ([], "ipmd: policy line 2: UnknownWord\nedit-all: nothing was changed\n"))
        self.assertEqual(self.edit(folder, DENY, "first", "fourth", status=1), ([], "edit-all: not among the mediators: fourth\n"))
        self.assertEqual(self.edit(folder, DENY), ([(name, "2") for name in NAMES], ""))

    def test_absent(self):
        """Where a mediator isn't there, `edit-all` names it and changes nothing, unless it is asked for the others; so does `audit-all`."""
        folder, _ = self.start_tier(absent=("third",))
        said = self.edit(folder, DENY, status=1)
        self.assertEqual(said, ([], "edit-all: third isn't there: No such file or directory\nedit-all: nothing was changed\n"))
        self.assertEqual(self.edit(folder, DENY, "first", "second"), ([("first", "2"), ("second", "2")], ""))
        _, wrong = self.script("audit-all", "--once", folder / "audit.txt", status=1)
        self.assertRegex(wrong, r"^audit-all: \d\d:\d\d:\d\d third: No such file or directory\n$")

    def test_refused(self):
        """Where a mediator refuses a policy, `edit-all` names it, and the others have the policy."""
        folder, _ = self.start_tier(third={"journal_octets": 1000})
        broad = DENY + 1000 * "#" + "\n"
        taken, wrong = self.edit(folder, broad, status=1)
        self.assertEqual((taken, wrong), ([("first", "2"), ("second", "2")], "edit-all: third has not taken it: err JournalFull\n"))

    def test_days(self):
        """`audit-all` adds to a file of each day, and keeps lines for which there is no room until there is some."""
        folder, tier = self.start_tier()
        self.edit(folder, DENY)
        days, full, audit = folder / "days", folder / "full", folder / "audit.txt"
        days.mkdir()
        with self.start_audit("--days", days):
            self.send_flows(tier["first"], 3)
            wait_until(lambda: sum(path.read_text().count("\n") for path in days.iterdir()) == 3, "audit-all adds the lines")
        self.assertTrue(all(re.fullmatch(r"20\d\d-\d\d-\d\d\.txt", path.name) for path in days.iterdir()))
        audit.symlink_to("/dev/full")
        with self.start_audit(audit) as notes:
            self.send_flows(tier["second"], 2)
            wait_until(lambda: "No space left on device" in notes.read_text(), "audit-all finds no room")
            full.touch()
            os.replace(full, audit)
            wait_until(lambda: audit.read_text().count("\n") == 2, "audit-all adds the lines that it kept")

    @contextlib.contextmanager
    def start_audit(self, *words):
        """`audit-all`, which then ends in order; answers the file of what it says on standard error."""
        notes = self.scratch() / "notes"
        with open(notes, "wb") as file:
            words = [SCALE / "audit-all", "--seconds", "0.1", *words]
            child = subprocess.Popen(words, env=self.environment, stdin=subprocess.DEVNULL, stdout=subprocess.DEVNULL, stderr=file)
        try:
            yield notes
            child.terminate()
            self.assertEqual(child.wait(PATIENCE), 0, notes.read_text())
        finally:
            child.kill()
            child.wait()


if __name__ == "__main__":
    unittest.main()
