"""`metrics` in examples/serve: its page for Prometheus and its page to look at, what strangers' texts and hostile clients do to
it, and the alerts. A mediator's answers are those of tests/mediators.py. Where Prometheus' promtool or Chromium isn't installed a
test is skipped; Debian's packages are prometheus and chromium."""
import contextlib
import html.parser
import http.client
import json
import os
import pathlib
import re
import shutil
import signal
import socket
import subprocess
import tempfile
import threading
import time
import unittest
import urllib.request

import browser
from mediators import AskListener, Mediator
from messages import flow_message, records
from peers import HOST, PATIENCE, free_port, wait_until
from serving import SCRIPTS, ServeTest

ALERTS = SCRIPTS / "alerts.yml"

SETTINGS = """queue = 100
[deliver]
acme = "192.0.2.1:4739"
beta = "collector.example.net:4739"
"""

# All is disclosed to acme, and to beta all but a port.
NO_PORT = """policy 1
rule for * in * from * to * pass
rule for beta in * from * to * element sourceTransportPort remove
rule for * in * from * to * element * keep
"""

# The metrics of the mediator as tests/mediators.py has it, with these settings; the labels of each, and its value.
EXPECTED = {
    "ipmd_up": {(): 1},
    "ipmd_run_number": {(): 1},
    "ipmd_run_start_time_seconds": {(): 1700000000.123},
    "ipmd_journal_entries": {(): 17},
    "ipmd_journal_limit_entries": {(): 1000000},
    "ipmd_journal_bytes": {(): 5120},
    "ipmd_journal_limit_bytes": {(): 1073741824},
    "ipmd_audit_entries": {(): 12},
    "ipmd_audit_limit_entries": {(): 100000},
    "ipmd_exporters_connected": {(): 3},
    "ipmd_exporters_limit": {(): 100},
    "ipmd_messages_total": {(): 20},
    "ipmd_records_total": {(): 300},
    "ipmd_sequence_gaps_total": {(): 0},
    "ipmd_refused_messages_total": {(): 1},
    "ipmd_policy_edits_total": {(): 2},
    "ipmd_clock_timestamp_seconds": {(): 1700000061.005},
    "ipmd_queue_limit_records": {(): 100},
    "ipmd_subscription_queued_records": {(("sub", "1"), ("subscriber", "acme")): 12, (("sub", "2"), ("subscriber", "beta")): 0},
    "ipmd_subscription_handed_records_total": {(("sub", "1"), ("subscriber", "acme")): 300, (("sub", "2"), ("subscriber", "beta")): 25},
    "ipmd_subscription_cut": {(("sub", "1"), ("subscriber", "acme")): 0, (("sub", "2"), ("subscriber", "beta")): 0},
    "ipmd_subscriber_connected": {(("subscriber", "acme"),): 1, (("subscriber", "beta"),): 1},
    "ipmd_subscriptions_ended_total": {(("subscriber", "acme"),): 0, (("subscriber", "beta"),): 0},
}

# What is told also of a mediator that doesn't answer.
ALWAYS = {"ipmd_up", "ipmd_poll_timestamp_seconds", "ipmd_subscriptions_ended_total"}

# The tags of the page, and their attributes.
TAGS = set("html head meta title style body main header footer section div span p strong h1 h2 dl dt dd ul li svg rect path pre bdi a".split())
ATTRIBUTES = set("lang charset name content http-equiv class role aria-label tabindex href width height rx viewbox preserveaspectratio d".split())
ATTRIBUTES.add("vector-effect")

NAME = re.compile(r"[a-z][a-z0-9_]*")
SAMPLE = re.compile(r'([a-z][a-z0-9_]*)(?:\{((?:[a-z_]+="(?:[^"\\\n]|\\[\\"n])*",?)+)\})? (-?[0-9]+(?:\.[0-9]+)?)')
LABEL = re.compile(r'([a-z_]+)="((?:[^"\\\n]|\\[\\"n])*)"(,|$)')


def parse(page):
    """The metrics of a page in Prometheus' text format 0.0.4: by name, the labels of each sample, sorted, and its value.

    Each metric has its HELP and TYPE, once and in this order, and behind these its samples, of which no two have the same labels.
    """
    found, order, kinds, named = {}, [], {}, None
    assert page.endswith("\n")
    for line in page.split("\n")[:-1]:
        words = line.split(" ", 3)
        if words[:2] == ["#", "HELP"]:
            named = words[2]
            assert NAME.fullmatch(named) and named not in order and words[3], line
            order.append(named)
        elif words[:2] == ["#", "TYPE"]:
            assert words[2] == named and named not in kinds, line
            assert words[3] in ("gauge", "counter") and (words[3] == "counter") == named.endswith("_total"), line
            kinds[named] = words[3]
        else:
            sample = SAMPLE.fullmatch(line)
            assert sample and sample[1] == named and named in kinds, line
            labels = parse_labels(sample[2] or "")
            assert labels not in found.setdefault(named, {}), line
            found[named][labels] = float(sample[3])
    assert list(found) == order, "a metric without a sample"
    return found


def parse_labels(inside):
    """Labels by their names, sorted."""
    labels, at = {}, 0
    while at < len(inside):
        one = LABEL.match(inside, at)
        assert one and one[1] not in labels, inside
        labels[one[1]] = re.sub(r"\\(.)", lambda escape: "\n" if escape[1] == "n" else escape[1], one[2])
        at = one.end()
    return tuple(sorted(labels.items()))


class Reader(html.parser.HTMLParser):
    """The tags of a page with their attributes, and its text."""

    def __init__(self, page):
        super().__init__()
        self.tags, self.open, self.text = [], [], ""
        self.feed(page)
        self.close()

    def handle_starttag(self, tag, attrs):
        self.tags.append((tag, dict(attrs)))
        self.open.append(tag)

    def handle_startendtag(self, tag, attrs):
        self.tags.append((tag, dict(attrs)))

    def handle_endtag(self, tag):
        while self.open and self.open[-1] == "meta":
            self.open.pop()
        assert self.open and self.open.pop() == tag, f"</{tag}> ends another tag"

    def handle_data(self, data):
        if "style" not in self.open:
            self.text += data


class MetricsTest(unittest.TestCase):
    """Tests of a `metrics` that asks a mediator."""

    def setUp(self):
        folder = tempfile.TemporaryDirectory(prefix="ipmd-test-")
        self.addCleanup(folder.cleanup)
        self.folder = pathlib.Path(folder.name)
        self.socket, self.settings, self.notes = (str(self.folder / name) for name in ("admin", "settings.toml", "notes"))
        pathlib.Path(self.settings).write_text(SETTINGS)
        pathlib.Path(self.notes).write_text("[INFO  ipmd] run 1\n[WARN  ipmd] exporter 192.0.2.1:1 failed, BadVersion: messages 0 records 0 gaps 0\n")
        self.mediator = Mediator()
        self.mediator.clock = 1700000061005

    def open_listener(self):
        listener = AskListener(self.mediator, self.socket)
        self.addCleanup(listener.end)
        return listener

    def start(self, *words):
        """A `metrics` that looks five times a second; it is ended, at the latest, when the test is."""
        self.port = free_port()
        words = [SCRIPTS / "metrics", "--listen", f"{HOST}:{self.port}", "--socket", self.socket, "--seconds", "0.2", *words]
        with open(self.folder / "said", "wb") as said:
            self.child = subprocess.Popen(words, stdin=subprocess.DEVNULL, stdout=said, stderr=said)
        self.addCleanup(self.child.wait)
        self.addCleanup(self.child.kill)
        wait_until(self.answers, "metrics listens")

    def start_all(self):
        """A mediator, and a `metrics` with settings and notes."""
        listener = self.open_listener()
        self.start("--settings", self.settings, "--notes", self.notes)
        return listener

    def answers(self):
        with contextlib.suppress(ConnectionRefusedError):
            socket.create_connection((HOST, self.port), PATIENCE).close()
            return True

    def get(self, path="/metrics", method="GET"):
        """The answer to a request, and its content."""
        connection = http.client.HTTPConnection(HOST, self.port, timeout=PATIENCE)
        with contextlib.closing(connection):
            connection.request(method, path)
            answer = connection.getresponse()
            return answer, answer.read().decode()

    def metrics(self):
        return parse(self.get()[1])

    def value(self, name, **labels):
        """A metric's value, or None."""
        return self.metrics().get(name, {}).get(tuple(sorted(labels.items())))

    def wait_for(self, name, value, **labels):
        wait_until(lambda: self.value(name, **labels) == value, f"{name} {labels} is {value}")

    def said(self):
        return (self.folder / "said").read_text()


class Pages(MetricsTest):
    """What the pages say."""

    def test_all_metrics(self):
        """Each number of the mediator is there, in Prometheus' format and units."""
        self.start_all()
        answer, page = self.get()
        self.assertEqual((answer.status, answer.getheader("Content-Type")), (200, "text/plain; version=0.0.4; charset=utf-8"))
        found = parse(page)
        self.assertAlmostEqual(found.pop("ipmd_poll_timestamp_seconds")[()], time.time(), delta=PATIENCE)
        self.assertEqual(found, EXPECTED)
        self.assertEqual(self.said(), "")

    def test_without_settings(self):
        """Where it isn't told the settings, who has a collector is known by the mediator, and the limit of queues isn't."""
        self.mediator.subscriptions.append("3 gamma 0 0 live none")
        self.open_listener()
        self.start("--notes", self.notes)
        found = self.metrics()
        self.assertNotIn("ipmd_queue_limit_records", found)
        self.assertEqual(found["ipmd_subscriber_connected"], EXPECTED["ipmd_subscriber_connected"])
        self.assertEqual(Reader(self.get("/")[1]).text.count(" wait "), 3)

    def test_labels(self):
        """A name with quotes and backslashes is one label, as any other."""
        self.mediator.subscriptions = ['7 a"b\\c 1 2 live connected', "8 \\n 3 4 live none", "9 \N{SNOWMAN} 5 6 live absent"]
        self.start_all()
        queued = self.metrics()["ipmd_subscription_queued_records"]
        names = {dict(labels)["sub"]: dict(labels)["subscriber"] for labels in queued}
        self.assertEqual(names, {"7": 'a"b\\c', "8": "\\n", "9": "\N{SNOWMAN}"})

    def test_unknown_lines(self):
        """Lines of `run` and words of `status` that are new are no fault."""
        self.mediator.run |= {"novel": "5 10", "words": "of another kind"}
        self.mediator.subscriptions[0] += " more"
        self.start_all()
        self.assertEqual(self.value("ipmd_up"), 1)
        self.assertEqual(set(self.metrics()), {*EXPECTED, "ipmd_poll_timestamp_seconds"})
        text = Reader(self.get("/")[1]).text
        self.assertIn("novel", text)
        self.assertIn("words of another kind", text)

    def test_gone(self):
        """A mediator that doesn't answer is told plainly, and nothing of it that is old; when it is back, so are its numbers."""
        listener = self.start_all()
        self.assertEqual(self.value("ipmd_up"), 1)
        listener.end()
        self.wait_for("ipmd_up", 0)
        self.assertEqual(set(self.metrics()), ALWAYS)
        page = self.get("/")[1]
        self.assertIn("The mediator does not answer.", Reader(page).text)
        self.assertIn("<title>ipmd: no answer</title>", page)
        os.unlink(self.socket)
        self.open_listener()
        self.wait_for("ipmd_up", 1)
        self.assertEqual(set(self.metrics()), {*EXPECTED, "ipmd_poll_timestamp_seconds"})

    def test_never_there(self):
        """It begins also where there is no mediator yet."""
        self.start("--settings", self.settings)
        self.assertEqual(self.value("ipmd_up"), 0)
        self.open_listener()
        self.wait_for("ipmd_up", 1)

    def test_broken_answers(self):
        """An answer that breaks off, a refusal and lines of no sense are those of no mediator, and no end."""
        listener = self.start_all()
        listener.most = 30
        self.wait_for("ipmd_up", 0)
        self.assertIn("broken off", Reader(self.get("/")[1]).text)
        listener.most = None
        self.wait_for("ipmd_up", 1)
        self.mediator.is_older = True
        self.wait_for("ipmd_up", 0)
        self.assertIn("err Line", Reader(self.get("/")[1]).text)
        self.mediator.is_older = False
        self.wait_for("ipmd_up", 1)
        for lines in (["one acme 0 0 live none"], ["1 acme 0 0"], ["1 acme 0 0 dead none"], ["1 a 0 0 live none", "1 b 0 0 live none"]):
            self.mediator.subscriptions = lines
            self.wait_for("ipmd_up", 0)
            self.mediator.subscriptions = []
            self.wait_for("ipmd_up", 1)
        self.assertIsNone(self.child.poll())

    def test_subscriptions(self):
        """A cut, an absent collector and subscriptions that end are told; those of another run haven't ended."""
        self.start_all()
        self.mediator.subscriptions = ["1 acme 100 300 cut connected", "2 beta 0 25 live absent"]
        self.wait_for("ipmd_subscription_cut", 1, sub="1", subscriber="acme")
        self.wait_for("ipmd_subscriber_connected", 0, subscriber="beta")
        text = Reader(self.get("/")[1]).text
        self.assertIn("Subscription 1 of acme was cut.The collector of beta is not connected.", text)
        self.mediator.subscriptions = ["2 beta 0 25 live connected"]
        self.wait_for("ipmd_subscriptions_ended_total", 1, subscriber="acme")
        self.assertEqual(self.value("ipmd_subscriber_connected", subscriber="acme"), 0)
        self.assertIn("acme has no subscription.", Reader(self.get("/")[1]).text)
        self.mediator.subscriptions = ["2 beta 0 25 live connected", "3 acme 0 0 live connected"]
        self.wait_for("ipmd_subscriber_connected", 1, subscriber="acme")
        self.mediator.run |= {"run": "2", "started": "1700000000999"}
        self.mediator.subscriptions = ["1 acme 0 0 live connected"]
        self.wait_for("ipmd_run_number", 2)
        self.wait_for("ipmd_subscriber_connected", 0, subscriber="beta")
        self.assertEqual(self.metrics()["ipmd_subscriptions_ended_total"], {(("subscriber", "acme"),): 1, (("subscriber", "beta"),): 0})

    def test_nearly_full(self):
        """What is nearly full is told at the top."""
        self.mediator.run |= {"audit": "80001 100000", "entries": "800001 1000000"}
        self.start_all()
        text = Reader(self.get("/")[1]).text
        self.assertIn("The audit is nearly full.The journal is nearly full.", text)

    def test_policy_and_notes(self):
        """The policy is read again behind an edit alone, and the notes each time."""
        self.start_all()
        self.assertIn("rule for * in * from * to * pass", Reader(self.get("/")[1]).text)
        self.mediator.policy = ["policy 1", "# another"]
        self.mediator.run["edits"] = "3"
        wait_until(lambda: "# another" in self.get("/")[1], "the new policy is shown")
        self.assertEqual(self.mediator.asked.count("policy"), 2)
        with open(self.notes, "a", encoding="utf-8") as notes:
            notes.write("[INFO  ipmd] accepted 2 handed 3\n")
        wait_until(lambda: "accepted 2 handed 3" in self.get("/")[1], "the new note is shown")
        os.unlink(self.notes)
        wait_until(lambda: "No such file" in self.get("/")[1], "the notes' file is missed")

    def test_settings_change(self):
        """Settings are read again where the file was changed; where that is no TOML, those before stay."""
        self.start_all()
        pathlib.Path(self.settings).write_text("queue = 7\n[deliver]\nacme = '192.0.2.1:4739'\ngamma = '192.0.2.3:4739'\n")
        self.wait_for("ipmd_queue_limit_records", 7)
        self.assertEqual(self.value("ipmd_subscriber_connected", subscriber="gamma"), 0)
        pathlib.Path(self.settings).write_text("queue =\n")
        wait_until(self.said, "the fault is told")
        self.assertEqual(self.value("ipmd_queue_limit_records"), 7)

    def test_rates(self):
        """The records a second are a line, which has a gap where the mediator didn't answer, and begins anew with a run."""
        listener = self.start_all()

        def lines():
            """How many pieces the line has."""
            drawn = next((attrs for tag, attrs in Reader(self.get("/")[1]).tags if tag == "path" and attrs["class"] == "line"), {})
            return drawn.get("d", "").count("M")

        self.assertEqual(lines(), 0)
        wait_until(lambda: lines() == 1, "a line")
        listener.end()
        os.unlink(self.socket)
        self.wait_for("ipmd_up", 0)
        self.open_listener()
        wait_until(lambda: lines() == 2, "a line behind the gap")
        self.mediator.run |= {"records": "0", "run": "2"}
        wait_until(lambda: lines() == 3, "a line of the second run")


class Strangers(MetricsTest):
    """Names, the policy and notes are strangers' texts."""

    EVIL = ["<script>alert(1)</script>", "</pre><img/src=x/onerror=alert(1)>", "&lt;b&gt;", "'\"><svg/onload=alert(1)>", "\x1b[31m\x00", "\u202egnp"]

    def test_escaped(self):
        """Nothing of them is a tag or an attribute, and what isn't seen is marked."""
        self.mediator.subscriptions = [f"{n} {one} 0 0 live connected" for n, one in enumerate(self.EVIL, 1)]
        self.mediator.run["x"] = "<b>bold</b> 1"
        self.mediator.policy = self.EVIL
        pathlib.Path(self.notes).write_text("\n".join(f"[WARN  ipmd] {one}" for one in self.EVIL))
        pathlib.Path(self.settings).write_text("queue = 1\n[deliver]\n'<i>x</i>' = '<u>y</u>'\n")
        self.start_all()
        page = self.get("/")[1]
        reader = Reader(page)
        self.assertEqual({tag for tag, _ in reader.tags} - TAGS, set())
        self.assertEqual(reader.open, [])
        for tag, attributes in reader.tags:
            for name, value in attributes.items():
                self.assertIn(name, ATTRIBUTES, tag)
                self.assertNotIn("alert", value)
        for one in self.EVIL[:4]:
            self.assertGreaterEqual(reader.text.count(one), 3, one)
        for one in "<b>bold</b>", "<i>x</i>":
            self.assertIn(one, reader.text)
        self.assertTrue(all(one == "\n" or one.isprintable() for one in page.replace("\N{REPLACEMENT CHARACTER}", "")))
        self.assertEqual(len(self.metrics()["ipmd_subscription_cut"]), len(self.EVIL))

    def test_nothing_outside(self):
        """The page asks nobody for anything, and may not."""
        self.start_all()
        answer, page = self.get("/")
        self.assertEqual([attrs["href"] for _, attrs in Reader(page).tags if "href" in attrs], ["/metrics"])
        for one in ("http:", "https:", "//", "url(", "@import", "src="):
            self.assertNotIn(one, page)
        rules = answer.getheader("Content-Security-Policy")
        self.assertTrue(rules.startswith("default-src 'none'; ") and "unsafe" not in rules, rules)

    def test_long(self):
        """Of a long policy and of long notes a part is shown."""
        self.mediator.policy = ["policy 1", *(f"# {n} {'x' * 100}" for n in range(5000))]
        with open(self.notes, "w", encoding="utf-8") as notes:
            notes.writelines(f"[INFO  ipmd] {n} {'y' * 1000}\n" for n in range(5000))
        self.start_all()
        page = self.get("/")[1]
        self.assertLess(len(page), 300_000)
        self.assertIn("lines more", page)
        self.assertIn("[INFO  ipmd] 4999 y", page)


class Requests(MetricsTest):
    """What clients send."""

    def raw(self, octets):
        """A connection on which something was sent."""
        stream = socket.create_connection((HOST, self.port), PATIENCE)
        self.addCleanup(stream.close)
        with contextlib.suppress(OSError):
            stream.sendall(octets)
        return stream

    def status_of(self, octets):
        """The status of the answer to these octets; none where the connection ends without."""
        with contextlib.suppress(ConnectionResetError):
            return self.raw(octets).makefile("rb").readline().decode().split(" ")[1:2]
        return []

    def test_methods_and_paths(self):
        """GET and HEAD of two paths are answered, and others refused."""
        self.start_all()
        for path in ("/", "/metrics", "/metrics?x=1"):
            answer, page = self.get(path)
            self.assertEqual((answer.status, answer.getheader("Content-Length")), (200, str(len(page.encode()))))
            answer, page = self.get(path, "HEAD")
            self.assertEqual((answer.status, page), (200, ""))
            self.assertGreater(int(answer.getheader("Content-Length")), 1000)
        for path in ("/metrics/", "/index.html", "/../etc/passwd", "//", "*"):
            self.assertEqual(self.get(path)[0].status, 404, path)
        for method in ("POST", "PUT", "DELETE", "OPTIONS", "TRACE", "get"):
            answer, _ = self.get("/", method)
            self.assertEqual((answer.status, answer.getheader("Allow")), (405, "GET, HEAD"), method)
        for octets in (b"\r\n\r\n", b"GET\r\n\r\n", b"GET /\r\n\r\n", b"GET / HTTP/2\r\n\r\n", b"\x16\x03\x01\r\n\r\n", b"GET  / HTTP/1.1\r\n\r\n"):
            self.assertEqual(self.status_of(octets), ["400"], octets)

    def test_long_requests(self):
        """A request that goes on is ended."""
        self.start_all()
        for octets in (b"GET /" + b"x" * 100_000, b"GET / HTTP/1.1\r\n" + b"X: y\r\n" * 100_000, b"\0" * 1_000_000):
            self.assertIn(self.status_of(octets), (["431"], []))
        self.assertEqual(self.get("/")[0].status, 200)

    def test_slow_and_many(self):
        """Hundreds of clients that send nothing, half a request or take no answer keep nobody from the pages; there are few threads."""
        self.mediator.policy = ["policy 1", *("# " + "x" * 100 for _ in range(500))]
        self.start_all()
        streams = []
        for n in range(600):
            streams.append(self.raw((b"", b"GET / HT", b"GET / HTTP/1.1\r\nX: y\r\n", b"GET / HTTP/1.1\r\n\r\n")[n % 4]))
            if n % 100 == 99:
                begin = time.monotonic()
                self.assertEqual(self.value("ipmd_up"), 1)
                self.assertLess(time.monotonic() - begin, 20)
        status = pathlib.Path(f"/proc/{self.child.pid}/status").read_text()
        self.assertLessEqual(int(re.search(r"Threads:\s+(\d+)", status)[1]), 4)
        self.assertLess(len(os.listdir(f"/proc/{self.child.pid}/fd")), 200)
        # Those that are still there are told to go.
        begin = time.monotonic()
        self.assertIn(self.status_of(b"GET / HT"), (["408"], []))
        self.assertLess(time.monotonic() - begin, 30)
        self.assertEqual(self.get("/")[0].status, 200)
        self.assertEqual(self.said(), "")

    def test_slow_octets(self):
        """A client that sends an octet now and then has five seconds for all of it."""
        self.start_all()
        stream, begin = self.raw(b"GET /metrics HTTP/1.1\r\n"), time.monotonic()
        ended = threading.Event()

        def drip():
            while not ended.wait(0.2):
                with contextlib.suppress(OSError):
                    stream.sendall(b"x")

        dripping = threading.Thread(target=drip)
        dripping.start()
        with contextlib.suppress(OSError):
            while stream.recv(1000):
                pass
        ended.set()
        dripping.join()
        self.assertLess(time.monotonic() - begin, 20)

    def test_ends(self):
        """SIGTERM ends it at once, also with clients."""
        self.start_all()
        self.raw(b"GET / HT")
        self.child.send_signal(signal.SIGTERM)
        self.assertEqual(self.child.wait(PATIENCE), 0)
        self.assertEqual(self.said(), "")

    def test_cannot_begin(self):
        """Where it can't listen, or the settings can't be read, it says so and ends."""
        with socket.socket() as taken:
            taken.bind((HOST, 0))
            taken.listen()
            address = "{}:{}".format(*taken.getsockname())
            for words in (["--listen", address], ["--listen", f"{HOST}:{free_port()}", "--settings", str(self.folder / "none")]):
                done = subprocess.run([SCRIPTS / "metrics", *words], capture_output=True, text=True, timeout=PATIENCE, check=False)
                self.assertEqual(done.returncode, 1)
                self.assertTrue(done.stderr.startswith("metrics: ") and done.stderr.count("\n") == 1, done.stderr)


class OfTheProgram(ServeTest):
    """The pages on a run of the program."""

    def test_run(self):
        """What was sent, waits and was withheld is there, and a collector that has gone."""
        run = self.start(NO_PORT, connections=5, subscribers=("acme", "beta"), reconnect=3600, endless=True)
        acme, beta = run.collector("acme"), run.collector("beta")
        port, environment = free_port(), os.environ | {"IPMD_ADMIN": run.path("admin")}
        advance = [SCRIPTS / "advance", "--admin", run.settings["admin"], "--socket", run.path("admin"), "--seconds", "0.5"]
        metrics = [SCRIPTS / "metrics", "--listen", f"{HOST}:{port}", "--seconds", "0.2"]
        metrics += ["--settings", run.path("settings.toml"), "--notes", run.path("notes")]
        for words in (advance, metrics):
            child = subprocess.Popen(words, env=environment, stdin=subprocess.DEVNULL, stderr=subprocess.DEVNULL)
            self.addCleanup(child.wait)
            self.addCleanup(child.kill)

        def page(path):
            with contextlib.suppress(OSError):
                with urllib.request.urlopen(f"http://{HOST}:{port}{path}", timeout=PATIENCE) as answer:
                    return answer.read().decode()
            return ""

        def value(name, **labels):
            found = page("/metrics")
            return parse(found).get(name, {}).get(tuple(sorted(labels.items()))) if found else None

        exporter = run.exporter()
        sent = 3
        for n in range(sent):
            exporter.send(flow_message(n))
        wait_until(lambda: value("ipmd_records_total") == 3, "three records were accepted")
        wait_until(lambda: value("ipmd_subscription_handed_records_total", sub="1", subscriber="acme") == 3, "they were handed out")
        for name, wanted in (
            ("ipmd_up", 1), ("ipmd_run_number", 1), ("ipmd_messages_total", 3), ("ipmd_refused_messages_total", 0), ("ipmd_audit_entries", 3),
            ("ipmd_audit_limit_entries", 1e6), ("ipmd_exporters_connected", 1), ("ipmd_exporters_limit", 5), ("ipmd_queue_limit_records", 1e6),
        ):
            self.assertEqual(value(name), wanted, name)
        self.assertAlmostEqual(value("ipmd_clock_timestamp_seconds"), time.time(), delta=PATIENCE)
        self.assertEqual(value("ipmd_subscriber_connected", subscriber="beta"), 1)
        beta.close()

        def has_noticed():
            """Whether it was noticed that the collector has gone, to which a record was sent."""
            nonlocal sent
            exporter.send(flow_message(sent))
            sent += 1
            return value("ipmd_subscriber_connected", subscriber="beta") == 0

        wait_until(has_noticed, "beta's collector has gone")
        wait_until(lambda: value("ipmd_subscriptions_ended_total", subscriber="beta") == 1, "its subscription has ended")
        stranger = run.exporter()
        stranger.send(b"GET / HTTP/1.1\r\n\r\n")
        stranger.take_end()
        wait_until(lambda: value("ipmd_refused_messages_total") == 1, "what is no message was refused")
        wait_until(lambda: "BadVersion" in page("/"), "the note is shown")
        text = Reader(page("/")).text
        for one in ("up", "rule for * in * from * to * pass", "beta has no subscription.", f"no. 1 \N{MIDDLE DOT} {run.settings['deliver']['acme']}"):
            self.assertIn(one, text)
        ask = subprocess.run([SCRIPTS / "ask", "stop"], env=environment, capture_output=True, text=True, timeout=PATIENCE, check=False)
        self.assertEqual(ask.stdout, "ok\n")
        self.assertEqual(len(records(acme.take_all())), sent)
        wait_until(lambda: value("ipmd_up") == 0, "the mediator has ended")
        ended = run.end()
        self.assertTrue(ended.output.startswith(f"accepted {sent} handed "), ended)


@unittest.skipUnless(shutil.which("promtool"), "promtool isn't installed")
class Prometheus(MetricsTest):
    """What Prometheus' own tool says."""

    def promtool(self, *words, given=None):
        done = subprocess.run(["promtool", *words], input=given, capture_output=True, text=True, timeout=60, check=False)
        self.assertEqual(done.returncode, 0, done.stdout + done.stderr)

    def test_metrics(self):
        """The page is one, and its names are as they should be."""
        self.mediator.subscriptions.append('7 a"b\\c 1 2 cut none')
        listener = self.start_all()
        self.promtool("check", "metrics", given=self.get()[1])
        listener.end()
        self.wait_for("ipmd_up", 0)
        self.promtool("check", "metrics", given=self.get()[1])

    def test_rules(self):
        self.promtool("check", "rules", str(ALERTS))

    def test_alerts(self):
        """Each alert comes when it should, and none where all is well."""
        well = {
            "ipmd_up": "1x60", "ipmd_poll_timestamp_seconds": "0+60x60", "ipmd_clock_timestamp_seconds": "0+60x60",
            "ipmd_audit_entries": "10x60", "ipmd_audit_limit_entries": "100x60", "ipmd_journal_entries": "10x60",
            "ipmd_journal_limit_entries": "100x60", "ipmd_journal_bytes": "10x60", "ipmd_journal_limit_bytes": "100x60",
            'ipmd_subscription_cut{sub="1",subscriber="acme"}': "0x60", 'ipmd_subscriber_connected{subscriber="acme"}': "1x60",
            'ipmd_subscriptions_ended_total{subscriber="acme"}': "0x60",
        }
        acme, gone = ("IpmdSubscriberNotServed", 'severity="warning",subscriber="acme"'), ("IpmdGone", 'severity="critical"')
        audit, journal = (("IpmdNearlyFull", f'severity="warning",what="{what}"') for what in ("audit", "journal"))
        cases = [
            ({}, []),
            ({'ipmd_subscription_cut{sub="1",subscriber="acme"}': "0x10 1x50"}, [acme]),
            ({'ipmd_subscriber_connected{subscriber="acme"}': "1x10 0x50"}, [acme]),
            ({'ipmd_subscriptions_ended_total{subscriber="acme"}': "0x25 1x35"}, [acme]),
            ({'ipmd_subscriptions_ended_total{subscriber="acme"}': "0x5 1x55"}, []),
            ({"ipmd_audit_entries": "0x10 81x50"}, [audit]),
            ({"ipmd_audit_entries": "80x60"}, []),
            ({"ipmd_journal_entries": "81x60", "ipmd_audit_entries": "100x60"}, [audit, journal]),
            ({"ipmd_journal_bytes": "80x10 100x50"}, [journal]),
            ({"ipmd_up": "1x10 0x50"}, [gone]),
            ({"ipmd_up": "1x10 stale"}, [gone]),
            ({"ipmd_clock_timestamp_seconds": "0+60x20 1200x40"}, [gone]),
            ({"ipmd_clock_timestamp_seconds": "0x60"}, [gone]),
            ({"ipmd_clock_timestamp_seconds": "4000+60x60"}, [gone]),
            ({"ipmd_poll_timestamp_seconds": "0+60x20 1200x40"}, [gone]),
        ]
        path = self.folder / "tests.yml"
        # JSON is YAML.
        tests = [self.case(well | changed, wanted) for changed, wanted in cases]
        path.write_text(json.dumps({"rule_files": [str(ALERTS)], "evaluation_interval": "1m", "tests": tests}))
        self.promtool("test", "rules", str(path))

    def case(self, series, wanted):
        """A test of promtool: which alerts there are after half an hour, by their names and labels."""
        alerts = [{"labels": f'ALERTS{{alertname="{name}",alertstate="firing",{labels}}}', "value": 1} for name, labels in wanted]
        return {
            "interval": "1m",
            "input_series": [{"series": name, "values": values} for name, values in series.items()],
            "promql_expr_test": [{"expr": 'ALERTS{alertstate="firing"}', "eval_time": "30m", "exp_samples": alerts}],
        }


@unittest.skipUnless(browser.installed(), "Chromium isn't installed")
class Looks(MetricsTest):
    """The page in a browser."""

    # What is wider than the window; what stands in a drawing is cut off at its border.
    WIDER = """[...document.querySelectorAll("body *")].filter(one => !one.closest("svg") || one.tagName == "svg")
        .filter(one => one.getBoundingClientRect().right > innerWidth + 0.5 || one.getBoundingClientRect().left < -0.5)
        .map(one => one.outerHTML.slice(0, 80))"""

    def expect_narrow(self, page, width, scheme):
        """That nothing of the page is wider than a window."""
        page.open(f"http://{HOST}:{self.port}/", width, scheme=scheme)
        self.assertEqual(page.value("innerWidth"), width)
        self.assertLessEqual(page.value("document.documentElement.scrollWidth"), width)
        self.assertEqual(page.value(self.WIDER), [])
        return page.value("getComputedStyle(document.body).backgroundColor")

    def test_widths(self):
        """At a phone's width and at a desktop's, light and dark, of whatever there is to show, nothing is wider than the window."""
        self.mediator.subscriptions += [
            f"3 {'n' * 32} 1000000 18446744073709551615 cut absent", f"4 {'W' * 300} 1 2 live none", "5 <b>x</b> 0 0 live connected"
        ]
        self.mediator.run |= {"octets": "1099511627775 1099511627776", "records": "18446744073709551615", "audit": "9999999 10000000"}
        self.mediator.policy = ["policy 1", "x" * 500, "rule for " + "a" * 32 + " in * from 2001:db8:1111:2222:3333:4444::/96 to * pass"]
        with open(self.notes, "a", encoding="utf-8") as notes:
            notes.write("[ERROR ipmd] " + "z" * 500 + "\n")
        listener = self.start_all()
        with browser.Browser() as page:
            grounds = {(width, scheme): self.expect_narrow(page, width, scheme) for width in (320, 390, 1280) for scheme in ("light", "dark")}
            self.assertEqual(len(set(grounds.values())), 2, grounds)
            self.assertEqual(page.value("document.querySelectorAll('script, img').length"), 0)
            self.assertEqual(page.value("document.title"), "ipmd: up")
            listener.end()
            self.wait_for("ipmd_up", 0)
            for width in (390, 1280):
                self.expect_narrow(page, width, "light")
            self.assertEqual(page.value("document.title"), "ipmd: no answer")


if __name__ == "__main__":
    unittest.main()
