"""The operator's scripts in examples/serve: `advance` holds the administrator's connection, `ask` and `watch` ask through it, and
`run` turns signals into the end of a run. What a mediator seldom says, it says as tests/mediators.py has it."""
import grp
import importlib.machinery
import importlib.util
import os
import pathlib
import signal
import socket
import stat
import subprocess
import sys
import tempfile
import threading
import time
import unittest
from unittest import mock

from mediators import AdminListener, AskListener, Mediator
from messages import flow_message, records
from peers import HOST, wait_until
from serving import PASS, SCRIPTS, ServeTest

# How many seconds a script may take.
PATIENCE = 60

# Nothing is disclosed.
DENY = "policy 1\n"


class Scripts(ServeTest):
    def start_advance(self, run):
        """`advance`, which `ask` and `watch` are to ask through."""
        self.environment = os.environ | {"IPMD_ADMIN": run.path("admin")}
        return super().start_advance(run)

    def ask(self, *words, status=0):
        """What `ask` prints; it ends in this status."""
        words = [SCRIPTS / "ask", *map(str, words)]
        done = subprocess.run(words, env=self.environment, capture_output=True, text=True, timeout=PATIENCE, check=False)
        self.assertEqual(done.returncode, status, done.stderr)
        return done.stdout

    def test_ask(self):
        """`ask` tells how a subscription stands, puts a policy in force and reads the audit; `err` is its status 1."""
        run = self.start(connections=5)
        collector = run.collector()
        advance = self.start_advance(run)
        exporter = run.exporter()
        exporter.send(flow_message(0))
        got = collector.take_message()
        self.assertEqual(self.ask("status", 1), "ok 0 1 live\n")
        run.write("deny.txt", DENY)
        self.assertEqual(self.ask("edit", run.path("deny.txt")), "ok 2\n")
        exporter.send(flow_message(1))
        exporter.end_sending()
        exporter.take_end()
        answer = self.ask("audit", 10)
        self.assertTrue(answer.startswith("ok 1\n") and answer.endswith(" 0 1 withheld 0 rule\n"), answer)
        self.assertEqual(self.ask("status", 2, status=1), "err UnknownSub\n")
        self.assertEqual(self.ask("stop"), "ok\n")
        self.assertIn("advance: ", advance.communicate(timeout=PATIENCE)[1])
        self.assertEqual(collector.take_all(), b"")
        self.assertEqual(len(records(got)), 1)
        self.expect_served(run, 2, 1)

    def test_ask_of_all(self):
        """`ask` tells how all subscriptions stand, and the run; which policy is in force; and what there is to ask."""
        run = self.start(connections=5, subscribers=("acme", "beta"))
        acme, beta = run.collector("acme"), run.collector("beta")
        self.start_advance(run)
        exporter = run.exporter()
        exporter.send(flow_message(0))
        got = acme.take_message(), beta.take_message()
        self.assertEqual(self.ask("subscribe", "gamma"), "ok 3\n")
        standing = self.ask("status").splitlines()
        self.assertEqual(standing[0], "ok 3")
        self.assertEqual(sorted(standing[1:]), ["1 acme 0 1 live connected", "2 beta 0 1 live connected", "3 gamma 0 0 live none"])
        lines = self.ask("run").splitlines()
        self.assertEqual(lines[0], f"ok {len(lines) - 1}")
        told = dict(line.split(" ", 1) for line in lines[1:])
        self.assertEqual([told[name] for name in ("run", "exporters", "messages", "records", "gaps", "refused")], ["1", "1 5", "1", "1", "0", "0"])
        for name in ("started", "clock"):
            self.assertAlmostEqual(int(told[name]), milliseconds(), delta=PATIENCE * 1000)
        self.assertEqual(self.ask("policy"), f"ok 3\n{PASS}")
        run.write("deny.txt", DENY)
        self.assertEqual(self.ask("edit", run.path("deny.txt")), "ok 2\n")
        self.assertEqual(self.ask("policy"), f"ok 1\n{DENY}")
        lines = self.ask("help").splitlines()
        self.assertEqual(lines[0], f"ok {len(lines) - 1}")
        self.assertTrue(any(line.startswith("audit MAX") for line in lines))
        self.assertEqual(self.ask("stop"), "ok\n")
        exporter.take_end()
        self.assertEqual([len(records(one)) for one in got], [1, 1])
        acme.take_all()
        beta.take_all()
        self.expect_served(run, 1, 2)

    def test_watch_in_days(self):
        """`watch` writes what the audit has to a file of the day, behind a line that names the run; SIGTERM has it read what is left."""
        run = self.start(DENY, connections=5)
        collector = run.collector()
        self.start_advance(run)
        exporter = run.exporter()
        exporter.send(flow_message(0))
        os.mkdir(run.path("days"))
        words = [SCRIPTS / "watch", "--quiet", "--days", run.path("days")]
        watch = subprocess.Popen(words, env=self.environment | {"SECONDS_BETWEEN": "3600"}, stderr=subprocess.PIPE, text=True)
        self.addCleanup(watch.communicate)
        self.addCleanup(watch.kill)

        def lines():
            return [line for path in sorted(pathlib.Path(run.path("days")).iterdir()) for line in path.read_text().splitlines()]

        wait_until(lambda: len(lines()) == 2, "the audit is read")
        for n in range(1, 20):
            exporter.send(flow_message(n))
        exporter.end_sending()
        exporter.take_end()
        watch.terminate()
        self.assertEqual(watch.communicate(timeout=PATIENCE)[1], "")
        self.assertRegex(lines()[0], r"\A# run 1 started \d{13}\Z")
        self.assertEqual([line.split()[3] for line in lines()[1:]], ["withheld"] * 20)
        self.assertEqual(self.ask("audit", 10), "ok 0\n")
        self.assertEqual(self.ask("stop"), "ok\n")
        self.assertEqual(collector.take_all(), b"")
        self.expect_served(run, 20, 0)

    def test_watch(self):
        """`watch` prints the audit's lines on standard output, and how subscriptions stand on standard error."""
        run = self.start(DENY)
        collector = run.collector()
        advance = self.start_advance(run)
        exporter = run.exporter()
        exporter.send(flow_message(0))
        exporter.close()
        run.wait_for_note(" ended: messages 1 records 1 gaps 0\n")
        with open(run.path("audit"), "wb") as audit, open(run.path("stands"), "wb") as stands:
            words = [SCRIPTS / "watch", "1"]
            watch = subprocess.Popen(words, env=self.environment | {"SECONDS_BETWEEN": "0.1"}, stdout=audit, stderr=stands)
        self.addCleanup(watch.wait)
        self.addCleanup(watch.kill)
        wait_until(lambda: run.text("audit").endswith(" 0 1 withheld 0 rule\n"), "watch prints the audit")
        self.assertEqual(len(run.text("audit").splitlines()), 1)
        self.assertIn(" 1 ok 0 0 live\n", run.text("stands"))
        watch.kill()
        advance.terminate()
        self.assertEqual(collector.take_all(), b"")
        self.expect_served(run, 1, 0)

    def test_run_ends(self):
        """`advance` ends when the run does, and says so."""
        run = self.start()
        run.collector()
        advance = self.start_advance(run)
        run.child.kill()
        self.assertIn("advance: ", self.ask_until_gone(advance))

    def test_signals(self):
        """Under `run` a hangup ends nothing, and SIGTERM or an interrupt ends the run in order, with `advance` beside it or not."""
        for sent, held in ((signal.SIGTERM, False), (signal.SIGINT, False), (signal.SIGTERM, True)):
            with self.subTest(signal=sent.name, held=held):
                run = self.start(connections=5, endless=True, wrapper=SCRIPTS / "run")
                collector, exporter = run.collector(), run.exporter()
                if held:
                    self.start_advance(run)
                exporter.send(flow_message(0))
                got = collector.take_message()
                run.child.send_signal(signal.SIGHUP)
                exporter.send(flow_message(1))
                got += collector.take_message()
                run.child.send_signal(sent)
                self.assertEqual(exporter.take_end(), b"")
                self.assertEqual(len(records(got + collector.take_all())), 2)
                self.expect_served(run, 2, 2)

    def test_early_signal(self):
        """Under `run` a signal ends the run in order, though it comes before the program listens."""
        run = self.start(connections=5, endless=True, wrapper=SCRIPTS / "run")
        collector = run.collector()
        run.child.send_signal(signal.SIGTERM)
        self.assertEqual(collector.take_all(), b"")
        self.expect_served(run, 0, 0)

    def ask_until_gone(self, advance):
        """What `advance` says last, when it is asked of a run that is gone."""
        words = [SCRIPTS / "ask", "status", "1"]
        subprocess.run(words, env=self.environment, capture_output=True, timeout=PATIENCE, check=False)
        return advance.communicate(timeout=PATIENCE)[1]


class FakeTest(unittest.TestCase):
    """Tests of scripts on a mediator that is none."""

    def setUp(self):
        folder = tempfile.TemporaryDirectory(prefix="ipmd-test-")
        self.addCleanup(folder.cleanup)
        self.folder = pathlib.Path(folder.name)
        self.socket = str(self.folder / "admin")
        self.environment = os.environ | {"IPMD_ADMIN": self.socket, "SECONDS_BETWEEN": "0.1"}
        self.mediator = Mediator()

    def begin(self, script, *words, output=subprocess.DEVNULL, **environment):
        """A script that runs; what it says on standard error goes to a file of its name."""
        with open(self.folder / script, "wb") as said:
            words = [SCRIPTS / script, *map(str, words)]
            child = subprocess.Popen(words, env=self.environment | environment, stdin=subprocess.DEVNULL, stdout=output, stderr=said)
        self.addCleanup(child.wait)
        self.addCleanup(child.kill)
        return child

    def said(self, script):
        return (self.folder / script).read_text()

    def expect_end(self, child, status):
        self.assertEqual(child.wait(PATIENCE), status)

    def ask(self, *words):
        """What `ask` prints."""
        done = subprocess.run([SCRIPTS / "ask", *words], env=self.environment, capture_output=True, text=True, timeout=PATIENCE, check=False)
        self.assertEqual(done.returncode, 0 if done.stdout.startswith("ok") else 1, done.stderr)
        return done.stdout


def milliseconds():
    """The time of day, in milliseconds since 1970."""
    return time.time_ns() // 1_000_000


HOUR = 3_600_000


class Advance(FakeTest):
    """`advance` on a mediator that says what a test wants."""

    def start(self, *words):
        listener = AdminListener(self.mediator)
        self.addCleanup(listener.end)
        self.child = self.begin("advance", "--admin", listener.address, "--socket", self.socket, "--seconds", "0.1", *words)
        wait_until(lambda: os.path.exists(self.socket), "advance listens")
        return listener

    def wait_for(self, text, times=1):
        wait_until(lambda: self.said("advance").count(text) == times, f"{times} lines with {text!r}")

    def looks(self, count=3):
        """Waits for some looks at the run."""
        before = self.mediator.asked.count("run")
        wait_until(lambda: self.mediator.asked.count("run") >= before + count, "looks at the run")

    def test_lines(self):
        """It hands on answers with lines and answers without, each whole."""
        self.start()
        self.mediator.audit.extend(["5 0 1 withheld 0 rule", "5 1 1 cut"])
        self.assertEqual(self.ask("status"), "ok 2\n1 acme 12 300 live connected\n2 beta 0 25 live connected\n")
        self.assertEqual(self.ask("status", "2"), "ok 0 25 live\n")
        self.assertEqual(self.ask("policy"), "ok 2\npolicy 1\nrule for * in * from * to * pass\n")
        self.assertEqual(self.ask("audit", "10"), "ok 2\n5 0 1 withheld 0 rule\n5 1 1 cut\n")
        self.assertEqual(self.ask("audit", "10"), "ok 0\n")
        self.assertRegex(self.ask("run"), r"\Aok 12\nrun 1\nstarted 1700000000123\n(?:.+\n){9}clock \d+\n\Z")
        self.assertEqual(self.ask("help"), "ok 2\nadvance T\nhelp\n")
        (self.folder / "policy.txt").write_text("policy 1\n# three\n")
        self.assertEqual(self.ask("edit", self.folder / "policy.txt"), "ok 3\n")
        self.assertEqual(self.ask("policy"), "ok 2\npolicy 1\n# three\n")
        self.assertEqual(self.said("advance"), "")

    def test_no_command(self):
        """A line that is no command ends the mediator's connection, and `advance` connects again."""
        self.start()
        for _ in range(3):
            self.assertEqual(self.ask("hello"), "err Line\n")
            self.assertEqual(self.ask("status", "2"), "ok 0 25 live\n")
        self.assertEqual(self.ask("x" * 2000), "err Line\n")
        self.assertEqual(self.mediator.asked.count("hello"), 3)
        self.assertNotIn("x" * 1000, "".join(self.mediator.asked))
        self.assertIsNone(self.child.poll())

    def test_older(self):
        """A mediator that doesn't know `run` is asked for it once, and its clock is advanced all the same."""
        self.mediator.is_older = True
        self.start()
        wait_until(lambda: len(self.mediator.advances()) > 3, "the clock is advanced")
        for word in ("run", "status", "policy", "help"):
            self.assertEqual(self.ask(word), "err Line\n")
        self.assertEqual(self.ask("status", "2"), "ok 0 25 live\n")
        self.assertEqual([one for one in self.mediator.asked if not one.startswith("advance ")], ["run", "status 2"])
        self.assertEqual(self.said("advance"), "")

    def test_far_from_the_mediators(self):
        """A clock that is more than an hour off the mediator's isn't handed on until it is near again."""
        for off in (-HOUR - 60_000, HOUR + 60_000):
            with self.subTest(off=off):
                self.mediator.asked.clear()
                self.mediator.clock = milliseconds() + off
                listener = self.start()
                self.wait_for("the clock is not advanced: the machine's clock stands at ")
                self.looks()
                self.assertEqual(self.mediator.advances(), [])
                self.mediator.clock = milliseconds() + (-HOUR + 60_000 if off < 0 else -1000)
                self.wait_for("the clock is advanced again")
                self.assertAlmostEqual(self.mediator.clock, milliseconds(), delta=PATIENCE * 1000)
                self.assertEqual(self.said("advance").count("\n"), 2)
                self.child.terminate()
                self.expect_end(self.child, 0)
                listener.end()

    def test_far_from_the_last(self):
        """So it is with one that is more than an hour off the last time that was set, of a mediator that doesn't tell its clock."""
        self.mediator.is_older = True
        self.start()
        wait_until(self.mediator.advances, "the clock is advanced")
        self.assertEqual(self.ask("advance", str(milliseconds() + 2 * HOUR)), "ok\n")
        self.wait_for("the clock is not advanced: the machine's clock stands at ")
        count = len(self.mediator.advances())
        time.sleep(0.5)
        self.assertEqual(len(self.mediator.advances()), count)

    def test_slightly_back(self):
        """Of a clock that is some minutes back the mediator's refusal is told, once, until it is over."""
        self.mediator.clock = milliseconds() + 600_000
        self.start()
        self.wait_for(f"advance: the clock is not advanced: err ClockBack {self.mediator.clock}\n")
        self.looks()
        self.mediator.clock = 0
        self.wait_for("the clock is advanced again")
        self.assertEqual(self.said("advance").count("\n"), 2)

    def test_jump(self):
        """With --jump the first time may be any, and no other."""
        self.mediator.clock = milliseconds() - 100 * HOUR
        self.start("--jump")
        wait_until(self.mediator.advances, "the clock is advanced")
        self.assertEqual(self.said("advance"), "")
        self.assertEqual(self.ask("advance", str(milliseconds() + 2 * HOUR)), "ok\n")
        self.wait_for("the clock is not advanced: the machine's clock stands at ")

    def test_jump_by_hand(self):
        """Where the clock is refused, `ask advance` sets it right, and it goes on."""
        self.mediator.clock = milliseconds() - 100 * HOUR
        self.start()
        self.wait_for("the clock is not advanced")
        self.assertEqual(self.ask("advance", str(milliseconds())), "ok\n")
        self.wait_for("the clock is advanced again")

    def test_audit_fills(self):
        """Where the audit is nearly full it is told: once, and again when it was half empty in between."""
        self.start()
        for waiting, told in ((80_000, 0), (80_001, 1), (100_000, 1), (60_000, 1), (90_000, 1), (49_999, 1), (90_000, 2)):
            self.mediator.run["audit"] = f"{waiting} 100000"
            self.looks()
            self.assertEqual(self.said("advance").count("the audit is nearly full, "), told, waiting)

    def test_askers_go(self):
        """One who asks and goes, or gives half an edit, is silent or takes no answer, ends nothing."""
        self.start()
        self.mediator.policy = ["x" * 1000] * 1000
        self.mediator.hold.clear()
        streams = []
        for octets in (b"policy\n", b"edit 100\npolicy 1\n", b"stat", b"", b"policy\n"):
            streams.append(socket.socket(socket.AF_UNIX))
            streams[-1].connect(self.socket)
            streams[-1].sendall(octets)
        for stream in streams[:3]:
            stream.close()
        self.mediator.hold.set()
        self.assertEqual(self.ask("status", "2"), "ok 0 25 live\n")
        self.looks()
        self.assertFalse([one for one in self.mediator.asked if one.startswith("edit")])
        for stream in streams[3:]:
            stream.close()
        self.assertEqual(self.said("advance"), "")
        self.assertIsNone(self.child.poll())

    def test_ends_behind_answers(self):
        """SIGTERM ends it when the answers that it has asked for are handed on."""
        self.start()
        self.mediator.audit.extend(["5 0 1 withheld 0 rule"] * 100_000)
        self.mediator.hold.clear()
        with socket.socket(socket.AF_UNIX) as stream:
            stream.settimeout(PATIENCE)
            stream.connect(self.socket)
            stream.sendall(b"audit 10000\n")
            wait_until(lambda: "audit 10000" in self.mediator.asked, "the audit is asked for")
            self.child.terminate()
            time.sleep(0.3)
            self.assertIsNone(self.child.poll())
            self.mediator.hold.set()
            time.sleep(0.3)
            answer = stream.makefile("rb").read()
        self.assertEqual(answer.count(b"\n"), 10_001)
        self.expect_end(self.child, 0)
        self.assertFalse(os.path.exists(self.socket))
        self.assertEqual(self.said("advance"), "")

    def test_who_may_ask(self):
        """The socket is for the user alone, or for a group as well."""
        listener = self.start()
        self.assertEqual(stat.S_IMODE(os.stat(self.socket).st_mode), 0o700)
        self.child.terminate()
        self.expect_end(self.child, 0)
        listener.end()
        self.start("--group", grp.getgrgid(os.getgid()).gr_name)
        wait_until(lambda: stat.S_IMODE(os.stat(self.socket).st_mode) == 0o660, "the group may ask")
        self.assertEqual(os.stat(self.socket).st_gid, os.getgid())

    def test_no_mediator(self):
        """Where nobody listens, or the group is none, it says so in a line and ends."""
        self.expect_end(self.begin("advance", "--admin", f"{HOST}:1", "--socket", self.socket), 1)
        self.assertRegex(self.said("advance"), r"\Aadvance: .*refused\n\Z")
        listener = AdminListener(self.mediator)
        self.addCleanup(listener.end)
        self.expect_end(self.begin("advance", "--admin", listener.address, "--socket", self.socket, "--group", "no such group"), 1)
        self.assertRegex(self.said("advance"), r"\Aadvance: .*no such group.*\n\Z")


class Watch(FakeTest):
    """`watch` on a mediator that says what a test wants."""

    def setUp(self):
        super().setUp()
        self.days = self.folder / "days"
        self.days.mkdir()

    def open_listener(self):
        listener = AskListener(self.mediator, self.socket)
        self.addCleanup(listener.end)
        return listener

    def begin_watch(self, *words, **environment):
        """A `watch` that writes files by day, and says nothing else."""
        return self.begin("watch", "--quiet", "--days", self.days, *words, **environment)

    def end(self, child, status=0):
        child.terminate()
        self.expect_end(child, status)

    def lines(self):
        """The lines in the folder, without those that name a run."""
        return [line for path in sorted(self.days.iterdir()) for line in path.read_text().splitlines() if not line.startswith("#")]

    def test_all(self):
        """With no number it tells of all subscriptions, with numbers of these."""
        self.open_listener()
        child = self.begin("watch")
        wait_until(lambda: self.said("watch").count("\n") >= 4, "two looks")
        self.end(child)
        self.assertRegex(self.said("watch"), r"\A(\d\d:\d\d:\d\d 1 acme 12 300 live connected\n\d\d:\d\d:\d\d 2 beta 0 25 live connected\n)+\Z")
        child = self.begin("watch", 2)
        wait_until(lambda: self.said("watch").count("\n") >= 2, "two looks")
        self.end(child)
        self.assertRegex(self.said("watch"), r"\A(\d\d:\d\d:\d\d 2 ok 0 25 live\n)+\Z")

    def test_files(self):
        """The audit's lines go to a file of the day, behind a line that names their run."""
        listener = self.open_listener()
        self.mediator.audit.extend(f"{n} 0 1 withheld 0 rule" for n in range(25_000))
        child = self.begin_watch()
        wait_until(lambda: len(self.lines()) == 25_000, "all is read")
        # Another `advance` in the same run, and then one of another run.
        for run, started, line in (("1", "1700000000123", "9 0 1 cut"), ("2", "1700000099999", "3 0 1 cut")):
            count = len(self.lines())
            listener.end()
            self.mediator.run |= {"run": run, "started": started}
            self.mediator.audit.append(line)
            listener = self.open_listener()
            wait_until(lambda: len(self.lines()) == count + 1, "all is read")
        self.mediator.asked.clear()
        wait_until(lambda: len(self.mediator.asked) > 3, "looks")
        self.assertEqual(set(self.mediator.asked), {"audit 10000"})
        self.end(child)
        (path,) = self.days.iterdir()
        self.assertRegex(path.name, r"\A\d{4}-\d\d-\d\d\.txt\Z")
        self.assertAlmostEqual(time.mktime(time.strptime(path.stem, "%Y-%m-%d")) - time.timezone, time.time(), delta=86_400 + PATIENCE)
        lines = path.read_text().splitlines()
        self.assertEqual(lines[0], "# run 1 started 1700000000123")
        self.assertEqual(lines[1:25_001], [f"{n} 0 1 withheld 0 rule" for n in range(25_000)])
        self.assertEqual(lines[25_001:], ["9 0 1 cut", "# run 2 started 1700000099999", "3 0 1 cut"])

    def test_older(self):
        """A mediator that doesn't know `run` has its lines there all the same."""
        self.mediator.is_older = True
        self.open_listener()
        self.mediator.audit.append("3 0 1 cut")
        child = self.begin_watch()
        wait_until(lambda: self.lines() == ["3 0 1 cut"], "it is read")
        self.end(child)

    def test_long_lines(self):
        """Answers that are ended by their octets are followed by others in the same look."""
        self.open_listener()
        self.mediator.audit.extend(f"{n} 0 1 removed {'2:7,' * 40_000}9:9" for n in range(40))
        child = self.begin_watch(SECONDS_BETWEEN="3600")
        wait_until(lambda: len(self.lines()) == 40, "all is read")
        # Six answers of six lines, one of four, and one of none.
        wait_until(lambda: self.mediator.asked.count("audit 10000") == 8, "nothing is left")
        time.sleep(0.3)
        self.assertEqual(self.mediator.asked.count("audit 10000"), 8)
        self.end(child)
        self.assertEqual(self.mediator.asked.count("audit 10000"), 9)

    def test_signal(self):
        """SIGTERM behind the question loses nothing of the answer, and what else is left is read."""
        for sent in (signal.SIGTERM, signal.SIGINT):
            with self.subTest(signal=sent.name):
                listener = self.open_listener()
                self.mediator.audit.extend(f"{n} 0 1 withheld 0 rule" for n in range(30_000))
                self.mediator.asked.clear()
                self.mediator.hold.clear()
                child = self.begin_watch(SECONDS_BETWEEN="3600")
                wait_until(lambda: "run" in self.mediator.asked, "it has asked")
                child.send_signal(sent)
                time.sleep(0.2)
                self.mediator.hold.set()
                self.expect_end(child, 0)
                self.assertEqual(self.lines(), [f"{n} 0 1 withheld 0 rule" for n in range(30_000)])
                for path in self.days.iterdir():
                    path.unlink()
                listener.end()

    def test_signal_while_it_waits(self):
        """SIGTERM between two looks has it read what came since."""
        self.open_listener()
        child = self.begin_watch(SECONDS_BETWEEN="3600")
        wait_until(lambda: "audit 10000" in self.mediator.asked, "a look")
        time.sleep(0.2)
        self.mediator.audit.append("3 0 1 cut")
        self.end(child)
        self.assertEqual(self.lines(), ["3 0 1 cut"])

    def test_broken_answer(self):
        """Of an answer that breaks off the whole lines are kept, and the rest is told."""
        listener = self.open_listener()
        self.mediator.is_older = True
        self.mediator.audit.extend(["3 0 1 cut"] * 3)
        listener.most = len("ok 3\n3 0 1 cut\n3 0")
        with open(self.folder / "lines", "wb") as output:
            self.expect_end(self.begin("watch", "--quiet", output=output), 1)
        self.assertEqual((self.folder / "lines").read_text(), "3 0 1 cut\n")
        self.assertEqual(self.said("watch"), "watch: audit: 1 of 3 lines came, and of another one b'3 0'\n")

    def test_nobody(self):
        """Where nobody answers it says so and ends; but where it writes files it goes on trying, and says once that it does."""
        self.expect_end(self.begin("watch"), 1)
        self.assertRegex(self.said("watch"), r"\Awatch: advance: .*No such file.*\n\Z")
        self.mediator.audit.append("3 0 1 cut")
        child = self.begin_watch()
        wait_until(lambda: self.said("watch"), "it says so")
        listener = self.open_listener()
        wait_until(lambda: self.lines() == ["3 0 1 cut"], "the audit is read")
        wait_until(lambda: self.said("watch").count("\n") == 2, "it says that it is answered")
        listener.end()
        wait_until(lambda: self.said("watch").count("\n") == 3, "it says that it isn't")
        time.sleep(0.5)
        self.end(child)
        lines = self.said("watch").splitlines()
        self.assertEqual(lines[1], "watch: advance answers")
        for line in lines[0], lines[2]:
            self.assertRegex(line, r"\Awatch: advance: .*: it is asked again and again\Z")

    def test_half_line(self):
        """A file that ends in half a line, as a machine that failed leaves it, gets a line's end first."""
        self.open_listener()
        # The day may change meanwhile.
        for ago in (0, -86_400):
            (self.days / time.strftime("%Y-%m-%d.txt", time.gmtime(time.time() - ago))).write_text("1 0 1 cut\n2 0 1 wit")
        self.mediator.audit.append("3 0 1 cut")
        child = self.begin_watch()
        wait_until(lambda: "3 0 1 cut" in self.lines(), "it is read")
        self.end(child)
        self.assertEqual(sorted(self.lines()), ["1 0 1 cut"] * 2 + ["2 0 1 wit"] * 2 + ["3 0 1 cut"])

    def test_full(self):
        """Where what it writes to takes nothing, it tries again; a signal then ends it, and it says what is lost."""
        self.open_listener()
        self.mediator.audit.extend(["3 0 1 cut"] * 3)
        with open("/dev/full", "wb") as full:
            child = self.begin("watch", "--quiet", output=full)
        wait_until(lambda: "it is tried again" in self.said("watch"), "the fault is told")
        self.assertIsNone(child.poll())
        self.end(child, 1)
        self.assertRegex(self.said("watch"), r"watch: 30 octets of the audit are lost: .*No space left on device\n\Z")
        self.assertEqual(self.mediator.asked.count("audit 10000"), 1)

    def test_no_folder(self):
        """Without the folder it reads nothing; where that goes meanwhile, it tries again until it is back."""
        self.open_listener()
        self.mediator.audit.append("3 0 1 cut")
        self.expect_end(self.begin("watch", "--days", self.folder / "none"), 1)
        self.assertRegex(self.said("watch"), r"\Awatch: .* is no folder that can be written to\n\Z")
        self.assertEqual(self.mediator.asked, [])
        child = self.begin_watch()
        wait_until(lambda: self.lines() == ["3 0 1 cut"], "it is read")
        aside = self.days.rename(self.folder / "aside")
        self.mediator.audit.append("4 0 1 cut")
        wait_until(lambda: "No such file or directory" in self.said("watch"), "the folder is missed")
        aside.rename(self.days)
        wait_until(lambda: self.lines() == ["3 0 1 cut", "4 0 1 cut"], "it is written")
        self.end(child)

    def test_full_for_a_while(self):
        """What a full pipe didn't take is written when it has room, each line once and in order."""
        self.open_listener()
        self.mediator.audit.extend(f"{n} 0 1 withheld 0 rule" for n in range(20_000))
        reading, writing = os.pipe()
        os.set_blocking(writing, False)
        child = self.begin("watch", "--quiet", output=writing, SECONDS_BETWEEN="3600")
        os.close(writing)
        wait_until(lambda: "it is tried again" in self.said("watch"), "the pipe is full")
        got = []
        with open(reading, "rb") as pipe:
            taking = threading.Thread(target=lambda: got.extend(pipe.read().decode().splitlines()))
            taking.start()
            wait_until(lambda: self.mediator.asked.count("audit 10000") == 3, "all is read", 60)
            self.end(child)
            taking.join()
        self.assertEqual(got, [f"{n} 0 1 withheld 0 rule" for n in range(20_000)])

    def test_reader_gone(self):
        """Where the reader of its output has gone, it ends, and says how much is lost."""
        self.open_listener()
        self.mediator.audit.append("3 0 1 cut")
        reading, writing = os.pipe()
        os.close(reading)
        child = self.begin("watch", "--quiet", output=writing)
        os.close(writing)
        self.expect_end(child, 1)
        self.assertIn("watch: 10 octets of the audit are lost: ", self.said("watch"))

    def test_days(self):
        """When the day changes in UTC the lines go to the next file, whole; those of an answer stay together."""
        loader = importlib.machinery.SourceFileLoader("watch_script", str(SCRIPTS / "watch"))
        script = importlib.util.module_from_spec(importlib.util.spec_from_loader(loader.name, loader))
        with mock.patch.object(sys, "dont_write_bytecode", True):
            loader.exec_module(script)
        # 2026-11-29T00:00:00Z, and the second before, and so the next day.
        times = [time.gmtime(1_795_910_400 + seconds) for seconds in (-1, 0, 86_399, 86_400)]
        folder = script.Folder(None, self.days)
        with mock.patch.object(time, "gmtime", side_effect=times):
            for lines in (b"1\n2\n", b"3\n", b"4\n", b"5\n"):
                folder.keep(lines)
        self.assertEqual(
            {path.name: path.read_text() for path in self.days.iterdir()},
            {"2026-11-28.txt": "1\n2\n", "2026-11-29.txt": "3\n4\n", "2026-11-30.txt": "5\n"},
        )


if __name__ == "__main__":
    unittest.main()
