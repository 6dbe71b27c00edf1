"""Runs of `ipmd serve`, on free ports, with settings and a policy in a folder of their own."""
import json
import os
import subprocess
import tempfile
import threading
import unittest
from typing import NamedTuple

import program
from messages import flow_message
from peers import HOST, Admin, Listener, free_port, reach, wait_until

# All is disclosed to all.
PASS = "policy 1\nrule for * in * from * to * pass\nrule for * in * from * to * element * keep\n"

# Settings by which nothing is ever full, but for where a test says otherwise.
ROOMY = {
    "target": 1400,
    "workers": 2,
    "turns": 1_000_000,
    "queue": 1_000_000,
    "shapes": 100,
    "audit": 1_000_000,
    "journal_entries": 1_000_000,
    "journal_octets": 1_000_000_000,
}

# How long a run may last before it is killed, in seconds.
LONGEST = 240

# The operator's scripts.
SCRIPTS = program.TOP / "examples" / "serve"


class Ended(NamedTuple):
    """How a run ended: its status, what it said on standard output, and its notes on standard error."""

    status: int
    output: str
    notes: str


class Run:
    """A run of `ipmd serve`, as a context: it is killed where it hasn't ended by then, or lasts too long.

    A collector listens for each subscriber; `listeners` may give the listeners, by name. `settings` are those that aren't the usual
    ones; a value of None leaves the key out. `files` are empty files that its folder has before, and `links` links, by name.
    `wrapper` is a script that runs the program, given the admin's address, without which it isn't wrapped.
    """

    def __init__(self, rules=PASS, subscribers=("acme",), connections=1, listeners=None, longest=LONGEST, files=(), links=None, wrapper=None, **settings):
        self.listeners = {name: Listener() for name in subscribers} | (listeners or {})
        self.ports = {"exporters": free_port(), "admin": free_port()}
        self.folder = tempfile.TemporaryDirectory(prefix="ipmd-test-")
        self.settings = {
            "exporters": f"{HOST}:{self.ports['exporters']}",
            "admin": f"{HOST}:{self.ports['admin']}",
            "policy": "policy.txt",
            "connections": connections,
            "deliver": {name: f"{HOST}:{listener.port}" for name, listener in self.listeners.items()},
        }
        self.settings |= ROOMY | settings
        self.rules, self.longest, self.peers = rules, longest, []
        self.files, self.links, self.wrapper = files, links or {}, wrapper

    def __enter__(self):
        self.write("policy.txt", self.rules)
        for name in self.files:
            self.write(name, "")
        for name, target in self.links.items():
            os.symlink(target, self.path(name))
        self.write("settings.toml", settings_text(self.settings))
        words = [program.path(), "serve", "--settings", "settings.toml"]
        if self.wrapper is not None:
            words = [self.wrapper, "--admin", self.settings["admin"], *words]
        with open(self.path("output"), "wb") as output, self.open_notes() as notes:
            environment = os.environ | {"IPMD_ADMIN": self.path("admin")}
            # What is set where the notes go to a journal that has the time of each.
            environment.pop("JOURNAL_STREAM", None)
            self.child = subprocess.Popen(
                words, cwd=self.folder.name, env=environment, stdin=subprocess.DEVNULL, stdout=output, stderr=notes
            )
        self.watch = threading.Timer(self.longest, self.kill)
        self.watch.start()
        return self

    def kill(self):
        """Kills the program, and what runs it."""
        if self.wrapper is not None:
            subprocess.run(["pkill", "-KILL", "-P", str(self.child.pid)], check=False)
        self.child.kill()

    def __exit__(self, *_):
        self.watch.cancel()
        self.kill()
        self.child.wait()
        for one in [*self.peers, *self.listeners.values()]:
            one.close()
        self.folder.cleanup()

    def path(self, name):
        return os.path.join(self.folder.name, name)

    def write(self, name, text):
        with open(self.path(name), "w", encoding="utf-8") as file:
            file.write(text)

    def text(self, name):
        with open(self.path(name), encoding="utf-8") as file:
            return file.read()

    def open_notes(self):
        """Where the program is to write its notes."""
        return open(self.path("notes"), "wb")

    def exporter(self):
        """An exporter that has connected."""
        return self.keep(reach(self.ports["exporters"]))

    def admin(self):
        """The administrator, connected."""
        return self.keep(reach(self.ports["admin"], Admin))

    def keep(self, peer):
        self.peers.append(peer)
        return peer

    def collector(self, name="acme"):
        """A subscriber's collector, when the program has connected to it."""
        try:
            return self.listeners[name].accept()
        except TimeoutError:
            raise AssertionError(f"nobody connects to {name}'s collector; noted:\n{self.notes()}") from None

    def served_collector(self, name="acme"):
        """A subscriber's collector, when its delivery has begun: a subscription that is cut before that is followed by another one."""
        collector = self.collector(name)
        self.wait_for_note(f"collector {name} {HOST}:{self.listeners[name].port} connected\n")
        return collector

    def notes(self):
        """What was noted up to here."""
        return self.text("notes")

    def wait_for_note(self, text, times=1):
        """Waits until a text stands so often in the notes."""
        try:
            wait_until(lambda: self.notes().count(text) >= times, f"{times} notes with {text!r}")
        except AssertionError as late:
            raise AssertionError(f"{late}; noted:\n{self.notes()}") from None

    def wait_for_audit(self, admin, wanted):
        """Waits until the audit has an entry, and sees that these are its lines."""
        found = wait_until(admin.audit, f"the audit has {wanted}")
        while len(found) < len(wanted):
            found += wait_until(admin.audit, f"the audit has {wanted}, and not only {found}")
        assert found == wanted, found

    def end(self, patience=20.0):
        """Waits until the run has ended, and answers how."""
        try:
            status = self.child.wait(patience)
        except subprocess.TimeoutExpired:
            raise AssertionError(f"the run goes on; noted:\n{self.notes()}") from None
        return Ended(status, self.text("output"), self.notes())


def settings_text(settings):
    """Settings as TOML, without those that are None."""
    lines = [f"{key} = {toml_value(value)}\n" for key, value in settings.items() if value is not None]
    return "".join(lines)


def toml_value(value):
    if isinstance(value, dict):
        return "{ " + ", ".join(f"{name} = {json.dumps(one)}" for name, one in value.items()) + " }"
    return json.dumps(value)


class ServeTest(unittest.TestCase):
    """A test that makes runs."""

    def start(self, rules=PASS, **asked):
        """A run that is over, at the latest, when the test is."""
        return self.enterContext(Run(rules, **asked))

    def start_advance(self, run):
        """`advance`, which connects as a run's administrator and listens in its folder; it is ended, at the latest, when the test is."""
        words = [SCRIPTS / "advance", "--admin", run.settings["admin"], "--socket", run.path("admin"), "--seconds", "3600"]
        advance = subprocess.Popen(words, stdout=subprocess.DEVNULL, stderr=subprocess.PIPE, text=True)
        self.addCleanup(advance.communicate)
        self.addCleanup(advance.kill)
        wait_until(lambda: os.path.exists(run.path("admin")), "advance listens")
        return advance

    def send_until_gone(self, exporter, admin):
        """Sends messages of a record each, behind a first one, until subscription 1 has ended; answers how many were sent in all."""
        sent = 1

        def send_another():
            nonlocal sent
            exporter.send(flow_message(sent))
            sent += 1
            return admin.ask("status 1") == "err UnknownSub"

        wait_until(send_another, "the subscription ends")
        return sent

    def expect_served(self, run, accepted, handed, patience=20.0):
        """That a run ends as it should, with these counts; answers how it ended."""
        ended = run.end(patience)
        self.assertEqual(ended.output, f"accepted {accepted} handed {handed}\n", ended.notes)
        self.assertEqual(ended.status, 0, ended.notes)
        self.assertTrue(ended.notes.endswith(f"[INFO  ipmd] accepted {accepted} handed {handed}\n"), ended.notes)
        return ended
