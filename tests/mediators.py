"""A mediator's admin connection without a mediator: what `advance`, `ask`, `watch` and `metrics` talk to in tests of their own."""
import collections
import os
import socketserver
import threading

# What an answer of the audit may have, in octets of its lines.
MOST_OCTETS = 1 << 20

# The commands that an older program doesn't know.
NEWER = ("status", "run", "policy", "help")


class Mediator:
    """What a mediator says. Tests set how it stands, and read what it was asked.

    `subscriptions` are lines of `status`; `run` has the lines of `run` by their names, but for the clock. An older one knows
    none of the newer commands. `hold` stops answers while it is cleared, once they were made.
    """

    def __init__(self, is_older=False):
        self.is_older = is_older
        self.subscriptions = ["1 acme 12 300 live connected", "2 beta 0 25 live connected"]
        self.run = {
            "run": "1", "started": "1700000000123", "entries": "17 1000000", "octets": "5120 1073741824", "audit": "12 100000",
            "exporters": "3 100", "messages": "20", "records": "300", "gaps": "0", "refused": "1", "edits": "2",
        }
        self.policy = ["policy 1", "rule for * in * from * to * pass"]
        self.audit = collections.deque()
        self.clock = 0
        self.asked = []
        self.hold = threading.Event()
        self.hold.set()

    def answer(self, line, take):
        """The answer to a command's line; `take` reads the octets behind it."""
        self.asked.append(line)
        word, _, argument = line.partition(" ")
        if self.is_older and line in NEWER:
            return "err Line\n"
        if line == "status":
            return listed(self.subscriptions)
        if line == "run":
            return listed([*(f"{name} {value}" for name, value in self.run.items()), f"clock {self.clock}"])
        if line == "policy":
            return listed(self.policy)
        if line == "help":
            return listed(["advance T", "help"])
        if word == "advance":
            return self.advance(int(argument))
        if word == "audit":
            return listed(self.take_audit(int(argument)))
        if word == "status":
            return self.status(argument)
        if word == "edit":
            self.policy = take(int(argument)).decode().splitlines()
            return "ok 3\n"
        return "ok\n" if line == "stop" else "err Line\n"

    def advance(self, t):
        if t < self.clock:
            return f"err ClockBack {self.clock}\n"
        self.clock = t
        return "ok\n"

    def status(self, sub):
        for line in self.subscriptions:
            words = line.split()
            if words[0] == sub:
                return f"ok {words[2]} {words[3]} {words[4]}\n"
        return "err UnknownSub\n"

    def take_audit(self, most):
        """The oldest entries' lines: so many, and so many octets at most."""
        lines, left = [], MOST_OCTETS
        while self.audit and len(lines) < most and len(self.audit[0]) < left:
            lines.append(self.audit.popleft())
            left -= len(lines[-1]) + 1
        return lines

    def advances(self):
        """The times that it was advanced to, or was to be."""
        return [int(line.split()[1]) for line in list(self.asked) if line.startswith("advance ")]


def listed(lines):
    return "".join(line + "\n" for line in [f"ok {len(lines)}", *lines])


class AdminConnection(socketserver.StreamRequestHandler):
    """An admin's connection: it ends behind a line that is no command, and behind `stop`."""

    def handle(self):
        mediator = self.server.mediator
        # Admins are served one after another.
        with self.server.turn:
            while line := self.rfile.readline():
                answer = mediator.answer(line.decode().removesuffix("\n"), self.rfile.read)
                mediator.hold.wait()
                self.wfile.write(answer.encode())
                if answer == "err Line\n" or line == b"stop\n":
                    return


class Asked(socketserver.StreamRequestHandler):
    """What one asks of `advance`: a command."""

    def handle(self):
        mediator = self.server.mediator
        line = self.rfile.readline()
        if line:
            answer = mediator.answer(line.decode().removesuffix("\n"), self.rfile.read).encode()
            mediator.hold.wait()
            self.wfile.write(answer[: self.server.most])


class Server:
    """Answers for a mediator in threads, as a context."""

    daemon_threads = True
    allow_reuse_address = True
    request_queue_size = 64
    # How many octets of an answer are sent.
    most = None

    def begin(self, mediator):
        self.mediator, self.turn = mediator, threading.Lock()
        threading.Thread(target=self.serve_forever, args=(0.02,), daemon=True).start()
        return self

    def end(self):
        self.mediator.hold.set()
        self.shutdown()
        self.server_close()


class AdminListener(Server, socketserver.ThreadingTCPServer):
    """Where `advance` connects."""

    def __init__(self, mediator):
        super().__init__(("127.0.0.1", 0), AdminConnection)
        self.address = "{}:{}".format(*self.server_address)
        self.begin(mediator)


class AskListener(Server, socketserver.ThreadingUnixStreamServer):
    """Where `ask`, `watch` and `metrics` connect, in the place of `advance`."""

    def __init__(self, mediator, path):
        if os.path.exists(path):
            os.unlink(path)
        super().__init__(path, Asked)
        self.begin(mediator)
