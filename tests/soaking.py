"""A soak of `ipmd serve`: exporters that come, send, break off and come back; collectors of which one stalls and one goes and comes back;
and an administrator who edits the policy, advances the clock and reads the audit, all at once, over runs that follow each other.

What each of them sent and got is kept, so that it can be held against the journals (soak_checks.py).
"""
import contextlib
import dataclasses
import multiprocessing
import os
import pathlib
import random
import socket
import struct
import tempfile
import threading
import time
import traceback
import zlib
from concurrent.futures import ThreadPoolExecutor
from unittest import mock

from messages import OPTIONS_TEMPLATES, VARIABLE, Template, address, message, set_of
from peers import HOST, PATIENCE, Admin, free_port
from serving import Run

# What an exporter's records say: from where and to where, in units of which, since when; and a number that each has alone.
FLOWS = Template(256, ((8, 4), (12, 4), (7, 2), (11, 2), (4, 1), (1, 8), (2, 8), (152, 8), (153, 8), (10, 4), (148, 8)))
# No ports, and a start in seconds.
PINGS = Template(257, ((8, 4), (12, 4), (4, 1), (1, 4), (150, 4), (148, 8)))
# Two sources, and no start.
PAIRS = Template(258, ((8, 4), (8, 4), (12, 4), (11, 2), (1, 8), (148, 8)))
# Options: the name of an interface.
NAMES = Template(259, ((10, 4), (82, VARIABLE), (148, 8)))
NAMES_OCTETS = set_of(OPTIONS_TEMPLATES, struct.pack("!9H", 259, 3, 1, 10, 4, 82, VARIABLE, 148, 8))

SOURCES = [address(f"10.{n % 8}.{n}.{7 * n + 1}") for n in range(32)]
DESTINATIONS = [address(f"{network}.{n * 70 + 5}") for network in ("198.51.100", "203.0.113") for n in range(3)]
PORTS = (22, 53, 80, 123, 443, 853, 3306, 8080)
PROTOCOLS = (6, 17)

# The administrator puts one after another in force. Acme sees each record in all of them, with its number.
POLICIES = (
    """policy 1
aggregate ports key destinationTransportPort interval 2 grace 1
aggregate hosts key sourceIPv4Address,protocolIdentifier interval 3 grace 0
rule for beta in * from 10.1.0.0/16 to * withhold
rule for beta in * from 10.2.0.0/15 to * aggregate ports
rule for beta in 3 from * to * aggregate hosts
rule for gamma in * from 10.3.0.0/16 to 198.51.100.0/24 aggregate ports
rule for delta in * from 10.0.0.0/14 to * pass
rule for delta in * from * to 203.0.113.0/24 withhold
rule for * in * from * to * pass
rule for beta in * from * to * element sourceIPv4Address truncate 24
rule for gamma in * from 10.4.0.0/16 to * element sourceTransportPort remove
rule for * in * from * to * element * keep
""",
    """policy 1
aggregate ports key destinationTransportPort interval 2 grace 0
rule for beta in * from 10.2.0.0/15 to * aggregate ports
rule for delta in * from 10.1.0.0/16 to * aggregate ports
rule for * in * from * to * pass
rule for acme in * from * to * element destinationIPv4Address truncate 20
rule for beta in * from 10.5.0.0/16 to * element protocolIdentifier remove
rule for gamma in * from * to * element ingressInterface remove
rule for * in * from * to * element * keep
""",
    """policy 2
aggregate hosts key sourceIPv4Address,protocolIdentifier interval 3 grace 0
aggregate ends key destinationIPv4Address,destinationTransportPort interval 1 grace 2
rule for beta in * from 10.6.0.0/15 to * aggregate hosts
rule for beta in * from 10.2.0.0/15 to 203.0.113.0/24 aggregate ends
rule for gamma in 2 from * to * withhold
rule for delta in * from 10.1.0.0/16 to * pass
rule for * in * from * to * pass
rule for delta in * from * to * element flowStartMilliseconds degrade 60
rule for delta in * from * to * element flowEndMilliseconds degrade 60
rule for delta in * from 10.1.0.0/16 to * element octetDeltaCount remove
rule for * in * from * to * element * keep
""",
    """policy 1
aggregate ports key destinationTransportPort interval 2 grace 1
rule for beta in 1 from * to * pass
rule for beta in * from * to 203.0.113.0/28 aggregate ports
rule for beta in * from 10.0.0.0/13 to * pass
rule for * in * from * to * pass
rule for gamma in * from 10.0.0.0/15 to 198.51.100.0/24 element sourceIPv4Address truncate 16
rule for delta in 4 from * to * element flowId keep
rule for delta in 4 from * to * element * remove
rule for * in * from * to * element * keep
""",
)

# What the C library keeps for the next thread of what one has given back grows with its arenas, for tens of runs. With one of them memory
# shows what the program keeps.
ARENAS = {"MALLOC_ARENA_MAX": "1"}

FORK = multiprocessing.get_context("fork")

# What becomes of an exporter's connection when it has sent its messages, and how often of a hundred times.
ENDS, BREAKS, RESETS, BABBLES, STAYS = "ends", "breaks off in a message", "resets", "sends nonsense", "falls silent"
WAYS = {ENDS: 40, BREAKS: 25, RESETS: 13, BABBLES: 12, STAYS: 10}


@dataclasses.dataclass
class Plan:
    """How a soak goes. Times are in seconds, and ranges are of the least and the greatest."""

    # How long it lasts at most, and the share of this in which exporters send enough for all runs.
    seconds: float = 120
    share: float = 0.85
    runs: int = 10
    journal_octets: int = 20_000_000
    exporters: int = 8
    seed: int = 1
    # The records of a large message, and the most messages of a connection.
    burst: int = 200
    messages: int = 150
    queue: int = 20_000
    idle: int = 5
    drain: int = 10
    hold: int = 1000
    # The octets that the system keeps for the collector that stalls.
    room: int = 32768
    # How long the collector that stalls takes something, and then takes nothing; how much of a run's journal the one that goes takes
    # before, and how long it is gone.
    takes: tuple = (1.0, 5.0)
    stalls: tuple = (0.2, 5.0)
    stays: tuple = (0.05, 0.3)
    gone: tuple = (0.5, 4.0)
    # Between two edits, and between two advances of the clock.
    edits: float = 0.7
    advances: float = 0.2

    def rate(self):
        """The octets a second that all exporters send together."""
        return self.runs * self.journal_octets / (self.share * self.seconds)


SHORT = Plan(
    seconds=15, share=0.5, runs=3, journal_octets=300_000, exporters=6, burst=20, messages=30, queue=400, idle=1, drain=5, hold=500,
    room=4096, takes=(0.1, 0.8), stalls=(0.1, 3.0), stays=(0.05, 0.3), gone=(0.1, 1.5), edits=0.15, advances=0.1,
)


@dataclasses.dataclass
class Sent:
    """A connection of an exporter: what it sent, a checksum and the number of records of each message, and how it was to end."""

    port: int
    first: int
    way: str
    messages: list = dataclasses.field(default_factory=list)
    # Whether all was handed to the system before the connection ended.
    is_whole: bool = False


@dataclasses.dataclass
class Taken:
    """A connection of a collector: the file of what it was sent, and whether it ended since the collector left, or by a reset, or else by the
    end of the stream."""

    path: pathlib.Path
    has_left: bool = False
    was_reset: bool = False


@dataclasses.dataclass
class Asked:
    """A connection of the administrator: the file of the audit's lines that it was given, and how many edits and advances were made."""

    port: int
    path: pathlib.Path
    edits: int = 0
    advances: int = 0


class Body:
    """A Data Set of so many records, of which the numbers and the starts are put in when it is sent."""

    def __init__(self, template, values):
        self.content = bytearray(template.data(*(template.record(*one) for one in values)))
        self.count = len(values)
        self.size = sum(length for _, length in template.fields)
        ends = [sum(length for _, length in template.fields[:place]) for place in range(len(template.fields))]
        self.places = {element: (4 + begin, length) for begin, (element, length) in zip(ends, template.fields)}

    def put(self, element, values):
        """Puts the values of an element into the records."""
        first, width = self.places[element]
        column = struct.pack(f"!{self.count}{'Q' if width == 8 else 'I'}", *values)
        for lane in range(width):
            self.content[first + lane :: self.size] = column[lane::width]

    def octets(self, number, now, ages):
        """The set with these numbers from the first one on, and with flows that began so many milliseconds ago."""
        self.put(148, range(number, number + self.count))
        if 152 in self.places:
            self.put(152, [now - age for age in ages[: self.count]])
            self.put(153, [now] * self.count)
        if 150 in self.places:
            self.put(150, [(now - age) // 1000 for age in ages[: self.count]])
        return bytes(self.content)


class Pace:
    """Holds all exporters together to so many octets a second. What is sent late is made up for, at three times that rate."""

    def __init__(self, rate):
        self.rate, self.begun, self.sent, self.lock = rate, time.monotonic(), 0, threading.Lock()
        self.last = self.begun

    def wait(self, count, over):
        """Waits until so many octets more may be sent, or all is over."""
        with self.lock:
            self.sent += count
            due = max(self.begun + self.sent / self.rate, self.last + count / (3 * self.rate))
            self.last = max(due, time.monotonic())
        over.wait(max(0.0, due - time.monotonic()))


class Exporter:
    """An exporter, which comes again and again until all is over."""

    def __init__(self, soak, pace, place):
        self.soak, self.pace, self.place = soak, pace, place
        self.random = random.Random(f"{soak.plan.seed} exporter {place}")
        self.bodies = [self.flows(soak.plan.burst) for _ in range(4)]
        self.ages = [[self.random.randrange(4500) for _ in range(soak.plan.burst)] for _ in range(4)]
        self.sent = []

    def ends(self):
        pick = self.random.choice
        return pick(SOURCES), pick(DESTINATIONS)

    def flows(self, count):
        pick, number = self.random.choice, self.random.randrange
        values = [
            (*self.ends(), 1024 + number(60000), pick(PORTS), pick(PROTOCOLS), 40 + number(100000), 1 + number(100), 0, 0, number(4), 0)
            for _ in range(count)
        ]
        return Body(FLOWS, values)

    def small(self):
        """A few records of a template."""
        pick, number = self.random.choice, self.random.randrange
        kind, count = number(3), 1 + number(5)
        if kind == 0:
            return self.flows(count)
        if kind == 1:
            return Body(PINGS, [(*self.ends(), 1, 84 + number(1000), 0, 0) for _ in range(count)])
        return Body(PAIRS, [(pick(SOURCES), *self.ends(), pick(PORTS), number(2**40), 0) for _ in range(count)])

    def run(self):
        """Connects and sends until all is over; answers what was sent over each connection."""
        while not self.soak.over.is_set():
            stream, port = self.soak.connect("exporters")
            if stream is None:
                break
            ways, weights = zip(*WAYS.items())
            way = self.random.choices(ways, weights)[0]
            # The first 32 bits of its records' numbers.
            first = (self.place << 24 | len(self.sent)) << 32
            sent = Sent(port, first, way)
            self.sent.append(sent)
            with contextlib.closing(stream), contextlib.suppress(OSError):
                self.talk(stream, sent)
            self.soak.over.wait(self.random.random() * 0.2)
        return self.sent

    def talk(self, stream, sent):
        """Sends messages over a connection, and ends it in its way."""
        domain, before, number = self.place + 1, 0, sent.first
        sets = [template.octets() for template in (FLOWS, PINGS, PAIRS)] + [NAMES_OCTETS]
        for _ in range(self.random.randrange(1, self.soak.plan.messages)):
            if self.soak.over.is_set():
                return
            for body in self.next_bodies():
                if isinstance(body, Body):
                    sets.append(body.octets(number, self.soak.now(), self.random.choice(self.ages)))
                    number += body.count
                else:
                    sets.append(NAMES.data(NAMES.record(self.random.randrange(4), body, number)))
                    number += 1
            octets = message(before, *sets, domain=domain)
            sets = self.again() if self.random.randrange(30) == 0 else []
            self.pace.wait(len(octets), self.soak.over)
            sent.messages.append((zlib.crc32(octets), number - sent.first - before))
            before = number - sent.first
            self.send(stream, octets)
        sent.is_whole = True
        self.leave(stream, sent, message(before, self.flows(20).octets(number, self.soak.now(), [0] * 20), domain=domain))

    def next_bodies(self):
        """What stands in the next message: mostly many records, and sometimes few, of one layout or two, or an interface's name."""
        kind = self.random.randrange(20)
        if kind < 15:
            return [self.random.choice(self.bodies)]
        if kind < 17:
            return [self.small(), self.small()]
        if kind < 19:
            return [self.small()]
        return [b"eth" * self.random.randrange(1, 100)]

    def again(self):
        """Templates that are sent once more, as they were."""
        return [FLOWS.octets(), NAMES_OCTETS]

    def send(self, stream, octets):
        """Sends a message, sometimes in two pieces."""
        if self.random.randrange(20) == 0:
            at = self.random.randrange(1, len(octets))
            stream.sendall(octets[:at])
            time.sleep(0.01)
            octets = octets[at:]
        stream.sendall(octets)

    def leave(self, stream, sent, octets):
        """Ends a connection: at once, or with a part of these octets, or with nonsense, or when the server ends it."""
        part = octets[: self.random.randrange(1, len(octets))]
        if sent.way == BREAKS:
            stream.sendall(part)
        elif sent.way == RESETS:
            stream.sendall(part)
            stream.setsockopt(socket.SOL_SOCKET, socket.SO_LINGER, struct.pack("ii", 1, 0))
        elif sent.way == BABBLES:
            stream.sendall(b"GET / HTTP/1.1\r\n\r\n")
            self.wait_for_end(stream)
        elif sent.way == STAYS:
            if self.random.randrange(2):
                stream.sendall(part)
            self.wait_for_end(stream)

    def wait_for_end(self, stream):
        stream.settimeout(0.1)
        while not self.soak.over.is_set():
            with contextlib.suppress(TimeoutError):
                if not stream.recv(100):
                    return


class Collector:
    """A collector that takes all it is sent, and comes whenever it is connected to. It stands as a listener where a run wants one."""

    # Whether the system keeps little for it that it hasn't taken.
    has_little_room = False

    def __init__(self, soak, name):
        self.soak, self.name = soak, name
        self.random = random.Random(f"{soak.plan.seed} collector {name}")
        self.port = free_port()
        self.taken = []

    def listen(self):
        self.listener = socket.socket()
        self.listener.setsockopt(socket.SOL_SOCKET, socket.SO_REUSEADDR, 1)
        if self.has_little_room:
            # The server's side keeps some segments too.
            self.listener.setsockopt(socket.IPPROTO_TCP, socket.TCP_MAXSEG, 1412)
            self.listener.setsockopt(socket.SOL_SOCKET, socket.SO_RCVBUF, self.soak.plan.room)
        self.listener.bind((HOST, self.port))
        self.listener.listen()
        self.listener.settimeout(0.1)

    def close(self):
        """Nothing of it is left in the process that makes it: it listens in one of its own."""

    def run(self):
        """Takes connection after connection until all is over and none is left, and answers what each brought."""
        self.listen()
        self.soak.ready.release()
        while (stream := self.when_there(self.listener.accept)) is not None:
            taken = Taken(self.soak.folder / f"{self.name}.{len(self.taken)}")
            self.taken.append(taken)
            with contextlib.closing(stream[0]), open(taken.path, "wb") as file:
                self.take(stream[0], taken, file)
        return self.taken

    def when_there(self, call):
        """What a call answers that waits a tenth of a second; nothing where all is over and it waits."""
        while True:
            try:
                return call()
            except TimeoutError:
                if self.soak.over.is_set():
                    return None

    def take(self, stream, taken, file):
        """Takes what comes over a connection to its end, or leaves before."""
        stream.settimeout(0.1)
        while not taken.has_left:
            try:
                octets = self.when_there(lambda: stream.recv(1 << 18))
            except ConnectionResetError:
                taken.was_reset = True
                return
            if octets is None:
                taken.has_left = True
            elif not octets:
                return
            else:
                file.write(octets)
                self.after(stream, taken, len(octets))

    def after(self, stream, taken, count):
        """So many octets more were taken."""


class Staller(Collector):
    """A collector that takes nothing now and then."""

    has_little_room = True

    def __init__(self, soak, name):
        super().__init__(soak, name)
        self.next = time.monotonic() + self.random.uniform(*soak.plan.takes)

    def after(self, stream, taken, count):
        if time.monotonic() < self.next:
            return
        self.soak.over.wait(self.random.uniform(*self.soak.plan.stalls))
        self.next = time.monotonic() + self.random.uniform(*self.soak.plan.takes)


class Leaver(Collector):
    """A collector that goes in the first part of each run and comes back later."""

    run_seen = 0
    until_gone = None

    def after(self, stream, taken, count):
        plan, run = self.soak.plan, self.soak.runs_begun.value
        if run != self.run_seen:
            self.run_seen = run
            self.until_gone = self.random.uniform(*plan.stays) * plan.journal_octets
        if self.until_gone is None:
            return
        self.until_gone -= count
        if self.until_gone > 0:
            return
        # In this order, so that nobody connects between the two.
        self.listener.close()
        stream.close()
        taken.has_left, self.until_gone = True, None
        self.soak.over.wait(self.random.uniform(*plan.gone))
        self.listen()


class QuickAdmin(Admin):
    """The administrator's connection, read by whole lines."""

    def __init__(self, stream):
        super().__init__(stream)
        self.lines = stream.makefile("rb")

    def take_line(self):
        return self.take_whole_line().decode()

    def take_whole_line(self):
        line = self.lines.readline()
        if not line.endswith(b"\n"):
            raise EOFError(line)
        return line[:-1]

    def audit(self, most=10000):
        """The audit's lines, so many at most, as octets."""
        first = self.ask(f"audit {most}").split()
        assert first[0] == "ok", first
        return [self.take_whole_line() for _ in range(int(first[1]))]


class Administrator:
    """The administrator, who connects in each run."""

    def __init__(self, soak):
        self.soak = soak
        self.random = random.Random(f"{soak.plan.seed} administrator")
        self.asked, self.wrong = [], []

    def run(self):
        """Asks until all is over, and answers what came of each connection."""
        while not self.soak.over.is_set():
            stream, port = self.soak.connect("admin")
            if stream is None:
                break
            asked = Asked(port, self.soak.folder / f"audit.{port}")
            self.asked.append(asked)
            admin = QuickAdmin(stream)
            with contextlib.closing(stream), open(asked.path, "wb") as file:
                try:
                    self.administer(admin, asked, file)
                except EOFError as end:
                    if end.args[0]:
                        self.wrong.append(f"an answer to the administrator was cut off: {end.args[0]!r}")
                except OSError:
                    pass
            # Whoever comes at once while a run ends is given an answer again, and holds its end up.
            self.soak.over.wait(0.3)
        return self.asked

    def administer(self, admin, asked, file):
        """Gives commands until the run ends."""
        edit_at = advance_at = time.monotonic()
        while not self.soak.over.is_set():
            now = time.monotonic()
            if self.soak.stopping.is_set():
                self.expect(admin.ask("stop"), "ok")
                self.soak.over.wait(0.5)
            if now >= advance_at:
                asked.advances += self.expect(admin.ask(f"advance {self.soak.now()}"), "ok", "err JournalFull")
                advance_at = now + self.soak.plan.advances
            if now >= edit_at:
                asked.edits += self.expect(admin.edit(self.random.choice(POLICIES)), "ok ", "err JournalFull")
                edit_at = now + self.soak.plan.edits
                self.expect(admin.ask(f"status {self.random.randrange(1, 9)}"), "ok ", "err UnknownSub")
            lines = admin.audit()
            file.write(b"".join(line + b"\n" for line in lines))
            if len(lines) < 10_000:
                self.soak.over.wait(0.02)

    def expect(self, answer, *due):
        """Notes an answer that is none of these; answers whether it is the first of them."""
        if not answer.startswith(due):
            self.wrong.append(f"the administrator was answered {answer!r}")
        return answer.startswith(due[0])


class Sampler:
    """Looks at the server's memory as long as it runs."""

    def __init__(self, soak):
        self.soak = soak

    def run(self):
        """Answers what memory each run took when it was looked at last, in KiB, by the runs' numbers."""
        memory = {}
        status = pathlib.Path(f"/proc/{self.soak.run.child.pid}/status")
        with open(self.soak.run.path("notes"), encoding="utf-8") as notes:
            while not self.soak.over.is_set():
                self.soak.runs_begun.value += notes.read().count("[INFO  ipmd] run ")
                with contextlib.suppress(OSError, StopIteration):
                    line = next(line for line in status.read_text(encoding="ascii").splitlines() if line.startswith("VmRSS:"))
                    memory[self.soak.runs_begun.value] = int(line.split()[1])
                self.soak.over.wait(0.05)
        return memory


class Helper:
    """A process of its own that does a job, so that none waits for another's turn, and answers what came of it."""

    def __init__(self, job):
        self.job = job
        self.ours, self.its = FORK.Pipe()
        self.process = FORK.Process(target=self.work, daemon=True)
        self.process.start()
        self.its.close()

    def work(self):
        try:
            self.its.send((self.job(), None))
        except BaseException:
            self.its.send((None, traceback.format_exc()))

    def has_failed(self):
        return self.ours.poll() or not self.process.is_alive()

    def result(self):
        """What came of the job, when it is done."""
        result, fault = self.ours.recv()
        self.process.join()
        assert fault is None, fault
        return result


class Soak:
    """A soak, as a context, which has a folder for all that is kept of it. `play` makes it.

    Then there are: how the process `ended`, and how many seconds it `lasted`; what was `sent` over each connection of an exporter; what was
    `taken` over each of a collector, by its name; what was `asked` over each of the administrator; what of its answers was `wrong`; and
    the `memory` of each run at its end, in KiB.
    """

    def __init__(self, plan):
        self.plan = plan
        self.over, self.ready, self.runs_begun = FORK.Event(), FORK.Semaphore(0), FORK.Value("i", 0)
        self.stopping = threading.Event()
        self.begun = time.time()
        self.counted_from = self.begun - time.monotonic()

    def __enter__(self):
        self.keeping = tempfile.TemporaryDirectory(prefix="ipmd-soak-")
        self.folder = pathlib.Path(self.keeping.name)
        return self

    def __exit__(self, *_):
        self.keeping.cleanup()

    def now(self):
        """The time that records and the administrator tell, in milliseconds since 1970. It doesn't go back."""
        return int(1000 * (self.counted_from + time.monotonic()))

    def connect(self, key):
        """A connection to an address of the server, from a port that none had before, and that port; nothing where all is over."""
        own = free_port()
        while not self.over.is_set():
            try:
                return socket.create_connection((HOST, self.run.ports[key]), 15, source_address=(HOST, own)), own
            except ConnectionRefusedError:
                self.over.wait(0.02)
            except OSError:
                # The port may have been given to another, or have been used.
                own = free_port()
        return None, own

    def play(self):
        """Has everything happen, and answers the soak itself."""
        plan = self.plan
        listeners = {"acme": Collector(self, "acme"), "beta": Collector(self, "beta")}
        listeners |= {"gamma": Staller(self, "gamma"), "delta": Leaver(self, "delta")}
        self.run = Run(
            POLICIES[0], subscribers=(), listeners=listeners, connections=100, longest=plan.seconds + 120,
            endless=True, runs=plan.runs, journal=str(self.folder / "journal"), journal_octets=plan.journal_octets,
            queue=plan.queue, shapes=256, audit=4_000_000, reconnect=1, hold=plan.hold, idle=plan.idle, drain=plan.drain,
        )
        collectors = {name: Helper(listener.run) for name, listener in listeners.items()}
        exporters = Helper(self.export)
        administrator = Administrator(self)
        try:
            for _ in listeners:
                assert self.ready.acquire(timeout=PATIENCE), "a collector doesn't listen"
            with mock.patch.dict(os.environ, ARENAS | os.environ), self.run, ThreadPoolExecutor(2) as pool:
                try:
                    sampled, asked = pool.submit(Sampler(self).run), pool.submit(administrator.run)
                    self.wait_for_the_end([exporters, *collectors.values()])
                    self.ended = self.run.end(60)
                finally:
                    self.over.set()
        finally:
            self.over.set()
        self.lasted = time.time() - self.begun
        self.sent, self.taken = exporters.result(), {name: collector.result() for name, collector in collectors.items()}
        self.asked, self.wrong, self.memory = asked.result(), administrator.wrong, sampled.result()
        return self

    def export(self):
        """What all exporters send, each in a thread."""
        pace = Pace(self.plan.rate())
        with ThreadPoolExecutor(self.plan.exporters) as pool:
            each = [pool.submit(Exporter(self, pace, place).run) for place in range(self.plan.exporters)]
            return [one for exporter in each for one in exporter.result()]

    def wait_for_the_end(self, helpers):
        """Waits until the last run has ended, or the time is up, when the administrator is to stop the run."""
        end = time.monotonic() + self.plan.seconds
        while self.run.child.poll() is None:
            if time.monotonic() > end:
                self.stopping.set()
                return
            for helper in helpers:
                if helper.has_failed():
                    helper.result()
            time.sleep(0.05)
