"""Peers of `ipmd serve`: exporters, collectors and the administrator. No wait of theirs is longer than PATIENCE seconds,
of which a machine that is busy with much else may need some."""
import contextlib
import random
import socket
import time

from messages import HEADER

PATIENCE = 60.0
HOST = "127.0.0.1"

# Ports below those that the system chooses for connections, so that nobody is given one meanwhile.
PORTS = range(10000, 32000)
given = set()


def free_port():
    """A port that nobody listens on, and that no test was given before."""
    for port in random.sample(PORTS, 200):
        with socket.socket() as one:
            try:
                one.bind((HOST, port))
            except OSError:
                continue
        if port not in given:
            given.add(port)
            return port
    raise OSError("no free port")


def wait_until(holds, what, patience=PATIENCE):
    """Waits until something holds, and answers what it gave; fails when it doesn't in time."""
    end = time.monotonic() + patience
    while True:
        found = holds()
        if found:
            return found
        if time.monotonic() > end:
            raise AssertionError(f"not within {patience} seconds: {what}")
        time.sleep(0.005)


class Peer:
    """One end of a connection."""

    def __init__(self, stream):
        stream.settimeout(PATIENCE)
        stream.setsockopt(socket.IPPROTO_TCP, socket.TCP_NODELAY, 1)
        self.stream = stream

    def send(self, octets):
        self.stream.sendall(octets)

    def take(self, count):
        """Reads so many octets."""
        octets = bytearray()
        while len(octets) < count:
            more = self.stream.recv(count - len(octets))
            if not more:
                raise AssertionError(f"an end behind {len(octets)} octets of {count}")
            octets += more
        return bytes(octets)

    def take_message(self):
        """Reads a message."""
        front = self.take(4)
        return front + self.take(int.from_bytes(front[2:], "big") - len(front))

    def take_line(self):
        """Reads a line, without its line feed."""
        line = bytearray()
        while not line.endswith(b"\n"):
            line += self.take(1)
        return line[:-1].decode()

    def take_all(self):
        """Reads to the end, and then says that no more comes."""
        octets = b"".join(self.pieces())
        with contextlib.suppress(OSError):
            self.end_sending()
        return octets

    def pieces(self):
        while more := self.stream.recv(1 << 20):
            yield more

    def take_end(self):
        """Reads to the end, or to a reset: that is how a connection ends of which octets were left unread."""
        octets = b""
        try:
            for more in self.pieces():
                octets += more
        except ConnectionResetError:
            pass
        return octets

    def take_reset(self):
        """Reads until the connection is reset, as that of a subscription is that was cut."""
        octets = b""
        try:
            for more in self.pieces():
                octets += more
        except ConnectionResetError:
            return octets
        raise AssertionError(f"an end behind {len(octets)} octets, and no reset")

    def end_sending(self):
        """Says that no more comes."""
        self.stream.shutdown(socket.SHUT_WR)

    def close(self):
        self.stream.close()


class Admin(Peer):
    """The administrator's connection."""

    def ask(self, command):
        """Gives a command, and answers its answer of one line."""
        self.send(command.encode() + b"\n")
        return self.take_line()

    def edit(self, policy):
        """Puts a policy in force, and answers the answer."""
        octets = policy.encode()
        self.send(b"edit %d\n" % len(octets) + octets)
        return self.take_line()

    def audit(self, most=10000):
        """Answers the audit's lines, so many at most."""
        return self.page(f"audit {most}")

    def page(self, command):
        """Gives a command that is answered by lines, and answers these."""
        first = self.ask(command).split()
        assert first[0] == "ok", first
        return [self.take_line() for _ in range(int(first[1]))]


def reach(port, kind=Peer):
    """Connects to a program that listens, or is about to."""

    def try_once():
        try:
            return socket.create_connection((HOST, port), PATIENCE)
        except ConnectionRefusedError:
            return None

    return kind(wait_until(try_once, f"someone listens on port {port}"))


class Listener:
    """Where a collector listens, on a port that was free.

    With `room`, the system keeps about so many octets for it; with `segment`, it is sent segments of so many octets.
    """

    def __init__(self, room=None, segment=None):
        self.listener = socket.socket()
        if segment is not None:
            # Twelve octets of each segment are TCP's time stamps.
            self.listener.setsockopt(socket.IPPROTO_TCP, socket.TCP_MAXSEG, segment + 12)
        if room is not None:
            self.listener.setsockopt(socket.SOL_SOCKET, socket.SO_RCVBUF, room)
        self.listener.bind((HOST, 0))
        self.listener.listen()
        self.listener.settimeout(PATIENCE)
        self.port = self.listener.getsockname()[1]
        self.taken = []

    def accept(self):
        """The collector's end of the connection."""
        peer = Peer(self.listener.accept()[0])
        self.taken.append(peer)
        return peer

    def __enter__(self):
        return self

    def __exit__(self, *_):
        self.close()

    def close(self):
        self.listener.close()
        for peer in self.taken:
            peer.close()
