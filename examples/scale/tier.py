"""The mediators of examples/scale: which they are, and how each is asked, by the admin connection that its `advance` holds."""
import os
import pathlib
import socket

# How many seconds an answer is waited for.
PATIENCE = 60


def mediators():
    """Of each mediator its name, the path of its socket, and whether it has a policy of its own: what the file says that
    IPMD_MEDIATORS names, else `mediators` beside this one."""
    path = os.environ.get("IPMD_MEDIATORS") or pathlib.Path(__file__).with_name("mediators")
    lines = pathlib.Path(path).read_text(encoding="utf-8").splitlines()
    words = [line.split() for line in lines if line.strip() and not line.startswith("#")]
    return [(name, path, more == ["own-policy"]) for name, path, *more in words]


def ask(path, command):
    """The answer to a command, in octets, as far as it came; none where nobody answers. Raises OSError where nobody is there."""
    with socket.socket(socket.AF_UNIX) as stream:
        stream.settimeout(PATIENCE)
        stream.connect(path)
        stream.sendall(command)
        pieces = []
        while piece := stream.recv(1 << 16):
            pieces.append(piece)
    return b"".join(pieces)
