"""Runs of the program on words and octets, and what they must leave."""
import os
import pathlib
import subprocess
import tempfile
import unittest
from typing import NamedTuple

import program

# A policy that passes each record whole, as a word: each `;` is a line end.
PASS = "policy 1;rule for * in * from * to * pass;rule for * in * from * to * element * keep"

# A policy that passes nothing, so that an audit line is due.
WITHHOLD = "policy 1;rule for * in * from * to * withhold"

# The words of a run for acme, to whom all passes; and the same of a stream in hexadecimal.
OFFLINE = ["offline", "--policy-text", PASS, "--subscriber", "acme"]
OFFLINE_HEX = [*OFFLINE, "--hex"]

# The Export Time that the worked cases ask for, 6553f13c in hexadecimal.
NOW = "1700000060"

# A message with a template of source address, source port and octet count, and one record; and what acme gets of it where
# all passes.
FLOW = "000a0032 6553f100 00000000 00000007  00020014 01000003 00080004 00070002 00010004  0100000e c000024d 01bb 000005dc"
FLOW_PASSED = "000a0032 6553f13c 00000000 00000000  00020014 01000003 00080004 00070002 00010004  0100000e c000024d 01bb 000005dc\n"

# The report on it.
FLOW_REPORT = "messages 1 records 1 disclosed 1\n"

# What is said last where a file or a stream fails.
DEVICE = "ipmd: device\n"


def failed(name, why):
    """All that is said where what has this name fails: for an error by its number the system's words for it, or these."""
    said = f"{os.strerror(why)} (os error {why})" if isinstance(why, int) else why
    return f"ipmd: {name}: {said}\n{DEVICE}"


# How long a run may last, in seconds.
LONGEST = 60


class Case(NamedTuple):
    """A run, and what it must leave: a status and two texts."""

    name: str
    words: list
    input: str | bytes = b""
    status: int = 0
    output: str | bytes = ""
    errors: str = ""


class Ran(NamedTuple):
    """What a run left."""

    status: int
    output: bytes
    errors: str


def octets(text):
    return text.encode() if isinstance(text, str) else text


def run(words, given=b""):
    """Runs the program on these words, with this text or these octets on standard input."""
    ran = subprocess.run([program.path(), *words], input=octets(given), capture_output=True, timeout=LONGEST)
    return Ran(ran.returncode, ran.stdout, ran.stderr.decode())


class ProgramTest(unittest.TestCase):
    """Tests of runs, which may have files in a folder of their own."""

    maxDiff = None

    def file(self, name, content=None):
        """The path of a file in the test's folder, which has this content, or isn't there."""
        if not hasattr(self, "folder"):
            folder = tempfile.TemporaryDirectory(prefix="ipmd-test-")
            self.addCleanup(folder.cleanup)
            self.folder = pathlib.Path(folder.name)
        path = self.folder / name
        path.unlink(missing_ok=True)
        if content is not None:
            path.write_bytes(octets(content))
        return str(path)

    def expect_file(self, path, wanted):
        """A file has this text."""
        self.assertEqual(pathlib.Path(path).read_text(encoding="utf-8"), wanted)

    def expect_ran(self, ran, status, output, errors):
        """A run left this."""
        self.assertEqual((ran.errors, ran.output, ran.status), (errors, octets(output), status))

    def expect(self, case):
        """A case runs so."""
        with self.subTest(case.name):
            self.expect_ran(run(case.words, case.input), case.status, case.output, case.errors)

    def expect_all(self, cases):
        for case in cases:
            self.expect(case)
