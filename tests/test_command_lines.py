"""What the words of a command line ask for."""
import pathlib
import re
import unittest

from runs import FLOW, FLOW_REPORT, OFFLINE, OFFLINE_HEX, PASS, Case, ProgramTest, run

TOP = pathlib.Path(__file__).resolve().parent.parent

# The newest version of which CHANGELOG.md tells, and the kit that README.md names.
VERSION = re.search(r"(?m)^## (\d+\.\d+\.\d+)$", (TOP / "CHANGELOG.md").read_text(encoding="utf-8"))[1]
KIT = re.search(r"rattle-kit-\w+ logic \w+", (TOP / "README.md").read_text(encoding="utf-8"))[0]

# The greatest numbers that there are, and those that hold where none is given: 0 seconds and 1400 octets, of which
# `default_target` in test_offline.py shows the second.
NUMBERS = [
    Case(
        "greatest numbers",
        [*OFFLINE, "--now", "4294967295", "--target", "65535"],
        errors="messages 0 records 0 disclosed 0\n",
    ),
    Case(
        "default numbers",
        OFFLINE_HEX,
        FLOW,
        output="000a003200000000000000000000000000020014010000030008000400070002000100040100000ec000024d01bb000005dc\n",
        errors=FLOW_REPORT,
    ),
]

ONE_POLICY = "exactly one of '--policy <FILE>' and '--policy-text <TEXT>' must be given"

# Command lines that are refused, and a part of the text that answers each. Where the policy is missing, the usage is that of
# the command that was named.
REFUSED = [
    ("no words", [], "requires a subcommand"),
    ("a misspelt command", ["ofline"], "unrecognized subcommand 'ofline'"),
    ("no policy to check", ["check-policy"], ONE_POLICY),
    ("two policies to check", ["check-policy", "--policy", "a", "--policy-text", "b"], ONE_POLICY),
    ("an option without its value", ["check-policy", "--policy"], "a value is required"),
    ("a word too many", ["check-policy", "--policy", "a", "b"], "unexpected argument 'b' found"),
    ("no subscriber", ["offline", "--policy", "a"], "--subscriber <NAME>"),
    ("no policy", ["offline", "--subscriber", "acme"], ONE_POLICY),
    ("two policies", [*OFFLINE, "--policy", "a"], ONE_POLICY),
    ("no settings", ["serve"], "--settings <FILE>"),
    ("no journal", ["verify", "--quiet"], "--journal <FILE>"),
    ("no subscription", ["explain", "--journal", "a"], "--sub <N>"),
    ("a subscription that is no number", ["explain", "--journal", "a", "--sub", "acme"], "invalid value 'acme' for '--sub <N>'"),
    ("an index out of range", ["explain", "--journal", "a", "--sub", "1", "--index", "4294967296"], "invalid value '4294967296'"),
    ("two journals", ["verify", "--journal", "a", "--journal", "b"], "cannot be used multiple times"),
    (
        "usage of the command: check-policy",
        ["check-policy"],
        "\nUsage: ipmd check-policy (--policy <FILE> | --policy-text <TEXT>)\n",
    ),
    (
        "usage of the command: offline",
        ["offline", "--subscriber", "acme"],
        "\nUsage: ipmd offline (--policy <FILE> | --policy-text <TEXT>) --subscriber <NAME> [OPTIONS]\n",
    ),
    ("an option misspelt", [*OFFLINE, "--hexx"], "unexpected argument '--hexx' found"),
    ("an option of the other command", ["check-policy", "--policy", "a", "--hex"], "unexpected argument '--hex' found"),
    (
        "an option given twice",
        [*OFFLINE, "--now", "1", "--now", "2"],
        "'--now <SECONDS>' cannot be used multiple times",
    ),
    # Numbers that an option doesn't take.
    ("a time past 32 bits", [*OFFLINE, "--now", "4294967296"], "--now"),
    ("a time that is no number", [*OFFLINE, "--now", "x"], "--now"),
    ("a time that is empty", [*OFFLINE, "--now", ""], "--now"),
    ("a target past 16 bits", [*OFFLINE, "--target", "65536"], "--target"),
    ("a target in another form", [*OFFLINE, "--target", "1e3"], "--target"),
]

# Command lines that ask for a text, and a part of it.
SHOWN = [
    ("--help", ["--help"], "check-policy"),
    ("help", ["help"], "Usage: ipmd <COMMAND>"),
    ("offline --help: options", ["offline", "--help"], "--audit <FILE>"),
    ("offline -h: examples", ["offline", "-h"], "\n  ipmd offline --policy"),
    ("offline --help: what becomes of aggregates", ["offline", "--help"], "no advance closes them here"),
    ("verify --help: options", ["verify", "--help"], "--quiet"),
    ("help verify", ["help", "verify"], "\n  ipmd verify --journal run.journal"),
    ("explain --help: options", ["explain", "--help"], "--position <P>"),
    ("help explain", ["help", "explain"], "\n  ipmd explain --journal run.journal --sub 1 --position 5"),
    ("check-policy --help: examples", ["check-policy", "--help"], "\n  ipmd check-policy --policy-text"),
    (
        "serve --help: the levels of the notes",
        ["serve", "--help"],
        "info for the run and for what\nconnects and ends",
    ),
    ("--version", ["--version"], f"ipmd {VERSION}, proved with {KIT}\n"),
]


class CommandLines(ProgramTest):
    def test_numbers(self):
        self.expect_all(NUMBERS)

    def test_refused(self):
        for name, words, part in REFUSED:
            with self.subTest(name):
                ran = run(words)
                self.assertTrue(ran.errors.startswith("error: "), ran.errors)
                self.assertTrue(ran.errors.endswith("\n") and not ran.errors.endswith("\n\n"), ran.errors)
                self.assertIn(part, ran.errors)
                self.assertEqual((ran.output, ran.status), (b"", 2))

    def test_shown(self):
        for name, words, part in SHOWN:
            with self.subTest(name):
                ran = run(words)
                self.assertIn(part, ran.output.decode())
                self.assertEqual((ran.errors, ran.status), ("", 0))


if __name__ == "__main__":
    unittest.main()
