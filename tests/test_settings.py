"""The settings of `ipmd serve`: at each key what is missing, of another type or at the ends of its range; texts that are no TOML
or too long; and what is said where nothing can be served."""
import errno
import unittest

from runs import DEVICE, ProgramTest, failed, run

# A path at which there is nothing: a run whose settings are right ends there, and says so.
NOWHERE = "/nowhere/policy"
NO_POLICY = failed(NOWHERE, errno.ENOENT)

# Settings of which each key that must be there has a value that it may have, in the order in which keys are judged.
USUAL = {
    "exporters": '"127.0.0.1:0"',
    "admin": '"127.0.0.1:0"',
    "policy": f'"{NOWHERE}"',
    "connections": "1",
    "target": "1400",
    "workers": "2",
    "queue": "100",
    "shapes": "100",
    "audit": "100",
    "journal_entries": "1000",
    "journal_octets": "1000000",
    "turns": "1000",
    "deliver": "{}",
}

# Values that a key may not have: of another type, or just out of its range.
REFUSED = {
    "exporters": ["4739", '["127.0.0.1:4739"]'],
    "admin": ["true"],
    "policy": ["1979-05-27", '["policy"]'],
    "connections": ["0", "1001", "-1", '"1"', '"2"', "2.0"],
    "target": ["15", "65536", '"1400"', "1400.0"],
    "workers": ["0", "65", "-1", '"2"', "2.0"],
    "queue": ["0", "1000001", "true", "{}"],
    "shapes": ["0", "65281", "[1]", '"100"'],
    "audit": ["0", "10000001", "{ most = 1 }", "[]"],
    "journal_entries": ["0", "100000001", "1e3"],
    "journal_octets": ["0", "1099511627777", "9223372036854775807", "-9223372036854775808", '""', "false"],
    "turns": ["0", "1000000001", "inf", "-1"],
    "deliver": ['"127.0.0.1:4740"', "[]", "{ acme = 4740 }", '{ acme = "127.0.0.1:4740", beta = {} }'],
    "journal": ["1", "false", '["/nowhere/journal"]', '{ path = "/nowhere/journal" }'],
    "runs": ["0", "1001", "-1", '"5"', "5.0", "[5]"],
    "idle": ["0", "86401", "-1", '"60"', "60.0", "false"],
    "reconnect": ["0", "3601", "-1", '"5"', "true"],
    "hold": ["0", "60001", "-100", "1e3", "[100]"],
    "drain": ["0", "86401", "-1", '"30"', "{ seconds = 30 }"],
    "endless": ["0", "1", '"true"', '"false"', "[true]", "{}"],
}

# Values at the ends of the ranges, and texts that are judged elsewhere.
TAKEN = {
    "exporters": ['""'],
    "admin": ["'nowhere'"],
    "policy": ['""'],
    "connections": ["1", "1000"],
    "target": ["16", "65535"],
    "workers": ["1", "64"],
    "queue": ["1", "1000000"],
    "shapes": ["1", "65280"],
    "audit": ["1", "10_000_000"],
    "journal_entries": ["1", "100000000"],
    "journal_octets": ["1", "1099511627776", "0x10000000000"],
    "turns": ["1", "1000000000"],
    "deliver": ["{}", '{ "No NAME" = "" }'],
    "journal": ['"/nowhere/journal"'],
    "runs": ["1", "1000"],
    "idle": ["1", "86400"],
    "reconnect": ["1", "3600"],
    "hold": ["1", "60000", "60_000"],
    "drain": ["1", "86400"],
    "endless": ["true", "false"],
}

# Texts that are no TOML.
NO_TOML = [
    "exporters",
    "exporters = 127.0.0.1:4739",
    'exporters = "127.0.0.1:4739',
    "turns = 1\nturns = 1\n",
    'deliver = { acme = "a", acme = "b" }',
]

# Settings up to the number of connections.
FRONT = 'exporters = "e"\nadmin = "a"\npolicy = "p"\nconnections = 1\n'

# Texts with several faults, and the key that is named.
FIRST = [
    ("", "exporters"),
    ("# nothing\n", "exporters"),
    ("turns = 0\ndeliver = 1\nadmin = 1\npolicy = 1\n", "exporters"),
    ('policy = "p"\nexporters = "e"\nturns = 0\n', "admin"),
    (FRONT + "workers = 0\ntarget = 15\n", "target"),
    (FRONT + "queue = 0\nworkers = 65\ntarget = 16\n", "workers"),
    (FRONT + "queue = 0\ntarget = 16\n", "workers"),
    (FRONT + "target = 16\nworkers = 1\naudit = 0\njournal_octets = 0\nqueue = 1\n", "shapes"),
    ('[settings]\nexporters = "e"\nadmin = "a"\npolicy = "p"\n', "exporters"),
]

# Values of several keys, and the key that is named.
FIRST_BEHIND_TURNS = [
    ({"runs": "0", "journal": "1", "deliver": "1"}, "deliver"),
    ({"runs": "0", "journal": "1", "deliver": None}, "deliver"),
    ({"runs": "0", "journal": "1"}, "journal"),
    ({"runs": "0", "journal": '"/nowhere/journal"'}, "runs"),
    ({"endless": "1", "drain": "0", "hold": "0", "reconnect": "0", "idle": "0", "runs": "0"}, "runs"),
    ({"endless": "1", "drain": "0", "hold": "0", "reconnect": "0", "idle": "0"}, "idle"),
    ({"endless": "1", "drain": "0", "hold": "0", "reconnect": "0", "idle": "1"}, "reconnect"),
    ({"endless": "1", "drain": "0", "hold": "0", "reconnect": "1"}, "hold"),
    ({"endless": "1", "drain": "0", "hold": "1"}, "drain"),
    ({"endless": "1", "drain": "1"}, "endless"),
]

PASS_ALL = "policy 1\nrule for * in * from * to * pass\nrule for * in * from * to * element * keep\n"

# Runs that end behind the note of their begin: the policy, the key with another value, and how the run ends.
UNSERVED = [
    (
        "a policy that is none",
        "policy 1\nrule for acme\n",
        {},
        1,
        "ipmd: policy line 2: UnknownWord\n",
    ),
    ("an address without a port", PASS_ALL, {"exporters": '"127.0.0.1"'}, 3, DEVICE),
    ("a collector that isn't there", PASS_ALL, {"deliver": '{ acme = "127.0.0.1:0" }'}, 3, DEVICE),
]


def settings(values):
    """The text of the usual settings, with these values; a value of None leaves the key out."""
    rows = (USUAL | values).items()
    return "".join(f"{key} = {value}\n" for key, value in rows if value is not None)


# The most octets that settings may have.
LONGEST_TEXT = 65536

# Texts that a comment makes as long as they may be, and how a run ends then: at the policy's file, at a key, as no TOML.
LONG = [
    (settings({}), 3, NO_POLICY),
    (settings({}) + "# a letter of two octets: \u00e9\n", 3, NO_POLICY),
    (settings({"turns": "0"}), 1, "ipmd: settings: turns\n"),
    ("exporters\n", 1, "ipmd: settings: toml\n"),
]


def padded(text, octets):
    """The text with a comment behind it, so that it has this many octets."""
    return text.encode().ljust(octets, b"#")


class Settings(ProgramTest):
    def serve(self, text):
        return run(["serve", "--settings", self.file("settings.toml", text)])

    def expect(self, text, status, errors):
        """Nothing is served, and this is said."""
        with self.subTest(text):
            self.expect_ran(self.serve(text), status, "", errors)

    def test_missing(self):
        for key in USUAL:
            self.expect(settings({key: None}), 1, f"ipmd: settings: {key}\n")

    def test_refused(self):
        for key, values in REFUSED.items():
            for value in values:
                self.expect(settings({key: value}), 1, f"ipmd: settings: {key}\n")

    def test_taken(self):
        """The run comes as far as the policy's file."""
        for key, values in TAKEN.items():
            for value in values:
                self.expect(settings({key: value}), 3, failed("", errno.ENOENT) if key == "policy" else NO_POLICY)

    def test_no_toml(self):
        for text in NO_TOML:
            self.expect(text, 1, "ipmd: settings: toml\n")

    def test_length(self):
        """A text of the greatest length is read, and of a longer one nothing else is judged."""
        for text, status, errors in LONG:
            with self.subTest(text):
                self.expect_ran(self.serve(padded(text, LONGEST_TEXT)), status, "", errors)
                self.expect_ran(self.serve(padded(text, LONGEST_TEXT + 1)), 1, "", "ipmd: settings: length\n")

    def test_first_fault(self):
        for text, key in FIRST + [(settings(values), key) for values, key in FIRST_BEHIND_TURNS]:
            self.expect(text, 1, f"ipmd: settings: {key}\n")

    def test_policy(self):
        """The policy's file, by its path as the settings have it: a folder, and one that isn't UTF-8."""
        self.expect(settings({"policy": '"/tmp"'}), 3, failed("/tmp", errno.EISDIR))
        path = self.file("policy.txt", b"policy 1\n\xff")
        self.expect(settings({"policy": f'"{path}"'}), 3, failed(path, "not UTF-8, octet 9"))
        # A line feed in the path.
        self.expect(settings({"policy": '"/nowhere/a\\nb"'}), 3, failed("/nowhere/a?b", errno.ENOENT))

    def test_unserved(self):
        for name, policy, values, status, fault in UNSERVED:
            with self.subTest(name):
                path = self.file("policy.txt", policy)
                ran = self.serve(settings({"policy": f'"{path}"'} | values))
                self.assertRegex(ran.errors.partition("\n")[0], r"^(\S+ )?\[INFO  ipmd\] run 1$")
                self.assertTrue(ran.errors.endswith(fault), ran.errors)
                self.assertEqual((ran.output, ran.status), (b"", status))


if __name__ == "__main__":
    unittest.main()
