"""`ipmd check-policy`: whether a text is a policy. Each kind of fault is shown by a file of `examples/faults`."""
import unittest

from runs import PASS, Case, ProgramTest

RULE = "rule for * in * from * to * pass\n"


def checked(name, text, *left):
    return Case(name, ["check-policy", "--policy-text", text], b"", *left)


TEXTS = [
    checked(
        "bits past the prefix",
        "policy 1;rule for a in * from 192.0.2.1/24 to * pass",
        1,
        "",
        "ipmd: policy line 2: BadPrefix\n",
    ),
    checked("all passes", PASS, 0, "rules 2 aggregates 0\n"),
    checked(
        "an aggregate",
        "policy 1;aggregate web key destinationTransportPort interval 300 grace 60;"
        "rule for acme in * from * to * aggregate web",
        0,
        "rules 1 aggregates 1\n",
    ),
    checked(
        "a key of two elements",
        "policy 1;aggregate web key destinationTransportPort,protocolIdentifier interval 300 grace 60",
        0,
        "rules 0 aggregates 1\n",
    ),
    checked("an empty text", "", 1, "", "ipmd: policy line 1: NoHeader\n"),
    checked(
        "lines that say nothing are counted",
        "policy 1;;# pass;rule",
        1,
        "",
        "ipmd: policy line 4: UnknownWord\n",
    ),
    # A carriage return parts words, so a policy may have the line ends of Windows.
    checked(
        "line ends of Windows",
        "policy 1\r\n\r\n# all\r\nrule for * in * from * to * pass\r\nrule for * in * from * to * element * keep\r\n",
        0,
        "rules 2 aggregates 0\n",
    ),
    checked("a header alone", "policy 2", 0, "rules 0 aggregates 0\n"),
    checked(
        "times that are degraded",
        "policy 2;rule for acme in * from * to * element flowStartMilliseconds degrade 300",
        0,
        "rules 1 aggregates 0\n",
    ),
    checked(
        "version 1 knows no such rule",
        "policy 1;rule for acme in * from * to * element flowStartMilliseconds degrade 300",
        1,
        "",
        "ipmd: policy line 2: UnknownWord\n",
    ),
    # A byte order mark is no blank: the first line that has words is no header.
    checked("a byte order mark", "\ufeffpolicy 1\n", 1, "", "ipmd: policy line 1: NoHeader\n"),
]

# What a file holds, and how the check of it ends.
FILES = [
    (
        "all passes",
        "# all\npolicy 1\n\nrule for * in * from * to * pass\nrule for * in * from * to * element * keep\n",
        0,
        "rules 2 aggregates 0\n",
        "",
    ),
    ("a semicolon is no line end in a file", PASS, 1, "", "ipmd: policy line 1: NoHeader\n"),
    ("as many rules as there may be", "policy 1\n" + 4096 * RULE, 0, "rules 4096 aggregates 0\n", ""),
    ("a rule too many", "policy 1\n" + 4097 * RULE, 1, "", "ipmd: policy line 4098: TooMany\n"),
]


class Policies(ProgramTest):
    def test_texts(self):
        self.expect_all(TEXTS)

    def test_files(self):
        for name, content, status, output, errors in FILES:
            path = self.file("policy.txt", content)
            self.expect(Case(name, ["check-policy", "--policy", path], b"", status, output, errors))


if __name__ == "__main__":
    unittest.main()
