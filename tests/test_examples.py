"""The examples of `examples/`: what each command writes, how each policy with a fault is answered, and each list of calls."""
import shlex
import subprocess
import unittest

from program import TOP
from runs import ProgramTest, run

EXAMPLES = TOP / "examples"


def found(pattern):
    """The files of `examples/` that fit, of which there must be some."""
    paths = sorted(EXAMPLES.glob(pattern))
    assert paths, pattern
    return paths


class Examples(ProgramTest):
    def test_commands(self):
        for path in found("*/command.txt"):
            folder = path.parent
            with self.subTest(folder.name):
                audit = self.file("audit.txt")
                words = shlex.split(path.read_text())
                self.assertEqual((words[0], words[-2]), ("ipmd", "<"))
                ran = run([self.named(word, audit) for word in words[1:-2]], (TOP / words[-1]).read_bytes())
                self.expect_ran(ran, 0, (folder / "output.hex").read_text(), (folder / "report.txt").read_text())
                self.expect_file(audit, (folder / "audit.txt").read_text())

    def named(self, word, audit):
        """A word of a command, with the file that it names from the top of the repository."""
        if word == "audit.txt":
            return audit
        return str(TOP / word) if word.startswith("examples/") else word

    def test_policies_with_faults(self):
        for path in found("faults/*.txt"):
            with self.subTest(path.name):
                said = path.read_text().splitlines()[0].removeprefix("# ")
                self.expect_ran(run(["check-policy", "--policy", str(path)]), 1, "", said + "\n")

    def test_lists_of_calls(self):
        for path in found("*/calls.txt"):
            with self.subTest(path.parent.name):
                self.expect_ran(run(["replay", "--calls", str(path)]), 0, (path.parent / "answers.txt").read_text(), "")

    def test_journals(self):
        for path in found("*/run.hex"):
            with self.subTest(path.parent.name):
                journal = self.file("run.journal", bytes.fromhex(path.read_text()))
                self.expect_ran(run(["verify", "--journal", journal]), 0, (path.parent / "found.txt").read_text(), "")
                asked = run(["explain", "--journal", journal, "--sub", "2", "--position", "6"])
                self.expect_ran(asked, 0, (path.parent / "explained.txt").read_text(), "")
                listed = subprocess.run([path.parent / "entries", journal], capture_output=True, text=True, check=True)
                self.assertEqual(len(listed.stdout.splitlines()), 7)


if __name__ == "__main__":
    unittest.main()
