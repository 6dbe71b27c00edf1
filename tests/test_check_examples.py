"""`tools/check_examples`: which examples it takes, in sources and tests that are made up."""
import re
import subprocess
import unittest

import program
from tool_copies import repository_with

TOOL = program.TOP / "tools" / "check_examples"

BODY = ["use low::{name};", "", "let value = {name}(alloc)?;", "if value {", "    assert!(rt; value);", "}"]

DOC = "crates/{crate}/src/{file}.rt"
TEST = "crates/tests_all/src/examples.rt"


def body(name):
    """The lines of an example."""
    return [line.replace("{name}", name) for line in BODY]


def commented(lines, margin=""):
    """A doc comment with these lines in its block."""
    inner = ["What it does.", "", "# Examples", "", "```rust", *lines, "```"]
    return "".join(f"{margin}/// {line}".rstrip() + "\n" for line in inner)


def tested(name, lines):
    """A test with these lines between its comments."""
    inner = [f"// Example of {name}.", *lines, "// End of the example.", "Ok(())"]
    return "#[test]\nfn example(rt: HostRuntime) -> Result<(), Fail> {\n" + "".join(f"    {line}".rstrip() + "\n" for line in inner) + "}\n"


def entry_points():
    """The names of the entry points, as the tool lists them."""
    listed = re.search(r"(?s)ENTRY_POINTS = \[(.*?)\]", TOOL.read_text(encoding="utf-8"))[1]
    return re.findall(r'"([\w:]+)"', listed)


def item(name):
    """An item of this name, as it stands in its source, with its example."""
    *types, last = name.split("::")[1:]
    lines = body(last)
    if types:
        header = f"impl<A: Into<Vec<u8>>, B> Model for {types[0]}<A, B> where A: Clone {{\n"
        return header + commented(lines, "    ") + f"    #[inline]\n    pub fn {last}<C>(&self) -> bool {{\n        true\n    }}\n}}\n"
    kind = "struct" if last[0].isupper() else "fn"
    return commented(lines) + f"#[derive(Drop)]\npub {kind} {last} {{}}\n"


class CheckExamples(unittest.TestCase):
    maxDiff = None

    def set_up(self):
        """A repository in which each entry point has its example and its test."""
        self.top = repository_with(self, "check_examples")
        self.names = entry_points()
        for name in self.names:
            self.write(DOC.format(crate=name.split("::")[0], file="lib"), "//! A crate.\n\n" + item(name))
        self.write(TEST, "//! Tests.\n" + "\n".join(tested(name, body(name.split("::")[-1])) for name in self.names))

    def write(self, path, text):
        (self.top / path).parent.mkdir(parents=True, exist_ok=True)
        (self.top / path).write_text(text, encoding="utf-8")

    def change(self, path, old, new):
        """Changes a text that stands once in a file."""
        text = (self.top / path).read_text(encoding="utf-8")
        self.assertEqual(text.count(old), 1, f"{old!r} in {path}")
        self.write(path, text.replace(old, new))

    def check(self):
        """The lines that it prints, and its status."""
        ran = subprocess.run([self.top / "tools" / "check_examples"], capture_output=True, text=True, timeout=60, check=False)
        self.assertEqual(ran.stderr, "")
        return ran.stdout.splitlines(), ran.returncode

    def test_all_are_there(self):
        self.set_up()
        self.assertEqual(len(self.names), 10)
        self.assertEqual(self.check(), ([], 0))

    def test_other_blocks(self):
        """A block of another kind is no example, and one more example wants a test as well."""
        self.set_up()
        path = DOC.format(crate="low", file="more")
        self.write(path, "/// What it does.\n///\n/// ```text\n/// any\n/// ```\npub fn any() {}\n")
        self.assertEqual(self.check(), ([], 0))
        self.write(path, commented(body("any")) + "pub fn any() {}\n")
        self.assertEqual(self.check(), ([f"{path}:6: no test has the example of low::any"], 1))
        self.write("crates/tests_more/src/examples.rt", tested("low::any", body("any")))
        self.assertEqual(self.check(), ([], 0))

    def test_another_line(self):
        """A line is changed, is missing or is too many, in the doc comment or in the test."""
        doc, first = DOC.format(crate="mediator_core", file="lib"), 8
        begin = "    let value = run(alloc)?;\n"
        for path, old, new, index in [
            (doc, "/// let value = run(alloc)?;\n", "/// let value = run(alloc);\n", 2),
            (doc, "///     assert!(rt; value);\n", "/// assert!(rt; value);\n", 4),
            (doc, "/// let value = run(alloc)?;\n", "", 2),
            (TEST, begin, "    let value = run(rt.alloc())?;\n", 2),
            (TEST, begin, "", 2),
            (TEST, begin, begin + "    assert!(rt; value);\n", 3),
        ]:
            with self.subTest(path=path, new=new):
                self.set_up()
                self.change(path, old, new)
                test = self.line_of(TEST, "// Example of mediator_core::run.") + 1
                what = f"the example of mediator_core::run goes on otherwise in its test, {TEST}:{test + index}"
                self.assertEqual(self.check(), ([f"{doc}:{first + index}: {what}"], 1))

    def line_of(self, path, text):
        """The number of the line of a file that has a text."""
        lines = (self.top / path).read_text(encoding="utf-8").splitlines()
        return next(number for number, line in enumerate(lines, 1) if text in line)

    def test_a_last_line(self):
        """The doc comment ends before the test does."""
        self.set_up()
        doc = DOC.format(crate="mediator_core", file="lib")
        self.change(doc, "/// }\n", "")
        found, status = self.check()
        self.assertEqual(status, 1)
        self.assertEqual([line.partition(" goes on")[0] for line in found], [f"{doc}:13: the example of mediator_core::run"])

    def test_one_missing(self):
        """An example without a test, a test without an example, and an entry point without either."""
        name, lines = "ipfix_message::Framer::feed", body("feed")
        doc = DOC.format(crate="ipfix_message", file="lib")
        self.set_up()
        self.change(TEST, tested(name, lines), "")
        self.assertEqual(self.check(), ([f"{doc}:9: no test has the example of {name}"], 1))
        self.write(doc, "//! A crate.\n")
        self.assertEqual(self.check(), ([f"crates/ipfix_message: {name} has no example"], 1))
        self.set_up()
        self.change(doc, "```rust", "```text")
        test = self.line_of(TEST, f"// Example of {name}.") + 1
        lacks = f"{TEST}:{test}: no doc comment has the example of {name}"
        self.assertEqual(self.check(), ([lacks, f"crates/ipfix_message: {name} has no example"], 1))

    def test_form(self):
        """Too few lines, too many, no assertion, two of one name, one that shows nothing public, and one that doesn't end."""
        path, name = DOC.format(crate="low", file="more"), "low::any"
        few, many = body("any")[2:], body("any") + ["let more = 1;"] * 15
        none = body("any")[:4] + ["}"]
        size = "low::any has {} lines: 5 to 20 are wanted"
        for lines, what in [
            (few, f"{path}:6: the example of {size.format(4)}"),
            (many, f"{path}:6: the example of {size.format(21)}"),
            (none, f"{path}:6: the example of {name} has no `assert!`"),
        ]:
            with self.subTest(what):
                self.set_up()
                self.write(path, commented(lines) + "pub fn any() {}\n")
                self.write("crates/tests_more/src/examples.rt", tested(name, lines))
                self.assertEqual(self.check(), ([what], 1))
        self.set_up()
        self.write(path, (commented(body("any")) + "pub fn any() {}\n") * 2)
        self.write("crates/tests_more/src/examples.rt", tested(name, body("any")) * 2)
        # A doc comment and its item have 13 lines, and a test has 12.
        found = [f"{path}:19: a second example of {name}", f"crates/tests_more/src/examples.rt:16: a second example of {name}"]
        self.assertEqual(self.check(), (found, 1))
        self.set_up()
        self.write(path, commented(body("any")) + "fn any() {}\n")
        self.assertEqual(self.check(), ([f"{path}:6: no test has the example of low::no public item"], 1))
        self.set_up()
        self.write(path, commented(body("any")) + "pub fn any() {}\n")
        self.write("crates/tests_more/src/examples.rt", tested(name, body("any")).replace("    // End of the example.\n", ""))
        at = "crates/tests_more/src/examples.rt:10"
        self.assertEqual(self.check(), ([f"{path}:12: the example of {name} goes on otherwise in its test, {at}"], 1))


if __name__ == "__main__":
    unittest.main()
