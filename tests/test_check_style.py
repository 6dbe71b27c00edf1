"""`tools/check_style`: what it finds in sources, definitions and pages that are made up."""
import subprocess
import unittest

from tool_copies import repository_with

KINDS = ("clause", "arguments", "function", "head", "comment", "parameter", "name", "prose", "number")

HEAD = "//! What this is for.\n"

# Sources, definitions and pages in which nothing is found: at the bounds, in comments and texts, and implicit arguments.
RIGHT = {
    "crates/low/src/lib.rt": HEAD
    + "ghost use Rattle.low.specs.Numbers.{header_octets};\n\nuse std::alloc::Global;\n\n/// The octets of a header.\npub const HEADER_OCTETS: usize = 16;\n\nconst PIECE: usize = 65_536;\n\n"
    + "fn at_the_bound(text: &str) -> bool\n"
    + "    ensures bound { " + "x" * 98 + " }\n{\n"
    + "    // A brace { and fn wide() ensures { in a comment.\n    let brace = '{';\n" + "    let text = \"}\";\n" + "    step();\n" * 39 + "}\n",
    "crates/low/specs/Numbers.antt": "-- The numbers.\nabbrev pub header_octets : ℕ\nheader_octets = 16\n\n"
    + "pub record Seven {A : Type 0} (a b : A) (c d e : ℕ) (f : A → A) (g : ℕ) : Type 0 where\n  pub is : a ≡ b\n\n"
    + "abbrev pub IsSeven : {A : Type 0} → A → A → (ℕ → ℕ → ℕ) → ℕ → (m n : ℕ)\n    → ℕ → Type 0\nIsSeven a b f n m o p = n ≡ m\n",
    "crates/high/src/lib.rt": HEAD
    + "ghost use Rattle.high.specs.Helpers.{header_octets};\n\nuse low::HEADER_OCTETS;\n\n"
    + "/// The sum of `one` and what `other` answers, in memory from an allocator.\n#[inline]\n"
    + "pub fn add<F: Fn(u64) -> u64>(alloc: Global, one: u64, other: F) -> u64 {\n    one\n}\n\nconst PIECE: usize = 65_536;\n\nconst LEAST: u64 = HEADER_OCTETS as u64;\n\nconst TEMPLATE_OCTETS: usize = 16;\n",
    "crates/tests_high/src/lib.rt": HEAD + "const HEADER_OCTETS: usize = 0x10;\n\n/// No name is needed here.\npub fn play(turns: u64) {}\n",
    "docs/PAGE.md": "# A page\n\n" + "y" * 50 + " " + "z" * 49 + "\n",
}

# One file more, or another one in the place of one; what is found in it, and of which kind that is.
WRONG = [
    ("crates/low/src/more.rt", "ghost use A.{b};\n" + HEAD, "1: the file doesn't begin with what it is for (//!)", "head"),
    (
        "crates/low/src/more.rt",
        HEAD + "fn f()\n" + "    ensures wide { " + "x" * 100 + " }\n{}\n",
        "3: a clause's line has 121 columns, and 120 at most", "clause",
    ),
    (
        "crates/low/src/more.rt",
        HEAD + "fn f()\n    requires long { record {\n        a = b } × (c ≡\n        " + "λ" * 120 + ") }\n{}\n",
        "5: a clause's line has 131 columns, and 120 at most", "clause",
    ),
    (
        "crates/low/src/more.rt",
        HEAD + "impl Model for A {\n    ghost invariant = { " + "x" * 120 + " };\n}\n",
        "3: a clause's line has 147 columns, and 120 at most", "clause",
    ),
    (
        "crates/low/src/more.rt",
        HEAD + "impl A {\n    fn long(&self)\n        ensures { a }\n    {\n" + "        step();\n" * 43 + "    }\n}\n",
        "3: `long` has 46 lines without its clauses, and 45 at most", "function",
    ),
    (
        "crates/low/specs/More.antt",
        "pub record Eight {A : Type 0} (a b c : A) (d e f : ℕ)\n    (g h : A) : Type 0 where\n  pub is : a ≡ b\n",
        "1: `Eight` takes 8 arguments, and 7 at most", "arguments",
    ),
    (
        "crates/low/specs/More.antt",
        "-- A comment → of → arrows.\nunfoldable pub IsEight : ℕ → (a b : ℕ) → (ℕ → ℕ) → List (ℕ × ℕ) → ℕ\n    → {n : ℕ} → ℕ → ℕ → Type 0\n",
        "2: `IsEight` takes 8 arguments, and 7 at most", "arguments",
    ),
    (
        "crates/high/src/lib.rt",
        HEAD + "const MESSAGE_HEADER: u16 = 0x10;\n",
        "2: 16 is `MESSAGE_HEADER` here, and `header_octets` in low/specs/Numbers.antt:3", "number",
    ),
    (
        "crates/low/src/more.rt",
        HEAD + "/// Fails after so many calls.\nfn f() {}\n",
        '2: a comment says "so many", or begins with "The same"', "comment",
    ),
    (
        "crates/low/src/more.rt",
        HEAD + "/// The length.\nfn f() {}\n\n/// The same of others.\nfn g() {}\n",
        '5: a comment says "so many", or begins with "The same"', "comment",
    ),
    (
        "crates/low/src/more.rt",
        HEAD + "impl A {\n    /// Adds `one` and another.\n    pub fn add<F: Fn(u8) -> u8>(&mut self, one: u8, other: F) -> u8 {\n        one\n    }\n}\n",
        "4: the comment of `add` doesn't name `other`", "parameter",
    ),
    (
        "crates/high/specs/More.antt",
        "abbrev pub IsSeven : ℕ → Type 0\nIsSeven n = n ≡ 7\n",
        "1: `IsSeven` is a definition of low/specs/Numbers.antt too", "name",
    ),
    (
        "crates/high/specs/Helpers.antt",
        "abbrev pub header_octets : ℕ\nheader_octets = 7\n",
        "1: `header_octets` is a definition of low/specs/Numbers.antt too", "name",
    ),
    ("docs/PAGE.md", "# A page\n\n" + "y" * 50 + " " + "z" * 50 + "\n", "3: 101 columns, and 100 at most", "prose"),
]


class CheckStyle(unittest.TestCase):
    maxDiff = None

    def set_up(self):
        """A repository in which nothing is found."""
        self.top = repository_with(self, "check_style", "check_pages")
        (self.top / "crates.txt").write_text("high: low  # above\nlow:\ntests_high: high\n")
        for path, text in RIGHT.items():
            self.write(path, text)

    def write(self, path, text):
        (self.top / path).parent.mkdir(parents=True, exist_ok=True)
        (self.top / path).write_text(text, encoding="utf-8")

    def check(self, *words):
        """The lines that it prints, and its status."""
        ran = subprocess.run([self.top / "tools" / "check_style", *words], capture_output=True, text=True, timeout=60, check=False)
        self.assertEqual(ran.stderr, "")
        return ran.stdout.splitlines(), ran.returncode

    def test_right(self):
        self.set_up()
        counts = [f"{kind}: 0" for kind in KINDS]
        self.assertEqual(self.check(), (counts, 0))
        self.assertEqual(self.check("--count"), (counts, 0))

    def test_wrong(self):
        for path, text, wanted, kind in WRONG:
            with self.subTest(wanted):
                self.set_up()
                self.write(path, text)
                folder, crate, *_ = path.split("/")
                where = crate if folder == "crates" else folder
                counts = [f"{one}: 1 ({where} 1)" if one == kind else f"{one}: 0" for one in KINDS]
                self.assertEqual(self.check(), ([f"{path}:{wanted}", *counts], 1))
                self.assertEqual(self.check("--count"), (counts, 1))
                of_kind = [one for one in counts if one.startswith(f"{kind}:")]
                self.assertEqual(self.check("--count", kind), (of_kind, 1))


if __name__ == "__main__":
    unittest.main()
