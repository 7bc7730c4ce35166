"""The pages that are made of the sources: how a definition, a contract and what rt says are found."""
import sys
import unittest
import unittest.mock
from pathlib import Path

TOP = Path(__file__).resolve().parent.parent.parent
sys.path.append(str(TOP / ".ci"))

import functions  # noqa: E402
import specs  # noqa: E402
import trusted  # noqa: E402

FILE = """-- What a town is.
use Rattle.cga_a.specs.Other.{far}

-- ---- towns

-- a town
pub record Town : Type 0 where
  -- its lots
  pub lots : List Lot

  pub mode : Mode

-- the lots
-- of a town
unfoldable pub lots : Town → List Lot
lots t =
    far t.lots

lots_by : ℕ
module _ (town : Town) where
  -- inner
  abbrev pub start : Town
  start = record {
    lots = [];
  }
  abbrev pub started : Town
  started = start
"""
CODE = """pub fn plain(x: u32) -> [u8; 2] { f(x) }

/// fn quoted() {
pub(crate) fn bound<T: Drop>(
    x: &T,
) -> u32
    requires { x ≡ x }
{
    1
}

impl<T> Tree for Forest<T> {
    fn root(&self) -> u32 {
        0
    }
    const fn child(&self) -> u32
        ensures { result ≡ 0 }
    {
        0
    }
}

impl Forest {
    fn own(&self) {}
}

#[test]
fn a_test() {}
fn last();
"""
LOG = """axioms libc: 2 reached of the 3 declared
  libc::close
  libc::read reached
  libc::write reached
axioms std: none reached of the 1 declared
  std::process::c::abort
logic=proved functions=31 target=x86 sum=1a2b native=nat logic-built=trusted incremental=trusted
"""


class Definitions(unittest.TestCase):
    def setUp(self):
        self.lines = FILE.split("\n")

    def test_record_with_its_fields(self):
        found = [
            "-- a town",
            "pub record Town : Type 0 where",
            "  -- its lots",
            "  pub lots : List Lot",
            "",
            "  pub mode : Mode",
        ]
        self.assertEqual(specs.definition(self.lines, "Town"), found)

    def test_function_with_its_equations(self):
        found = ["-- the lots", "-- of a town", "unfoldable pub lots : Town → List Lot", "lots t =", "    far t.lots"]
        self.assertEqual(specs.definition(self.lines, "lots"), found)

    def test_in_a_module(self):
        found = ["-- inner", "abbrev pub start : Town", "start = record {", "  lots = [];", "}"]
        self.assertEqual(specs.definition(self.lines, "start"), found)

    def test_a_field_is_none(self):
        for name in ("mode", "town", "Lot"):
            with self.assertRaises(specs.Missing):
                specs.definition(self.lines, name)

    def test_what_is_cited(self):
        all_specs = specs.Specs()
        all_specs.read(("cga_a", "Other"), "abbrev pub far : ℕ\nfar = 0\n")
        all_specs.read(("cga_a", "Towns"), FILE)
        found = all_specs.reached([(("cga_a", "Towns"), "lots")])
        self.assertEqual({name for _, name in found}, {"lots", "Town", "far"})


class Functions(unittest.TestCase):
    def test_contracts(self):
        text = functions.without_comments(CODE)
        found = [
            (match.group(2), functions.has_contract(text, match.end()))
            for match in functions.re.finditer(r"(\b)fn (\w+)", text)
        ]
        self.assertEqual(
            found,
            [
                ("plain", False),
                ("bound", True),
                ("root", False),
                ("child", True),
                ("own", False),
                ("a_test", False),
                ("last", False),
            ],
        )

    def test_tests_and_traits(self):
        path = TOP / "crates" / "cga_sample" / "src" / "sample.rt"
        with unittest.mock.patch.object(Path, "read_text", lambda *_, **__: CODE):
            found = [(function.name, function.of_trait) for function in functions.functions_of(path)]
        self.assertEqual(
            found,
            [
                ("plain", ""),
                ("bound", ""),
                ("root", "Tree for Forest"),
                ("child", "Tree for Forest"),
                ("own", ""),
                ("last", ""),
            ],
        )


class Trusted(unittest.TestCase):
    def test_words(self):
        self.assertEqual(
            trusted.words_of(LOG),
            {"logic": "proved", "target": "x86", "sum": "1a2b", "native": "nat", "logic-built": "trusted"},
        )

    def test_the_last_verdict_counts(self):
        other = LOG.replace("native=nat", "native=none").replace("read reached", "other reached")
        self.assertEqual(trusted.words_of(other + LOG)["native"], "nat")
        self.assertEqual(trusted.reached_in(other + LOG)["libc"], ["libc::read", "libc::write"])
        self.assertIsNone(trusted.verdict_in(other + "rattle: no verdict\n" + "logic=not-proved functions=1\n"))

    def test_an_unknown_word(self):
        with self.assertRaises(trusted.Unread):
            trusted.words_of(LOG.replace("target", "guessed"))

    def test_reached(self):
        self.assertEqual(trusted.reached_in(LOG), {"libc": ["libc::read", "libc::write"], "std": []})
        with self.assertRaises(trusted.Unread):
            trusted.reached_in(LOG.replace("read reached", "read"))


if __name__ == "__main__":
    unittest.main()
