"""The document of definitions, from specifications that are written here by hand."""
import os
import tempfile
import unittest

from helper import ToolTest, text_of

SHAPES = """-- Shapes.
use Rattle.std.specs.Prelude.{List}

-- A shape: what it is called,
-- and its sides.
pub record Shape : Type 0 where
  pub name : List N
  -- from 3 on
  pub sides : N

-- in which place: here | there
pub data Place : Type 0 where
  Here : Place
  Beside : (u : N) -> Place

-- the shape is round
unfoldable pub IsRound : Shape -> Type 0
IsRound x = x.sides == 0
abbrev pub IsRoundRow : List Shape -> Type 0
IsRoundRow xs = All IsRound xs

-- hidden
abbrev hidden : N
hidden = 1
"""
SIZES = """-- over some shapes
module _ (shapes : List Shape) where
  -- the size of all
  abbrev pub size : N
  size = 3

-- The even ones and
-- the odd ones.
abbrev mutual
  -- of a list
  pub even : N -> Bool
  even n = odd n

  pub odd : N -> Bool
  odd n = even n
"""
DOCUMENT = """# Words

By hand.

<!-- words of flux_defs Shapes -->
| old | stuff |
<!-- end -->

More by hand.

<!-- words of flux_defs Sizes -->
<!-- end -->

<!-- words above
upper: IsRound size
-->
<!-- end -->

The end.
"""
MADE = """# Words

By hand.

<!-- words of flux_defs Shapes -->
| Name | Says |
|---|---|
| `Shape` | a shape: what it is called, and its sides. Fields: `name`, `sides` (from 3 on) |
| `Place` | in which place: here \\| there. Cases: `Here`, `Beside` |
| `IsRound`, `IsRoundRow` | the shape is round |
<!-- end -->

More by hand.

<!-- words of flux_defs Sizes -->
| Name | Says |
|---|---|
| `size` | the size of all |
| `even`, `odd` | the even ones and the odd ones: of a list |
<!-- end -->

<!-- words above
upper: IsRound size
-->
| Crate | Name | Says |
|---|---|---|
| `upper` | `IsRound` | the shape is round |
|  | `size` | the size of all |
<!-- end -->

The end.
"""


class Definitions(ToolTest):
    def setUp(self):
        folder = tempfile.TemporaryDirectory()
        self.addCleanup(folder.cleanup)
        self.top, self.path = folder.name, os.path.join(folder.name, "docs/DEFINITIONS.md")
        for crate in ("flux_defs", "upper"):
            self.write(f"crates/{crate}/specs/Lib.antt", "pub mod formers\npub mod Shapes\npub mod Sizes\n")
            self.write(f"crates/{crate}/specs/Shapes.antt", SHAPES)
            self.write(f"crates/{crate}/specs/Sizes.antt", SIZES)
        self.write("docs/DEFINITIONS.md", DOCUMENT)

    def write(self, name, text):
        """A file of the small repository."""
        path = os.path.join(self.top, name)
        os.makedirs(os.path.dirname(path), exist_ok=True)
        with open(path, "w") as file:
            file.write(text)

    def test_tables_are_made(self):
        self.assertEqual(self.told("definitions", "--top", self.top), MADE)

    def test_check(self):
        stale = "is stale; `tools/definitions -o docs/DEFINITIONS.md` writes it anew"
        self.assertEqual(self.refused("definitions", "--top", self.top, "--check"), f"docs/DEFINITIONS.md:6: {stale}")
        self.told("definitions", "--top", self.top, "-o", self.path)
        self.assertEqual(text_of(self.path), MADE)
        self.assertEqual(self.told("definitions", "--top", self.top, "--check"), "")
        self.assertEqual(self.told("definitions", "--top", self.top), MADE)

    def test_faults(self):
        unsaid = "docs/DEFINITIONS.md: lists what is no public word with a comment"
        for name, old, new, wanted in (
            ("docs/DEFINITIONS.md", "upper: IsRound", "upper: IsFlat",
             f"{unsaid}: upper IsFlat"),
            ("docs/DEFINITIONS.md", "flux_defs Sizes", "upper Sizes",
             f"{self.path}: lists the modules Shapes; the crate has Shapes Sizes"),
            ("crates/upper/specs/Shapes.antt", "-- the shape is round\n", "", f"{unsaid}: upper IsRound"),
            ("crates/flux_defs/specs/Shapes.antt", "-- in which place: here | there\n", "",
             f"{os.path.join(self.top, 'crates/flux_defs/specs/Shapes.antt')}: Place has no comment"),
        ):
            before = text_of(os.path.join(self.top, name))
            self.write(name, before.replace(old, new))
            self.assertEqual(self.refused("definitions", "--top", self.top), wanted)
            self.write(name, before)


if __name__ == "__main__":
    unittest.main()
