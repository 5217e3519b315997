"""tests/house, on definitions and contracts of its own."""
import re
from typing import List, Tuple

from tree import Tree

SPECS = """-- Definitions.
use Rattle.std.specs.Prelude.{List, ℕ}

-- five
pub record Five (a b : ℕ) (c : List ℕ) : ℕ → ℕ → Type 0 where
  pub Six : ℕ → ℕ → ℕ → ℕ → ℕ → ℕ → ℕ

-- An implicit parameter counts. (Six parameters: a type, and five of it.)
abbrev pub Right : {A : Type 0} → A → A → (a b : A) → (A → A) → Type 0
Right a b c d f = a ≡ b

-- six, without a reason
pub record Without (a b c : ℕ) (f : ℕ → ℕ → ℕ)
    (d e : ℕ) : Type 0 where
  pub same : a ≡ b

-- A wrong number. (Six parameters: they are seven.)
pub data Wrong (a b c d : ℕ) : ℕ → ℕ → ℕ → Type 0 where
  first : Wrong a a a a a a a

-- (Eight parameters: it is restated.)
abbrev pub Restated : ℕ → ℕ → ℕ → ℕ → ℕ → ℕ → ℕ → ℕ → Type 0
Restated a b c d e f g h = a ≡ b

module _ {A B : Type 0} (a : A) where
  -- six with those of its module
  abbrev pub inner : A → B → B → ℕ
  inner b c d = 0

-- six, and only in the contract of a private function
abbrev pub Private : ℕ → ℕ → ℕ → ℕ → ℕ → ℕ → Type 0
Private a b c d e f = a ≡ b
"""
OLD = ["same { a < 256 }", "value { a ≡ 1 }", "small { a < 9 }", "even { a ≡ 2 }"]
NEW = ["same { a < PAGE_WORDS }", "result { a ≡ 1 }", "odd { a ≡ 3 }"]
VIEWS = """-- Restated.
use Rattle.low.specs.Low as low

abbrev pub Restated : ℕ × ℕ → ℕ → ℕ → ℕ → ℕ → ℕ → Type 0
Restated a = low.Restated a.0 a.1
"""
SOURCE = """//! A file.
ghost use Rattle.low.specs.Low.{Five, Private, Right, Without as Other, inner};
ghost use Rattle.low.specs.Views.{Restated};

pub fn one(a: u8) -> u8
    ensures five { Five a a result a a }
    ensures right { Right a a a a (λ b. b) }
    ensures restated { Restated (a, a) a a a a a }
{
    a
}

fn two(a: u8) -> u8
    ensures { Private a a a a a a }
{
    a
}

pub trait Three {
    ghost use Rattle.low.specs.Low.{Wrong};

    fn three(&self) -> u8
        ensures value { Wrong result 0 0 0 0 0 0 }
        ensures { inner result 0 0 ≡ 0 };

    fn four(&self) -> u8
        ensures { Other 0 0 0 (λ a b. a) 0 0 };
}
"""


class House(Tree):
    """Which definitions have many parameters, and which of these give a reason."""

    def copy_house(self) -> None:
        for name in ("house", "parameters.py", "clauses.py"):
            self.copy(f"tests/{name}")

    def listed(self) -> List[Tuple[int, str, bool]]:
        """The parameters and the name of each definition that is listed, and whether it has a reason."""
        ended = self.run_words("tests/house", "--parameters")
        self.assertEqual((ended.status, ended.err), (0, ""))
        found = re.findall(r"^ *(\d+)  crates/low/specs/\w+\.antt:\d+  (\w+)  (.*)$", ended.out, re.M)
        without = re.search(r"^definitions .* without a reason +(\d+)$", ended.out, re.M)
        self.assertEqual(without and int(without.group(1)), sum(reason == "without a reason" for _, _, reason in found))
        return [(int(count), name, reason != "without a reason") for count, name, reason in found]

    def test_parameters(self) -> None:
        """Implicit ones and those of a module count, those of members don't; a restated definition gives the reason."""
        self.copy_house()
        for path, text in ("specs/Low", SPECS), ("specs/Views", VIEWS):
            self.write(f"crates/low/{path}.antt", text)
        self.write("crates/low/src/main.rt", SOURCE)
        self.write("crates/low/out/rlib/low.rlib/specs/Low.antt", SPECS.replace("Without", "Copied"))
        self.assertEqual(self.listed(), [(6, "Right", True), (6, "Without", False), (7, "Wrong", False), (8, "Restated", True), (6, "inner", False),
                                         (6, "Restated", True)])

    def test_since(self) -> None:
        """A clause is unchanged with a size's name for its number; others are renamed, are in specs/, or changed."""
        self.copy_house()
        self.write("crates/low/src/main.rt", "pub fn one(a: u8)" + "".join(f"\n    ensures {clause}" for clause in OLD) + "\n{}\n")
        for words in ("init -q", "add -A", "-c user.name=a -c user.email=a commit -qm a"):
            self.assertEqual(self.run_words("commands/git", *words.split()).status, 0)
        self.write("crates/low/src/main.rt", "pub fn one(a: u8)" + "".join(f"\n    ensures {clause}" for clause in NEW) + "\n{}\n")
        self.write("crates/low/specs/Low.antt", "pub record Low : Type 0 where\n  pub small :\n    a < 9\n")
        ended = self.run_words("tests/house", "--since", "HEAD")
        self.assertEqual((ended.status, ended.err), (0, ""))
        self.assertEqual(ended.out, "low one ensures value: now named result\n    a ≡ 1\nlow one ensures small: now in a definition of specs/\n    a < 9\n"
                         "low one ensures even: changed: ensures same, ensures result, ensures odd\n    a ≡ 2\n"
                         "4 clauses: 1 with another name, 1 in a definition of specs/, 1 changed, 0 of functions that are gone, 1 unchanged\n")
