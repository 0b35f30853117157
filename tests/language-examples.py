#!/usr/bin/env python3
# The examples of docs/LANGUAGE.md as a table of definitions, crates/machine/specs/Examples.antt, from which they are derived.
# Without an argument it says whether the table is up to date; with `write` it writes the table.
import re
import sys
from pathlib import Path

root = Path(__file__).resolve().parent.parent
page = (root / "docs/LANGUAGE.md").read_text()
table = root / "crates/machine/specs/Examples.antt"

HEAD = """-- The examples of docs/LANGUAGE.md: a source, and the text that comes of it, in ASCII, with a new processor and an empty shelf.
-- Written by tests/language-examples.py. Assumes nothing.
use Rattle.std.specs.Prelude.{◌≡◌, List, [], ◌∷◌, codes}
use Prim.Native.String.{String}
use Rattle.std.specs.List.{AllByRecursion}
use Rattle.machine.specs.Cases.{expanding, needing, answered}

pub record Example : Type 0 where
  pub source : String
  pub text : String

abbrev pub becomes : String → String → Example
becomes source text = record { source = source; text = text }

pub record ComesTo (e : Example) : Type 0 where
  pub completes : (answered (expanding e.source e.text (needing 0 0 0 0 0))).number ≡ 0
  pub text_is : (answered (expanding e.source e.text (needing 0 0 0 0 0))).shown ≡ codes e.text

abbrev pub EveryExampleComesOut : Type 0
EveryExampleComesOut = AllByRecursion ComesTo examples

"""


def quoted(text):
    return '"' + text.replace("\\", "\\\\").replace('"', '\\"') + '"'


in_tables = re.findall(r"^\| `([^`]*)` \| → `([^`]*)`", page, re.M)
in_text = re.findall(r"(?<!\| )`([^`]*)` → `([^`]*)`", page)
rows = [f"becomes {quoted(source)} {quoted(text)}" for source, text in in_tables + in_text]
body = "abbrev pub examples : List Example\nexamples =\n    " + "\n    ∷ ".join(rows) + "\n    ∷ []\n"
head, tail = HEAD.split("pub record ComesTo", 1)
text = head + body + "\npub record ComesTo" + tail.rstrip("\n") + "\n"

if sys.argv[1:] == ["write"]:
    table.write_text(text)
elif table.read_text() != text:
    sys.exit("language-examples: the table of examples is not that of docs/LANGUAGE.md; `tests/language-examples.py write` writes it")
print(f"language-examples: {len(rows)} examples")
