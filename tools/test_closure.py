#!/usr/bin/env python3
"""Tests of closure.py: its names against a plain search of its own, its order, and small crates that are written here."""

import os
import sys

FOLDER = os.path.dirname(os.path.abspath(__file__))
if __name__ == "__main__":
    # Python's own module has the name of another file of this folder.
    sys.path[:] = [each for each in sys.path if os.path.abspath(each or ".") != FOLDER]

import importlib.util
import re
import subprocess
import tempfile
import unittest

PROGRAM = os.path.join(FOLDER, "closure.py")
CRATES = os.path.join(os.path.dirname(FOLDER), "crates")


def closure_module():
    path_before = list(sys.path)
    found = importlib.util.spec_from_file_location("nurghobi_closure", PROGRAM)
    module = importlib.util.module_from_spec(found)
    found.loader.exec_module(module)
    sys.path[:] = path_before
    return module


closure = closure_module()


def call(*words):
    done = subprocess.run([sys.executable, "-B", PROGRAM] + list(words), stdout=subprocess.PIPE, stderr=subprocess.PIPE)
    return done.returncode, done.stdout.decode(), done.stderr.decode()


# A plain search: whatever name in scope occurs as a word in a text is followed. It shares nothing with the tool.


def read(path):
    with open(os.path.join(CRATES, path), encoding="utf-8") as file:
        return file.read()


def imported(text):
    """The imports of a text: a local name's path and name, and a local module's path."""
    names, modules = {}, {}
    for path, items, alias in re.findall(r"\buse Rattle\.([\w.]+?)(?:\.\{(.*?)\})?(?: as (\w+))?;?$", text, re.M):
        for item in filter(None, items.split(", ")):
            names[item.split(" as ")[-1]] = (path, item.split(" as ")[0])
        if not items:
            modules[alias or path.split(".")[-1]] = path
    return names, modules


def occurs(name, text):
    """Whether a name occurs as a word; of an operator whether one of its signs does, or a `do`."""
    if "◌" in name:
        signs = [sign for sign in name.split("◌") if sign]
        return any(sign in text.split() for sign in signs) or ("do" in text.split() and name in ("◌>>=◌", "◌>>◌"))
    return name in text and re.search(r"(?<![\w.◌])%s(?![\w'])" % re.escape(name), text) is not None


def in_part(text, fields):
    """A type's text with the lines of these fields alone."""
    return "\n".join(line for line in text.split("\n") if re.match(r"\s*(?:pub )?(%s) ?:" % "|".join(fields), line))


class Plain:
    """The plain search. Of some types, by their file and name, only some fields are followed."""

    specs = {}

    def __init__(self, parts=()):
        self.found, self.parts = set(), dict(parts)

    def pieces(self, file):
        """The definitions of a file of specs: their texts by their names, with the constructors of a `data`."""
        if (file, str(self.parts)) not in self.specs:
            text = re.sub(r"(?m)^\s*--.*$", "", read(file))
            pieces = {}
            for piece in re.split(r"(?m)^(?=abbrev|unfoldable|pub record|pub data|infix)", text)[1:]:
                name = re.match(r"(?:(?:abbrev|unfoldable) pub|pub record|pub data|infixl \d+) (\S+)", piece).group(1)
                piece = in_part(piece, self.parts[file, name]) if (file, name) in self.parts else piece
                piece = re.sub(r"(^|\n)  pub \S+", r"\1  pub", piece)
                pieces[name] = (name, piece + pieces.get(name, ("", ""))[1])
                if piece.startswith("pub data"):
                    pieces.update({each: (name, piece) for each in re.findall(r"(?m)^  (\w+) :", piece)})
            self.specs[file, str(self.parts)] = (pieces, imported(text))
        return self.specs[file, str(self.parts)]

    def follow(self, text, own, names, modules):
        """Follows all names that occur in a text."""
        text = re.sub(r'"[^"]*"', "", text)
        for name, target in list(names.items()) + list(own.items()):
            if occurs(name, text):
                self.target(*target)
        for alias, path in modules.items():
            for name in re.findall(r"(?<![\w.])%s\.([\w-]+)" % alias, text):
                self.target(path, name)

    def target(self, path, name):
        crate, _, rest = path.partition(".specs.")
        if not os.path.isdir(os.path.join(CRATES, crate)):
            return
        if rest.startswith("declared."):
            parts = [part for part in rest.split(".")[1:] if not part.startswith("The")]
            self.type("%s/src/%s.rt" % (crate, "/".join(parts[:-1])), parts[-1])
            return
        file = "%s/specs/%s.antt" % (crate, rest.replace(".", "/"))
        pieces, (names, modules) = self.pieces(file)
        if name not in pieces or (file, pieces[name][0]) in self.found:
            return
        self.found.add((file, pieces[name][0]))
        self.follow(pieces[name][1], {each: (path, each) for each in pieces}, names, modules)

    def type(self, file, name):
        if (file, name) in self.found:
            return
        self.found.add((file, name))
        text = re.sub(r"(?m)^\s*///?.*$", "", read(file))
        model = re.search(r"(?ms)^impl\S* ?.*?Model for %s\b.*?^}" % name, self.impls_of(text, name))
        if model:
            value = re.search(r"ghost Value = \{(.*?)\};", model.group(0)).group(1)
            self.follow(value, {}, *imported(text))
            return
        block = re.search(r"(?ms)^pub (?:struct|enum|trait) %s\b(?:[^\n]*;$|.*?^}$)" % name, text).group(0)
        self.follow("\n".join(re.findall(r"\{ .* \}", block)), {}, *imported(text))
        block = in_part(block, self.parts[file, name]) if (file, name) in self.parts else block
        self.types_in(re.sub(r"(?:ghost|requires|ensures).*", "", block), file, text)

    def impls_of(self, text, name):
        """The impls of a model for a type."""
        return "\n".join(re.findall(r"(?ms)^impl[^\n]*Model for %s\b.*?^}$" % name, text))

    def types_in(self, block, file, text):
        """Follows the types that a text of Rust names, where a crate here has them."""
        crate = file.split("/")[0]
        for word in sorted(set(re.findall(r"\b[A-Z]\w*", block))):
            used = re.search(r"(?ms)^use (\w+)::(?:[\w:]+::)?(?:\{[^}]*\b%s\b[^}]*\}|%s);" % (word, word), text)
            owner = crate if re.search(r"(?m)^pub (?:struct|enum|trait) %s\b" % word, text) else used and used.group(1)
            owner = crate if owner == "crate" else owner
            if owner and os.path.isdir(os.path.join(CRATES, owner)):
                self.type(self.home(owner, word), word)

    def home(self, crate, word):
        """The file that defines a type, of a crate or of one from which it is passed on."""
        folder = os.path.join(CRATES, crate, "src")
        for name in sorted(os.listdir(folder)):
            if re.search(r"(?m)^pub (?:struct|enum|trait) %s\b" % word, read("%s/src/%s" % (crate, name))):
                return "%s/src/%s" % (crate, name)
        passed = re.search(r"pub use (\w+)::\{[^}]*\b%s\b" % word, read(crate + "/src/lib.rt"))
        return self.home(passed.group(1), word)


def plain_names(file, function, clause, types, parts=()):
    """The names of the plain search for a clause. The types are those that its values bring in, as words of the file."""
    search = Plain(parts)
    text = read(file)
    head = re.search(r"(?ms)^\s*pub fn %s\b.*?^\s*\{$" % function, text).group(0)
    shown = re.findall(r"requires \w* ?\{.*\}", head) + re.findall(r"ensures %s \{.*\}" % clause, head)
    search.follow("\n".join(shown), {}, *imported(text))
    search.types_in(types, file, text)
    return search.found


def tool_names(clause):
    """The tool's names without the clause itself and the structs of which fields alone are followed."""
    groups = closure.closure([clause])[0]
    return {(path, each.name) for path, definitions in groups for each in definitions if "/" not in each.name}


class Names(unittest.TestCase):
    """The names of the tool are those of the plain search."""

    def test_clauses_on_the_bench(self):
        """These name the bench of what `pfr` answers, and of its devices nothing but what a device is. The script's tears are
        of no matter where no item is said to be done."""
        parts = {("pfr/src/finished.rt", "Finished"): ["bench"], ("pfr_flash/specs/MemFlash.antt", "MemState"): ["device"]}
        for clause, more in (("spans", ["items"]), ("releases", ["items"]), ("locks", ["items"])):
            parts["pfr_script/specs/ScriptState.antt", "ScriptState"] = more
            wanted = plain_names("pfr/src/top.rt", "pfr", clause, "Finished", parts)
            self.assertEqual(tool_names("pfr/" + clause), wanted, clause)

    def test_clauses_of_a_step(self):
        for clause in ("turn", "promises", "dark"):
            types = "Platform Result NoMemory" + (" Event" if clause != "dark" else "")
            types += " Engine" if clause != "dark" else ""
            wanted = plain_names("pfr_machine/src/platform.rt", "step", clause, types)
            self.assertEqual(tool_names("pfr_machine::Platform::step/" + clause), wanted, clause)


class Order(unittest.TestCase):
    """What comes first rests on nothing behind it."""

    def whole(self, clause):
        """Each definition with what it rests on."""
        project = closure.Project()
        graph = closure.reached_in_part(project, [closure.clause_of(project, clause)])[1]
        return [(each.path, each.name, needed) for each, needed in graph.values()]

    def test_bottom_up(self):
        for clause in ("pfr/locks", "pfr_machine::Platform::step/turn"):
            groups = closure.closure([clause])[0]
            placed = {
                (path, each.name): number for number, (path, definitions) in enumerate(groups) for each in definitions
            }
            for path, name, needed in self.whole(clause):
                behind = [need.name for need in needed if placed[need.path, need.name] > placed[path, name]]
                self.assertEqual(behind, [], name)


SMALL = {
    "low/specs/Base.antt": """\
-- What all rests on.
use Rattle.std.specs.Prelude.{List, ℕ}
use Rattle.low.specs.declared.kinds.Kind.{Kind}
use Rattle.low.specs.declared.kinds.Kind.TheVariants as kind

-- a choice
pub data Choice : Type 0 where
  This : Choice
  That : Kind → Choice

infixl 10 ◌<+>◌
abbrev pub ◌<+>◌ : ℕ → ℕ → ℕ
a <+> b = a

-- not needed
abbrev pub unneeded : ℕ
unneeded = 1

-- which number a kind has
abbrev pub number : Kind → ℕ
number kind.Small = 0
-- (a comment between equations)
number (kind.Large size) = size
""",
    "low/src/kinds.rt": """\
// Kinds.
ghost use Rattle.std.specs.Prelude.{ℕ};

use crate::sizes::Size;

/// A kind.
#[derive(Clone)]
pub enum Kind {
    Small,
    Large { size: Size },
}
""",
    "low/src/sizes.rt": """\
// Sizes.
use std::marker::Model;

/// A size.
pub struct Size {
    inside: Hidden,
}

impl Model for Size {
    ghost use Rattle.low.specs.Value.{Value as Seen};

    ghost Value = { Seen };

    ghost view = { λ s. s.inside };
}

pub struct Hidden {
    bytes: [u8; 4],
}
""",
    "low/specs/Value.antt": """\
-- Values.
use Rattle.std.specs.Prelude.{List, ℕ}

pub record Value : Type 0 where
  pub bytes : List ℕ
""",
    "low/src/lib.rt": "//! Low.\nmod kinds;\nmod sizes;\n\npub use kinds::Kind;\npub use sizes::Size;\n",
    "high/specs/Top.antt": """\
-- What is promised.
use Rattle.low.specs.Base.{That as Other, ◌<+>◌}
use Rattle.low.specs.Base as base

abbrev pub IsGood : ℕ → Type 0
IsGood n = (base.number n <+> n) ≡ Other
""",
    "high/src/lib.rt": """\
//! High.
ghost use Rattle.high.specs.Top.{IsGood};

use low::Kind;

/// Both parts.
pub struct Pair {
    pub kind: Kind,
    pub other: u8,
}

/// Does it.
pub fn act(pair: &Pair) -> Pair
    requires { IsGood pair.now.other }
    ensures good { IsGood result.other }
    ensures kinds { result.kind ≡ pair.now.kind }
{
    body
}

impl Pair {
    pub fn act(&self) -> u8
        ensures good { IsGood result }
    {
        0
    }
}
""",
}

GOOD = """\
-- crates/low/specs/Value.antt

pub record Value : Type 0 where
  pub bytes : List ℕ

-- crates/low/src/sizes.rt

/// A size.
pub struct Size, of which contracts see a value: { Seen }

-- crates/low/src/kinds.rt

/// A kind.
pub enum Kind {
    Small,
    Large { size: Size },
}

-- crates/low/specs/Base.antt

-- a choice
pub data Choice : Type 0 where
  This : Choice
  That : Kind → Choice

infixl 10 ◌<+>◌
abbrev pub ◌<+>◌ : ℕ → ℕ → ℕ
a <+> b = a

-- which number a kind has
abbrev pub number : Kind → ℕ
number kind.Small = 0
-- (a comment between equations)
number (kind.Large size) = size

-- crates/high/specs/Top.antt

abbrev pub IsGood : ℕ → Type 0
IsGood n = (base.number n <+> n) ≡ Other

-- crates/high/src/lib.rt

    pub fn act(&self) -> u8
        ensures good { IsGood result }"""


class Small(unittest.TestCase):
    """Crates that are written here."""

    def setUp(self):
        self.folder = tempfile.TemporaryDirectory()
        self.addCleanup(self.folder.cleanup)
        self.before = closure.CRATES
        closure.CRATES = self.folder.name
        for name, text in SMALL.items():
            path = os.path.join(self.folder.name, name)
            os.makedirs(os.path.dirname(path), exist_ok=True)
            with open(path, "w", encoding="utf-8") as file:
                file.write(text)

    def tearDown(self):
        closure.CRATES = self.before

    def text(self, *clauses):
        return closure.text_of(closure.closure(clauses)[0])

    def test_whole_text(self):
        self.assertEqual(self.text("high::Pair::act/good"), GOOD)

    def test_kit(self):
        self.assertEqual(closure.closure(["high::Pair::act/good"])[1], ["-- std.specs.Prelude: List ℕ"])

    def test_named_fields(self):
        """A clause that names a field brings in the field's type alone, and the function's conditions come with it."""
        text = self.text("high::act/kinds")
        self.assertIn("pub enum Kind", text)
        self.assertIn("    requires { IsGood pair.now.other }\n    ensures kinds { result.kind ≡ pair.now.kind }", text)
        self.assertNotIn("ensures good", text)
        self.assertNotIn("Hidden", text)

    def test_several_clauses(self):
        text = self.text("high::act/good", "high::Pair::act/good")
        self.assertEqual(text.count("abbrev pub IsGood"), 1)

    def test_unknown(self):
        for clause, said in (
            ("high/good", "high/good is any of high::act, high::Pair::act"),
            ("high::act/other", "high::act/other is no clause of a public function"),
            ("high", "high is no clause of a public function"),
            ("none/x", "none/x is no clause of a public function"),
        ):
            with self.assertRaises(closure.Unknown) as raised:
                self.text(clause)
            self.assertEqual(str(raised.exception), said)

    def change(self, name, old, new):
        path = os.path.join(self.folder.name, name)
        with open(path, "w", encoding="utf-8") as file:
            file.write(SMALL[name].replace(old, new))

    def test_lines_that_it_cannot_read(self):
        self.change("low/specs/Base.antt", "number kind.Small = 0", "mutual kind.Small = 0")
        with self.assertRaises(closure.Unknown):
            self.text("high::Pair::act/good")

    def test_names_that_are_not_there(self):
        self.change("high/specs/Top.antt", "{That as Other", "{Those as Other")
        with self.assertRaises(closure.Unknown) as raised:
            self.text("high::Pair::act/good")
        self.assertEqual(str(raised.exception), "nothing named Those in low.specs.Base")


class InPart(unittest.TestCase):
    """Which fields of a struct are followed: crates that are written here."""

    FILES = {
        "low/specs/Box.antt": """\
-- A box as contracts see it.
use Rattle.std.specs.Prelude.{ℕ, ◌≤◌}

abbrev pub IsFew : ℕ → Type 0
IsFew n = n ≤ 4

pub record BoxState : Type 0 where
  pub count : ℕ
  pub few : IsFew count
""",
        "low/src/lib.rt": """\
//! Low.
use std::marker::Model;

/// A box.
pub struct Box {
    inside: u8,
}

impl Model for Box {
    ghost use Rattle.low.specs.Box.{BoxState};

    ghost Value = { BoxState };
}

/// Some boxes.
pub struct Boxes {
    inside: u8,
}

impl Model for Boxes {
    ghost use Rattle.std.specs.Prelude.{List};
    ghost use Rattle.low.specs.Box.{BoxState};

    ghost Value = { List BoxState };
}

/// What is at the side.
pub enum Side {
    Left,
}

/// A note.
pub enum Note {
    Said,
}
""",
        "high/specs/Top.antt": """\
-- What is promised.
use Rattle.std.specs.Prelude.{ℕ, ◌≡◌, ◌≤◌}
use Rattle.high.specs.declared.Bench.{Bench}
use Rattle.low.specs.Box.{BoxState}

abbrev pub count_of : Bench → ℕ
count_of bench = bench.box.count

abbrev pub IsGood : Bench → Type 0
IsGood bench = count_of bench ≤ 4

abbrev pub IsSame : Bench → Bench → Type 0
IsSame a b = a ≡ b

abbrev pub HasSameBox : Bench → Bench → Type 0
HasSameBox a b = a.box ≡ b.box

abbrev pub IsFewest : Bench → Type 0
IsFewest bench = (other : Bench) → count_of bench ≤ count_of other

abbrev pub IsOf : ℕ → Bench → Type 0
IsOf n bench = n ≤ count_of bench

abbrev pub box_in : Bench → BoxState
box_in bench = bench.box

abbrev pub many : BoxState → ℕ
many box = box.count

abbrev pub HasMany : Bench → Type 0
HasMany bench = (box_in bench).count ≤ many (box_in bench)

abbrev pub HasItself : Bench → Type 0
HasItself bench = box_in bench ≡ box_in bench

abbrev pub HasGiven : Bench → Type 0
HasGiven bench = (λ give. many (give bench) ≤ 4) box_in
""",
        "high/src/lib.rt": """\
//! High.
ghost use Rattle.std.specs.Prelude.{IfSome};
ghost use Rattle.high.specs.Top.{IsGood, IsSame, HasSameBox, IsFewest, IsOf, HasMany, HasItself, HasGiven};

use low::{Box, Boxes, Note, Side};

/// All of it.
pub struct Bench {
    pub box: Box,
    pub side: Side,
    pub boxes: Boxes,
}

/// What is answered.
pub struct Finished {
    pub bench: Option<Bench>,
    pub note: Note,
}

/// Does it.
///
/// And more is said of it.
pub fn act(old_one: &Bench) -> Finished
    // What is promised.
    ensures good { IfSome result.bench IsGood }
    ensures of { IfSome result.bench (IsOf 4) }
    ensures within { IfSome result.bench (λ bench. IsGood bench) }
    ensures same { IfSome result.bench (IsSame old_one.now) }
    ensures alike { IfSome result.bench (λ bench. bench ≡ old_one.now) }
    ensures boxes { IfSome result.bench (HasSameBox old_one.now) }
    ensures fewest { IfSome result.bench IsFewest }
    ensures many { IfSome result.bench HasMany }
    ensures itself { IfSome result.bench HasItself }
    ensures given { IfSome result.bench HasGiven }
    ensures several { IfSome result.bench (λ bench. bench.boxes ≡ bench.boxes) }
    ensures nothing { result.bench ≡ None }
    ensures whole { result ≡ result }
{
    body
}
""",
    }

    def setUp(self):
        self.folder = tempfile.TemporaryDirectory()
        self.addCleanup(self.folder.cleanup)
        self.addCleanup(setattr, closure, "CRATES", closure.CRATES)
        closure.CRATES = self.folder.name
        for name, text in self.FILES.items():
            path = os.path.join(self.folder.name, name)
            os.makedirs(os.path.dirname(path), exist_ok=True)
            with open(path, "w", encoding="utf-8") as file:
                file.write(text)

    def names(self, clause):
        groups, _, partly = closure.closure(["high/" + clause])
        return {each.name for _, definitions in groups for each in definitions}, [each.split("/")[-1] for each in partly]

    def test_only_asked_for_fields(self):
        """Neither the side nor the note is named, and no meaning depends on it that a box has few."""
        for clause in ("good", "of", "within", "many"):
            names, partly = self.names(clause)
            self.assertFalse(names & {"Side", "Note", "IsFew"}, clause)
            self.assertEqual(partly, ["lib.rt Bench: box", "lib.rt Finished: bench", "Box.antt BoxState: count"], clause)

    def test_used_in_another_way(self):
        """What is compared or ranged over is followed whole."""
        for clause in ("same", "alike", "fewest", "nothing", "given"):
            names, partly = self.names(clause)
            self.assertTrue({"Side", "IsFew"} <= names, clause)
            self.assertEqual(partly, ["lib.rt Finished: bench"], clause)
        for clause in ("boxes", "itself"):
            names, partly = self.names(clause)
            self.assertTrue("IsFew" in names and "Side" not in names, clause)
            self.assertEqual(partly, ["lib.rt Bench: box", "lib.rt Finished: bench"], clause)
        names, partly = self.names("several")
        self.assertTrue("IsFew" in names and "Side" not in names)
        self.assertEqual(partly, ["lib.rt Bench: boxes", "lib.rt Finished: bench"])
        names, partly = self.names("whole")
        self.assertTrue({"Side", "IsFew", "Note"} <= names)
        self.assertEqual(partly, [])

    def test_printed(self):
        """A type that is followed in part is printed with these fields, and says so."""
        text = closure.text_of(closure.closure(["high/good"])[0])
        self.assertIn("/// All of it.\npub struct Bench { // in part\n    pub box: Box,\n}", text)
        self.assertIn("pub record BoxState : Type 0 where -- in part\n  pub count : ℕ\n\n--", text)

    def test_first_line(self):
        """Of a call's comment the first line is shown, and nothing of what stands above the clause."""
        text = closure.text_of(closure.closure(["high/good"])[0])
        self.assertIn("/// Does it.\npub fn act(old_one: &Bench) -> Finished\n    ensures good {", text)
        self.assertNotIn("And more", text)


class Words(unittest.TestCase):
    """The tool as it is called."""

    def test_counts(self):
        code, text, _ = call("pfr/spans")
        self.assertEqual(code, 0)
        lines = [line for line in text.split("\n") if line.strip()]
        begin, end = 1, lines.index("-- Of the kit:")
        counted = [line for line in lines[begin:end] if not line.startswith("-- crates/")]
        total = "%d lines, %d files" % (len(counted), end - begin - len(counted))
        self.assertEqual(lines[-1], "-- " + total)
        self.assertEqual(call("--count", "pfr/spans")[1], total + "\n")
        self.assertNotIn("\nuse ", text)
        self.assertFalse([line for line in lines if line.startswith("ghost use")])

    def test_exit_codes(self):
        self.assertEqual(call()[0], 2)
        self.assertEqual(call("--other", "pfr/spans")[0], 2)
        code, text, said = call("pfr/none")
        self.assertEqual((code, text, said), (1, "", "closure: pfr/none is no clause of a public function\n"))


if __name__ == "__main__":
    unittest.main()
