#!/usr/bin/env python3
"""Prints all definitions that a clause of a public call rests on, bottom up, as one text without imports.

    closure.py [--count | --names] CLAUSE..

A CLAUSE is `crate/clause` where one public function of the crate has a clause of that name, else `crate::function/clause` or
`crate::Type::function/clause`; nothing behind the slash is the clause without a name. Of several clauses the text has all that
any of them rests on. What comes first rests on nothing behind it. Definitions are those of crates/*/specs and the types and
traits that they name of crates/*/src. --count prints the numbers of lines and of files alone, --names a line for each
definition.

What is taken is each name in scope that a definition writes, so it may be more than is needed, as where a variable has the name
of a definition. A struct that has a model is shown with the value that contracts see of it, and its fields aren't followed: how
they stand for that value is a matter of the crate's proofs. A call is shown by the first line of its comment, its signature, its
conditions and the clause. What belongs to the kit is named at the end, and not printed.

A struct that stands in the call's signature, one in a field of such a struct, and a record that is the value of such a one is
followed only in those fields that the clause or a definition that it rests on names. The others may be left out, as no meaning
depends on them: values of such a type are only handed on, to a definition that takes one, or asked for a field. Where one is
used in another way, as compared, built, taken apart by its shape or ranged over, the type is followed whole, with the types of
its fields; and so it is wherever this tool can't tell. A field that is left out may say what each value of the type keeps, as
that a device holds bytes: each value of a program keeps it, so the clause speaks of the same values without it. A type that is
followed in part is printed with those fields alone, marked `in part`, and named at the end.

Lines are counted that are neither blank nor the name of a file.
"""

import os
import re
import sys

# Another tool in this folder has the name of a module of Python: it is not to be found here.
FOLDER = os.path.dirname(os.path.abspath(__file__))
sys.path[:] = [each for each in sys.path if os.path.abspath(each or ".") != FOLDER]

from collections import namedtuple

CRATES = os.path.join(os.path.dirname(FOLDER), "crates")
DECLARED = ("TheVariants", "TheInside", "TheConstants")
USE = re.compile(r"use Rattle\.([\w.]+?)(?:\.\{([^}]*)\})?(?: as (\w+))?\s*;?$")
# A field of a record, whose name may be that of a definition, and isn't that.
FIELD = re.compile(r"(?m)^(  pub )\S+(?= )")
DEFINITION = re.compile(r"(?:(?:abbrev|unfoldable|opaque) (?:pub )?|pub )(?:record |data )?([^\s:({]+)")
TYPE = re.compile(r"^(?:pub(?:\(crate\))? )?(struct|enum|trait) (\w+)")
FUNCTION = re.compile(r"^\s*pub (?:const )?fn (\w+)")
TERM = re.compile(r"(?:\b(?:requires|ensures)(?: \w+)?|ghost \w+(?::| =)) \{")
CLAUSE_HEAD = re.compile(r"\b(requires|ensures)(?: (\w+))? \{")


class Unknown(Exception):
    """Something that the clause names wasn't found, or is written as this tool can't read it."""


# Names that a text writes


def without_comments(text, mark):
    return "\n".join(line.split(mark)[0] if line.lstrip().startswith(mark) else line for line in text.split("\n"))


def words_of(text):
    """The words of a term, each as its parts between dots. What stands behind a closed bracket and a dot is a field."""
    plain = re.sub(r'"[^"]*"', " ", without_comments(text, "--"))
    words = (word.rstrip(".").split(".") for word in re.split(r"[\s(){},;\[\]]+", plain))
    return [parts for parts in words if parts[0]]


# Imports: what a name stands for, as a module's path and a name in it


class Scope:
    """What names mean in a file, or in a block of it."""

    def __init__(self, module, own=(), outer=None):
        self.names = dict(outer.names) if outer else {}
        self.aliases = dict(outer.aliases) if outer else {}
        self.names.update({name: (module, name) for name in own})

    def add(self, line):
        """Takes a line of imports."""
        found = USE.match(line.strip())
        if not found:
            raise Unknown("an import that can't be read: %s" % line.strip())
        path, items, alias = found.groups()
        if items is None:
            self.aliases[alias or path.split(".")[-1]] = path
            return
        for item in items.split(","):
            name, _, other = item.strip().partition(" as ")
            self.names[other.strip() or name] = (path, name)

    def targets(self, parts):
        """What a word may mean: paths and names, and whether it has to mean them. It needn't where a variable has the name
        of a module."""
        if parts[0] in self.aliases and len(parts) > 1:
            yield self.aliases[parts[0]], parts[1], False
        for name in [parts[0]] + self.operators(parts[0]):
            if name in self.names:
                yield self.names[name] + (True,)

    def operators(self, word):
        """The operators whose sign the word is. In a `do` all are meant that it may be read as."""
        if word == "do":
            return [name for name in self.names if name in ("◌>>=◌", "◌>>◌")]
        return [name for name in self.names if "◌" in name and word in name.split("◌")]


# Definitions of specs


# The types are those that a text of Rust names. A struct that is modelled has its value's type as its terms.
Definition = namedtuple("Definition", "path name text scope terms types modelled", defaults=((), False))


def at_left(line):
    return bool(line) and not line[0].isspace()


def chunks_of(lines):
    """The definitions of a file as lists of lines, each with the comment above it and its own fixity."""
    chunks, above = [], []
    for line in lines:
        begins = DEFINITION.match(line) is not None
        if line.startswith("--") or line.startswith("infix") or not line.strip():
            above.append(line)
        elif begins:
            chunks.append(above + [line])
            above = []
        elif chunks:
            chunks[-1] += above + [line]
            above = []
        else:
            raise Unknown("a line before the first definition: %s" % line)
    return chunks


def name_of_chunk(chunk):
    return next(DEFINITION.match(line).group(1) for line in chunk if DEFINITION.match(line))


def constructors_of(chunk):
    """The constructors of a `data`, which are names of their own."""
    begin = next(index for index, line in enumerate(chunk) if DEFINITION.match(line))
    if not chunk[begin].startswith("pub data"):
        return []
    return [line.split(":")[0].strip() for line in chunk[begin + 1 :] if re.match(r"  \S+ :", line)]


def check_equations(chunk, name, path):
    """Each line at the left behind the first has to be an equation of the same name."""
    begin = next(index for index, line in enumerate(chunk) if DEFINITION.match(line))
    signs = [sign for sign in name.split("◌") if sign]
    for line in chunk[begin + 1 :]:
        if at_left(line) and not line.startswith(("--", "}")) and not all(sign in line.split() for sign in signs):
            raise Unknown("%s: a line that is no equation of %s: %s" % (path, name, line))


class Specs:
    """A file of specs."""

    def __init__(self, path, module):
        with open(os.path.join(CRATES, path), encoding="utf-8") as file:
            lines = file.read().split("\n")
        body = [line for line in lines[1:] if not re.match(r"(pub )?use |pub mod ", line)]
        chunks = chunks_of(body)
        self.scope = Scope(module)
        self.definitions = {}
        for line in lines:
            if re.match(r"(pub )?use ", line):
                self.scope.add(line.replace("pub use", "use"))
        for chunk in chunks:
            self.take(chunk, path, module)

    def take(self, chunk, path, module):
        """Takes a definition, under its own name and those of its constructors."""
        name = name_of_chunk(chunk)
        check_equations(chunk, name, path)
        text = "\n".join(chunk).strip("\n")
        made = Definition(path, name, text, self.scope, FIELD.sub(r"\1", text))
        for each in [name] + constructors_of(chunk):
            self.definitions[each] = made
            self.scope.names[each] = (module, each)


# Types, traits and functions of src


def block_from(lines, begin):
    """The lines of an item, from where it begins to its closing brace or its semicolon."""
    indent = len(lines[begin]) - len(lines[begin].lstrip())
    for end in range(begin, len(lines)):
        line = lines[end].rstrip()
        if line in (" " * indent + "}", " " * indent + "{}") or (line.endswith(";") and end == begin):
            return lines[begin : end + 1]
    raise Unknown("an item without end: %s" % lines[begin])


def documented(lines, begin):
    """The comment lines above an item, without its attributes."""
    above = []
    while begin and re.match(r"\s*(///|//|#\[)", lines[begin - 1]):
        begin -= 1
        above.insert(0, lines[begin])
    return [line for line in above if not line.lstrip().startswith("#[")]


def ghost_scope(lines, module, outer=None, nested=False):
    """What the imports for contracts say: those at the left of a file, or those inside a block."""
    scope = Scope(module, (), outer)
    for line in lines:
        if re.match(r"\s+ghost use " if nested else r"ghost use ", line):
            scope.add(line.strip()[len("ghost ") :])
    return scope


def uses_of(text):
    """What Rust's own imports say: a name's path."""
    uses = {}
    for path, items, single in re.findall(r"^(?:pub )?use ([\w:]+?)::(?:\{([^}]*)\}|(\w+));", text, re.M):
        for item in (items or single).split(","):
            if item.strip():
                uses[item.strip().split(" as ")[-1]] = path.split("::") + [item.strip().split(" as ")[0]]
    return uses


def braced(text, at):
    """The text within the braces that open at a place, and the place behind them."""
    depth = 0
    for end in range(at, len(text)):
        depth += (text[end] == "{") - (text[end] == "}")
        if depth == 0:
            return text[at + 1 : end], end + 1
    raise Unknown("a brace that isn't closed")


def terms_in(text):
    """The terms of a block's clauses and ghost members."""
    terms = []
    for found in TERM.finditer(text):
        terms.append(braced(text, found.end() - 1)[0])
    return "\n".join(terms)


def without_terms(text):
    """A text of Rust without the terms of its clauses and ghost members."""
    found = TERM.search(text)
    while found:
        text = text[: found.start()] + text[braced(text, found.end() - 1)[1] :]
        found = TERM.search(text)
    return text


class Rust:
    """A file of src: its types, traits and impls."""

    def __init__(self, path, crate):
        with open(os.path.join(CRATES, path), encoding="utf-8") as file:
            text = file.read()
        self.path, self.crate, self.lines = path, crate, text.split("\n")
        self.scope = ghost_scope(self.lines, "")
        self.uses = uses_of(text)
        self.types = {found.group(2): at for at, found in self.items(TYPE)}

    def items(self, pattern):
        found = ((at, pattern.match(line)) for at, line in enumerate(self.lines))
        return [(at, each) for at, each in found if each]

    def model_of(self, name):
        """The block `impl Model for` a type, or nothing."""
        pattern = re.compile(r"impl(?:<.*>)? Model for %s\b" % name)
        return next((block_from(self.lines, at) for at, _ in self.items(pattern)), None)

    def definition(self, name, inside=False):
        """The definition of a type or a trait; inside, with the fields that a model hides."""
        at = self.types[name]
        block, above = block_from(self.lines, at), documented(self.lines, at)
        model = None if inside else self.model_of(name)
        if model:
            return self.modelled(name, block, above, model)
        shown = [line for line in block if not line.lstrip().startswith(("#[", "ghost use "))]
        text = "\n".join(above + shown)
        code = "\n".join(line for line in shown if not line.lstrip().startswith("//"))
        scope = ghost_scope(block, "", self.scope, True)
        return Definition(self.path, name, text, scope, terms_in(code), self.named_types(code))

    def modelled(self, name, block, above, model):
        """A struct of which contracts see a value."""
        value = re.search(r"ghost Value = \{(.*?)\};", "\n".join(model), re.S).group(1)
        head = re.sub(r"\s*[{(;].*$", "", block[0])
        text = "\n".join(above + ["%s, of which contracts see a value: {%s}" % (head, value)])
        return Definition(self.path, name, text, ghost_scope(model, "", self.scope, True), value, (), True)

    def named_types(self, code):
        """The types that a text of Rust names, as paths."""
        plain = without_terms(code)
        return tuple(self.type_path(word) for word in sorted(set(re.findall(r"\b[A-Z]\w*", plain))))

    def type_path(self, word):
        return [self.crate, word] if word in self.types else self.uses.get(word, ["", word])


Function = namedtuple("Function", "file type name signature clauses generics scope above")


def split_top(text):
    """The parts between commas that stand in no brackets."""
    parts, depth = [""], 0
    for sign in text:
        depth += (sign in "(<[") - (sign in ")>]")
        if sign == "," and depth == 0:
            parts.append("")
        else:
            parts[-1] += sign
    return [part.strip() for part in parts if part.strip()]


def clauses_of(text):
    """The clauses of a function's head, as kind, name and term with its place in the text."""
    clauses, at = [], 0
    while True:
        found = CLAUSE_HEAD.search(text, at)
        if not found:
            return clauses
        term, at = braced(text, found.end() - 1)
        clauses.append((found.group(1), found.group(2) or "", term))


def head_of(block):
    """A function without its body."""
    lines, indent = [], len(block[0]) - len(block[0].lstrip())
    for line in block:
        if line == " " * indent + "{":
            break
        if line.rstrip().endswith(" {") and not CLAUSE_HEAD.search(line) and not lines:
            return [line.rstrip()[:-2]]
        lines.append(line)
    return lines


def impl_above(lines, at):
    """The impl block in which a function stands, or nothing."""
    if not lines[at].startswith(" "):
        return []
    begin = next(index for index in range(at, -1, -1) if re.match(r"(impl|pub trait)\b", lines[index]))
    return block_from(lines, begin)


def bounds_of(text):
    """The traits that bound each parameter of `<..>`."""
    bounds = {}
    for part in split_top(text):
        name, _, traits = part.partition(":")
        bounds[name.strip()] = [trait.strip() for trait in traits.split("+") if trait.strip()]
    return bounds


def functions_of(file):
    """The public functions of a file of src."""
    functions = []
    for at, found in file.items(FUNCTION):
        impl = impl_above(file.lines, at)
        head = "\n".join(head_of(block_from(file.lines, at)))
        named = re.match(r"impl(?:<(.*)>)? (?:\w+(?:<.*>)? for )?(\w+)", impl[0]) if impl else None
        own = re.match(r"\s*pub (?:const )?fn \w+<(.*?)>\(", head)
        generics = bounds_of((named.group(1) or "") if named else "")
        generics.update(bounds_of(own.group(1)) if own else {})
        scope = ghost_scope(impl, "", file.scope, True)
        signature = re.split(r"\n\s*(?:requires|ensures|//)", head)[0]
        owner = named.group(2) if named else ""
        above = documented(file.lines, at)
        functions.append(Function(file, owner, found.group(1), signature, clauses_of(head), generics, scope, above))
    return functions


def values_of(function):
    """The types of a function's parameters and of its result, by the names that clauses have for them."""
    begin = function.signature.index("(")
    inner = function.signature[begin + 1 : function.signature.rindex(")", 0, (function.signature + " ->").rindex("->"))]
    values = {"self": function.type, "result": function.signature.partition("->")[2].strip()}
    for part in split_top(inner):
        name, _, kind = part.partition(":")
        values[re.sub(r"^(mut|&mut|&)\s*", "", name.strip())] = kind.strip() or function.type
    return values


# The whole


def is_crate(name):
    return bool(name) and os.path.isdir(os.path.join(CRATES, name))


class Project:
    """All files, read where they are first asked for."""

    def __init__(self):
        self.specs, self.sources, self.kit = {}, {}, set()

    def specs_of(self, path):
        """The file of specs that a path names, or None where it is the kit's."""
        crate, _, rest = path.partition(".specs.")
        name = "%s/specs/%s.antt" % (crate, rest.replace(".", "/"))
        if path not in self.specs:
            found = rest and os.path.isfile(os.path.join(CRATES, name))
            self.specs[path] = Specs(name, path) if found else None
        return self.specs[path]

    def files_of(self, crate):
        """All files of a crate's src but those of its tests."""
        if crate not in self.sources:
            folder = os.path.join(CRATES, crate, "src")
            names = sorted(os.listdir(folder)) if os.path.isdir(folder) else []
            paths = ["%s/src/%s" % (crate, name) for name in names if name.endswith(".rt") and "tests" not in name]
            self.sources[crate] = [Rust(path, crate) for path in paths]
        return self.sources[crate]

    def type_named(self, crate, name, module=None):
        """The file that defines a type of a crate, or None."""
        files = [file for file in self.files_of(crate) if name in file.types]
        if module:
            files = [file for file in files if file.path == "%s/src/%s.rt" % (crate, module)]
        if len(files) > 1:
            raise Unknown("several types %s in %s" % (name, crate))
        return files[0] if files else None

    def declared(self, path):
        """The type that a path of declared types means."""
        crate, _, rest = path.partition(".specs.declared.")
        parts = [part for part in rest.split(".") if part not in DECLARED]
        file = self.type_named(crate, parts[-1], "/".join(parts[:-1]) or None)
        return file.definition(parts[-1], "TheInside" in rest) if file else None

    def meant(self, path, name, sure):
        """The definition that a path and a name mean; what is of the kit is kept by its name."""
        if not is_crate(path.split(".")[0]):
            self.kit.add((path, name))
            return None
        if ".specs.declared." in path:
            found = self.declared(path)
        else:
            specs = self.specs_of(path)
            found = specs.definitions.get(name) if specs else None
        if sure and not found:
            raise Unknown("nothing named %s in %s" % (name, path))
        return found

    def rust_type(self, crate, path):
        """The type that a path of Rust means, or None where it is the kit's."""
        owner = crate if path[0] == "crate" else path[0]
        if not is_crate(owner):
            return None
        file = self.type_named(owner, path[-1], "/".join(path[1:-1]))
        if file:
            return file.definition(path[-1])
        library = next((each for each in self.files_of(owner) if each.path == owner + "/src/lib.rt"), None)
        if not library or not is_crate(library.uses.get(path[-1], [""])[0]):
            raise Unknown("no type %s in %s" % (path[-1], owner))
        return self.rust_type(owner, library.uses[path[-1]])

    def needed(self, definition):
        """What a definition rests on."""
        crate = definition.path.split("/")[0]
        found = [self.rust_type(crate, path) for path in definition.types]
        for parts in words_of(definition.terms):
            found += [self.meant(*target) for target in definition.scope.targets(parts)]
        return unique(each for each in found if each and key_of(each) != key_of(definition))


def key_of(definition):
    return definition.path, definition.name, definition.text


def unique(definitions):
    return list({key_of(each): each for each in definitions}.values())


# From a clause to the text


def functions_named(project, crate, words):
    """The public functions that the words behind a crate's name mean."""
    found = [function for file in project.files_of(crate) for function in functions_of(file)]
    if not words:
        return found
    named = [each for each in found if each.name == words[-1] and (len(words) == 1 or each.type == words[0])]
    return [each for each in named if len(words) > 1 or not each.type] or named


def clause_of(project, asked):
    """The function and the clause that were asked for."""
    place, slash, name = asked.partition("/")
    crate, *words = place.split("::")
    found = [
        (function, clause)
        for function in functions_named(project, crate, words)
        for clause in function.clauses
        if slash and clause[0] == "ensures" and clause[1] == name
    ]
    if len(found) > 1 and not words:
        found = [each for each in found if each[0].name == crate] or found
    if len(found) != 1:
        names = ["::".join(filter(None, (crate, each.type, each.name))) for each, _ in found]
        raise Unknown("%s is %s" % (asked, "any of " + ", ".join(names) if found else "no clause of a public function"))
    return found[0]


def fields_named(term, value):
    """The fields of a value that a term names, or None where it names it whole."""
    fields = set()
    for parts in words_of(term):
        if parts[0] == value:
            rest = [part for part in parts[1:] if part not in ("now", "old", "new")]
            if not rest:
                return None
            fields.add(rest[0])
    return fields


def followed_types(project, function, term, value, kind):
    """The types that a value of the signature brings in: its own, or those of its fields that are named."""
    file = function.file
    fields = fields_named(term, value)
    paths = [file.type_path(word) for word in re.findall(r"\b[A-Z]\w*", kind)]
    types = [project.rust_type(file.crate, path) for path in paths]
    known = [each for each in types if each]
    if fields is None or all(re.search(r"(?m)^pub struct \w+ \{$", each.text) for each in known):
        return known
    return [
        each if each.modelled else each._replace(types=field_types(project, each, fields), terms="") for each in known
    ]


def field_types(project, definition, fields):
    """The types of some fields of a struct, as paths."""
    crate = definition.path.split("/")[0]
    file = next(each for each in project.files_of(crate) if each.path == definition.path)
    lines = [line for line in definition.text.split("\n") if re.match(r"\s*(pub )?(%s):" % "|".join(fields), line)]
    words = re.findall(r"\b[A-Z]\w*", "\n".join(line.partition(":")[2] for line in lines))
    return tuple(file.type_path(word) for word in words)


def asked_definition(project, function, clause):
    """The clause as a definition of its own, with its function's signature and conditions; and what its values bring in."""
    shown = [each for each in function.clauses if each[0] == "requires"] + [clause]
    indent = " " * (len(function.signature) - len(function.signature.lstrip()))
    lines = ["%s    %s {%s}" % (indent, " ".join(filter(None, (kind, name))), term) for kind, name, term in shown]
    text = "\n".join(function.above[:1] + [function.signature] + lines)
    term = "\n".join(each[2] for each in shown)
    values = [item for item in values_of(function).items() if any(parts[0] == item[0] for parts in words_of(term))]
    brought = [each for value, kind in values for each in followed_types(project, function, term, value, kind)]
    traits = [trait for name in function.generics for trait in function.generics[name] if re.search(r"\b%s\." % name, term)]
    brought += [project.rust_type(function.file.crate, function.file.type_path(trait)) for trait in traits]
    name = "%s/%s" % (function.name, clause[1])
    asked = Definition(function.file.path, name, text, function.scope, term)
    return asked, unique(each for each in brought if each)


def reached(project, asked_clauses, parts):
    """All definitions that clauses rest on, the clauses too, each with what it rests on."""
    graph, waiting = {}, []
    for asked, brought in asked_clauses:
        graph[key_of(asked)] = (asked, unique(brought + project.needed(asked)))
        waiting += graph[key_of(asked)][1]
    while waiting:
        definition = waiting.pop()
        if key_of(definition) not in graph:
            graph[key_of(definition)] = (definition, project.needed(parts.followed(definition)))
            waiting += graph[key_of(definition)][1]
    return graph


def reached_in_part(project, calls):
    """The same, with structs followed in those fields alone that are named: what is named grows until nothing more is."""
    asked_clauses = [asked_definition(project, *call) for call in calls]
    parts, before = Parts(project, calls), None
    while parts.known() != before:
        before = parts.known()
        graph = reached(project, asked_clauses, parts)
        for definition, _ in list(graph.values()):
            parts.take(definition)
    return asked_clauses, graph, parts


# Types that are followed in part


# A type of which only some fields may be followed: its fields with what is known of their types.
Struct = namedtuple("Struct", "definition fields file")
SIGN = re.compile(r"[(){}\[\],;]|[^\s(){}\[\],;]+")
NAME = re.compile(r"[^\W\d][\w'-]*$")
BINDER = re.compile(r"[({]([^\s(){}:]+(?: [^\s(){}:]+)*) : ")
KEYWORDS = ("if", "then", "else", "where", "let", "in", "do", "λ", "record", "case", "of", "with")
OTHER = None


def record_fields(text):
    """The fields of a record of specs, each with the text of its type."""
    found = re.findall(r"(?ms)^  pub (\S+) :(.*?)(?=^  pub |\Z)", without_comments(text, "--"))
    return dict(found)


def struct_fields(text):
    """The fields of a struct, each with the text of its type."""
    return dict(re.findall(r"(?m)^    (?:pub(?:\(crate\))? )?(\w+): (.*?),?$", without_comments(text, "//")))


def with_fields(text, fields):
    """A record or a struct with these fields alone, and their comments; its first line says so."""
    lines, above, keeps = [], [], True
    for line in text.split("\n"):
        field = re.match(r"(?:  pub (\S+) :|    (?:pub(?:\(crate\))? )?(\w+): )", line)
        if re.match(r"\s+(--|//)", line):
            above.append(line)
            continue
        keeps = keeps and not field or at_left(line) or bool(field) and (field.group(1) or field.group(2)) in fields
        lines += above + [line] if keeps else []
        above = []
    first = next(at for at, line in enumerate(lines) if re.match(r"pub (record|struct) ", line))
    mark = "--" if lines[first].startswith("pub record") else "//"
    return "\n".join(lines[:first] + ["%s %s in part" % (lines[first], mark)] + lines[first + 1 :])


def split_arrows(text):
    """The parts between arrows that stand in no brackets."""
    parts, depth = [""], 0
    for sign in text:
        depth += (sign in "({[") - (sign in ")}]")
        if sign == "→" and depth == 0:
            parts.append("")
        else:
            parts[-1] += sign
    return [" ".join(part.split()) for part in parts]


def groups_in(tokens):
    """Tokens with each bracket and what it holds as one."""
    groups, depth = [], 0
    for token in tokens:
        if depth == 0:
            groups.append([])
        groups[-1].append(token)
        depth += (token in "({[") - (token in ")}]")
    return groups


def head_and_equations(definition):
    """The type of a definition, and the left and right sides of its equations; of a record its fields stand on the right."""
    lines = without_comments(definition.text, "--").split("\n")
    begin = next(index for index, line in enumerate(lines) if DEFINITION.match(line))
    if lines[begin].startswith(("pub record", "pub data")):
        head, _, body = "\n".join(lines[begin:]).partition("where\n")
        return head, [("", body)]
    ends = [at for at in range(begin + 1, len(lines)) if at_left(lines[at]) and not lines[at].startswith("}")] + [len(lines)]
    sides = ["\n".join(lines[at:end]).partition(" =")[::2] for at, end in zip(ends, ends[1:])]
    return "\n".join(lines[begin : ends[0]]).partition(" : ")[2], sides


def is_apart(token):
    """Whether a token stands between two applications."""
    return token in KEYWORDS or token in ",;({[" or token.endswith(".") or not re.search(r"\w", token)


class Parts:
    """The types that may be followed in part, the fields that were named of each, and those that have to be followed whole."""

    def __init__(self, project, calls):
        self.project, self.structs, self.named, self.whole = project, {}, {}, set()
        self.values = {}
        for function, clause in calls:
            for value, kind in values_of(function).items():
                self.find(function.file, kind)
            asked = asked_definition(project, function, clause)[0]
            self.values[key_of(asked)] = function

    def known(self):
        return {key: set(fields) for key, fields in self.named.items()}, set(self.whole)

    # Which types there are

    def find(self, file, kind):
        """Takes the structs that a type of Rust names, and those of their fields."""
        for word in re.findall(r"\b[A-Z]\w*", kind):
            self.add(self.project.rust_type(file.crate, file.type_path(word)))

    def add(self, definition):
        definition = self.value_of(definition) if definition and definition.modelled else definition
        if not definition or key_of(definition) in self.structs:
            return
        if definition.path.endswith(".antt"):
            if re.search(r"(?m)^pub record \S+ : ", definition.text):
                self.keep(Struct(definition, record_fields(definition.text), None))
                for kind in record_fields(definition.text).values():
                    if NAME.match(kind.strip()):
                        self.add(self.meant(definition, kind.strip().split(".")))
            return
        if not re.search(r"(?m)^pub struct \w+ \{$", definition.text):
            return
        crate = definition.path.split("/")[0]
        file = next(each for each in self.project.files_of(crate) if each.path == definition.path)
        self.keep(Struct(definition, struct_fields(definition.text), file))
        for kind in struct_fields(definition.text).values():
            self.find(file, kind)

    def keep(self, struct):
        self.structs[key_of(struct.definition)] = struct
        self.named[key_of(struct.definition)] = set()

    def value_of(self, definition):
        """The record that is the value of a struct with a model, or nothing."""
        words = words_of(definition.terms)
        return self.meant(definition, words[0]) if len(words) == 1 else None

    def meant(self, definition, parts):
        """The definition that a word means where it stands."""
        found = [self.project.meant(*target) for target in definition.scope.targets(parts)]
        return next((each for each in found if each), None)

    def kinds(self, struct, field):
        """The types followed in part that a field's type names, and whether it is that type alone."""
        if not struct.file:
            words = [".".join(parts) for parts in words_of(struct.fields[field])]
            keys = [key for key in (self.is_one(struct.definition, word) for word in words) if key]
            return keys, struct.fields[field].strip() in words
        return self.of_kind(struct.file, struct.fields[field])

    def of_kind(self, file, kind):
        words = re.findall(r"\b[A-Z]\w*", kind)
        found = [self.project.rust_type(file.crate, file.type_path(word)) for word in words]
        found = [self.value_of(each) if each and each.modelled else each for each in found]
        keys = [key_of(each) for each in found if each and key_of(each) in self.structs]
        return keys, re.sub(r"^&(mut )?", "", kind.strip()) in words

    def is_one(self, definition, text):
        """The type followed in part that a text of specs is, or nothing."""
        found = self.meant(definition, text.split(".")) if NAME.match(text) else None
        return key_of(found) if found and key_of(found) in self.structs else None

    # What is followed

    def followed(self, definition):
        """A definition with those fields alone that are followed."""
        key = key_of(definition)
        if key not in self.structs or key in self.whole:
            return definition
        struct, needed = self.structs[key], self.needed_of(key)
        if struct.file:
            return definition._replace(types=field_types(self.project, definition, needed) if needed else ())
        return definition._replace(terms="\n".join(struct.fields[field] for field in sorted(needed)))

    def needed_of(self, key):
        """The fields that are followed: those that were named, and those of the same type that their types name."""
        struct, needed = self.structs[key], set(self.named[key])
        while not struct.file and self.inner(struct, needed):
            needed |= self.inner(struct, needed)
        return needed

    def shown(self, definition):
        """A definition as it is printed: of a type that is followed in part with these fields alone."""
        key = key_of(definition)
        if key not in self.structs or key in self.whole or self.needed_of(key) == set(self.structs[key].fields):
            return definition
        return definition._replace(text=with_fields(definition.text, self.needed_of(key)))

    def inner(self, struct, fields):
        """The fields that the types of some fields name."""
        words = {parts[0] for field in fields for parts in words_of(struct.fields[field])}
        return {field for field in struct.fields if field in words} - fields

    def make_whole(self, key):
        """Follows all of a type, and of those in its fields."""
        if key not in self.whole:
            self.whole.add(key)
            for field in self.structs[key].fields:
                for inside in self.kinds(self.structs[key], field)[0]:
                    self.make_whole(inside)

    def lines(self, graph):
        """A line for each type that is followed in part."""
        shown = [key for key in sorted(self.structs) if key in graph and key not in self.whole]
        parted = [key for key in shown if self.needed_of(key) != set(self.structs[key].fields)]
        return ["-- crates/%s %s: %s" % (key[0], key[1], " ".join(sorted(self.needed_of(key)))) for key in parted]

    # What a definition names

    def take(self, definition):
        """Takes what a definition of the text names."""
        key = key_of(definition)
        if key in self.values:
            self.take_clause(definition, self.values[key])
        elif key not in self.structs and definition.path.endswith(".antt"):
            self.take_specs(definition)
        elif key not in self.structs and not definition.modelled:
            self.take_rust(definition)
        elif definition.modelled and not self.value_of(definition):
            self.check_names(definition, words_of(definition.terms), [])

    def take_rust(self, definition):
        """What a type or a trait of Rust names that isn't followed in part itself is followed whole."""
        for each in self.project.needed(definition):
            each = self.value_of(each) if each.modelled else each
            if each and key_of(each) in self.structs:
                self.make_whole(key_of(each))

    def take_clause(self, definition, function):
        known, compound = {}, {}
        for value, kind in values_of(function).items():
            keys, alone = self.of_kind(function.file, kind)
            if alone and keys:
                known[value] = keys[0]
            elif keys:
                compound[value] = keys
        self.check_names(definition, words_of(definition.terms), [])
        self.read(definition, definition.terms, known, compound)

    def take_specs(self, definition):
        head, sides = head_and_equations(definition)
        arguments = self.arguments(definition)
        binders = self.binders(definition, head)
        benign = [key for key in arguments if key] or list(binders.values())
        self.check_names(definition, words_of(definition.terms), benign + [self.returned(definition)])
        for left, right in sides:
            self.read(definition, right, {**self.binders(definition, right), **binders, **self.patterns(definition, left, arguments)}, {})

    def arguments(self, definition):
        """For each argument of a definition of specs the type followed in part that it has, or nothing."""
        head, _ = head_and_equations(definition)
        if re.search(r"(?m)^pub (record|data) ", definition.text):
            kinds = [kind for names, kind in re.findall(r"\((\S+(?: \S+)*) : ([^()]*)\)", head) for _ in names.split()]
            return [self.is_one(definition, kind) for kind in kinds]
        kinds = [part for part in split_arrows(head)[:-1] if not part.startswith("{")]
        return [key for kind in kinds for key in self.argument(definition, kind)]

    def returned(self, definition):
        """The type followed in part of what a definition of specs gives, or nothing."""
        if re.search(r"(?m)^pub (record|data) ", definition.text):
            return None
        return self.is_one(definition, split_arrows(head_and_equations(definition)[0])[-1])

    def argument(self, definition, kind):
        named = re.match(r"\((\S+(?: \S+)*) : (.*)\)$", kind)
        if named:
            return [self.is_one(definition, named.group(2))] * len(named.group(1).split())
        return [self.is_one(definition, kind)]

    def binders(self, definition, text):
        """The variables that a text binds with their types."""
        found = {}
        for match in BINDER.finditer(text):
            kind = re.match(r"[^(){}]*", text[match.end() :]).group(0).strip()
            found.update({name: self.is_one(definition, kind) for name in match.group(1).split()})
        fields = record_fields(text)
        found.update({field: self.is_one(definition, fields[field].strip()) for field in fields})
        return found

    def check_names(self, definition, words, benign):
        """Where a type is named otherwise than as that of an argument, it is followed whole."""
        named = [self.is_one(definition, ".".join(parts)) for parts in words]
        for key in set(filter(None, named)):
            if named.count(key) > benign.count(key):
                self.make_whole(key)

    def patterns(self, definition, left, arguments):
        """The variables of an equation's left side. An argument that isn't one is taken apart, or handed on unseen."""
        patterns = [each for each in groups_in(SIGN.findall(left))[1:] if each[0] != "{"] if left else []
        found = {}
        for place, key in enumerate(arguments if left else []):
            plain = place < len(patterns) and len(patterns[place]) == 1 and "◌" not in definition.name
            if key and not plain:
                self.make_whole(key)
            elif plain and (key or NAME.match(patterns[place][0])):
                found[patterns[place][0]] = key
        return found

    def read(self, definition, text, known, compound):
        """Takes the words of a term: of a variable of a type followed in part its fields, and of one whose type isn't known each
        field of that name."""
        tokens = SIGN.findall(re.sub(r'"[^"]*"', " ", without_comments(text, "--")))
        self.lambdas(definition, tokens, known, compound)
        for at, token in enumerate(tokens):
            if self.is_bound(tokens, at):
                continue
            parts = [part for part in token.rstrip(".").split(".")]
            rest = [part for part in parts[1:] if part not in ("now", "old", "new")]
            if parts[0] in compound:
                self.inside(compound[parts[0]], definition, tokens, at)
            elif known.get(parts[0]):
                self.walk(known[parts[0]], rest, definition, tokens, at)
            elif parts[0] not in known and self.gives(definition, token):
                self.hand_on_result(self.gives(definition, token), definition, tokens, at)
            elif parts[0] not in known and parts[0] not in definition.scope.aliases:
                for place in range(len(rest)):
                    for key in [key for key in self.structs if rest[place] in self.structs[key].fields]:
                        self.walk(key, rest[place:], definition, tokens, at)

    def is_bound(self, tokens, at):
        """Whether a token is one of the variables behind a λ."""
        while at and tokens[at] != "λ" and NAME.match(tokens[at].rstrip(".")) and not tokens[at - 1].endswith("."):
            at -= 1
        return tokens[at] == "λ"

    def gives(self, definition, token):
        """The type followed in part of what a definition gives that a word means, or nothing."""
        found = self.meant(definition, token.split(".")) if NAME.match(token.split(".")[-1]) else None
        return self.returned(found) if found and found.path.endswith(".antt") else None

    def hand_on_result(self, key, definition, tokens, at):
        """What a definition gives has to be all that is given here, too, or to stand in brackets and be handed on."""
        arguments = self.arguments(self.meant(definition, tokens[at].split(".")))
        rest = groups_in(tokens[at:])[1 : 1 + len(arguments)]
        end = at + 1 + sum(len(group) for group in rest)
        plain = len(rest) == len(arguments) and not any(is_apart(group[0]) and group[0] != "(" for group in rest)
        if plain and at == 0 and end == len(tokens) and self.returned(definition) == key:
            return
        if plain and tokens[at - 1 : at] == ["("] and tokens[end : end + 1] == [")"]:
            if not tokens[end + 1 : end + 2] or not tokens[end + 1].startswith("."):
                self.hand_on(key, definition, tokens, at - 1)
        else:
            self.make_whole(key)

    def lambdas(self, definition, tokens, known, compound):
        """The variable of `IfSome value (λ x. ..)` has the type of what the value may be."""
        for at in range(len(tokens) - 4):
            if tokens[at] == "IfSome" and tokens[at + 2 : at + 4] == ["(", "λ"]:
                keys = self.end_of(tokens[at + 1], known, compound)
                known.update({tokens[at + 4].rstrip("."): keys[0]} if keys else {})

    def end_of(self, token, known, compound):
        """The types followed in part that the value of a path may hold."""
        first, *rest = token.split(".")
        keys = compound.get(first) or ([known[first]] if known.get(first) else [])
        for field in rest:
            keys = [each for key in keys if field in self.structs[key].fields for each in self.kinds(self.structs[key], field)[0]]
        return keys

    def walk(self, key, fields, definition, tokens, at):
        """Follows a path from a value of a type on."""
        struct = self.structs[key]
        if not fields:
            self.hand_on(key, definition, tokens, at)
        elif fields[0] in struct.fields:
            self.named[key].add(fields[0])
            keys, alone = self.kinds(struct, fields[0])
            if alone and keys:
                self.walk(keys[0], fields[1:], definition, tokens, at)
            elif keys:
                self.inside(keys, definition, tokens, at)

    def application(self, tokens, at):
        """The place of the head of the application in which a token is an argument, and how many arguments stand before it."""
        begin, depth = at, 0
        while begin > 0:
            token = tokens[begin - 1]
            depth += (token in ")}]") - (token in "({[")
            if depth < 0 or (depth == 0 and is_apart(token) and token not in "({["):
                break
            begin -= 1
        return begin, len(groups_in(tokens[begin:at])) - 1

    def takes(self, definition, token, key, place):
        """Whether a word means a definition of the project with an argument of this type at this place."""
        found = self.meant(definition, token.split(".")) if token not in ("(", "{", "[") else None
        if not found or not found.path.endswith(".antt"):
            return False
        arguments = self.arguments(found)
        return place < len(arguments) and arguments[place] == key

    def hand_on(self, key, definition, tokens, at):
        """A value that stands alone has to be an argument of a definition that takes one of its type, or all that is given."""
        if len(tokens) == 1 and self.returned(definition) == key:
            return
        begin, place = self.application(tokens, at)
        if begin == at or not self.takes(definition, tokens[begin], key, place):
            self.make_whole(key)

    def inside(self, keys, definition, tokens, at):
        """A value that may hold one of these types has to stand in `IfSome`, before what takes one."""
        begin, place = self.application(tokens, at)
        if tokens[begin] == "IfSome" and place == 0 and len(keys) == 1 and self.is_taken(definition, tokens[at + 1 :], keys[0]):
            return
        for key in keys:
            self.make_whole(key)

    def is_taken(self, definition, tokens, key):
        """Whether what stands next takes a value of the type."""
        group = groups_in(tokens)[0] if tokens else [""]
        if group[:2] == ["(", "λ"]:
            return True
        if group[0] != "(":
            return self.takes(definition, group[0], key, 0)
        return self.takes(definition, group[1], key, len(groups_in(group[1:-1])) - 1)


# The order


def ready(graph, done, keys):
    """Of some definitions those that can be printed now, or come to be by one another."""
    found, more = set(), True
    while more:
        more = [key for key in keys if key not in found and graph[key] <= done | found]
        found |= set(more)
    return found


def file_groups(graph, order):
    """The keys in groups of one file each, each group resting on those before it. A circle is broken at its first."""
    left, done, groups = list(order), set(), []
    while left:
        by_file = {path: [key for key in left if key[0] == path] for path in dict.fromkeys(key[0] for key in left)}
        options = [(path, ready(graph, done, keys)) for path, keys in by_file.items()]
        whole = [(path, keys) for path, keys in options if len(keys) == len(by_file[path])]
        path, keys = next(iter(whole or [each for each in options if each[1]] or [(left[0][0], set(left[:1]))]))
        groups.append((path, [key for key in order if key in keys]))
        done |= keys
        left = [key for key in left if key not in done]
    return groups


def place_of(key, files):
    """Where a definition stands: its file, and the place in it of its first line that is no comment."""
    path, _, text = key
    if path not in files:
        with open(os.path.join(CRATES, path), encoding="utf-8") as file:
            files[path] = file.read()
    first = next(line for line in text.split("\n") if not line.lstrip().startswith(("--", "//")))
    return path, files[path].find(first.split(", of which contracts")[0])


def kit_lines(project):
    """The kit's names, a line for each of its modules."""
    modules = {}
    for path, name in sorted(project.kit):
        modules.setdefault(path, []).append(name)
    return ["-- %s: %s" % (path, " ".join(names)) for path, names in modules.items()]


def is_counted(line):
    return bool(line.strip()) and not line.startswith("-- crates/")


def closure(clauses):
    """The groups of files that clauses rest on, the names that are the kit's, and the types that are followed in part."""
    project = Project()
    asked, graph, parts = reached_in_part(project, [clause_of(project, each) for each in clauses])
    rests_on = {key: {key_of(need) for need in needed} for key, (_, needed) in graph.items()}
    files, last = {}, [key_of(each) for each, _ in asked]
    order = sorted((key for key in graph if key not in last), key=lambda key: place_of(key, files)) + last
    groups = [(path, [parts.shown(graph[key][0]) for key in keys]) for path, keys in file_groups(rests_on, order)]
    return groups, kit_lines(project), parts.lines(graph)


def text_of(groups):
    parts = []
    for path, definitions in groups:
        parts.append("-- crates/%s" % path)
        parts += [each.text for each in definitions]
    return "\n\n".join(parts)


def main(words):
    options = [word for word in words if word.startswith("-")]
    clauses = [word for word in words if not word.startswith("-")]
    if not clauses or any(option not in ("--count", "--names") for option in options):
        print(__doc__, file=sys.stderr)
        return 2
    try:
        groups, kit, partly = closure(clauses)
    except Unknown as unknown:
        print("closure: %s" % unknown, file=sys.stderr)
        return 1
    text = text_of(groups)
    count = sum(is_counted(line) for line in text.split("\n"))
    total = "%d lines, %d files" % (count, len({path for path, _ in groups}))
    if "--names" in options:
        print("\n".join("%s %s" % (path, each.name) for path, definitions in groups for each in definitions))
    elif "--count" in options:
        print(total)
    else:
        print("-- What %s rests on, bottom up.\n" % " and ".join(clauses))
        print(text + "\n\n-- Of the kit:\n" + "\n".join(kit))
        print("\n-- Followed in part:\n" + "\n".join(partly) + "\n\n-- " + total)
    return 0


if __name__ == "__main__":
    sys.exit(main(sys.argv[1:]))
