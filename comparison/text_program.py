# SPDX-License-Identifier: MIT
"""Reads the protected unit of an Ada text, and changes the text so that GNAT can carry out scripts on it. Its lines stay. Inserted
are a function that counts the calls on each entry, notes at the beginning of entry bodies and before requeues, and `type` after
the `protected` of a single object. With clauses are moved away, and packages lose the names of their parents."""

import dataclasses
import itertools
import re

# Elements of Ada (2.2). A tick after a name is an attribute's.
ELEMENT = re.compile(
    r"(?P<skipped>\s+|--[^\n]*)|(?P<string>\"(?:[^\"\n]|\"\")*\")|(?P<word>[^\W\d]\w*)"
    r"|(?P<number>\d\w*(?:\.\d\w*)?(?:#[\w.]+#)?(?:[eE][+-]?\d+)?)|(?P<character>'[^\n]')"
    r"|(?P<symbol>=>|\.\.|:=|/=|<=|>=|<<|>>|\*\*|<>|.)", re.DOTALL)
# Words after which a tick begins a character.
RESERVED = ("when", "is", "return", "and", "or", "xor", "in", "not", "then", "else", "if", "case", "mod", "rem", "with")
OPERATIONS = ("entry", "procedure", "function")
# Pragmas that only a library unit can have.
LIBRARY_PRAGMAS = ("pure", "preelaborate", "elaborate_body", "all_calls_remote", "shared_passive")
# How many entries comparison/ada/text/names.ads has names for.
MOST_ENTRIES = 32
# The inserted function.
COUNTS = "Pobj_Waiting"


class Refused(Exception):
    """The text can't be made into a program: it has no protected unit, or a form that this reader doesn't know."""


@dataclasses.dataclass
class Element:
    """A word, number, literal or symbol of the text, and its place."""

    kind: str
    text: str
    start: int

    @property
    def end(self):
        """Returns the place after it."""
        return self.start + len(self.text)

    @property
    def lower(self):
        """Returns its text in small letters, by which words are compared."""
        return self.text.lower()


@dataclasses.dataclass
class Parameter:
    """A parameter or a discriminant: its mode is `in`, `out` or `in out`, its mark the name of its subtype."""

    name: str
    mode: str
    mark: str
    default: str = ""


@dataclasses.dataclass
class Operation:
    """An operation that the declaration has. The family is the text of its index subtype, or empty."""

    kind: str
    name: str
    family: str
    parameters: list
    result: str
    is_public: bool
    # Whether it has an aspect Pre or Post: then GNAT refuses conditional and timed calls.
    has_conditions: bool
    # An entry's place among the entries, from 1.
    place: int = 0


@dataclasses.dataclass
class Unit:
    """The protected unit of a text."""

    text: str
    name: str
    discriminants: list
    operations: list
    packages: list
    # The with clauses, and the formal types of a generic package and its name.
    context: list
    formals: list
    generic: str
    # What replaces a part of the text: the part's start and end, and the new text.
    changes: list
    # For each record type its components as parameters.
    records: dict
    # How each name is spelled, by its capitals.
    spellings: dict

    @property
    def entries(self):
        """Returns the entries, in the order of their declarations."""
        return [operation for operation in self.operations if operation.kind == "entry"]

    def scalars(self, parameters):
        """Yields for each scalar part of the parameters: the parameter's place, the components after it, its mode and mark."""
        for place, parameter in enumerate(parameters, 1):
            for components, mark in self.parts(parameter.mark):
                yield place, components, parameter.mode, mark

    def parts(self, mark):
        """Yields the scalar parts of a subtype: the components that lead to it, and its mark."""
        record = self.records.get(mark.lower())
        if record is None:
            yield "", mark
        else:
            for component in record:
                for components, scalar in self.parts(component.mark):
                    yield f".{component.name}{components}", scalar


def is_name(element):
    """Returns whether a tick after the element is that of an attribute or a qualified expression."""
    return element.text == ")" or element.kind == "word" and element.lower not in RESERVED


def elements_of(text):
    """Returns the elements of the text, without spaces and comments."""
    found, at = [], 0
    while at < len(text):
        element = ELEMENT.match(text, at)
        kind, written = element.lastgroup, element.group()
        if kind == "character" and found and is_name(found[-1]):
            kind, written = "symbol", "'"
        if kind != "skipped":
            found.append(Element(kind, written, at))
        at += len(written)
    return found


class Reader:
    """Reads the elements of a text."""

    def __init__(self, text):
        self.text = text
        self.elements = elements_of(text)
        self.at = 0

    def here(self):
        """Returns the text of the present element in small letters, or nothing at the end."""
        return self.elements[self.at].lower if self.at < len(self.elements) else ""

    def place(self):
        """Returns the place of the present element."""
        return self.elements[self.at].start if self.at < len(self.elements) else len(self.text)

    def take(self):
        """Takes the present element, and returns it."""
        if self.at == len(self.elements):
            raise Refused("the text ends too early")
        self.at += 1
        return self.elements[self.at - 1]

    def takes(self, word):
        """Takes the present element if it is that word, and returns whether it is."""
        found = self.here() == word
        self.at += found
        return found

    def find(self, *words):
        """Goes on to the next of the words that isn't in parentheses."""
        depth = 0
        while depth > 0 or self.here() not in words:
            element = self.take()
            depth += (element.text == "(") - (element.text == ")")

    def parenthesized(self):
        """Takes what is in parentheses, and returns its elements."""
        first, depth = self.at + 1, 0
        while True:
            element = self.take()
            depth += (element.text == "(") - (element.text == ")")
            if depth == 0:
                return self.elements[first:self.at - 1]

    def written(self, elements):
        """Returns the text from the first to the last of these elements, on one line."""
        return " ".join(self.text[elements[0].start:elements[-1].end].split()) if elements else ""

    def name(self):
        """Takes a name with its dots, and returns it."""
        found = self.take().text
        while self.takes("."):
            found += f".{self.take().text}"
        return found

    def parameters(self, elements):
        """Returns the parameters that these elements declare."""
        found = []
        for part in split(elements, ";"):
            names, rest = part[:colon(part)], part[colon(part) + 1:]
            words = [element.lower for element in rest]
            modes = [word for word in words[:2] if word in ("in", "out")]
            rest = rest[len(modes):]
            if words and (words[0] in ("access", "aliased") or "null" in words[:2]):
                raise Refused(f"a parameter of an access type: {self.written(part)}")
            mark, *default = split(rest, ":=") or [[]]
            if not mark:
                raise Refused(f"no subtype after the colon in: {self.written(part)}")
            mode = " ".join(modes) or "in"
            for element in names:
                if element.text != ",":
                    found.append(Parameter(element.text, mode, self.written(mark), self.written(default[0]) if default else ""))
        return found


def split(elements, symbol):
    """Returns the parts of the elements between the symbols that aren't in parentheses."""
    parts, depth = [[]], 0
    for element in elements:
        depth += (element.text == "(") - (element.text == ")")
        if depth == 0 and element.text == symbol:
            parts.append([])
        else:
            parts[-1].append(element)
    return [part for part in parts if part]


def colon(elements):
    """Returns the place of the first colon, which a declaration of parameters has."""
    for place, element in enumerate(elements):
        if element.text == ":":
            return place
    raise Refused(f"no colon in the parameters after '{elements[0].text}'")


def has_colon(elements):
    """Returns whether the elements declare parameters: a family's index subtype has no colon."""
    return any(element.text == ":" for element in elements)


def operation(reader, is_public):
    """Reads an operation's declaration."""
    kind, name = reader.take().lower, reader.take().text
    family, parameters, result = "", [], ""
    if kind == "entry" and reader.here() == "(":
        inside = reader.parenthesized()
        if has_colon(inside):
            parameters = reader.parameters(inside)
        else:
            family = reader.written(inside)
    if reader.here() == "(":
        parameters = reader.parameters(reader.parenthesized())
    if reader.takes("return"):
        result = reader.name()
    first = reader.at
    reader.find(";")
    aspects = {element.lower for element in reader.elements[first:reader.at]}
    return Operation(kind, name, family, parameters, result, is_public, bool(aspects & {"pre", "post"}))


def insert(changes, place, text):
    """Adds an insertion to the changes."""
    changes.append((place, place, text))


def declaration(reader, changes):
    """Reads the declaration after `protected`. Returns the unit's name, its discriminants and operations."""
    if not reader.takes("type"):
        insert(changes, reader.place(), "type ")
    name, discriminants = reader.take().text, []
    if reader.here() == "(":
        discriminants = reader.parameters(reader.parenthesized())
    reader.find("is")
    reader.take()
    operations, is_public, place = [], True, None
    while reader.here() != "end":
        if reader.here() == "private":
            is_public, place = False, reader.place()
            reader.take()
        elif reader.here() in OPERATIONS:
            operations.append(operation(reader, is_public))
        elif reader.here() in ("overriding", "not"):
            reader.take()
        else:
            reader.find(";")
            reader.take()
        reader.takes(";")
    place = reader.place() if place is None else place
    insert(changes, place, f"function {COUNTS} return Standard.Pobj_Texts.Units.Counts; ")
    return name, discriminants, operations


def bodies(reader, name, changes):
    """Reads the body of the unit of that name, after `protected body`, and returns the place after its `is`: notes go to the entry
    bodies and before requeues."""
    reader.find("is")
    place, its_entry = reader.take().end, ""
    while reader.at < len(reader.elements):
        word = reader.take().lower
        if word == "end" and reader.here() == name.lower():
            break
        if word == "entry":
            its_entry = reader.take().text
            reader.find("when")
            reader.find("is")
            begun = f" Pobj_Begun : constant Standard.Boolean := Standard.Pobj_Texts.Begun ({its_entry}'Caller);"
            insert(changes, reader.take().end, begun)
        elif word == "requeue" and its_entry:
            where = reader.elements[reader.at - 1].start
            insert(changes, where, f"Standard.Pobj_Texts.Requeue_Call ({its_entry}'Caller); ")
    return place


def record_types(reader):
    """Returns the components of each record type of the text, by its name in small letters."""
    found = {}
    words = [element.lower for element in reader.elements]
    for at in range(3, len(words)):
        if words[at] == "record" and words[at - 1] == "is" and words[at - 3] == "type":
            inside = reader.elements[at + 1:words.index("end", at)]
            found[words[at - 2]] = reader.parameters(inside) if has_colon(inside) else []
    return found


def package_names(reader, changes):
    """Returns the names of the text's packages. A package in another one can't have the names of parents, so these are removed."""
    found, elements = [], reader.elements
    for at, element in enumerate(elements[:-1]):
        is_body = elements[at + 1].lower == "body"
        if element.lower in ("package", "end"):
            reader.at = at + 1 + is_body
            first = reader.place()
            reader.name()
            last = elements[reader.at - 1]
            if last.start > first:
                changes.append((first, last.start, ""))
            if element.lower == "package" and not is_body and reader.here() in ("is", "with"):
                found.append(last.text)
    return found


def with_clauses(reader, changes):
    """Returns the with clauses of the text, which are moved away. Pragmas of library units are removed."""
    found, elements = [], reader.elements
    for at, element in enumerate(elements[:-1]):
        is_first = at == 0 or elements[at - 1].text == ";"
        is_clause = element.lower == "with" and is_first and elements[at + 1].lower not in (*OPERATIONS, "package")
        if is_clause or element.lower == "pragma" and elements[at + 1].lower in LIBRARY_PRAGMAS:
            reader.at = at
            reader.find(";")
            changes.append((element.start, reader.take().end, ""))
            if is_clause:
                found.append(reader.written(elements[at:reader.at]))
    return found


def formal_types(reader):
    """Returns the formal types of a generic package, and the package's name, or nothing for both."""
    words = [element.lower for element in reader.elements]
    if "generic" not in words:
        return [], ""
    reader.at = words.index("generic") + 1
    found = []
    while reader.takes("type"):
        found.append(reader.take().text)
        reader.find(";")
        reader.take()
    if words.count("generic") > 1 or not reader.takes("package"):
        raise Refused("generic: only one package with formal types is possible")
    return found, reader.name().split(".")[-1]


def declared_names(reader):
    """Yields the literals of enumeration types and the exceptions, as they are declared."""
    elements = reader.elements
    words = [element.lower for element in elements]
    for at, word in enumerate(words):
        if word == "(" and words[at - 1] == "is" and words[at - 3] == "type":
            yield from itertools.takewhile(lambda element: element.text != ")", elements[at:])
        elif word == "exception" and words[at - 1] == ":":
            yield from itertools.takewhile(lambda element: element.text != ";", elements[at - 2::-1])


def spelled(reader):
    """Returns how each name is spelled, by its capitals: a literal or an exception as it is declared, any other as it comes first."""
    found = {}
    for element in itertools.chain(declared_names(reader), reader.elements):
        if element.kind == "word":
            found.setdefault(element.text.upper(), element.text)
    return found


def units_in(reader):
    """Returns the names of the protected units and the places of their declarations, and the same of their bodies. A place is that
    after `protected` or `protected body`, a name is in small letters."""
    declared, with_body = {}, {}
    words = [element.lower for element in reader.elements]
    for at, word in enumerate(words[:-2], 1):
        if word == "protected" and words[at] == "body":
            with_body[words[at + 1]] = at + 1
        elif word == "protected" and words[at - 2:at - 1] != ["access"]:
            declared[words[at + (words[at] == "type")]] = at
    return declared, with_body


def place_of(reader, wanted):
    """Returns the places of the declaration and the body of the wanted unit, or of the only one."""
    declared, with_body = units_in(reader)
    name = wanted.lower() if wanted.lower() in declared else next(iter(declared), "")
    if not declared or len(declared) > 1 and name != wanted.lower():
        raise Refused(f"{len(declared)} protected units: " + ("the line `unit` has to name one" if declared else "one is needed"))
    if name not in with_body:
        raise Refused(f"{name} has no body")
    return declared[name], with_body[name]


def read(text, wanted=""):
    """Returns the protected unit of the text: that of the wanted name if there is one of this name, or the only one."""
    reader, changes = Reader(text), []
    first, second = place_of(reader, wanted)
    reader.at = first
    name, discriminants, operations = declaration(reader, changes)
    reader.at = second
    place = bodies(reader, name, changes)
    context = with_clauses(reader, changes)
    packages = package_names(reader, changes)
    unit = Unit(text, name, discriminants, operations, packages, context, *formal_types(reader), changes,
                record_types(reader), spelled(reader))
    if len(unit.entries) > MOST_ENTRIES:
        raise Refused(f"{len(unit.entries)} entries: at most {MOST_ENTRIES} are possible")
    for number, one in enumerate(unit.entries, 1):
        one.place = number
    insert(changes, place, counting(unit))
    return unit


def counting(unit):
    """Returns the body of the inserted function, on one line."""
    counts = "Standard.Pobj_Texts.Units.Counts"
    lines = []
    for one in unit.entries:
        member = " (Pobj_Index)" if one.family else ""
        count = f"Pobj_Place := Pobj_Place + 1; Pobj_Counts (Pobj_Place) := {one.name}{member}'Count;"
        lines.append(f"for Pobj_Index in {one.family} loop {count} end loop;" if one.family else count)
    return (f" function {COUNTS} return {counts} is Pobj_Counts : {counts} (1 .. 5_000); Pobj_Place : Standard.Natural := 0;"
            f" begin {' '.join(lines)} return Pobj_Counts (1 .. Pobj_Place); end {COUNTS};")


def changed(unit):
    """Returns the changed text. It has the lines of the text."""
    text = unit.text
    for start, end, new in sorted(unit.changes, reverse=True):
        text = text[:start] + new + "\n" * text.count("\n", start, end) + text[end:]
    return text
