"""Reads Rattle: the functions, types, traits and impls of a file, with their contracts and ghost members."""

import re
from dataclasses import dataclass, field

from read_antt import Scan, imports_of, tokens_of

NOISE = re.compile(
    r"//[^\n]*|/\*.*?\*/|(?<!\w)b?r(#*)\".*?\"\1|\"(?:\\.|[^\"\\])*\"|'(?:\\(?:x..|u\{[^}]*\}|.)|[^\\'\n])'", re.S
)
CLAUSE = re.compile(r"\b(?:(?:requires|ensures)\b\*?(?:\s+[\w«»]+)?|ghost\s+\w+\s*[:=])\s*\{")
USES = r"(?P<use>\bghost\s+use\s[^;]*;)"
PART = re.compile(rf"(?P<clause>{CLAUSE.pattern})|{USES}|\b(?P<item>fn|struct|enum|type|trait|impl|mod)\b")
USE = re.compile(r"(?<!ghost )\buse\s+([^;]*);")
IMPL = re.compile(r"\s*(?:<.*?>(?=\s+\w))?\s*(?:([\w:]+)(?:<.*>)?\s+for\s+)?([\w:]+).*", re.S)
MEANING = ("Value", "view", "invariant")


def without_noise(text):
    """The text with blanks for its comments and literals."""
    return NOISE.sub(lambda found: re.sub(r"[^\n]", " ", found[0]), text)


def end_of_block(text, start):
    """The place behind the brace that closes the one at the start."""
    depth = 0
    for found in re.compile(r"[{}]").finditer(text, start):
        depth += 1 if found[0] == "{" else -1
        if depth == 0:
            return found.end()
    return len(text)


def rust_paths(use):
    """The paths of a Rust `use`, each with the name that it brings in."""
    before, brace, inner = use.partition("{")
    if not brace:
        path, _, alias = use.strip().partition(" as ")
        parts = path.strip().split("::")
        return [(alias.strip() or parts[-1], parts)]
    found = []
    for entry in entries_of(inner.rpartition("}")[0]):
        found += rust_paths(before + entry)
    return found


def entries_of(text):
    """The parts between the commas that stand outside of inner braces."""
    depth, entries = 0, [""]
    for letter in text:
        depth += (letter == "{") - (letter == "}")
        if letter == "," and depth == 0:
            entries.append("")
        else:
            entries[-1] += letter
    return [entry.strip() for entry in entries if entry.strip()]


@dataclass
class Clause:
    """A clause or a ghost member: its word, where it stands, and its term."""

    word: str
    start: int
    end: int
    term: str


def clause_of(text, head):
    """The clause that begins with these words."""
    end = end_of_block(text, head.end() - 1)
    return Clause(head[0].rstrip("{ \n:=").split()[-1], head.start(), end, text[head.end() : end - 1])


def clauses_of(text, start, end):
    """The clauses and ghost members in a part of a text, one behind another."""
    found = []
    while (head := CLAUSE.search(text, start, end)) is not None:
        found.append(clause_of(text, head))
        start = found[-1].end
    return found


@dataclass
class Item:
    """A function, type, trait or impl: its signature, where it stands, its clauses and ghost members, and what it imports for
    them. Of a function those within its body are kept apart, and of an impl its trait is kept."""

    kind: str
    name: str
    signature: str
    start: int
    end: int
    within: "Item" = None
    trait: str = ""
    clauses: list = field(default_factory=list)
    inner: list = field(default_factory=list)
    uses: dict = field(default_factory=dict)

    @property
    def bounds(self):
        """The names of type parameters, each with the traits that bound it, of what it stands in too."""
        found = self.within.bounds if self.within else {}
        for name, traits in re.findall(r"(\w+)\s*:\s*([^,>({]+)", self.signature):
            found[name] = re.findall(r"[A-Z]\w*", traits)
        return found

    @property
    def own_name(self):
        return self.name.split("::")[-1]

    @property
    def parameters(self):
        return set(re.findall(r"(\w+)\s*:(?!:)", self.signature)) | {"self", "result"}

    @property
    def all_uses(self):
        return {**(self.within.all_uses if self.within else {}), **self.uses}


class RtFile:
    """A file of Rattle."""

    def __init__(self, file, crate, module, text):
        self.file, self.crate, self.raw = file, crate, text
        self.text = without_noise(text)
        self.items = []
        root = Item("mod", "::".join([crate, *module]), "", 0, len(self.text))
        self.read_block(root, 0, len(self.text))
        self.imported = dict(entry for use in USE.findall(self.text) for entry in rust_paths(use))

    def read_block(self, outer, start, end):
        """Reads what stands in a block: ghost members, ghost imports and items."""
        while (head := PART.search(self.text, start, end)) is not None:
            start = head.end()
            if head["clause"]:
                outer.clauses.append(clause_of(self.text, head))
                start = outer.clauses[-1].end
            elif head["use"]:
                outer.uses.update(imports_of(head[0]))
            else:
                start = self.read_item(outer, head["item"], head)

    def read_item(self, outer, kind, head):
        """Reads the item that begins here, and gives the place behind it."""
        body, end = self.body_of(kind, head.end())
        clauses = clauses_of(self.text, head.end(), body)
        signature = self.text[head.end() : clauses[0].start if clauses else body]
        trait, name = IMPL.fullmatch(signature).groups() if kind == "impl" else ("", re.match(r"\s*(\w*)", signature)[1])
        item = Item(kind, f"{outer.name}::{name}", signature, head.start(), end, outer, trait, clauses)
        self.items.append(item)
        if kind in ("impl", "trait", "mod"):
            self.read_block(item, body + 1, end - 1)
        elif kind == "fn":
            item.inner = clauses_of(self.text, body, end)
        else:
            item.clauses = clauses_of(self.text, body, end)
        return end

    def body_of(self, kind, at):
        """Where the body begins and ends of an item whose signature begins here. What ends with a `;` has none."""
        depth = 0
        while at < len(self.text):
            letter = self.text[at]
            clause = CLAUSE.match(self.text, at) if kind == "fn" and self.text[at - 1].isspace() else None
            if clause:
                at = end_of_block(self.text, clause.end() - 1)
            elif letter == "{":
                return at, end_of_block(self.text, at)
            elif letter == ";" and depth == 0:
                return at, at + 1
            else:
                depth += (letter in "([") - (letter in ")]")
                at += 1
        return at, at

    def line_of(self, place):
        return self.text.count("\n", 0, place) + 1

    def lines_of(self, item):
        return self.line_of(item.start), self.line_of(item.end - 1)

    def doc_of(self, item):
        """The first sentence of the comment over an item."""
        said = []
        for line in reversed(self.raw[: item.start].split("\n")[:-1]):
            if line.strip().startswith("///"):
                said.insert(0, line.strip()[3:].strip())
            elif not line.strip().startswith("#["):
                break
        return re.match(r"(.*?\.)(?=\s|$)|.*", " ".join(said))[0]

    def paths(self, item, clauses, visible):
        """The paths to which clauses of an item refer: by ghost imports, by the types and traits that are visible in Rust, and by
        type parameters, each of which stands for the trait that bounds it."""
        bounded = {name: visible[it] for name, bounds in item.bounds.items() for it in bounds if it in visible}
        known = {**visible, **item.all_uses, **bounded}
        hidden = item.parameters - set(bounded)
        return set().union(*(Scan(known, hidden).read(tokens_of(clause.term)) for clause in clauses))


def type_names(file, item):
    """The names in a type's declaration that can be types: of an enum those within its variants."""
    least, depth, found = 2 if item.kind == "enum" else 0, 0, set()
    for token in re.findall(r"[(){}]|\w+", file.text[item.start : item.end]):
        depth += (token in "({") - (token in ")}")
        if depth >= least:
            found.add(token)
    return found - {item.own_name}
