"""Reads antt: the imports and definitions of a file, and the names to which a text refers."""

import re
from dataclasses import dataclass, field

LETTER = r"[^\s()\[\]{},;:.λ\"]"
NAME = rf"{LETTER}+(?:\.{LETTER}+)*"
TOKEN = re.compile(rf"[()\[\]{{}},;:λ]|\.?{NAME}|\.")
NOISE = re.compile(r'"(?:\\.|[^"\\])*"|(?<!\S)--[^\n]*')
IMPORT = re.compile(r"(?:pub )?(?:ghost )?use\s+([^;{]+?)(?:\.\{(.*)\})?\s*;?\s*", re.S)
MODIFIERS = ("abbrev", "unfoldable", "pub", "private")
OPENING, CLOSING = "([{", ")]}"


def tokens_of(text):
    """The names, brackets and marks of a text. A field that is taken of a value begins with its dot."""
    return TOKEN.findall(NOISE.sub(" ", text))


def is_name(token):
    return token[0] != "." and re.fullmatch(NAME, token) is not None


def imports_of(statement):
    """The names that a `use` brings in, each with the path for which it stands. The name of a module ends with a dot. Of an
    operator each word is a name."""
    path, names = IMPORT.fullmatch(statement).groups()
    if names is None:
        path, _, alias = path.partition(" as ")
        return {f"{alias.strip() or path.split('.')[-1]}.": path}
    found = {}
    for entry in filter(None, map(str.strip, names.split(","))):
        name, _, alias = entry.partition(" as ")
        for word in filter(None, (alias or name).strip().split("◌")):
            found[word] = f"{path}.{name.strip()}"
    return found


def path_of(token, known):
    """The path for which a name stands, with what is taken of it, or nothing."""
    first, dot, rest = token.partition(".")
    if first == "Rattle":
        return token
    front = known.get(first + dot) or known.get(first, "")
    return front and front + dot + rest


@dataclass
class Frame:
    """What is bound within one pair of brackets, and what the pair binds for all that follows it."""

    bound: set = field(default_factory=set)
    binds: list = field(default_factory=list)
    in_lambda: bool = False


class Scan:
    """Gathers the paths to which texts refer, by the names that are known. A name that is bound hides a known one."""

    def __init__(self, known, bound=()):
        self.known = known
        self.paths = set()
        self.frames = [Frame(set(bound)), Frame()]
        self.lets = []

    def read(self, tokens):
        at = 0
        while at < len(tokens):
            at = self.step(tokens, at)
        return self.paths

    def read_inside(self, tokens):
        """Reads tokens whose own bindings end with them."""
        self.frames.append(Frame())
        self.read(tokens)
        self.frames.pop()

    def bind(self, name):
        self.frames[-1].bound.add(name)

    def all_bound(self):
        return set().union(*(frame.bound for frame in self.frames))

    def step(self, tokens, at):
        token = tokens[at]
        frame = self.frames[-1]
        if token in OPENING:
            return self.open(tokens, at)
        if token in CLOSING:
            self.frames[-2].bound.update(self.frames.pop().binds)
        elif token in (",", ";"):
            frame.bound.clear()
        elif token in ("λ", "."):
            frame.in_lambda = token == "λ"
        elif token == "let":
            self.lets.append(tokens[at + 1])
            return at + 2
        elif token == "in" and self.lets:
            self.bind(self.lets.pop())
        elif is_name(token) and not is_label(tokens, at):
            self.bind(token) if frame.in_lambda else self.refer(token)
        return at + 1

    def open(self, tokens, at):
        """Enters a pair of brackets. One that begins with names and a colon binds them for what follows it."""
        end = at + 1
        while end < len(tokens) and is_name(tokens[end]):
            end += 1
        binds = tokens[at + 1 : end] if tokens[end : end + 1] == [":"] else []
        self.frames.append(Frame(binds=binds))
        return end if binds else at + 1

    def refer(self, token):
        path = path_of(token, self.known)
        if path and token.split(".")[0] not in self.all_bound():
            self.paths.add(path)


def is_label(tokens, at):
    """Whether the name stands before a `=` in braces: it labels a field or an argument."""
    return at > 0 and tokens[at - 1] in ("{", ";") and tokens[at + 1 : at + 2] == ["="]


@dataclass
class Line:
    number: int
    text: str

    @property
    def indent(self):
        return len(self.text) - len(self.text.lstrip())


@dataclass
class Piece:
    """A line with the deeper lines that follow it, and whether a blank line stands before it."""

    lines: list
    after_gap: bool

    @property
    def text(self):
        return "\n".join(line.text for line in self.lines)


def pieces_of(lines):
    """The lines cut at the margin of the first."""
    pieces, gap = [], True
    for line in lines:
        if line.text.strip() and (not pieces or line.indent <= pieces[0].lines[0].indent):
            pieces.append(Piece([line], gap))
        elif line.text.strip():
            pieces[-1].lines.append(line)
        gap = not line.text.strip()
    return pieces


@dataclass
class Definition:
    """A word: its lines, the comment that stands over it, and the pieces of which it is made."""

    name: str
    kind: str
    first: int
    last: int
    says: str
    parameters: str
    pieces: list

    @property
    def header(self):
        """The tokens of a record or a data type before its members."""
        words = tokens_of(self.pieces[0].text)
        return words[: words.index("where")] if "where" in words else words

    @property
    def members(self):
        """The fields of a record, or the constructors of a data type, each with its type."""
        if self.kind == "word":
            return []
        lines = self.pieces[0].lines
        end = next((i for i, line in enumerate(lines) if line.text.endswith("where")), len(lines))
        split = [tokens_of(piece.text) for piece in pieces_of(lines[end + 1 :])]
        return [(words[words.index(":") - 1], words[words.index(":") + 1 :]) for words in split if ":" in words]

    def paths(self, known, is_constructor, bound=()):
        """The paths to which the definition refers."""
        scan = Scan(known, {self.name, *bound})
        scan.read(tokens_of(self.parameters))
        if self.kind == "word":
            bound = scan.all_bound()
            return scan.paths.union(*(paths_of_piece(piece, known, is_constructor, bound) for piece in self.pieces))
        scan.read(self.header)
        for name, type_of in self.members:
            scan.read_inside(type_of)
            scan.bind(name)
        return scan.paths


def paths_of_piece(piece, known, is_constructor, bound):
    """The paths of a signature, or of a clause with its own definitions behind `where`."""
    lines = [line.text.strip() for line in piece.lines]
    cut = lines.index("where") if "where" in lines else len(lines)
    words = tokens_of("\n".join(lines[:cut]))
    at = mark_of(words)
    patterns = {word for word in words[:at] if is_name(word)} if words[at] == "=" else set()
    told = {word for word in patterns if is_constructor(path_of(word, known))}
    local = definitions_in(piece.lines[cut + 1 :])
    hidden = bound | (patterns - told) | {one.name for one in local}
    found = Scan(known, hidden).read([*sorted(told), *words[at:]])
    return found.union(*(one.paths(known, is_constructor, hidden) for one in local))


def mark_of(words):
    """The place of the first `:` or `=` outside of brackets, or of the beginning where there is none."""
    depth = 0
    for at, word in enumerate(words):
        depth += (word in OPENING) - (word in CLOSING)
        if depth == 0 and word in (":", "="):
            return at
    return 0


def definitions_in(lines, parameters=""):
    """The definitions of these lines, those of unnamed modules and of groups that refer to each other too."""
    found, comment = [], []
    for piece in pieces_of(lines):
        text = piece.lines[0].text.strip()
        if text.startswith("--"):
            comment = ([] if piece.after_gap else comment) + [text[2:].strip()]
            continue
        says = "" if piece.after_gap else " ".join(comment)
        comment = []
        if text.startswith("module "):
            found += definitions_in(piece.lines[1:], parameters + text[len("module _") :])
        elif text.split()[-1] == "mutual":
            found += definitions_in(piece.lines[1:], parameters)
        elif not re.match(r"(pub )?(use|mod) ", text):
            add_piece(found, piece, says, parameters)
    return found


def add_piece(found, piece, says, parameters):
    """Adds a piece to the last definition, or begins a new one where the piece is a signature, a record or a data type."""
    words = tokens_of(piece.text)
    at = next(i for i, word in enumerate(words) if word not in MODIFIERS)
    kind = words[at] if words[at] in ("record", "data") else "word"
    if at == 0 and kind == "word" and words[mark_of(words)] != ":":
        found[-1].pieces.append(piece)
        found[-1].last = piece.lines[-1].number
    else:
        name = words[at + (kind != "word")]
        found.append(Definition(name, kind, piece.lines[0].number, piece.lines[-1].number, says, parameters, [piece]))


@dataclass
class AnttFile:
    """A file of definitions, with the names that it knows. Of these some are handed on."""

    file: str
    crate: str
    path: str
    definitions: list
    known: dict
    handed_on: dict


def read_antt(file, crate, path, text):
    lines = [Line(number, line) for number, line in enumerate(text.split("\n"), 1)]
    known, handed_on = {}, {}
    for piece in pieces_of(lines):
        if re.match(r"(pub )?use ", piece.lines[0].text):
            names = imports_of(NOISE.sub("", piece.text))
            known.update(names)
            handed_on.update(names if piece.text.startswith("pub ") else {})
    definitions = definitions_in(lines)
    for one in definitions:
        constructors = [name for name, _ in one.members] if one.kind == "data" else []
        known.update((name, f"{path}.{name}") for name in [one.name, *constructors])
    return AnttFile(file, crate, path, definitions, known, handed_on)
