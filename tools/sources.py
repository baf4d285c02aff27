"""The sources of the repository: what each contract, definition, type and trait cites, and where that leads."""

import re
from dataclasses import dataclass
from pathlib import Path

from read_antt import read_antt
from read_rt import MEANING, RtFile, type_names

CONSTRUCTORS = ("zero", "suc", "true", "false")
DECLARED = ("struct", "enum", "type", "trait")


@dataclass
class Entry:
    """What a contract can rest on: its name, its lines, what is said over it, and the paths that it cites."""

    name: str
    crate: str
    file: str
    spans: list
    says: str
    is_word: bool
    paths: set

    @property
    def lines(self):
        return sum(last - first + 1 for first, last in self.spans)

    @property
    def place(self):
        return f"{self.file}:" + ",".join(f"{first}-{last}" if first < last else f"{first}" for first, last in self.spans)


@dataclass
class Function:
    """A function of Rattle, and the paths that its contract cites."""

    name: str
    place: str
    paths: set


class Sources:
    """All entries by their paths, all functions, and the paths that any contract cites, each with a place that does."""

    def __init__(self, top):
        self.top = Path(top)
        text = (self.top / "crates.txt").read_text(encoding="utf-8")
        self.crates = re.findall(r"^(\w+)[^:]*:", re.sub(r"#.*", "", text), re.M)
        self.entries, self.elsewhere, self.constructors, self.declared = {}, {}, set(), {}
        self.functions, self.cited = [], {}
        antt_files = [self.read_specs(crate, file) for crate, file in self.files("specs", "antt")]
        rt_files = [self.read_source(crate, file) for crate, file in self.files("src", "rt")]
        for file in antt_files:
            self.add_words(file)
        for file in rt_files:
            self.add_declared(file)
        for file in antt_files:
            for one in file.definitions:
                self.entries[f"{file.path}.{one.name}"].paths |= one.paths(file.known, self.is_constructor)
        for file in rt_files:
            self.add_contracts(file)

    def files(self, folder, ending):
        """The files of a kind, crate by crate from the lowest up."""
        for crate in self.crates:
            for file in sorted((self.top / "crates" / crate / folder).rglob(f"*.{ending}")):
                yield crate, file

    def read_specs(self, crate, file):
        parts = file.relative_to(self.top / "crates" / crate / "specs").with_suffix("").parts
        path = ".".join(["Rattle", crate, "specs", *parts])
        return read_antt(str(file.relative_to(self.top)), crate, path, file.read_text(encoding="utf-8"))

    def read_source(self, crate, file):
        parts = file.relative_to(self.top / "crates" / crate / "src").with_suffix("").parts
        module = parts[:-1] if parts[-1] in ("lib", "main", "mod") else parts
        return RtFile(str(file.relative_to(self.top)), crate, module, file.read_text(encoding="utf-8"))

    def add_words(self, file):
        """Takes in the definitions of a file, and what it hands on of others."""
        for one in file.definitions:
            path = f"{file.path}.{one.name}"
            self.entries[path] = Entry(one.name, file.crate, file.file, [(one.first, one.last)], one.says, True, set())
            if one.kind == "data":
                constructors = [f"{file.path}.{name}" for name, _ in one.members]
                self.constructors.update(constructors)
                self.elsewhere.update((name, path) for name in constructors)
        self.elsewhere.update((f"{file.path}.{name}", path) for name, path in file.handed_on.items())

    def add_declared(self, file):
        """Takes in the types and traits that a file declares."""
        for item in file.items:
            if item.kind in DECLARED and item.within.kind == "mod":
                path = declared_path(item)
                spans = [file.lines_of(item)]
                self.entries[path] = Entry(item.own_name, file.crate, file.file, spans, file.doc_of(item), False, set())
                self.declared[file.crate, item.own_name] = path

    def visible_in(self, file):
        """The types and traits of this repository that a file can name, with their paths."""
        found = {}
        for name, parts in file.imported.items():
            crate = parts[0] if parts[0] in self.crates else file.crate
            found[name] = self.declared.get((crate, parts[-1]))
        found.update((item.own_name, declared_path(item)) for item in file.items if item.kind in DECLARED)
        return {name: path for name, path in found.items() if path in self.entries}

    def add_contracts(self, file):
        """Takes in what the contracts, ghost members and types of a file cite."""
        visible = self.visible_in(file)
        for item in file.items:
            cited = file.paths(item, item.clauses, visible)
            for path in cited | file.paths(item, item.inner, visible):
                self.cited.setdefault(path, f"{file.file}:{file.line_of(item.start)}")
            if item.kind == "fn":
                self.add_function(file, item, cited, visible)
            elif item.kind == "impl" and item.trait == "Model" and item.own_name in visible:
                self.add_meaning(file, item, self.entries[visible[item.own_name]], visible)
            elif item.kind in DECLARED and item.within.kind == "mod":
                fields = type_names(file, item) if item.kind != "trait" else set()
                self.entries[declared_path(item)].paths |= cited | {visible[it] for it in fields if it in visible}

    def add_function(self, file, item, cited, visible):
        """A function of a trait is part of the trait. One that implements a trait's has that contract, unless it has its own."""
        if item.within.kind == "trait":
            self.entries[declared_path(item.within)].paths |= cited
        above = {visible[item.within.trait]} if item.within.trait in visible and not item.clauses else set()
        self.functions.append(Function(item.name, f"{file.file}:{file.line_of(item.start)}", cited | above))

    def add_meaning(self, file, item, entry, visible):
        """A type with an `impl Model` rests on what it means in contracts."""
        members = [clause for clause in item.clauses if clause.word in MEANING]
        entry.paths |= file.paths(item, members, visible)
        entry.spans.append((file.line_of(members[0].start), file.line_of(members[-1].end - 1)))

    def find(self, path):
        """The path of the entry to which a path leads, or nothing."""
        parts = path.split(".")
        for end in range(len(parts), 0, -1):
            front = ".".join(parts[:end])
            if front in self.entries:
                return front
            if front in self.elsewhere:
                return self.find(self.elsewhere[front])
        return None

    def is_outside(self, path):
        """Whether a path leads to the standard library or a crate of the kit."""
        return path.split(".")[1] not in self.crates

    def is_constructor(self, path):
        """Whether a name with this path is a constructor where it stands in a pattern."""
        found = self.find(path)
        if found:
            return path in self.constructors or (found != path and not self.entries[found].is_word)
        last = path.split(".")[-1]
        return bool(path) and (not last[0].islower() or last in CONSTRUCTORS)

    def reach(self, paths):
        """The paths of all entries on which these paths rest, and the paths that lead out of the repository."""
        found, outside, open_paths = set(), set(), list(paths)
        while open_paths:
            path = open_paths.pop()
            entry = self.find(path)
            if entry is None:
                outside.add(path)
            elif entry not in found:
                found.add(entry)
                open_paths += self.entries[entry].paths
        return found, outside

    def in_order(self, paths):
        """Entries in reading order: the lowest crate first, a file behind those of its crate on which it rests, then by line."""
        files = self.file_order(paths)
        entries = [self.entries[path] for path in paths]
        return sorted(entries, key=lambda it: (self.crates.index(it.crate), files.index(it.file), it.spans))

    def file_order(self, paths):
        """The files of these entries, each behind those of its crate on which it rests, where that goes."""
        below = {}
        for path in sorted(paths):
            entry = self.entries[path]
            cited = (self.entries[it] for it in map(self.find, entry.paths) if it in paths)
            below.setdefault(entry.file, set()).update(it.file for it in cited if it.crate == entry.crate)
        order, begun = [], set()

        def place(file):
            if file not in begun:
                begun.add(file)
                for other in sorted(below[file]):
                    place(other)
                order.append(file)

        for file in sorted(below):
            place(file)
        return order


def declared_path(item):
    """The path by which antt names a type; a trait has one of the same form here."""
    crate, *parts = item.name.split("::")
    return ".".join(["Rattle", crate, "specs", "declared", *parts])
