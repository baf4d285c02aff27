#!/usr/bin/env python3
"""Says on which definitions the contract of a function rests.

tools/trusted.py [FUNCTION]   prints them (those of each program's `top`, where none is named), lowest crate first, with their
                              files and lines
tools/trusted.py --write      makes docs/TRUSTED.md of those on which the contracts of `top` rest
tools/trusted.py --check      prints a line for each fault and ends with 1 where there is one: docs/TRUSTED.md is stale; a
                              definition on which a `top` rests has no comment; a word of specs/ is reached by no contract"""

import signal
import sys
from collections import Counter
from itertools import groupby
from pathlib import Path

sys.dont_write_bytecode = True

from sources import Sources  # noqa: E402

TOP = Path(__file__).resolve().parent.parent
PAGE = TOP / "docs" / "TRUSTED.md"
HEAD = """# What must be believed

What each program claims is the contract of its `top` ({places}).
That it is kept is proved; that it says the right thing rests on these definitions, in reading order, each with its lines and
the sentence that stands over it in the source. `tools/trusted.py --write` makes this page from the sources, and `.ci/run`
fails where it is stale.
"""


def functions_named(sources, name):
    """The one function of this name, by as much of its path as tells it from others; with no name, the `top` of each program."""
    found = [it for it in sources.functions if f"::{it.name}".endswith(f"::{name or 'top'}")]
    if name and len(found) != 1:
        told = "".join(f"\n  {it.name} ({it.place})" for it in found)
        sys.exit(f"trusted.py: {len(found)} functions are named {name}{told}")
    return sorted(found, key=lambda it: it.place)


def paths_of(functions):
    """The paths that the contracts of these functions name."""
    return set().union(*(it.paths for it in functions))


def counts_of(entries):
    """For each crate, and for all: how many definitions, lines and files these are."""
    rows = [(crate, list(those)) for crate, those in groupby(entries, lambda it: it.crate)] + [("in all", entries)]
    return [(name, len(those), sum(it.lines for it in those), len({it.file for it in those})) for name, those in rows]


def outside_of(sources, paths):
    """The modules out of the repository to which paths lead, each with how many of its words they name."""
    modules = Counter(path.rpartition(".")[0] for path in paths if sources.is_outside(path))
    return sorted(modules.items())


def print_trusted(sources, functions):
    found, beyond = sources.reach(paths_of(functions))
    entries = sources.in_order(found)
    for entry in entries:
        print(f"{entry.place} {entry.name}")
    print()
    for name, *numbers in counts_of(entries):
        print(f"{name}: {numbers[0]} definitions, {numbers[1]} lines, {numbers[2]} files")
    modules = outside_of(sources, beyond)
    print(f"outside: {sum(count for _, count in modules)} words of {len(modules)} modules")
    for module, count in modules:
        print(f"  {module}: {count}")


def page_of(sources, functions):
    """The text of docs/TRUSTED.md."""
    found, beyond = sources.reach(paths_of(functions))
    entries = sources.in_order(found)
    text = HEAD.format(places=", ".join(f"`{it.place}`" for it in functions))
    for crate, of_crate in groupby(entries, lambda it: it.crate):
        text += f"\n## {crate}\n"
        for file, of_file in groupby(of_crate, lambda it: it.file):
            text += f"\n### `{file}`\n\n"
            text += "".join(f"- `{it.name}`, `{it.place}`: {it.says.rstrip('.')}".rstrip(": ") + "\n" for it in of_file)
    text += "\n## Counts\n\n| crate | definitions | lines | files |\n|---|---|---|---|\n"
    text += "".join("| " + " | ".join(map(str, row)) + " |\n" for row in counts_of(entries))
    text += "\nBeside these they use words of the standard library and of the kit's crates, as many of each module:\n\n"
    return text + "".join(f"- `{module}`: {count}\n" for module, count in outside_of(sources, beyond))


def faults_of(sources, functions):
    """A line for each fault: of the page, of comments, and of words that are reached by no contract."""
    if not PAGE.exists() or PAGE.read_text(encoding="utf-8") != page_of(sources, functions):
        yield "docs/TRUSTED.md: it is stale; tools/trusted.py --write makes it anew"
    for entry in sources.in_order(sources.reach(paths_of(functions))[0]):
        if not entry.says:
            yield f"{entry.place}: {entry.name} has no comment of its own, and a `top` rests on it"
    reached, beyond = sources.reach(sources.cited)
    words = {path for path, entry in sources.entries.items() if entry.is_word}
    for entry in sources.in_order(words - reached):
        yield f"{entry.place}: {entry.name} is reached by no contract"
    for path in sorted(beyond):
        if not sources.is_outside(path) and ".specs." in path:
            yield f"{sources.cited.get(path, 'crates')}: {path} leads to no definition"


def main(words):
    if len(words) > 1 or words[:1] == ["--help"]:
        sys.exit(__doc__)
    sources = Sources(TOP)
    asked = words[0] if words else ""
    functions = functions_named(sources, "" if asked in ("--check", "--write") else asked)
    if asked == "--check":
        faults = list(faults_of(sources, functions))
        print("".join(f"{it}\n" for it in faults), end="")
        return 1 if faults else 0
    if asked == "--write":
        PAGE.write_text(page_of(sources, functions), encoding="utf-8")
    else:
        print_trusted(sources, functions)
    return 0


if __name__ == "__main__":
    signal.signal(signal.SIGPIPE, signal.SIG_DFL)
    sys.exit(main(sys.argv[1:]))
