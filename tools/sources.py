"""Reads the crates' sources for the reference: front pages, public items with their contracts, and definitions.

It reads the files as `rt fmt` lays them out: an item begins at the start of a line, and a method four blanks in. A contract
stands between a signature and a line that is only a brace.
"""

import glob
import os
import re

# a definition begins at the start of a line, or two blanks in if it stands in a module with parameters
DEFINITION = re.compile(r"^(?:  (?=abbrev |unfoldable ))?(?:abbrev |unfoldable )?pub (?:record |data )?([^\s:({]+)")
ITEM = re.compile(r'^(\s*)(pub |pub\(crate\) |)(?:const (?=fn)|unsafe |extern "C" )*(fn|struct|enum|trait|const|type) (\w+)')
TRAIT_IMPL = re.compile(r"^impl(?:<.*?>)? ([\w:]+)(?:<.*?>)? for (\w+)")
OWN_IMPL = re.compile(r"^impl(?:<.*?>)? (\w+)")
EXAMPLE = re.compile(r"(?m)^(\w+) : (([\w-]+)(?:\.([\w-]+))? .*[^→\n])\n(?:unfolding .*\n)?\1 =")
CLAUSE = re.compile(r"^\s*(?:pub )?(?:requires|ensures|decreases|ghost)\b")


class Entry:
    """What has a place in the reference: a definition of `specs/` or an item of `src/`."""

    def __init__(self, crate, kind, name, path, line, comment, text, scope):
        self.crate, self.kind, self.name, self.path, self.line = crate, kind, name, path, line
        self.comment, self.text, self.scope = comment, text, scope
        self.owner, self.is_public, self.model = None, False, ""

    def lines(self):
        """How many lines a reader has to read: those of the text that are neither blank nor a comment."""
        return sum(1 for line in self.text.splitlines() if line.strip() and not line.strip().startswith(("--", "//")))


class Crate:
    """A crate: its front page, its entries by name, and the names that it makes public."""

    def __init__(self, name, below):
        self.name, self.below = name, below
        self.front, self.public = "", []
        self.definitions, self.heads, self.items, self.examples = {}, {}, {}, []


def text_of(path):
    with open(path, encoding="utf-8") as file:
        return file.read()


def crates_of(root):
    """The crates of a tree, lowest first."""
    found = {}
    for line in text_of(os.path.join(root, "crates.txt")).splitlines():
        head, _, below = line.partition(":")
        if head and not line.startswith("#"):
            name = head.split()[0]
            found[name] = read_crate(root, name, below.split())
    return found


def read_crate(root, name, below):
    crate = Crate(name, below)
    folder = os.path.join(root, "crates", name)
    for path in sorted(glob.glob(f"{folder}/specs/**/*.antt", recursive=True)):
        module = os.path.relpath(path, f"{folder}/specs")[:-len(".antt")].replace("/", ".")
        text = text_of(path)
        crate.definitions[module] = definitions(crate, os.path.relpath(path, root), text)
        crate.heads[module] = "\n".join(line[3:] for line in re.match(r"(?:--.*\n)*", text)[0].splitlines())
    for path in sorted(glob.glob(f"{folder}/src/**/*.rt", recursive=True)):
        read_items(crate, os.path.relpath(path, root), text_of(path))
    for path in sorted(glob.glob(f"{folder}/proofs/examples/*.antt")):
        text = text_of(path)
        crate.examples += [(scope_of(text), *found) for found in EXAMPLE.findall(text)]
    front = os.path.join(folder, "src", "lib.rt")
    if os.path.exists(front):
        read_front(crate, text_of(front))
    return crate


def read_front(crate, text):
    """The front page, and the names that `lib.rt` makes public: what it re-exports, and what stands there."""
    lines = text.splitlines()
    crate.front = "\n".join(line[4:] for line in lines if line.startswith("//!"))
    for path, names in re.findall(r"(?m)^pub use ([\w:]+)::\{([^}]*)\};", text):
        crate.public += [(path.split("::")[0], name.strip()) for name in names.split(",") if name.strip()]
    crate.public += [(path.split("::")[0], name) for path, name in re.findall(r"(?m)^pub use ([\w:]+)::(\w+);", text)]
    own = [ITEM.match(line) for line in lines]
    crate.public += [(crate.name, item[4]) for item in own if item and item[1] == "" and item[2] == "pub "]


def scope_of(text):
    """What the `use` lines of a file give names to: for each name its crate, module and name there."""
    scope = {}
    for path, names in re.findall(r"(?m)^\s*(?:ghost )?use ([\w.]+)\.\{(.*?)\};?$", text):
        for name in re.split(r", ", names):
            there, _, here = name.partition(" as ")
            scope[here or there] = (path, there)
    for path, here in re.findall(r"(?m)^\s*(?:ghost )?use ([\w.]+)(?: as ([\w-]+))?;?$", text):
        scope[here or path.split(".")[-1]] = (path, "")
    return scope


def definitions(crate, path, text):
    """The definitions of a file of `specs/`, each with the comment above it and the line of its module."""
    lines, scope, found, comment = text.splitlines(), scope_of(text), {}, []
    at, module = 0, ""
    while at < len(lines):
        named = DEFINITION.match(lines[at])
        if named and not lines[at].startswith("pub mod"):
            end = end_of_definition(lines, at)
            body = "\n".join([module] * lines[at].startswith(" ") + lines[at:end]).rstrip()
            kind = "record" if " record " in lines[at] else "data" if " data " in lines[at] else "definition"
            found[named[1]] = Entry(crate.name, kind, named[1], path, at + 1, "\n".join(comment), body, scope)
            at, comment = end, []
        else:
            module = lines[at] if lines[at].startswith("module ") else module
            comment = comment + [lines[at].strip()[3:]] if lines[at].strip().startswith("--") else []
            at += 1
    return found


def constructors(entry):
    """The names of the cases of a `data` definition."""
    return re.findall(r"(?m)^  ([\w-]+) :", entry.text) if entry.kind == "data" else []


def end_of_definition(lines, at):
    """The line after a definition: the next one begins, or a module, or a comment after a blank line."""
    for end in range(at + 1, len(lines)):
        is_comment = lines[end].strip().startswith("--") and not lines[end - 1].strip()
        if is_comment or lines[end].startswith("module ") or DEFINITION.match(lines[end]):
            while lines[end - 1].strip().startswith("--"):
                end -= 1
            return end
    return len(lines)


def read_items(crate, path, text):
    """The items of a file, the public methods of its types, and the models that say what a value of a type means."""
    lines, scope, owner = text.splitlines(), scope_of(text), None
    for at, line in enumerate(lines):
        of_trait, of_type = TRAIT_IMPL.match(line), OWN_IMPL.match(line)
        if of_trait:
            owner = None
            if of_trait[1] == "Model":
                add_model(crate, of_trait[2], block(lines, at))
        elif of_type:
            owner = of_type[1]
        elif line == "}":
            owner = None
        item = ITEM.match(line)
        if item and (not item[1] or (owner and len(item[1]) == 4 and item[2] == "pub ")):
            add_item(crate, path, lines, at, item, owner, scope)


def add_item(crate, path, lines, at, item, owner, scope):
    kind, name = item[3], item[4]
    body = signature(lines, at) if kind == "fn" else one_line(lines, at) if kind in ("const", "type") else block(lines, at)
    entry = Entry(crate.name, kind, name, path, at + 1, doc_above(lines, at), body, scope)
    entry.owner, entry.is_public = owner if item[1] else None, item[2] == "pub "
    key = f"{entry.owner}::{name}" if entry.owner else name
    known = crate.items.get(key)
    entry.model = known.model if known else ""
    if not known or not known.is_public:
        crate.items[key] = entry


def add_model(crate, name, body):
    """Keeps what contracts see of a value of a type, for its entry, which may come before or after."""
    found = re.findall(r"(?ms)^    (ghost (?:Value|view|invariant) = .*?;)$", body)
    meaning = "\n".join(re.sub(r"(?m)^    ", "", it) for it in found)
    if name not in crate.items:
        crate.items[name] = Entry(crate.name, "type", name, "", 0, "", "", {})
    crate.items[name].model = meaning


def doc_above(lines, at):
    first = at
    while first and re.match(r"\s*(///|#\[)", lines[first - 1]):
        first -= 1
    return "\n".join(re.sub(r"^\s*/// ?", "", it) for it in lines[first:at] if "///" in it)


def one_line(lines, at):
    end = next(end for end in range(at, len(lines)) if lines[end].endswith(";"))
    return "\n".join(lines[at:end + 1])


def indented(line):
    return len(line) - len(line.lstrip())


def block(lines, at):
    """An item to the brace that closes it, or to its semicolon."""
    if lines[at].endswith((";", "}")):
        return lines[at].strip()
    depth = indented(lines[at])
    end = next(end for end in range(at + 1, len(lines)) if lines[end].strip() in ("}", ");") and indented(lines[end]) == depth)
    return "\n".join(line[depth:] for line in lines[at:end + 1])


def signature(lines, at):
    """A function's signature and its contract, without its body."""
    depth, found = indented(lines[at]), []
    for line in lines[at:]:
        if line.strip() in ("{", "{}") and indented(line) == depth:
            break
        if line.endswith(("{", "{}")) and not CLAUSE.match(line) and not any(CLAUSE.match(it) for it in found):
            found.append(re.sub(r" \{\}?$", "", line))
            break
        found.append(line)
    return "\n".join(line[depth:] for line in found)
