#!/usr/bin/env python3
"""Writes the reference of the crates: what they promise, as HTML that needs no network.

    reference.py FOLDER

FOLDER gets a page for each crate, with its front page and its public items, their comments and contracts. A second page has
the crate's definitions, if there are any. More pages list all that somebody has to believe who believes a promise, in parts by
what a reader came for. Each name in a contract leads to its definition. All of it comes from the sources, so it is never older.
Examples are statements that are proved in `proofs/examples`.
"""

import collections
import html
import json
import os
import re
import shutil
import sys

sys.dont_write_bytecode = True

import sources  # noqa: E402

HERE = os.path.dirname(os.path.abspath(__file__))
ROOT = os.path.dirname(HERE)
WORD = re.compile(r"[^\s(){}\[\],;·&<>|]+")
RUST_WORD = re.compile(r"[A-Za-z_]\w*")
NEW_LINE = re.compile(r"^\s*(pub |fn |///|#\[|where$|\}|\)|$)")

# What has to be believed, a page each: its name and title, its crate, the call or the definitions that it begins with, those that
# it leaves to other pages, the page that a reader has read before, and what it says in plain words.
Believed = collections.namedtuple("Believed", "page title crate roots without after said")
BELIEVED = [
    Believed("believe-slice", "a slice as P4", "stlslice", ["run"], ["Reads", "IsFaultOf", "pngs", "report_text", "box_text", "probe_result"], "",
             "A run reads facets, checks that they are closed, places a grid and writes one image a layer. The centre of a pixel "
             "lies half a pitch, and half a layer height, from its cell's least corner. The ray from it along x crosses facets, "
             "each with the sign of its winding, and the pixel is 1 exactly if the rule calls the sum inside. If something is "
             "wrong, the run ends with one fault and has written nothing, unless writing failed. [`written_pixels`] says the same by "
             "facets, loops and pixels (`IsSlicedFrom`)."),
    Believed("believe-lines", "the lines of faults", "stlslice", ["RunFault.run_fault_text"], [], "believe-slice",
             "Each fault of a run has one line. That of a text says what is wrong, and at which byte, unless the text ended too soon. "
             "An open edge is told by its ends, and by how often facets run along it each way. A fault of the grid says why there "
             "is none. A write that failed is told with how many bytes had gone out."),
    Believed("believe-text", "how a text reads as facets", "stl_text", ["Text.Reads", "Text.IsFaultOf"], [], "",
             "A text is ASCII STL if it is some solids, each a name and facets of three corners. Words stand between white "
             "space, and keywords are read in any case. A number is a decimal, whose exact value is rounded once to a whole "
             "micrometre, halves away from zero. At most so many facets are read as the limit says. A text that isn't so has "
             "exactly one fault, at the first word that can't be there."),
    Believed("believe-png", "PNG", "stlslice", ["SlicedText.pngs"], ["IsPng"], "believe-slice",
             "A layer as PNG is the signature and three chunks, each with its length and its check sum. Its rows are packed with "
             "the leftmost pixel in the highest bit. None of them is filtered. They are compressed as one block of runs. A reader, "
             "defined from ISO 15948 and RFC 1950 and 1951, finds exactly the layer's pixels there ([`written_pixels`])."),
    Believed("believe-reader", "a reader of PNG", "layer_png", ["Png.IsPng", "Stream.cut_pngs"], [], "",
             "A PNG is the signature and the chunks IHDR, IDAT and IEND, each with length and CRC. The data of IDAT are one zlib "
             "stream with its Adler-32. Its codes are complete; of distances there may be none, or one word of one bit. A row is "
             "a filter type and bytes, to which the filter adds by those at the left and above. A stream is cut behind each IEND."),
    Believed("believe-box", "box, report and probe", "stlslice", ["Outcome.box_text", "SlicedText.report_text", "Outcome.probe_result"], [],
             "believe-slice",
             "The box is the number of all facets that were read, with the least and greatest coordinates of their corners. The "
             "report has a line a layer: how many loops its plane has, and how many pixels are filled. A loop is a closed cycle "
             "of the segments in which the plane cuts facets. The report's last line has the sum of the areas. The probe tells "
             "the signed crossings of one voxel's rays along x and along y."),
    Believed("believe-words", "words", "task_words", ["read_words", "wants_progress", "WordFault.word_fault_text"], [], "",
             "The words are uses of the options of a table, each at most once and with a value that it takes. What is not given "
             "has its default. The box goes before the probe, the probe before the report, the report before PNGs. If a text is "
             "wrong or something is missing, the fault is the first in the documented order. If the words ask for help or the "
             "version, that is told as a refusal."),
    Believed("believe-opening", "opening a part", "layer_session",
             ["Session::open", "Session.IsSessionOf", "Session.IsOpenFault"],
             ["Reads", "IsFaultOf", "ReadsBinary", "IsFaultOfBinary", "part_on_screen", "IsGridOfPart", "IsNoGridOfPart"], "",
             "The bytes of a file are read as a binary STL if they are as many as its count of facets takes, and as a text if not. "
             "The facets are placed in a grid or on a printer's screen, and have to be closed there. If something is wrong, there "
             "is one fault, the first of these: a step out of range, what the file has, a coordinate that leaves the range on the "
             "screen, the least open edge, what keeps the part from having a grid. Or memory ran out."),
    Believed("believe-binary", "how a binary STL reads as facets", "binary_stl", ["Binary.ReadsBinary", "Binary.IsFaultOfBinary"], [], "",
             "A binary STL is a header of 80 bytes, a count, and 50 bytes a facet. A coordinate is a number of IEEE 754 single "
             "precision. Its exact value in the unit is rounded once to a whole micrometre, halves away from zero. Normals and "
             "attributes are not looked at. The fault of other bytes is their length, their count, or the first number that is no "
             "coordinate."),
    Believed("believe-screen", "a part on a printer's screen", "part_on_screen",
             ["Screen.IsScreenOf", "Screen.IsNoScreen", "Stretched.part_on_screen", "Middle.IsGridOfPart", "Middle.IsNoGridOfPart"], [], "",
             "A part is turned by quarters, counterclockwise from above. Then x and y are multiplied by whole numbers, so that "
             "pixels become squares. Their side is the least whole number of micrometres that is a multiple of both sides. The "
             "middle of the part's box is that of the screen, its lowest point stands on the first layer, and the layers are "
             "those whose middle is below its top, at least one. There is no grid if no facet is left, if the part is wider or "
             "deeper than the screen, if a corner of the screen leaves the range, or if there are too many layers."),
    Believed("believe-options", "open_file", "stlslice_c", ["open_file"], ["IsSessionOf", "IsOpenFault"], "",
             "This is opening as C has it. The numbers of the options stand for a unit, a rule and a place, or for none: then the "
             "status is 1. If the file has a session, that is put into the handle and its counts into the shape. Else both stay, "
             "and the line has the fault's text, or that of the status."),
    Believed("believe-mask", "ask_mask", "stlslice_c", ["ask_mask"], [], "",
             "This is the image of one layer, behind the pointers of C, which `IsMaskCall` adds. The handle has an opened mesh, or "
             "none. With a mesh, the image of layer k is put into the buffer, if that is large enough. Else only the size that it "
             "needs is put. Any other status leaves all of the caller's as it was."),
]


class Names:
    """Where the names of the sources lead to."""

    def __init__(self, crates):
        self.crates, self.examples = crates, collections.defaultdict(list)
        for scope, label, said, head, rest in (it for crate in crates.values() for it in crate.examples):
            if head in scope and len(said) <= 130:
                self.examples[self.imported(scope, head, rest)].append((label.replace("_", " "), said))

    def place(self, entry):
        """The page and the mark of an entry."""
        if entry.path.endswith(".antt"):
            return f"{entry.crate}.specs.html#{self.module(entry)}.{entry.name}"
        return f"{entry.crate}.html#{entry.owner + '.' if entry.owner else ''}{entry.name}"

    def module(self, entry):
        return entry.path.split("/specs/")[1][:-len(".antt")].replace("/", ".")

    def imported(self, scope, word, rest=""):
        """What a `use` line gives a name to: an entry, or None for what is not of these crates. `rest` is what follows
        the point after the name of a whole module."""
        path, there = scope[word]
        parts = path.split(".")
        crate = self.crates.get(parts[1]) if parts[0] == "Rattle" and len(parts) > 2 else None
        if not crate or parts[2] != "specs":
            return None
        if parts[3:4] == ["declared"]:
            name = parts[-2] if parts[-1] == "TheVariants" else there or parts[-1]
            return crate.items.get(name)
        module = crate.definitions.get(".".join(parts[3:]), {})
        there = there or rest
        return module.get(there) or next((it for it in module.values() if there in sources.constructors(it)), None)

    def in_contract(self, entry, word):
        """What a word of a contract or of a definition means: an entry, or None."""
        head, _, rest = word.partition(".")
        if head in entry.scope:
            # a parameter may have the name of a module whose cases are imported, and these begin with a capital
            is_enum = entry.scope[head][0].endswith(".TheVariants") and not entry.scope[head][1]
            return None if is_enum and not rest[:1].isupper() else self.imported(entry.scope, head, rest)
        if entry.path.endswith(".antt"):
            return self.crates[entry.crate].definitions[self.module(entry)].get(head)
        bounds = re.findall(rf"\b{re.escape(head)}: ([\w+ ]+)", entry.text) if len(head) == 1 else []
        for bound in re.findall(r"\w+", " ".join(bounds)):
            if self.in_code(entry, bound):
                return self.in_code(entry, bound)
        return None

    def in_code(self, entry, word):
        """What a word of a signature or of a type means: an item, or None."""
        for name in [entry.crate, *self.crates[entry.crate].below]:
            crate = self.crates.get(name)
            found = crate.items.get(word) if crate else None
            if found and found.path and found.kind != "fn" and (name == entry.crate or found.is_public):
                return found
        return None

    def origin(self, crate, name):
        """The item that a crate makes public by a name, in that crate or in the one below that it comes from."""
        for place, public in crate.public:
            if public == name:
                is_below = place in crate.below and place in self.crates
                return self.origin(self.crates[place], name) if is_below else crate.items.get(name)
        return None

    def in_comment(self, crate, name):
        """What a comment of a crate means by a name: an item of its own, or a public one of a crate below."""
        below = [self.origin(self.crates[it], name) for it in crate.below if it in self.crates]
        return next((it for it in [crate.items.get(name), *below] if it and it.path), None)

    def is_from_outside(self, entry, word):
        head = word.split(".")[0]
        return head in entry.scope and bool(entry.scope[head][1]) and not self.imported(entry.scope, head)


def parts_of(entry):
    """The lines of an entry's text, each with what it is: code, contract or comment."""
    is_contract = entry.path.endswith(".antt")
    for line in entry.text.splitlines():
        if not entry.path.endswith(".antt"):
            if sources.CLAUSE.match(line):
                is_contract = True
            elif NEW_LINE.match(line):
                is_contract = False
        is_comment = line.strip().startswith(("--", "//"))
        yield "comment" if is_comment else "contract" if is_contract else "code", line


def words_of(names, entry, kind, line):
    """The words of a line, each with its place and the entry that it means, or None."""
    if kind == "comment":
        return
    # the first word of a line of an enum is the name of a variant
    start = re.match(r"\s*\w*", line).end() if entry.kind == "enum" and not line.startswith("pub") else 0
    pattern, meaning = (WORD, names.in_contract) if kind == "contract" else (RUST_WORD, names.in_code)
    for found in pattern.finditer(line, start):
        yield found.start(), found[0], meaning(entry, found[0])


def marked(names, entry, kind, line):
    """A line as HTML, with a link at each name that leads somewhere."""
    if kind == "comment":
        return f'<span class="comment">{html.escape(line)}</span>'
    out, at = [], 0
    for start, word, target in words_of(names, entry, kind, line):
        if target and target is not entry and target.path:
            said = html.escape((target.comment.splitlines() or [target.kind])[0], quote=True)
            head = word.split(".")[0]
            out += [html.escape(line[at:start]), f'<a href="{names.place(target)}" title="{said}">{html.escape(head)}</a>']
            at = start + len(head)
    return "".join(out) + html.escape(line[at:])


def code(names, entry):
    return "<pre>" + "\n".join(marked(names, entry, kind, line) for kind, line in parts_of(entry)) + "</pre>"


def model(names, entry):
    """What contracts see of a value of a type."""
    if not entry.model:
        return ""
    seen = sources.Entry(entry.crate, "model", entry.name, entry.path, 0, "", entry.model, entry.scope)
    return '<p class="soft">What contracts see of a value:</p>' + code(names, seen)


def prose(names, crate, text):
    """The HTML of a comment: paragraphs, lists, code and links to items."""
    def inline(words):
        words = html.escape(words, quote=False)
        words = re.sub(r"\[`([\w:]+)(?:\(\))?`\](?:\(([\w:]+)\))?", lambda it: linked(it[1], it[2] or it[1]), words)
        return re.sub(r"`([^`]+)`", r"<code>\1</code>", words)

    def linked(shown, meant):
        entry = names.in_comment(crate, re.sub(r"\Acrate::", "", meant))
        is_there = entry and (entry.is_public or entry.kind != "fn")
        return f'<a href="{names.place(entry)}"><code>{shown}</code></a>' if is_there else f"<code>{shown}</code>"

    out = []
    for n, piece in enumerate(re.split(r"(?ms)^```\w*\n(.*?)^```$", text)):
        if n % 2:
            out.append(f"<pre>{html.escape(piece.rstrip())}</pre>")
            continue
        for paragraph in re.split(r"\n\s*\n", piece.strip()):
            points = re.split(r"(?m)^- ", paragraph)
            lead = points[0].strip()
            if lead.startswith("# "):
                head, _, lead = lead[2:].partition("\n")
                out.append(f"<p><b>{inline(head)}</b></p>")
            out += [f"<p>{inline(' '.join(lead.split()))}</p>"] if lead else []
            listed = "".join(f"<li>{inline(' '.join(it.split()))}</li>" for it in points[1:])
            out += [f"<ul>{listed}</ul>"] if listed else []
    return "".join(out)


def page(title, body):
    return f"""<!DOCTYPE html>
<html lang="en">
<head>
<meta charset="utf-8">
<meta name="viewport" content="width=device-width">
<title>{html.escape(title)}</title>
<link rel="stylesheet" href="reference.css">
</head>
<body>
<header><a href="index.html">stlslice, the reference</a>
<div><input type="search" placeholder="Find a call or a definition" aria-label="Find"><ul id="found"></ul></div></header>
{body}
<script src="entries.js"></script>
<script src="reference.js"></script>
</body>
</html>
"""


def section(names, entry, crate):
    """An item or a definition with its comment and its text."""
    mark = names.place(entry).split("#")[1]
    name = mark if entry.path.endswith(".antt") else mark.replace(".", "::")
    return (f'<h3 id="{mark}">{html.escape(name)} <span class="kind">{entry.kind}, {entry.path}:{entry.line}</span></h3>'
            + prose(names, crate, entry.comment) + code(names, entry) + model(names, entry) + example(names, entry))


def example(names, entry):
    """The shortest proved statement that begins with an item or a definition."""
    label, said = min(names.examples.get(entry, []), key=lambda it: len(it[1]), default=("", ""))
    return f'<p class="soft">For example, {label}: <code>{html.escape(said)}</code></p>' if said else ""


def public_entries(names, crate):
    """The public items of a crate in the order of its files, each type followed by its methods."""
    own = {name for place, name in crate.public if place not in crate.below}
    for key, entry in crate.items.items():
        if entry.path and (entry.owner or key) in own:
            yield entry


def crate_page(names, crate):
    """The front page, the public items, and what else contracts cite of the sources."""
    public = list(public_entries(names, crate))
    others = [it for it in crate.items.values() if it.path and it not in public and not it.owner and it.kind != "fn"]
    body = [f"<h1>{crate.name}</h1>", prose(names, crate, crate.front)]
    if crate.definitions:
        body.append(f'<p><a href="{crate.name}.specs.html">Definitions of {crate.name}</a></p>')
    handed = [names.origin(crate, name) for place, name in crate.public if place in crate.below and place in names.crates]
    if handed:
        links = ", ".join(f'<a href="{names.place(it)}"><code>{it.name}</code></a>' for it in handed)
        body.append(f"<p>From crates below: {links}.</p>")
    body += ["<h2>Public items</h2>"] + [section(names, it, crate) for it in public] if public else []
    body += ["<h2>Types and constants inside</h2>"] + [section(names, it, crate) for it in others] if others else []
    return page(crate.name, "\n".join(body))


def specs_page(names, crate):
    body = [f"<h1>Definitions of {crate.name}</h1>", f'<p><a href="{crate.name}.html">{crate.name}</a></p>']
    for module, entries in crate.definitions.items():
        if entries:
            head = crate.heads[module]
            body += [f'<h2 id="{module}">{module}</h2>'] + [f"<pre>{html.escape(head)}</pre>"] * bool(head)
            body += [section(names, it, crate) for it in entries.values()]
    return page(f"Definitions of {crate.name}", "\n".join(body))


def cited(names, entry):
    """The entries that an entry's text cites, in the order of the text, and its names from outside these crates. Of a type
    whose value contracts see as something else, only that counts."""
    if entry.model:
        entry = sources.Entry(entry.crate, "model", entry.name, entry.path, 0, "",
                              "\n".join(it for it in entry.model.splitlines() if it.startswith("ghost Value")), entry.scope)
    found, outside = [], []
    for kind, line in parts_of(entry):
        for _, word, target in words_of(names, entry, kind, line):
            if target and target.path:
                found.append(target)
            elif kind == "contract" and names.is_from_outside(entry, word):
                outside.append((entry.scope[word.split(".")[0]][0], word.split(".")[0]))
    return found, outside


def believed(names, roots, without):
    """All that a promise depends on but what is left out, each at the place where it is first needed, and the names from outside."""
    order, outside, waiting = [], {}, list(reversed(roots))
    while waiting:
        entry = waiting.pop()
        if entry in order or entry.name in without and entry not in roots:
            continue
        order.append(entry)
        found, beyond = cited(names, entry)
        waiting += [it for it in reversed(found) if it not in order]
        for path, name in beyond:
            outside.setdefault(path, set()).add(name)
    return order, outside


def roots_of(names, it):
    """The entries that a page begins with: a call, or definitions by module and name."""
    crate = names.crates[it.crate]
    return [crate.definitions[root.split(".")[0]][root.split(".")[1]] if "." in root else crate.items[root] for root in it.roots]


def left_out(it):
    """The pages to which a page leaves something."""
    return [other for other in BELIEVED if {root.split(".")[-1] for root in other.roots} & {*it.without}]


def sized(order):
    return f"{len(order)} entries with {sum(entry.lines() for entry in order)} lines"


def believe_page(names, it):
    """The page, and its entries."""
    order, outside = believed(names, roots_of(names, it), it.without)
    before = [other for other in BELIEVED if other.page == it.after]
    known = [entry for other in before for entry in believed(names, roots_of(names, other), other.without)[0]]
    order = [entry for entry in order if entry not in known]
    body = [f"<h1>What you have to believe: {it.title}</h1>", prose(names, names.crates[it.crate], it.said),
            f"<p>A promise comes first, then each definition where it is first needed. There are {sized(order)}, comments "
            "aside. That the promise holds is proved. Whether it says what you want, only reading tells.</p>"]
    for said, others in (("What stands there already is left out here", before), ("On pages of their own", left_out(it))):
        links = ", ".join(f'<a href="{other.page}.html">{other.title}</a>' for other in others)
        body += [f"<p>{said}: {links}.</p>"] * bool(others)
    body += [f'<p class="soft">From outside the repository: {external(outside)}.</p>']
    body += [section(names, entry, names.crates[entry.crate]).replace('<h3 id="', f'<h3 id="{entry.crate}.', 1) for entry in order]
    return page(f"What you have to believe: {it.title}", within("\n".join(body))), order


def within(text):
    """A page whose links lead to the page itself if it has what they lead to."""
    marks = set(re.findall(r'<h3 id="([^"]*)"', text))

    def kept(link):
        mark = f"{link[1]}.{link[2]}"
        return f'href="#{mark}"' if mark in marks else link[0]

    return re.sub(r'href="(\w+)(?:\.specs)?\.html#([^"]+)"', kept, text)


def external(outside):
    return "; ".join(f"<code>{path}</code> ({html.escape(', '.join(sorted(found)))})" for path, found in sorted(outside.items()))


def index_page(names, orders):
    """The first page: what to believe, and how much stands on a page that it can't do without; then the crates, lowest first."""
    body = ["<h1>The reference of stlslice</h1>",
            "<p>What each crate promises, from its sources. Each name in a contract leads to its definition. "
            "<code>docs/PROVED.md</code> has the promises in short.</p>", "<h2>What you have to believe</h2>", "<ul>"]
    for it in BELIEVED:
        more = [f", and {sized([entry for entry in orders[other.page] if entry not in orders[it.page]])} more on {other.title}"
                for other in left_out(it) if other.after != it.page]
        body.append(f'<li><a href="{it.page}.html">{it.title}</a>: {sized(orders[it.page])}{"".join(more)}.</li>')
    body += ["</ul>", "<h2>Crates, from the lowest up</h2>", "<table>"]
    for crate in names.crates.values():
        if crate.public or crate.definitions:
            first = prose(names, crate, crate.front.split("\n\n")[0])
            body.append(f'<tr><td><a href="{crate.name}.html">{crate.name}</a></td><td>{first}</td></tr>')
    return page("The reference of stlslice", "\n".join(body + ["</table>"]))


def search_entries(names):
    """What the search box finds: public items, and definitions."""
    found = []
    for crate in names.crates.values():
        found += [(f"{it.owner}::{it.name}" if it.owner else it.name, f"{it.kind} of {crate.name}", names.place(it))
                  for it in public_entries(names, crate)]
        found += [(it.name, f"{it.kind} of {crate.name}, {module}", names.place(it))
                  for module, entries in crate.definitions.items() for it in entries.values()]
    return "const ENTRIES = " + json.dumps(found, ensure_ascii=False) + ";\n"


def pages(names):
    """Each file of the reference with its text."""
    yield "entries.js", search_entries(names)
    orders = {}
    for it in BELIEVED:
        text, orders[it.page] = believe_page(names, it)
        yield f"{it.page}.html", text
    for crate in names.crates.values():
        if crate.public or crate.definitions:
            yield f"{crate.name}.html", crate_page(names, crate)
        if crate.definitions:
            yield f"{crate.name}.specs.html", specs_page(names, crate)
    yield "index.html", index_page(names, orders)


def main():
    if len(sys.argv) != 2 or sys.argv[1].startswith("-"):
        sys.exit("use: reference.py FOLDER")
    folder = sys.argv[1]
    if os.path.exists(folder) and os.listdir(folder) and not os.path.exists(os.path.join(folder, "entries.js")):
        sys.exit(f"{folder} has something else: name a new folder, or that of a reference")
    shutil.rmtree(folder, ignore_errors=True)
    os.makedirs(folder)
    names = Names(sources.crates_of(ROOT))
    for count, (name, text) in enumerate(pages(names), 1):
        with open(os.path.join(folder, name), "w", encoding="utf-8") as file:
            file.write(text)
    for name in ("reference.css", "reference.js"):
        shutil.copy(os.path.join(HERE, name), folder)
    print(f"{count} pages in {folder}: open {os.path.join(folder, 'index.html')}")


if __name__ == "__main__":
    main()
