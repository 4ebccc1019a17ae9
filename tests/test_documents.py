"""What documents say of the sources. Calls, clauses and definitions that docs/PROVED.md, README and docs/embedding.md name are
there, and a clause told of a law or a call is one of it. Wrong bodies of tests/known_bad.py can be planted. docs/proving.md shows
the source's answer; Vim and Emacs type the signs by its settings. Links lead to places and headings; indices are whole."""

import glob
import os
import re

import known_bad
from common import ROOT, Case, needs, same, text_of, without_blocks

# what stands in code without being a name of the sources: words of the command, crates of the toolchain, a parameter
OTHERS = {"main", "make", "evenodd", "nonzero", "positive", "memchr", "smallvec", "thiserror", "clap", "atomic_table",
          "malloc", "fork", "bool", "stlslice", "libstlslice", "libstlslice1", "ldconfig", "include", "lib", "PATH",
          "PREFIX", "STLSLICE_LIBRARY"}

# the laws and calls of docs/PROVED.md whose clauses it names in brackets, with their files
LAWS = {"one_answer": "crates/stlslice/src/laws.rt", "written_pixels": "crates/stlslice/src/laws.rt",
        "claims_laws": "crates/stripe_claims/src/laws.rt"}

# the calls whose clauses a document names in brackets: where the words about them begin and end, and the calls' files
SESSION, CLAIMS = "crates/layer_session/src/session.rt", "crates/stripe_claims/src/claims.rt"
PNG, C_CALLS = "crates/layer_png/src/png.rt", "crates/stlslice_c/src/lib.rt"
TOLD = [
    ("docs/PROVED.md", "`read_words` of `task_words` promises", "`wants_progress`",
     [("read_words", "crates/task_words/src/words.rt")]),
    ("docs/PROVED.md", "If `build` of", "The claims are", [("build", "crates/layer_pool/src/pool.rt")]),
    ("docs/PROVED.md", "The claims are modelled", "That all draws", [("draw", CLAIMS)]),
    ("docs/PROVED.md", "`Session::open` of", "The same holds",
     [("open", SESSION), ("open_mesh", SESSION), ("finish", "crates/layer_session/src/session_reader.rt")]),
    ("docs/PROVED.md", "Laws of `part_on_screen`", "\n", [("hold_screen_laws", "crates/part_on_screen/src/laws.rt")]),
    ("docs/PROVED.md", "In that of `png`", "A call succeeds", [("png", SESSION)]),
    ("docs/PROVED.md", "A call succeeds only", "The calls of",
     [(it, SESSION) for it in ("image", "stripe", "area", "loops", "outlines", "png")]),
    ("docs/PROVED.md", "- `write_png` of", "- `deflate` writes", [("write_png", PNG)]),
    ("docs/PROVED.md", "- `deflate` writes", "\n",
     [("write_zlib", "crates/deflate/src/whole.rt"), ("finish", "crates/deflate/src/zlib.rt")]),
    ("docs/embedding.md", "| `stlslice_mask`, `_stripe`", "\n",
     [(f"ask_{it}", C_CALLS) for it in ("mask", "stripe", "area", "loops", "probe")]),
    ("docs/embedding.md", "exactly the layer's pixels", "\n", [("png", SESSION)]),
]


def names_of_sources():
    found = set(os.listdir(os.path.join(ROOT, "crates")))
    for path in glob.glob(f"{ROOT}/crates/*/src/**/*.rt", recursive=True):
        text = text_of(path)
        found |= set(re.findall(r"\b(?:fn|struct|enum|trait|const|ensures|requires) (\w+)", text))
        found |= set(re.findall(r"(?m)^ {4}(\w+)(?: \{|\(.*\)|),?$", text))
    for path in glob.glob(f"{ROOT}/crates/*/specs/**/*.antt", recursive=True):
        found |= set(re.findall(r"(?m)^\s*(?:abbrev |unfoldable )?pub (?:record |data )?(\w+)", text_of(path)))
    return found


def clauses_of(name, path):
    head = re.search(rf"(?ms)^( *)pub (?:extern \"C\" )?fn {name}(?:<[^(]*>)?\(.*?^\1\{{", text_of(path))[0]
    return set(re.findall(r"(?m)^ *ensures (\w+) \{", head))


def in_brackets(text):
    """The names that stand in brackets, alone or with the word `of` and another name; types begin with a capital."""
    for names in re.findall(r"\(((?:`\w+`(?:, )?)+)(?: of `[\w:]+`)?\)", text):
        yield from re.findall(r"`([a-z]\w*)`", names)


def fields(record, path):
    return set(re.findall(r"(?m)^  pub (\w+) :", re.search(rf"(?ms)^pub record {record}\b.*?(?=^\S|\Z)", text_of(path))[0]))


def part_of(document, start, end):
    return re.search(rf"(?s){start}\n(.*?)\n{end}", text_of(document))[1]


def in_last_cells(table):
    return {it for row in re.findall(r"(?m)^\|.*\| ([^|]*) \|$", table) for it in re.findall(r"`(\w+)`", row)}


class Names(Case):
    def test_names_in_documents_are_in_the_sources(self):
        known = names_of_sources()
        for document in ("docs/PROVED.md", "README.md", "docs/embedding.md"):
            named = set(re.findall(r"`([A-Za-z_]\w*(?:::\w+)*)`", without_blocks(text_of(document)))) - OTHERS
            assert len(named) > 9, f"{document} names {named}"
            unknown = {it for it in named if not all(part in known or part.startswith("_") for part in it.split("::"))}
            same(unknown, set(), f"{document}: names that aren't in the sources")

    def test_clauses_told_of_a_call_are_its_own(self):
        laws = "".join(map(text_of, glob.glob(f"{ROOT}/crates/*/src/laws.rt")))
        others = {*re.findall(r"(?m)^pub fn (\w+)", laws)} | {"write_zlib", "read_arrays"}  # calls
        seen = {}
        for document, first, last, named in TOLD:
            text = text_of(document)
            same(text.count(first), 1, f"how often {document} has the words {first!r}")
            start = text.index(first)
            clauses = set(in_brackets(text[start:text.index(last, start + len(first))])) - others
            assert clauses, f"{document}: {first!r} has no clauses in brackets"
            seen.setdefault(document, set()).update(clauses)
            for name, path in named:
                same(clauses - clauses_of(name, path), set(), f"{document}: what is no clause of {name}")
        others |= OTHERS | fields("IsSlicedFrom", "crates/stlslice/specs/WrittenPixels.antt")
        for document, clauses in seen.items():
            left = sorted(set(in_brackets(text_of(document))) - clauses - others)
            same(left, [], f"{document}: names in brackets that are told of no call")

    def test_tables_have_the_clauses_of_a_run(self):
        clauses = in_last_cells(part_of("docs/PROVED.md", "## A run", "Every task"))
        same(clauses, fields("IsRun", "crates/stlslice/specs/Run.antt"), "clauses of IsRun in the table of a run")
        told = in_last_cells(part_of("README.md", "## What is guaranteed", "## "))
        others = {"written_pixels", "one_answer", "task", "read_words"}
        assert told - others < clauses and len(told) > 7, f"clauses in README's table: {told}"

    def test_clauses_told_of_a_law_are_its_own(self):
        proved = text_of("docs/PROVED.md")
        for law, path in LAWS.items():
            told = re.search(rf"`{law}`(?:: ((?:`\w+`(?:, and |, )?)+))?", proved)
            same(set(re.findall(r"`(\w+)`", told[1] or "")) - clauses_of(law, path), set(), f"what is no clause of {law}")
        lines = re.findall(r"(?m)^- ([^:]*):", part_of("docs/PROVED.md", "## The layers", "A book"))
        told = {it for line in lines for it in re.findall(r"`(\w+)`", line)}
        same(told, clauses_of("headline", "crates/build_book/src/laws.rt"), "clauses of headline")
        told = set(re.findall(r"(?m)^- `(\w+)`", part_of("docs/PROVED.md", "## Laws of a slicer", "## ")))
        same(told, set(re.findall(r"(?m)^pub fn (\w+)", text_of("crates/slicer_laws/src/laws.rt"))), "laws of a slicer")


class KnownBad(Case):
    def test_each_body_can_be_planted_and_has_its_test(self):
        same(len(known_bad.BAD), 15, "wrong bodies")
        for name, path, old, new, fails in known_bad.BAD:
            text = text_of(f"crates/{path}")
            planted, count = re.subn(old, new, text)
            same((count, planted == text), (1, False), f"{name}: how often its text is in {path}; is it the same then")
            crate, module, test = re.split(" |::", fails)
            assert f"#[test]\nfn {test}(" in text_of(f"crates/{crate}/src/{module}.rt"), f"{name}: there is no {fails}"

    def test_there_are_at_most_200_edits(self):
        edits = glob.glob(f"{ROOT}/crates/*/must-fail/*")
        same([it for it in edits if not it.endswith(".edit")], [], "files that are no edits")
        assert 0 < len(edits) <= 200, f"{len(edits)} edits"


PAGE = text_of("docs/proving.md")
ANSWERS = "crates/exact_int/proofs/division/ceil_div/Answers.antt"


def block_of(start):
    return re.search(rf"(?ms)^```text\n({re.escape(start)}.*?)^```$", PAGE)[1]


class Proving(Case):
    def test_the_answer_is_that_of_the_source(self):
        """The page may leave out the middle of a line as `..`."""
        block = re.search(r"(?ms)^ *```text\n( *returns-then-n-d-gt0 c =\n.*?)^ *```$", PAGE)[1]
        shown = [line.strip() for line in block.splitlines()]
        assert len(shown) > 5, f"the answer shown is {shown}"
        found = [line.strip() for line in text_of(ANSWERS).split("\nreturns-then-n-d-gt0 c =\n")[1].splitlines()]
        for line, wanted in zip(shown[1:], found):
            front, _, back = line.partition("(..)")
            is_there = wanted == line or (back and wanted.startswith(front) and wanted.endswith(back))
            assert is_there, f"the source has {wanted!r}, not {line!r}"
        same(found[len(shown) - 1], "", "lines behind those shown")

    def test_names_and_signs_are_right(self):
        assert "ensures { IsCeilDiv result n d }" in text_of("crates/exact_int/src/division.rt"), "the clause isn't there"
        for name, place in (("ceiling-up", "crates/exact_int/proofs/lemmas/Ceilings.antt"),
                            ("IsCeilDiv", "crates/exact_int/specs/Division.antt"),
                            ("identity", "crates/exact_int/proofs/lemmas/Identity.antt")):
            assert f"`{name}`" in PAGE, f"the page doesn't name {name}"
            assert re.search(rf"(?m)^(abbrev )?pub {name} :", text_of(place)), f"{name} isn't in {place}"
        rows = re.findall(r"(?m)^\| (`[^|]*`) \|[^|]*\| ([\w, ]{4,}) \|$", PAGE)
        assert len(rows) > 6, f"the signs that are listed: {rows}"
        for signs, points in rows:
            same(", ".join(f"{ord(it):04X}" for it in re.findall("`(.)`", signs)), points, f"code points of {signs}")

    @needs("vim")
    def test_vim_types_the_signs(self):
        settings = self.room.put("vimrc", "set encoding=utf-8\n" + block_of("inoremap"))
        typed = r'call feedkeys("i\\== \\-> \\:: .\<Esc>", "tx")'
        self.room.run("vim", "-N", "-u", settings, "-es", self.room.file("typed"), "-c", typed, "-c", "wq")
        same(self.room.get("typed").decode(), "≡ → ∷ .\n", "what Vim types")

    @needs("emacs")
    def test_emacs_types_the_signs(self):
        settings = self.room.put("init.el", block_of("(define-key"))
        keys = " ".join(f'(key-description (lookup-key key-translation-map (kbd "C-c {key}")))' for key in "=>:")
        ran = self.room.run("emacs", "-Q", "--batch", "-l", settings, "--eval", f"(princ (concat {keys}))")
        same((ran.status, ran.out), (0, "≡→∷"), "what Emacs types")


FOLDERS = ("", "docs/", "docs/decisions/")
FOUND = sorted(os.path.relpath(it, ROOT) for folder in FOLDERS for it in glob.glob(f"{ROOT}/{folder}*.md"))


def links(document):
    return re.findall(r"\]\(([^)#:\s]*)(#[^)]*)?\)", without_blocks(text_of(document)))


def target(document, place):
    return os.path.normpath(os.path.join(os.path.dirname(document), place)) if place else document


def anchors(document):
    """The headings of a document, as a link names them."""
    heads = re.findall(r"(?m)^#+ (.*)$", without_blocks(text_of(document)))
    return {re.sub(r"[^\w -]", "", head.lower()).replace(" ", "-") for head in heads}


def linked(document):
    return {target(document, place) for place, _ in links(document) if place}


class Links(Case):
    def test_places_that_are_linked_or_named_are_there(self):
        assert "README.md" in FOUND and len(FOUND) > 4, FOUND
        for document in FOUND:
            text = without_blocks(text_of(document))
            named = re.findall(r"`((?:examples|commands|docs|tools|tests|bench|completions|man)/[\w.-]+\.\w+)`", text)
            for place in sorted(linked(document) | set(named)):
                assert os.path.exists(os.path.join(ROOT, place)), f"{document}: {place} isn't there"

    def test_headings_that_are_linked_are_there(self):
        for document in FOUND:
            for place, anchor in links(document):
                if anchor:
                    assert anchor[1:] in anchors(target(document, place)), f"{document}: {place} has no {anchor}"

    def test_files_that_the_architecture_names_by_crate_are_there(self):
        crates, count = os.listdir(os.path.join(ROOT, "crates")), 0
        for named in re.findall(r"`(\w+/[\w./{},]+)`", without_blocks(text_of("docs/ARCHITECTURE.md"))):
            crate, _, rest = named.partition("/")
            inside = re.search(r"\{(.*?)\}", rest)
            for choice in inside[1].split(",") if inside and crate in crates else [""] * (crate in crates):
                count += 1
                place = os.path.join("crates", crate, re.sub(r"\{.*?\}", choice, rest))
                assert os.path.exists(os.path.join(ROOT, place)), f"docs/ARCHITECTURE.md: {place} isn't there"
        assert count > 50, f"only {count} files are named"

    def test_each_document_is_in_its_index(self):
        for document in FOUND:
            if document.startswith("docs/decisions/"):
                assert document in linked("docs/DECISIONS.md"), f"the index of decisions doesn't lead to {document}"
            elif document.startswith("docs/") and document != "docs/README.md":
                assert document in linked("docs/README.md"), f"the index doesn't lead to {document}"
