"""make docs: the reference has each public item and each definition that tools/sources.py reads, no link leads nowhere, and
nothing in it comes from a network. What has to be believed of `run` holds the definitions that its promise is about, and counts
its lines rightly. Its search box finds a definition, which is tried if Chromium is there."""

import glob
import html
import os
import re
import sys

from common import ROOT, Together, needs, same, text_of
import browser
import reference

# Contracts lead to the definitions that they cite, however these are imported: by name, by another name, by a module, as a
# case or as a constant.
LED_TO = (("stlslice", "stlslice.specs.html#Run.IsRun"), ("stlslice", "stlslice.specs.html#WrittenPixels.IsSlicedFrom"),
          ("stlslice", "micro_num.html#Unit"), ("geometry", "geometry.specs.html#TieRule.is_below"),
          ("raster", "geometry.html#COLUMN_LIMIT"), ("layer_session", "layer_session.html#SessionFault"))
# What has to be believed: the page, the crate and the call that it is about, and some of what stands in it.
BELIEVED = (
    ("believe-slice.html", "stlslice.run",
     ["stlslice.Run.IsRun", "stlslice.Outcome.IsOutcome", "mesh_weld.Balance.IsBalanced", "geometry.Winding.ray",
      "geometry.TieRule.is_below", "raster.Rule.is_inside", "raster.Image.images", "devices.Source", "devices.Sink"]),
    ("believe-lines.html", "stlslice.RunFault.run_fault_text", ["mesh_weld.WeldFault.open_edge_text"]),
    ("believe-text.html", "stl_text.Text.Reads", ["stl_text.Text.IsFaultOf", "micro_num.Micrometres.micro"]),
    ("believe-png.html", "stlslice.SlicedText.pngs", ["layer_png.Text.layer_png"]),
    ("believe-reader.html", "layer_png.Png.IsPng",
     ["layer_png.Png.png_of", "layer_png.Stream.cut_pngs", "deflate.Zlib.unzipped", "deflate.Huffman.is_complete"]),
    ("believe-box.html", "stlslice.Outcome.box_text", ["stlslice.Outcome.probe_result", "contour.Loops.loops", "geometry.Winding.ray_y"]),
    ("believe-words.html", "task_words.read_words", ["task_words.Words.StandFor", "task_words.Words.options", "task_words.Options.said",
                                                     "task_words.wants_progress", "task_words.WordFault.word_fault_text"]),
    ("believe-opening.html", "layer_session.Session.open",
     ["layer_session.Session.IsSessionOf", "layer_session.Session.IsOpenFault", "binary_stl.Binary.IsBinary",
      "mesh_weld.Balance.IsBalanced", "raster.Placing.placed_grid"]),
    ("believe-binary.html", "binary_stl.Binary.ReadsBinary",
     ["binary_stl.Binary.IsFaultOfBinary", "binary_stl.Single.coordinate_of", "micro_num.Micrometres.nearest"]),
    ("believe-screen.html", "part_on_screen.Screen.IsScreenOf",
     ["part_on_screen.Turned.turned", "part_on_screen.Pitch.IsPitch", "part_on_screen.Middle.IsGridOn",
      "part_on_screen.Middle.IsNoGrid"]),
    ("believe-options.html", "stlslice_c.open_file",
     ["stlslice_c.Answers.IsOpening", "stlslice_c.Options.IsSetup", "layer_session.SessionFault.session_fault_text"]),
    ("believe-mask.html", "stlslice_c.ask_mask",
     ["stlslice_c.Answers.IsMaskAnswer", "raster.Image.layer_image", "geometry.Winding.ray", "raster.Rule.is_inside"]))

# Examples: the crate and the definition, whose name may be that of others too, and how its example begins.
EXAMPLES = (("micro_num", "Micrometres.coordinate_of", "coordinate_of Inch (codes"),
            ("binary_stl", "Single.coordinate_of", "coordinate_of Inch 0x"),
            ("stl_text", "Text.IsFaultOf", "Text.IsFaultOf 12 Millimetre"),
            ("task_words", "Words.IsFaultOfWords", "IsFaultOfWords (codes"))


def public_names():
    """The names that each crate's lib.rt makes public: the crate, the name, and whether it is its own."""
    for path in sorted(glob.glob(f"{ROOT}/crates/*/src/lib.rt")):
        crate, text = path.split("/")[-3], text_of(path)
        modules = set(re.findall(r"(?m)^mod (\w+);", text))
        for use, names in re.findall(r"(?m)^pub use ([\w:]+)::(\{[^}]*\}|\w+);", text):
            for name in re.findall(r"\w+", names):
                yield crate, name, use.split("::")[0] in modules
        for name in re.findall(r'(?m)^pub (?:extern "C" )?(?:fn|struct|enum|trait|const) (\w+)', text):
            yield crate, name, True


def methods():
    public = {(crate, name) for crate, name, is_own in public_names() if is_own}
    for path in sorted(glob.glob(f"{ROOT}/crates/*/src/**/*.rt", recursive=True)):
        crate = os.path.relpath(path, f"{ROOT}/crates").split("/")[0]
        for head, body in re.findall(r"(?ms)^impl\b([^{]*)\{\n(.*?)^\}", text_of(path)):
            owner = re.sub(r"<[^<>]*>", "", re.sub(r"<[^<>]*>", "", head)).split()
            if len(owner) == 1 and (crate, owner[0]) in public:
                for name in re.findall(r"(?m)^    pub (?:const )?fn (\w+)", body):
                    yield crate, owner[0], name


def plain(text):
    return html.unescape(re.sub(r"<[^>]*>", "", text))


class Reference(Together):
    @classmethod
    def make_ready(cls, room):
        room.out(sys.executable, "tools/reference.py", room.file("docs"))
        texts = {name: text_of(room.file("docs", name)) for name in os.listdir(room.file("docs")) if name.endswith(".html")}
        # each page by its name, with its marks
        cls.pages = {name: (text, re.findall(r'\bid="([^"]*)"', text)) for name, text in texts.items()}

    def test_links_lead_somewhere(self):
        count = 0
        for page, (text, marks) in self.pages.items():
            same(sorted({it for it in marks if marks.count(it) > 1}), [], f"marks that {page} has twice")
            for place in re.findall(r'(?:href|src)="([^"]*)"', text):
                target, _, mark = place.partition("#")
                assert os.path.exists(self.room.file("docs", target)), f"{page}: {place} isn't there"
                assert not mark or mark in self.pages[target or page][1], f"{page}: {place} isn't there"
                count += 1
        assert count > 5000, f"only {count} links"

    def test_public_names_and_methods_are_there(self):
        names, owned = list(public_names()), list(methods())
        for crate, name, is_own in names:
            text, marks = self.pages[f"{crate}.html"]
            assert name in marks if is_own else f'#{name}"' in text, f"{crate}.html has no {name}"
        for crate, owner, name in owned:
            assert f"{owner}.{name}" in self.pages[f"{crate}.html"][1], f"{crate}.html has no {owner}::{name}"
        assert len(names) > 100 and len(owned) > 100, f"only {len(names)} names and {len(owned)} methods"
        for call in re.findall(r"(?m)^\w[\w ]* \**(stlslice_\w+)\(", text_of("include/stlslice.h")):
            assert call in self.pages["stlslice_c.html"][1], f"{call} of the header isn't there"

    def test_definitions_are_there(self):
        count = 0
        for path in glob.glob(f"{ROOT}/crates/*/specs/**/*.antt", recursive=True):
            crate, module = re.search(r"crates/(\w+)/specs/(.*)\.antt$", path).groups()
            for name in re.findall(r"(?m)^(?:abbrev |unfoldable )?pub (?!mod )(?:record |data )?([^\s:({]+)", text_of(path)):
                mark = f"{module.replace('/', '.')}.{name}"
                assert mark in self.pages[f"{crate}.specs.html"][1], f"{crate}.specs.html has no {mark}"
                count += 1
        assert count > 700, f"only {count} definitions"

    def test_contracts_stand_whole_and_lead_to_what_they_cite(self):
        for crate, target in LED_TO:
            assert f'href="{target}"' in self.pages[f"{crate}.html"][0], f"the contracts of {crate} don't lead to {target}"
        shown, count = plain("".join(text for text, _ in self.pages.values())), 0
        for path in glob.glob(f"{ROOT}/crates/*/src/laws.rt"):
            for clause in re.findall(r"(?m)^    ensures .*$", text_of(path)):
                assert clause.strip() in shown, f"{path}: {clause} isn't shown"
                count += 1
        assert count > 50, f"only {count} clauses of laws"

    def test_what_has_to_be_believed_is_whole_and_counted(self):
        for page, first, inside in BELIEVED:
            text, marks = self.pages[page]
            heads = re.findall(r'<h3 id="([^"]*)"', text)
            same(heads[0], first, f"{page} begins with")
            same(set(inside) - set(marks), set(), f"what {page} hasn't")
            entries, told = map(int, re.search(r"There are (\d+) entries with (\d+) lines", text).groups())
            same(entries, len(heads), f"entries of {page}")
            outside = re.findall(r"<code>Rattle\.(\w+)", re.search(r"From outside the repository: (.*?)</p>", text)[1])
            same(set(outside) - {"clap"}, {"std"}, f"crates from outside that {page} names")
            shown = [it.split("What contracts see")[0] for it in text.split("<h3 ")[1:]]
            blocks = [re.findall(r"(?s)<pre>(.*?)</pre>", it)[-1] for it in shown]
            lines = [plain(line).strip() for block in blocks for line in block.splitlines()]
            same(sum(1 for line in lines if line and not line.startswith(("--", "//"))), told, f"lines of {page}")

    def test_what_a_page_leaves_out_stands_on_one_that_it_leads_to(self):
        for it in reference.BELIEVED:
            led_to = re.findall(r'href="(believe-\w+\.html)"', self.pages[f"{it.page}.html"][0])
            there = {mark.split(".")[-1] for page in led_to for mark in self.pages[page][1]}
            same(set(it.without) - there, set(), f"what {it.page} leaves out, and {led_to} have not")

    def test_an_example_is_of_the_definition_above_it(self):
        for crate, mark, begins in EXAMPLES:
            shown = self.pages[f"{crate}.specs.html"][0].split(f'id="{mark}"')[1].split("<h3 ")[0]
            assert re.search(r"For example, [^:]*: <code>" + re.escape(begins), shown), f"{crate}: no example {begins} at {mark}"
        shown = "".join(text for name, (text, _) in self.pages.items() if name.startswith("believe-"))
        assert shown.count("For example, ") > 40, f"{shown.count('For example, ')} examples of what has to be believed"
        assert "For example" not in self.pages["mesh_arrays.specs.html"][0], "an example of another crate"

    def test_a_definition_shows_the_parameters_of_its_module(self):
        shown = plain(self.pages["task_words.specs.html"][0])
        assert "module _ (options : List Known) where\n  abbrev pub said :" in shown, "said has no options"
        assert "is_last (word ∷ rest) = false\nmodule" not in shown, "is_last goes on to a module"

    def test_a_folder_of_something_else_stays(self):
        os.mkdir(self.room.file("own"))
        open(self.room.file("own", "part.stl"), "w").close()
        for word in (self.room.file("own"), "--help"):
            same(self.room.run(sys.executable, "tools/reference.py", word).status, 1, f"status for {word}")
        same(os.listdir(self.room.file("own")), ["part.stl"], "what is left")

    @needs("chromium")
    def test_the_search_box_finds_a_definition(self):
        words = ["--headless", "--no-sandbox", "--disable-gpu", f"--user-data-dir={self.room.file('chromium')}", "--dump-dom"]
        ran = self.room.run(browser.program(), *words, f"file://{self.room.file('docs')}/index.html?q=is_inside")
        found = re.search(r'<ul id="found">(.*?)</ul>', ran.out)
        assert found and 'href="raster.specs.html#Rule.is_inside"' in found[1], f"found: {found and found[1]}"
