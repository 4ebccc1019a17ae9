"""The limits that documents, --help, the manual, the completions, the header, front pages of crates, the commands, the pages and
tests spell are the constants of the sources."""

import glob
import os
import re

from common import ROOT, Case, same, text_of

# For each constant the places that spell it, with the words around it: {} is its number, {m} that of its metres, {K} and {M}
# that of its KiB and MiB. A word stands for a small number.
SPELLED = {
    "geometry::COORDINATE_LIMIT": [
        ("docs/usage.md", "the least corner, -{} to {} µm", "within {m} metres of the origin"),
        ("docs/formats.md", "has to lie in -{} to {}."), ("man/stlslice.1", r"\-{} to {}.", "within {m} m of the origin"),
        ("include/stlslice.h", "each at most {} from 0"), ("docs/PROVED.md", "at most {m} metres up"),
        ("python/stlslice/__init__.py", "points at most {m} metres from 0"),
        ("python/stlslice/threemf.py", "reaches beyond {m} m from the origin"),
        ("crates/test_meshes/src/published.rt", "FARTHEST: i32 = {};")],
    "geometry::CENTRE_LIMIT": [("docs/formats.md", "is above {}; equal is allowed"),
        ("crates/test_meshes/src/published.rt", "FARTHEST_CENTRE: i64 = {};")],
    "geometry::STEP_LIMIT": [
        ("--help", "Width and depth of a pixel in micrometres, 1 to {}", "Height of a layer in micrometres, 1 to {}"),
        ("docs/usage.md", "| `--pitch N` | 1 to {} µm |", "| `--layer N` | 1 to {} µm |"),
        ("man/stlslice.1", "Width and depth of a pixel in micrometres, 1 to {}.",
         "Height of a layer in micrometres, 1 to {}."),
        ("completions/_stlslice", "pixel in micrometres]:micrometres (1 to {})",
         "layer in micrometres]:micrometres (1 to {})"),
        ("completions/stlslice.fish", "pixel in micrometres, 1 to {}", "layer in micrometres, 1 to {}"),
        ("include/stlslice.h", "along x and y, 1 to {} ", "along z, 1 to {} "), ("docs/refused.md", "1..={}"),
        ("commands/stlslice_commands/words.py", "micrometres = whole(MOST_WORKERS), whole({})"),
        ("library/web/preview.html", 'id="pitch" value="50" min="1" max="{}"', 'id="height" value="50" min="1" max="{}"'),
        *((f"library/tests/{it}", "pitch and layer height take 1 to {} micrometres") for it in ("calls.c", "hostile.c", "meshes.py")),
        ("crates/test_meshes/src/published.rt", "GREATEST_STEP: u32 = {};")],
    "geometry::COLUMN_LIMIT": [("--help", "three counts (at most {}, {} and"), ("docs/usage.md", "counts up to {}, {} and"),
        ("docs/formats.md", "At most {} columns and rows,"), ("man/stlslice.1", "most {}, {} and"),
        ("include/stlslice.h", "at most {}, {} and"), ("docs/refused.md", "{} columns and rows"),
        ("SECURITY.md", "The grid may have {} x {} x"), ("README.md", "{} pixels a side"),
        ("commands/stlslice_commands/page.py", "MOST = {}  #"), ("crates/test_meshes/src/published.rt", "MOST_COLUMNS: u32 = {};")],
    "geometry::LAYER_LIMIT": [("--help", " and {}), and its least"), ("docs/usage.md", " and {}; the least corner"),
        ("docs/formats.md", "rows, {} layers."), ("man/stlslice.1", " and {}, and its least corner"),
        ("include/stlslice.h", " and {}; for"), ("docs/refused.md", "{} layers"), ("SECURITY.md", " x {} voxels"),
        ("crates/test_meshes/src/published.rt", "MOST_LAYERS: u32 = {};")],
    "binary_stl::TEXT_LIMIT": [("docs/formats.md", "none below {} bytes")],
    "geometry::FACET_LIMIT": [
        ("docs/formats.md", "more than {} facets, told"), ("docs/usage.md", "A mesh has at most {} facets"),
        ("docs/embedding.md", "a mesh has at most {} facets"), ("man/stlslice.1", "a mesh has at most {} facets"),
        ("docs/refused.md", "More than {} facets"), ("SECURITY.md", "and the mesh {} facets"),
        ("README.md", "at most {} facets and"), ("docs/printing.md", "| more than {} facets |", "[more than {} facets]"),
        ("man/stlslice-sl1.1", "more than {} facets"), ("man/stlslice-pngs.1", "more than {} facets"),
        ("python/stlslice/threemf.py", "FACETS = {}"), ("python/stlslice/shells.py", "LIMIT = {} - 2"),
        ("commands/stlslice_commands/words.py", "more than {} facets"),
        ("commands/stlslice_commands/parts.py", "a mesh has at most {} facets"),
        ("library/tests/hostile.c", "MOST = {} }", "too many facets at triangle {}")],
    "stripe_claims::PASS_LIMIT": [
        ("--help", "Number of threads, 1 to {}"), ("docs/usage.md", "| `--workers N` | 1 to {}; default"),
        ("man/stlslice.1", "slice and draw, 1 to {}."), ("completions/_stlslice", "number (1 to {}):"),
        ("completions/stlslice.fish", "slice and draw, 1 to {} "), ("docs/PROVED.md", "1 to {} workers"),
        ("docs/decisions/single-worker.md", "has 1 to {} workers"),
        ("docs/printing.md", "at most {} | threads of the slicer, 1 to {} |"),
        ("commands/stlslice_commands/words.py", "MOST_WORKERS = {}", "threads of the slicer, 1 to {} ("),
        *((f"man/stlslice-{it}.1", "Threads of the slicer, 1 to {}.") for it in ("sl1", "pngs", "page")),
        *((f"completions/_stlslice-{it}", "threads of the slicer]:number (1 to {}):") for it in ("sl1", "page")),
        *((f"completions/stlslice-{it}.fish", "Threads of the slicer, 1 to {}'") for it in ("sl1", "page"))],
    "micro_num::WORD_LIMIT": [("docs/formats.md", "At most {} bytes."), ("docs/refused.md", "{} bytes"),
        ("python/stlslice/_exact.py", "LONGEST = {} # bytes of a number")],
    "stl_text::WORD_FRONT": [("docs/decisions/front-of-a-word.md", "keeps the first {} bytes of such a word"),
        ("docs/usage.md", "holds the first {} bytes of a word")],
    "mesh_reading::LEAST_READ": [("docs/decisions/front-of-a-word.md", "is offered at least {} bytes (`LEAST_READ`)")],
    "build_book::STRIPE_LAYERS": [("docs/ARCHITECTURE.md", "draws stripes of {} layers", "**Stripe**: {} layers"),
        ("include/stlslice.h", "of the layers {} s to {} s +"), ("crates/layer_pool/src/lib.rt", "a stripe is {} layers,"),
        *((f"crates/{it}/src/lib.rt", "stripes, which are {} layers each,") for it in ("stlslice_c", "layer_session"))],
    "mesh_reading::WORKER_LEN": [("docs/usage.md", "A round is {M} mebibyte for each worker"),
        ("docs/decisions/rounds-and-parts.md", "A round is {M} mebibyte for each worker")],
    "mesh_reading::ROUND_LIMIT": [("docs/usage.md", "for each worker, at most {M}, and"),
        ("docs/decisions/rounds-and-parts.md", "for each worker, at most {M}.")],
    "mesh_reading::WINDOW_LEN": [("docs/usage.md", "and up to {K} KiB more")],
    "stl_text::PARTS_OF_A_WORKER": [("docs/decisions/rounds-and-parts.md", "Each round has {} parts for each worker")],
    "stlslice::SET_LEN": [("docs/usage.md", "A set takes at most {M} MiB"),
        ("docs/decisions/pages-for-dense-images.md", "A set has at most {M} MiB (`SET_LEN`)")],
    "stlslice::DRAWN_LIMIT": [("docs/usage.md", "An image of more than {M} mebibyte"),
        ("docs/decisions/pages-for-dense-images.md", "larger images than {M} mebibyte (`DRAWN_LIMIT`)")],
    "stlslice::PAGE_LEN": [("docs/decisions/pages-for-dense-images.md", "has at most {M} mebibyte (`PAGE_LEN`)")],
    "stlslice::FEW_SPANS": [("docs/decisions/pages-for-dense-images.md", "more than {} spans a row on average")],
    "raster::CHUNK_LEN": [("docs/decisions/one-chunk-for-images.md", "one chunk of {K} KiB (`CHUNK_LEN`)")],
    "raster::IN_PLACE": [("docs/decisions/crossings-in-place.md", "with {} in place (`IN_PLACE`")],
    "exact_cut::LEADING_BITS": [("docs/decisions/quotients-by-guess.md", "the leading {} bits of both")],
    "mesh_weld::STEPS_A_FACET": [("docs/decisions/edges-in-chains.md", "{} steps a facet and")],
    "mesh_weld::LEAST_CHAINED": [("docs/decisions/edges-in-chains.md", "below {} facets (`LEAST_CHAINED`)")],
    "mesh_weld::LEAST_COUNTED": [("docs/decisions/facets-by-counting-sort.md", "from {} facets on (`LEAST_COUNTED`)")]}

SMALL = {1: "a", 4: "four", 8: "eight"}


def plain(text):
    return " ".join(re.sub(r"(?<=\d)[,_](?=\d{3}(?!\d))", "", text).split())


def said():
    """How each constant of the sources is computed, by its crate and name, if a crate has it once and isn't one of tests."""
    found, many = {}, set()
    paths = glob.glob(f"{ROOT}/crates/*/src/**/*.rt", recursive=True)
    for path in (it for it in paths if not re.search(r"_tests/src/|/tests(/|\.rt$)", it)):
        crate = os.path.relpath(path, f"{ROOT}/crates").split("/")[0]
        for name, value in re.findall(r"(?ms)^(?:pub(?:\(crate\))? )?const ([A-Z_]+): [ui]\w+ = (.*?);", text_of(path)):
            many |= {(crate, name)} & found.keys()
            found[crate, name] = value
    return {key: value for key, value in found.items() if key not in many}


def constants():
    texts = said()

    def value_of(crate, name):
        home = crate if (crate, name) in texts else next(it for it, named in texts if named == name)
        text = re.sub(r"\bas \w+|(?<=\d)_(?=\d)", "", texts[home, name]).strip().replace("/", "//")
        return eval(text, {}, {it: value_of(home, it) for it in re.findall(r"\b[A-Z_]+\b", text)})

    keys = [(name, tuple(name.split("::"))) for name in SPELLED]
    return {name: value_of(*key) for name, key in keys if key in texts}


def spellings(pattern, value):
    """The texts that say a value by a pattern: with digits, and as a word."""
    units = {"{}": 1, "{m}": 10**6, "{K}": 1 << 10, "{M}": 1 << 20}
    digits, words = pattern, pattern
    for unit, size in units.items():
        digits = digits.replace(unit, str(value // size))
        words = words.replace(unit, SMALL.get(value // size, str(value // size)))
    return {plain(digits), plain(words)}


class Limits(Case):
    def test_what_is_spelled_is_the_constant(self):
        told, found = self.room.run("stlslice", "--help").out, constants()
        same(sorted(found), sorted(SPELLED), "constants that their crates have once")
        for name, places in SPELLED.items():
            for place, *patterns in places:
                text = plain(told if place == "--help" else text_of(place))
                for spelled in (spellings(it, found[name]) for it in patterns):
                    is_told = any(re.search(rf"(?<!\d){re.escape(it)}(?!\d)", text) for it in spelled)
                    assert is_told, f"{place} doesn't tell {name} as {' or '.join(sorted(spelled))}"

    def test_the_millimetres_of_a_counting_sort_are_its_bits(self):
        bits = re.search(r"const GROUP_BITS: u32 = (\d+);", text_of("crates/mesh_weld/src/by_hash/histogram.rt"))[1]
        told = re.search(r"up to (\d+) mm", text_of("docs/decisions/facets-by-counting-sort.md"))[1]
        same(told, str(2 ** int(bits) // 1000), "millimetres")
