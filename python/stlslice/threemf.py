"""3MF, by its core specification 1: the points and triangles of what a file has built."""

import functools
import io
import itertools
import math
import re
import struct
import zipfile
import zlib
from array import array
from typing import IO, Callable, Dict, Iterator, List, Optional, Sequence, Tuple
from xml.parsers import expat

from . import NOT_READ, Arrays, Fault, FormatFault, Progress, Source, _bytes, _rounded
from ._exact import FARTHEST, cross, dot, number, refuse_if

FACETS = 1_048_576  # of a mesh, at most
CORE = "http://schemas.microsoft.com/3dmanufacturing/core/2015/02 "
MODEL = "http://schemas.microsoft.com/3dmanufacturing/2013/01/3dmodel"
UNITS = {"micron": 1, "millimeter": 1000, "centimeter": 10_000, "inch": 25_400, "foot": 304_800, "meter": 1_000_000}
INDEX = re.compile("[0-9]{1,9}")  # of a triangle's corner
ID = re.compile("[0-9]{1,10}")  # of an object
IDENTITY = "1 0 0 0 1 0 0 0 1 0 0 0"
# What slicers say of a part of a mesh that is none of the body, and in which files.
NO_BODY = (b"ParameterModifier", b"NegativeVolume", b"SupportEnforcer", b"SupportBlocker",
           b"modifier_part", b"negative_part", b"support_enforcer", b"support_blocker")
CONFIGS = ("Metadata/Slic3r_PE_model.config", "Metadata/model_settings.config")
BLOCK = 1 << 16  # bytes that are read at once
CONFIG = 1 << 23  # bytes of such a file
LARGEST, SMALL, RATIO = 1 << 28, 1 << 20, 40  # bytes of an entry; above SMALL it has at most RATIO times its packed bytes
WORD = 1 << 18  # bytes of XML without an event, and of the relationships
ELEMENTS = 100_000  # of an entry, and declarations of namespaces; above them it has at most one for two packed bytes
ATTRIBUTES = 8  # of an element; each further one counts as an element
OBJECTS = 10_000  # of a model, and places of objects
ENTRIES = 10_000  # of a zip
NESTED, DEEPEST = 64, 16  # elements of XML, and components, in each other
NAMES, NAME = 1000, 300  # of elements, attributes and namespaces, and the characters of one
DECIMALS, POINT = 150, 50  # of transforms in each other, and of a number of a point
WHOLE = 12  # digits before the point, of transforms in each other and of a coordinate
SLOW = 30  # decimals with which placing points takes as long again
TRANSFORM, COORDINATE = 40, 40  # bytes of a number of a transform, and of a point
NO_TRANSFORM = f"a transform hasn't twelve numbers of at most {TRANSFORM} bytes"
PLACED = 100  # facets that take as long as placing an object
DAMAGED = (zipfile.BadZipFile, zlib.error, struct.error, expat.ExpatError, EOFError, RuntimeError, ValueError, LookupError)

Words = Dict[str, str]
Transform = Tuple[List[List[int]], int]  # three rows of four whole numbers, and how many of their digits are decimals


def read_3mf(source: Source, progress: Progress = None, most: int = FACETS) -> Arrays:
    """The points of a 3MF's build items, in whole micrometres, and their triangles, as `open_mesh` takes them.

    `source` is given as in `open`; the file has its own unit. Each coordinate is multiplied by its transforms exactly, and then
    rounded to the nearest micrometre, halves away from zero. An object that a transform mirrors is turned inside out again.
    `progress`, if given, is called now and then with how far it is, as `12 MB`.

    Raises a `Fault` of status 3 if the file is damaged, hostile or has more than `most` facets. It is a `FormatFault` if the file
    may be right: if it needs an extension, or has volumes that are none of the part, such as modifiers.
    """
    points, triangles = array("i"), array("I")
    for size in _reading(_bytes(source), _Model(most), points, triangles):
        if progress:
            progress(f"{size >> 20} MB")
    return points, triangles


def _reading(data: bytes, model: "_Model", points: "array[int]", triangles: "array[int]") -> Iterator[int]:
    """Reads a 3MF, and tells again and again how many bytes of its model are read."""
    try:
        refuse_if(not zipfile.is_zipfile(io.BytesIO(data)), "it is cut, or no zip")
        # with these bytes each entry is listed, and the list is held whole
        refuse_if(data.count(b"PK\1\2") > ENTRIES, f"it has more than {ENTRIES:,} entries")
        with zipfile.ZipFile(io.BytesIO(data)) as archive:
            is_beyond = any(it.header_offset + it.compress_size > len(data) for it in archive.infolist())
            refuse_if(is_beyond, "an entry lies beyond the file")
            for name in CONFIGS:
                if name in archive.namelist() and _has_no_body(archive.open(_entry(archive, name, CONFIG, CONFIG))):
                    raise FormatFault(NOT_READ, "the 3MF has volumes that are none of the part, such as modifiers")
            yield from _fed(archive, _entry(archive, _model_of(archive)), model.start, model.end)
            model.items.place(([[model.unit * (k == j) for k in range(4)] for j in range(3)], 0), points, triangles)
    except FormatFault:
        raise
    except (Fault, *DAMAGED) as fault:
        why = f"{fault.args[0]} is missing" if isinstance(fault, KeyError) else str(fault) or "an entry is cut"
        raise Fault(NOT_READ, f"the 3MF can't be read: {why[:200]}") from None


def _has_no_body(stream: IO[bytes]) -> bool:
    """Whether a slicer's file says that a part of a mesh is none of the body."""
    last = b""
    for block in iter(lambda: stream.read(BLOCK), b""):
        last += block
        if any(it in last for it in NO_BODY):
            return True
        last = last[-32:]
    return False


def _model_of(archive: zipfile.ZipFile) -> str:
    """The name of the entry with the model, as the package's relationships have it."""
    found: List[str] = []

    def start(_: str, words: Words) -> None:
        if words.get("Type") == MODEL:
            found.append(words["Target"].lstrip("/"))

    for _ in _fed(archive, _entry(archive, "_rels/.rels", WORD), start):
        pass
    refuse_if(len(found) != 1, "its relationships name no model, or several")
    return found[0]


def _entry(archive: zipfile.ZipFile, name: str, most: int = LARGEST, small: int = SMALL) -> zipfile.ZipInfo:
    """An entry of the zip. One that is too large, or packed far better than a mesh is, is refused."""
    entries = [it for it in archive.infolist() if it.filename == name]
    refuse_if(len(entries) != 1, f"it has {name!r} {len(entries)} times")
    it, = entries
    refuse_if(it.file_size > min(most, max(small, RATIO * it.compress_size)),
              f"{name!r} is too large: {it.compress_size:,} bytes that unpack to {it.file_size:,}")
    is_other = it.compress_type not in (zipfile.ZIP_STORED, zipfile.ZIP_DEFLATED)
    refuse_if(is_other, f"{name!r} is packed in another way than by deflate")
    return it


def _fed(archive: zipfile.ZipFile, entry: zipfile.ZipInfo, start: Callable[[str, Words], None],
         end: Callable[[str], None] = lambda name: None) -> Iterator[int]:
    """Calls `start` and `end` for each element of an entry's XML, and tells how many bytes are read. A document type, and with it
    entities, is refused."""
    above: List[str] = []
    count, names, parser, left = 0, 0, expat.ParserCreate(namespace_separator=" "), max(ELEMENTS, entry.compress_size // 2)
    undeclared = left

    def refuse_long(*those: Optional[str]) -> None:
        refuse_if(max(len(it or "") for it in those) > NAME, f"it has a name of more than {NAME} characters")

    def declared(*those: Optional[str]) -> None:
        nonlocal undeclared
        undeclared -= 1
        refuse_if(undeclared < 0, f"it declares more than {ELEMENTS:,} namespaces, and more than half as many as packed bytes")
        refuse_long(*those)

    def began(name: str, words: Words) -> None:
        nonlocal left, names
        left -= max(1, len(words) + 1 - ATTRIBUTES)
        refuse_if(left < 0, f"it has more than {ELEMENTS:,} elements or attributes, and more than half as many as packed bytes")
        if len(parser.intern) > names:
            names = len(parser.intern)
            refuse_if(names > NAMES, f"it has more than {NAMES:,} names of elements, attributes and namespaces")
            refuse_long(name, *words)
        above.append(name)
        refuse_if(len(above) > NESTED, "its XML is nested too deeply")
        start(name, words)

    parser.StartElementHandler, parser.EndElementHandler = began, lambda _: end(above.pop())
    parser.StartDoctypeDeclHandler = lambda *_: refuse_if(True, "its XML has a document type")
    parser.StartNamespaceDeclHandler = declared  # prefixes and namespaces are among `intern` then
    stream = archive.open(entry)
    for block in iter(lambda: stream.read(BLOCK), b""):
        count += len(block)
        parser.Parse(block)
        refuse_if(count - parser.CurrentByteIndex > WORD, f"its XML has a word of more than {WORD:,} bytes")
        yield count
    parser.Parse(b"", True)


class _Model:
    """The objects of a 3MF's model and what is to be built of them, of at most so many facets."""

    def __init__(self, most: int) -> None:
        self.most, self.unit, self.points, self.facets, self.object, self.items = most, 0, 0, 0, None, _Object("", "model")
        self.places = 0
        self.objects: Dict[str, _Object] = {}

    def start(self, name: str, words: Words) -> None:
        kind = name[len(CORE):] if name.startswith(CORE) else None
        refuse_if(not self.unit and kind != "model", "its model is none of the core specification 1")
        refuse_if(not self.object and kind in ("vertex", "triangle", "component"), f"it has a {kind} outside an object")
        getattr(self, f"take_{kind}", lambda _: None)(words)

    def end(self, name: str) -> None:
        if name == CORE + "object":
            it, self.object = self.object, None
            count = it.lines.count(b"\n")
            is_wrong = max(it.triangles, default=0) >= max(1, count)
            refuse_if(is_wrong, f"object {it.id} has a triangle with a point that it hasn't")
            refuse_if(count > len(it.triangles) + PLACED, f"object {it.id} has {count:,} points, more than its triangles can have")
            it.points += count
            self.points += count
            self.facets += len(it.triangles) // 3

    def take_model(self, words: Words) -> None:
        unit, extensions = words.get("unit", "millimeter"), words.get("requiredextensions", "")
        if extensions.strip():
            raise FormatFault(NOT_READ, f"the 3MF needs the extensions {extensions[:40]!r}")
        self.unit = UNITS.get(unit, 0)
        refuse_if(not self.unit, f"there is no unit {unit[:20]!r}")

    def take_object(self, words: Words) -> None:
        id = words["id"].strip(" ")
        refuse_if(not ID.fullmatch(id), f"an object's id is no number, but {id[:20]!r}")
        refuse_if(self.object or id in self.objects, f"object {id} stands twice, or in another")
        refuse_if(len(self.objects) == OBJECTS, f"it has more than {OBJECTS:,} objects")
        self.object = self.objects[id] = _Object(id, words.get("type", "model")[:20])

    def take_vertex(self, words: Words) -> None:
        places = [words[axis].encode().split() for axis in "xyz"]
        is_wrong = any(len(it) != 1 or len(it[0]) > COORDINATE for it in places)
        refuse_if(is_wrong, f"a vertex has a coordinate that is not a number of at most {COORDINATE} bytes")
        self.object.lines += b" ".join(it[0] for it in places) + b"\n"

    def take_triangle(self, words: Words) -> None:
        corners = [words[it].strip(" ") for it in ("v1", "v2", "v3")]
        refuse_if(not all(map(INDEX.fullmatch, corners)), "a triangle has an index that is no number")
        self.object.triangles.extend(map(int, corners))
        self.object.cost += 1

    def take_item(self, words: Words) -> None:
        if words.get("printable", "1") != "0":
            self.take_component(words, self.items)

    def take_component(self, words: Words, holder: "Optional[_Object]" = None) -> None:
        """Puts an object into another, or into what is built. It stands before what refers to it, so that none holds itself."""
        id, holder = words["objectid"].strip(" "), holder or self.object
        if any(it.endswith(" path") for it in words):  # of the production extension
            raise FormatFault(NOT_READ, "the 3MF builds an object of another model file")
        found = self.objects.get(id)
        refuse_if(not found or found is self.object, f"there is no object {id[:20]!r} before what refers to it")
        if found.type not in ("model", "solidsupport", "support"):
            raise FormatFault(NOT_READ, f"the 3MF builds an object of the type {found.type!r}")
        self.places += 1
        refuse_if(self.places > OBJECTS, f"it places objects more than {OBJECTS:,} times")
        text = words.get("transform", IDENTITY)
        refuse_if(len(text) > 16 * TRANSFORM, NO_TRANSFORM)
        transform = _transform_of(text)
        holder.components.append((found, transform))
        holder.cost += PLACED + found.cost
        holder.points += found.points
        holder.decimals = max(holder.decimals, max(found.decimals, found.numbers[1]) + transform[1])
        holder.depth = max(holder.depth, found.depth + 1)
        most = min(self.most, FACETS + 2 * self.facets)
        refuse_if(holder.cost > most, f"it has more than {most:,} facets, or too many objects")
        is_often = holder.points * (1 + holder.decimals // SLOW) > min(self.most, FACETS) // 2 + 2 * self.points
        refuse_if(is_often, f"its objects are placed so often that they have {holder.points:,} points")
        refuse_if(holder.depth > DEEPEST, "its components are too deep in each other")


class _Object:
    """A mesh, of points as texts, and other objects with their transforms. `cost` counts triangles, and PLACED for each object in
    it, each as often as it is placed, and `points` counts points so. `decimals` are the most of a coordinate of another object in it."""

    def __init__(self, id: str, type: str) -> None:
        self.id, self.type, self.cost, self.points, self.decimals, self.depth = id, type, 0, 0, 0, 1
        self.lines, self.triangles = bytearray(), array("I")
        self.components: List[Tuple[_Object, Transform]] = []

    @functools.cached_property
    def numbers(self) -> Tuple[Sequence[int], int]:
        """The coordinates of all points as whole numbers, and how many of their digits are decimals."""
        digits, decimals = [], array("H")
        for line in io.BytesIO(self.lines):
            for word in line.split():
                own = number(word)
                if own[1] > POINT or own[0].bit_length() > 4 * (WHOLE + own[1]):
                    _refuse_decimals(own[1], POINT)
                    self.refuse_far(True)
                digits.append(own[0])
                decimals.append(own[1])
        most = max(decimals, default=0)
        for at, own in enumerate(decimals):
            if own < most:
                digits[at] *= 10 ** (most - own)
        try:
            return array("q", digits), most
        except OverflowError:
            return digits, most

    def refuse_far(self, is_far: bool) -> None:
        refuse_if(is_far, f"object {self.id} reaches beyond 128 m from the origin")

    def place(self, transform: Transform, points: "array[int]", triangles: "array[int]") -> None:
        """Adds the points and the triangles, by a transform to micrometres. A mirror image is turned inside out again."""
        (rows, decimals), (flat, own) = transform, self.numbers
        first, corners = len(points) // 3, array("I", self.triangles)
        block, one = array("i", bytes(4 * len(flat))), 10 ** (decimals + own)
        sides = [flat[k::3] for k in range(3)]
        for k, row in enumerate(rows):
            a, b, c, d = (2 * it for it in row)
            d *= 10 ** own
            places = [_rounded(a * x + b * y + c * z + d, one) for x, y, z in zip(*sides)]
            is_far = bool(places) and not -FARTHEST <= min(places) <= max(places) <= FARTHEST
            self.refuse_far(is_far)
            block[k::3] = array("i", places)
        points.extend(block)
        if _volume(rows) < 0:
            corners[1::3], corners[2::3] = corners[2::3], corners[1::3]
        triangles.extend(first + at for at in corners)
        for other, within in self.components:
            other.place(_joined(transform, within), points, triangles)


def _joined(outer: Transform, inner: Transform) -> Transform:
    """The transform that applies the inner one first."""
    (rows, decimals), (others, own) = outer, inner
    columns, decimals = list(enumerate(zip(*others))), decimals + own
    found = [[dot(column, row) + (row[3] * 10 ** own if k == 3 else 0) for k, column in columns] for row in rows]
    # decimals that are 0 in all numbers are left out
    shared = str(functools.reduce(math.gcd, itertools.chain(*found), 10 ** decimals))
    spare = len(shared) - len(shared.rstrip("0"))
    return _checked([[it // 10 ** spare for it in row] for row in found], decimals - spare)


@functools.lru_cache(maxsize=256)
def _transform_of(text: str) -> Transform:
    """A transform, by rows: by the first three numbers of each x, y and z are multiplied, and the last is added."""
    words = text.encode().split()
    refuse_if(len(words) != 12 or max(map(len, words)) > TRANSFORM, NO_TRANSFORM)
    found = [number(it) for it in words]
    decimals = max(own for _, own in found)
    digits = [it * 10 ** (decimals - own) for it, own in found]
    transform = _checked([digits[k::3] for k in range(3)], decimals)
    refuse_if(not _volume(transform[0]), "a transform makes an object flat")
    return transform


def _checked(rows: List[List[int]], decimals: int) -> Transform:
    """A transform. One with more digits than any program writes is refused, since they take long."""
    _refuse_decimals(decimals)
    is_large = max(map(abs, itertools.chain(*rows))) >= 10 ** (WHOLE + decimals)
    refuse_if(is_large, f"a transform, or some in each other, has more than {WHOLE} digits before the point")
    return rows, decimals


def _refuse_decimals(count: int, most: int = DECIMALS) -> None:
    """Refuses more decimals than any program writes, since they take long."""
    if count > most:
        raise FormatFault(NOT_READ, f"the 3MF has numbers, or transforms in each other, of {count} decimals")


def _volume(rows: List[List[int]]) -> int:
    """It is 0 if a transform makes things flat, and below 0 if it makes mirror images."""
    found: int = dot(cross(*rows[:2]), rows[2])
    return found
