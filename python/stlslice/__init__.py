"""stlslice: exact slices of a closed mesh, layer by layer, as numpy arrays.

    import stlslice

    with stlslice.open_mesh(points, triangles, pitch=50, layer=50) as mesh:
        print(mesh.shape)               # layers, rows, columns
        mask = mesh[120]                # layer 120: a numpy array of bool, rows by columns
        some = mesh[100:140:2]          # layers as one array of three dimensions
        for mask in mesh:               # all of them, from the lowest up
            ...
        mesh.png(120)                   # the layer as PNG: bytes
        mesh.area(120)                  # how many pixels of the layer are filled
        mesh.areas()                    # of all layers
        mesh.loops(120)                 # its closed polygons: arrays of points, in half-micrometres
        mesh.probe(10, 20, 120)         # signed crossings of the rays along x and y from a voxel's centre

`open` takes a file: binary STL or ASCII STL. The points of `open_mesh` are whole micrometres, and `micrometres` makes them of
millimetres. `read` returns the facets of a file. With a canvas a part stands in the middle of a printer's screen, turned by
quarters, and its images are what the screen shows:

    mesh = stlslice.open("part.stl", canvas=(11520, 5120), pitch=(19, 24), layer=50, turn=1)
    for png in mesh.pngs(workers=4):
        ...

Other files, larger parts and printers have modules of their own:

    stlslice.obj.read_obj, stlslice.threemf.read_3mf    # points and triangles of an OBJ or a 3MF, for `open_mesh`
    stlslice.shells.split                               # a part of more facets than a mesh may have, as several meshes
    stlslice.images.joined                              # their PNGs as one
    stlslice.printers.printers                          # the screens of printers, by their models

A mask is laid out as the program's image: its first row is that of the greatest y. `probe` counts rows from the least y
up, so the pixel of its column i and row j is `mask[rows - 1 - j, i]`, or `mask[::-1][j, i]`. Lengths are whole micrometres.

What the program refuses raises a `Fault` with the program's status and line. Several threads may use a mesh, and run at the
same time, since a call holds no lock of the interpreter.

The work is done by libstlslice, which is called through ctypes. It is the one that the variable STLSLICE_LIBRARY names,
else the one beside this module, else the one that the system finds. numpy is needed only for masks and loops. With it arrays
are read faster.
"""

from __future__ import annotations

import array
import builtins
import collections
import ctypes
import functools
import operator
import os
from fractions import Fraction
from typing import (TYPE_CHECKING, Any, BinaryIO, Callable, Deque, Iterator, List, Literal, NamedTuple, Optional, Sequence, Tuple,
                    Union, get_args)

if TYPE_CHECKING:
    import numpy

__all__ = ["Box", "ClosedFault", "Fault", "FitFault", "FormatFault", "MemoryFault", "Mesh", "RangeFault", "box", "micrometres", "open",
           "open_mesh", "read"]

Source = Union[str, "os.PathLike[str]", bytes, bytearray, memoryview, BinaryIO]
Triple = Tuple[int, int, int]
Triples = Union["numpy.ndarray", "array.array[int]", memoryview, Sequence[Sequence[int]]]

Rule = Literal["evenodd", "nonzero", "positive"]    # the library's numbers of these words are their places here
Unit = Literal["mm", "inch", "cm", "m"]
Side = Union[int, float, str, Fraction]
Pitch = Union[Side, Tuple[Side, Side]]
Numbers = Optional[Sequence[int]]
Arrays = Tuple["array.array[int]", "array.array[int]"]      # points and triangles, without rows
Progress = Optional[Callable[[str], object]]

FACTORS = [1000, 25400, 10000, 1000000]     # micrometres in each unit
AT_ONCE = 1 << 17    # bytes of PNGs that a thread makes at once
LINE = 256
WORD = range(2**32)
MOST_COORDINATE = 2**31 - 1     # more than any that a mesh may have, and as far as the library's type goes
DONE, OUT_OF_RANGE, NOT_READ, MEMORY, NO_ROOM, NOT_OPEN, NO_FIT = 0, 1, 3, 6, 7, 8, 9


class Fault(Exception):
    """Why a call was refused. If file, mesh or grid is at fault, or memory ran out, `status` is 3 to 6. It and `line` are then
    the program's, but for the line of a binary STL, an OBJ, a 3MF, a shell or a canvas. Else they are the library's own: 1 if a number is out of its
    range or outside the grid, 8 if the mesh was closed, 9 if the part does not fit the canvas."""

    def __init__(self, status: int, text: str) -> None:
        super().__init__(text)
        self.status = status
        self.line = f"stlslice: {text}"

    def __reduce__(self) -> Tuple[type, Tuple[int, str]]:
        return type(self), (self.status, self.args[0])


class RangeFault(Fault, ValueError):
    """A number is out of its range, or a voxel outside the grid (status 1)."""


class MemoryFault(Fault, MemoryError):
    """An allocation failed (status 6). The mesh stays as it was."""


class ClosedFault(Fault, ValueError):
    """The mesh was closed (status 8)."""


class FitFault(Fault):
    """The part does not fit the canvas (status 9). The line has both sizes, and whether a quarter turn helps."""


class FormatFault(Fault):
    """An OBJ or a 3MF has what is not taken here (status 3). A program that converts it may take it."""


class Box(NamedTuple):
    """The facets of a file: how many, and their least and greatest x, y and z, in micrometres; zeros if there are none."""

    facets: int
    low: Triple
    high: Triple


class _Corners(ctypes.Structure):
    _fields_ = [("facets", ctypes.c_uint64), ("low", ctypes.c_int32 * 3), ("high", ctypes.c_int32 * 3)]


class _Options(ctypes.Structure):
    _fields_ = [(name, ctypes.c_uint32) for name in ("pitch", "layer", "rule", "unit", "placing", "columns", "rows", "layers")]
    _fields_ += [("origin", ctypes.c_int32 * 3), ("turn", ctypes.c_uint32), ("width", ctypes.c_uint32 * 2), ("depth", ctypes.c_uint32 * 2)]


class _Shape(ctypes.Structure):
    _fields_ = [("corners", _Corners), ("columns", ctypes.c_uint32), ("rows", ctypes.c_uint32), ("layers", ctypes.c_uint32),
                ("origin", ctypes.c_int32 * 3), ("pitch", ctypes.c_uint32), ("layer", ctypes.c_uint32),
                ("times_x", ctypes.c_uint64), ("times_y", ctypes.c_uint64)]


class _Handle(ctypes.Structure):
    """A mesh of the library. Each call that uses it holds it, so that it is freed when the last one has ended."""

    _fields_ = [("is_open", ctypes.c_bool), ("at", ctypes.c_void_p)]

    def __del__(self) -> None:
        if _lib is not None:        # it is None when the interpreter ends
            _lib.stlslice_close(self)


def _library() -> ctypes.CDLL:
    name = "stlslice.dll" if os.name == "nt" else "libstlslice.so.1"
    beside = os.path.join(os.path.dirname(os.path.abspath(__file__)), name)
    named = os.environ.get("STLSLICE_LIBRARY") or (beside if os.path.exists(beside) else name)
    try:
        library = ctypes.CDLL(named)
    except OSError as fault:
        raise ImportError(f"{fault}: install the library, or name it in STLSLICE_LIBRARY") from fault
    at, size, sized = ctypes.c_void_p, ctypes.c_size_t, ctypes.POINTER(ctypes.c_size_t)
    file, word, handle = ctypes.c_char_p, ctypes.c_uint32, ctypes.POINTER(_Handle)
    for name, words in {
        "version": [],
        "box": [file, size, word, ctypes.POINTER(_Corners), at, size],
        "facets": [file, size, word, at, size, sized, at, size],
        "open": [file, size, ctypes.POINTER(_Options), handle, ctypes.POINTER(_Shape), at, size],
        "open_mesh": [at, size, at, size, ctypes.POINTER(_Options), handle, ctypes.POINTER(_Shape), at, size],
        "mask": [handle, word, at, size, sized],
        "png": [handle, word, word, word, at, size, sized],
        "area": [handle, word, ctypes.POINTER(ctypes.c_uint64)],
        "areas": [handle, word, word, at, size],
        "probe": [handle, word, word, word, at],
        "loops": [handle, word, at, size, sized, at, size, sized],
        "fault_text": [word, at, size],
        "close": [handle],
    }.items():
        try:
            call = getattr(library, f"stlslice_{name}")
        except AttributeError as fault:
            raise ImportError(f"{fault}: another library, or one older than this module") from fault
        call.argtypes = words
        call.restype = None if name in ("fault_text", "close") else ctypes.c_uint32
    return library


_lib = _library()
_number = _lib.stlslice_version()
__version__ = f"{_number // 1000000}.{_number // 1000 % 1000}.{_number % 1000}"


def _raise(status: int, line: ctypes.Array[ctypes.c_char]) -> None:
    kind = {OUT_OF_RANGE: RangeFault, MEMORY: MemoryFault, NOT_OPEN: ClosedFault, NO_FIT: FitFault}.get(status, Fault)
    raise kind(status, line.value.decode("ascii", "replace"))


def _call(name: str, *words: Any) -> None:
    """A call that has a line for its fault."""
    line = ctypes.create_string_buffer(LINE)
    status = getattr(_lib, f"stlslice_{name}")(*words, line, LINE)
    if status:
        _raise(status, line)


def _bytes(source: Source) -> bytes:
    """The bytes of a file, of an open file, or of what holds them already. They are of the type `bytes` itself: one made of it
    may tell another length than it has."""
    if hasattr(source, "read"):
        source = source.read()
        if not isinstance(source, bytes):
            raise TypeError("open the file in binary mode")
    elif not isinstance(source, (bytes, bytearray, memoryview)):
        with builtins.open(os.fspath(source), "rb") as file:
            source = file.read()
    return source if type(source) is bytes else memoryview(source).tobytes()


def _whole(name: str, value: Any) -> int:
    try:
        return operator.index(value)
    except TypeError:
        raise TypeError(f"{name} takes whole numbers, and {value!r} is none") from None


def _word(name: str, value: Any) -> int:
    """A whole number that a C call can take. The library checks its own range."""
    number = _whole(name, value)
    if number not in WORD:
        raise RangeFault(OUT_OF_RANGE, f"{name} is out of its range")
    return number


def _choice(name: str, value: str, words: Any) -> int:
    """The number of a word."""
    if value not in get_args(words):
        raise RangeFault(OUT_OF_RANGE, f"{name} takes {', '.join(get_args(words))}")
    return get_args(words).index(value)


def _side(value: Any) -> Tuple[int, int]:
    """A side of a pixel in micrometres, exactly as its number is written."""
    try:
        side = Fraction(str(value)) if 2.0**-32 < float(value) < 2**32 else Fraction()
    except (TypeError, ValueError, OverflowError):
        raise TypeError(f"pitch takes numbers, and {value!r} is none") from None
    if not side or max(side.numerator, side.denominator) not in WORD:
        raise RangeFault(OUT_OF_RANGE, "pitch is out of its range")
    return side.numerator, side.denominator


def _values(name: str, values: Any, wanted: str) -> List[Any]:
    """As many values as are wanted, by their names."""
    found = [] if isinstance(values, str) else list(values)
    if len(found) != len(wanted.split()):
        raise RangeFault(OUT_OF_RANGE, f"{name} takes {len(wanted.split())} numbers: {', '.join(wanted.split())}")
    return found


def _options(pitch: Pitch, layer: int, rule: Rule, grid: Numbers, unit: Unit, canvas: Numbers, turn: int) -> _Options:
    """Options as C has them. The library checks the range of each number."""
    options = _Options(layer=_word("layer", layer), rule=_choice("rule", rule, Rule), unit=_choice("unit", unit, Unit),
                       turn=_word("turn", turn))
    if canvas is not None:
        if grid is not None:
            raise RangeFault(OUT_OF_RANGE, "a part on a canvas takes no grid")
        options.placing = 2
        options.columns, options.rows = (_word("canvas", it) for it in _values("canvas", canvas, "columns rows"))
        sides = _values("pitch", pitch, "width depth") if isinstance(pitch, (tuple, list)) else (pitch, pitch)
        options.width, options.depth = map(_side, sides)
        return options
    if turn:
        raise RangeFault(OUT_OF_RANGE, "a turn takes a canvas")
    options.pitch = _word("pitch", pitch)
    if grid is not None:
        columns, rows, layers, *origin = _values("grid", grid, "columns rows layers x y z")
        if any(abs(_whole("grid", at)) >= 2**31 for at in origin):
            raise RangeFault(OUT_OF_RANGE, "grid is out of its range")
        options.placing, options.origin = 1, tuple(origin)
        options.columns, options.rows, options.layers = (_word("grid", it) for it in (columns, rows, layers))
    return options


def _numpy() -> Any:
    """numpy, or None if it is missing."""
    try:
        import numpy
    except ImportError:
        return None
    return numpy


def _rows(name: str, values: Any, of_numbers: str) -> Any:
    """Rows of three numbers, as an array of numpy; as a list of all numbers if numpy is missing, or has no type for them."""
    numpy = _numpy()
    arrays = values if isinstance(values, (list, tuple)) else [values]
    if numpy and any(isinstance(row, numpy.ma.MaskedArray) and numpy.ma.is_masked(row) for row in arrays):
        raise RangeFault(OUT_OF_RANGE, f"{name} has masked numbers")      # which stand for missing ones
    try:
        found = None if numpy is None else numpy.asarray(values)
    except ValueError:
        found = None            # rows of different lengths
    if found is None or found.dtype.kind == "O":
        rows = values.tolist() if hasattr(values, "tolist") else list(values)
        numbers = [number for row in rows for number in (row if hasattr(row, "__len__") else (row,))]
        if len(numbers) % 3 or any(hasattr(row, "__len__") and len(row) != 3 for row in rows):
            raise RangeFault(OUT_OF_RANGE, f"{name} takes three numbers a row")
        return numbers
    if found.size == 0:
        return numpy.empty((0, 3), numpy.int32)
    if found.dtype.kind not in of_numbers:
        wanted, hint = ("numbers", "") if "f" in of_numbers else ("whole numbers", "; stlslice.micrometres makes them of millimetres")
        raise TypeError(f"{name} takes {wanted}, and has {found.dtype}{hint if name == 'points' else ''}")
    if found.size % 3 or (found.ndim > 1 and found.shape[1:] != (3,)):
        raise RangeFault(OUT_OF_RANGE, f"{name} takes three numbers a row")
    return found.reshape(-1, 3)


def _as_in_c(values: Any, kind: str) -> Optional[Tuple[Any, int, int]]:
    """A copy of an array of Python whose numbers are C's already, its address and its number of threes; None of anything else."""
    if not isinstance(values, array.array) or (values.typecode, values.itemsize, len(values) % 3) != (kind, 4, 0):
        return None
    kept = array.array(kind, values)
    return kept, kept.buffer_info()[0], len(kept) // 3


def _points(values: Triples) -> Tuple[Any, Any, int]:
    """A copy of the coordinates as C has them, its address and the number of points. What no coordinate can be stays so."""
    found = _as_in_c(values, "i")
    if found:
        return found
    rows = _rows("points", values, "iu")
    if isinstance(rows, list):
        kept = array.array("i", [max(-MOST_COORDINATE, min(_whole("points", it), MOST_COORDINATE)) for it in rows])
        return kept, kept.buffer_info()[0], len(rows) // 3
    numpy = _numpy()
    if rows.dtype.itemsize > 4 or rows.dtype.kind == "u":
        rows = numpy.clip(rows.astype(numpy.float64), -MOST_COORDINATE, MOST_COORDINATE)
    kept = numpy.array(rows, numpy.int32, order="C")
    return kept, kept.ctypes.data, len(kept)


def _triangles(values: Triples) -> Tuple[Any, Any, int]:
    """A copy of the indices as C has them, its address and the number of triangles."""
    found = _as_in_c(values, "I")
    if found:
        return found
    rows = _rows("triangles", values, "iu")
    if isinstance(rows, list):
        numbers = [_whole("triangles", it) for it in rows]
        wrong = next((at for at, number in enumerate(numbers) if number not in WORD), None)
        if wrong is not None:
            raise RangeFault(OUT_OF_RANGE, f"point {numbers[wrong]} of triangle {wrong // 3} is missing")
        kept = array.array("I", numbers)
        return kept, kept.buffer_info()[0], len(numbers) // 3
    numpy = _numpy()
    if rows.size and (rows.min() < 0 or rows.max() > WORD[-1]):
        wrong = int(numpy.flatnonzero((rows < 0) | (rows > WORD[-1]))[0])
        raise RangeFault(OUT_OF_RANGE, f"point {rows.flat[wrong]} of triangle {wrong // 3} is missing")
    kept = numpy.array(rows, numpy.uint32, order="C")
    return kept, kept.ctypes.data, len(kept)


def micrometres(points: Any, unit: Unit = "mm") -> Any:
    """Points in whole micrometres, as `open_mesh` takes them, of points in millimetres or another unit: rows of three numbers.

    A number becomes the micrometre that is nearest to its exact value, halves away from zero. So `open` reads a binary STL, and
    equal numbers stay equal. Raises `RangeFault` if a number is not finite, or 2147483647 micrometres or more from 0. A mesh takes
    points at most 128 metres from 0. The result is an array of numpy, or a list of triples if numpy is missing or has no type for
    the numbers.
    """
    rows, factor = _rows("points", points, "iuf"), FACTORS[_choice("unit", unit, Unit)]
    if isinstance(rows, list):
        try:
            _all_fit([at for at, it in enumerate(rows) if not abs(it) * factor < MOST_COORDINATE])
            # a tiny Decimal would take long
            ratios = [it.as_integer_ratio() if abs(it) * factor > 0.1 else (0, 1) for it in rows]
        except (TypeError, AttributeError, ArithmeticError):
            raise TypeError("points takes numbers, such as float, int and Fraction") from None
        found = [_rounded(2 * factor * over, under) for over, under in ratios]
        return list(zip(found[::3], found[1::3], found[2::3]))
    numpy = _numpy()
    with numpy.errstate(over="ignore", invalid="ignore"):   # what becomes infinite, or is no number, is refused below
        sizes = numpy.absolute(rows, dtype=numpy.result_type(rows, numpy.float64))
        high = sizes.astype(numpy.float32).astype(sizes.dtype)
        more, less = high * factor, (sizes - high) * factor     # exact, since factors are short
        total = more + less
    _all_fit(numpy.flatnonzero(~(total < MOST_COORDINATE)))
    found = total.astype(numpy.int32)
    found += total - found - 0.5 >= total - more - less     # by how much the total is too large, exactly, is on the right
    return numpy.negative(found, out=found, where=rows < 0)


def _rounded(twice: int, one: int) -> int:
    """Half of a whole number, in units of `one`, halves away from zero."""
    return (twice + one) // (2 * one) if twice >= 0 else -((one - twice) // (2 * one))


def _all_fit(wrong: Sequence[int]) -> None:
    if len(wrong):
        raise RangeFault(OUT_OF_RANGE, f"point {wrong[0] // 3} is out of range")


def box(source: Source, unit: Unit = "mm") -> Box:
    """The number and the box of the facets of a file, which is given as in `open`. The mesh need not be closed. Raises a
    `Fault` if the file is no STL that can be read, and `OSError` if it cannot be read at all."""
    data, corners = _bytes(source), _Corners()
    _call("box", data, len(data), _choice("unit", unit, Unit), corners)
    return Box(corners.facets, tuple(corners.low), tuple(corners.high))


def read(source: Source, unit: Unit = "mm") -> Any:
    """The facets of a file, which is given as in `open`, in whole micrometres: for each its three corners, and for each of these
    x, y and z. They are an array of numpy, or triples of triples in a list if numpy is missing. Raises the faults of `box`, but
    takes as many facets as a binary STL can count."""
    data, count, numpy = _bytes(source), ctypes.c_size_t(), _numpy()
    room = len(data) // 50      # a facet of a text is longer than one of a binary STL
    found = numpy.empty((room, 3, 3), numpy.int32) if numpy else array.array("i", bytes(36 * room))
    at = found.ctypes.data if numpy else found.buffer_info()[0]
    _call("facets", data, len(data), _choice("unit", unit, Unit), at, room, count)
    if numpy:
        return found[:count.value]
    numbers = iter(found[:9 * count.value])
    corners = zip(numbers, numbers, numbers)
    return list(zip(corners, corners, corners))


def open(source: Source, pitch: Pitch = 50, layer: int = 50, rule: Rule = "evenodd", grid: Numbers = None, unit: Unit = "mm",
         canvas: Numbers = None, turn: int = 0) -> Mesh:
    """Opens a file, binary STL or ASCII STL, as a path, an open binary file or its bytes.

    It is a binary STL exactly if it has 84 bytes, and 50 for each facet that it counts at byte 80.

    `pitch` is a voxel's length along x and y and `layer` along z, in micrometres. `grid`, if given, has the six numbers
    of the program's option: columns, rows and layers, then the corner of least x, y and z in micrometres. `unit` is that of the
    file's numbers. Raises a `Fault` if the file is no STL that can be read, or if the program would refuse its mesh or an option,
    and `OSError` if the file cannot be read at all.

    `canvas`, if given, has the columns and rows of a screen. The part stands in its middle, turned by `turn` quarters,
    counterclockwise from above, and its lowest point is on the first layer. Then `pitch` may be a fraction, as 47.25, "47.25" or
    `Fraction(189, 4)`, or a pair of them: a pixel's sides along x and y. A float counts as it is written. Raises a `FitFault` if
    the part is too large.
    """
    data = _bytes(source)
    return Mesh("open", (data, len(data)), _options(pitch, layer, rule, grid, unit, canvas, turn))


def open_mesh(points: Triples, triangles: Triples, pitch: Pitch = 50, layer: int = 50, rule: Rule = "evenodd",
              grid: Numbers = None, canvas: Numbers = None, turn: int = 0) -> Mesh:
    """Opens a mesh from arrays.

    `points` are rows of three coordinates in whole micrometres. `triangles` are rows of the indices of three points, from 0,
    counterclockwise as seen from outside. Both may be arrays of numpy, other buffers of whole numbers, or sequences of rows.
    They are copied. For a mesh in millimetres that has `vertices` and `faces`:

        stlslice.open_mesh(stlslice.micrometres(part.vertices), part.faces, pitch=50, layer=50)

    The other arguments are those of `open`. If a point of a triangle is missing or out of range, raises a `RangeFault` that
    names the first such triangle, from 0. Raises the faults of `open` for a mesh, a grid and an option.
    """
    corners, indices = _points(points), _triangles(triangles)
    return Mesh("open_mesh", (*corners[1:], *indices[1:]), _options(pitch, layer, rule, grid, "mm", canvas, turn))


def _side_by_side(make: Callable[[int], bytes], layers: range, workers: int) -> Iterator[bytes]:
    """What is made of each layer, in order. A thread makes several small ones at once, since threads take turns in Python. Whatever
    ends the iteration, no thread goes on."""
    from concurrent.futures import ThreadPoolExecutor

    ahead: Deque[Any] = collections.deque()
    several = 1
    with ThreadPoolExecutor(workers) as pool:
        try:
            while layers or ahead:
                while layers and len(ahead) <= 2 * workers:
                    ahead.append(pool.submit(lambda some: [make(k) for k in some], layers[:several]))
                    layers = layers[several:]
                made = ahead.popleft().result()
                yield from made
                several = max(1, min(16, AT_ONCE // len(made[-1])))
        finally:
            for it in ahead:
                it.cancel()


class Mesh:
    """A closed mesh in its grid, with a rule: a sequence of its layers. `open` and `open_mesh` make it.

    `shape` has the counts of layers, rows and columns. `origin` is the grid's corner of least x, y and z, in micrometres.
    `box` has the number and the box of all facets that were read. On a canvas x and y of `origin`, `pitch` and loops are
    multiplied by `times`, so that pixels are squares; else `times` is (1, 1). Layers count from 0 up, or from the top if k is
    negative. Calls that take a layer k, except `probe`, raise `IndexError` if there is none.
    """

    def __init__(self, call: str, source: Tuple[Any, ...], options: _Options) -> None:
        self._handle, shape = _Handle(), _Shape()
        _call(call, *source, options, self._handle, shape)
        corners = shape.corners
        self.pitch, self.layer, self.rule = shape.pitch, shape.layer, get_args(Rule)[options.rule]
        self.times = (shape.times_x, shape.times_y)
        self.shape: Triple = (shape.layers, shape.rows, shape.columns)
        self.origin: Triple = tuple(shape.origin)
        self.box = Box(corners.facets, tuple(corners.low), tuple(corners.high))
        self._header = len(f"P4\n{shape.columns} {shape.rows}\n")
        self._size = self._header + shape.rows * ((shape.columns + 7) // 8)
        self._room = 1 << 16    # for a PNG

    def __enter__(self) -> Mesh:
        return self

    def __exit__(self, *_: object) -> None:
        self.close()

    def __reduce__(self) -> Any:
        raise TypeError("a mesh cannot be copied or pickled: open it again")

    def __repr__(self) -> str:
        layers, rows, columns = self.shape
        return f"<stlslice.Mesh of {layers} layers, {rows} rows, {columns} columns>"

    def __len__(self) -> int:
        return self.shape[0]

    def __getitem__(self, k: Union[int, slice]) -> numpy.ndarray:
        """Layer k as an array of bool, or the layers of a slice as an array of three dimensions."""
        image = None if isinstance(k, slice) else self.image(k)
        import numpy

        _, rows, columns = self.shape
        if isinstance(k, slice):
            layers = range(*k.indices(len(self)))
            stack = numpy.empty((len(layers), rows, columns), bool)
            for mask, layer in zip(stack, layers):
                mask[:] = self[layer]
            return stack
        packed = numpy.frombuffer(image, numpy.uint8, offset=self._header).reshape(rows, -1)
        return numpy.unpackbits(packed, axis=1, count=columns).view(bool)

    def __iter__(self) -> Iterator[numpy.ndarray]:
        """The layers from the lowest up."""
        return map(self.__getitem__, range(len(self)))

    def __array__(self, dtype: Any = None, copy: Optional[bool] = None) -> numpy.ndarray:
        stack = self[:]
        return stack if dtype is None else stack.astype(dtype, copy=False)

    def image(self, k: int) -> bytes:
        """Layer k as the program writes it, in raw PBM."""
        image = (ctypes.c_char * self._size)()
        self._ask("mask", self._layer(k), image, self._size, ctypes.c_size_t())
        return image.raw

    def png(self, k: int, depth: int = 8, mirror_x: bool = False, mirror_y: bool = False) -> bytes:
        """Layer k as a PNG in greyscale, of 8 bits a pixel or 1: filled pixels are white, the others black. Without mirrors
        it is laid out as a mask; `mirror_x` exchanges left and right, and `mirror_y` top and bottom. Raises `RangeFault` for
        another depth."""
        number, bits, mirrors = self._layer(k), _word("depth", depth), (1 if mirror_x else 0) + (2 if mirror_y else 0)
        while True:
            png, wanted = (ctypes.c_char * self._room)(), ctypes.c_size_t()
            if self._ask("png", number, bits, mirrors, png, len(png), wanted):
                return png[:wanted.value]
            self._room = max(self._room, 2 * wanted.value)      # asking for the size alone takes as long as making the PNG

    def pngs(self, depth: int = 8, mirror_x: bool = False, mirror_y: bool = False, workers: int = 1) -> Iterator[bytes]:
        """The PNGs of all layers from the lowest up, as `png` makes them. This many threads make them side by side, for each at
        most two layers ahead of the one that was taken, or 32 small ones. They end with the iterator."""
        if _word("workers", workers) < 1:
            raise RangeFault(OUT_OF_RANGE, "workers is out of its range")
        made = functools.partial(self.png, depth=depth, mirror_x=mirror_x, mirror_y=mirror_y)
        return map(made, range(len(self))) if workers == 1 else _side_by_side(made, range(len(self)), workers)

    def area(self, k: int) -> int:
        """The number of the filled pixels of layer k."""
        pixels = ctypes.c_uint64()
        self._ask("area", self._layer(k), pixels)
        return pixels.value

    def areas(self, rule: Optional[Rule] = None) -> List[int]:
        """The numbers of the filled pixels of all layers, from the lowest up, by the mesh's rule or another. Faster than layer by
        layer."""
        areas = (ctypes.c_uint64 * len(self))()
        self._ask("areas", _choice("rule", rule or self.rule, Rule), 0, areas, len(self))
        return list(areas)

    def loops(self, k: int) -> List[numpy.ndarray]:
        """The loops of layer k: for each the points of a closed polygon, one a row, x and y in half-micrometres. The
        inside of a mesh whose facets face outward is on the left of each step."""
        import numpy

        number, room = self._layer(k), (0, 0)
        while True:
            points, ends = numpy.empty((room[0], 2), numpy.int64), numpy.empty(room[1], numpy.uintp)
            counts = ctypes.c_size_t(), ctypes.c_size_t()
            if self._ask("loops", number, points.ctypes.data, room[0], counts[0], ends.ctypes.data, room[1], counts[1]):
                return numpy.split(points, ends[:-1].astype(int)) if len(ends) else []
            room = counts[0].value, counts[1].value

    def probe(self, i: int, j: int, k: int) -> Tuple[int, int]:
        """The signed crossings of the mesh by the rays along x and y from the centre of a voxel. Raises `RangeFault`
        if the grid has no such voxel."""
        rays = (ctypes.c_int32 * 2)()
        self._ask("probe", _word("column", i), _word("row", j), _word("layer", k), rays)
        return rays[0], rays[1]

    def close(self) -> None:
        """Frees the mesh, if other threads have calls of it when the last of these ends. Calls that then ask the library for a
        layer or a voxel raise `ClosedFault`."""
        self._handle = _Handle()

    def _layer(self, k: Any) -> int:
        number = operator.index(k)
        if not -len(self) <= number < len(self):
            raise IndexError(f"layer {number} of {len(self)}")
        return number % len(self)

    def _ask(self, name: str, *words: Any) -> bool:
        """Whether the library gave what was asked for: not if a buffer was too small. Any other fault is raised."""
        status, line = getattr(_lib, f"stlslice_{name}")(self._handle, *words), ctypes.create_string_buffer(LINE)
        if status not in (DONE, NO_ROOM):
            _lib.stlslice_fault_text(status, line, LINE)
            _raise(status, line)
        return bool(status == DONE)
