"""OBJ and 3MF as the commands read them: the points and triangles that they mean, what is refused, hostile files within
little time and memory, and the converting lines of other formats."""

import io
import json
import os
import random
import re
import struct
import sys
import traceback
import zipfile
from decimal import Decimal

from as_installed import MEASURED, PAGE, PNGS, SL1
from common import BRACKET, Case, bytes_of, example, name_of, needs, same
from measure import exit_status
from parts import FACES, SIDES, binary, box, formats, lines, obj, points, text

import stlslice
from stlslice import _exact, obj as objs, threemf
from stlslice_commands import sl1, slicing  # noqa: F401, read here once, and not in each run that is forked off

SCREEN = ["--canvas", "160x120", "--pitch", "250", "--layer", "500"]
CORNER = '<vertex x="%s" y="%s" z="%s"/>'
LOW, HIGH = (0, 0, 0), (10, 20, 30)
RELATIONSHIPS = ('<Relationships xmlns="http://schemas.openxmlformats.org/package/2006/relationships">'
                 f'<Relationship Target="/3D/3dmodel.model" Id="r" Type="{threemf.MODEL}"/></Relationships>')


def mesh(low, high):
    return ("<mesh><vertices>" + lines(CORNER, points(low, high)) + "</vertices><triangles>"
            + lines('<triangle v1="%d" v2="%d" v3="%d"/>', FACES) + "</triangles></mesh>")


def placed(transform, number=1, kind="item"):
    """An object where a transform puts it, as an item or a component."""
    return f'<{kind} objectid="{number}" transform="{transform}"/>'


def moved_by(x):
    return f"1 0 0 0 1 0 0 0 1 {x} 0 0"


def holding(number, components):
    return f'<object id="{number}"><components>{components}</components></object>'


MESH = mesh(LOW, HIGH)
BOX = f'<object id="1">{MESH}</object>'
VERTEX = CORNER % (1, 2, 3)
TRIANGLE = '<triangle v1="0" v2="1" v3="2"/>'


def model(objects=BOX, items='<item objectid="1"/>', words="", head=""):
    return (f'<?xml version="1.0"?>{head}<model {words} xmlns="{threemf.CORE.strip()}"><resources>{objects}</resources>'
            f"<build>{items}</build></model>")


def zip_of(entries):
    file = io.BytesIO()
    with zipfile.ZipFile(file, "w", zipfile.ZIP_DEFLATED, compresslevel=9) as archive:
        for name, body in entries:
            archive.writestr(name, body)
    return file.getvalue()


def packed(body, *more):
    return zip_of([("[Content_Types].xml", "<x/>"), ("_rels/.rels", RELATIONSHIPS), ("3D/3dmodel.model", body), *more])


def box_of(found):
    """The least and greatest corner of what was read, its facets, and six times its volume."""
    places, corners = found
    sides = [places[k::3] for k in range(3)]
    triangles = [[tuple(places[3 * at:3 * at + 3]) for at in corners[k:k + 3]] for k in range(0, len(corners), 3)]
    volume = sum(_exact.dot(_exact.cross(a, b), c) for a, b, c in triangles)
    return [min(side) for side in sides], [max(side) for side in sides], len(triangles), volume


def read_obj(body, unit="mm"):
    return objs.read_obj(body.encode(), unit)


def read_3mf(body, *more):
    return threemf.read_3mf(body if isinstance(body, bytes) else packed(body, *more))


def refusal(read, *words):
    """What isn't taken, or is refused, in a line; or an empty text."""
    try:
        read(*words)
    except stlslice.Fault as fault:
        return f"{type(fault).__name__}: {fault}"
    return ""


class Objs(Case):
    def test_a_box_of_squares_or_triangles_in_each_unit(self):
        for faces in (SIDES, FACES):
            for unit, times in (("mm", 1), ("cm", 10), ("m", 1000), ("inch", 25.4)):
                found = box_of(read_obj(obj((0, "-0.5", "1e-1"), (1, ".25", "+2"), faces), unit))
                low, high = ([round(1000 * x * times) for x in corner] for corner in ((0, -0.5, 0.1), (1, 0.25, 2)))
                volume = 6 * (high[0] - low[0]) * (high[1] - low[1]) * (high[2] - low[2])
                same(found, (low, high, 12, volume), unit)

    def test_numbers_are_rounded_as_by_the_module(self):
        draw = random.Random(9)
        for unit in ("mm", "cm", "m", "inch"):
            words = [f"{draw.choice(('', '-'))}{draw.randrange(100)}.{draw.randrange(10 ** 8):08}{draw.choice(('', '5'))}"
                     for _ in range(294)] + ["0.0005", "-0.0005", "0.00049999", "-1.0005", "5e-4", "-5e-8"]
            rows = [words[k:k + 3] for k in range(0, len(words), 3)]
            wanted = stlslice.micrometres([list(map(Decimal, row)) for row in rows], unit)
            same(list(read_obj(lines("v %s %s %s\n", rows), unit)[0]), [it for row in wanted for it in row], unit)

    def test_transforms_are_rounded_as_by_the_module(self):
        def moved(by, at):
            return [sum(at[j] * by[3 * j + k] for j in range(3)) + by[9 + k] for k in range(3)]

        draw = random.Random(10)
        for unit, times in threemf.UNITS.items():
            inner, outer = ([Decimal(draw.randrange(-2000, 2001)) / 2000 for _ in range(12)] for _ in range(2))
            corners = [[Decimal(draw.randrange(-10000, 10001)) / 2000 for _ in range(3)] for _ in range(90)]
            body = f"<mesh><vertices>{lines(CORNER, corners)}</vertices><triangles>{TRIANGLE}</triangles></mesh>"
            words = [" ".join(map(str, it)) for it in (inner, outer)]
            twice = f'<object id="1">{body}</object>' + holding(2, placed(words[0], kind="component"))
            found = read_3mf(model(twice, placed(words[1], 2), f'unit="{unit}"'))[0]
            exact = [[it * times / 1000 for it in moved(outer, moved(inner, at))] for at in corners]
            same(list(found), [it for row in stlslice.micrometres(exact) for it in row], unit)

    def test_lines_end_in_each_way_and_a_mark_is_passed(self):
        for body in ("\ufeffv 1 2 3\nv 4 5 6\r\nv 7 8 9\nf 1 2 3", "v 1 2 3\rv 4 5 6\rv 7 8 9\rf 1 2 3\r"):
            same([list(it) for it in read_obj(body)], [list(range(1000, 10000, 1000)), [0, 1, 2]], repr(body))
        same(refusal(read_obj, "v 1 2 3\r\rw"), "FormatFault: line 3 of the OBJ: 'w' isn't taken", "its line")

    def test_each_form_of_a_face(self):
        square = ("v 0 0 0\nv 1 0 0 1\nv 1 1 0 0.5 0.5 0.5 # a colour\n\n  v 0 1 0\r\n"
                  "vt 0 0\nvn 0 0 1\ng a\nusemtl b\ns off\no c\n")
        for face in ("1 2 3 4", "1/1 2/1 3/1 4/1", "1//1 2//1 3//1 4//1", "1/1/1 2/1/1 3/1/1 4/1/1", "-4 -3 -2 -1",
                     "-4/-1/-1 2 3/1 -1//-1", "1 2 \\\n 3 4", "1 2 3 4 # 5", "1 2 3 4\n\\\n"):
            same(list(read_obj(f"{square}f {face}")[1]), [0, 1, 2, 0, 2, 3], face)
        same(list(read_obj(f"{square}f -2 -1 -4\nv 5 5 5\nf -1 1 2\nl 1 2\np 1")[1]), [2, 3, 0, 4, 0, 1], "from the end")

    def test_polygons_are_flat_and_convex_or_not_taken(self):
        a, b, c, d = flat = (0, 0, 0), (4, 0, 0), (4, 4, 0), (0, 4, 0)
        star = [(9, 0, 0), (-7.28115, 5.29007, 0), (2.78115, -8.55951, 0), (2.78115, 8.55951, 0), (-7.28115, -5.29007, 0)]
        taken = {"flat": flat, "a corner within an edge": (a, (2, 0, 0), b, c, d),
                 "4 micrometres off": (a, b, (4, 4, 0.004), d), "an edge 3 micrometres off": (a, (2, 0.003, 0), b, c, d)}
        odd = ((a, b, (4, 4, 0.02), d), (a, b, (1, 1, 0), d), (d, a, b, (1, 1, 0)), (a, c, b, d), star,
               [(k, k, k) for k in range(4)], (a, (2, 0.02, 0), b, c, d))

        def polygon(corners):
            face = " ".join(str(k + 1) for k in range(len(corners)))
            return refusal(read_obj, lines("v %s %s %s\n", corners) + f"f {face}")

        for what, corners in taken.items():
            same(polygon(corners), "", what)
        for corners in odd:
            line = f"FormatFault: line {len(corners) + 1} of the OBJ: a face isn't flat and convex"
            same(polygon(corners), line, str(corners))

    def test_what_is_wrong_is_told_with_its_line(self):
        for body, line in (("v 0 0", "1 of the OBJ: v has fewer than three numbers"),
                           ("\nv 0 0 x", "2 of the OBJ: 'x' is not a number"),
                           ("v 0 0 128001", "1 of the OBJ: '128001' is out of range"),
                           ("v 0 0 " + "0" * 256, "1 of the OBJ: '00000000000000000000' is too long"),
                           ("v 0 0 0\nf 1 1", "2 of the OBJ: a face has fewer than three corners"),
                           ("#" + 2 ** 18 * " ", "1 of the OBJ has more than 262,144 bytes"),
                           (2 ** 16 * "v \\\n" + "\n", "65,537 of the OBJ has more than 262,144 bytes"),
                           ("v 0 0 0\nf" + 10_001 * " 1", "2 of the OBJ: a face has more than 10,000 corners"),
                           *((f"v 0 0 0\nf 1 1 {at}", f"2 of the OBJ: there is no point '{at}'")
                             for at in ("2", "0", "-2", "+1", "1.5", "x", "1_0", "1/x", "\u0661"))):
            same(refusal(read_obj, body), f"Fault: line {line}", body[:40])
        same(refusal(read_obj, "v 0 0 0\ncurv 0 1 1"), "FormatFault: line 2 of the OBJ: 'curv' isn't taken", "a curve")


class ThreeMfs(Case):
    def test_units(self):
        for unit, times in (("micron", 1), ("millimeter", 1000), ("centimeter", 10_000), ("inch", 25_400), ("foot", 304_800),
                            ("meter", 1_000_000)):
            body = model(f'<object id="1">{mesh((0, "-.5", 0), (1, 2, " 3e0 "))}</object>', words=f'unit="{unit}"')
            low = -(-times // 2) if times > 1 else 1
            same(box_of(read_3mf(body))[:3], ([0, -low, 0], [times, 2 * times, 3 * times], 12), unit)
        same(box_of(read_3mf(model()))[1], [10_000, 20_000, 30_000], "millimetres if it says nothing")

    def test_transforms_are_exact_and_rounded_once(self):
        volume = 6 * 10_000 * 20_000 * 30_000
        for transform, low, high in (("1 0 0 0 1 0 0 0 1 -5 2.0005 -0.0005", [-5000, 2001, -1], [5000, 22001, 30_000]),
                ("0 1 0 -1 0 0 0 0 1 0 0 0", [-20_000, 0, 0], [0, 10_000, 30_000]),
                ("-1 0 0 0 1 0 0 0 1 0 0 0", [-10_000, 0, 0], [0, 20_000, 30_000]),
                ("1 0 0 0 1 0 0 0 -1 0 0 30", [0, 0, 0], [10_000, 20_000, 30_000]),
                ("2 0 0 0 0.5 0 0 0 1 1e-3 0 0", [1, 0, 0], [20_001, 10_000, 30_000])):
            found = box_of(read_3mf(model(items=placed(transform))))
            same(found[:3], (low, high, 12), transform)
            assert abs(found[3] - volume) < volume // 1000, f"{transform}: not as seen from outside"
        # the half of a micrometre that two transforms make together, neither of which alone has one
        body = model(BOX + holding(2, placed(moved_by(0.00025), 1, "component")), placed(moved_by(0.00025), 2))
        same(box_of(read_3mf(body))[0], [1, 0, 0], "two transforms")

    def test_components_and_items_are_placed_each(self):
        twice = '<component objectid="1"/>' + placed(moved_by(100), 1, "component")
        items = placed("0 1 0 -1 0 0 0 0 1 0 0 0", 2) + '<item objectid="1" printable="0"/><item objectid="1"/>'
        found = box_of(read_3mf(model(BOX + holding(2, twice), items)))
        same(found[:3], ([-20_000, 0, 0], [10_000, 110_000, 30_000], 36), "three boxes")

    def test_what_another_tool_may_take(self):
        configs = [(threemf.CONFIGS[0], bytes(threemf.BLOCK - 5) + it) for it in threemf.NO_BODY]
        surface = model(f'<object id="1" type="surface">{MESH}</object>')
        for (body, *more), line in (([model(words='requiredextensions="p"')], "needs the extensions 'p'"),
                ([surface], "builds an object of the type 'surface'"),
                ([model(items='<item p:path="/3D/a.model" objectid="1"/>', words='xmlns:p="p"')], "builds an object of another model file"),
                *(([model(), it], "has volumes that are none of the part, such as modifiers") for it in configs)):
            same(refusal(read_3mf, body, *more), f"FormatFault: the 3MF {line}", str(more))

    def test_what_is_wrong_is_told(self):
        def changed(old, new):
            return model(BOX.replace(old, new, 1))

        for body, line in ((changed('v1="0"', 'v1="8"'), "object 1 has a triangle with a point that it hasn't"),
                (changed("<vertices>", f"<vertices>{129 * VERTEX}"),
                 "object 1 has 137 points, more than its triangles can have"),
                (changed(' z="0"', ""), "z is missing"), (changed('x="10"', 'x="nan"'), "'nan' is not a number"),
                *((changed('v1="0"', f'v1="{at}"'), "a triangle has an index that is no number")
                  for at in ("1_0", "+1", "-1", "\u0661", "1 2", "", " ")),
                *((changed('x="10"', f'x="{blank}"'), "a vertex has a coordinate that is not a number of at most 40 bytes")
                  for blank in ("", " ", "1 2")),
                (model(words='unit=""'), "there is no unit ''"),
                *((model(items=placed(it)), threemf.NO_TRANSFORM) for it in ("", "1 0 0", " " * 641)),
                (model(items=placed("1 0 0 0 1 0 0 0 1 0 0 0", "")), "there is no object '' before what refers to it"),
                (changed('id="1"', 'id="1&#10;"'), "an object's id is no number, but '1\\n'"),
                *((changed('x="10"', f'x="{far}"'), "object 1 reaches beyond 128 m from the origin")
                  for far in ("1e300", "-1e9999999999999999999999")),
                (model(words='unit="furlong"'), "there is no unit 'furlong'"),
                (changed('x="10"', 'x="128000.0005"'), "object 1 reaches beyond 128 m from the origin"),
                (model(items=placed("1 0 0 0 1 0 0 0 0 0 0 0")), "a transform makes an object flat"),
                (model(items='<item objectid="2"/>'), "there is no object '2' before what refers to it"),
                (model(holding(1, '<component objectid="1"/>')), "there is no object '1' before what refers to it"),
                (model(2 * BOX), "object 1 stands twice, or in another"), (model(MESH), "it has a vertex outside an object"),
                ("<model/>", "its model is none of the core specification 1"),
                (model(head="<!DOCTYPE a>"), "its XML has a document type"),
                (model().replace("?>", ' encoding="none"?>', 1), "unknown encoding: none"),
                (packed(model())[:300], "it is cut, or no zip")):
            same(refusal(read_3mf, body), f"Fault: the 3MF can't be read: {line}", line)


def each_holding(count, last, transform=threemf.IDENTITY, first=2):
    """Objects that each hold the one before, so many times."""
    return "".join(holding(k, count * placed(transform, k - 1, "component")) for k in range(first, last + 1))


def hostile_models():
    entities = "".join(f'<!ENTITY a{k} "{10 * f"&a{k - 1};"}">' for k in range(1, 12))
    yield "entities", model(head=f'<!DOCTYPE x [<!ENTITY a0 "ha">{entities}]>')
    for count in (2, 1000):
        many = each_holding(count, 14)
        yield f"components by {count}", model(BOX + many, '<item objectid="14"/>')
        yield f"empty components by {count}", model('<object id="1"/>' + many, '<item objectid="14"/>')
    yield "components in each other", model(BOX + each_holding(1, 2999), '<item objectid="2999"/>')
    long = " 0 0 0 ".join(3 * ["1." + 30 * "7"]) + " 0 0 0"
    yield "long numbers of transforms", model(BOX + each_holding(1, 14, long), '<item objectid="14"/>')
    for number in ("1e295", "1", "1.00000000001"):
        grown = f"{number} 0e-75 0 0 {number} 0 0 0 {number} 0 0 0"
        many = holding(2, 9000 * placed(grown, 1, "component")) + each_holding(1, 14, grown, 3)
        yield f"transforms of {number}", model('<object id="1"/>' + many, '<item objectid="14"/>')
    draw, numbers = random.Random(3), [(k,) for k in range(250_000)]
    moved = lines('<component objectid="1" transform="1 0 0 0 1 0 0 0 1 0 0 %d"/>', numbers[:10_000])
    yield "objects that are not built", model('<object id="1"/>' + "".join(holding(k, moved) for k in range(2, 9)))
    noise = 2 * f"<!--{''.join(map(chr, draw.choices(range(65, 91), k=190_000)))}-->"  # much else is allowed beside it
    for name, filling in (("types", lines(f'<object id="%d" type="{900 * "x"}"/>', numbers[:10_000])),
                          ("attributes of each", 1200 * (f'<a xmlns:p="{290 * "u"}"' + lines(' p:a%d=""', numbers[:900]) + "/>")),
                          ("namespaces of each", 1200 * ("<a" + lines(' xmlns:p%d="x"', numbers[:500]) + "/>"))):
        yield name, model(noise + filling)
    for name, filling in (("spaces", " " * (15 << 20)), ("a comment", f"<!--{'x' * (15 << 20)}-->"),
                          ("elements", "<a>" * (5 << 20)), ("a name", f"<{'x' * (15 << 20)}/>"), ("spaces beyond", " " * (1 << 25)),
                          ("empty elements", "".join(draw.choices(("<a/>", "<b/>"), k=1_000_000))), ("names", lines("<a%d/>", numbers)),
                          ("namespaces", lines('<a xmlns:p%d="x"/>', numbers)), ("attributes", "<a" + lines(' p%d=""', numbers) + "/>")):
        yield name, model().replace("<resources>", "<resources>" + filling)
    yield "a long namespace", model(words=f'xmlns:a="{200_000 * "x"}"').replace("<resources>", "<resources>" + 5000 * "<a:b/>")
    yield "items", model(items=500_000 * '<item objectid="1"/>')
    for name, number in (("decimals", "%de-149"), ("powers", "%de295"), ("far", "%de50"), ("zeros", 200 * "0" + "%d")):
        cloud = lines(CORNER, zip(*[(number % draw.randrange(100) for _ in range(90_000))] * 3))
        yield name, model(f'<object id="1"><mesh><vertices>{cloud}</vertices><triangles>{30_000 * TRIANGLE}</triangles></mesh></object>')
    yield "empty objects", model(lines('<object id="%s"/>', [(k,) for k in range(100_000)]))
    for count, faces, items in ((30_000, 10_000, 12), (12_000, 12_000, 85), (3000, 1000, 180), (150_000, 0, 1), (50_000, 0, 1000)):
        often = f"<mesh><vertices>{count * VERTEX}</vertices><triangles>{faces * TRIANGLE}</triangles></mesh>"
        yield f"{count} points {items} times", model(f'<object id="1">{often}</object>', items * placed(moved_by(1)))


def hostile_files():
    for name, body in hostile_models():
        yield name, packed(body)
    yield "backslashes", b"v 0 0 0\n" + b"\\\n" * 400_000
    yield "returns", b"# x\r" + b"g\r" * 1_000_000
    yield "words", 2 * (b"g" + b" aa" * 300_000 + b"\n")
    yield "a face", b"v 0 0 0\nf" + b" 1" * 500_000
    yield "entries", zip_of([("_rels/.rels", RELATIONSHIPS), *((str(k), "") for k in range(60_000))])
    whole = packed(model())
    at, end = whole.rfind(b"PK\1\2"), whole.rfind(b"PK\5\6")
    for field, size in ((20, (1 << 32) - 2), (24, 1 << 31)):
        yield f"a size that lies, at {field}", whole[:at + field] + struct.pack("<I", size) + whole[at + field + 4:]
    beyond = whole[at:at + 30] + struct.pack("<H", 12) + whole[at + 32:at + 42] + b"\xff" * 4 + whole[at + 46:end]
    far = whole[:at] + beyond + struct.pack("<HHQ", 1, 8, (1 << 64) - 1) + whole[end:]
    yield "an entry beyond the file", far[:-10] + struct.pack("<I", len(far) - 22 - whole.find(b"PK\1\2")) + far[-6:]
    whole = packed(model(), (threemf.CONFIGS[0], bytes(1 << 28)))
    at = whole.rfind(b"PK\1\2")
    yield "settings whose size lies", whole[:at + 24] + struct.pack("<I", 100) + whole[at + 28:]
    yield "settings", packed(model(), *((name, "e" * (threemf.CONFIG - 1)) for name in threemf.CONFIGS))


def mutated(draw, body):
    """The bytes with some of them changed, left out, said again or replaced, and values of XML made empty or blank."""
    body = bytearray(body)
    for _ in range(draw.choice((1, 1, 2, 5))):
        at = draw.randrange(len(body))
        change, values = draw.randrange(5), list(re.finditer(rb'"([^"]*)"', body))
        if change == 0:
            body[at] = draw.randrange(256)
        elif change == 1:
            del body[at:at + draw.choice((1, 3, 40))]
        elif change == 2:
            other = draw.randrange(len(body))
            body[at:at] = bytes(body[other:other + draw.choice((1, 3, 40))])
        elif change == 3 and values:
            value = draw.choice(values)
            body[value.start(1):value.end(1)] = draw.choice((b"", b" ", b"\t\n"))
        else:
            body[at:at + 1] = draw.choice((b"-", b"9", b"/", b'"', b"<", b"e9", b"\0", b" "))
        body = body or bytearray(b"v")
    return bytes(body)


def forked(room, *words):
    """Status and standard error of stlslice-sl1 in a copy of this process, which saves the start of a Python for each run."""
    fault = room.file("../fault")
    child = os.fork()
    if child == 0:
        try:
            os.chdir(room.path)
            sys.argv, sys.stdout, sys.stderr = ["stlslice-sl1", *words], open(os.devnull, "w"), open(fault, "w")
            sl1.run()
        except BaseException:
            traceback.print_exc()
        finally:
            sys.stderr.flush()
            os._exit(99)
    status = exit_status(os.waitpid(child, 0)[1])
    with open(fault) as said:
        return status, said.read()


class Readers(Case):
    def test_they_take_files_and_tell_how_far_they_are(self):
        for read, body, told in ((objs.read_obj, obj(LOW, HIGH).encode() + 4100 * b"\ng x", "line 4,096"),
                                 (threemf.read_3mf, packed(model()), "0 MB")):
            path, lines = self.room.put("part", body), []
            with open(path, "rb") as file:
                found = [read(it, progress=lines.append) for it in (body, path, file)]
            same((found, lines), ([read(body)] * 3, [told] * 3), "of bytes, a path and a file, and how far it is")
            with self.assertRaisesRegex(ValueError, "the caller's"):
                read(body, progress=lambda it: int("the caller's"))

    def test_a_3mf_has_at_most_so_many_facets(self):
        boxes = packed(model(items=3 * placed(moved_by(1))))
        same(len(threemf.read_3mf(boxes, most=3 * (threemf.PLACED + 12))[1]), 3 * 36, "corners of triangles")
        with self.assertRaisesRegex(stlslice.Fault, "more than 335 facets"):
            threemf.read_3mf(boxes, most=3 * (threemf.PLACED + 12) - 1)


class HostileFiles(Case):
    def test_they_take_at_most_40_megabytes_and_two_seconds(self):
        for name, body in hostile_files():
            more = ["--shells"] * ("times" in name)
            words = [SL1, *SCREEN, "--workers", "1", *more, self.room.put("part", body), self.room.file("out.sl1")]
            for _ in range(3):  # what else the machine does makes runs longer
                ran = self.room.run(sys.executable, "-c", MEASURED, *words)
                seconds, memory = map(float, ran.out.split()[-2:])
                assert ran.status in (1, 3) and ran.fault.count("\n") == 1 or name in ("spaces", "settings"), f"{name}: {ran}"
                if seconds < 2:
                    break
            assert seconds < 2 and memory < 40 << 10, f"{name}: {seconds} s, {memory} KiB"

    def test_mutated_files_are_taken_or_refused_in_one_line(self):
        """By stlslice-sl1: an archive, or a line and a status of the commands, and no file is left."""
        draw, taken, room = random.Random(7), {}, self.room
        bodies = {"3mf": packed(model()), "obj": obj(LOW, HIGH).encode(), "xml": model().encode(), "stl": binary(box(LOW, HIGH))}
        for number in range(800):
            kind = sorted(bodies)[number % 4]
            body = mutated(draw, bodies[kind])
            room.put("part", packed(body) if kind == "xml" else body)
            status, said = forked(room, *SCREEN, "--workers", "1", "part", "out.sl1")
            if status == 0:
                with zipfile.ZipFile(room.file("out.sl1")) as archive:
                    taken[kind] = taken.get(kind, 0) + sum(name.endswith(".png") for name in archive.namelist())
                os.remove(room.file("out.sl1"))
            wanted = "" if status == 0 else r"stlslice(-sl1)?: .{5,500}\n"
            assert status in range(6) and re.fullmatch(wanted, said), f"{number}: {status}, {said}"
            same(room.files(), ["part"], f"{number}: files")
        assert len(taken) == 4 and min(taken.values()) > 60, f"layers of those that were taken: {taken}"


class Commands(Case):
    def setUp(self):
        super().setUp()
        self.room.environment["SOURCE_DATE_EPOCH"] = "1700000000"

    def archive(self, *words, **how):
        told, body = self.room.out(SL1, *SCREEN, *words, "out.sl1", cwd=self.room.path, **how), self.room.get("out.sl1")
        os.remove(self.room.file("out.sl1"))
        return told, body

    def refused(self, status, line, *words):
        self.room.refused(status, line, SL1, *SCREEN, *words, "out.sl1", cwd=self.room.path)

    def stl(self):
        self.room.put("part.stl", text(box(LOW, HIGH)))
        wanted = self.archive("part.stl")
        os.remove(self.room.file("part.stl"))
        return wanted

    def test_archives_are_those_of_the_same_part_as_stl(self):
        wanted = self.stl()
        self.room.put("part.obj", obj(LOW, HIGH))
        self.room.put("inch.obj", obj(LOW, ("0.393700787", "0.787401575", "1.181102362")))
        packed_part = self.room.put("part.3mf", packed(model()))
        for words in (["part.obj"], ["part.3mf"], ["--shells", "part.3mf"], ["--unit", "inch", "inch.obj"]):
            same(self.archive(*words), wanted, f"archive of {words}")
        same(self.archive("-", path=packed_part), wanted, "archive of standard input")
        for name in ("part.obj", "part.3mf"):
            told = self.room.out(PAGE, "--pitch", "250", "--layer", "500", name, "page.html", cwd=self.room.path)
            assert "60 layers, 6.000 ml" in told, told
        self.refused(2, "%s: a 3MF has a unit of its own: leave out --unit", "--unit", "inch", "part.3mf")
        self.room.put("small.3mf", packed(model(words='unit="micron"')))
        self.refused(1, "%s: no pixel is lit by --rule positive: is the part inside out (try --rule nonzero)? "
                     "It is 0.010 x 0.020 x 0.030 mm", "small.3mf")

    def test_faults_are_told_with_the_command_that_converts(self):
        self.room.put("part.obj", "v 0 0 0\ncurv 0 1 1\n")
        self.room.put("part.3mf", packed(model(words='requiredextensions="p"')))
        self.room.put("open.obj", obj(LOW, HIGH, FACES[1:]))
        for status, name, line in (
                (3, "part.obj", "%s: line 2 of the OBJ: 'curv' isn't taken; convert it: assimp export part.obj part.stl"),
                (3, "part.3mf",
                 "%s: the 3MF needs the extensions 'p'; convert it: prusa-slicer --export-stl --output part.stl part.3mf"),
                (4, "open.obj", "stlslice: open edge 0 0 0 to 0 20000 0 there 0 back 1")):
            self.refused(status, line, name)

    def test_amf_and_off_are_told_with_a_line_that_works(self):
        wanted, corners = self.stl(), points(LOW, HIGH)
        off = formats(LOW, HIGH)["off"]
        amf = ('<amf unit="millimeter"><object id="0"><mesh><vertices>'
               + lines("<vertex><coordinates><x>%d</x><y>%d</y><z>%d</z></coordinates></vertex>", corners)
               + "</vertices><volume>" + lines("<triangle><v1>%d</v1><v2>%d</v2><v3>%d</v3></triangle>", FACES)
               + "</volume></mesh></object></amf>\n")
        for kind, body in (("OFF", off), ("OFF", "# by a tool\n" + off), ("OFF", "\n \n" + off), ("AMF", amf),
                           ("AMF", f'<?xml version="1.0" encoding="UTF-8"?>\n<!-- by a tool -->\n{amf}')):
            name = f"part.{kind.lower()}"
            self.room.put(name, body)
            command = f"assimp export {name} part.stl"
            self.refused(3, f"%s: the part is {kind}, not STL; convert it: {command}", name)
            if not self.lacks(f"converting {kind}", "assimp"):
                self.room.done("bash", "-c", command, cwd=self.room.path)
                same(self.archive("part.stl"), wanted, f"archive of {kind}")
                os.remove(self.room.file("part.stl"))

    @needs("prusa-slicer")
    def test_a_3mf_of_prusaslicer_is_its_stl(self):
        """Two parts that it arranged on a plate, beside the same as STL, which it rounds to single precision."""
        told = []
        for kind in ("3mf", "stl"):
            words = ["--merge", f"--export-{kind}", "--output", f"plate.{kind}"]
            words += map(example, ("bracket.stl", "calibration_block.stl"))
            self.room.done("prusa-slicer", *words, cwd=self.room.path)
            told.append(json.loads(self.archive("--json", "--canvas", "400x400", f"plate.{kind}")[0]))
        (*found, volume), (*wanted, volume_there) = ([it[key] for key in ("layers", "size", "millilitres")] for it in told)
        same(found, wanted, "layers and size")
        assert abs(volume - volume_there) <= volume_there / 1000, f"{volume} ml, {volume_there} ml"

    def test_json_says_what_the_plain_line_says(self):
        for command, keys in ((SL1, ["seconds"]), (PNGS, []), (PAGE, ["bytes"])):
            name, out = name_of(command), f"out of {name_of(command)}\u00e4"
            words = [command, "--pitch", "200", "--layer", "500", "--canvas", "300x200"]
            plain = self.room.out(*words, BRACKET, out + "2", cwd=self.room.path)
            line = self.room.out(*words, "--json", BRACKET, out, cwd=self.room.path)
            told = json.loads(line)
            same((line.count("\n"), list(told), told["output"]), (1, ["output", "layers", "size", "millilitres", *keys], out), name)
            shown = [f"{told['millilitres']:.3f} ml", f"{told['layers']} layers"]
            shown += [" x ".join(f"{side:.3f}" for side in told["size"]) + " mm"] if command != PAGE else []
            assert all(it in plain for it in shown), f"{name}: {plain}, and not {shown}"
            if command == SL1:
                with zipfile.ZipFile(self.room.file(out)) as archive:
                    time_there = re.search(r"printTime = (\S+)", archive.read("config.ini").decode())[1]
                assert abs(float(time_there) - told["seconds"]) <= 0.1, f"{time_there} s, {told['seconds']} s"
            elif command == PAGE:
                same(len(bytes_of(self.room.file(out))), told["bytes"], "bytes of the page")
