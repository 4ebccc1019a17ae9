"""A part on a printer's screen: how it is placed there, and its layers as PNGs, of which one at a time is held in memory."""

from functools import partial

from stlslice.images import joined

from .faults import Progress, Refused, finish, in_mm, refuse_if, say
from .parts import OPEN, Part


class Sliced:
    """A part on a screen: how many layers it has, and their images."""

    def __init__(self, given):
        self.given, self.part, self.lit = given, Part(given), 0
        self.meshes = self.placed()
        self.layers = len(self.meshes[0])
        self.areas = self.areas_of_lit()

    def placed(self):
        """The meshes of the part on the screen. It is turned by a quarter for a screen in portrait, and by one more if that was
        asked for. A part that doesn't fit so is refused."""
        given, usual = self.given, 1 if self.given.printer and self.given.printer.is_portrait else 0
        how = dict(canvas=given.canvas, pitch=given.pitch, layer=given.layer, rule=given.rule)
        turns = {None: [0], "": [1], "auto": [0, 1]}[given.turn]
        for more in turns:
            try:
                meshes = self.part.open(turn=usual + more, **how)
            except Refused as fault:
                if fault.status == OPEN:
                    self.ask_for_unit()
                raise
            if more == turns[0]:
                self.ask_for_unit()
            if meshes and not (given.height and self.part.size[2] > given.height):
                if more and given.turn == "auto":
                    say("the part is turned by a quarter: it fits only so")
                return meshes
        self.refuse_large(usual, given.turn == "")

    def ask_for_unit(self):
        """Asks for the unit of a part that is very small or very large, also if it is open or doesn't fit."""
        length = max(self.part.size)
        if self.part.unit and not 1000 <= length <= 1_000_000:
            say(f"the part is {in_mm(self.part.size)} mm: is {self.part.unit} the unit of its numbers? --unit takes mm, cm, m or inch")

    def refuse_large(self, usual, more):
        given, size = self.given, self.part.size
        sides = [count * pitch for count, pitch in zip(given.canvas, given.pitch)]
        # along the sides of the part, if it is turned by an even or an odd number of quarters
        rooms = [it + ([given.height] if given.height else []) for it in (sides, sides[::-1])]
        screen = f"the {given.printer.model}" if given.printer else "the canvas"
        line = f"the part doesn't fit: it is {in_mm(size)} mm, {screen} {in_mm(rooms[usual])} mm"
        if all(length <= room for length, room in zip(size, rooms[(usual + 1 - more) % 2])):
            line += "; it fits without --turn" if more else "; turned by a quarter it fits: --turn"
        elif more:
            line += "; turned by a quarter it doesn't fit either"
        raise Refused(line)

    def areas_of_lit(self):
        """How many pixels of each mesh's layers are lit. A part of which none is lit is refused."""
        Progress.show("slicing", is_new=True)
        rule, count = self.given.rule, len(self.meshes)
        other = {"positive": "nonzero", "nonzero": "positive" if count > 1 else None}.get(rule)
        found = self.part.asked(*(partial(mesh.areas, it) for it in (rule, other) if it for mesh in self.meshes))
        pixels, by_other = list(map(sum, found[:count])), list(map(sum, found[count:]))
        self.part.refuse_dark(pixels, rule)
        # What `nonzero` lights and `positive` doesn't is enclosed more often inwards than outwards. Images of several meshes
        # can't be joined then, since an overlap with another mesh may be dark.
        if other and pixels != by_other:
            refuse_if(count > 1, "a shell is inside out, or bounds a hollow: --shells joins such shells by --rule evenodd alone")
            say(f"a shell is inside out somewhere: {self.millilitres(*pixels):.3f} ml by --rule positive, "
                f"{self.millilitres(*by_other):.3f} ml by --rule nonzero; look at the layers")
        return found[:count]

    def pngs(self):
        """Each layer as a PNG and how many of its pixels are lit, the lowest first."""
        given = self.given
        streams = zip(*(mesh.pngs(given.depth, given.mirror_x, given.mirror_y, given.workers) for mesh in self.meshes))
        layers = (joined(pngs, areas, given.rule) for pngs, areas in zip(streams, zip(*self.areas)))
        for png, lit in Progress.through(layers, self.layers):
            self.lit += lit
            yield png, lit

    def millilitres(self, pixels):
        width, depth = self.given.pitch
        return float(pixels * width * depth * self.given.layer / 10 ** 12)

    def finish(self, file=None, **more):
        """Writes the last line, and what goes to standard output."""
        volume = self.millilitres(self.lit)
        line = f"{in_mm(self.part.size)} mm, {volume:.3f} ml, {self.layers} layers"
        finish(self.given, line, file, self.layers, self.part.size, volume, **more)
