// Lines of `stlslice-sl1` for what page and worker refuse or warn of too, in its words. `size` is the part's, in micrometres.

const REFUSED = 1, NO_STL = 3; // statuses
const RULES = ["evenodd", "nonzero", "positive"], UNITS = ["mm", "inch", "cm", "m"];
const MOST_UNIT = 1; // that the program itself takes
const NOTHING_LEFT = "no facet is left", NO_FACETS = "the part has no facets"; // the program's line, and the command's
const MANY_FACETS = "a mesh has at most 1,048,576 facets; --shells slices a larger part in groups of shells, if it has several";

const in_mm = (lengths) => lengths.map((it) => fixed(it / 1000, 3)).join(" x ");
const size_between = ({ low, high }) => high.map((it, axis) => it - low[axis]);

// Whether the unit is asked for, since a part is mostly larger or smaller.
const is_odd = (size) => Math.max(...size) < 1000 || Math.max(...size) > 1e6;
const unit_line = (size, unit) =>
    `the part is ${in_mm(size)} mm: is ${UNITS[unit]} the unit of its numbers? --unit takes mm, cm, m or inch`;
const unlit_line = (size, rule, unit) => `no pixel is lit by --rule ${RULES[rule]}: is the part inside out (try --rule nonzero), `
    + `or its unit another than ${UNITS[unit]}? It is ${in_mm(size)} mm`;
const inside_out_line = (positive, nonzero) => `a shell is inside out somewhere: ${fixed(positive, 3)} ml by --rule positive, `
    + `${fixed(nonzero, 3)} ml by --rule nonzero; look at the layers`;

// Of a part that is larger than the screen, or higher than the printer. `turn` counts quarters, one of them for a screen in portrait.
function no_fit_line(size, { printer, canvas, pitch, turn }) {
    const usual = Number(printer?.is_portrait ?? false), is_turned = turn > usual, height = printer ? [printer.height] : [];
    const [width, depth] = canvas.map((count, axis) => quotient(BigInt(count) * BigInt(pitch[axis][0]), BigInt(pitch[axis][1])));
    const rooms = [[width, depth, ...height], [depth, width, ...height]]; // along the part's sides, by an even or odd number of quarters
    const fits_otherwise = rooms[is_turned ? usual : 1 - usual].every((room, axis) => size[axis] <= room);
    const more = fits_otherwise ? `; ${is_turned ? "it fits without" : "turned by a quarter it fits:"} --turn`
        : is_turned ? "; turned by a quarter it doesn't fit either" : "";
    return `the part doesn't fit: it is ${in_mm(size)} mm, the ${printer?.model ?? "canvas"} ${in_mm(rooms[usual])} mm${more}`;
}
