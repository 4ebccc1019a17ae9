// The slicer, in a worker: the library as WebAssembly, with one part and its mesh at a time. A message has the name of
// a call and a number, and the reply has the same number. Calls run one after the other.

const DONE = 0, OPEN = 4, MEMORY = 6, NO_ROOM = 7, NO_FIT = 9; // the library's statuses
const LINE = 256; // bytes of a fault's line
const HEAD = 16; // bytes before the rows of an image, of which the words take no more
const FITTED = 0, GIVEN = 1, SCREEN = 2; // where the grid lies
const AREAS_AT_ONCE = 32; // layers

let library = null; // what the module exports
let stopped = null; // why no call may be made any more
let places = null; // the addresses of the calls' small values in the module's memory
let shape = null; // of the opened mesh, with its rule
let known = []; // the areas of its layers, as far as they were found
const buffers = {}; // those that grow, by name
const moved = []; // what the reply hands over, so that it is not copied

class Fault extends Error {
    constructor(status, line) {
        super(line);
        this.status = status;
    }
}

// Calls the library. A call that traps, such as one whose stack is full, leaves the memory unfit for further calls.
function ask(name, ...numbers) {
    if (stopped) throw new Error(stopped);
    try {
        return library[name](...numbers);
    } catch (trap) {
        stopped = `the slicer has stopped: ${trap.message}`;
        throw new Error(stopped);
    }
}

// The calls take 64-bit numbers, which JavaScript has as BigInt.
const big = BigInt;
const view = () => new DataView(library.memory.buffer);
const bytes = (at, size) => new Uint8Array(library.memory.buffer, at, size);
const size_at = (at) => Number(view().getBigUint64(at, true));
const free = (at) => stopped || ask("free", big(at));

function line_told() {
    const all = bytes(places.line, LINE);
    return new TextDecoder().decode(all.slice(0, all.indexOf(0)));
}

function fault_of(status) {
    ask("stlslice_fault_text", status, big(places.line), big(LINE));
    return new Fault(status, line_told());
}

function must(status) {
    if (status !== DONE) throw fault_of(status);
}

function allocated(size) {
    const at = Number(ask("malloc", big(size)));
    if (!at) throw fault_of(MEMORY);
    return at;
}

// A buffer of at least this size, by its name.
function buffer(name, size) {
    if (buffers[name]?.size >= size) return buffers[name];
    if (buffers[name]) free(buffers[name].at);
    buffers[name] = null;
    return buffers[name] = { at: allocated(size), size };
}

// What `write` puts into a buffer of this name, which grows until there is room.
function written(name, write) {
    for (let room = buffer(name, 1 << 16); ;) {
        const status = write(big(room.at), big(room.size)), size = size_at(places.size);
        if (status === DONE) return bytes(room.at, size).slice();
        if (status !== NO_ROOM) throw fault_of(status);
        room = buffer(name, size);
    }
}

// Takes the first of the modules that this browser compiles. The first has 64-bit addresses, the second, if any, 32.
async function start({ modules }) {
    let why = new Error("the page has no module that it could run");
    for (const { bits, packed } of modules) {
        try {
            const module = await WebAssembly.instantiate(await unpacked(packed), {});
            library = module.instance.exports;
            places = small_places();
            return { version: ask("stlslice_version"), bits };
        } catch (error) {
            why = error;
        }
    }
    throw why;
}

// It streams the bytes alone, since WebKit reads no Blob in the worker of a page from disk.
const streamed = (data) => new ReadableStream({ start: (it) => { it.enqueue(data); it.close(); } });
const unpacked = (data) => new Response(streamed(data).pipeThrough(new DecompressionStream("deflate"))).arrayBuffer();

// Options have 64 bytes, a mesh 16, a shape 80; then come a line and three numbers.
function small_places() {
    const sizes = { options: 64, mesh: 16, shape: 80, line: LINE, size: 8, count: 8, area: 8 };
    const total = Object.values(sizes).reduce((sum, size) => sum + size, 0);
    const found = {};
    let at = Number(library.malloc(big(total)));
    bytes(at, total).fill(0);
    for (const name in sizes) {
        found[name] = at;
        at += sizes[name];
    }
    return found;
}

// Opens the part's mesh: in the grid that fits it, in a given one, or in the middle of a printer's screen.
function open(options) {
    if (not_whole) throw new Fault(NO_STL, not_whole);
    const began = performance.now(), at = allocated(file.length);
    try {
        bytes(at, file.length).set(file);
        put_options(options);
        const status = ask("stlslice_open", big(at), big(file.length), big(places.options), big(places.mesh), big(places.shape),
            big(places.line), big(LINE));
        if (status !== DONE) throw refusal(new Fault(status, line_told()), options, at);
    } finally {
        free(at);
    }
    shape = { ...shape_told(), rule: options.rule, unit: options.unit };
    known = [];
    const size = size_between(shape), most = options.screen?.printer?.height ?? Infinity; // the library knows no heights
    if (size[2] > most) throw no_fit(size, options);
    return { ...shape, took: performance.now() - began, memory: library.memory.buffer.byteLength };
}

// The fault of stlslice-sl1 in place of the library's, which is the program's. It tells the size of all facets, and if there are none.
function refusal(fault, options, at) {
    if (fault.status === NO_FIT) return no_fit(size_between(box(at, options)), options);
    if (fault.status === OPEN) return asking(fault, size_between(box(at, options)), options);
    const is_programs = !is_binary && !options.screen && options.unit <= MOST_UNIT;
    if (fault.message === NOTHING_LEFT && !is_programs && !box(at, options).facets) return new Fault(REFUSED, NO_FACETS);
    return placed(fault);
}

const no_fit = (size, options) => asking(new Fault(REFUSED, no_fit_line(size, options.screen)), size, options);

// With a fault that may come from a wrong unit goes the line that asks for it, as the command does.
const asking = (fault, size, { unit }) => Object.assign(fault, is_odd(size) ? { asked: unit_line(size, unit) } : {});

// The box of the part's facets, which come first in a shape.
function box(at, { unit }) {
    must(ask("stlslice_box", big(at), big(file.length), unit, big(places.shape), big(places.line), big(LINE)));
    return corners_told();
}

// The fields of the library's options have four bytes each.
function put_options({ pitch = 0, layer, rule, unit, grid, screen }) {
    const placing = screen ? SCREEN : grid ? GIVEN : FITTED, counts = screen ? [...screen.canvas, 0, 0, 0, 0] : grid ?? [0, 0, 0, 0, 0, 0];
    const fields = [pitch, layer, rule, unit, placing, ...counts, screen?.turn ?? 0, ...screen?.pitch.flat() ?? [0, 0, 0, 0]];
    const options = view();
    fields.forEach((it, i) => options.setInt32(places.options + 4 * i, it, true));
}

const whole_told = (at) => view().getInt32(places.shape + at, true);
const long_told = (at) => size_at(places.shape + at);
const corners_told = () => ({ facets: long_told(0), low: [8, 12, 16].map(whole_told), high: [20, 24, 28].map(whole_told) });

function shape_told() {
    const [columns, rows, layers, x, y, z, pitch, layer] = [32, 36, 40, 44, 48, 52, 56, 60].map(whole_told);
    return { ...corners_told(), columns, rows, layers, origin: [x, y, z], pitch, layer, times: [64, 72].map(long_told) };
}

const row_bytes = () => shape.columns + 7 >> 3;
const image_bytes = () => row_bytes() * shape.rows;

// The layer's image: its rows, without the words before them. It stands in the library's memory until the next call, and begins
// there at a whole word.
function bits_of(k) {
    const size = image_bytes(), head = `P4\n${shape.columns} ${shape.rows}\n`.length, room = buffer("image", HEAD + size);
    must(ask("stlslice_mask", big(places.mesh), k, big(room.at + HEAD - head), big(head + size), big(places.size)));
    return bytes(room.at + HEAD, size);
}

function area_of(k) {
    must(ask("stlslice_area", big(places.mesh), k, big(places.area)));
    return size_at(places.area);
}

// The areas of the layers from this one on by a rule, as many as are found in about this time.
function areas_from(from, rule, milliseconds) {
    const end = performance.now() + milliseconds, found = [];
    while (from + found.length < shape.layers && (!found.length || performance.now() < end)) {
        const next = from + found.length, count = Math.min(AREAS_AT_ONCE, shape.layers - next), room = buffer("areas", 8 * AREAS_AT_ONCE);
        must(ask("stlslice_areas", big(places.mesh), rule, next, big(room.at), big(count)));
        for (let k = 0; k < count; k++) found.push(size_at(room.at + 8 * k));
    }
    return found;
}

function areas({ from, rule, milliseconds }) {
    const found = areas_from(from, rule, milliseconds);
    if (rule === shape.rule) found.forEach((area, k) => { known[from + k] = area; });
    return found;
}

// The layer's loops: the coordinates of all points in half-micrometres, and for each loop the number of points up to its end.
function loops_of(k) {
    for (let points = buffer("points", 1 << 16), ends = buffer("ends", 1 << 12); ;) {
        const status = ask("stlslice_loops", big(places.mesh), k, big(points.at), big(points.size >> 4), big(places.size),
            big(ends.at), big(ends.size >> 3), big(places.count));
        const all = size_at(places.size), count = size_at(places.count);
        if (status === DONE) return { points: numbers_at(points.at, 2 * all), ends: numbers_at(ends.at, count) };
        if (status !== NO_ROOM) throw fault_of(status);
        points = buffer("points", 16 * all);
        ends = buffer("ends", 8 * count);
    }
}

const numbers_at = (at, count) => Float64Array.from(new BigInt64Array(library.memory.buffer, at, count), Number);

// What the page shows of one layer: a picture whose pixels stand for squares of this side, or of a larger one. In that case the
// image's bits come with it.
async function layer({ k, side: wanted, colours }) {
    const loops = loops_of(k), outlines = outlines_of(loops), side = Math.max(wanted, shrinking(shape)), image = bits_of(k);
    const drawn = picture_of(image, shape, side, colours), bits = side > wanted ? image.slice() : null;
    known[k] ??= filled_in(image);
    const picture = await createImageBitmap(drawn);
    moved.push(picture, outlines.points.buffer, outlines.ends.buffer, ...bits ? [bits.buffer] : []);
    return { k, area: known[k], loops: loops.ends.length, outlines, side, picture, bits };
}

// The layer's image as a PNG of the library's, white inside the part.
const png_of = (k, depth, mirrors) => written("png", (at, room) =>
    ask("stlslice_png", big(places.mesh), k, depth, mirrors, at, room, big(places.size)));
const png = ({ k, mirrors }) => new Blob([png_of(k, 1, mirrors)], { type: "image/png" });

const calls = { start, read, open, layer, areas, png, begin_zip, add_layers, whole_zip, end_zip };

async function answer({ id, call, value }) {
    moved.length = 0;
    try {
        const found = await calls[call](value);
        postMessage({ id, value: found }, moved);
    } catch (error) {
        const { status = null, message: line, place, asked, telling } = error;
        postMessage({ id, fault: { status, line, place, asked, telling, stopped: !!stopped } });
    }
}

let turn = Promise.resolve();
onmessage = ({ data }) => { turn = turn.then(() => answer(data)); };
