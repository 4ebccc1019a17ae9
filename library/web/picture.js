// Bits as a picture, and how many are 1. A picture's pixel stands for a square of the image's, whose side is 1, 2, 4 or 8.

const MOST_PIXELS = 1 << 22, LONGEST = 4096; // of a picture, and its longer side
const ONES = Uint8Array.from({ length: 256 }, (_, byte) => [...byte.toString(2)].filter((it) => it === "1").length);

// The least side of a picture that is not too large.
function shrinking({ columns, rows }) {
    let side = 1;
    while (columns * rows > MOST_PIXELS * side * side || Math.max(columns, rows) > LONGEST * side) side *= 2;
    return side;
}

// The bits are rows of whole bytes. `colours` are those of a pixel that is empty and of one that is filled; a pixel of the
// picture has the shade between them that its square has.
function picture_of(bits, { columns, rows }, side, colours) {
    const width = Math.ceil(columns / side), height = Math.ceil(rows / side), stride = columns + 7 >> 3;
    const shades = Uint32Array.from({ length: side * side + 1 }, (_, filled) => shade(colours, filled / (side * side)));
    const picture = new ImageData(width, height), dots = new Uint32Array(picture.data.buffer).fill(shades[0]);
    for (let y = 0; y < height; y++) {
        const lines = Math.min(side, rows - y * side);
        const of_row = bits.subarray(y * side * stride, (y * side + lines) * stride);
        put_row(of_row, lines, side, shades, dots.subarray(y * width, (y + 1) * width));
    }
    return picture;
}

// One row of the picture, of so many lines of the image. Most words, of four bytes if the lines have whole ones, are all
// empty or all filled, in all lines.
function put_row(bits, lines, side, shades, dots) {
    const stride = bits.length / lines, size = stride % 4 ? 1 : 4, each = 8 * size / side, whole = shades[side * lines];
    const words = size === 1 ? new Int8Array(bits.buffer, bits.byteOffset, bits.length)
        : new Int32Array(bits.buffer, bits.byteOffset, bits.length / 4);
    for (let at = 0, to = 0; at < stride; at += size, to += each) {
        let some = 0, all = -1;
        for (let it = at / size; it < words.length; it += stride / size) {
            some |= words[it];
            all &= words[it];
        }
        if (some === 0) continue;
        if (all === -1) for (let it = to; it < to + each; it++) dots[it] = whole;
        else for (let byte = at; byte < at + size; byte++) put_byte(bits, byte, stride, side, shades, dots);
    }
}

// The dots of one byte of each line.
function put_byte(bits, byte, stride, side, shades, dots) {
    const each = 8 / side, mask = (1 << side) - 1, to = byte * each, end = Math.min(to + each, dots.length);
    for (let it = to; it < end; it++) {
        let filled = 0;
        for (let at = byte; at < bits.length; at += stride) filled += ONES[bits[at] >> 8 - side * (it - to + 1) & mask];
        dots[it] = shades[filled];
    }
}

function shade([empty, filled], part) {
    const [red, green, blue] = empty.map((it, i) => Math.round(it + (filled[i] - it) * part));
    return (255 << 24 | blue << 16 | green << 8 | red) >>> 0;
}

// How many bits are 1. Those of whole words are counted side by side.
function filled_in(bits) {
    const first = Math.min(bits.length, -bits.byteOffset & 3);
    const words = new Uint32Array(bits.buffer, bits.byteOffset + first, bits.length - first >> 2);
    let count = 0;
    for (let it = 0; it < words.length; it++) {
        let word = words[it];
        if (word === 0) continue;
        word -= word >>> 1 & 0x55555555;
        word = (word & 0x33333333) + (word >>> 2 & 0x33333333);
        count += Math.imul(word + (word >>> 4) & 0x0f0f0f0f, 0x01010101) >>> 24;
    }
    for (let it = 0; it < first; it++) count += ONES[bits[it]];
    for (let it = first + 4 * words.length; it < bits.length; it++) count += ONES[bits[it]];
    return count;
}

// The loops in pixels of the image, and for each whether it is a rim, which turns left round the part, or a hole.
function outlines_of({ points, ends }) {
    const { origin, rows, pitch } = shape, placed = new Float64Array(points.length), rims = [];
    for (let i = 0; i < points.length; i += 2) {
        placed[i] = (points[i] / 2 - origin[0]) / pitch;
        placed[i + 1] = rows - (points[i + 1] / 2 - origin[1]) / pitch;
    }
    ends.forEach((end, loop) => rims.push(turn_of(points, loop ? ends[loop - 1] : 0, end) >= 0));
    return { points: placed, ends, rims };
}

// Twice the area that the points from one to another enclose, seen from the first of them.
function turn_of(points, begin, end) {
    const x = (it) => points[2 * it] - points[2 * begin], y = (it) => points[2 * it + 1] - points[2 * begin + 1];
    let turn = 0;
    for (let it = begin + 1; it + 1 < end; it++) turn += x(it) * y(it + 1) - x(it + 1) * y(it);
    return turn;
}
