// What is wrong with pictures and counts of random bits, beside a plain count of each pixel's square.
(() => {
    const found = [], colours = [[250, 240, 230], [10, 20, 31]];
    let seed = 1;
    const random = (most) => (seed = Math.imul(seed, 48271) >>> 0 & 0x7fffffff) % most;
    const plain = (bits, { columns, rows }, side) => {
        const width = Math.ceil(columns / side), stride = columns + 7 >> 3, counts = new Array(width * Math.ceil(rows / side)).fill(0);
        for (let j = 0; j < rows; j++)
            for (let i = 0; i < columns; i++)
                counts[width * Math.floor(j / side) + Math.floor(i / side)] += bits[j * stride + (i >> 3)] >> 7 - (i & 7) & 1;
        return counts.flatMap((it) => [...[0, 1, 2].map((at) => {
            const [empty, filled] = [colours[0][at], colours[1][at]];
            return Math.round(empty + (filled - empty) * it / (side * side));
        }), 255]);
    };
    for (const columns of [1, 7, 8, 31, 32, 33, 64, 100, 257]) {
        for (const side of [1, 2, 4, 8]) {
            const rows = 1 + random(40), stride = columns + 7 >> 3, offset = random(5);
            const bits = new Uint8Array(offset + stride * rows).fill(0).subarray(offset);
            // runs of equal bits, as images have them
            for (let at = 0, is_filled = 0; at < columns * rows; is_filled ^= 1)
                for (let end = Math.min(columns * rows, at + 1 + random(random(2) ? 9 : 300)); at < end; at++)
                    if (is_filled) bits[Math.floor(at / columns) * stride + (at % columns >> 3)] |= 128 >> (at % columns & 7);
            const shape = { columns, rows }, copy = bits.slice(), told = `${columns} x ${rows}, ${side}`;
            const { data, width, height } = picture_of(copy, shape, side, colours), wanted = plain(copy, shape, side);
            if (width * height * 4 !== wanted.length || wanted.some((it, at) => it !== data[at])) found.push(`the picture of ${told}`);
            const ones = [...bits].reduce((sum, byte) => sum + [0, 1, 2, 3, 4, 5, 6, 7].filter((bit) => byte >> bit & 1).length, 0);
            if (filled_in(bits) !== ones) found.push(`the count of ${told}, ${filled_in(bits)} and not ${ones}`);
        }
    }
    for (const [columns, rows, side] of [[2560, 1620, 1], [4097, 10, 2], [11520, 5120, 4], [16384, 16384, 8]])
        if (shrinking({ columns, rows }) !== side) found.push(`the side of ${columns} x ${rows}`);
    return found;
})()
