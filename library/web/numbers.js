// Numbers as Python writes them. Page and worker have these functions.

// A number as `write` makes it with so many digits behind the point. An exact half goes to the even digit, as in Python;
// JavaScript takes the greater one.
function half_even(write, digits) {
    const most = 100, [exact, power] = write(most).split("e"), cut = exact.length - most + digits;
    const is_half = /^50*$/.test(exact.slice(cut)), kept = exact.slice(0, cut);
    return is_half && /[02468]$/.test(kept) ? kept + (power ? `e${power}` : "") : write(digits);
}

// A number that is not negative as Python's format ".6f" writes it, or ".3f" if three digits are wanted.
const fixed = (number, digits = 6) => half_even((it) => number.toFixed(it), digits);

// The same of the format "g", or ".10g" if ten digits are wanted.
function general(number, digits = 6) {
    const [mantissa, power] = half_even((it) => number.toExponential(it), digits - 1).split("e"), at = Number(power);
    const figures = mantissa.replace(".", "").replace(/(?!^)0+$/, "");
    if (at >= digits || at < -4)
        return `${figures[0]}${figures.length > 1 ? "." : ""}${figures.slice(1)}e${at < 0 ? "-" : "+"}${String(Math.abs(at)).padStart(2, "0")}`;
    if (at < 0) return `0.${"0".repeat(-at - 1)}${figures}`;
    const whole = figures.padEnd(at + 1, "0");
    return whole.length > at + 1 ? `${whole.slice(0, at + 1)}.${whole.slice(at + 1)}` : whole;
}

// The number that is nearest to a fraction of whole BigInts, neither negative.
function quotient(above, below) {
    const shift = BigInt(Math.max(0, 64 + below.toString(2).length - above.toString(2).length));
    const whole = (above << shift) / below, is_exact = whole * below === above << shift;
    return Number(is_exact ? whole : whole | 1n) / 2 ** Number(shift);
}

// What so many pixels of this pitch hold, in millilitres.
function volume_of(pixels, pitch, layer) {
    const [[width, a], [depth, b]] = pitch.map((side) => side.map(BigInt));
    return quotient(BigInt(pixels) * width * depth * BigInt(layer), a * b * 10n ** 12n);
}
