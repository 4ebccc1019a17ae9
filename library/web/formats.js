// What is saved of all layers: a zip of PNGs, or the archive of an SL1, whose settings are those that `stlslice-sl1` writes.

const FIRST = 3; // layers with the first exposure, before it fades to that of the others
const DEPTH = 8; // bits of a pixel

// Seconds that a layer is exposed.
function exposure_of(number, { exposure, first_exposure, fade }) {
    const faded = Math.max(0, number - FIRST + 1);
    return faded > fade ? exposure : first_exposure - faded * ((first_exposure - exposure) / (fade + 1));
}

// What the names of an archive's images begin with: its own name, without the ending.
const job_of = (name) => name.replace(/\.sl1s?$/i, "").replace(/[^\p{L}\p{N}_.-]/gu, "_") || "part";

const shown = (text) => text.replace(/[\0-\x1f\x7f-\x9f]/g, (it) => `\\x${it.charCodeAt(0).toString(16).padStart(2, "0")}`);
const one_line = (text) => shown(text.split(/(?:[^\S\ufeff]|[\x1c-\x1f\x85])+/).filter(Boolean).join(" "));

const lines_of = (pairs) => Object.keys(pairs).sort().map((key) => `${key} = ${pairs[key]}\n`).join("");

// What stands in config.ini: `given` is what was chosen, `slow` how many layers light much of the screen, `lit` the pixels.
function settings({ given, job, layers, slow, lit, now }) {
    const { printer, pitch, layer } = given;
    let exposures = 0; // one after the other, as a sum of floating-point numbers depends on the order
    for (let number = 0; number < layers; number++) exposures += exposure_of(number, given);
    const moment = new Date(1000 * now).toISOString(), mm = general(layer / 1000);
    return lines_of({
        action: "print", expTime: general(given.exposure), expTimeFirst: general(given.first_exposure), expUserProfile: 0,
        fileCreationTimestamp: `${moment.slice(0, 10)} at ${moment.slice(11, 19)} UTC`, hollow: 0, jobDir: job, layerHeight: mm,
        materialName: one_line(given.material) || "resin", numFade: given.fade, numFast: layers - slow, numSlow: slow,
        printProfile: `${mm} mm`, printTime: fixed(exposures + given.fast_tilt * (layers - slow) + given.slow_tilt * slow),
        printerModel: printer?.model ?? "", printerProfile: printer?.name ?? "", printerVariant: printer ? "default" : "",
        prusaSlicerVersion: "stlslice",
        usedMaterial: fixed(volume_of(lit, pitch, layer)),
    });
}

// What stands in prusaslicer.ini: the screen as it is built in, and the layers.
function profile({ printer, canvas, pitch, layer, mirror_x, mirror_y, exposure, first_exposure, fade }) {
    let [columns, rows] = canvas, [width, depth] = pitch.map((side) => side.map(BigInt));
    const is_portrait = printer?.is_portrait ?? false, mm = general(layer / 1000);
    if (is_portrait) [columns, rows, width, depth] = [rows, columns, depth, width];
    const length = (count, [above, below]) => general(quotient(BigInt(count) * above, below * 1000n), 10);
    return lines_of({
        display_height: length(rows, depth), display_mirror_x: Number(mirror_x), display_mirror_y: Number(mirror_y),
        display_orientation: is_portrait ? "portrait" : "landscape", display_pixels_x: columns, display_pixels_y: rows,
        display_width: length(columns, width), exposure_time: general(exposure), faded_layers: fade, gamma_correction: 0,
        initial_exposure_time: general(first_exposure), initial_layer_height: mm, layer_height: mm,
        printer_model: printer?.model ?? "", printer_technology: "SLA",
    });
}

// ---- a zip of all layers, some at a time

let saving = null;

// `name` is the archive's, or null for PNGs alone; `now` is in whole seconds since 1970.
function begin_zip({ name, given, now }) {
    saving = { name, given, now, zip: new Zip(now), job: name === null ? "" : job_of(name), layers: 0, slow: 0, lit: 0 };
}

// Adds layers for about this time, and returns how many there are by now.
async function add_layers({ milliseconds }) {
    const { given, job, zip } = saving, end = performance.now() + milliseconds, mirrors = given.mirror_x + 2 * given.mirror_y;
    do {
        const lit = known[saving.layers] ??= area_of(saving.layers);
        await zip.add(`${job}${String(saving.layers).padStart(5, "0")}.png`, png_of(saving.layers, DEPTH, mirrors));
        saving.slow += 100 * lit > given.area_fill * shape.columns * shape.rows;
        saving.lit += lit;
        saving.layers++;
    } while (saving.layers < shape.layers && performance.now() < end);
    return saving.layers;
}

async function whole_zip() {
    const { name, zip, given, lit } = saving, encoder = new TextEncoder();
    if (!lit) throw new Fault(REFUSED, unlit_line(size_between(shape), shape.rule, shape.unit));
    if (name !== null) {
        await zip.add("config.ini", encoder.encode(settings(saving)));
        await zip.add("prusaslicer.ini", encoder.encode(profile(given)));
    }
    return zip.blob();
}

function end_zip() {
    saving = null;
}
