// What the page shows: a part, opened by the worker; one of its layers with its outlines; and the areas of all.

const by = (id) => document.getElementById(id);
const data = JSON.parse(by("data").textContent); // the modules, demo parts, printers and hints
const CHUNK = 40; // milliseconds in which the worker finds areas before it looks for another call
const QUIET = 120; // milliseconds for which no layer was asked for, before areas are looked for

let part = null; // the chosen file, and its name
let opened = null; // its mesh, as the worker reports it, with the options
let shown = null; // the layer that is on the canvas
let areas = []; // of the layers from the lowest on, as far as they are known
let look = { zoom: 1, x: 0, y: 0 };
let asked_last = 0; // when the worker last gave a layer

const k_now = () => by("layer").valueAsNumber;
const height_of = (k) => opened.origin[2] + (k + 0.5) * opened.options.layer;

// Opens the part with the form's options.
const slice = latest(async (is_last) => {
    judge_all();
    if (!part || !by("form").reportValidity()) return;
    const options = options_now(), fields = fields_now(), of = part;
    if (slicer.has_stopped) renew();
    const end_wait = begin_wait(`Slicing ${of.name}`);
    try {
        // also if another is wished by now, since the worker has this mesh
        const told = await slicer.open(options, of);
        show_part({ ...told, options, fields, of });
    } catch (fault) {
        // one that is too high is in the worker by then, in place of what is shown
        if (!fault.ended && (fault.status === REFUSED || is_last() && part === of)) refused(fault, of);
    } finally {
        end_wait();
    }
});

function show_part(told) {
    const { options, of } = told, height = opened?.of === of ? height_of(k_now()) : of.height;
    const sides = options.screen?.pitch ?? [[options.pitch, 1], [options.pitch, 1]]; // of a pixel, in micrometres
    opened = { ...told, fractions: sides, sides: sides.map(([above, below]) => above / below) };
    of.height = null;
    shown = null;
    areas = [];
    look = { zoom: 1, x: 0, y: 0 };
    clear_views();
    const slider = by("layer"), wanted = height === null ? 0 : Math.round((height - told.origin[2]) / options.layer - 0.5);
    slider.max = told.layers - 1;
    slider.value = height === null ? Math.floor(told.layers / 2) : Math.max(0, Math.min(told.layers - 1, wanted));
    warn_first();
    tell_part();
    tell_command();
    show();
    look_there("image");
    find_areas();
}

// Ends what is under way. Saving leaves the part open. Opening ends with its worker: what was open before is opened once more, as it
// was. If nothing was, or that is stopped too, the part waits for a button.
function stop() {
    save_all(null);
    if (!slice.is_running()) return;
    slice.forget(); // no other opening follows
    const before = opened, height = before && height_of(k_now());
    renew();
    part.is_new = true;
    if (!before) return refused(Object.assign(new Error("stopped by hand"), { stopped: true }), part);
    part = Object.assign(before.of, { height, is_new: true, is_back: true });
    put(before.fields);
    return slice();
}

// Shows the layer of the slider.
function show() {
    plot();
    return show_layer();
}

const show_layer = latest(async () => {
    let wanted = 1;
    const told = await asked("layer", () =>
        ({ k: k_now(), side: wanted = side_now(), colours: [colour_of("ground"), colour_of("body")] }));
    asked_last = performance.now();
    if (!told) return;
    shown?.picture.close();
    shown = { ...told, wanted };
    tell_layer();
    draw_soon();
});

function go(k) {
    if (!opened) return;
    const next = Math.max(0, Math.min(opened.layers - 1, k));
    if (next === k_now()) return;
    by("layer").value = next;
    show();
}

// Finds the areas, and then what is to be warned of. Meanwhile the layers that are looked at come first.
const find_areas = latest(async (is_last) => {
    const of = opened, goes_on = () => of && of === opened && is_last();
    const each = async (call, words, count, take) => {
        for (let found = 0; goes_on() && found < count;) {
            await quiet();
            // the call for the layer that is shown reports a fault
            const more = await slicer.call(call, { from: found, milliseconds: CHUNK, ...words }).catch(() => null);
            if (!more || !goes_on()) return false;
            take(more);
            found += more.length;
        }
        return goes_on();
    };
    if (await each("areas", { rule: of?.options.rule }, of?.layers, (more) => {
        areas.push(...more);
        tell_areas();
    })) await look_at_shells(of, each);
});

// At the next frame, so that the worker finds more meanwhile.
const tell_areas = soon(() => {
    plot();
    if (opened) tell_part();
});

async function quiet() {
    for (let left = 1; left > 0; await new Promise((done) => setTimeout(done, left))) {
        left = show_layer.is_running() ? QUIET : asked_last + QUIET - performance.now();
        if (left <= 0) return;
    }
}

function take(file, name = file.name, others = []) {
    part = { file, name, others, height: null, is_new: true };
    return slice();
}

// Keys go on where a part that was just chosen is seen.
function look_there(id) {
    if (part?.is_new) by(id).focus();
    if (part) part.is_new = false;
}

// Of several files the first STL is taken.
function take_files(files) {
    const all = [...files], file = all.find(({ name }) => /\.stl$/i.test(name)) ?? all[0];
    if (file) take(file, file.name, all.filter((it) => it !== file).map(({ name }) => name));
}
