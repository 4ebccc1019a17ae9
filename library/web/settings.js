// What is chosen by hand: the form's options, which are kept from one visit to the next, and the command for the same.

const KEPT = ["printer", "pitch", "height", "rule", "unit", "columns", "rows", "width", "depth", "turn", "mirror_x", "mirror_y",
    "exposure", "first_exposure", "fade", "material", "outlines"];
// What `stlslice-sl1` takes if nothing is given: seconds, layers, and the percentage of the screen from which a layer is slow.
const USUAL = { exposure: 2.2, first_exposure: 25, fade: 10, material: "", fast_tilt: 5, slow_tilt: 8, area_fill: 50 };
const GIVEN = ["exposure", "first_exposure", "fade", "material"]; // fields that are empty if what is usual is wanted

const is_box = (it) => it.type === "checkbox";
const number_in = (id) => by(id).valueAsNumber;

// A page from disk may have no storage. What is kept is then the form's as the page has it.
function storage() {
    try {
        return localStorage;
    } catch {
        return null;
    }
}

const told_by = (ids) => Object.fromEntries(ids.map((id) => [id, is_box(by(id)) ? by(id).checked : by(id).value]));

function keep() {
    try {
        storage()?.setItem("stlslice", JSON.stringify(told_by(KEPT)));
    } catch {
        // a full storage keeps nothing
    }
}

// Fills the form with what was kept. A value that its field does not take is passed over.
function restore() {
    let told = {};
    try {
        told = JSON.parse(storage()?.getItem("stlslice")) ?? {};
    } catch {
        // what is no text of ours
    }
    for (const id of KEPT) {
        const field = by(id), usual = field.value;
        if (is_box(field) && typeof told[id] === "boolean") field.checked = told[id];
        if (is_box(field) || typeof told[id] !== "string") continue;
        field.value = told[id];
        if (field.value !== told[id] || !field.checkValidity()) field.value = usual;
    }
    lay_form();
}

// The fields that a part is opened with; and puts them back as they were.
const fields_now = () => told_by(KEPT.filter((id) => by("form").contains(by(id))));

function put(fields) {
    for (const [id, value] of Object.entries(fields)) by(id)[is_box(by(id)) ? "checked" : "value"] = value;
    lay_form();
    keep();
}

// ---- what fields take, in the words of the commands' options

const WHOLE = "a whole number, 1 to 100000", CANVAS = "COLUMNSxROWS, each 1 to 99999, as in 2560x1620";
const SIDE = "micrometres above 0 and below 1000000, with at most three digits after the point, as 50, 47.25 or 19x24";
const TIME = "seconds above 0 and below 100000, as 2.2";
const TAKES = {
    pitch: ["--pitch", WHOLE], height: ["--layer", WHOLE], columns: ["--canvas", CANVAS], rows: ["--canvas", CANVAS],
    width: ["--pitch", SIDE], depth: ["--pitch", SIDE], exposure: ["--exposure", TIME], first_exposure: ["--first-exposure", TIME],
    fade: ["--fade", "a whole number, 0 to 999"],
};

// Gives a wrong field the commands' line, which the browser shows in place of its own.
function judge(id) {
    const field = by(id), [option, words] = TAKES[id];
    field.setCustomValidity("");
    if (!field.validity.valid) field.setCustomValidity(`argument ${option}: it takes ${words}`);
}

const judge_all = () => Object.keys(TAKES).forEach(judge);

let laid = null; // the printer that the form was laid for

// The printer that is chosen by name, or none.
const printer_now = () => data.printers.find(({ model }) => model === by("printer").value) ?? null;

// Fields are seen and looked at only where they count: a wrong one that is hidden would stop each opening.
function lay_form() {
    const kind = { "": ["none"], own: ["screen", "own"] }[by("printer").value] ?? ["screen"];
    for (const it of document.querySelectorAll("[data-of]")) {
        it.hidden = !kind.includes(it.dataset.of);
        for (const field of it.querySelectorAll("input")) field.disabled = it.hidden;
    }
    const usual = printer_now() ?? USUAL;
    for (const id of GIVEN) by(id).placeholder = usual[id] === "" ? "resin" : usual[id];
    // exposures that were given, perhaps for another printer, are seen
    if (by("printer").value !== laid && GIVEN.some((id) => by(id).value !== "")) by("exposures").open = true;
    laid = by("printer").value;
    tell_exposures();
}

// A length in micrometres as a fraction in lowest terms: "47.25" is 189/4.
function fraction_of(word) {
    const [whole, part = ""] = word.split("."), below = 10 ** part.length, above = Number(whole + part);
    const divisor = (a, b) => b ? divisor(b, a % b) : a;
    return [above, below].map((it) => it / divisor(above, below));
}

// The screen of the form. `turn` counts quarters: the images of a screen in portrait are turned, and so the part on it.
function screen_now() {
    if (!by("printer").value) return null;
    const printer = printer_now(), turn = Number(printer?.is_portrait ?? false) + Number(by("turn").checked);
    if (printer) return { printer, canvas: printer.canvas, pitch: printer.pitch, turn };
    const pitch = ["width", "depth"].map((id) => fraction_of(by(id).value));
    return { printer, canvas: [number_in("columns"), number_in("rows")], pitch, turn };
}

function options_now() {
    const screen = screen_now(), options = { layer: number_in("height"), ...screen ? { screen } : { pitch: number_in("pitch") } };
    for (const id of ["rule", "unit"]) options[id] = by(id).selectedIndex;
    return options;
}

// Whether the opened part's images are mirrored: those of a screen may be.
function mirrors_now() {
    const { screen } = opened.options, chosen = (id) => screen?.printer ? screen.printer[id] : Boolean(screen) && by(id).checked;
    return { x: chosen("mirror_x"), y: chosen("mirror_y") };
}

// What the archive of the opened part has beside its images.
function archive_now() {
    const { layer, screen } = opened.options, { x, y } = mirrors_now(), usual = screen?.printer ?? USUAL, given = {};
    for (const id of GIVEN) given[id] = by(id).value === "" ? usual[id] : id === "material" ? by(id).value : Number(by(id).value);
    return { ...usual, ...given, ...screen, layer, mirror_x: x, mirror_y: y };
}

// ---- the command

const stem = (name) => name.replace(/(\.stl)?\.\w+$/i, "");
// zsh reads = at the beginning of a word otherwise
const quoted = (word) => /^[\w@%+:,./-]+$/.test(word) ? word : `'${word.replaceAll("'", "'\\''")}'`;
// a name that begins with a minus would be taken for an option
const named = (name) => quoted(name.startsWith("-") ? `./${name}` : name);

// The name of what is made of a part: never the part's own, which a shell would empty first. Some disks take a and A for one.
function made_of(name, ending) {
    const made = stem(name) + ending;
    return made.toLowerCase() === name.toLowerCase() ? `${stem(name)}-2${ending}` : made;
}

// The words of the command that makes the same layers of the same file: those of a screen as an archive. The program reads
// no binary file, and takes no cm or m.
function command_of({ options: { pitch, layer, rule, unit, screen }, of }) {
    const name = named(of.name), words = [`--layer ${layer}`, `--rule ${by("rule").options[rule].text}`];
    if (unit) words.push(`--unit ${UNITS[unit]}`);
    if (screen) return ["stlslice-sl1", ...words_of(screen), ...words, ...archive_words(), name, named(made_of(of.name, ".sl1"))];
    words.unshift(`--pitch ${pitch}`);
    if (of.is_binary || unit > MOST_UNIT) return ["stlslice-page", ...words, name, named(made_of(of.name, ".html"))];
    return ["stlslice", ...words, `< ${name}`, `> ${named(made_of(of.name, ".pbm"))}`];
}

function words_of({ printer, canvas, pitch, turn: quarters }) {
    const turn = quarters > Number(printer?.is_portrait ?? false) ? ["--turn"] : [];
    if (printer) return [`--printer ${printer.model}`, ...turn];
    const [width, depth] = pitch.map(([above, below]) => above / below), mirrors = ["mirror_x", "mirror_y"].filter((id) => by(id).checked);
    return [`--canvas ${canvas.join("x")}`, `--pitch ${width === depth ? width : `${width}x${depth}`}`, ...turn,
        ...mirrors.map((id) => `--${id.replace("_", "-")}`)];
}

// Words for what is given in place of what is usual.
function archive_words() {
    const word = (id) => id === "fade" ? number_in(id) : quoted(by(id).value);
    const joint = (id) => by(id).value.startsWith("-") ? "=" : " ";
    return GIVEN.filter((id) => by(id).value !== "").map((id) => `--${id.replace("_", "-")}${joint(id)}${word(id)}`);
}
