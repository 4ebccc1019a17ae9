// What the page says: of the part, of a layer, of what is under way, and of faults, with hints.

const TOOLS = ["nearer", "farther", "whole", "save", "up", "down", "save_pngs", "save_archive"]; // for a part that is opened
const grouped = (it) => it.toLocaleString("en-US");
const mm = (micrometres) => (micrometres / 1000).toFixed(3);
const square_mm = (pixels) => pixels * opened.sides[0] * opened.sides[1] / 1e6;
const volume = (pixels) => volume_of(pixels, opened.fractions, opened.options.layer); // in millilitres
const sum = (numbers) => numbers.reduce((all, it) => all + it, 0);

function element(kind, ...parts) {
    const made = document.createElement(kind);
    made.append(...parts);
    return made;
}

const classed = (name, ...parts) => Object.assign(element("span", ...parts), { className: name });
const unbroken = (line) => line.split(/(\S*-\S*)/).map((it, at) => at % 2 ? classed("whole", it) : it); // no option after its hyphens
const spare = (...parts) => classed("spare", ...parts); // what is left out where there is little room

function clear_views() {
    for (const id of ["welcome", "fault"]) by(id).hidden = true;
    for (const id of TOOLS) by(id).disabled = !opened;
    by("layer").disabled = !opened;
    by("save_archive").hidden = !opened?.options.screen;
    draw();
    plot();
}

// ---- what is under way

const waits = []; // what is under way: the last that takes long is shown

// Begins a wait, and returns what ends it.
function begin_wait(words) {
    const wait = { words, is_long: false }, timer = setTimeout(() => {
        wait.is_long = true;
        tell_wait();
    }, 150);
    waits.push(wait);
    return () => {
        clearTimeout(timer);
        waits.splice(waits.indexOf(wait), 1);
        tell_progress();
        tell_wait();
    };
}

function tell_wait() {
    const seen = waits.filter((it) => it.is_long).pop();
    by("busy").hidden = !seen;
    if (seen) by("busy_words").textContent = seen.words; // when they are seen, so that they are read aloud
}

// The bar's part that is done; without one it moves, or stands if motion is not wanted.
function tell_progress(done, all) {
    by("bar").className = all ? "bar measured" : "bar";
    by("done").style.width = all ? `${100 * done / all}%` : "";
}

// ---- the part and its layer

function tell_part() {
    const { facets, columns, rows, sides, layers, took: time, of } = opened;
    by("part").hidden = false;
    by("name").textContent = of.name;
    const told = [["Size, mm", size_between(opened).map(mm).join(" × ")],
        ["Facets", grouped(facets) + (of.is_binary ? ", from a binary file" : "")],
        ["Pixels", `${grouped(columns)} × ${grouped(rows)} of ${[...new Set(sides)].join(" × ")} µm`], ["Layers", grouped(layers)],
        ["Volume", areas.length === layers ? `${fixed(volume(sum(areas)), 3)} ml` : `… layer ${grouped(areas.length)}`],
        ["Opened in", `${time.toFixed(0)} ms`]];
    by("facts").replaceChildren(...told.flatMap(([name, value]) => [element("dt", name), element("dd", value)]));
}

// Says whose the exposures are that are not given, and shows their fields: a printer's are for layers of one height, those of another
// screen for no resin.
function tell_exposures() {
    const { value } = by("printer"), usual = printer_now(), layer = number_in("height"), is_left = (id) => by(id).value === "";
    const left = [["exposure", `${USUAL.exposure} s`], ["first_exposure", `${USUAL.first_exposure} s for the first layers`]]
        .filter(([id]) => value === "own" && is_left(id)).map(([, words]) => words);
    let words = "";
    if (usual && layer > 0 && layer !== usual.layer && is_left("exposure"))
        words = `${usual.exposure} s is the exposure of ${usual.material}, whose layers are ${usual.layer} µm high: for layers of `
            + `${layer} µm give another.`;
    if (left.length)
        words = `Exposures depend on the resin: take those of its data sheet. ${left.join(" and ")} `
            + `${left.length > 1 ? "are placeholders" : "is a placeholder"}, for no resin.`;
    if (words && words !== by("exposed").textContent) by("exposures").open = true;
    by("exposed").textContent = words;
}

function tell_command() {
    if (!opened) return;
    say("");
    const pieces = (word) => word.split(/(?<=,)/).flatMap((it) => [classed("whole", it), element("wbr")]);
    by("command").replaceChildren(...command_of(opened).flatMap((it) => it.startsWith("--") ? [...pieces(it), " "] : [it, " "]));
}

let said = null; // the timer of what is said of a copy, or of a file that is saved

function say(words, milliseconds = Infinity) {
    clearTimeout(said);
    by("said").textContent = words;
    if (milliseconds < Infinity) said = setTimeout(() => { by("said").textContent = ""; }, milliseconds);
}

async function copy() {
    try {
        await navigator.clipboard.writeText(by("command").textContent.trim());
        say("copied", 4000);
    } catch {
        getSelection().selectAllChildren(by("command"));
        say("not copied: it is marked, so copy it by hand");
    }
}

function tell_layer() {
    const { k, area, loops } = shown, bold = (text) => element("b", text);
    by("told").replaceChildren("Layer ", bold(grouped(k)), ` of ${grouped(opened.layers)}, z `, bold(mm(height_of(k))), " mm, ",
        spare("area "), bold(square_mm(area).toFixed(3)), " mm²",
        spare(` (${grouped(area)} pixels), `, bold(grouped(loops)), loops === 1 ? " loop" : " loops"));
    by("layer").setAttribute("aria-valuetext", by("told").textContent);
}

// ---- warnings, as the commands have them

const warn = (line) => by("warnings").appendChild(element("p", ...unbroken(line)));

// Warns of what is seen from the part's size and name, after all earlier warnings are gone.
function warn_first() {
    const { of, options } = opened, size = size_between(opened);
    by("warnings").replaceChildren();
    if (of.is_back) warn(`Stopped: this is ${of.name}, as it was before.`);
    of.is_back = false;
    warn_of_others(of);
    if (is_odd(size)) warn(unit_line(size, options.unit));
}

function warn_of_others({ name, others = [] }) {
    if (others.length) warn(`${others.length + 1} files were dropped: this is ${name}. Left out: ${others.join(", ")}`);
}

// Warns if no pixel is lit, or if `nonzero` lights others than `positive`: a shell is then enclosed more often inwards than
// outwards.
async function look_at_shells(of, each) {
    const [, nonzero, positive] = [0, 1, 2], { rule, unit } = of.options, lit = sum(areas);
    if (!lit) warn(unlit_line(size_between(of), rule, unit));
    if (rule !== positive) return;
    let others = 0;
    if (await each("areas", { rule: nonzero }, of.layers, (more) => { others += sum(more); }) && lit && others !== lit)
        warn(inside_out_line(volume(lit), volume(others)));
}

// ---- faults

// Shows a fault in the library's words, with what the file is and the hints of docs/refused.md.
function refused(fault, of) {
    opened = shown = null;
    areas = [];
    by("part").hidden = true;
    by("warnings").replaceChildren();
    warn_of_others(of);
    by("told").textContent = "No layer";
    clear_views();
    by("fault").hidden = false;
    by("fault").scrollTop = 0;
    by("fault_head").textContent = fault.status ? `${of.name} is refused, status ${fault.status}` : of.name;
    by("fault_line").replaceChildren(...unbroken(fault.status === NO_STL && kind_line(of.kind, of.name) || fault.message));
    by("again").hidden = !fault.stopped || !part;
    const kind = fault.status ? advice(of.kind, of.name) : [], anew = "Change an option or choose a part to start it anew.";
    // a line of a file that is no text says nothing
    by("fault_place").textContent = kind.length ? ""
        : fault.place ?? edge_in(fault.message) ?? fit_in(fault.message) ?? many_in(fault.message) ?? (fault.stopped ? anew : "");
    by("fault_asked").textContent = fault.asked ?? "";
    const found = kind.length || !fault.status ? kind : hints_for(fault.message, of.kind, fault.telling);
    const head = found.length > 1 ? "What this is, in most files:" : "What this is:";
    by("hints").replaceChildren(...found.length ? [element("h3", head)] : [], ...found.map((it) => hint(it, found.length < 3)));
    look_there("fault");
}

// The place of an open edge, in millimetres.
function edge_in(line) {
    const found = /^open edge (\S+) (\S+) (\S+) to (\S+) (\S+) (\S+) /.exec(line);
    const point = (at) => found.slice(at, at + 3).map(mm).join(", ");
    return found && `The edge from ${point(1)} to ${point(4)} mm. There may be more.`;
}

// How a part fits that does not fit as it is.
function fit_in(line) {
    const found = /; it fits without --turn$|; turned by a quarter it fits: --turn$/.exec(line);
    return found && `It fits if it is ${by("turn").checked ? "not turned" : "turned"} by a quarter (below Printer).`;
}

const many_in = (line) => line.startsWith("too many facets") ? MANY_FACETS : null;

function hint({ title, words, command, systems }, is_open) {
    const made = element("details");
    made.open = is_open;
    made.append(element("summary", title), ...words.map((it) => element("p", it)));
    if (systems) made.append(element("dl", ...systems.flatMap(([name, ...way]) => [element("dt", name), element("dd", ...way)])));
    if (command) made.append(element("p", "Export the part again as STL. Or, on a command line of Linux:"), element("pre", command));
    return made;
}
