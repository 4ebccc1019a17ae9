// Saving: a layer, the PNGs of all, or a printer's archive.

const ADDING = 100; // milliseconds in which the worker adds layers before it looks for another call
const LINKED = 60000; // milliseconds after which a saved file may be forgotten

const mirrors_asked = ({ x, y }) => Number(x) + 2 * Number(y); // as the library's call takes them

// Saves the layer of the slider.
async function save() {
    let k = 0;
    const png = await asked("png", () => ({ k: k = k_now(), mirrors: mirrors_asked(mirrors_now()) }));
    if (png) download(png, `${stem(opened.of.name)}_${String(k).padStart(5, "0")}.png`);
}

// Whole seconds since 1970.
function moment() {
    return Math.floor(Date.now() / 1000);
}

let unsaved = null; // the warning of what was not saved the last time

// Saves all layers as an `archive`, or as a zip of PNGs. Another call ends it, and so does another mesh.
const save_all = latest(async (is_last, kind) => {
    if (!kind) return;
    await slice.ended(); // the mesh that is opened just now is the one to save
    const of = opened;
    const is_archive = kind === "archive";
    if (!of || is_archive && !is_archive_right()) return;
    const name = is_archive ? made_of(of.of.name, ".sl1") : `${stem(of.of.name)}_pngs.zip`;
    const goes_on = () => of === opened && is_last();
    const end_wait = begin_wait(`Saving ${name}`);
    say("");
    unsaved?.remove();
    by("stage").scrollIntoView({ block: "nearest" }); // where Stop is
    try {
        await slicer.call("begin_zip", { name: is_archive ? name : null, given: archive_now(), now: moment() });
        for (let done = 0; goes_on() && done < of.layers; tell_progress(done, of.layers))
            done = await slicer.call("add_layers", { milliseconds: ADDING });
        const whole = goes_on() ? await readable(await slicer.call("whole_zip")) : null;
        if (whole && goes_on()) {
            download(whole, name);
            say(`saved: ${name}`);
        } else say(`stopped: ${name} is not saved`);
    } catch (fault) {
        if (of !== opened) return;
        if (fault.stopped) return refused(fault, of.of);
        unsaved = warn(`${name} is not saved: ${fault.message}`);
        by("warnings").scrollIntoView({ block: "nearest" });
    } finally {
        slicer.call("end_zip").catch(() => {}); // what was not saved takes no more room
        end_wait();
    }
});

// A wrong field is shown, which a browser does not do where it is folded away.
function is_archive_right() {
    judge_all();
    by("exposures").open ||= !by("archive").checkValidity();
    return by("archive").reportValidity();
}

// The Blob, if the browser had room for it. Else it can't be read, and a download of it would fail unseen.
async function readable(blob) {
    try {
        await blob.slice(-1).arrayBuffer();
    } catch {
        throw new Error(`the browser has no room for its ${grouped(Math.ceil(blob.size / 1e6))} MB`);
    }
    return blob;
}

function download(blob, name) {
    const link = element("a");
    link.href = URL.createObjectURL(blob);
    link.download = name;
    link.click();
    setTimeout(() => URL.revokeObjectURL(link.href), LINKED);
}
