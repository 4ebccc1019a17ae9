// Buttons, fields, keys, the wheel and dropped files; and how the page begins.

by("file").onchange = () => take_files(by("file").files);
by("file").onclick = () => { by("file").value = ""; };
by("form").onsubmit = (it) => it.preventDefault(); // a field that was changed has asked already
by("form").onchange = () => {
    lay_form();
    keep();
    slice();
};
by("archive").onsubmit = (it) => it.preventDefault();
by("archive").onchange = () => {
    keep();
    tell_exposures();
    tell_command();
    draw();
};
for (const id in TAKES) by(id).oninput = () => judge(id);
by("outlines").onchange = () => {
    keep();
    draw();
};
by("layer").oninput = show;
by("stop").onclick = stop;
by("again").onclick = () => {
    part.is_new = true;
    slice();
};
by("down").onclick = () => go(k_now() - 1);
by("up").onclick = () => go(k_now() + 1);
by("nearer").onclick = () => zoom(1.5);
by("farther").onclick = () => zoom(1 / 1.5);
by("whole").onclick = () => zoom(0);
by("save").onclick = save;
by("save_pngs").onclick = () => save_all("pngs");
by("save_archive").onclick = () => save_all("archive");
by("copy").onclick = copy;

addEventListener("dragover", (it) => { it.preventDefault(); document.body.classList.add("over"); });
addEventListener("dragleave", (it) => { if (!it.relatedTarget) document.body.classList.remove("over"); });
addEventListener("drop", (it) => {
    it.preventDefault();
    document.body.classList.remove("over");
    take_files(it.dataTransfer.files);
});

// ---- keys

const FAR = 60; // pixels that a key moves the image
const KEYS = {
    "+": () => zoom(1.5), "=": () => zoom(1.5), "-": () => zoom(1 / 1.5), 0: () => zoom(0), s: save,
    o: () => by("outlines").click(), "?": () => { by("keys").open = !by("keys").open; },
};
const MOVES = {
    ArrowRight: () => go(k_now() + 1), ArrowUp: () => go(k_now() + 1), PageUp: () => go(k_now() + 10), End: () => go(Infinity),
    ArrowLeft: () => go(k_now() - 1), ArrowDown: () => go(k_now() - 1), PageDown: () => go(k_now() - 10), Home: () => go(0),
};
const PANS = {
    ArrowRight: () => pan(-FAR, 0), ArrowLeft: () => pan(FAR, 0), ArrowUp: () => pan(0, FAR), ArrowDown: () => pan(0, -FAR),
};

const page_scrolls = () => document.scrollingElement.scrollHeight > innerHeight + 1;

addEventListener("keydown", (it) => {
    const is_field = it.target.matches?.("input:not([type=range]):not([type=checkbox]), select");
    if (is_field || it.ctrlKey || it.altKey || it.metaKey) return;
    const act = it.key.length === 1 ? KEYS[it.key.toLowerCase()] : it.shiftKey ? PANS[it.key] : MOVES[it.key];
    if (!act || it.key.length > 1 && !moves_layers(it.target)) return;
    it.preventDefault();
    act();
});

// Arrows and the like scroll what else can be scrolled: hints, settings, and a page that is higher than its window.
function moves_layers(target) {
    const is_anywhere = target === document.body || target === document.documentElement;
    return opened && (is_anywhere ? !page_scrolls() : by("look").contains(target));
}

// ---- the wheel

// The wheel moves through the layers, a layer for each notch. With Ctrl it zooms, and so browsers report two fingers on a
// touch pad. If the page can be scrolled, the wheel does that, unless the picture or the slider was clicked.
let turned = 0;
let clicked = null; // the picture or the slider, until it loses the focus; a part that was chosen gives the focus without a click
const is_in_use = (it) => it === clicked && it === document.activeElement;

function wheel(it) {
    if (!opened || !it.ctrlKey && page_scrolls() && !is_in_use(it.currentTarget)) return;
    const pixels = it.deltaY * (it.deltaMode === 1 ? 33 : it.deltaMode === 2 ? 800 : 1);
    const is_at_end = k_now() === (pixels < 0 ? opened.layers - 1 : 0);
    if (!it.ctrlKey && is_at_end && page_scrolls()) return;
    it.preventDefault();
    if (it.ctrlKey) return zoom(Math.exp(-pixels / 300), ...from_middle(it.offsetX, it.offsetY));
    turned -= pixels;
    const notches = Math.trunc(turned / 50);
    turned -= 50 * notches;
    go(k_now() + Math.sign(notches) * Math.ceil(Math.abs(notches) / 2));
}

for (const id of ["image", "plot", "layer"]) by(id).addEventListener("wheel", wheel, { passive: false });
for (const id of ["image", "layer"]) {
    by(id).addEventListener("pointerdown", (it) => { clicked = it.currentTarget; });
    by(id).addEventListener("blur", (it) => { if (clicked === it.currentTarget) clicked = null; });
}

by("image").onpointerdown = finger_down;
by("image").onpointermove = finger_moved;
by("image").onpointerup = by("image").onpointercancel = (it) => fingers.delete(it.pointerId);
by("image").onpointerleave = () => { by("pointed").textContent = ""; };
by("image").ondblclick = (it) => zoom(2, ...from_middle(it.offsetX, it.offsetY));
by("plot").onpointerdown = (it) => { by("plot").setPointerCapture(it.pointerId); go_to_plotted(it); };
by("plot").onpointermove = go_to_plotted;

// ---- the beginning

for (const { name, title, packed } of data.demos) {
    const button = element("button", title);
    button.type = "button";
    button.onclick = async () => take(await inflated(unpacked_base64(packed)), name);
    by("demos").append(button);
}

for (const { model, name } of data.printers) by("printer").add(new Option(name, model), by("printer").lastElementChild);
restore();
by("keys").open = matchMedia("(min-width: 50.01rem) and (min-height: 55rem)").matches;
new ResizeObserver(() => { draw(); plot(); refine(); }).observe(by("image"));
new ResizeObserver(plot).observe(by("plot"));
matchMedia("(prefers-color-scheme: dark)").onchange = () => { draw(); show(); };
clear_views();
by("welcome").hidden = false;
slicer.started.then(
    ({ version }) => {
        by("version").textContent = [version / 1e6, version / 1e3 % 1e3, version % 1e3].map(Math.floor).join(".");
    },
    (fault) => refused(new Error(`this browser cannot run the slicer: ${fault.message}`), { name: "The slicer" }));
