// What is wrong in the page's layout: parts that lie over each other or outside the window, and words that are cut.
(() => {
    const ids = ["h1", ".choose .button", "#file ~ .hint", "#form", "#archive", "#part", "#keys", ".foot", "#told", ".tools", "#stage",
        "#plot", "#layer", "#down", "#up"];
    const is_seen = (it) => it.checkVisibility() && it.getBoundingClientRect().width > 2;
    const parts = ids.map((id) => ({ id, it: document.querySelector(id) })).filter(({ it }) => is_seen(it));
    // what the settings' column has scrolled away is not seen
    const aside = document.querySelector("aside").getBoundingClientRect();
    const seen_of = (it) => {
        const { left, top, right, bottom } = it.getBoundingClientRect(), inside = it.closest("aside");
        return inside ? { left, right, top: Math.max(top, aside.top), bottom: Math.min(bottom, aside.bottom) } : { left, top, right, bottom };
    };
    const boxes = parts.map(({ id, it }) => ({ id, box: seen_of(it) })).filter(({ box }) => box.top < box.bottom), found = [];
    const overlap = (one, other) => one.left < other.right - 1 && other.left < one.right - 1
        && one.top < other.bottom - 1 && other.top < one.bottom - 1;
    for (const { id, box } of boxes) {
        if (box.left < -0.5 || box.right > innerWidth + 0.5) found.push(`${id} is wider than the window`);
        for (const other of boxes) if (id < other.id && overlap(box, other.box)) found.push(`${id} lies over ${other.id}`);
    }
    for (const it of document.querySelectorAll("button, select, .button, .check, #form label, #archive label"))
        if (is_seen(it) && it.scrollWidth > it.clientWidth + 1) found.push(`cut: ${it.textContent.trim().slice(0, 30)}`);
    const right = (it) => it.getBoundingClientRect().right;
    for (const it of document.querySelectorAll("#command span"))
        if (is_seen(it) && right(it) > right(it.parentElement) + 1) found.push(`over its edge: ${it.textContent}`);
    const layer = document.querySelector("#layer").getBoundingClientRect(), stage = document.querySelector("#stage").getBoundingClientRect();
    if (!scrollY && layer.bottom > innerHeight) found.push("the slider is below the window");
    if (layer.bottom - stage.top > innerHeight) found.push("picture and slider are not seen together");
    if (document.documentElement.scrollWidth > innerWidth) found.push("the page is wider than the window");
    return found;
})()
