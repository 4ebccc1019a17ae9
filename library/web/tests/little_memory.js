// Leaves more and more of one block free in a memory that is full otherwise, and makes the page's calls there. Each succeeds
// or ends with status 6. Then the whole block can be allocated again, so nothing was lost, and the mesh is as it was.
(() => {
    const options = { pitch: 500, layer: 500, rule: 2, unit: 0 }, room = 300000, step = 512, least = 64;
    const told = { layer: {}, loops: {}, kept: {}, open: {} };
    const attempt = (name, task) => {
        let found = 0;
        try {
            task();
        } catch (fault) {
            found = fault.status ?? fault.message;
        }
        told[name][found] = (told[name][found] ?? 0) + 1;
        return found === 0;
    };
    const drop = () => {
        for (const name in buffers) if (buffers[name]) free(buffers[name].at);
        for (const name in buffers) buffers[name] = null;
    };
    const close = () => library.stlslice_close(BigInt(places.mesh));
    const layer = () => [area_of(9), [...bits_of(9)]];
    const all = () => JSON.stringify([...layer(), [...loops_of(9).points], shape]);
    const fill = () => {
        for (let size = 1 << 20; size >= 16; size >>= 1) while (library.malloc(BigInt(size)));
    };
    // pages are counted by a BigInt if addresses have 64 bits
    const has_grown = (pages) => [BigInt(pages), pages].some((it) => {
        try {
            library.memory.grow(it);
            return true;
        } catch {
            return false;
        }
    });

    open(options);
    const wanted = all(), as_before = () => { if (all() !== wanted) throw new Error("another layer"); };
    drop();
    let hole = library.malloc(BigInt(room));
    for (let pages = 32768; pages >= 1; pages /= 2) while (has_grown(pages));
    fill();
    const each = (task, after, may_move) => {
        for (let left = least, goes_on = true; goes_on && left < room - least; left += step) {
            library.free(hole);
            const plug = library.malloc(BigInt(room - left));
            goes_on = task();
            drop();
            library.free(plug);
            after();
            drop();
            const again = library.malloc(BigInt(room));
            if (again !== hole && !(again && may_move)) throw new Error(`memory was lost when ${left} bytes were left`);
            hole = again;
        }
    };
    each(() => {
        attempt("layer", layer);
        attempt("loops", () => loops_of(9));
        return true;
    }, as_before);
    // A mesh that is opened over another. At last it is opened; then the block may lie lower, where the first mesh was.
    each(() => {
        const has_opened = attempt("kept", () => open(options));
        if (has_opened) close();
        return !has_opened;
    }, () => told.kept[0] || as_before(), true);
    fill();
    each(() => {
        if (attempt("open", () => open(options))) attempt("layer", layer);
        close();
        return true;
    }, () => {
        open(options);
        as_before();
        close();
    });
    return told;
})()
