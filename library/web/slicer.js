// The worker with the slicer in it, and who may ask it.

// A function that runs a task, one run at a time. If it is called meanwhile, the task runs once more, with the words of the
// last call. The task's first word is `is_last`, which says whether there was no such call yet. `forget` drops a call that waits, and
// `ended` waits until nothing runs.
function latest(task) {
    let wanted = null, running = null;
    const run = async () => {
        try {
            while (wanted) {
                const words = wanted;
                wanted = null;
                await task(() => !wanted, ...words);
            }
        } finally {
            running = null;
        }
    };
    const call = (...words) => {
        wanted = words;
        return running ??= run();
    };
    return Object.assign(call, { is_running: () => running !== null, forget: () => { wanted = null; }, ended: async () => { await running; } });
}

// `call` promises the result of a call, or fails with a fault: a status, a line and perhaps a place.
class Slicer {
    constructor() {
        this.waiting = new Map();
        this.last = 0;
        this.part = null; // what the worker has read
        this.fault = null; // why no call is made any more
        this.ended = new Promise((_, failed) => { this.stop = failed; });
        this.ended.catch(() => {});
        this.url = URL.createObjectURL(new Blob([by("worker").textContent], { type: "text/javascript" }));
        try {
            this.worker = new Worker(this.url);
            this.worker.onmessage = ({ data }) => this.hear(data);
            this.worker.onerror = (it) => {
                it.preventDefault(); // the page itself tells of it
                this.break_off(it.message || "it cannot be loaded");
            };
        } catch (fault) {
            this.break_off(fault.message);
        }
        const wanted = location.hash === "#32" ? [32] : [64, 32];
        const modules = data.modules.filter(({ bits }) => wanted.includes(bits))
            .map(({ bits, packed }) => ({ bits, packed: unpacked_base64(packed) }));
        this.started = this.call("start", { modules });
        this.started.catch(() => {});
    }

    hear({ id, value, fault }) {
        const { done, failed } = this.waiting.get(id);
        this.waiting.delete(id);
        this.has_stopped ||= fault?.stopped ?? false;
        fault ? failed(Object.assign(new Error(fault.line), fault)) : done(value);
    }

    call(name, value, moved = []) {
        return new Promise((done, failed) => {
            if (this.fault) throw this.fault;
            this.waiting.set(++this.last, { done, failed });
            this.worker.postMessage({ id: this.last, call: name, value }, moved);
        });
    }

    async open(options, of) {
        await this.started;
        if (this.part !== of) {
            this.part = null;
            // here, since WebKit reads no file in the worker of a page from disk
            const all = await Promise.race([of.file.arrayBuffer(), this.ended]);
            Object.assign(of, await this.call("read", { all }, [all]));
            this.part = of;
        }
        return this.call("open", options);
    }

    // The worker itself has failed, outside a call.
    break_off(why) {
        this.has_stopped = true;
        this.fail(Object.assign(new Error(`the worker has failed: ${why}`), { stopped: true }));
    }

    // Fails the calls that wait, and every later one.
    fail(fault) {
        this.fault = fault;
        this.stop(fault);
        for (const { failed } of this.waiting.values()) failed(fault);
    }

    end() {
        this.fail(Object.assign(new Error("stopped"), { ended: true }));
        this.worker?.terminate();
        URL.revokeObjectURL(this.url);
    }
}

const unpacked_base64 = (text) => Uint8Array.from(atob(text), (it) => it.charCodeAt(0));
const inflated = (packed) => new Response(new Blob([packed]).stream().pipeThrough(new DecompressionStream("deflate"))).blob();

let slicer = new Slicer();

function renew() {
    slicer.end();
    slicer = new Slicer();
    opened = null; // the new worker has no mesh
    clear_views();
}

// The answer of the mesh that is opened. If another one was opened meanwhile, it is asked of that. A fault of the mesh is
// shown. Null if no mesh is open any more.
async function asked(call, value) {
    for (let of = null; opened && of !== opened;) {
        of = opened;
        try {
            const told = await slicer.call(call, value());
            if (of === opened) return told;
        } catch (fault) {
            if (of === opened) refused(fault, of.of);
        }
    }
    return null;
}
