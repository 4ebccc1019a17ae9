"""The page at its limits: little memory, a full stack, many openings, a worker that fails, a large part."""

import os

from common import IDLE, example, holds, same, script
from measure import ring_of

OPENINGS = 3000
FACETS = 500000  # of a large part, which takes longer to open than the page waits before it says that it slices
STATUSES = {"0", "6"}


def opened_bracket(page):
    page.load()
    page.set(500, 500)
    page.take(example("bracket"))
    page.until("areas.length === opened.layers")


def try_little_memory(page):
    """Allocations that fail, in the calls and in the page. Returns the numbers of calls and of those that failed."""
    opened_bracket(page)
    told = page.in_worker(script("little_memory"))
    for name, found in told.items():
        same(set(found), STATUSES, f"how {name} ends in little memory")
    page.value("part = { ...part }; slice()")
    page.until("!by('fault').hidden")
    same([page.text("fault_head"), page.text("fault_line")], ["bracket.stl is refused, status 6", "out of memory"],
         "the page out of memory")
    holds("with its hint", "slabs" in page.text("hints"))
    return sum(sum(it.values()) for it in told.values()), sum(it["6"] for it in told.values())


# Opens the part with the stack's pointer so near to its end, and returns a layer or the trap's words
WITH_STACK = """(() => {
    library.__stack_pointer.value = %dn;
    try {
        open({ pitch: 500, layer: 500, rule: 2, unit: 0 });
        return [...bits_of(9)].join();
    } catch (trap) {
        return trap.message;
    }
})()"""


def try_full_stack(page):
    """With little of the stack left, a call is right or traps. After a trap the worker refuses every call, and the next
    opening has a new worker. Returns the numbers of both."""
    opened_bracket(page)
    wanted, top = page.in_worker("[[...bits_of(9)].join(), Number(library.__stack_pointer.value)]")
    right = stopped = 0
    size = 16
    while size < top:
        told = page.in_worker(WITH_STACK % size)
        if told.startswith("the slicer has stopped: "):
            stopped += 1
            must_refuse(page, told)
        else:
            right += 1
            same(told, wanted, f"the layer with a stack of {size}")
        size = size * 4 // 3 // 16 * 16 + 16
    holds(f"both ends were seen: {right} right, {stopped} stopped", right and stopped)
    return right, stopped


def must_refuse(page, line):
    """The worker refuses each call, the page says why, and the next opening has a new worker."""
    for call in ("areas', { from: 0, rule: 2, milliseconds: 1 }", "png', { k: 9 }", "open', { pitch: 500, layer: 500, rule: 2, unit: 0 }"):
        same(page.value(f"slicer.call('{call}).then(() => null, (it) => it.message)"), line, f"the call {call}")
    page.value("slicer.call('layer', { k: 9 }).catch((fault) => refused(fault, part))")
    page.until("!by('fault').hidden")
    same([page.text("fault_line"), page.text("fault_place")], [line, "Change an option or choose a part to start it anew."],
         "what the page says")
    page.change(pitch=500)
    page.until(f"{IDLE} && opened")


MANY = """(async () => {
    const sizes = [], options = [400, 900, 250].map((pitch) => ({ pitch, layer: pitch, rule: 2, unit: 0 }));
    for (let i = 0; i < %d; i++) {
        sizes.push((await slicer.open(options[i %% 3], part)).memory);
        if (i %% 7 === 0) await slicer.call("layer", { k: 5, side: 1, colours: [[9, 9, 9], [0, 0, 0]] });
        if (i %% 11 === 0) await slicer.call("open", { ...options[0], pitch: 0 }).catch(() => {});
    }
    return [sizes[100], sizes.at(-1)];
})()"""


# The bytes of the memory after a buffer has grown to 3 MB, 1 kB at a time
GROWING = """(() => {
    for (let size = 1; size < 3000; size++) buffer("image", 1000 * size);
    return library.memory.buffer.byteLength;
})()"""


def try_openings(page):
    """Opens meshes in turn, many times: the memory does not grow. Returns its bytes."""
    page.load()
    page.set(400, 400)
    page.take(example("calibration_block"))
    soon, at_last = page.value(MANY % OPENINGS)
    same(at_last, soon, "the memory after many openings")
    holds("a buffer that grows gives back the one before", page.in_worker(GROWING) < 32 << 20)
    return soon


WATCH = """longest = 0, before = performance.now(), was_busy = false;
(function look_again() {
    const now = performance.now();
    longest = Math.max(longest, now - before);
    before = now;
    was_busy ||= !by('busy').hidden;
    setTimeout(look_again, 5);
})()"""


def opened_watched(page, path):
    """Opens a part while the page is watched. Returns the longest pause, and the time."""
    page.load()
    page.set(100, 100)
    page.value(WATCH)
    began = page.value("performance.now()")
    page.take(path)
    page.k()
    took = page.value("performance.now()") - began
    holds("the page says that it slices", page.value("was_busy"))
    return page.value("longest"), took


def try_large_part(page, room):
    """The page goes on while a large part is opened; opening can be stopped. Returns the longest pause, and the time."""
    ring = os.path.join(room, "ring.stl")
    ring_of(FACETS, ring)
    for _ in range(3):  # what else the machine does may hold the page up
        longest, took = opened_watched(page, ring)
        if 3 * longest < took:
            break
    holds(f"the page was never held up for a third of the time: {longest:.0f} of {took:.0f} ms", 3 * longest < took)
    for what, script in (("a part", "0"), ("a part whose reading never ends", "File.prototype.arrayBuffer = () => new Promise(() => {}); 0")):
        page.load()
        page.value("globalThis.read = File.prototype.arrayBuffer; 0")
        page.value(script)
        try_stop(page, ring, what)
    return longest, took


# Clicks Stop as soon as the page has the button
STOPS = """new MutationObserver((_, it) => {
    if (by('busy').hidden) return;
    it.disconnect();
    by('stop').click();
}).observe(by('busy'), { attributes: true })"""


def try_stop(page, path, what):
    """The button stops the opening of a part, and the next part is opened."""
    page.value("by('file').value = ''")
    page.value(STOPS)
    page.browser.choose("#file", path)
    page.until("!by('fault').hidden && by('busy').hidden")
    same(page.text("fault_line"), "stopped by hand", f"what is said of {what} that is stopped")
    page.value("(File.prototype.arrayBuffer = globalThis.read, 0)")
    page.take(example("bracket"))
    same(page.value("opened.facets"), 236, f"facets of the part after {what}")


DENIED = "globalThis.Worker = class { constructor() { throw new Error('denied'); } }"


def try_broken_worker(page):
    """The page says if the worker's script fails, or if the browser allows no worker. The next opening has a new worker."""
    page.load()
    page.value("(globalThis.script = by('worker').textContent, by('worker').textContent = 'throw new Error(\"broken\")', renew())")
    page.take(example("bracket"))
    same([page.text("fault_line"), page.text("fault_place")],
         ["the worker has failed: Uncaught Error: broken", "Change an option or choose a part to start it anew."],
         "what the page says")
    page.value("by('worker').textContent = script")
    page.change(pitch=500)
    page.until(f"{IDLE} && opened")
    denied = page.browser.ask("Page.addScriptToEvaluateOnNewDocument", source=DENIED)["identifier"]
    page.load()
    page.browser.ask("Page.removeScriptToEvaluateOnNewDocument", identifier=denied)
    same(page.text("fault_line"), "this browser cannot run the slicer: the worker has failed: denied", "what the page says first")
    page.take(example("bracket"))
    same(page.text("fault_line"), "the worker has failed: denied", "what it says of a part")


def try_all(page, room):
    calls, failed = try_little_memory(page)
    print(f"memory: {calls} calls in little of it, {failed} with status 6; none lost any", flush=True)
    right, stopped = try_full_stack(page)
    print(f"stack: {stopped} calls stopped at its end, after which the worker refused; {right} right", flush=True)
    print(f"openings: {OPENINGS} in {try_openings(page) >> 20} MiB", flush=True)
    try_broken_worker(page)
    print("a worker that fails, or is denied, is reported", flush=True)
    longest, took = try_large_part(page, room)
    print(f"a part of {FACETS} facets: shown after {took:.0f} ms, the page held up for {longest:.0f} ms at most", flush=True)
