// The picture of the layer: where it lies on the canvas, how it is drawn, and how hands move it.

const FILLED = 0.94; // how much of the canvas a whole image takes
const MOST_ZOOM = 400, MOST_SIDE = 8;
const SWIPE = 10; // pixels of the screen for a layer, if a finger swipes
const KEPT_SEEN = 40; // pixels of the screen that stay seen of an image that is moved

const dense = () => devicePixelRatio || 1;

// The colours are those of style.css.
const styles = getComputedStyle(document.documentElement);
const css = (name) => styles.getPropertyValue(`--${name}`).trim();
const colour_of = (name) => [1, 3, 5].map((at) => parseInt(css(name).slice(at, at + 2), 16));
const dot_of = ([red, green, blue]) => (255 << 24 | blue << 16 | green << 8 | red) >>> 0; // as in an ImageData

// The canvas's pen, when the canvas has a dot for each of the screen's and nothing is drawn.
function fitted(canvas) {
    const width = Math.round(canvas.clientWidth * dense()), height = Math.round(canvas.clientHeight * dense());
    if (canvas.width !== width || canvas.height !== height) Object.assign(canvas, { width, height });
    const pen = canvas.getContext("2d");
    pen.setTransform(1, 0, 0, 1, 0, 0);
    pen.clearRect(0, 0, width, height);
    return { pen, width, height };
}

// Width and height of an image's pixel in screen pixels, the place of the image's first corner, its size, and whether it is
// mirrored, as on a printer's screen.
function framed() {
    const { width, height } = by("image"), { columns, rows, sides } = opened, { x, y } = mirrors_now();
    const fit = Math.min(width / (columns * sides[0]), height / (rows * sides[1])) * FILLED * look.zoom;
    const [across, down] = sides.map((it) => fit * it), wide = across * columns, high = down * rows;
    return { across, down, left: (width - wide) / 2 + look.x * dense(), top: (height - high) / 2 + look.y * dense(), wide, high, x, y };
}

// How many of the image's pixels along a side one of the picture stands for, so that there is no more than is seen.
function side_now() {
    const { across, down } = framed(), scale = Math.max(across, down);
    let side = 1;
    while (side < MOST_SIDE && 2 * side * scale <= 1) side *= 2;
    return side;
}

// Asks for another picture, if the image is seen from nearer or farther by now.
function refine() {
    if (opened && shown && shown.wanted !== side_now()) show();
}

// A function that runs a task at the next frame: once, however often it is called before.
function soon(task) {
    let is_waiting = false;
    const call = () => {
        if (is_waiting) return;
        is_waiting = true;
        requestAnimationFrame(() => {
            is_waiting = false;
            task();
        });
    };
    return Object.assign(call, { is_waiting: () => is_waiting });
}

const draw_soon = soon(() => draw());

function draw() {
    const { pen, width, height } = fitted(by("image"));
    by("image").style.touchAction = look.zoom > 1 ? "none" : "pan-y";
    if (!shown || !opened) return;
    const frame = framed(), { across, down, left, top, wide, high } = frame, { side, picture, bits } = shown;
    const is_coarse = bits && side * Math.max(across, down) > 1;
    if (is_coarse) draw_bits(pen, width, height, frame);
    mirror(pen, frame);
    if (!is_coarse) {
        pen.imageSmoothingEnabled = side * Math.min(across, down) < 1;
        pen.drawImage(picture, left, top, across * side * picture.width, down * side * picture.height);
    }
    pen.strokeStyle = css("edge");
    pen.lineWidth = dense();
    pen.strokeRect(left, top, wide, high);
    if (by("outlines").checked) draw_outlines(pen, frame);
}

function mirror(pen, { left, top, wide, high, x, y }) {
    pen.setTransform(x ? -1 : 1, 0, 0, y ? -1 : 1, x ? 2 * left + wide : 0, y ? 2 * top + high : 0);
}

// The image itself, if the picture is too coarse: each screen pixel shows the image's pixel below its middle.
function draw_bits(pen, width, height, { across, down, left, top, x, y }) {
    const { columns, rows } = opened, { bits } = shown, stride = columns + 7 >> 3;
    const dots = pen.createImageData(width, height), colours = new Uint32Array(dots.data.buffer);
    const empty = dot_of(colour_of("ground")), filled = dot_of(colour_of("body"));
    const at = (place, first, scale, count, is_mirrored) => {
        const found = Math.floor((place + 0.5 - first) / scale);
        return found < 0 || found >= count ? -1 : is_mirrored ? count - 1 - found : found;
    };
    const column = Int32Array.from({ length: width }, (_, u) => at(u, left, across, columns, x));
    for (let v = 0; v < height; v++) {
        const j = at(v, top, down, rows, y);
        for (let u = 0; j >= 0 && u < width; u++) {
            const i = column[u];
            if (i >= 0) colours[v * width + u] = bits[j * stride + (i >> 3)] << (i & 7) & 128 ? filled : empty;
        }
    }
    pen.putImageData(dots, 0, 0);
}

function draw_outlines(pen, { across, down, left, top }) {
    const { points, ends, rims } = shown.outlines, paths = { rim: new Path2D(), hole: new Path2D() };
    rims.forEach((is_rim, loop) => {
        const path = paths[is_rim ? "rim" : "hole"];
        for (let it = loop ? ends[loop - 1] : 0, first = it; it < ends[loop]; it++) {
            const x = left + points[2 * it] * across, y = top + points[2 * it + 1] * down;
            it === first ? path.moveTo(x, y) : path.lineTo(x, y);
        }
        path.closePath();
    });
    pen.lineWidth = 1.5 * dense();
    pen.lineJoin = "round";
    for (const name in paths) {
        pen.strokeStyle = css(name);
        pen.stroke(paths[name]);
    }
}

// A place on the canvas, counted from its middle.
const from_middle = (x, y) => [x - by("image").clientWidth / 2, y - by("image").clientHeight / 2];

// Zooms by a factor. The point of the image at (u, v), counted from the canvas's middle, keeps its place.
function zoom(factor, u = 0, v = 0) {
    const by_much = Math.max(1, Math.min(MOST_ZOOM, look.zoom * factor)) / look.zoom;
    look = { zoom: look.zoom * by_much, x: look.x + (u - look.x) * (1 - by_much), y: look.y + (v - look.y) * (1 - by_much) };
    if (look.zoom === 1) look = { zoom: 1, x: 0, y: 0 };
    draw();
    refine();
}

// Moves an image that is zoomed, but not out of sight.
function pan(x, y) {
    if (!opened || look.zoom === 1) return;
    const { wide, high } = framed(), { clientWidth, clientHeight } = by("image");
    const within = (moved, room, size) => {
        const most = Math.max(0, (room + size / dense()) / 2 - KEPT_SEEN);
        return Math.max(-most, Math.min(most, moved));
    };
    look = { ...look, x: within(look.x + x, clientWidth, wide), y: within(look.y + y, clientHeight, high) };
    draw();
}

function point_at(it) {
    if (!opened || !shown) return void (by("pointed").textContent = "");
    const { across, down, left, top, x, y } = framed(), { columns, rows } = opened;
    let i = Math.floor((it.offsetX * dense() - left) / across), j = Math.floor((it.offsetY * dense() - top) / down);
    const is_inside = i >= 0 && i < columns && j >= 0 && j < rows;
    if (x) i = columns - 1 - i;
    if (y) j = rows - 1 - j;
    const up = rows - 1 - j, [part_x, part_y] = place_of(i, up).map(mm);
    by("pointed").textContent = is_inside ? `column ${i}, row ${up} from the bottom; x ${part_x}, y ${part_y} mm` : "";
}

// Where a pixel's middle lies in the part, in micrometres: on a screen the part is multiplied, and turned by quarters.
function place_of(i, up) {
    const { origin, pitch, times, options } = opened;
    let [x, y] = [i, up].map((at, axis) => (origin[axis] + (at + 0.5) * pitch) / times[axis]);
    for (let turn = options.screen?.turn ?? 0; turn > 0; turn--) [x, y] = [y, -x];
    return [x, y];
}

// ---- fingers and the mouse: one moves the image, or with a finger the layers if the image is whole; two zoom it

const fingers = new Map();
let swiped = 0;

function finger_down(it) {
    by("image").setPointerCapture(it.pointerId);
    fingers.set(it.pointerId, { x: it.offsetX, y: it.offsetY });
    swiped = 0;
}

function finger_moved(it) {
    point_at(it);
    const was = fingers.get(it.pointerId), now = { x: it.offsetX, y: it.offsetY };
    if (!was || !opened) return;
    fingers.set(it.pointerId, now);
    const other = [...fingers].find(([id]) => id !== it.pointerId)?.[1];
    if (other) pinch(was, now, other);
    else if (look.zoom > 1) pan(now.x - was.x, now.y - was.y);
    else if (it.pointerType === "touch") swipe(now.x - was.x);
}

function swipe(x) {
    swiped += x;
    const layers = Math.trunc(swiped / SWIPE);
    swiped -= SWIPE * layers;
    go(k_now() + layers);
}

function pinch(was, now, other) {
    const apart = ({ x, y }) => Math.hypot(x - other.x, y - other.y);
    zoom(apart(now) / Math.max(1, apart(was)), ...from_middle((now.x + other.x) / 2, (now.y + other.y) / 2));
}
