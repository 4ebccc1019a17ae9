// The areas over the height, beside the slider.

const THUMB = 8; // half of the slider's thumb, in pixels, beside which the plot begins and ends

function plot() {
    const { pen, width, height } = fitted(by("plot")), unit = dense(), head = 15 * unit;
    if (!opened) return;
    const { layers } = opened, left = THUMB * unit, wide = width - 2 * left, step = layers > 1 ? wide / (layers - 1) : 0;
    const most = areas.reduce((a, b) => Math.max(a, b), 1), high = height - head - 2 * unit;
    const x = (k) => layers > 1 ? left + k * step : left + wide / 2, y = (area) => head + high * (1 - area / most);
    pen.fillStyle = css("area");
    pen.beginPath();
    pen.moveTo(x(0) - step / 2, y(0));
    areas.forEach((area, k) => {
        pen.lineTo(x(k) - step / 2, y(area));
        pen.lineTo(x(k) + step / 2, y(area));
    });
    pen.lineTo(x(Math.max(0, areas.length - 1)) + step / 2, y(0));
    pen.fill();
    pen.fillStyle = css("line");
    pen.fillRect(left, y(0), wide, unit);
    pen.fillStyle = css("mark");
    pen.fillRect(x(k_now()) - unit, head, 2 * unit, high);
    plot_words(pen, left, width, most);
}

// Words at both ends, as far as there is room for them.
function plot_words(pen, left, width, most) {
    const { layers, origin, options } = opened, size = 11 * dense();
    const words = areas.length < layers ? [`areas: layer ${grouped(areas.length)} of ${grouped(layers)}`, `areas: ${grouped(areas.length)}`]
        : [`area over height, at most ${square_mm(most).toFixed(1)} mm²`, `${square_mm(most).toFixed(1)} mm²`];
    pen.fillStyle = css("quiet");
    pen.font = `${size}px system-ui, "DejaVu Sans", sans-serif`;
    pen.textBaseline = "top";
    const room = width - 2 * left, wide = (text) => pen.measureText(text).width;
    const seen = words.find((it) => wide(it) <= room) ?? "", heights = `z ${mm(origin[2])} to ${mm(origin[2] + layers * options.layer)} mm`;
    pen.textAlign = "left";
    pen.fillText(seen, left, dense());
    if (wide(seen) + size + wide(heights) > room) return;
    pen.textAlign = "right";
    pen.fillText(heights, width - left, dense());
}

function go_to_plotted(it) {
    if (!opened || !it.buttons) return;
    const wide = by("plot").clientWidth - 2 * THUMB;
    go(Math.round((it.offsetX - THUMB) / wide * (opened.layers - 1)));
}
