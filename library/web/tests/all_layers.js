// All layers of the mesh that the worker has opened: images and loops' points in base64, areas by both calls, and the loops' ends.
(() => {
    const base64 = (data) => {
        let words = "";
        for (let at = 0; at < data.length; at += 32768) words += String.fromCharCode(...data.subarray(at, at + 32768));
        return btoa(words);
    };
    const joined = (parts) => {
        const all = new Uint8Array(parts.reduce((sum, it) => sum + it.length, 0));
        parts.reduce((at, part) => { all.set(part, at); return at + part.length; }, 0);
        return all;
    };
    const images = [], points = [], areas = [], ends = [];
    for (let k = 0; k < shape.layers; k++) {
        bits_of(k);
        const size = size_at(places.size);
        images.push(bytes(buffers.image.at + HEAD + image_bytes() - size, size).slice());
        areas.push(area_of(k));
        const loops = loops_of(k);
        points.push(new Uint8Array(loops.points.buffer));
        ends.push([...loops.ends]);
    }
    const together = [0, 1, 2].map((rule) => areas_from(0, rule, Infinity));
    return { images: base64(joined(images)), points: base64(joined(points)), areas, together, ends };
})()
