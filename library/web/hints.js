// What a file is if it is not an STL, what to do about it on each system, and which hint of docs/refused.md comes first.

const SLICER = "open it in PrusaSlicer, then File > Export > Export Plate as STL";
const IMPORT = "open it in Blender by File > Import, then File > Export > STL";
const MESHLAB = "open it in MeshLab, then File > Export Mesh As";
const ASSIMP = "assimp export NAME MADE";
const ARCHIVER = "unpack it with 7-Zip or a like program";
const everywhere = (way) => [way, way, way];
const of_each = (kinds, ways) => Object.fromEntries(kinds.map((kind) => [kind, ways]));

// What to do with a kind of files: on Windows, macOS and Linux. NAME is the file, MADE the STL that is made.
const WAYS = {
    "3MF": [SLICER, SLICER, "prusa-slicer --export-stl --output MADE NAME"],
    AMF: [SLICER, SLICER, ASSIMP],
    OBJ: [IMPORT, IMPORT, ASSIMP],
    PLY: [IMPORT, IMPORT, ASSIMP],
    OFF: [MESHLAB, MESHLAB, ASSIMP],
    ...of_each(["STEP", "IGES"], everywhere("open it in FreeCAD, choose the body, then File > Export, as STL mesh")),
    Blender: everywhere("open it in Blender, then File > Export > STL"),
    SketchUp: everywhere("open it in SketchUp, then File > Export > 3D Model, as STL"),
    ...of_each(["glTF", "FBX", "COLLADA", "VRML", "DXF"], everywhere(IMPORT)),
    zip: ["right-click it, then Extract All", "double-click it", "unzip NAME"],
    gzip: [ARCHIVER, "double-click it", "zcat NAME > MADE"],
    "7z or RAR": [ARCHIVER, "unpack it with Keka or a like program", "7z x NAME"],
};
const PACKED = ["zip", "gzip", "7z or RAR"];
const TAKEN = ["3MF", "OBJ"]; // by the commands, which are for Linux
const NAMED_BY_COMMANDS = [...TAKEN, "zip", "gzip", "PLY", "OFF", "AMF"];
const OTHERS = {
    "G-code": "It is G-code, which is made for one printer from a part. The part itself is needed, as STL.",
    "a web page": "It is a web page that was saved in the part's place. Download the part itself once more.",
    "a picture or document": "It is a picture or a document, and has no part in it.",
    "a file of a CAD or Office program": "If it has a part, export that as STL from the program that made it.",
};
const NOT_WHOLE = { title: "A binary STL that is not whole, or another kind of file",
    words: ["It was cut, or it is another kind of file. Get it again, or export the part again as STL."] };

const ANOTHER = { title: "Another kind of file",
    words: ["It does not begin as an STL does. Export the part as STL from the program that made it."] };

// Hints by the word that does not fit, or by the kind of the file.
const TELLING = [
    [/^[#;]/, "Comments"], [/^solid/i, "Several solids without their ends"], [/^end$/i, "Keywords in two words"],
    [/^[-+]?\d*,\d/, "Decimal commas"], [/^[-+]?[\d.]+d[-+]?\d/i, "Exponents with D"],
    [/^[-+]?(nan|inf)|#(ind|qnan|inf)/i, "nan or inf as a coordinate"],
    [/^vertex$/i, "Facets of four and more corners"], [/^endloop$/i, "Facets of two corners"],
    [/^(facet|endsolid)$/i, "A facet that is not closed"],
];
const OF_KINDS = { "UTF-16": "UTF-16", "byte order mark": "Byte order mark", gzip: "Compressed by gzip" };

// The hint for a file of this kind: an empty list if docs/refused.md says it all, or if the kind is not known.
function advice(kind, name) {
    if (kind === "not whole") return [NOT_WHOLE];
    if (OTHERS[kind]) return [{ title: `${kind[0].toUpperCase()}${kind.slice(1)}, not an STL`, words: [OTHERS[kind]] }];
    if (!WAYS[kind]) return [];
    const words = PACKED.includes(kind)
        ? ["Unpack it, and choose the STL that is in it. If there is none, export the part as STL from the program that made it. To unpack:"]
        : ["Export the part as STL from the program that made it. If you have only this file:"];
    const told = (way) => way.includes("NAME") ? element("code", ...unbroken(with_names(way, kind, name))) : way;
    const first = (system) => system === "Linux" && TAKEN.includes(kind) ? ["stlslice-sl1 takes it as it is; for an STL: "] : [];
    const systems = ["Windows", "macOS", "Linux"].map((it, at) => [it, ...first(it), told(WAYS[kind][at])]);
    return [{ title: `${/^[AFIO]/.test(kind) ? "An" : "A"} ${kind} file, not an STL`, words, systems }];
}

// The commands' line for a kind that they know, or null. They take some kinds that the page does not.
function kind_line(kind, name) {
    if (!NAMED_BY_COMMANDS.includes(kind)) return null;
    return `the part is ${kind}, not STL; ${PACKED.includes(kind) ? "unpack" : "convert"} it: ${with_names(WAYS[kind][2], kind, name)}`;
}

// A command for a file. Programs that convert tell a format by the name's ending, so a file with another one is copied.
function with_names(way, kind, name) {
    const ending = `.${kind.toLowerCase()}`, is_told = PACKED.includes(kind) || name.toLowerCase().endsWith(ending);
    const made = made_of(name, ".stl"), from = is_told ? name : stem(name) + ending;
    const copied = is_told ? "" : `cp ${named(name)} ${named(from)} && `;
    return copied + way.replaceAll("NAME", named(from)).replaceAll("MADE", named(made));
}

// The line with # for each number. Byte 0 becomes the first byte, and the two counts of an open edge stay, in order.
function pattern_of(line) {
    const counts = /there (\d+) back (\d+)$/.exec(line);
    const rest = counts ? line.slice(0, counts.index) : line, sorted = counts ? counts.slice(1).sort().join(" and ") : "";
    return rest.replace(/at byte 0$/, "at the first byte").replace(/-?\d+/g, "#") + sorted;
}

// The hints for a line, the likeliest first, as the kind of the file or the word at the fault's place tells.
function hints_for(line, kind, telling) {
    if (line === "expected solid at byte 0" && !OF_KINDS[kind]) return [ANOTHER]; // the kinds of its hints are told by their first bytes
    const pattern = pattern_of(line), begin = pattern.split("#")[0].trim();
    const exact = data.hints.filter((it) => it.lines.some((other) => pattern_of(other) === pattern));
    const found = exact.length || !begin ? exact : data.hints.filter((it) => it.lines.some((other) => other.startsWith(begin)));
    const likely = [OF_KINDS[kind], ...telling ? [telling.is_near_end && "The file was cut",
        ...TELLING.filter(([word]) => word.test(telling.word)).map(([, title]) => title)] : []];
    const is_likely = ({ title }) => likely.includes(title);
    return [...found.filter(is_likely), ...found.filter((it) => !is_likely(it))];
}
