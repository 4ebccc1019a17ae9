// The part as it came, ASCII or binary STL; and what else people choose, by its first bytes and its last.

const BINARY = { head: 84, facet: 50, count: 80 };
const NEAR_END = 256, END = 1 << 16; // bytes

let file = null, is_binary = false;
let not_whole = null; // the commands' line, if the file is neither text nor a whole binary STL

// Kinds of files by their first bytes and their last, each a letter. The first are those of the commands, which tell them in the
// same way: a 3MF is a zip that names its relationships there.
const KINDS = {
    "3MF": /^PK\x03\x04[^]*_rels\/\.rels/,
    zip: /^PK\x03\x04/,
    gzip: /^\x1f\x8b/,
    PLY: /^ply[ \t-\r]/,
    OFF: /^(?:[ \t-\r]|#[^\r\n]*[\r\n])*(?:ST)?C?N?4?n?OFF[ \t-\r]/,
    OBJ: /^(?:\xef\xbb\xbf)?(?:[ \t-\r]|#[^\r\n]*[\r\n])*(?:v|vn|vt|vp|f|o|g|s|mtllib|usemtl)[ \t]/,
    AMF: /^(?:\xef\xbb\xbf)?[ \t-\r]*(?:<[?!][^>]*>[ \t-\r]*)*<amf[ \t-\r>]/,
    "7z or RAR": /^(7z\xbc\xaf|Rar!)/,
    SketchUp: /^\xff\xfe\xff\x0e/,
    "UTF-16": /^(\xff\xfe|\xfe\xff)/,
    COLLADA: /^(\xef\xbb\xbf)?\s*(<\?xml[^>]*>\s*)?<COLLADA\b/,
    "byte order mark": /^\xef\xbb\xbf/,
    STEP: /^\s*ISO-10303-21;/,
    IGES: /^[^\n]{72}S +1\s/,
    glTF: /^(glTF|\s*\{\s*"(asset|scene|accessors)")/,
    FBX: /^(Kaydara FBX|; FBX )/,
    Blender: /^BLENDER/,
    VRML: /^#(VRML|X3D)/,
    DXF: /^\s*(999[^]*?)?0\s+SECTION\s/,
    "G-code": /^\s*(;[^\n]*\n\s*)*([GM]\d+\s|;)/,
    "a web page": /^\s*<(!doctype html|html|head|body)\b/i,
    "a picture or document": /^(\x89PNG|\xff\xd8\xff|GIF8|BM|%PDF|\{\\rtf)/,
    "a file of a CAD or Office program": /^\xd0\xcf\x11\xe0/,
};
const NAMED = ["3MF", "zip", "gzip", "PLY", "OFF", "OBJ", "AMF", "UTF-16", "SketchUp"]; // what the commands take for no binary STL

// Takes the bytes of a part. The library too takes a file of this length for a binary STL.
function read({ all }) {
    file = new Uint8Array(all);
    const has_head = file.length >= BINARY.head, count = has_head ? new DataView(all).getUint32(BINARY.count, true) : 0;
    is_binary = has_head && file.length === size_of(count);
    const kind = is_binary ? null : kind_of(file);
    not_whole = has_head && !is_binary && may_be_binary(file, kind) ? not_whole_line(count, file.length) : null;
    return { is_binary, kind: kind ?? (not_whole && "not whole") };
}

const size_of = (count) => BINARY.head + BINARY.facet * count;

function kind_of(all) {
    const ends = letters_of(all.subarray(0, END)) + letters_of(all.subarray(Math.max(END, all.length - END)));
    return Object.keys(KINDS).find((it) => KINDS[it].test(ends)) ?? null;
}

// A binary STL has a 0 there, in its count of facets at the latest.
const may_be_binary = (all, kind) => !NAMED.includes(kind) && all.subarray(0, BINARY.head).includes(0);

function not_whole_line(count, length) {
    const [facets, wanted, found] = [count, size_of(count), length].map((it) => it.toLocaleString("en-US"));
    return `the part is no text, and no whole binary STL: its header counts ${facets} facets, which take ${wanted} bytes, and it has ${found}`;
}

// A letter for each byte, as names of solids may have any bytes. (What decoders call Latin-1 is another code.)
function letters_of(all) {
    let letters = "";
    for (let at = 0; at < all.length; at += 8192) letters += String.fromCharCode(...all.subarray(at, at + 8192));
    return letters;
}

// A fault at a place of the file gets the line there with its words, or the facet of a binary file; and what tells the likely
// reason: the word there, and whether the text ends soon after it.
function placed(fault) {
    const facet = is_binary && / of facet (\d+): /.exec(fault.message), found = /\bat byte (\d+)/.exec(fault.message);
    if (facet) return Object.assign(fault, { place: `Facet ${Number(facet[1]) + 1} of the file, counted from 1.` });
    if (!found) return fault;
    const byte = Number(found[1]), word = letters_of(file.subarray(byte, byte + 64)).split(/\s/)[0];
    return Object.assign(fault, { place: line_at(byte), telling: { word, is_near_end: file.length - byte < NEAR_END } });
}

function line_at(byte) {
    let line = 1, start = 0;
    for (let at = file.indexOf(10); at >= 0 && at < byte; at = file.indexOf(10, start)) {
        line++;
        start = at + 1;
    }
    const end = file.indexOf(10, start), words = file.subarray(start, Math.min(end < 0 ? file.length : end, start + 80));
    return `Line ${line}: ${new TextDecoder().decode(words).replace(/[^ -~]/g, "\ufffd").trim()}`;
}
