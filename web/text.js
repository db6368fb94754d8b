// Readable texts of scenes, in the form that stands at the head of examples/make.py. Whether a scene is accepted is the kernel's to say.

const COUNT = [0, 255], COORDINATE = [-32768, 32767], WEIGHT = [-128, 127]; // what a record has room for
const LENGTHS = { SC: 6, FP: 9, VX: 9, FC: 5, EN: 2 };

export class Wrong extends Error {}

function numbersOf(words, least, most = least) {
    if (words.length < least || words.length > most) throw new Wrong(`${least} to ${most} numbers must stand here, not ${words.length}`);
    const other = words.find((word) => !/^-?[0-9]+$/.test(word));
    if (other !== undefined) throw new Wrong(`${other} is no whole number`);
    return words.map(Number);
}

function fitting(numbers, [low, high]) {
    const other = numbers.find((number) => number < low || number > high);
    if (other !== undefined) throw new Wrong(`${other} has no room in its record, which takes ${low} to ${high}`);
    return numbers;
}

const ascii = (mark) => [...new TextEncoder().encode(mark)];

function pointBytes(mark, numbers) {
    const [x, y, z, weight = 1] = [...fitting(numbers.slice(0, 3), COORDINATE), ...fitting(numbers.slice(3), WEIGHT)];
    return [...mark, ...[x, y, z].flatMap((part) => [part & 255, (part >> 8) & 255]), weight & 255];
}

const faceBytes = (mark, corners) => [...mark, ...fitting(corners, COUNT)];

/** The record's mark and form by its number, as the header's counts have it; null where there is none. */
function recordAt(bytes, k) {
    const [a, facesA, b, facesB] = bytes.slice(2, LENGTHS.SC);
    const marks = ["SC", "FP", ...Array(a + b).fill("VX"), ...Array(facesA + facesB).fill("FC"), "EN"];
    const start = marks.slice(0, k).reduce((sum, mark) => sum + LENGTHS[mark], 0);
    return bytes.length >= LENGTHS.SC && k >= 0 && k < marks.length ? { mark: marks[k], start } : null;
}

function writtenOver(bytes, offset, written) {
    const end = offset + written.length;
    if (offset < 0 || end > bytes.length) throw new Wrong(`there are no bytes ${offset} to ${end - 1}`);
    return [...bytes.slice(0, offset), ...written, ...bytes.slice(end)];
}

/** Lines that damage bytes that are there. */
const DAMAGE = {
    record(bytes, [number, mark, ...rest]) {
        const [k] = numbersOf([number ?? ""], 1), record = recordAt(bytes, k);
        if (!record || !mark) throw new Wrong(`there is no record ${k}, or no mark`);
        const isFace = record.mark === "FC", isPoint = ["FP", "VX"].includes(record.mark);
        const numbers = isFace ? numbersOf(rest, 3) : isPoint ? numbersOf(rest, 4) : numbersOf(rest, 0, 4);
        const written = isFace ? faceBytes(ascii(mark), numbers) : isPoint ? pointBytes(ascii(mark), numbers) : ascii(mark);
        return writtenOver(bytes, record.start, written);
    },
    set(bytes, rest) {
        const [offset, ...written] = numbersOf(rest, 1, 4096);
        return writtenOver(bytes, offset, fitting(written, COUNT));
    },
    append: (bytes, rest) => [...bytes, ...fitting(numbersOf(rest, 1, 4096), COUNT)],
    cut(bytes, rest) {
        const [length] = numbersOf(rest, 1, 4096);
        if (length < 0 || length > bytes.length) throw new Wrong(`${length} bytes cannot be taken away: there are ${bytes.length}`);
        return bytes.slice(0, bytes.length - length);
    },
};

/** Lines that describe a scene. */
const DESCRIBE = {
    solid(text, [name, ...more]) {
        if (more.length || !Object.hasOwn(text.solids, name ?? "")) throw new Wrong("a solid is A or B");
        text.solid = text.solids[name];
    },
    v: (text, rest) => ownSolid(text).vertices.push(pointBytes(ascii("VX"), numbersOf(rest, 3, 4))),
    f: (text, rest) => ownSolid(text).faces.push(faceBytes(ascii("FC"), numbersOf(rest, 3))),
    far(text, rest) {
        if (text.far) throw new Wrong("a second far point");
        text.far = pointBytes(ascii("FP"), numbersOf(rest, 3, 4));
    },
    like(text, rest) {
        if (text.begun) throw new Wrong("`like` comes too late: the lines before it would be lost");
        const bytes = text.like(rest.join(" "));
        if (!bytes) throw new Wrong(`there is no example ${rest.join(" ")}`);
        text.bytes = [...bytes];
    },
};

function ownSolid(text) {
    if (!text.solid) throw new Wrong("`solid A` or `solid B` must come before this line");
    return text.solid;
}

/** The bytes of what was described, or of what was made of it since. */
function bytesOf(text) {
    if (text.bytes) return text.bytes;
    if (!text.far) throw new Wrong("there is no far point: a line `far X Y Z` must stand somewhere");
    const { A, B } = text.solids;
    const counts = fitting([A.vertices.length, A.faces.length, B.vertices.length, B.faces.length], COUNT);
    return [ascii("SC"), counts, text.far, ...A.vertices, ...B.vertices, ...A.faces, ...B.faces, ascii("EN")].flat();
}

function readLine(text, word, rest) {
    if (Object.hasOwn(DAMAGE, word)) text.bytes = DAMAGE[word](bytesOf(text), rest);
    else if (!Object.hasOwn(DESCRIBE, word)) throw new Wrong(`no line begins with ${word}`);
    else if (text.bytes) throw new Wrong("this line comes too late: the bytes are made already");
    else DESCRIBE[word](text, rest);
    text.begun = true;
}

/** The bytes that a text describes; `like` gives the bytes of an example by its name. What is wrong is told with its line. */
export function sceneOfText(source, like) {
    const solids = { A: { vertices: [], faces: [] }, B: { vertices: [], faces: [] } };
    const text = { like, solids, solid: null, far: null, bytes: null, begun: false };
    source.split(/\r\n|\n|\r/).forEach((line, k) => {
        const [word, ...rest] = line.split("#")[0].split(/\s+/).filter((part) => part);
        if (word) within(`line ${k + 1}: `, () => readLine(text, word, rest));
    });
    return Uint8Array.from(bytesOf(text));
}

/** What is wrong within is said with its line. */
function within(where, read) {
    try {
        return read();
    } catch (error) {
        throw error instanceof Wrong ? new Wrong(where + error.message) : error;
    }
}
