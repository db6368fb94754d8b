// The bytes of an accepted scene, read for drawing. What they mean for the answers is the kernel's alone.

const MARK = 2, HEADER = 6, POINT = 9, FACE = 5;

const countsOf = (bytes) => [...bytes.subarray(MARK, HEADER)];

/** Each edge once, as two points, the lower first. */
function edgesOf(faces) {
    const edges = new Map();
    for (const corners of faces.slice(1)) {
        corners.forEach((corner, k) => {
            const next = corners[(k + 1) % 3], edge = [Math.min(corner, next), Math.max(corner, next)];
            edges.set(edge.join(" "), edge);
        });
    }
    return [...edges.values()];
}

/** Rows by point number, faces by face number with point numbers as corners, both from 1; `far` is the far point's number. */
export function sceneOf(bytes) {
    const [a, facesA, b, facesB] = countsOf(bytes);
    const data = new DataView(bytes.buffer, bytes.byteOffset, bytes.byteLength);
    const row = (at) => [data.getInt16(at, true), data.getInt16(at + 2, true), data.getInt16(at + 4, true), data.getInt8(at + 6)];
    const record = (k) => row(HEADER + k * POINT + MARK);
    const rows = [null];
    for (let point = 1; point <= a + b; point++) rows.push(record(point));
    rows.push(record(0));
    const faces = [null];
    for (let k = 0; k < facesA + facesB; k++) {
        const at = HEADER + (1 + a + b) * POINT + k * FACE + MARK;
        faces.push([...bytes.subarray(at, at + 3)].map((corner) => corner + (k < facesA ? 0 : a)));
    }
    return { counts: [a, facesA, b, facesB], rows, faces, edges: edgesOf(faces), far: a + b + 1 };
}

/** 0 for A and 1 for B, of a point or of a face. */
export const solidOfPoint = (scene, point) => (point <= scene.counts[0] ? 0 : 1);
export const solidOfFace = (scene, face) => (face <= scene.counts[1] ? 0 : 1);

/** The same records with A's and B's exchanged; none of them changes, since corners are counted within the solid. */
export function exchanged(bytes) {
    const [a, facesA, b, facesB] = countsOf(bytes);
    let at = 0;
    const next = (length) => bytes.subarray(at, (at += length));
    const mark = next(MARK), countsA = next(2), countsB = next(2), far = next(POINT);
    const verticesA = next(a * POINT), verticesB = next(b * POINT), cornersA = next(facesA * FACE), cornersB = next(facesB * FACE);
    const parts = [mark, countsB, countsA, far, verticesB, verticesA, cornersB, cornersA, bytes.subarray(at)];
    return Uint8Array.from(parts.flatMap((part) => [...part]));
}
