// The numbers that are handed to the graphics processor: faces as rows, lines as strips of so many pixels, vertices as round marks.

import { EDGES, FACES, FAR, PICKED, PIERCING, POINTED } from "./colours.js";
import { solidOfFace, solidOfPoint } from "./scene.js";
import { clipOf, cross, pieces, placeOf, seen } from "./view.js";

/** The normal of the plane through three rows: the first three of its four numbers. Nothing is divided, so any weights will do. */
export function normalOf([p, q, r]) {
    const [pq, qr, rp] = [cross(p, q), cross(q, r), cross(r, p)];
    return pq.map((part, k) => part * r[3] + qr[k] * p[3] + rp[k] * q[3]);
}

/** How far away a face is, for painting what is translucent from back to front; one through infinity comes first. */
function farness(matrix, size, rows) {
    const places = rows.map((row) => seen(matrix, size, row));
    const parted = rows.some((row) => row[3] * rows[0][3] < 0);
    return parted || places.includes(null) ? 1 : places.reduce((sum, place) => sum + place.depth, 0) / 3;
}

/** The faces from back to front: for each corner its row, the face's normal, its colour, and how strongly it is hatched. */
export function faceNumbers(scene, marks, pointed, matrix, size) {
    const painted = scene.faces.slice(1).map((corners, k) => {
        const rows = corners.map((corner) => scene.rows[corner]), face = k + 1;
        const hatched = pointed?.face === face ? 4 : marks.faces.has(face) ? 1 : 0;
        const look = [...normalOf(rows), ...FACES[solidOfFace(scene, face)], hatched];
        return { farness: farness(matrix, size, rows), numbers: rows.flatMap((row) => [...row, ...look]) };
    });
    return painted.sort((one, other) => other.farness - one.farness).flatMap((face) => face.numbers);
}

/** A strip of so many pixels along a piece of a line: two triangles, each corner with its colour. */
function strip([from, to], width, colour, size) {
    const flat = ([x, y, z, w]) => [x / w, y / w, z / w];
    const [a, b] = [flat(from), flat(to)];
    const run = [(b[0] - a[0]) * size.width, (b[1] - a[1]) * size.height], length = Math.hypot(...run) || 1;
    const aside = [(-run[1] / length) * (width / size.width), (run[0] / length) * (width / size.height)];
    const corner = (end, side) => [end[0] + side * aside[0], end[1] + side * aside[1], end[2], 1, ...colour];
    return [corner(a, 1), corner(a, -1), corner(b, 1), corner(b, 1), corner(a, -1), corner(b, -1)].flat();
}

function look(scene, marks, pointed, [low, high]) {
    const name = `${low} ${high}`;
    if (pointed?.edge === name) return [7, POINTED];
    return marks.edges.has(name) ? [4, PIERCING] : [1.5, EDGES[solidOfPoint(scene, low)]];
}

export function edgeNumbers(scene, marks, pointed, matrix, size) {
    return scene.edges.flatMap((edge) => {
        const [width, colour] = look(scene, marks, pointed, edge), [low, high] = edge.map((point) => scene.rows[point]);
        return pieces(matrix, low, high).flatMap((piece) => strip(piece, width, colour, size));
    });
}

/** Where the far point is: a line from the scene's middle toward it, as long as the scene is wide, or to the point where it is nearer. */
export function farWay(view, row) {
    const toward = row[3] === 0 ? row.slice(0, 3) : placeOf(row).map((part, k) => part - view.middle[k]);
    const length = Math.hypot(...toward), shown = row[3] === 0 ? 1.3 * view.radius : Math.min(length, 1.3 * view.radius);
    const end = view.middle.map((part, k) => part + (length ? (toward[k] / length) * shown : 0));
    return [[...view.middle, 1], [...end, 1]];
}

export function farNumbers(scene, view, matrix, size) {
    const [from, to] = farWay(view, scene.rows[scene.far]);
    return pieces(matrix, from, to).flatMap((piece) => strip(piece, 2, FAR, size));
}

/** Round marks: a vertex is a ring, filled where it is enclosed; the picked one is larger and black; the far point is filled. */
export function markNumbers(scene, marks, picked, matrix) {
    return scene.rows.slice(1).flatMap((row, k) => {
        const point = k + 1, side = row[3] < 0 ? -1 : 1;
        const colour = point === picked ? PICKED : point === scene.far ? FAR : EDGES[solidOfPoint(scene, point)];
        const filled = point === scene.far || marks.enclosed.has(point);
        return [...clipOf(matrix, row).map((part) => part * side), ...colour, point === picked ? 15 : 10, filled ? 1 : 0];
    });
}
