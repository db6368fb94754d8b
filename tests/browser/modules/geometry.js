// geometry.js EXAMPLES: the camera, pieces of edges, picking, dragging, the bytes read for drawing, undo and redo.
import { readFileSync } from "node:fs";
import { close, ended, same } from "./check.js";
import { History } from "../../../web/history.js";
import { dragged, nearest } from "../../../web/pick.js";
import { exchanged, sceneOf, solidOfFace, solidOfPoint } from "../../../web/scene.js";
import { edgeNumbers, faceNumbers, markNumbers, normalOf } from "../../../web/shapes.js";
import { clipOf, fitted, matrixOf, pieces, seen, shifted, turned, zoomed } from "../../../web/view.js";

const folder = process.argv[2], size = { width: 800, height: 600 };
const bytesOf = (name) => new Uint8Array(readFileSync(`${folder}/${name}.scene`));

// the bytes read for drawing
const printed = sceneOf(bytesOf("printed"));
same("counts", printed.counts, [4, 4, 4, 4]);
same("rows", [1, 6, printed.far].map((point) => printed.rows[point]), [[0, 0, 0, 1], [-8, -7, -9, 1], [100, 101, 103, 1]]);
same("faces", [printed.faces[1], printed.faces[8]], [[1, 2, 3], [6, 7, 8]]);
same("edges", [printed.edges.length, printed.edges[0], printed.edges[11]], [12, [1, 2], [7, 8]]);
same("solids", [4, 5].map((point) => solidOfPoint(printed, point)).concat([4, 5].map((face) => solidOfFace(printed, face))), [0, 1, 0, 1]);

// an exchange twice is none, and the example with exchanged names is one
for (const name of ["printed", "gear-meets", "smallest"]) {
    same(`exchanged twice ${name}`, [...exchanged(exchanged(bytesOf(name)))], [...bytesOf(name)]);
}
same("exchanged", [...exchanged(bytesOf("face-on-face"))], [...bytesOf("face-on-face-swapped")]);

// the camera: axes stay square, a row and its negative are seen at one place, what is behind is not seen
let view = fitted(printed.rows.slice(1, printed.far));
for (let k = 0; k < 1000; k++) view = turned(view, 0.31, -0.17);
const dots = view.axes.flatMap((u) => view.axes.map((v) => Math.round((u[0] * v[0] + u[1] * v[1] + u[2] * v[2]) * 1e9)));
same("axes", dots.map((part) => part / 1e9 + 0), [1, 0, 0, 0, 1, 0, 0, 0, 1]);
let matrix = matrixOf(view, size);
const middle = seen(matrix, size, [...view.centre, 1]);
close("middle x", middle.x, 400), close("middle y", middle.y, 300);
const one = seen(matrix, size, [1, 2, 3, 1]), other = seen(matrix, size, [-2, -4, -6, -2]);
close("one point x", one.x, other.x), close("one point y", one.y, other.y), close("one point depth", one.depth, other.depth);
for (const row of printed.rows.slice(1, printed.far)) same(`${row} is in the picture`, inPicture(seen(matrix, size, row)), true);
const behind = view.centre.map((part, k) => part + 2 * view.distance * view.axes[2][k]);
same("behind", [seen(matrix, size, [...behind, 1]), seen(matrix, size, [...behind.map((part) => -part), -1])], [null, null]);
const off = seen(matrixOf(shifted(view, size, 30, -20), size), size, [...view.centre, 1]);
close("shifted x", off.x, 430, 1e-6), close("shifted y", off.y, 280, 1e-6);
same("zoomed", zoomed(view, 0.5).distance, view.distance / 2);

function inPicture(at) {
    return at !== null && at.x > 0 && at.x < size.width && at.y > 0 && at.y < size.height;
}

// an edge is one piece, one through infinity two rays that begin at its ends and never meet between them
const flat = ([x, y, z, w]) => [x / w, y / w, z / w];
const [u, v] = [[0, 0, 0, 1], [4, 0, 0, 1]];
same("one piece", pieces(matrix, u, v).length, 1);
same("negated", pieces(matrix, u.map((part) => -part), v.map((part) => -part)).length, 1);
const rays = pieces(matrix, u, [-4, 0, 0, -1]);
same("two rays", rays.length, 2);
const ends = [flat(rays[0][0]), flat(rays[1][1])], wanted = [clipOf(matrix, u), clipOf(matrix, v)].map(flat);
ends.forEach((end, k) => end.forEach((part, axis) => close(`ray ${k} begins at its end, ${axis}`, part, wanted[k][axis])));
const away = [flat(rays[0][1]), flat(rays[1][0])].map((end, k) => (end[0] - ends[k][0]) * (wanted[1][0] - wanted[0][0]));
same("rays lead away from each other", [away[0] < 0, away[1] > 0], [true, true]);
same("toward a direction", pieces(matrix, u, [1, 2, 3, 0]).length, 1);
same("every number is finite", pieces(matrix, u, [...view.axes[0], 0]).flat(2).every(Number.isFinite), true);
const back = [...behind, 1];
same("from behind the eye", pieces(matrix, u, back).flat(1).every(([, , z, w]) => w > 0 && z <= w && z >= -w - 1e-9), true);

// the edges of the example through infinity
const infinity = sceneOf(bytesOf("infinity"));
const counts = infinity.edges.map(([low, high]) => pieces(matrix, infinity.rows[low], infinity.rows[high]).length);
same("three edges in two rays", counts.filter((count) => count === 2).length, 3);

// picking and dragging on whole numbers, with any weight
for (let point = 1; point < printed.far; point++) {
    const at = seen(matrix, size, printed.rows[point]);
    same(`picked ${point}`, nearest(matrix, size, printed, at.x + 2, at.y - 2), point);
}
same("nothing near", nearest(matrix, size, printed, -50, -50), 0);
for (const row of [[40, -30, 20, 10], [-40, 30, -20, -10], [4, 4, 4, 1]]) {
    same(`not dragged ${row}`, dragged(view, size, row, 0, 0), row);
    const from = seen(matrix, size, row), to = seen(matrix, size, dragged(view, size, row, 120, 45));
    close(`dragged right ${row}`, to.x - from.x, 120, 30), close(`dragged down ${row}`, to.y - from.y, 45, 30);
}
same("weight 0 in mid-drag", dragged(view, size, [40, -30, 20, 10], 5, 5, 0).map((part) => part + 0), [0, 0, 0, 0]);

// normals divide nothing
same("normal", normalOf([[0, 0, 0, 1], [4, 0, 0, 1], [0, 4, 0, 1]]), [0, 0, 16]);
same("normal of a negative weight", normalOf([[0, 0, 0, -1], [4, 0, 0, 1], [0, 4, 0, 1]]).map((part) => part + 0), [0, 0, -16]);

// what goes to the graphics processor is finite, for every example that is accepted
const marks = { faces: new Set([1]), edges: new Set(["1 2"]), enclosed: new Set([1]) };
const NAMES = ["printed", "infinity", "limits", "heaviest", "one-point", "flat", "direction-cross", "gear-meets", "weights", "far-inside"];
for (const name of NAMES) {
    const scene = sceneOf(bytesOf(name)), near = fitted(scene.rows.slice(1, scene.far));
    matrix = matrixOf(near, size);
    const edges = edgeNumbers(scene, marks, null, matrix, size), faces = faceNumbers(scene, marks, null, matrix, size);
    const points = markNumbers(scene, marks, 1, matrix);
    same(`finite ${name}`, [edges, faces, points].every((numbers) => numbers.every(Number.isFinite)), true);
    same(`corners ${name}`, [faces.length / 11, points.length / 9], [3 * (scene.faces.length - 1), scene.rows.length - 1]);
}

// undo and redo; the steps of a drag are one
const history = new History("a");
history.become("b"), history.become("c", true), history.become("d");
same("undone", [history.undo(), history.present, history.undo(), history.present, history.undo()], [true, "c", true, "a", false]);
same("redone", [history.redo(), history.present, history.redo(), history.present, history.redo()], [true, "c", true, "d", false]);
history.undo(), history.become("e");
same("a new step ends the future", [history.redo(), history.past], [false, ["a", "c"]]);
for (let k = 0; k < 5000; k++) history.become(k);
same("a bounded past", history.past.length <= 1000, true);
ended();
