// The camera: where the rows (x, y, z, w) of points come to stand on the screen.
//
// Rows go into the matrix as they are, with their weights. A row and its negative are one point, and the rows of an edge or a face span
// one stretch of a line or a plane, which may lead through infinity. With the far plane at infinity, z <= w of clip space keeps exactly
// the rows of weight at least 0, and so everything is drawn twice, as it stands and negated: what leads through infinity comes out as its
// two rays, and what does not comes out once.

const SLOPE = Math.tan(Math.PI / 8); // half of what is seen upward, at distance 1
const NEAREST = 0.02; // the near plane, as a part of the distance to the centre
const MARGIN = 4; // so many half screens beyond the middle lines are cut off

const dot = (u, v) => u[0] * v[0] + u[1] * v[1] + u[2] * v[2];

/** The affine place of a row of weight not 0. For drawing and picking only. */
export const placeOf = ([x, y, z, w]) => [x / w, y / w, z / w];

/** A view of all rows of weight not 0. `axes` are the screen's right, up and toward the viewer; `middle` is never shifted. */
export function fitted(rows, axes = defaultAxes()) {
    const places = rows.filter((row) => row[3] !== 0).map(placeOf);
    const lows = [0, 1, 2].map((k) => Math.min(...places.map((place) => place[k])));
    const highs = [0, 1, 2].map((k) => Math.max(...places.map((place) => place[k])));
    const centre = lows.map((low, k) => (low + highs[k]) / 2);
    const radius = Math.max(1, Math.hypot(...highs.map((high, k) => high - lows[k])) / 2);
    return { axes, centre, middle: centre, radius, distance: (1.25 * radius) / Math.sin(Math.atan(SLOPE)) };
}

function defaultAxes() {
    const toward = unit([2, -3, 1.6]), right = unit([3, 2, 0]);
    return [right, cross(toward, right), toward];
}

const unit = (u) => u.map((part) => part / Math.hypot(...u));

export function cross([a, b, c], [d, e, f]) {
    return [b * f - c * e, c * d - a * f, a * e - b * d];
}

/** Turned about the screen's own axes, and made square again so that errors do not add up. */
export function turned(view, across, upward) {
    const [right, up, toward] = view.axes;
    const mix = (u, v, angle) => u.map((part, k) => part * Math.cos(angle) + v[k] * Math.sin(angle));
    const aside = unit(mix(toward, right, -across));
    const newRight = unit(cross(up, aside));
    const newToward = unit(mix(aside, up, upward));
    return { ...view, axes: [newRight, cross(newToward, newRight), newToward] };
}

/** Nearer or farther, but never so that nothing could be seen any more. */
export function zoomed(view, factor) {
    return { ...view, distance: Math.max(view.radius / 100, Math.min(view.radius * 100, view.distance * factor)) };
}

/** What one pixel measures at a depth in front of the eye. */
export const pixelAt = (size, depth) => (2 * SLOPE * depth) / size.height;

/** Shifted by so many pixels: the centre moves the other way. */
export function shifted(view, size, right, down) {
    const pixel = pixelAt(size, view.distance);
    return { ...view, centre: along(view, view.centre, -right * pixel, down * pixel) };
}

/** A place moved along the screen's right and up. */
export function along(view, place, right, up) {
    return place.map((part, k) => part + view.axes[0][k] * right + view.axes[1][k] * up);
}

/** How far in front of the eye a place is. */
export const depthOf = (view, place) => view.distance - dot(view.axes[2], place.map((part, k) => part - view.centre[k]));

/** The matrix from rows to clip space, as its four rows. The eye looks along -z; the far plane is at infinity. */
export function matrixOf(view, size) {
    const row = (axis, back) => [...axis, -dot(axis, view.centre) - back];
    const [right, up, toward] = [row(view.axes[0], 0), row(view.axes[1], 0), row(view.axes[2], view.distance)];
    const away = toward.map((part) => -part);
    const scaled = (parts, factor) => parts.map((part) => part * factor);
    const depth = away.map((part, k) => (k === 3 ? part - 2 * NEAREST * view.distance : part));
    return [scaled(right, size.height / size.width / SLOPE), scaled(up, 1 / SLOPE), depth, away];
}

export const clipOf = (matrix, row) => matrix.map((line) => line[0] * row[0] + line[1] * row[1] + line[2] * row[2] + line[3] * row[3]);

/** Where a point is seen, in pixels from the upper left, with its depth from -1 to 1; null where it is not in front of the eye. */
export function seen(matrix, size, row) {
    const [x, y, z, w] = clipOf(matrix, row), side = row[3] < 0 ? -1 : 1;
    if (w * side <= 0 || (z + w) * side < 0) return null;
    return { x: ((1 + x / w) / 2) * size.width, y: ((1 - y / w) / 2) * size.height, depth: z / w };
}

/** What must not be below 0 in clip space; the second keeps the weight's sign, and so parts the two rays of an edge through infinity. */
const WALLS = [
    ([, , z, w]) => w + z,
    ([, , z, w]) => w - z,
    ([x, , , w]) => MARGIN * w + x,
    ([x, , , w]) => MARGIN * w - x,
    ([, y, , w]) => MARGIN * w + y,
    ([, y, , w]) => MARGIN * w - y,
];

/** The part of a stretch in clip space that is within all walls, or null. */
function clipped(u, v) {
    let first = 0, last = 1;
    for (const wall of WALLS) {
        const from = wall(u), to = wall(v);
        if (from < 0 && to < 0) return null;
        const crossing = from / (from - to);
        if (from < 0) first = Math.max(first, crossing);
        if (to < 0) last = Math.min(last, crossing);
    }
    const at = (t) => u.map((part, k) => part + t * (v[k] - part));
    return first < last ? [at(first), at(last)] : null;
}

/** The pieces of an edge that are seen, each as two ends in clip space: none, one, or the two rays of an edge through infinity. */
export function pieces(matrix, u, v) {
    const from = clipOf(matrix, u), to = clipOf(matrix, v);
    const negated = (clip) => clip.map((part) => -part);
    return [clipped(from, to), clipped(negated(from), negated(to))].filter((piece) => piece !== null);
}
