// Picking and dragging: from the screen back to points and whole numbers.

import { along, depthOf, pixelAt, placeOf, seen } from "./view.js";

const REACH = 14; // pixels from a vertex within which it is picked

/** The point nearest to the pointer, the one in front of two that are equally near; 0 where none is near. */
export function nearest(matrix, size, scene, x, y, reach = REACH) {
    let best = { point: 0, distance: reach, depth: Infinity };
    for (let point = 1; point < scene.rows.length; point++) {
        const at = seen(matrix, size, scene.rows[point]);
        if (at === null) continue;
        const distance = Math.round(Math.hypot(at.x - x, at.y - y));
        if (distance < best.distance || (distance === best.distance && at.depth < best.depth)) best = { point, distance, depth: at.depth };
    }
    return best.point;
}

/** A row dragged in the plane of the screen by so many pixels: the nearest whole numbers of the weight that is wanted. */
export function dragged(view, size, row, right, down, weight = row[3]) {
    const place = placeOf(row), pixel = pixelAt(size, depthOf(view, place));
    return [...along(view, place, right * pixel, -down * pixel).map((part) => Math.round(part * weight)), weight];
}
