// Numbers of vertices and the far point's name, written over the drawing.

import { farWay } from "./shapes.js";
import { seen } from "./view.js";

const FONT = "600 13px system-ui, sans-serif";

function write(context, text, at) {
    context.strokeText(text, at.x + 8, at.y - 8);
    context.fillText(text, at.x + 8, at.y - 8);
}

/** The picked vertex always has its number; the others where they are wanted. */
export function writeLabels(context, { scene, view, size, picked, numbers }, matrix) {
    context.font = FONT;
    context.lineWidth = 3;
    context.lineJoin = "round";
    context.strokeStyle = "rgba(255, 255, 255, 0.9)";
    context.fillStyle = "#111";
    for (let point = 1; point < scene.far; point++) {
        const at = seen(matrix, size, scene.rows[point]);
        if (at && (numbers || point === picked)) write(context, `${point}`, at);
    }
    const far = scene.rows[scene.far], tip = seen(matrix, size, farWay(view, far)[1]);
    if (tip) write(context, far[3] === 0 ? "far direction" : "far point", tip);
}
