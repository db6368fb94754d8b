// The screen: the drawing, the labels over it, and the view of them; painted once a frame at most.

import { Drawing } from "./draw.js";
import { writeLabels } from "./labels.js";
import { fitted, matrixOf } from "./view.js";

export class Screen {
    /** `shown` gives what is to be seen: the desk's scene and marks, and what is picked, pointed at and wished for. */
    constructor(canvas, overlay, shown) {
        this.canvas = canvas;
        this.overlay = overlay;
        this.shown = shown;
        this.drawing = new Drawing(canvas);
        this.context = overlay.getContext("2d");
        this.view = null;
        this.frame = 0;
        this.painted = 0;
        canvas.addEventListener("webglcontextlost", (event) => event.preventDefault());
        canvas.addEventListener("webglcontextrestored", () => this.restored());
        new ResizeObserver(() => this.redraw()).observe(overlay);
    }

    get size() {
        return { width: this.overlay.clientWidth || 1, height: this.overlay.clientHeight || 1 };
    }

    get matrix() {
        return matrixOf(this.view, this.size);
    }

    fit(scene) {
        if (scene) this.view = fitted(scene.rows.slice(1, scene.far), this.view?.axes);
        this.redraw();
    }

    /** A change of the view, by a function of view.js. */
    change(change) {
        if (this.view) this.view = change(this.view);
        this.redraw();
    }

    redraw() {
        this.frame ||= requestAnimationFrame(() => {
            this.frame = 0;
            this.paint();
        });
    }

    restored() {
        this.drawing.begin();
        this.redraw();
    }

    paint() {
        const size = this.size, ratio = devicePixelRatio || 1;
        for (const canvas of [this.canvas, this.overlay]) resized(canvas, Math.round(size.width * ratio), Math.round(size.height * ratio));
        this.context.setTransform(ratio, 0, 0, ratio, 0, 0);
        this.context.clearRect(0, 0, size.width, size.height);
        this.painted++;
        const shown = { ...this.shown(), view: this.view, size };
        if (this.drawing.works) shown.scene ? this.drawing.draw(shown) : this.drawing.clear(size);
        if (shown.scene) writeLabels(this.context, shown, this.matrix);
    }

    /** What is seen, as a PNG. */
    picture() {
        this.paint();
        const both = document.createElement("canvas");
        resized(both, this.canvas.width, this.canvas.height);
        const context = both.getContext("2d");
        for (const canvas of [this.canvas, this.overlay]) context.drawImage(canvas, 0, 0);
        return new Promise((done) => both.toBlob(done, "image/png"));
    }
}

function resized(canvas, width, height) {
    if (canvas.width !== width) canvas.width = width;
    if (canvas.height !== height) canvas.height = height;
}
