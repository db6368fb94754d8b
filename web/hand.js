// The hand: mouse, touch and keys on the drawing, told to the page as what they mean.

import { dragged, nearest } from "./pick.js";
import { shifted, turned, zoomed } from "./view.js";

const TURN = 0.008; // by pixel
const STEP = 0.12; // by key
const KEYS = {
    ArrowLeft: [-1, 0],
    ArrowRight: [1, 0],
    ArrowUp: [0, -1],
    ArrowDown: [0, 1],
};

export class Hand {
    constructor(canvas, page) {
        this.canvas = canvas;
        this.page = page;
        this.fingers = new Map();
        this.drag = null;
        const on = (name, handle) => canvas.addEventListener(name, handle.bind(this), { passive: false });
        on("pointerdown", this.down);
        on("pointermove", this.move);
        on("pointerup", this.up);
        on("pointercancel", this.up);
        on("wheel", this.wheel);
        on("keydown", this.key);
        on("contextmenu", (event) => event.preventDefault());
    }

    at(event) {
        const box = this.canvas.getBoundingClientRect();
        return { x: event.clientX - box.left, y: event.clientY - box.top };
    }

    /** A vertex under the pointer is picked and dragged; beside all vertices the view is turned, or shifted by Shift or another button. */
    down(event) {
        event.preventDefault();
        this.canvas.focus();
        this.canvas.setPointerCapture(event.pointerId);
        const { desk, screen } = this.page, from = this.at(event);
        this.fingers.set(event.pointerId, from);
        this.letGo();
        const shifts = event.shiftKey || event.button > 0;
        if (this.fingers.size > 1 || !desk.scene) return;
        const point = shifts ? 0 : nearest(screen.matrix, screen.size, desk.scene, from.x, from.y);
        this.drag = point ? { point, from, row: desk.scene.rows[point], joined: false } : { point: 0, shifts };
        this.page.pick(point || this.page.picked);
    }

    move(event) {
        const before = this.fingers.get(event.pointerId), now = this.at(event);
        if (!before) return;
        if (this.fingers.size === 2) this.pinch(event.pointerId, now);
        else if (this.drag?.point) this.pull(now);
        else if (this.drag) this.swing(now.x - before.x, now.y - before.y);
        this.fingers.set(event.pointerId, now);
    }

    up(event) {
        this.fingers.delete(event.pointerId);
        this.letGo();
    }

    /** The end of a drag: the fields show the point as it is, whatever was wanted last. */
    letGo() {
        if (this.drag?.point) this.page.pick(this.drag.point);
        this.drag = null;
    }

    /** A direction has no place to be dragged from: it is typed. */
    pull(now) {
        const { point, from, row, joined } = this.drag, { screen } = this.page;
        if (row[3] === 0) return;
        const wanted = dragged(screen.view, screen.size, row, now.x - from.x, now.y - from.y, this.page.wanted[3]);
        const before = this.page.desk.bytes;
        this.page.want(point, wanted, joined);
        this.drag.joined ||= this.page.desk.bytes !== before;
    }

    swing(right, down) {
        const { screen } = this.page;
        screen.change((view) => (this.drag.shifts ? shifted(view, screen.size, right, down) : turned(view, right * TURN, down * TURN)));
    }

    /** Two fingers: the distance between them zooms, their middle shifts. */
    pinch(id, now) {
        const before = this.fingers.get(id), [other] = [...this.fingers].filter(([finger]) => finger !== id).map(([, place]) => place);
        const gap = (finger) => Math.max(1, Math.hypot(finger.x - other.x, finger.y - other.y));
        const { screen } = this.page;
        screen.change((view) => zoomed(shifted(view, screen.size, (now.x - before.x) / 2, (now.y - before.y) / 2), gap(before) / gap(now)));
    }

    wheel(event) {
        event.preventDefault();
        this.page.screen.change((view) => zoomed(view, Math.exp(event.deltaY * 0.001)));
    }

    key(event) {
        if (event.ctrlKey || event.metaKey || event.altKey) return;
        if (this.pressed(event.key, event.shiftKey)) event.preventDefault();
    }

    /** Whether the key means something here; Tab leaves the drawing behind the last point. */
    pressed(key, shift) {
        const { page } = this, { screen } = page, axis = "xyzw".indexOf(key.toLowerCase());
        if (key === "Tab") return page.pickNext(shift ? -1 : 1);
        if (key === "Escape") return page.pick(0), true;
        if (key === "Home") return screen.fit(page.desk.scene), true;
        if (key === "+" || key === "-") return screen.change((view) => zoomed(view, key === "+" ? 0.9 : 1 / 0.9)), true;
        if (KEYS[key]) return this.arrow(KEYS[key], shift), true;
        if (key.length === 1 && axis >= 0) return page.nudge(axis, shift ? -1 : 1), true;
        return false;
    }

    arrow([right, down], shift) {
        const { screen } = this.page;
        screen.change((view) => (shift ? shifted(view, screen.size, 20 * right, 20 * down) : turned(view, right * STEP, down * STEP)));
    }
}
