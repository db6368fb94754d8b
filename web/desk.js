// The desk: the scene at hand, what the kernel says of it, and every change of it. No drawing, and nothing of the browser.

import { History } from "./history.js";
import { marksOf } from "./marks.js";
import { exchanged, sceneOf } from "./scene.js";

const FIELDS = ["x", "y", "z", "weight"];

const alike = (one, other) => one.length === other.length && one.every((byte, k) => byte === other[k]);

export class Desk {
    constructor(kernel) {
        this.kernel = kernel;
        this.history = new History(new Uint8Array(0));
        this.said = "";
        this.look();
    }

    get bytes() {
        return this.history.present;
    }

    /** Asks the kernel about the scene at hand. A refused one has an answer too, and nothing to draw. */
    look() {
        this.told = this.kernel.survey(this.bytes);
        this.light = this.kernel.light(this.bytes);
        this.scene = this.told.refusal ? null : sceneOf(this.bytes);
        this.marks = this.scene && marksOf(this.scene, this.told);
    }

    /** Any bytes may be opened: a refused file is shown as what it is, and undo brings the scene before it back. */
    open(bytes, name) {
        this.kernel.lend(bytes.length); // throws where there is no room, and nothing has changed then
        const isFirst = this.bytes.length === 0 && this.history.past.length === 0; // the empty desk is nothing to go back to
        this.history.become(bytes, isFirst);
        this.look();
        this.said = this.told.refusal ? `${name}: refused ${this.told.refusal} ${this.told.place}` : `${name} is open`;
    }

    /** Takes over what the kernel made of a change; under a refusal the scene stays as it was. Whether it was accepted. */
    follow({ refusal, scene }, what, joined = false) {
        this.said = refusal ? `refused ${refusal}: ${what}` : what;
        if (refusal === 0 && !alike(scene, this.bytes)) {
            this.history.become(scene, joined);
            this.look();
        }
        return refusal === 0;
    }

    /** Moves a vertex or the far point. */
    put(point, row, joined = false) {
        const isFar = this.scene !== null && point === this.scene.far;
        const change = isFar ? this.kernel.moveFar(this.bytes, row) : this.kernel.move(this.bytes, point, row);
        return this.follow(change, `${isFar ? "far point" : `point ${point}`} to ${row.join(" ")}`, joined);
    }

    /** The same with four numbers as they were typed. What is not whole is refused as the kernel refuses a vertex of doubles. */
    type(point, texts) {
        const row = texts.map((text) => (text.trim() === "" ? NaN : Number(text)));
        if (row.every(Number.isInteger)) return this.put(point, row);
        const { refusal, place } = this.kernel.take(row);
        this.said = `refused ${refusal} ${place}: ${FIELDS[place - 1]} ${texts[place - 1]}`;
        return false;
    }

    reverse(face) {
        return this.follow(this.kernel.reverse(this.bytes, face), `reverse face ${face}`);
    }

    /** The records of A and B exchanged; the kernel then judges what came of it. */
    exchange() {
        if (this.scene) this.follow({ refusal: 0, scene: exchanged(this.bytes) }, "A and B exchanged");
    }

    undo() {
        this.stepped(this.history.undo(), "undone", "nothing to undo");
    }

    redo() {
        this.stepped(this.history.redo(), "done again", "nothing to do again");
    }

    stepped(done, yes, no) {
        this.said = done ? yes : no;
        if (done) this.look();
    }
}
