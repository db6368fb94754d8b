// Undo and redo: the scenes before and behind the present one, as bytes.

const STEPS = 1000; // a day's dragging must not fill the memory

export class History {
    constructor(present) {
        this.past = [];
        this.present = present;
        this.future = [];
    }

    /** A new present. Steps of one drag are joined: they are undone as one. */
    become(scene, joined = false) {
        if (!joined) this.past.push(this.present);
        if (this.past.length > STEPS) this.past.shift();
        this.present = scene;
        this.future = [];
    }

    undo() {
        return this.step(this.past, this.future);
    }

    redo() {
        return this.step(this.future, this.past);
    }

    /** Whether there was a step to take. */
    step(from, to) {
        if (!from.length) return false;
        to.push(this.present);
        this.present = from.pop();
        return true;
    }
}
