// The report on the page: the state as text, line by line. Pointing at a pair, or arrow keys on the text, show that pair.

import { reportLines } from "./state.js";

const LINE = 18; // pixels, as in style.css

export class Report {
    constructor(text, bar, pointed) {
        this.text = text;
        this.bar = bar;
        this.pointed = pointed;
        this.first = this.pairs = 0;
        this.pair = -1;
        text.addEventListener("pointermove", (event) => this.point(this.pairAt(event.clientY)));
        text.addEventListener("pointerleave", () => this.point(-1));
        text.addEventListener("scroll", () => this.place());
        text.addEventListener("keydown", (event) => this.key(event));
    }

    show(scene, told) {
        const lines = reportLines(scene?.counts, told);
        this.pairs = told.listing.length / 3;
        this.first = lines.length - this.pairs;
        this.text.textContent = lines.join("\n") + "\n";
        this.point(this.pair);
    }

    pairAt(clientY) {
        const y = clientY - this.text.getBoundingClientRect().top + this.text.scrollTop;
        return Math.floor(y / LINE) - this.first;
    }

    /** A pair that the listing lacks is none. */
    point(pair) {
        this.pair = pair >= 0 && pair < this.pairs ? pair : -1;
        this.place();
        this.pointed();
    }

    place() {
        this.bar.hidden = this.pair < 0;
        this.bar.style.top = `${(this.first + this.pair) * LINE - this.text.scrollTop}px`;
    }

    key(event) {
        const step = { ArrowDown: 1, ArrowUp: -1 }[event.key];
        if (!step) return;
        event.preventDefault();
        this.point(Math.max(0, Math.min(this.pairs - 1, this.pair + step)));
        this.text.scrollTop = Math.max(0, (this.first + this.pair - 3) * LINE);
    }
}
