// The page: what the desk holds is said and drawn, and what is done on the page is asked of the desk.

import { Desk } from "./desk.js";
import { bytesOfFile, download, unpacked } from "./files.js";
import { Hand } from "./hand.js";
import { loadKernel } from "./kernel.js";
import { pairAt } from "./marks.js";
import { Report } from "./report.js";
import { Screen } from "./screen.js";
import { spoken } from "./state.js";

const BEGIN = "printed"; // the example that a page without a name opens
const find = (name) => document.getElementById(name);

/** A point's or face's number as it was typed; what is none is 0, which the kernel refuses as it does every number that the scene lacks. */
const numberIn = (name) => (Number.isSafeInteger(Number(find(name).value)) ? Number(find(name).value) : 0);

/** The example's name behind the page's own. */
function nameInAddress() {
    try {
        return decodeURIComponent(location.hash.slice(1));
    } catch {
        return location.hash.slice(1);
    }
}

class Page {
    constructor(kernel, examples) {
        this.examples = examples;
        this.desk = new Desk(kernel);
        this.name = "";
        this.picked = 0;
        this.wanted = [0, 0, 0, 1]; // the fields' numbers; they may be refused, and then differ from the scene's
        this.fields = [...document.querySelectorAll(".row")];
        this.report = new Report(find("state"), find("bar"), () => this.screen?.redraw());
        this.screen = new Screen(find("drawing"), find("labels"), () => this.shown());
        this.hand = new Hand(find("labels"), this);
        if (!this.screen.drawing.works) find("shows").textContent = "This browser has no WebGL 2: nothing is drawn, and the answers stand.";
    }

    shown() {
        const { scene, marks, told } = this.desk;
        const wishes = { opacity: Number(find("opacity").value), numbers: find("numbers").checked, edges: find("edges").checked };
        return { scene, marks, picked: this.picked, pointed: pairAt(told.listing, this.report.pair), ...wishes };
    }

    /** Says what the desk holds now. */
    say() {
        const { light, told, said, scene } = this.desk;
        find("light").dataset.light = find("colour").textContent = light;
        find("verdict").textContent = told.verdict;
        find("said").textContent = said;
        find("spoken").textContent = spoken(light, told);
        this.report.show(scene, told);
        this.screen.redraw();
    }

    /** Anything may be opened; what cannot be read is said, and the scene stays. */
    async open(name, reading) {
        try {
            this.desk.open(await reading, name);
            this.name = name.replace(/\.[^.]*$/, "");
            this.screen.fit(this.desk.scene);
        } catch (error) {
            this.desk.said = `${name}: ${error.message}`;
        }
        this.pick(0);
        this.say();
    }

    example(name) {
        const found = this.examples.get(name);
        if (found) this.open(name, unpacked(found.scene));
        find("shows").textContent = found ? found.shows : `There is no example ${name}.`;
        find("examples").value = found ? name : "";
    }

    /** By way of the address, so that it can be kept; an address that stands already tells nobody. */
    choose(name) {
        if (nameInAddress() === name) this.example(name);
        else location.hash = name;
    }

    openFile(file) {
        find("shows").textContent = find("examples").value = "";
        const like = (name) => this.examples.has(name) && unpacked(this.examples.get(name).scene);
        return this.open(file.name, bytesOfFile(file, like));
    }

    /** Picks a point, or none by 0: the fields show it as it is. */
    pick(point) {
        const rows = this.desk.scene?.rows;
        this.picked = rows && point > 0 && point < rows.length ? point : 0;
        if (this.picked) this.wanted = [...rows[this.picked]];
        find("number").value = this.picked || "";
        this.fill(false);
        this.screen.redraw();
    }

    /** Whether there was another point to pick. */
    pickNext(step) {
        const next = this.picked ? this.picked + step : step > 0 ? 1 : (this.desk.scene?.far ?? 0);
        this.pick(next);
        return this.picked !== 0;
    }

    fill(refused) {
        this.fields.forEach((field, k) => {
            field.value = this.picked ? this.wanted[k] : "";
            field.setAttribute("aria-invalid", refused);
        });
    }

    /** Asks for a point's new row; the fields keep what was wanted, so that a key goes on from there: a weight goes through 0. */
    want(point, row, joined = false) {
        this.wanted = row;
        this.fill(!this.desk.put(point, row, joined));
        this.say();
    }

    nudge(axis, step) {
        if (this.picked) this.want(this.picked, this.wanted.map((part, k) => (k === axis ? part + step : part)));
    }

    typed() {
        const accepted = this.desk.type(numberIn("number"), this.fields.map((field) => field.value));
        if (accepted) this.pick(numberIn("number"));
        else this.fields.forEach((field) => field.setAttribute("aria-invalid", true));
        this.say();
    }

    direction() {
        const { scene } = this.desk;
        if (!scene) return;
        this.pick(scene.far);
        this.want(scene.far, [...scene.rows[scene.far].slice(0, 3), 0]);
    }

    /** Anything that the desk does by itself; the point at hand may have moved. */
    act(name, ...numbers) {
        this.desk[name](...numbers);
        if (!this.screen.view) this.screen.fit(this.desk.scene);
        this.pick(this.picked);
        this.say();
    }

    async copy() {
        const text = find("state").textContent;
        try {
            await navigator.clipboard.writeText(text);
            this.desk.said = "the report is copied";
        } catch {
            getSelection().selectAllChildren(find("state"));
            this.desk.said = "the report is selected; copy it by Ctrl+C";
        }
        find("said").textContent = this.desk.said;
    }

    save() {
        download(`${this.name || "mine"}.scene`, new Blob([this.desk.bytes], { type: "application/octet-stream" }));
    }

    async picture() {
        download(`${this.name || "mine"}.png`, await this.screen.picture());
    }
}

function listen(page) {
    const on = (name, event, handle) => find(name).addEventListener(event, handle);
    for (const name of ["undo", "redo", "exchange"]) on(name, "click", () => page.act(name));
    for (const name of ["save", "picture", "copy", "direction"]) on(name, "click", () => page[name]());
    for (const name of ["opacity", "numbers", "edges"]) on(name, "input", () => page.screen.redraw());
    on("examples", "change", () => page.choose(find("examples").value));
    on("number", "change", () => page.pick(numberIn("number")));
    on("point", "submit", (event) => (event.preventDefault(), page.typed()));
    on("turn", "submit", (event) => (event.preventDefault(), page.act("reverse", numberIn("face"))));
    on("file", "change", async () => {
        for (const file of [...find("file").files]) await page.openFile(file);
        find("file").value = "";
    });
}

function listenToWindow(page) {
    addEventListener("hashchange", () => page.example(nameInAddress()));
    addEventListener("dragover", (event) => event.preventDefault());
    addEventListener("drop", async (event) => {
        event.preventDefault();
        for (const file of [...event.dataTransfer.files]) await page.openFile(file);
    });
    addEventListener("keydown", (event) => {
        const does = (event.ctrlKey || event.metaKey) && { z: event.shiftKey ? "redo" : "undo", y: "redo" }[event.key.toLowerCase()];
        if (!does || event.target.matches("input")) return;
        event.preventDefault();
        page.act(does);
    });
}

async function begin() {
    const { module, header, examples } = JSON.parse(find("data").textContent);
    const page = new Page(await loadKernel(unpacked(module), header), new Map(Object.entries(examples)));
    find("examples").append(new Option("", ""), ...[...page.examples.keys()].map((name) => new Option(name, name)));
    listen(page);
    listenToWindow(page);
    page.example(nameInAddress() || BEGIN);
}

begin().catch((error) => (find("said").textContent = `The page cannot begin here: ${error.message}`));
