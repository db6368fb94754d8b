// The kernel: each question is one call of the module over its memory. Nothing is decided here.

import { namesOf } from "./header.js";

const PAGE = 65536; // by so much a module's memory grows
const LINE = 64; // lent areas begin at multiples of this, which suits every number in them
const COUNTS = 16; // bytes of the light's counts
const RECORD = 9; // bytes of a vertex's record

const aligned = (place) => Math.ceil(place / LINE) * LINE;

/** A whole number for the kernel. What 64 bits cannot hold goes as 2^62 does: outside every limit. */
const whole = (number) => BigInt(Math.max(-(2 ** 62), Math.min(2 ** 62, number)));

/** The numbers of the vertices whose bits are set. */
function vertices(word) {
    const found = [];
    for (let vertex = 1; word; vertex++, word >>= 1n) if (word & 1n) found.push(vertex);
    return found;
}

export async function loadKernel(module, header) {
    const { instance } = await WebAssembly.instantiate(module, {});
    return new Kernel(instance.exports, namesOf(header));
}

export class Kernel {
    constructor(calls, names) {
        this.calls = calls;
        this.names = names;
        this.places = 0; // of the list that is lent: what the longest listing so far needed
    }

    /** Places of areas of so many bytes, one behind the other; each call lends afresh, so that nothing is kept between calls. */
    lend(...lengths) {
        let end = aligned(this.calls.__heap_base.value);
        const places = lengths.map((length) => {
            const place = end;
            end = aligned(end + length);
            return place;
        });
        const missing = end - this.calls.memory.buffer.byteLength;
        if (missing > 0) this.calls.memory.grow(Math.ceil(missing / PAGE));
        return places;
    }

    /** The memory is looked at anew each time: where it has grown, an older view of it is empty. */
    bytes(place, length) {
        return new Uint8Array(this.calls.memory.buffer, place, length);
    }

    ask(name, ...numbers) {
        return Number(this.calls[`bodhranhaze_${name}`](...numbers));
    }

    /** Lends the scene and areas behind it: the scene's place and length, then the places of the areas. */
    given(scene, ...lengths) {
        const [at, ...areas] = this.lend(scene.length, ...lengths);
        this.bytes(at, scene.length).set(scene);
        return [at, BigInt(scene.length), ...areas];
    }

    /** Everything of a scene. A list that was too short is lent again with the room that the kernel asks for. */
    survey(scene) {
        const names = this.names.facts, size = names.get("FACTS");
        const [at, length, list, lent] = this.given(scene, 2 * this.places, 8 * size);
        this.ask("survey", at, length, list, BigInt(this.places), lent, BigInt(size));
        const facts = [...new BigUint64Array(this.calls.memory.buffer, lent, size)];
        const fact = (name) => Number(facts[names.get(`FACT_${name}`)]);
        const numbers = 3 * fact("PAIRS");
        if (numbers > this.places) {
            this.places = numbers;
            return this.survey(scene);
        }
        return {
            refusal: fact("REFUSAL"),
            place: fact("PLACE"),
            verdict: this.names.verdicts[fact("VERDICT")],
            inside: [fact("A_IN_B"), fact("B_IN_A")],
            enclosed: [vertices(facts[names.get("FACT_A_WORD")]), vertices(facts[names.get("FACT_B_WORD")])],
            listing: new Uint16Array(this.calls.memory.buffer, list, numbers).slice(),
        };
    }

    /** The light's word. The counts are lent as zeros, since the page shows none. */
    light(scene) {
        const [at, length, counts] = this.given(scene, COUNTS);
        this.bytes(counts, COUNTS).fill(0);
        return this.names.colours[this.ask("light", at, length, counts, BigInt(COUNTS))];
    }

    move(scene, point, row) {
        return this.changed("move", scene, ...[point, ...row].map(whole));
    }

    moveFar(scene, row) {
        return this.changed("move_far", scene, ...row.map(whole));
    }

    reverse(scene, face) {
        return this.changed("reverse", scene, whole(face));
    }

    /** A change is made in the kernel's copy: the scene that was given stays, and is handed back under a refusal. */
    changed(name, scene, ...numbers) {
        const [at, length] = this.given(scene);
        const refusal = this.ask(name, at, length, ...numbers);
        return { refusal, scene: refusal ? scene : this.bytes(at, scene.length).slice() };
    }

    /** Whether four doubles are a vertex: the refusal, and which of the four is at fault. */
    take(row) {
        const [record] = this.lend(RECORD);
        return { refusal: this.ask("take", ...row, record, BigInt(RECORD)), place: this.ask("take_place", ...row) };
    }
}
