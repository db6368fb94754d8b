// answers.js MODULE HEADER EXAMPLES: the module through the page's own desk: reports, lights, moves, refusals, undo, exchange.
import { readdirSync, readFileSync } from "node:fs";
import { ended, same } from "./check.js";
import { Desk } from "../../../web/desk.js";
import { loadKernel } from "../../../web/kernel.js";
import { reportLines } from "../../../web/state.js";

const [module, header, folder] = process.argv.slice(2);
const kernel = await loadKernel(readFileSync(module), readFileSync(header, "utf8")), desk = new Desk(kernel);
const bytesOf = (name) => new Uint8Array(readFileSync(`${folder}/${name}.scene`));
const report = () => reportLines(desk.scene?.counts, desk.told).join("\n") + "\n";
const LIGHTS = { cross: "red", "a-in-b": "amber", "b-in-a": "amber", apart: "green", refused: "dark" };

same("nothing is open", [report(), desk.light, desk.scene], ["refused 1 0\n", "dark", null]);
const names = readdirSync(folder).filter((file) => file.endsWith(".scene")).map((file) => file.slice(0, -6));
for (const name of names) {
    const before = bytesOf(name);
    desk.open(before, name);
    const wanted = readFileSync(`${folder}/${name}.report`, "utf8");
    same(`report ${name}`, report() === wanted, true);
    same(`light ${name}`, desk.light, LIGHTS[desk.told.verdict]);
    same(`bytes ${name}`, [...desk.bytes], [...bytesOf(name)]);
}

// a weight through zero: refused 6, and the scene stays; then on the other side
desk.open(bytesOf("printed"), "printed");
const printed = readFileSync(`${folder}/printed.report`, "utf8");
same("weight 0", [desk.put(4, [0, 0, -4, 0]), desk.said, report()], [false, "refused 6: point 4 to 0 0 -4 0", printed]);
same("weight -1", [desk.put(4, [0, 0, -4, -1]), [...desk.bytes]], [true, [...bytesOf("infinity")]]);
same("undone", [desk.undo(), [...desk.bytes]], [undefined, [...bytesOf("printed")]]);
same("done again", [desk.redo(), [...desk.bytes]], [undefined, [...bytesOf("infinity")]]);

// refusals of moves leave the scene, byte for byte
desk.open(bytesOf("printed"), "printed");
const MOVES = [
    [[1, [4096, 0, 0, 1]], "refused 5"],
    [[1, [2 ** 53, 0, 0, 1]], "refused 5"],
    [[1, [-1e300, 0, 0, 1]], "refused 5"],
    [[1, [0, 0, 0, 17]], "refused 6"],
    [[0, [0, 0, 0, 1]], "refused 11"],
    [[9, [0, 0, 0, 0]], "refused 14"],
    [[10, [0, 0, 0, 1]], "refused 11"],
];
for (const [words, refusal] of MOVES) {
    same(`${words}`, [desk.put(...words), desk.said.startsWith(`${refusal}: `), [...desk.bytes]], [false, true, [...bytesOf("printed")]]);
}
const TYPED = [
    [["1", "2", "3.5", "1"], "refused 15 3: z 3.5"],
    [["", "2", "3", "1"], "refused 15 1: x "],
    [["1", "-", "3", "1"], "refused 15 2: y -"],
    [["1", "2", "3", "Infinity"], "refused 15 4: weight Infinity"],
    [["1", "2", "3", "0"], "refused 6: point 1 to 1 2 3 0"],
];
for (const [texts, words] of TYPED) {
    same(`typed ${texts}`, [desk.type(1, texts), desk.said, [...desk.bytes]], [false, words, [...bytesOf("printed")]]);
}
same("typed", [desk.type(1, [" 1 ", "-2", "3", "1"]), desk.scene.rows[1]], [true, [1, -2, 3, 1]]);
same("reversed", [desk.reverse(8), desk.scene.faces[8]], [true, [8, 7, 6]]);
same("no such face", [desk.reverse(9), desk.said], [false, "refused 11: reverse face 9"]);
same("far direction", [desk.put(9, [1, 0, 0, 0]), desk.scene.rows[9]], [true, [1, 0, 0, 0]]);

// an exchange, seen by the kernel
desk.open(bytesOf("face-on-face"), "face-on-face"), desk.exchange();
same("exchanged", report() === readFileSync(`${folder}/face-on-face-swapped.report`, "utf8"), true);

// nothing grows, and a long file is only long
const grown = kernel.calls.memory.buffer.byteLength;
desk.open(bytesOf("gear-meets"), "gear-meets");
for (let k = 0; k < 10000; k++) desk.put(1, [k % 100, k % 7, 0, 1], k > 0);
same("memory", kernel.calls.memory.buffer.byteLength, grown);
desk.open(new Uint8Array(3_000_000), "long");
same("a long file", [report(), desk.light], ["refused 1 0\n", "dark"]);
ended();
