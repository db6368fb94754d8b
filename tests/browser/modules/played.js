// played.js MODULE HEADER < LINES: the module through the page's own calls, against the lines of lines.py.
import { readFileSync } from "node:fs";
import { ended, same } from "./check.js";
import { loadKernel } from "../../../web/kernel.js";
import { reportLines } from "../../../web/state.js";

const [module, header] = process.argv.slice(2);
const kernel = await loadKernel(readFileSync(module), readFileSync(header, "utf8"));
for (const line of readFileSync(0, "utf8").split("\n").filter((line) => line)) {
    const cut = line.indexOf(" "), scene = new Uint8Array(Buffer.from(line.slice(0, cut), "hex"));
    const told = kernel.survey(scene);
    same(line.slice(0, cut), reportLines(told.refusal ? [] : [...scene.subarray(2, 6)], told).join(";"), line.slice(cut + 1));
}
ended();
