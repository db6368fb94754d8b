// texts.js EXAMPLES: each example's text gives its scene's bytes; texts that are wrong are told with their line.
import { readdirSync, readFileSync } from "node:fs";
import { ended, refused, same } from "./check.js";
import { sceneOfText } from "../../../web/text.js";

const folder = process.argv[2];
const like = (name) => readFileSync(`${folder}/${name}.scene`);
for (const file of readdirSync(folder).filter((name) => name.endsWith(".txt"))) {
    const made = sceneOfText(readFileSync(`${folder}/${file}`, "utf8"), like);
    same(file, Buffer.from(made).toString("hex"), readFileSync(`${folder}/${file.replace(".txt", ".scene")}`).toString("hex"));
}

const WRONG = [
    ["w 1", "line 1: no line begins with w"],
    ["constructor", "line 1: no line begins with constructor"],
    ["solid C", "a solid is A or B"],
    ["solid constructor", "a solid is A or B"],
    ["v 1 2 3", "line 1: `solid A`"],
    ["solid A\nv 1 2", "line 2: 3 to 4 numbers"],
    ["solid A\nv 1 2 3.5", "line 2: 3.5 is no whole number"],
    ["solid A\n\nv 1 2 40000", "line 3: 40000 has no room"],
    ["solid A\nf 1 2 256", "256 has no room"],
    ["far 1 2 3\nfar 1 2 3", "line 2: a second far point"],
    ["far 1 2 3\nlike printed", "too late"],
    ["like printed\nfar 1 2 3", "too late"],
    ["like printed\ncut 130", "line 2: 130 bytes"],
    ["like printed\nset 129 1", "no bytes 129"],
    ["like printed\nrecord 19 EN", "no record 19"],
    ["solid A", "no far point"],
];
for (const [text, words] of WRONG) refused(text, () => sceneOfText(text, like), words);
ended();
