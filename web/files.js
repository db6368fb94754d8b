// Files in and out: what was chosen or dropped becomes a scene's bytes, and bytes, pictures and texts go out.

import { sceneOfText } from "./text.js";

const ending = (name) => name.slice(name.lastIndexOf(".") + 1).toLowerCase();

/** The bytes of a file. Its name alone says what is in it, so that the kernel sees everything else as it is. */
export async function bytesOfFile(file, example) {
    if (ending(file.name) === "off") throw new Error("OFF texts are not read here yet; `bodhranhaze off` makes a scene of two");
    const bytes = new Uint8Array(await file.arrayBuffer());
    return ending(file.name) === "txt" ? sceneOfText(new TextDecoder("utf-8", { fatal: true }).decode(bytes), example) : bytes;
}

/** Hands a file to the browser, which asks where to or puts it among the downloads. */
export function download(name, blob) {
    const link = document.createElement("a");
    link.href = URL.createObjectURL(blob);
    link.download = name;
    link.click();
    setTimeout(() => URL.revokeObjectURL(link.href), 60_000);
}

export const unpacked = (base64) => Uint8Array.from(atob(base64), (letter) => letter.charCodeAt(0));
