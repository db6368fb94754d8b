// What the page says of a scene, laid out as `report` prints it: the kernel's answers and nothing else.
// A call that gives a report's text is to take this file's place.

/** The lines of a report; `counts` are the header's, which a refused scene does not have. */
export function reportLines(counts, told) {
    if (told.refusal) return [`refused ${told.refusal} ${told.place}`];
    const pairs = pairLines(told.listing);
    return [`scene ${counts.join(" ")}`, `verdict ${told.verdict}`, `inside ${told.inside.join(" ")}`, `pairs ${pairs.length}`, ...pairs];
}

function pairLines(listing) {
    const lines = [];
    for (let k = 0; k < listing.length; k += 3) lines.push(`${listing[k]} ${listing[k + 1]} ${listing[k + 2]}`);
    return lines;
}

/** One sentence for readers of screens, short enough to be heard at each step of a drag. */
export function spoken(light, told) {
    if (told.refusal) return `${light}: refused ${told.refusal} ${told.place}`;
    const [a, b] = told.inside;
    return `${light}: ${told.verdict}, pairs ${told.listing.length / 3}, A within B ${a}, B within A ${b}`;
}
