// The header's own names for verdicts, colours and facts, so that none of them is written a second time.

const LIST = /enum\s*\{([^}]*)\}/g;
const PREFIX = "BODHRANHAZE_";

/** The names of one list, each with its number: one more than the one before it where the header gives none. */
function numbered(list) {
    const names = new Map();
    let next = 0;
    for (const item of list.split(",")) {
        const [name, value] = item.split("=").map((part) => part.trim());
        if (value !== undefined) next = Number(value);
        names.set(name.replace(PREFIX, ""), next++);
    }
    return names;
}

/** The words of a list by their numbers, as the programs print them: `A_IN_B` is `a-in-b`. */
function words(names) {
    const spoken = [];
    for (const [name, number] of names) spoken[number] = name.toLowerCase().replaceAll("_", "-");
    return spoken;
}

/** What the page takes from the text of include/bodhranhaze.h. */
export function namesOf(header) {
    const lists = [...header.matchAll(LIST)].map(([, list]) => numbered(list));
    const having = (name) => lists.find((list) => list.has(name));
    return { verdicts: words(having("CROSS")), colours: words(having("GREEN")), facts: having("FACTS") };
}
