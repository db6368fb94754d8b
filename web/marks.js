// What the kernel's answers mark in the drawing: pierced faces, piercing edges, enclosed vertices.

/** Sets by number; an edge is named as `5 6`. */
export function marksOf(scene, told) {
    const faces = new Set(), edges = new Set();
    for (let k = 0; k < told.listing.length; k += 3) {
        edges.add(`${told.listing[k]} ${told.listing[k + 1]}`);
        faces.add(told.listing[k + 2]);
    }
    const [a, b] = told.enclosed;
    return { faces, edges, enclosed: new Set([...a, ...b.map((vertex) => vertex + scene.counts[0])]) };
}

/** One pair of the listing alone, for the drawing to show. */
export function pairAt(listing, k) {
    if (!(k >= 0 && 3 * k < listing.length)) return null;
    const [low, high, face] = listing.subarray(3 * k, 3 * k + 3);
    return { edge: `${low} ${high}`, face };
}
