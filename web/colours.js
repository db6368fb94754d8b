// The colours, after Okabe and Ito: blue and orange differ for every common kind of colour blindness. Nothing is told by colour alone:
// pierced faces are hatched, piercing edges wide, enclosed vertices filled, and the light has its word.

const rgb = (hex) => [1, 3, 5].map((at) => parseInt(hex.slice(at, at + 2), 16) / 255);

export const GROUND = rgb("#fbfaf7");
export const FACES = [rgb("#56a5dd"), rgb("#f0ad2e")]; // of A, of B
export const EDGES = [rgb("#0a3d62"), rgb("#7a4a00")];
export const PIERCED = rgb("#3a0f2c"); // the hatching of a pierced face
export const PIERCING = rgb("#a3195b");
export const POINTED = rgb("#000000"); // the pair that is pointed at
export const FAR = rgb("#00664a");
export const PICKED = rgb("#000000");
