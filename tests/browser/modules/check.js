// The pure modules of the page under node: a line for each thing that is wrong, then how many were right.

let passed = 0, failed = 0;

export function same(what, got, wanted) {
    const [one, other] = [JSON.stringify(got), JSON.stringify(wanted)];
    if (one === other) return passed++;
    console.log(`failed: ${what}: ${one}, and not ${other}`);
    return failed++;
}

export const close = (what, got, wanted, by = 1e-9) => same(what, Math.abs(got - wanted) < by ? wanted : got, wanted);

export function refused(what, ask, words) {
    try {
        same(what, ask(), "refused");
    } catch (error) {
        same(what, error.message.includes(words), true);
    }
}

export function ended() {
    console.log(`${passed} passed, ${failed} failed`);
    process.exitCode = failed ? 1 : 0;
}
