// The clock of clients, and their waits.

// The longest wait of a timer in milliseconds; the caller then waits again.
const LONGEST_WAIT = 3_600_000;

/** Returns the time in milliseconds, by a monotonic clock. */
export function now() {
    return Math.floor(performance.now());
}

/** A wait that ends at a time, or earlier by `ring`. */
export class Bell {
    #isRung = false;
    #end = null;

    /** Ends the present wait, or else the next one. */
    ring() {
        this.#isRung = true;
        this.#end?.();
    }

    /** Waits until a time of the clock, or until `ring`. */
    async wait(until) {
        if (!this.#isRung) {
            const left = Math.min(Math.max(until - performance.now(), 1), LONGEST_WAIT);
            await new Promise((resolve) => {
                const timer = setTimeout(resolve, left);
                this.#end = () => {
                    clearTimeout(timer);
                    resolve();
                };
            });
            this.#end = null;
        }
        this.#isRung = false;
    }
}
