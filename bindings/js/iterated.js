// Iteration over runs of clients, until a signal aborts.

/** The names of clients' methods that are private to this package. */
export const EVENTS = Symbol("events");
export const SESSION = Symbol("session");

/** Returns the iterator of an async generator that ends when its signal aborts. Unlike the
 * generator's own iterator, it can be closed while a value is awaited. */
export function iterated(generate) {
    const stop = new AbortController();
    const values = generate(stop.signal);
    return {
        next: () => values.next(),
        return: (value) => {
            stop.abort();
            return values.return(value);
        },
        [Symbol.asyncIterator]() {
            return this;
        },
    };
}

/** Calls a function when one of these signals aborts, where undefined stands for none. Returns a
 * function that ends this. */
export function onAbort(signals, call) {
    const given = signals.filter((signal) => signal !== undefined);
    given.forEach((signal) => signal.addEventListener("abort", call));
    return () => given.forEach((signal) => signal.removeEventListener("abort", call));
}
