// Checks of the options of clients and servers.

import { Session } from "./rtr_wire.js";
import { objectOf } from "./given.js";

/** Checks each option by its function in `checks`; returns the options that are set. */
export function optionsOf(value, checks) {
    const named = Object.entries(objectOf(value, "options"))
        .filter(([, value]) => value !== undefined);
    for (const [name, value] of named) {
        if (!Object.hasOwn(checks, name)) {
            throw new TypeError(`options has no field ${name}`);
        }
        checks[name](value, name);
    }
    return Object.fromEntries(named);
}

export function functionOf(value, name) {
    if (typeof value !== "function") {
        throw new TypeError(`${name} must be a function`);
    }
    return value;
}

export function signalOf(value, name) {
    if (typeof value?.throwIfAborted !== "function") {
        throw new TypeError(`${name} must be an AbortSignal`);
    }
    return value;
}

export function sessionOf(value, name) {
    if (!(value instanceof Session)) {
        throw new TypeError(`${name} must be a Session, which load returns`);
    }
    return value;
}
