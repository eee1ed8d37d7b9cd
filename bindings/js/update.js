// The updates of a client.

import { Kind } from "./rtr_table.js";

/** The data of a client, and the changes from the data before. */
export class Update {
    #session;
    #before;

    constructor(session, before, data, client) {
        this.#session = session;
        this.#before = before;
        this.data = data;
        this.client = client;
    }

    /** Returns the changes in canonical form, as a cache sends them. Each call computes them, and
     * may throw OutOfMemory, which doesn't affect the data. */
    delta() {
        return this.#session.changesBetween(this.#before, this.data);
    }

    /** Iterates over the changes: units that are announced, then units that are withdrawn. */
    * changes() {
        for (const unit of this.#session.units(this.delta())) {
            if (unit.kind !== Kind.END_OF_DATA) {
                yield unit;
            }
        }
    }
}
