// The data of a cache or a router.

import { Covers, Kind, STRUCTS } from "./rtr_table.js";
import { arrayOf, byteOf, bytesOf, objectOf, textOf, wordOf } from "./given.js";
import { readStruct, writeStruct } from "./memory.js";
import { prefixOf } from "./addresses.js";

/** Frees memory of a session when the Data that used it is garbage-collected. */
const unused = new FinalizationRegistry(({ session, addresses }) => release(session, addresses));

function release(session, addresses) {
    try {
        addresses.forEach((address) => session.heap.release(address));
    } catch {
        // the session and its memory were dropped before
    }
}

/** Data in canonical form; immutable. */
export class Data {
    #session;
    #bytes;
    #end;
    #addresses = null; // of the bytes and the index in the session's memory, after the first lookup

    /** `session.data` and a link make instances. `bytes` are in canonical form, with all free bits
     * zero, and aren't changed any more; `end` is their end of data, as a unit. */
    constructor(session, bytes, end) {
        this.#session = session;
        this.#bytes = bytes;
        this.#end = end;
    }

    /** A copy of their bytes, with all free bits zero. */
    get bytes() {
        return this.#bytes.slice();
    }

    /** Their end of data, as a unit: session, serial number and times. */
    get end() {
        return { ...this.#end, offset: this.#bytes.length - this.#end.size };
    }

    get version() {
        return this.end.version;
    }

    get serial() {
        return this.end.serial;
    }

    /** Reports whether there are no payloads. */
    get isEmpty() {
        return this.#bytes.length === this.#end.size;
    }

    /** The number of payloads, counted at each call. */
    get count() {
        return this.#session.normalise(this.#bytes).units;
    }

    /** Iterates over the units that announce their payloads. */
    * units() {
        for (const unit of this.#session.units(this.#bytes)) {
            if (unit.kind === Kind.END_OF_DATA) {
                return;
            }
            yield unit;
        }
    }

    /** Returns the delta from these data to others. */
    deltaTo(next) {
        return this.#session.delta(this.#bytes, next);
    }

    /** Returns these data with changes applied in the order of the answer. */
    applyInOrder(changes) {
        return this.#session.data(this.#session.applyInOrder(this.#bytes, changes));
    }

    /** Returns these data with changes in canonical form applied. */
    apply(changes) {
        return this.#session.data(this.#session.apply(this.#bytes, changes));
    }

    /** Returns the Validity of a route: { prefix: "192.0.2.0/24", asn }, or instead of the text
     * `prefix` the bytes `address` and `prefixLength`. */
    validate(route) {
        const fields = routeOf(route);
        const [data, lookup] = this.#lookup();
        return this.#session.call("rtr_validate_nonnull", data, this.#bytes.length, lookup,
            this.#route(fields));
    }

    /** Returns the Validity of each of the routes, as `validate` does, in the same order. They may
     * come in any order; it is fastest if those of a family are in the order of their addresses. */
    validateAll(routes) {
        const fields = Array.from(arrayOf(routes, "routes"), (each) => routeOf(each));
        const { size } = STRUCTS.route;
        const [data, lookup] = this.#lookup();
        return this.#session.within([size * fields.length, fields.length], (first, validities) => {
            const { view } = this.#session.heap;
            fields.forEach((each, index) => (
                writeStruct(view, "route", first + size * index, each)));
            this.#session.call("rtr_validate_many_nonnull", data, this.#bytes.length, lookup,
                first, fields.length, validities, fields.length);
            return [...this.#session.copy(validities, fields.length)];
        });
    }

    /** Iterates over the VRPs that cover a route, in the order of payloads: each has its index
     * among the payloads, its AS, prefix length and max length, and the Mismatch. */
    covering(route) {
        return this.#coveringFrom(routeOf(route));
    }

    * #coveringFrom(fields) {
        for (let from = 0; ;) {
            const [data, lookup] = this.#lookup();
            const to = this.#session.frame("covering");
            if (this.#session.call("rtr_covering_nonnull", data, this.#bytes.length, lookup,
                this.#route(fields), from, to) !== Covers.ONE) {
                return;
            }
            const found = readStruct(this.#session.heap.view, "covering", to);
            from = found.place + 1;
            yield found;
        }
    }

    /** Frees the memory of lookups; the next lookup allocates it again. */
    drop() {
        if (this.#addresses) {
            unused.unregister(this);
            release(this.#session, this.#addresses);
            this.#addresses = null;
        }
    }

    /** Writes a route into the memory, and returns its address. */
    #route(fields) {
        const at = this.#session.frame("route");
        writeStruct(this.#session.heap.view, "route", at, fields);
        return at;
    }

    /** Returns the addresses of the bytes and the index in the session's memory. */
    #lookup() {
        const { heap } = this.#session;
        if (!this.#addresses) {
            const data = heap.take(this.#bytes.length);
            const lookup = heap.take(STRUCTS.lookup.size);
            heap.bytes(data, this.#bytes.length).set(this.#bytes);
            this.#session.call("rtr_check_data_nonnull", data, this.#bytes.length, lookup,
                this.#session.frame("dataAnswer"));
            this.#addresses = [data, lookup];
            unused.register(this, { session: this.#session, addresses: this.#addresses }, this);
        }
        return this.#addresses;
    }
}

/** Returns the bytes of data in a version. */
export function formOf(session, data, version) {
    return data.version === version ? data.bytes : session.normalise(data.bytes, { version }).form;
}

/** Returns the fields of a struct rtr_route; the family is 0 if the text is no prefix, or the
 * address has neither 4 nor 16 bytes. */
function routeOf(route) {
    const asn = wordOf(objectOf(route, "route").asn, "asn");
    const { address, length } = route.prefix === undefined
        ? { address: bytesOf(route.address, "address"),
            length: byteOf(route.prefixLength, "prefixLength") }
        : prefixOf(textOf(route.prefix, "prefix")) ?? { address: [], length: 0 };
    const family = { 4: 4, 16: 6 }[address.length] ?? 0;
    return { asn, family, prefixLength: Math.min(length, 255), address };
}
