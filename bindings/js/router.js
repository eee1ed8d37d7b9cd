// A router's end of the protocol, without sockets or a clock.

import { LONGEST_UNIT, STRUCTS } from "./rtr_table.js";
import { byteOf, bytesOf, fieldsOf, flagOf, numberOf } from "./given.js";
import { readStruct, writeStruct } from "./memory.js";

/** A struct rtr_router: it takes events, and returns what to do, an action of rtr.h as an object.
 * The struct is kept outside of the module's memory, so it needn't be freed. */
export class Router {
    #session;
    #state;

    /** `session.router` makes instances. Missing settings have their defaults. */
    constructor(session, settings) {
        this.#session = session;
        session.call("rtr_router_init", session.frame("router"), session.putSettings(settings));
        this.#keep();
    }

    /** The fields of the struct. */
    get state() {
        return readStruct(new DataView(this.#state.buffer), "router", 0);
    }

    /** When to call `tick` if nothing happens before. */
    get wakes() {
        return this.#session.call("rtr_router_wakes", this.#put());
    }

    /** Reports that time has passed. */
    tick(now) {
        return this.#call("rtr_router_tick", now);
    }

    /** Reports whether there are data that haven't expired at this time. */
    hasData(now) {
        return this.#session.call("rtr_router_has_data", this.#put(), numberOf(now, "now"));
    }

    /** Requests current data: the router asks as soon as allowed, or connects. */
    asked(now) {
        return this.#call("rtr_router_asked", now);
    }

    /** Reports that the connection is established. */
    connected(now) {
        return this.#call("rtr_router_connected", now);
    }

    /** Reports that the connection failed or was lost, after `read` has processed all input. */
    lost(now) {
        return this.#call("rtr_router_lost", now);
    }

    /** Reports that all changes of the answer were applied. */
    applied(now) {
        return this.#call("rtr_router_applied", now);
    }

    /** Reports that no change was applied, since `applyInOrder` returned this status and detail. */
    notApplied(now, status, detail = 0) {
        byteOf(status, "status");
        byteOf(detail, "detail");
        return { ...this.#call("rtr_router_not_applied", now, status), detail };
    }

    /** Passes received bytes; `ended` if the peer has closed. */
    read(now, bytes, ended = false) {
        const input = bytesOf(bytes);
        flagOf(ended, "ended");
        return this.#session.within([input], (at) => (
            this.#call("rtr_router_read_nonnull", now, at, input.length, ended)));
    }

    /** Returns the query that an action asks for. */
    query(action) {
        fieldsOf(action, "action", STRUCTS.action.fields);
        return this.#session.within([LONGEST_UNIT], (output) => {
            const length = this.#session.call("rtr_router_query_nonnull", this.#action(action),
                output, LONGEST_UNIT);
            return this.#session.copy(output, length);
        });
    }

    /** Returns the report that an action owes about the unit at the start of these bytes, or
     * null. */
    report(action, bytes) {
        fieldsOf(action, "action", STRUCTS.action.fields);
        const unit = bytesOf(bytes).subarray(0, LONGEST_UNIT);
        return this.#session.within([unit, LONGEST_UNIT], (at, output) => {
            const written = this.#session.frame("number");
            const isOwed = this.#session.call("rtr_router_report_nonnull", this.#action(action), at,
                unit.length, output, LONGEST_UNIT, written);
            const length = Number(this.#session.heap.view.getBigUint64(written, true));
            return isOwed ? this.#session.copy(output, length) : null;
        });
    }

    /** Writes the struct into the memory, and returns its address. */
    #put() {
        const at = this.#session.frame("router");
        this.#session.heap.bytes(at, this.#state.length).set(this.#state);
        return at;
    }

    #keep() {
        this.#state = this.#session.copy(this.#session.frame("router"), STRUCTS.router.size);
    }

    #call(name, now, ...values) {
        numberOf(now, "now");
        this.#session.call(name, this.#put(), now, ...values, this.#session.frame("action"));
        this.#keep();
        return this.#session.answer("action");
    }

    #action(action) {
        const at = this.#session.frame("action");
        writeStruct(this.#session.heap.view, "action", at, action);
        return at;
    }
}
