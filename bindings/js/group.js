// Caches by preference: which cache's data are used, and which caches are asked.

import { GroupShown, GroupStatus, MOST_MEMBERS, STRUCTS } from "./rtr_table.js";
import { fieldsOf, numberOf, objectOf } from "./given.js";
import { readStruct, writeStruct } from "./memory.js";

/** A struct rtr_group: it takes events of its members, and returns what to do, as an object. The
 * struct is kept outside of the module's memory, so it needn't be freed. */
export class Group {
    #session;
    #state;

    /** `session.group` makes instances. Missing settings have their defaults. */
    constructor(session, members, now, settings) {
        fieldsOf(settings, "settings", STRUCTS.groupSettings.fields);
        const count = numberOf(members, "members", MOST_MEMBERS);
        const [at, from] = [session.frame("group"), session.frame("groupSettings")];
        session.call("rtr_group_usual", from);
        const usual = session.answer("groupSettings");
        writeStruct(session.heap.view, "groupSettings", from, { ...usual, ...settings });
        session.call("rtr_group_init", at, from, count, numberOf(now, "now"));
        this.#session = session;
        this.#state = session.copy(at, STRUCTS.group.size);
    }

    /** The settings of the group. */
    get settings() {
        return readStruct(new DataView(this.#state.buffer), "group", 0).settings;
    }

    /** When to call `tick` if nothing happens before; Infinity for never. */
    get wakes() {
        const wakes = this.#session.call("rtr_group_wakes", this.#put());
        return wakes > Number.MAX_SAFE_INTEGER ? Infinity : wakes;
    }

    /** The member whose data are used, or null. */
    get best() {
        const member = this.#session.frame("number");
        const has = this.#session.call("rtr_group_best", this.#put(), member);
        return has ? Number(this.#session.heap.view.getBigUint64(member, true)) : null;
    }

    /** Reports whether a whole answer with this number of payloads counts as data. Otherwise it is
     * a failure. */
    counts(payloads) {
        return this.#session.call("rtr_group_counts", this.#put(), numberOf(payloads, "payloads"));
    }

    /** Reports that time has passed. */
    tick(now) {
        return this.#call("rtr_group_tick", now);
    }

    /** Reports that a member has the data of a whole answer, with this number of payloads. */
    shows(now, member, payloads) {
        return this.#call("rtr_group_shows", now, memberOf(member),
            numberOf(payloads, "payloads"));
    }

    /** Reports that a member lost its data; this is also a failure. */
    drops(now, member) {
        return this.#call("rtr_group_drops", now, memberOf(member));
    }

    /** Reports that a member failed, or that its cache has no data. */
    fails(now, member) {
        return this.#call("rtr_group_fails", now, memberOf(member));
    }

    /** Reports what a member's link told it to do, once; its data have this number of payloads. */
    tells(now, member, todo, payloads) {
        const fields = { ...objectOf(todo, "todo") };
        delete fields.error; // the link's own field
        fieldsOf(fields, "todo", STRUCTS.todo.fields);
        const at = this.#session.frame("todo");
        writeStruct(this.#session.heap.view, "todo", at, fields);
        return this.#call("rtr_group_tell", now, memberOf(member), at,
            numberOf(payloads, "payloads"));
    }

    /** Writes the struct into the memory, and returns its address. */
    #put() {
        const at = this.#session.frame("group");
        this.#session.heap.bytes(at, this.#state.length).set(this.#state);
        return at;
    }

    #call(name, now, ...values) {
        const [at, answer] = [this.#put(), this.#session.frame("groupAnswer")];
        const status = this.#session.call(name, at, numberOf(now, "now"), ...values, answer);
        if (status) {
            const [text] = Object.entries(GroupStatus).find(([, number]) => number === status);
            throw new RangeError(`${name}: ${text}`);
        }
        this.#state = this.#session.copy(at, STRUCTS.group.size);
        const { member, stop, start, shown, stops, starts } = this.#session.answer("groupAnswer");
        return {
            shown,
            member: shown === GroupShown.DATA ? member : null,
            stop: stops ? stop : null,
            start: starts ? start : null,
        };
    }
}

const memberOf = (member) => numberOf(member, "member");
