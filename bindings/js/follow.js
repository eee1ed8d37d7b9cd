// Follows several caches by preference (RFC 8210 section 10): a Group decides.

import { GroupShown, MOST_MEMBERS, STRUCTS, TodoKind } from "./rtr_table.js";
import { Bell, now } from "./bell.js";
import { Empty } from "./faults.js";
import { fieldsOf, objectOf } from "./given.js";
import { EVENTS, SESSION, iterated, onAbort } from "./iterated.js";
import { Update } from "./update.js";

/** Follows the most preferred cache that answers, each by a client: iterates over the updates of
 * the data in use, each with its `client`. Leaving the loop stops all clients. */
export function follow(clients, options = {}) {
    const { signal, settings = {}, ...others } = objectOf(options, "options");
    for (const name of Object.keys(others)) {
        throw new TypeError(`options has no field ${name}`);
    }
    fieldsOf(settings, "settings", STRUCTS.groupSettings.fields);
    if (!Array.isArray(clients) || !clients.every((client) => client?.[EVENTS])) {
        throw new TypeError("clients must be an array of clients");
    }
    if (clients.length < 1 || clients.length > MOST_MEMBERS) {
        throw new RangeError(`clients are ${clients.length}: they must be 1 to ${MOST_MEMBERS}`);
    }
    const chooser = new Chooser(clients, { emptyIsData: clients.length === 1, ...settings });
    return iterated((stop) => chooser.updates(stop, signal));
}

/** A client in a group. */
class Member {
    link = null; // the link of its last run
    stop = null; // the controller of the present run
    running = null; // settles when the last run has ended
    data = null;
    taken = null; // continues the run after its last event was processed

    constructor(client) {
        this.client = client;
    }

    /** Ends the present run, and drops its data. */
    ends() {
        this.stop?.abort();
        this.taken?.();
        this.stop = this.taken = this.data = null;
    }
}

/** Runs clients; a group decides which, and whose data are used. */
class Chooser {
    #members;
    #settings;
    #rtr;
    #group;
    #bell = new Bell();
    #news = []; // events of running members, in order
    #shown = null;

    constructor(clients, settings) {
        this.#members = clients.map((client) => new Member(client));
        this.#settings = settings;
    }

    /** Iterates over the updates until `stop` aborts, or throws the reason of the signal. */
    async * updates(stop, signal) {
        const release = onAbort([stop, signal], () => this.#endsAll());
        try {
            this.#rtr = await this.#members[0].client[SESSION]();
            this.#group = this.#rtr.group(this.#members.length, now(), this.#settings);
            this.#starts(0);
            while (!stop.aborted) {
                signal?.throwIfAborted();
                const update = await this.#next();
                if (update !== null) {
                    yield update;
                }
            }
        } finally {
            release();
            this.#endsAll();
            await Promise.all(this.#members.map(({ running }) => running));
        }
    }

    #endsAll() {
        this.#members.forEach((member) => member.ends());
        this.#bell.ring();
    }

    /** Processes the next event of a member or of the group's clock, or waits for one. Returns an
     * update, or null. */
    async #next() {
        const news = this.#news.shift();
        if (news !== undefined) {
            return news.stop === news.member.stop ? this.#takes(news) : null;
        }
        if (this.#group.wakes <= now()) {
            return this.#obeys(0, this.#group.tick(now()));
        }
        await this.#bell.wait(this.#group.wakes);
        return null;
    }

    #takes({ member, event, error }) {
        member.taken();
        member.taken = null;
        if (error !== undefined) {
            throw error;
        }
        member.client.emit(event.name, event.value);
        return this.#happens(this.#members.indexOf(member), member, event);
    }

    /** Reports an event of a member to the group, and carries out its decision. */
    #happens(index, member, { value, todo }) {
        if (value instanceof Update) {
            member.data = value.data;
        }
        // The group only checks whether there are any.
        const payloads = member.data?.isEmpty === false ? 1 : 0;
        if (todo?.kind === TodoKind.DATA && !this.#group.counts(payloads)) {
            member.client.emit("failed", new Empty());
        }
        return todo === undefined ? null
            : this.#obeys(index, this.#group.tells(now(), index, todo, payloads));
    }

    /** Carries out the group's decision after an event of a member. */
    #obeys(index, { shown, member, stop, start }) {
        const source = this.#members[member ?? index];
        const update = shown === GroupShown.SAME ? null
            : this.#shows(source, shown === GroupShown.DATA);
        if (stop !== null) {
            this.#members.slice(stop).forEach((stopped) => stopped.ends());
        }
        if (start !== null) {
            this.#starts(start);
        }
        return update;
    }

    #shows({ client, data }, hasData) {
        const update = new Update(this.#rtr, this.#shown, hasData ? data : null, client);
        this.#shown = update.data;
        return update;
    }

    /** Starts a member after its last run has ended. */
    #starts(index) {
        const member = this.#members[index];
        member.stop = new AbortController();
        member.running = this.#runs(member, member.stop, member.running);
    }

    async #runs(member, stop, before) {
        await before;
        try {
            for await (const event of member.client[EVENTS](stop.signal, member)) {
                await this.#gives({ member, stop, event });
            }
        } catch (error) {
            await this.#gives({ member, stop, error });
        }
    }

    /** Queues an event, and waits until it is processed or the member is stopped. */
    async #gives(news) {
        if (!news.stop.signal.aborted) {
            await new Promise((resolve) => {
                news.member.taken = resolve;
                this.#news.push(news);
                this.#bell.ring();
            });
        }
    }
}
