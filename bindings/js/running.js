// The loop of a client: carries out what a link asks for, with connections and timers of Node.

import { TodoKind } from "./rtr_table.js";
import { Bell, now } from "./bell.js";
import { Connection, dial } from "./connection.js";
import { onAbort } from "./iterated.js";
import { Update } from "./update.js";

/** One run of a client: it ends when its `stop` aborts, or throws the reason of its signal. */
export class Run {
    #link;
    #client;
    #options;
    #stop;
    #bell = new Bell();
    #dialing = null; // the controller of the connection that is being opened
    #connection = null; // until it is closed: also while a last report is sent
    #isConnected = false; // whether a `connect` event is due
    #isLost = false; // whether connecting failed, and the link hasn't closed yet
    #isAsked = false;
    #data = null;

    /** `options` are those of the client; `stop` is a signal. */
    constructor(link, client, options, stop) {
        this.#link = link;
        this.#client = client;
        this.#options = options;
        this.#stop = stop;
    }

    /** Asks the cache as soon as the pause allows it. */
    askNow() {
        this.#isAsked = true;
        this.#bell.ring();
    }

    /** Iterates over the events: each has a name and a value, and the first of those of a todo has
     * the todo. */
    async * events() {
        const release = onAbort([this.#stop, this.#options.signal], () => this.#abort());
        try {
            while (!this.#stop.aborted) {
                this.#options.signal?.throwIfAborted();
                yield* this.#turn();
            }
        } finally {
            release();
            this.#abort();
        }
    }

    /** Closes the connection, and ends the wait. */
    #abort() {
        this.#dialing?.abort();
        this.#connection?.destroy();
        this.#bell.ring();
    }

    /** Carries out the link's next request. */
    async * #turn() {
        if (this.#isConnected) {
            this.#isConnected = false;
            yield { name: "connect" };
        }
        const time = now();
        const todo = this.#takesRequest() ? this.#link.askNow(time) : this.#link.next(time);
        switch (todo.kind) {
            case TodoKind.WAIT:
                if (!this.#carries()) {
                    await this.#bell.wait(todo.wakes);
                }
                return;
            case TodoKind.CONNECT:
                this.#dialing = dial(this.#options.connect, todo.wakes - time,
                    (stream, error) => this.#dialed(stream, error));
                return;
            case TodoKind.DATA:
                yield { name: "data", value: this.#update(this.#link.data(time)), todo };
                return;
            case TodoKind.NO_DATA:
                yield { name: "noData", value: todo.error, todo };
                return;
            default:
                yield* this.#ends(todo);
        }
    }

    /** Takes a request, unless the connection is lost: then it waits until that is closed. */
    #takesRequest() {
        const takes = this.#isAsked && !this.#isLost && !this.#connection?.isOver;
        this.#isAsked &&= !takes;
        return takes;
    }

    /** Ends the connection, or drops the data, or both. */
    async * #ends(todo) {
        const { kind, drops, error } = todo;
        const closed = kind === TodoKind.CLOSE ? this.#closes() : null;
        const loses = drops || kind === TodoKind.DROPPED;
        if (loses) {
            yield { name: "dropped", value: this.#update(null), todo };
        }
        await closed;
        if (error !== null) {
            yield loses ? { name: "failed", value: error } : { name: "failed", value: error, todo };
        }
    }

    #update(data) {
        const update = new Update(this.#options.rtr, this.#data, data, this.#client);
        this.#data = data;
        return update;
    }

    /** Sends and reads; returns whether bytes came, or the connection is over. */
    #carries() {
        const connection = this.#connection;
        if (connection === null) {
            return false;
        }
        connection.write(this.#unsent());
        const hasRead = connection.pass((bytes) => this.#link.received(bytes));
        if (!hasRead && connection.isOver) {
            this.#link.lost(connection.error);
        }
        return hasRead || connection.isOver;
    }

    /** Takes the bytes to send from the link. */
    #unsent() {
        const bytes = this.#link.output;
        this.#link.sent(bytes.length);
        return bytes;
    }

    /** Processes the stream of a new connection, or null and why there is none. */
    #dialed(stream, error) {
        this.#dialing = null;
        if (stream === null) {
            this.#isLost = true;
            this.#link.lost(error);
        } else {
            this.#connection = new Connection(stream, () => this.#bell.ring());
            this.#link.opened();
            this.#isConnected = true;
        }
        this.#bell.ring();
    }

    /** Sends the last bytes and closes the connection, or stops connecting. */
    async #closes() {
        this.#dialing?.abort();
        this.#dialing = null;
        this.#isLost = false;
        await this.#connection?.finish(this.#unsent(), this.#options.reportLimit);
        this.#connection = null;
    }
}
