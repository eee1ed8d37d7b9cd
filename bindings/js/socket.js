// A server's connection to a router, over the streams of Node.

import { Step } from "./rtr_table.js";
import { now } from "./bell.js";
import { LONGEST_TIMER } from "./connection.js";

/** The socket of a router, by which a Served sends and receives. It reads only while the machine
 * waits, and hands the stream no more bytes before it has sent the last ones. */
export class RouterSocket {
    #served;
    #socket; // as the system accepted it
    #stream = null; // the same, or what TLS makes of it; null in a handshake
    #timer = null;
    #due = Infinity; // when the timer expires
    #isWriting = false;
    #isFinished = false; // whether it is shut down for writing
    #isOver = false;
    #leaving = null; // why it ends as soon as its answer is sent

    /** `over` is called with the reason, or null, when the connection is closed. */
    constructor(served, socket, over) {
        this.#served = served;
        this.#socket = socket.on("error", (error) => this.fails(error));
        socket.on("close", () => {
            this.#ends();
            over(served.error);
        });
    }

    /** Begins to serve by this stream; or closes it, if there is an error. */
    opens(stream, error = null) {
        this.#stream = stream;
        if (stream !== this.#socket) {
            stream.on("error", (failure) => this.fails(failure));
            stream.on("close", () => this.#socket.destroy());
        }
        if (error !== null || this.#isOver) {
            this.fails(error);
            return;
        }
        stream.on("readable", () => this.turn());
        stream.on("end", () => this.#closed());
        this.turn();
    }

    /** Carries out the steps that are due now. */
    turn() {
        try {
            while (!this.#isOver && this.#does(this.#served.next(now()))) { /* continue */ }
        } catch (error) {
            this.fails(error);
        }
    }

    /** Closes the connection, for this reason, as soon as an answer that has begun is sent. */
    leaves(error) {
        this.#leaving = error;
        this.turn();
    }

    /** Closes the connection at once, for this reason: it broke, or nothing is to be sent on it any
     * more. */
    fails(error) {
        this.#served.broke(error);
        this.#ends();
    }

    /** Carries out a step, and returns whether there may be another one at once. */
    #does(step) {
        if (step === Step.CLOSE) {
            this.#ends();
            return false;
        }
        if (step === Step.WAIT && this.#leaving !== null) {
            this.fails(this.#leaving);
            return false;
        }
        this.#wait(this.#served.wakes);
        if (this.#stream === null) {
            return false;
        }
        if (step === Step.SEND) {
            this.#send();
            return false;
        }
        if (step === Step.FINISH && !this.#isFinished) {
            this.#isFinished = true;
            this.#stream.end();
        }
        return this.#reads();
    }

    /** Passes bytes to the machine, and returns whether there were any. */
    #reads() {
        const bytes = this.#stream.read();
        if (bytes !== null) {
            this.#served.received(bytes, now());
        }
        return bytes !== null;
    }

    #send() {
        if (this.#isWriting) {
            return;
        }
        const bytes = this.#served.takes();
        this.#isWriting = true;
        this.#stream.write(bytes, (error) => {
            this.#isWriting = false;
            if (!error && !this.#isOver) {
                this.#served.sent(bytes.length, now());
                this.turn();
            }
        });
    }

    #closed() {
        if (!this.#isOver) {
            this.#served.closed();
            this.turn();
        }
    }

    /** Sets the timer to call `turn` at this time, or earlier. */
    #wait(until) {
        if (this.#due <= until) {
            return;
        }
        clearTimeout(this.#timer);
        const left = Math.min(Math.max(until - performance.now(), 1), LONGEST_TIMER);
        this.#due = until;
        this.#timer = setTimeout(() => {
            this.#due = Infinity;
            this.turn();
        }, left).unref();
    }

    #ends() {
        this.#isOver = true;
        clearTimeout(this.#timer);
        // A stream of TLS closes the socket below it; closed the other way round Node may crash.
        (this.#stream ?? this.#socket).destroy();
    }
}
