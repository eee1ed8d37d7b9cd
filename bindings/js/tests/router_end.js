// A client with a simulated clock, a Link or a Router, as an end of a connection
// (tests/joined/README.md).
//
// usage: node router_end.js MODULE [router]     a Link, or a Router

import { readFileSync } from "node:fs";
import { createInterface } from "node:readline";
import { ActionKind, Fault, TodoKind } from "../rtr_wire.js";
import { opened } from "./opened.js";

const NOTHING = new Uint8Array(0);

const SETTINGS = { "version": "highest", "connect-limit": "connectLimit", "most-units": "mostUnits",
    "response-limit": "responseLimit", "most-bytes": "mostBytes" };

const hex = (bytes) => Buffer.from(bytes).toString("hex");

function bytesOf(text) {
    return Uint8Array.from(Buffer.from(text.replaceAll(" ", ""), "hex"));
}

const joined = (...pieces) => Uint8Array.from(Buffer.concat(pieces));

/** The steps of a router under test. */
class Steps {
    now = 0;
    taken = [];

    constructor(rtr) {
        this.rtr = rtr;
    }

    note(what) {
        this.taken.push(`${this.now} ${what}\n`);
    }

    notesSent(bytes) {
        if (bytes.length > 0) {
            this.note(`router> ${hex(bytes)}`);
        }
    }

    notesData(bytes) {
        this.note(`shows { ${hex(bytes)} }`);
    }
}

/** A Link under test. */
class LinkEnd extends Steps {
    #link;
    #isOpen = false; // whether bytes of the cache are read
    #isBroken = false;

    constructor(rtr, settings) {
        super(rtr);
        this.#link = rtr.link(settings);
    }

    /** Advances the clock to this time. */
    pass(time) {
        while (this.#link.wakes <= time) {
            this.now = Math.max(this.now, this.#link.wakes);
            this.#settle();
        }
        this.now = Math.max(this.now, time);
    }

    accepted() {
        this.#isOpen = true;
        this.#isBroken = false;
        this.#link.opened();
        this.#settle();
    }

    asked() {
        this.#does(this.#link.askNow(this.now));
        this.#settle();
    }

    refused() {
        this.#link.lost();
        this.#settle();
    }

    received(bytes) {
        for (let rest = bytes; this.#isOpen && rest.length > 0;) {
            rest = rest.subarray(this.#link.received(rest));
            this.#settle();
        }
    }

    closed(isBroken) {
        this.#isBroken = isBroken;
        if (this.#isOpen) {
            this.#link.lost();
        }
        this.#settle();
    }

    /** When it acts by itself. */
    get wakes() {
        return this.#link.wakes;
    }

    /** Frees the memory. */
    drop() {
        this.#link.drop();
    }

    #settle() {
        while (this.#does(this.#link.next(this.now)) !== TodoKind.WAIT) { /* continue */ }
    }

    #does({ kind, drops }) {
        const steps = {
            [TodoKind.WAIT]: () => this.#sends(),
            [TodoKind.CONNECT]: () => this.note("connects"),
            [TodoKind.CLOSE]: () => this.#closes(drops),
            [TodoKind.DATA]: () => this.notesData(this.#link.data(this.now).bytes),
            [TodoKind.DROPPED]: () => this.note("drops"),
            [TodoKind.NO_DATA]: () => this.note("no data"),
        };
        steps[kind]();
        return kind;
    }

    #sends() {
        const bytes = this.#link.output;
        if (!this.#isBroken) {
            this.notesSent(bytes);
        }
        this.#link.sent(bytes.length);
    }

    #closes(drops) {
        if (drops) {
            this.note("drops");
        }
        this.#sends();
        this.#isOpen = false;
        this.note("closes");
    }
}

/** A Router under test, with the buffers and data that it needs. */
class RouterEnd extends Steps {
    #router;
    #input = NOTHING;
    #kept = NOTHING;
    #data = null;
    #nextData = null;
    #isClosed = false;
    #isBroken = false;

    constructor(rtr, settings) {
        super(rtr);
        this.#router = rtr.router(settings);
    }

    /** When it acts by itself. */
    get wakes() {
        return this.#router.wakes;
    }

    /** A no-op: it has no memory to free. */
    drop() {}

    /** Advances the clock to this time. */
    pass(time) {
        while (this.#router.wakes <= time) {
            this.now = Math.max(this.now, this.#router.wakes);
            if (!this.#settle()) {
                break;
            }
        }
        this.now = Math.max(this.now, time);
    }

    accepted() {
        this.#isClosed = this.#isBroken = false;
        this.#act(this.#router.connected(this.now), NOTHING);
        this.#settle();
    }

    asked() {
        this.#act(this.#router.asked(this.now), NOTHING);
        this.#settle();
    }

    refused() {
        this.#act(this.#router.lost(this.now), NOTHING);
        this.#settle();
    }

    received(bytes) {
        this.#input = joined(this.#input, bytes);
        this.#settle();
    }

    closed(isBroken) {
        this.#isClosed = true;
        this.#isBroken = isBroken;
        this.#settle();
        if (this.#isClosed) {
            this.#act(this.#router.lost(this.now), NOTHING);
            this.#settle();
        }
    }

    /** Runs the machine until it waits, and returns whether it did something. */
    #settle() {
        let steps = 0;
        while (this.#tick() || this.#read()) {
            steps += 1;
        }
        return steps > 0;
    }

    #tick() {
        const action = this.#router.tick(this.now);
        this.#act(action, NOTHING);
        return action.kind !== ActionKind.WAIT;
    }

    #read() {
        const input = this.#input;
        const action = this.#router.read(this.now, input, this.#isClosed);
        this.#input = input.subarray(action.taken);
        if (action.kind === ActionKind.KEEP) {
            this.#kept = joined(this.#kept, input.subarray(0, action.taken));
        }
        this.#act(action, input.subarray(action.start));
        return action.kind !== ActionKind.WAIT || action.taken > 0;
    }

    /** Carries out an action, about the unit at the start of these bytes. */
    #act(action, about) {
        const steps = {
            [ActionKind.CONNECT]: () => this.note("connects"),
            [ActionKind.ASK]: () => this.notesSent(this.#router.query(action)),
            [ActionKind.BEGIN]: () => { this.#kept = NOTHING; },
            [ActionKind.APPLY]: () => this.#apply(action, about),
            [ActionKind.SHOW]: () => this.#show(),
            [ActionKind.NO_DATA]: () => this.note("no data"),
            [ActionKind.DROP]: () => this.#drops(),
            [ActionKind.END]: () => this.#end(action, about),
        };
        steps[action.kind]?.();
    }

    /** Applies the collected changes to the data, or to none. */
    #apply(action, about) {
        const end = about.subarray(0, this.rtr.next(about).size);
        const changes = joined(this.#kept, end);
        try {
            this.#nextData = this.rtr.applyInOrder(action.changes ? this.#data : end, changes);
            this.#act(this.#router.applied(this.now), NOTHING);
        } catch (error) {
            if (!(error instanceof Fault)) {
                throw error;
            }
            const action = this.#router.notApplied(this.now, error.status, error.detail);
            this.#act(action, changes.subarray(error.offset));
        }
    }

    #show() {
        this.#data = this.#nextData;
        this.notesData(this.#data);
    }

    #drops() {
        this.#data = null;
        this.note("drops");
    }

    #end(action, about) {
        if (action.drops) {
            this.#drops();
        }
        const report = this.#isBroken ? null : this.#router.report(action, about);
        if (report) {
            this.notesSent(report);
        }
        this.#input = this.#kept = NOTHING;
        this.#isClosed = false;
        this.note("closes");
    }
}

/** Carries out a step of the cache or the caller. */
function takeStep(end, step) {
    const steps = {
        "caller asks": () => end.asked(),
        "cache accepts": () => end.accepted(),
        "cache refuses": () => end.refused(),
        "cache closes": () => end.closed(false),
        "cache breaks": () => end.closed(true),
    };
    (steps[step] ?? (() => end.received(bytesOf(step.replace("cache>", "")))))();
}

const [path, kind] = process.argv.slice(2);
const rtr = await opened(readFileSync(path));
const End = kind === "router" ? RouterEnd : LinkEnd;
let end = null;
let settings = {};
for await (const line of createInterface({ input: process.stdin })) {
    const [first, ...words] = line.split(" ");
    if (first === "scene") {
        end?.drop();
        end = null;
        settings = { highest: 1 };
    } else if (first === "router") {
        settings[SETTINGS[words[0]] ?? words[0]] = Number(words[1]);
    } else {
        end ??= new End(rtr, { ...rtr.usualSettings(settings.highest), ...settings });
        end.pass(Number(first === "at" ? words[0] : first));
        if (first !== "at") {
            takeStep(end, words.join(" "));
        }
        process.stdout.write(`${end.taken.splice(0).join("")}wakes ${end.wakes}\n`);
    }
}
