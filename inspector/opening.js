// Opens a file: a recording, or the sessions of a packet capture.

import { isCapture } from "./capture.js";
import { CACHE, ROUTER, conversationOf, gapText, sessionsIn } from "./conversation.js";
import { Recording } from "./recording.js";
import { looksLike, many } from "./words.js";

/** A file that was opened. */
export class Opened {
    name;
    recording; // what is counted, checked, compared and used to validate: of a session the cache's
    units; // the listed units: of the recording, or the session
    note = ""; // what is missing, in words
    sessions = []; // of a capture
    chosen = 0; // the index of the shown one

    constructor(name, units, recording = units) {
        this.name = name;
        this.units = units;
        this.recording = recording;
    }

    /** Returns the recordings of each side that sent something. */
    get sides() {
        return (this.units.recordings ?? [this.recording]).filter(({ size }) => size > 0);
    }

    drop() {
        this.units.drop();
    }
}

async function recordingOf(rtr, name, bytes, hint, report) {
    const recording = new Recording(rtr, name, bytes);
    recording.hint = hint;
    return new Opened(name, await recording.read(report));
}

/** Opens one of the sessions of a capture. `cut` is the offset at which the capture ends inside a
 * packet. */
export async function openSession(rtr, name, sessions, chosen, cut, report) {
    const conversation = await conversationOf(rtr, name, sessions[chosen], report);
    const [router, cache] = [ROUTER, CACHE].map((side) => conversation.recordings[side]);
    const opened = new Opened(name, conversation, cache.count > 0 ? cache : router);
    opened.note = (cut === null ? "" : ` ${cut}.`) + gapText(sessions[chosen]);
    return Object.assign(opened, { sessions, chosen, cut });
}

/** Describes a capture without sessions. */
function emptyCapture({ packets, connections, unread, cut }) {
    const reasons = [...unread].map(([reason, number]) => `, ${many(number, "packet")} ${reason}`);
    return `looks like a packet capture without a session of RTR in plain TCP: it has ${
        many(packets, "packet")} and ${many(connections.length, "TCP connection")}${
        reasons.join("")}${cut === null ? "" : `; ${cut}`}`;
}

/** Opens a file's bytes. `report` is called with the progress, from 0 to 1. */
export async function openFile(rtr, name, bytes, report) {
    if (!isCapture(bytes)) {
        return recordingOf(rtr, name, bytes, looksLike(bytes), report);
    }
    const found = await sessionsIn(rtr, bytes, report);
    return found.sessions.length === 0
        ? recordingOf(rtr, name, bytes, emptyCapture(found), report)
        : openSession(rtr, name, found.sessions, 0, found.cut, report);
}

/** Returns the name of a session for a list. */
export function sessionName({ streams, sides }) {
    const size = sides[ROUTER].length + sides[CACHE].length;
    return `${streams[ROUTER].from} and ${streams[CACHE].from}, ${many(size, "byte")}`;
}
