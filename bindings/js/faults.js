// The errors of calls of the library, and of both ends of a session.

import { causeText, Cut, FAILURE_BEHIND, FAILURE_CLOSED, FAILURE_EMPTY, Reason, reasonText }
    from "./rtr_table.js";

/** A call was refused, because of a unit, its position in a sequence, or an input. */
export class Fault extends Error {
    /** `session.fault` makes instances.
     * @param fields the result of the call: at least its `status`, with its `text`, and a
     *      `message` with both and the offset */
    constructor(fields) {
        const { status, text, message, offset = 0, side = 0 } = fields;
        const where = side === 0 ? "" : side === 1 ? " of the first input" : " of the second input";
        super(`${message}${where}`);
        this.name = "Fault";
        this.status = status;
        this.text = text;
        this.offset = offset;
        this.side = side;
        this.detail = fields.detail ?? 0;
        this.size = fields.size ?? 0;
        this.wanted = fields.wanted ?? 0;
        this.code = fields.code ?? null;
        this.unit = fields.unit ?? null;
    }
}

/** Returns a message with what a peer's report says, if there is one. */
function withReport(message, reportText) {
    return reportText === null ? message : `${message}: ${reportText}`;
}

/** Why a connection to a cache ended, if the reason isn't an invalid unit (a Fault). */
export class SessionError extends Error {
    /** @param fields the `reason`, a Cause; `unit`, the bytes of the unit that it is about; `code`,
     *      the error code that was reported to the cache; `reported`, the cache's own report, and
     *      `reportText`, what `session.reportText` returns for it */
    constructor({ reason, unit = null, code = null, reported = null, reportText = null }) {
        super(withReport(causeText(reason), reportText));
        this.name = "SessionError";
        this.reason = reason;
        this.unit = unit;
        this.code = code;
        this.reported = reported;
    }
}

/** The cache has no data yet; it is asked again. */
export class NoData extends SessionError {
    constructor(fields) {
        super(fields);
        this.name = "NoData";
    }
}

/** The answer has no payloads, which a client of several caches doesn't accept as data. */
export class Empty extends Error {
    constructor() {
        super(FAILURE_EMPTY);
        this.name = "Empty";
    }
}

/** Why a server ended a connection, if the reason isn't an invalid unit (a Fault). */
export class ServerError extends Error {
    /** @param fields the `reason`, a Reason; `unit`, the bytes of the unit that it is about;
     *      `code`, the error code that was reported to the router; `reported`, the router's own
     *      report, and `reportText`, what `session.reportText` returns for it */
    constructor({ reason, unit = null, code = null, reported = null, reportText = null }) {
        super(withReport(reasonText(reason), reportText));
        this.name = "ServerError";
        this.reason = reason;
        this.unit = unit;
        this.code = code;
        this.reported = reported;
    }
}

/** Too many newer data came while the router was sent an answer. */
export class Behind extends Error {
    constructor() {
        super(FAILURE_BEHIND);
        this.name = "Behind";
    }
}

/** The server is closed. */
export class Closed extends Error {
    constructor() {
        super(FAILURE_CLOSED);
        this.name = "Closed";
    }
}

/** Returns the error for a limit that ended a connection. */
export function cutError(cut) {
    switch (cut) {
        case Cut.BEHIND:
            return new Behind();
        case Cut.NEW_SESSION:
            return new ServerError({ reason: Reason.NEW_SESSION });
        default:
            return new ServerError({ reason: Reason.SLOW });
    }
}
