// Finds the protocol's rules that units break, as rtr_list --check does.

import { FINDING_ROOM, LONGEST_UNIT, NAME_ROOM, STRUCTS, Status } from "./rtr_table.js";
import { offsetsOf } from "./memory.js";

const CHECKED = offsetsOf("checked");
const FINDING = offsetsOf("finding");
const FINDINGS = STRUCTS.checked.fields.find(([field]) => field === "findings")[3];

// Names as text, with a character per byte.
const latin = new TextDecoder("latin1");
const text = new TextDecoder();

/** A check of units in order, with the names announced so far. */
export class Checker {
    #rtr;
    #state;
    #output; // a buffer for names and lines
    #names = new Set();

    constructor(rtr) {
        this.#rtr = rtr;
        this.#state = rtr.heap.take(STRUCTS.check.size);
        rtr.heap.bytes(this.#state, STRUCTS.check.size).fill(0);
        this.#output = rtr.heap.take(NAME_ROOM);
    }

    /** Returns the findings for the unit at an address in the memory, and its size. Throws a Fault
     * if the unit is refused. */
    take(at, length, offset) {
        const rtr = this.#rtr;
        const [naming, checked] = [rtr.frame("naming"), rtr.frame("checked")];
        const status = rtr.call("rtr_check_name_nonnull", at, length, this.#output, NAME_ROOM,
            naming);
        const unit = rtr.answer("naming");
        if (status !== Status.OK) {
            const code = rtr.errorCode(status, rtr.copy(at, Math.min(length, LONGEST_UNIT)));
            throw rtr.fault({ ...unit, offset, code });
        }
        const name = latin.decode(rtr.heap.bytes(this.#output, unit.length));
        rtr.call("rtr_check_unit_nonnull", this.#state, at, length, this.#names.has(name), checked);
        this.#keep(unit, name);
        const findings = [];
        for (let index = 0; index < FINDINGS; index += 1) {
            const finding = checked + CHECKED.findings + index * STRUCTS.finding.size;
            if (this.#hasRule(finding)) {
                findings.push(this.#found(finding, offset));
            }
        }
        return { findings, size: unit.size };
    }

    #keep({ begins, announces }, name) {
        if (begins) {
            this.#names.clear();
        }
        if (announces) {
            this.#names.add(name);
        } else {
            this.#names.delete(name);
        }
    }

    /** Returns the finding for all units together, if there is one. */
    finish(offset) {
        const finding = this.#rtr.frame("finding");
        this.#rtr.call("rtr_check_end", this.#state, finding);
        return this.#hasRule(finding) ? [this.#found(finding, offset)] : [];
    }

    #hasRule(at) {
        return this.#rtr.heap.view.getUint8(at + FINDING.rule) !== 0;
    }

    /** Returns the finding at an address. */
    #found(at, offset) {
        const rule = this.#rtr.heap.view.getUint8(at + FINDING.rule);
        const length = this.#rtr.call("rtr_finding_line_nonnull", at, offset, this.#output,
            FINDING_ROOM);
        const line = text.decode(this.#rtr.heap.bytes(this.#output, length));
        return { offset, rule, line };
    }

    /** Frees the memory. */
    drop() {
        if (this.#state !== null) {
            this.#rtr.heap.release(this.#state);
            this.#rtr.heap.release(this.#output);
            this.#state = null;
        }
    }
}
