// The view of a route: whether it is valid by a recording's data, and why not.

import { Mismatch, Validity, prefixOf } from "./library.js";
import { leavesOf } from "./compare_view.js";
import { element } from "./table.js";
import { MISMATCHES, VALIDITIES, prefixText } from "./words.js";

const by = (id) => document.getElementById(id);

// The most VRPs that are listed.
const MOST = 200;

/** Returns the first bits of an address; the others are zero. */
function firstBits(address, bits) {
    return address.map((byte, index) => (
        byte & (0xff00 >> Math.max(0, Math.min(8, bits - 8 * index)))));
}

export class RouteView {
    #rtr;
    #recording = null;
    #data = null;

    constructor(rtr) {
        this.#rtr = rtr;
        by("route").addEventListener("submit", (event) => {
            event.preventDefault();
            const { prefix, as } = event.target.elements;
            this.#ask(prefix.value, as.value);
        });
    }

    show(recording) {
        this.#recording = recording;
        this.#data?.drop();
        this.#data = null;
        by("validity").textContent = "";
        by("vrps").replaceChildren();
    }

    /** Returns the data, which are made on first use; or a text that says why there are none. */
    #made() {
        if (this.#data === null) {
            const leaves = leavesOf(this.#rtr, this.#recording);
            if (typeof leaves === "string") {
                return leaves;
            }
            this.#data = this.#rtr.data(leaves.data);
        }
        return this.#data;
    }

    #ask(prefix, as) {
        const parsed = prefixOf(prefix);
        const asn = /^\s*(?:AS)?(\d{1,10})\s*$/i.exec(as)?.[1];
        by("vrps").replaceChildren();
        by("validity").className = "";
        if (!parsed || asn === undefined || Number(asn) > 4294967295) {
            by("validity").textContent = parsed ? `${as} is no AS.` : `${prefix} is no prefix.`;
            return;
        }
        const data = this.#made();
        if (typeof data === "string") {
            by("validity").textContent = data;
            return;
        }
        const route = { address: parsed.address, prefixLength: parsed.length, asn: Number(asn) };
        const validity = data.validate(route);
        const classes = { [Validity.VALID]: "good", [Validity.INVALID]: "bad" };
        by("validity").className = classes[validity] ?? "";
        by("validity").textContent = `By ${this.#recording.name}, ${prefixText(route)} from `
            + `AS${asn}: ${VALIDITIES[validity]}.`;
        this.#showCovering(data, route);
    }

    #showCovering(data, route) {
        const table = element("table");
        const head = element("tr");
        head.append(...["VRP", "AS", "Why"].map((text) => element("th", { text, scope: "col" })));
        table.append(element("caption", { text: "VRPs that cover the route" }), head);
        let shown = 0;
        for (const vrp of data.covering(route)) {
            if (shown === MOST) {
                break;
            }
            shown += 1;
            const isMatch = vrp.mismatch === Mismatch.MATCHES;
            const row = element("tr", { className: isMatch ? "good" : "" });
            const address = firstBits(route.address, vrp.prefixLength);
            const prefix = prefixText({ ...vrp, address });
            row.append(...[prefix, `AS${vrp.asn}`, MISMATCHES[vrp.mismatch]].map((text) => (
                element("td", { text }))));
            table.append(row);
        }
        if (shown > 0) {
            by("vrps").replaceChildren(table);
        }
    }
}
