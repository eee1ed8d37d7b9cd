// The view of broken rules: what rtr_list --check prints of a recording, each a link to its unit.

import { element } from "./table.js";
import { many } from "./words.js";

const by = (id) => document.getElementById(id);

// The most findings that are listed.
const MOST = 2000;

export class RulesView {
    #goTo;
    #recording = null;

    /** @param goTo what is called with the offset of a unit */
    constructor(goTo) {
        this.#goTo = goTo;
    }

    /** Sets a recording, which is checked once the view is opened. */
    show(recording) {
        this.#recording = recording;
        by("panel-rules").dataset.state = "new";
        by("checked").textContent = "";
        by("findings").replaceChildren();
    }

    /** Checks the recording, unless that was done, and lists the findings. */
    async open() {
        const recording = this.#recording;
        if (by("panel-rules").dataset.state !== "new") {
            return;
        }
        by("panel-rules").dataset.state = "reading";
        by("checked").textContent = "Looking";
        const findings = await recording.check();
        if (this.#recording === recording) {
            this.#list(findings);
        }
    }

    #list(findings) {
        by("checked").textContent = findings.length === 0 ? "No rule is broken."
            : findings.length <= MOST ? `${many(findings.length, "broken rule")}.`
                : `${many(findings.length, "broken rule")}, of which the first ${MOST} are listed.`;
        by("findings").replaceChildren(...findings.slice(0, MOST).map((finding) => this.#line(finding)));
        by("panel-rules").dataset.state = "shown";
    }

    #line({ offset, line }) {
        const node = element("li", {});
        const link = element("button", { text: line, type: "button" });
        link.addEventListener("click", () => this.#goTo(offset));
        node.append(link);
        return node;
    }
}
