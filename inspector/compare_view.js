// The view of two recordings: the changes from the data of one to those of the other.

import { Fault } from "./library.js";
import { dataOf } from "./answers.js";
import { Table } from "./table.js";
import { save } from "./save.js";
import { COLUMNS } from "./units_view.js";
import { cellsOfUnit, faultText, many } from "./words.js";

const by = (id) => document.getElementById(id);

/** Returns the data of a recording's whole answers, read in a memory of its own that is then
 * dropped; or a text that says why there are none. */
export function leavesOf(rtr, recording) {
    const own = rtr.another();
    try {
        return dataOf(own, recording.bytes);
    } catch (error) {
        const text = error instanceof Fault
            ? faultText(error) : error.message.replace(/, at byte.*/, "");
        return `${recording.name} leaves no data: at byte ${error.offset ?? 0}, ${text}.`;
    } finally {
        own.drop();
    }
}

export class CompareView {
    #rtr;
    #table;
    #changes = null; // bytes of the delta
    #old = null;
    #shown = 0;

    constructor(rtr, swap) {
        this.#rtr = rtr;
        this.#table = new Table(by("changes"), COLUMNS.slice(2));
        by("swap").addEventListener("click", swap);
        by("save-delta").addEventListener("click", () => save([this.#changes], "delta.rtr"));
        by("save-data").addEventListener("click", () => save([this.#old], "data.rtr"));
    }

    /** Shows the changes from the first to the second; for a single recording, that it can be
     * saved. */
    async show(first, second) {
        this.#shown += 1;
        const turn = this.#shown;
        [this.#changes, this.#old] = [null, null];
        this.#table.show(0, () => []);
        by("compared").textContent = second ? "Comparing" : "Open two recordings to see what leads "
            + "from the data of the first to those of the second.";
        this.#enable(second);
        if (second) {
            await new Promise((resolve) => { setTimeout(resolve); });
            if (turn === this.#shown) {
                this.#compare(first, second);
                this.#enable(second);
            }
        }
    }

    #enable(second) {
        by("swap").disabled = !second;
        by("save-delta").disabled = this.#changes === null;
        by("save-data").disabled = this.#old === null;
    }

    #compare(first, second) {
        const [old, next] = [leavesOf(this.#rtr, first), leavesOf(this.#rtr, second)];
        const wrong = [old, next].filter((side) => typeof side === "string");
        if (wrong.length > 0) {
            by("compared").textContent = wrong.join(" ");
            return;
        }
        const own = this.#rtr.another();
        this.#changes = own.delta(old.data, next.data);
        this.#old = old.data;
        const units = [...own.units(this.#changes)].slice(0, -1);
        own.drop();
        const announced = units.filter(({ announce }) => announce).length;
        const withdrawn = units.length - announced;
        const cut = [[old, first], [next, second]].filter(([{ hasCut }]) => hasCut)
            .map(([, { name }]) => ` An answer of ${name} was left out, which was cut off.`);
        by("compared").textContent = `From ${first.name} to ${second.name}: `
            + `${many(announced, "announcement")} and ${many(withdrawn, "withdrawal")}.`
            + cut.join("");
        this.#table.show(units.length, (row) => {
            const { texts, className } = cellsOfUnit(units[row]);
            return { texts: texts.slice(2), className };
        });
    }
}
