// The picture of a recording: bars, each of which is a filter, and its answers in order; of a
// session, when each side sent what.

import { Kind } from "./library.js";
import { REFUSED } from "./recording.js";
import { showTimeline } from "./timeline.js";
import { element } from "./table.js";
import { count, kindName, many } from "./words.js";

/** A list of bars: text, number and filter of each. */
function bars(title, rows, choose) {
    const node = element("div");
    const list = element("ul", { className: "bars" });
    const most = Math.max(...rows.map((row) => row.number));
    list.append(...rows.map(({ text, number, filter }) => {
        const item = element("li");
        const button = element("button", { type: "button" });
        const bar = element("span", { className: "bar" });
        bar.style.width = `${100 * number / most}%`;
        button.append(bar, element("span", { text }), element("span", { text: count(number) }));
        button.addEventListener("click", () => choose(filter));
        item.append(button);
        return item;
    }));
    node.append(element("h2", { text: title }), list);
    return node;
}

function lengthBars(picture, kind, choose) {
    const rows = picture.lengths[kind].sorted().map(([length, number]) => (
        { text: `/${length}`, number, filter: { kind: String(kind), bits: String(length) } }));
    return bars(`Lengths of ${kindName(kind)}es`, rows, choose);
}

/** The answers, by their ends of data: where each is, and its serial number. */
function answers(recording, chooseUnit) {
    const ends = recording.picture.ends.slice(0, 1000);
    const node = element("div");
    const list = element("ol", { className: "bars" });
    list.append(...ends.map((index) => {
        const unit = recording.unit(index);
        const item = element("li");
        const button = element("button", { type: "button" });
        const text = `session ${unit.session} serial ${unit.serial}`;
        const where = `byte ${count(unit.offset)}`;
        button.append(element("span", { text }), element("span", { text: where }));
        button.addEventListener("click", () => chooseUnit(index));
        item.append(button);
        return item;
    }));
    const all = recording.picture.ends.length;
    node.append(element("h2", { text: `Answers, one after the other (${count(all)})` }), list);
    if (all > ends.length) {
        node.append(element("p", { text: `and ${many(all - ends.length, "more answer")}` }));
    }
    return node;
}

/** Shows the picture of the opened file. `choose` is called with the filter of a bar, `chooseUnit`
 * with the index of a unit. */
export function showPicture(panel, { recording, units }, choose, chooseUnit) {
    const { picture, faults } = recording;
    const kinds = picture.kinds.sorted().map(([kind, number]) => (
        { text: kindName(kind), number, filter: { kind: String(kind) } }));
    if (faults.length > 0) {
        kinds.push({ text: "refused", number: faults.length, filter: { kind: String(REFUSED) } });
    }
    const node = element("div", { className: "picture" });
    node.append(bars("Kinds", kinds, choose));
    for (const kind of [Kind.IPV4_PREFIX, Kind.IPV6_PREFIX]) {
        if (picture.lengths[kind].size > 0) {
            node.append(lengthBars(picture, kind, choose));
        }
    }
    const longer = picture.longer.sorted().map(([kind, number]) => ({ text: kindName(kind), number,
        filter: { kind: String(kind), longer: true } }));
    if (longer.length > 0) {
        node.append(bars("Max length longer than the prefix", longer, choose));
    }
    if (picture.ases.size > 0) {
        const largest = picture.ases.largest(12).map(([asn, number]) => (
            { text: `AS${asn}`, number, filter: { as: String(asn) } }));
        node.append(bars(`ASes with most units, of ${count(picture.ases.size)}`, largest, choose));
    }
    if (picture.ends.length > 0 && units === recording) {
        node.append(answers(recording, chooseUnit));
    }
    panel.replaceChildren(...(units === recording ? [] : showTimeline(units, chooseUnit)), node);
}
