// A session over time: how many units each side sent, and its steps: all units but payloads.

import { Fault, Kind } from "./library.js";
import { ROUTER, SIDES } from "./conversation.js";
import { element } from "./table.js";
import { count, faultText, kindName, many, payloadText } from "./words.js";

const SVG = "http://www.w3.org/2000/svg";
const PAYLOADS = new Set([Kind.IPV4_PREFIX, Kind.IPV6_PREFIX, Kind.ROUTER_KEY, Kind.ASPA]);

// The columns of the picture, and the most steps that are listed.
const COLUMNS = 240;
const MOST_STEPS = 1000;

// Sizes of the picture: a column's width, a lane's height, and the space for texts.
const [WIDTH, LANE, TEXT] = [4, 60, 18];

/** An element of a picture. */
function drawn(name, attributes, text = "") {
    const node = document.createElementNS(SVG, name);
    for (const [key, value] of Object.entries(attributes)) {
        node.setAttribute(key, value);
    }
    node.textContent = text;
    return node;
}

/** Returns how many units each side sent in each part of the time; and the steps, each with its
 * time, side and index, and how many payloads its side sent before it. */
function counted(session) {
    const span = session.time(session.count - 1) || 1;
    const lanes = SIDES.map(() => new Float64Array(COLUMNS));
    const payloads = SIDES.map(() => 0);
    const steps = [];
    for (let index = 0; index < session.count; index += 1) {
        const [side, time] = [session.side(index), session.time(index)];
        lanes[side][Math.min(COLUMNS - 1, Math.floor(time / span * COLUMNS))] += 1;
        if (PAYLOADS.has(session.kind(index))) {
            payloads[side] += 1;
        } else {
            steps.push({ index, time, side, payloads: payloads[side] });
            payloads[side] = 0;
        }
    }
    return { span, lanes, steps };
}

/** Two lanes: what the router sent goes up, what the cache sent goes down. Heights are logarithmic,
 * so that one unit beside a million is visible. */
function picture({ span, lanes }) {
    const most = Math.log2(1 + Math.max(...lanes.flatMap((lane) => [...lane])));
    const height = 2 * (LANE + TEXT);
    const drawing = drawn("svg", { viewBox: `0 0 ${COLUMNS * WIDTH} ${height}`, role: "img",
        class: "timeline", "aria-label": `Units of both sides over ${span.toFixed(3)} seconds` });
    const middle = height / 2;
    lanes.forEach((lane, side) => lane.forEach((number, column) => {
        if (number > 0) {
            const size = Math.max(3, Math.log2(1 + number) / most * LANE);
            drawing.append(drawn("rect", { x: column * WIDTH, width: WIDTH - 1, height: size,
                y: side === ROUTER ? middle - size : middle, class: SIDES[side] }));
        }
    }));
    drawing.append(
        drawn("line", { x1: 0, x2: COLUMNS * WIDTH, y1: middle, y2: middle }),
        drawn("text", { x: 0, y: TEXT - 4 }, "router"),
        drawn("text", { x: 0, y: height - 4 }, "cache"),
        drawn("text", { x: COLUMNS * WIDTH, y: height - 4, "text-anchor": "end" },
            `${span.toFixed(3)} s`));
    return drawing;
}

/** Returns a step as a row: its time, its side, its text, and the payloads before it. */
function rowOf(session, { index, time, side, payloads }, chooseUnit) {
    const unit = session.unit(index);
    const item = element("li");
    const button = element("button", { type: "button", className: SIDES[side] });
    const text = unit instanceof Fault ? faultText(unit)
        : `${kindName(unit.kind)} ${payloadText(unit)}`.trim();
    const before = payloads > 0 ? `after ${many(payloads, "payload")}` : "";
    button.append(element("span", { className: "time", text: time.toFixed(3) }),
        element("span", { className: "side", text: SIDES[side] }),
        element("span", { className: "what", text }), element("span", { text: before }));
    button.addEventListener("click", () => chooseUnit(index));
    item.append(button);
    return item;
}

/** Returns the elements of a session's picture. `chooseUnit` is called with the index of a
 * step. */
export function showTimeline(session, chooseUnit) {
    const counts = counted(session);
    const list = element("ol", { className: "bars steps" });
    const steps = counts.steps.slice(0, MOST_STEPS);
    list.append(...steps.map((step) => rowOf(session, step, chooseUnit)));
    const rest = counts.steps.length - MOST_STEPS;
    return [
        element("h2", { text: "Units over time" }), picture(counts),
        element("h2", { text: `Steps of the session (${count(counts.steps.length)})` }), list,
        ...(rest > 0 ? [element("p", { text: `and ${many(rest, "more step")}` })] : []),
    ];
}
