// The path of the library, in the repository.

export * from "../bindings/js/rtr_wire.js";
export { STRUCTS } from "../bindings/js/rtr_table.js";

export const MODULE = new URL("../prebuilt/wasm32/rtr_wire.wasm", import.meta.url);
