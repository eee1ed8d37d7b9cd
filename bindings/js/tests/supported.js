// Exits with status 0 if this engine has 64-bit memory for WebAssembly, else with 1.

import { has64BitMemory } from "../rtr_wire.js";

process.exitCode = has64BitMemory() ? 0 : 1;
