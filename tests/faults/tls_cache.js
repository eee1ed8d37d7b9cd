// Runs the example of a cache over TLS.
//
// usage: node tls_cache.js --tls IDENTITY FILE --listen ADDRESS:PORT
//
// IDENTITY is a file with a certificate for localhost, by which routers are known, too, and its
// key.

import { Server } from "../../bindings/js/server.js";
import { identified } from "./secured.js";

const [, identity] = process.argv.splice(2, 2);
const tls = await identified(identity);
const { listen } = Server.prototype;
Server.prototype.listen = function (options) {
    return listen.call(this, { ...options, tls });
};
await import("../../bindings/js/examples/cache.js");
