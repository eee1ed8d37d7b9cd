// A program in TypeScript, which is compiled and not run.

import { Cause, Fault, Kind, SessionError, Status, TodoKind, Validity, load } from "../rtr_wire.js";
import type { Data, Loaded, Session, Unit } from "../rtr_wire.js";
import { Client, follow } from "../client.js";
import type { Update } from "../client.js";
import { NotRestored, OtherFile, Reason, Server, ServerError, StoresStatus, UpdateError }
    from "../server.js";

/** Describes a unit, whose kind determines its fields. */
function described(unit: Unit): string | null {
    switch (unit.kind) {
        case Kind.ASPA:
            return unit.providers.map((asn: number) => `AS${asn}`).join(" ");
        case Kind.IPV4_PREFIX:
            return `${unit.address.length} AS${unit.asn}`;
        case Kind.ERROR_REPORT:
            return unit.text;
        default:
            return null;
    }
}

export async function main(module: ArrayBuffer, recording: Uint8Array): Promise<void> {
    const rtr: Session = await load(module, { most: 1 << 24 });
    try {
        for (const unit of rtr.units(recording)) {
            console.log(described(unit), rtr.writeUnit(unit).length);
        }
    } catch (error) {
        if (error instanceof Fault && error.status === Status.SHORT) {
            console.log(error.code, error.wanted);
        }
    }
    const own: Data = rtr.data(rtr.order(rtr.writeUnit({ kind: Kind.RESET_QUERY, version: 1 })));
    const { data, hasCut }: Loaded = rtr.loadData(recording);
    console.log(own.serial, hasCut);
    const route = { prefix: "192.0.2.0/24", asn: 65551 };
    if (data.validate(route) === Validity.INVALID) {
        console.log([...data.covering(route)].map(({ mismatch }) => mismatch));
    }
    const router = rtr.router({ highest: 1 });
    const action = router.tick(0);
    console.log(router.state.known.serial, action.kind, router.report(action, recording));
}

/** Describes an update. */
function changed(update: Update): string {
    const changes = Array.from(update.changes(), (unit) => described(unit));
    return update.data === null ? "none" : `${update.data.serial} ${changes} ${update.client}`;
}

export async function followed(rtr: Session, signal: AbortSignal): Promise<Data> {
    const client = new Client({ host: "cache.example", port: 323, rtr, signal,
        settings: { highest: 2 }, tls: { rejectUnauthorized: true } });
    client.on("connect", () => client.askNow()).once("data", (update) => changed(update));
    client.on("failed", (error) => {
        console.log(error instanceof SessionError && error.reason === Cause.SLOW, error.message);
    }).on("noData", (error) => console.log(error.reported?.text));
    for await (const update of client) {
        console.log(changed(update));
        break;
    }
    for await (const update of follow([client], { signal, settings: { patience: 1000 } })) {
        console.log(update.client === client, changed(update));
    }
    return client.fetch();
}

export function linked(rtr: Session): Uint8Array {
    const link = rtr.link({ highest: 1 });
    if (link.next(0).kind === TodoKind.CONNECT) {
        link.lost(new Error("no cache"));
    }
    console.log(link.next(0).error, link.data(0)?.isEmpty, rtr.group(2, 0).tick(0).start);
    return link.output;
}

export async function served(rtr: Session, data: Data, signal: AbortSignal): Promise<number> {
    const server = new Server({ rtr, settings: { mostConnections: 2, refuses: true } });
    server.on("ended", (error, { address, port }) => {
        console.log(error instanceof ServerError && error.reason === Reason.SLOW, address, port);
    }).on("failed", ({ message }) => console.log(message));
    try {
        await server.restore("state");
        await server.updateSaved(data, "state");
        await server.changeSession();
    } catch (error) {
        console.log(error instanceof UpdateError && error.status === StoresStatus.OLD_SERIAL);
        console.log(error instanceof NotRestored && error.code, error instanceof OtherFile);
    }
    const { port } = await server.listen({ port: 0, host: "::1", tls: { key: "", cert: "" } });
    await server.shutdown({ signal });
    return port + (server.data?.serial ?? 0);
}
