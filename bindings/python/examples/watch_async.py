"""Follows several caches at once, and prints their data: watch_async.py SECONDS HOST:PORT.."""
import asyncio
import sys

from rtr_wire import AsyncClient


async def watch(address: str) -> None:
    """Follows a cache until the task is cancelled."""
    host, _, port = address.rpartition(":")
    client = AsyncClient(host, int(port), failed=lambda error: print(f"{address}: {error}"))
    async for update in client:
        print(f"{address}: {update.data}", flush=True)


async def watch_all(seconds: float, addresses: "list[str]") -> None:
    """Follows all of them for this many seconds."""
    tasks = [asyncio.create_task(watch(address)) for address in addresses]
    await asyncio.wait(tasks, timeout=seconds)
    for task in tasks:
        task.cancel()
    await asyncio.gather(*tasks, return_exceptions=True)


if __name__ == "__main__":
    asyncio.run(watch_all(float(sys.argv[1]), sys.argv[2:]))
