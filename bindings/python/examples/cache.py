"""Serves the data of a file to routers: cache.py FILE [--listen HOST:PORT]

The file has a list or a recording, as rtr_make writes it. It is read again when it changes:
replace it by `mv`. Data are saved to FILE.kept before they are served, and a restart serves
what that file has; if it is damaged, remove it, and give the next data another session.
"""
import argparse
import asyncio
import os
import socket
import sys
from typing import Optional, Tuple

from rtr_wire import (WARNING_SERIAL_0, DamagedError, Data, Fault, Server, UpdateError, load_data,
                      retry_after)

LOOK = 0.25  # seconds between two checks of the file


def say(text: str) -> None:
    """Writes a line on standard error."""
    print(text, file=sys.stderr, flush=True)


def say_served(name: str, data: Data) -> None:
    """Says which data are served, and warns of serial number 0."""
    payloads = "payload" if len(data) == 1 else "payloads"
    say(f"{name}: session {data.session} serial {data.serial}: {len(data)} {payloads}")
    if data.serial == 0:
        say(f"{name}: {WARNING_SERIAL_0}")


def take(server: Server, path: str, content: bytes) -> bool:
    """Serves the data of a file; returns False to try again later."""
    try:
        data, has_cut = load_data(content)
    except Fault as fault:
        say(f"{path}: {fault}")
        return True
    try:
        server.update_saved(data, f"{path}.kept")
    except OSError as error:
        say(f"{path}.kept: {error.strerror}")
        return False
    except UpdateError as error:
        say(f"{path}: {error}")
        return True
    if has_cut:
        say(f"{path}: left out: an answer without an end of data")
    say_served(path, data)
    return True


def differs(found: os.stat_result, seen: Optional[os.stat_result]) -> bool:
    """Returns whether a file isn't as the one that was seen last. While another file is renamed to
    the path, the path may still lead to the old file, which has lost its last link: that sets the
    time of its inode, and is no change."""
    names = ["st_dev", "st_ino", "st_size", "st_mtime_ns"] + ["st_ctime_ns"] * bool(found.st_nlink)
    return seen is None or any(getattr(found, name) != getattr(seen, name) for name in names)


def read(path: str, seen: Optional[os.stat_result]) -> Optional[Tuple[os.stat_result, bytes]]:
    """Returns the state of a file and its bytes; None if it is as the one that was seen last.
    Another file may have the path at any time: the state is that of the file that is read."""
    if differs(os.stat(path), seen):
        with open(path, "rb") as file:
            found = os.fstat(file.fileno())
            if differs(found, seen):
                return found, file.read()
    return None


async def follow(server: Server, path: str) -> None:
    """Serves the data of a file whenever another file has its name."""
    seen, pause = None, 0.0
    while True:
        try:
            found = read(path, seen)
        except OSError as error:
            say(f"{path}: {error.strerror}")
            pause = retry_after(pause)
        else:
            if found is None:
                pause = 0.0
            elif take(server, path, found[1]):
                seen, pause = found[0], 0.0
            else:
                pause = retry_after(pause)
        await asyncio.sleep(pause or LOOK)


async def serve(path: str, host: str, port: int) -> None:
    """Serves routers at this address."""
    server = Server(ended=lambda address, error: say(f"{address}: {error}"))
    try:
        say_served(f"{path}.kept", server.restore(f"{path}.kept"))
    except FileNotFoundError:
        pass  # this is the first start
    listener = socket.create_server((host, port))
    say("listening on {}:{}".format(*listener.getsockname()[:2]))
    following = asyncio.ensure_future(follow(server, path))
    try:
        await server.serve(sock=listener)
    finally:
        following.cancel()


def main() -> None:
    """Serves until a signal ends the program."""
    parser = argparse.ArgumentParser(description=__doc__)
    parser.add_argument("file")
    parser.add_argument("--listen", default="127.0.0.1:3323", metavar="HOST:PORT")
    words = parser.parse_args()
    host, _, port = words.listen.rpartition(":")
    try:
        asyncio.run(serve(words.file, host, int(port)))
    except (OSError, DamagedError) as error:
        sys.exit(f"cache.py: {error}")


if __name__ == "__main__":
    main()
