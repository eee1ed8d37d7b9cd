"""Checks what a cache saves in its folder by starting another cache over it."""
import contextlib
import os
import re
import shutil

from cache import Cache, Router, replace_file, saved_path
from caches import NEW, content
from units import ASPAS, KEYS, SESSION, Wrong

# The data of each serial number: enough for several writes of a stream.
PREFIXES = [*(f"10.{i >> 8}.{i & 255}.0/24" for i in range(1_000)), "2001:db8::/32",
            "2001:db8:2::/48"]
OLD = [*PREFIXES, *KEYS[:2], *ASPAS[:2]]
NEWER = [*PREFIXES[1:], *KEYS[1:], ASPAS[0], ASPAS[2]]
OTHERS = OLD[5:]  # of none of these serial numbers
DATA = {1: OLD, 2: [NEW[0], *NEWER], 3: [*NEW, *NEWER]}
OTHER_SESSION = SESSION + 1
BESIDE = ".new"  # behind the name of a saved file: the one that replaces it


def copy_if_exists(path, copy):
    """Copies a file, unless a cache that retries has removed it meanwhile."""
    with contextlib.suppress(FileNotFoundError):
        shutil.copy2(path, copy)


class Saved:
    """A folder in which a cache has saved the first data."""

    def __init__(self, command, library, folder):
        self.command, self.library, self.folder = command, library, folder
        self.count = 0
        first = self.start_empty("")
        try:
            first.replace(content(1, DATA[1]))
            first.wait_for_serial(1)
            first.wait_until(lambda: os.path.exists(first.saved_path), "it saves its data")
            first.terminate()
        finally:
            first.kill()
        self.first, self.draws_session = first, first.draws_session

    def next_folder(self):
        """Creates a folder, and returns its path."""
        self.count += 1
        folder = os.path.join(self.folder, str(self.count))
        os.mkdir(folder)
        return folder

    def start_empty(self, faults, calls=None):
        """Starts a cache without data, in an empty folder."""
        return Cache(self.command, faults, self.library, self.next_folder(), calls)

    def start_beside_partial(self, faults, saves):
        """Starts a cache beside a part of the file of a saving that was cut off, and beside the
        saved file if `saves` is true."""
        folder = self.next_folder()
        path = self.file_in(folder)
        if saves:
            shutil.copy(self.first.saved_path, path)
        replace_file(path + BESIDE, read(self.first.saved_path)[:1_000])
        return Cache(self.command, faults, self.library, folder)

    def start_saved(self, faults, calls=None):
        """Starts a cache over the saved file, without other data."""
        folder = self.next_folder()
        shutil.copy(self.first.saved_path, self.file_in(folder))
        return Cache(self.command, faults, self.library, folder, calls)

    def file_in(self, folder):
        """Returns the path of the saved file in a folder, and creates the folder."""
        path = saved_path(self.command, folder)
        os.makedirs(os.path.dirname(path), exist_ok=True)
        return path

    def check_restart(self, cache, serials):
        """Checks that a cache over a copy of this one's folder has the data of one of these serial
        numbers, and the changes from the first; None stands for no data."""
        self.count += 1
        folder = os.path.join(self.folder, str(self.count))
        shutil.copytree(os.path.dirname(cache.path), folder, copy_function=copy_if_exists,
                        ignore=shutil.ignore_patterns("data", "log", "seen"))
        self.check_folder(folder, serials, cache.session)

    def check_start_over(self, saved, beside, serial, session):
        """Checks that a cache over a saved file of these bytes, and one beside it, has the data of
        this serial number and session, and then serves others. None stands for no file, and for no
        data."""
        folder = self.next_folder()
        for suffix, written in ("", saved), (BESIDE, beside):
            if written is not None:
                replace_file(self.file_in(folder) + suffix, written)
        self.check_folder(folder, (serial,), session, checks_next=True)

    def check_folder(self, folder, serials, session, checks_next=False):
        """Starts a cache over this folder, and checks its data, and with `checks_next` whether it
        then serves others."""
        cache = Cache(self.command, "", self.library, folder)
        try:
            cache.wait_until(lambda: re.search(r"(?i)No such file", cache.log_text()),
                        "it looks for its file")
            found = re.search(r"session (\d+) serial (\d+): \d+ payload", cache.log_text())
            if found and session and int(found[1]) != session:
                raise Wrong(f"a restart found another session: {cache.log_text()}")
            serial = int(found[2]) if found else None
            if serial not in serials:
                raise Wrong(f"a restart found serial {serial}, not one of {serials}: "
                            + cache.log_text())
            if found:
                cache.session = int(found[1])
                self.check_data(cache, serial, checks_next)
            else:
                self.check_no_data(cache)
            cache.terminate()
        finally:
            cache.kill()

    def check_data(self, cache, serial, checks_next):
        """Checks that a cache has the data of this serial number, and with `checks_next` whether it
        then serves others."""
        router = Router(cache)
        router.ask_all()
        router.expect_answer(serial, DATA[serial])
        expect_changes(router, DATA[1], DATA[serial], 1, serial)
        check_none_beside(cache)
        if checks_next:
            cache.replace(content(serial + 1, OTHERS, cache.session))
            cache.wait_for_serial(serial + 1)
            expect_changes(router, DATA[serial], OTHERS, serial, serial + 1)
            expect_changes(router, DATA[1], OTHERS, 1, serial + 1)
        router.close()

    def check_no_data(self, cache):
        """Checks that a cache has no data, and then serves others, of a new session."""
        router = Router(cache)
        router.ask_all()
        router.expect_no_data()
        cache.session = None if cache.draws_session else OTHER_SESSION
        cache.replace(content(1, OTHERS, OTHER_SESSION))
        cache.wait_for_serial(1)
        router.session = cache.session
        router.ask_all()
        router.expect_answer(1, OTHERS)
        check_none_beside(cache)
        router.close()


def read(path):
    """Returns the bytes of a file."""
    with open(path, "rb") as file:
        return file.read()


def check_none_beside(cache):
    """Checks that no file is left beside the saved one."""
    if os.path.exists(cache.saved_path + BESIDE):
        raise Wrong("a file that a killed cache left stays beside")


def expect_changes(router, before, after, old, new):
    """Checks that a router gets the changes between the data of two serial numbers."""
    router.ask_after(old)
    router.expect_changes(before, after, new)
