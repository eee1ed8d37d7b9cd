"""What a server takes, saves and restores, and for which reasons it doesn't."""
import errno
import os
import pathlib
import subprocess
import tempfile
import time
import unittest
from unittest import mock

from rtr_wire import (CacheResponse, DamagedError, Data, EndOfData, NotRestoredError,
                      OtherFileError, ResetQuery, SerialQuery, Server, ServerLimits, StoresStatus,
                      TimeRule, UnsyncedError, UpdateError, Vrp, retry_after)
from rtr_wire._rtr import Step
from rtr_wire.serving import Served

from . import PACKAGE, archive, compiler
from .test_server import SESSION, data, many, prefix


def answer(server, query):
    """Returns what a new connection to the server gets as an answer to a query."""
    served = Served(0, server._settings)
    served.received(0, bytes(query))
    sent = b""
    while served.next(0, server._edition) == Step.SEND:
        part = bytes(served.output)
        served.sent(0, len(part))
        sent += part
    return sent


def response(version=2, session=SESSION):
    return bytes(CacheResponse(session, version=version))


def former_file(*parts):
    """Returns a file of a library before 0.3.0: rtrkept1, the 64-bit FNV-1a hash of what follows,
    and the data and the steps back, each behind its time and its length."""
    now = (time.time_ns() // 1_000_000).to_bytes(8, "big")
    history = b"".join(now + len(part).to_bytes(8, "big") + part for part in map(bytes, parts))
    checksum = 0xcbf29ce484222325
    for byte in history:
        checksum = (checksum ^ byte) * 0x100000001b3 % 2**64
    return b"rtrkept1" + checksum.to_bytes(8, "big") + history


class Case(unittest.TestCase):
    """A test with a folder for a file."""

    def setUp(self):
        folder = tempfile.TemporaryDirectory()
        self.addCleanup(folder.cleanup)
        self.folder = pathlib.Path(folder.name)
        self.path = self.folder / "kept"

    def has_changes(self, server, serial, old, new):
        """The server has these data, and the changes to them from serial number 1."""
        self.assertEqual(answer(server, ResetQuery(version=2)), response() + bytes(new))
        changes = old.delta(new)
        self.assertEqual(server.end, new.end)
        self.assertEqual(answer(server, SerialQuery(SESSION, serial, version=2)),
                         response() + bytes(changes))


class Saving(Case):
    """What is taken, served and saved."""

    def test_restart(self):
        first, second = data(1, [1, 2]), data(2, [2, 3])
        for path in (str(self.path), self.path):
            server = Server()
            server.update_saved(first, path)
            server.update_saved(second, path)
            after = Server()
            self.assertEqual(after.restore(path), second)
            self.has_changes(after, 1, first, second)
            with self.assertRaises(UpdateError):
                after.update_saved(data(2, [4]), path)
            os.unlink(path)
        self.assertEqual(os.listdir(self.folder), [])

    def test_a_folder_that_can_only_be_read(self):
        """What a killed save left stays there, and the data are restored."""
        Server().update_saved(data(1, [1]), self.path)
        for number in errno.EROFS, errno.EACCES:
            failing = OSError(number, os.strerror(number))
            with mock.patch("os.unlink", side_effect=failing) as removes:
                self.assertEqual(Server().restore(self.path), data(1, [1]))
            removes.assert_called()

    def test_save(self):
        server = Server()
        server.save(self.path)
        self.assertFalse(self.path.exists())
        server.update_saved(data(1, [1]), self.folder / "first")
        server.update(data(5, [5]))
        self.assertEqual(Server().restore(self.folder / "first"), data(5, [5]))
        server.save(self.path)
        after = Server()
        after.restore(self.path)
        self.has_changes(after, 1, data(1, [1]), data(5, [5]))

    def test_a_large_restart(self):
        first, second = many(1, 50_000), many(2, 49_000)
        server = Server()
        server.update_saved(first, self.path)
        server.update_saved(second, self.path)
        after = Server()
        after.restore(self.path)
        self.has_changes(after, 1, first, second)

    def refuses(self, server, new, status, text):
        """Checks that a server doesn't take data, and keeps those that it has."""
        before = server.end
        with self.assertRaises(UpdateError) as caught:
            server.update(new)
        self.assertEqual((caught.exception.status, str(caught.exception)), (status, text))
        self.assertEqual(server.end, before)

    def test_one_session_without_a_file(self):
        server, text = Server(), "a cache that doesn't save has one session"
        for serial in (5, 6):
            server.update(data(serial, [serial]))
        self.refuses(server, data(9, [1], session=7), StoresStatus.OTHER_SESSION, text)
        self.has_changes(server, 5, data(5, [5]), data(6, [6]))
        server.change_session()
        self.assertEqual(server.end.session, SESSION)
        self.refuses(server, data(6, [7]), StoresStatus.OLD_SERIAL,
                     "the serial number isn't later than that of the present data: "
                     "new 6, present 6")
        server.update(data(1, [1], session=7))
        self.refuses(server, data(9, [1]), StoresStatus.OTHER_SESSION, text)
        self.assertEqual(answer(server, SerialQuery(7, 1, version=2)),
                         response(session=7) + bytes(data(1, [1], session=7).end))

    def test_data_that_were_not_saved(self):
        """A server that served data without saving them doesn't save later ones."""
        server = Server()
        server.update(data(1, [1]))
        for call in (lambda: server.save(self.path),
                     lambda: server.update_saved(data(2, [2]), self.path)):
            with self.assertRaisesRegex(RuntimeError,
                                        "^the cache serves data that it didn't save$"):
                call()
        self.assertEqual((os.listdir(self.folder), server.end.serial), ([], 1))
        self.assertTrue(server.update(data(2, [2])))
        self.assertEqual(os.listdir(self.folder), [])

    def test_updates_of_a_server_with_a_file(self):
        """They are saved first, and served only then."""
        server = Server()
        server.update_saved(data(1, [1]), self.path)
        after = Server()
        after.restore(self.path)
        for serial, saving in enumerate((server, after), 2):
            saving.update(data(serial, [serial]))
            self.assertEqual(Server().restore(self.path), data(serial, [serial]))
            with mock.patch("os.fsync", side_effect=OSError(errno.EIO, "failed")):
                with self.assertRaises(OSError):
                    saving.update(data(serial + 1, [7]))
            self.assertEqual(saving.end.serial, serial)
            if saving is server:
                after.update(data(2, [2]))

    def test_first_data_that_cannot_be_saved(self):
        """The file may have them, so that later data are saved, too."""
        server = Server()
        failing = [None, OSError(errno.EIO, "failed")]
        with mock.patch("os.fsync", side_effect=failing):
            with self.assertRaises(UnsyncedError):
                server.update_saved(data(1, [1]), self.path)
        self.assertIsNone(server.end)
        self.assertEqual(Server().restore(self.path), data(1, [1]))
        server.update(data(1, [2]))
        self.assertEqual(Server().restore(self.path), data(1, [2]))

    def test_sessions_that_were_left(self):
        server = Server()
        server.update_saved(data(1, [1]), self.path)
        server.update_saved(data(1, [1], session=7), self.path)
        for each in server, Server():
            if each is not server:
                each.restore(self.path)
            with self.assertRaises(UpdateError) as caught:
                each.update(data(9, [2]))
            self.assertEqual(caught.exception.status, StoresStatus.SESSION_LEFT)
            self.assertEqual(str(caught.exception),
                             "the cache left this session: the data need a new one")
        self.assertEqual(each.end.session, 7)

    def test_limits_of_changes(self):
        for limits, known in ((ServerLimits(), [1, 2]), (ServerLimits(keep_bytes=100), [2]),
                              (ServerLimits(keep=2), [2]), (ServerLimits(keep=5), [1, 2])):
            server = Server(limits)
            for serial, date in ((1, 0), (2, 1000), (3, 5000)):
                with mock.patch("rtr_wire.server._date", return_value=date):
                    server.update(data(serial, range(serial, serial + 4)))
            self.assertEqual(sorted(server._edition.known), known)

    def test_refused_data(self):
        server = Server()
        server.update(data(4, [1]))
        late = EndOfData(SESSION, 4, version=2, refresh=60, retry=60, expire=7200)
        for new, status, text in (
                (data(4, [2]), StoresStatus.OLD_SERIAL,
                 "the serial number isn't later than that of the present data: new 4, present 4"),
                (data(3, [1]), StoresStatus.OLD_SERIAL,
                 "the serial number isn't later than that of the present data: new 3, present 4"),
                (Data([prefix(1)], late), StoresStatus.OTHER_TIMES,
                 "only the times differ from those of the present data")):
            with self.assertRaises(UpdateError) as caught:
                server.update(new)
            self.assertEqual((caught.exception.status, str(caught.exception)), (status, text))
            self.assertEqual(caught.exception.rule, TimeRule.NONE)
        self.assertEqual(server.end, data(4, [1]).end)
        self.assertFalse(server.update(data(4, [1])))
        with self.assertRaises(TypeError):
            server.update(bytes(data(5, [1])))

    def test_refused_times(self):
        server = Server()
        for times, rule, text in (
                ((0, 600, 7200), TimeRule.REFRESH, "the refresh time has to be 1 to 86400 seconds"),
                ((3600, 600, 600), TimeRule.ABOVE_REFRESH,
                 "the expire time has to be longer than the refresh time")):
            refresh, retry, expire = times
            end = EndOfData(SESSION, 1, version=1, refresh=refresh, retry=retry, expire=expire)
            with self.assertRaises(UpdateError) as caught:
                server.update(Data([], end))
            self.assertEqual((caught.exception.rule, str(caught.exception)), (rule, text))
        self.assertIsNone(server.end)
        self.assertTrue(server.update(Data([], EndOfData(SESSION, 1, version=0))))

    def test_lower_versions(self):
        """Data of a lower version are served in all versions."""
        server = Server()
        server.update(Data.from_vrps([Vrp(prefix(1).prefix, asn=64496, max_length=24)],
                                     EndOfData(SESSION, 1, version=0)))
        for version in (0, 1, 2):
            expected = response(version) + bytes(data(1, [1]).for_version(version))
            self.assertEqual(answer(server, ResetQuery(version=version)), expected)

    def test_answers_are_kept(self):
        """Each answer is computed once for all routers, unless there is no space."""
        for space, count in ((1 << 20, 1), (0, 2)):
            server = Server()
            server.update(data(1, [1]))
            server.update(data(2, [2]))
            server._edition._kept_bytes = server.limits.keep_bytes - space
            history = server._edition.history
            with mock.patch.object(history, "since", wraps=history.since) as since:
                for _ in range(2):
                    answer(server, SerialQuery(SESSION, 1, version=1))
            self.assertEqual(since.call_count, count)
            kept = 20 + 20 + 24 if count == 1 else 0  # two prefixes and an end of data
            self.assertEqual(server._edition._kept_bytes, server.limits.keep_bytes - space + kept)

    def test_closed_server(self):
        server = Server()
        server.update_saved(data(1, [1]), self.path)
        server.close()
        for call in (lambda: server.update(data(2, [1])), lambda: server.restore(self.path)):
            with self.assertRaisesRegex(Exception, "^the server is closed$"):
                call()


class Files(Case):
    """Files that can't be written or read."""

    def test_damaged_files(self):
        Server().save(self.path)
        server = Server()
        server.update_saved(data(1, [1]), self.path)
        whole = self.path.read_bytes()
        other = whole[:30] + b"\1" + whole[31:]
        for content in (b"", whole[:-1], whole + b"\0", other, whole[24:]):
            self.path.write_bytes(content)
            after = Server()
            with self.assertRaises(DamagedError) as caught:
                after.restore(self.path)
            self.assertEqual(str(caught.exception), f"{self.path}: the saved file is damaged: the "
                                                    "data need a new session")
            self.assertIsNone(after.end)

    def test_a_former_file(self):
        first, second, third, fourth = (data(serial, [serial, serial + 1])
                                        for serial in range(1, 5))
        steps = third.delta(second), second.delta(first)
        file = former_file(third, *steps)
        self.path.write_bytes(file)
        server = Server()
        self.assertEqual(server.restore(self.path), third)
        for old in first, second:
            self.has_changes(server, old.end.serial, old, third)
        server.update_saved(fourth, self.path)
        self.assertTrue(self.path.read_bytes().startswith(b"rtrkept2"))
        server = Server()
        self.assertEqual(server.restore(self.path), fourth)
        for old in first, second, third:
            self.has_changes(server, old.end.serial, old, fourth)

        # Bytes that changed or are missing, and steps that don't lead back from the data.
        damaged = [file[:at] + bytes([file[at] ^ 1]) + file[at + 1:] for at in range(len(file))]
        damaged += [file[:at] for at in range(len(file))]
        damaged += [former_file(third, steps[0], steps[0]), former_file(*steps), former_file()]
        for content in damaged:
            self.path.write_bytes(content)
            with self.assertRaises(DamagedError):
                Server().restore(self.path)

    def test_no_file(self):
        pathlib.Path(f"{self.path}.new").touch()
        with self.assertRaises(FileNotFoundError):
            Server().restore(self.path)
        self.assertEqual(os.listdir(self.folder), [])

    def test_restore_after_data(self):
        server = Server()
        server.update_saved(data(1, [1]), self.path)
        with self.assertRaisesRegex(RuntimeError, "the server has data"):
            server.restore(self.path)

    def fails(self, call, number, kind=OSError):
        with self.assertRaises(kind) as caught:
            call()
        self.assertEqual(caught.exception.errno, number)

    def test_a_full_disk(self):
        server = Server()
        server.update_saved(data(1, [1]), self.path)
        os.symlink("/dev/full", f"{self.path}.new")
        self.fails(lambda: server.update_saved(data(2, [2]), self.path), errno.ENOSPC)
        self.assertEqual((os.listdir(self.folder), server.end.serial), (["kept"], 1))
        self.assertTrue(server.update_saved(data(2, [2]), self.path))
        after = Server()
        self.assertEqual(after.restore(self.path), data(2, [2]))

    def test_failing_calls(self):
        for number, call in enumerate(("os.fsync", "os.replace"), 2):
            server = Server()
            server.update_saved(data(1, [1]), self.path)
            failing = OSError(errno.EIO, "failed")
            with mock.patch(call, side_effect=failing):
                self.fails(lambda: server.update_saved(data(2, [2]), self.path), errno.EIO)
            self.assertEqual((os.listdir(self.folder), server.end.serial), (["kept"], 1))
            self.assertEqual(Server().restore(self.path), data(1, [1]))
            self.path.unlink()

    def test_what_is_synced(self):
        """A file is synced when it has all its bytes, and then its folder; both are closed."""
        synced, sync, before = [], os.fsync, len(os.listdir("/proc/self/fd"))

        def syncs(descriptor):
            path = os.readlink(f"/proc/self/fd/{descriptor}")
            synced.append((path, os.fstat(descriptor).st_size))
            sync(descriptor)

        with mock.patch("os.fsync", syncs):
            Server().update_saved(data(1, [1]), self.path)
        folder = os.path.realpath(self.folder)
        self.assertEqual(synced[0], (f"{folder}/kept.new", os.path.getsize(self.path)))
        self.assertEqual([path for path, _ in synced[1:]], [folder])
        self.assertEqual(len(os.listdir("/proc/self/fd")), before)

    def test_a_folder_that_is_not_synced(self):
        server = Server()
        server.update_saved(data(1, [1]), self.path)
        with mock.patch("os.fsync", side_effect=[None, OSError(errno.EIO, "failed")]):
            self.fails(lambda: server.update_saved(data(2, [2]), self.path), errno.EIO,
                       UnsyncedError)
        self.assertEqual(server.end.serial, 1)
        self.assertEqual(Server().restore(self.path), data(2, [2]))
        with mock.patch("os.fsync", side_effect=OSError(errno.EIO, "failed")):
            self.fails(lambda: Server().restore(self.path), errno.EIO)
        with mock.patch("os.fsync", side_effect=OSError(errno.EINVAL, "no folders")):
            self.assertEqual(Server().restore(self.path), data(2, [2]))

    def test_a_file_of_c(self):
        """Servers in C and in Python restore what the other one saved."""
        first, second, third = data(1, [1, 2]), data(2, [2, 3]), data(3, [3])
        end = self.folder / "cache_end"
        folder = PACKAGE.parent / "c"
        subprocess.run([*compiler(), "-std=c11", "-O1", "-o", end, "cache_end.c", "rtr_cache.c",
                        archive()], cwd=folder, check=True)

        def play(*lines):
            printed = subprocess.run([end], input="".join(f"{line}\n" for line in lines), text=True,
                                     stdout=subprocess.PIPE, check=True).stdout
            return bytes.fromhex("".join(line.split()[2] for line in printed.splitlines()
                                         if " cache> " in line))

        play("scene c", "cache usual", *(f"{time} data {{ {bytes(one).hex()} }}"
                                         for time, one in enumerate((first, second))),
             f"2 saves {self.path}")
        server = Server()
        self.assertEqual(server.restore(self.path), second)
        self.has_changes(server, 1, first, second)
        server.update_saved(third, self.path)
        # By C's clock the changes before were made in 1970, so that the new data replace them.
        query = bytes(SerialQuery(SESSION, 2, version=2)).hex()
        got = play("scene python", "cache usual", f"0 restores {self.path}",
                   "1 router connects", f"2 router> {query}")
        self.assertEqual(got, response() + bytes(second.delta(third)))


class OneFile(Case):
    """Which file a server doesn't replace."""

    def refuses(self, server, content):
        """The server doesn't replace the file, which has these bytes, and has no data."""
        for _ in range(2):
            with self.assertRaises(NotRestoredError) as caught:
                server.update_saved(data(2, [2]), self.path)
            self.assertEqual(str(caught.exception),
                             f"{self.path}: the file exists, and wasn't restored")
            self.assertEqual((caught.exception.errno, caught.exception.filename),
                             (errno.EEXIST, str(self.path)))
            self.assertEqual(self.path.read_bytes(), content)
        self.assertFalse(pathlib.Path(f"{self.path}.new").exists())
        self.assertIsNone(server.end)

    def test_a_file_that_was_not_restored(self):
        """Once it is restored or removed the server saves there."""
        for restores in (True, False):
            Server().update_saved(data(1, [1]), self.path)
            server = Server()
            self.refuses(server, self.path.read_bytes())
            if restores:
                server.restore(self.path)
            else:
                self.path.unlink()
            server.update_saved(data(2, [2]), self.path)
            self.assertEqual(Server().restore(self.path), data(2, [2]))
            self.path.unlink()

    def test_a_damaged_file(self):
        """It stays after it was refused, until it is removed."""
        server = Server()
        for content in (b"", b"rtrkept2"):
            self.path.write_bytes(content)
            with self.assertRaises(DamagedError):
                server.restore(self.path)
            self.refuses(server, content)
        self.path.unlink()
        server.update_saved(data(2, [2]), self.path)
        self.assertEqual(Server().restore(self.path), data(2, [2]))

    def test_a_refusal_names_no_file(self):
        self.path.touch()
        for update in (lambda server: server.update_saved(data(1, [1]), self.folder / "other"),
                       lambda server: server.update(data(1, [1]))):
            server = Server()
            self.refuses(server, b"")
            self.assertTrue(update(server))

    def test_a_file_before_the_first_save(self):
        """One that appears after a first save failed isn't replaced, nor is a link to no file."""
        server = Server()
        with mock.patch("os.replace", side_effect=OSError(errno.EIO, "failed")):
            with self.assertRaises(OSError):
                server.update_saved(data(1, [1]), self.path)
        os.symlink("nowhere", self.path)
        for call in (lambda: server.update(data(1, [1])),
                     lambda: server.update_saved(data(1, [1]), self.path)):
            self.assertRaises(NotRestoredError, call)
        self.path.unlink()
        server.update(data(1, [1]))
        self.assertEqual(Server().restore(self.path), data(1, [1]))

    def test_another_file(self):
        other, restored, named = self.folder / "other", Server(), Server()
        Server().update_saved(data(1, [1]), self.path)
        restored.restore(self.path)
        named.update_saved(data(1, [1]), self.folder / "named")
        for server, path in ((restored, self.path), (named, self.folder / "named")):
            with self.assertRaises(OtherFileError) as caught:
                server.update_saved(data(2, [2]), other)
            self.assertEqual(str(caught.exception),
                             f"{other}: the data are saved in another file: {path}")
            self.assertEqual((server.end.serial, other.exists()), (1, False))
            server.update(data(2, [2]))
            self.assertEqual(Server().restore(path), data(2, [2]))

    def test_spellings_of_one_file(self):
        """A file may be named by any path to it, but not by another link; and a relative path names
        it only in the folder in which it did at first."""
        (self.folder / "a").mkdir()
        os.symlink("a", self.folder / "link")
        self.addCleanup(os.chdir, os.getcwd())
        os.chdir(self.folder)
        restored, named = Server(), Server()
        Server().update_saved(data(1, [1]), "a/kept")
        restored.restore("a/kept")
        named.update_saved(data(1, [1]), "./a/named")
        servers = (("kept", restored), ("named", named))
        for name, server in servers:
            for path in (f"a/{name}", f"./a//{name}", f"a/../a/./{name}",
                         self.folder / "a" / name):
                server.update_saved(data(2, [2]), path)
            self.assertRaises(OtherFileError, server.update_saved, data(3, [3]), f"link/{name}")
        os.chdir("a")
        for name, server in servers:
            self.assertRaises(OtherFileError, server.update, data(3, [3]))
            self.assertRaises(OtherFileError, server.update_saved, data(3, [3]), f"a/{name}")
            self.assertEqual((server.end.serial, Server().restore(name)), (2, data(2, [2])))


class Pauses(unittest.TestCase):
    """The pauses before a failed save is retried."""

    def test_pauses(self):
        """A second at first, then twice the last pause, at most a minute."""
        self.assertEqual(retry_after(), 1)
        self.assertEqual([retry_after(pause) for pause in (0, 1, 2, 1.5, 32, 60, 1e9)],
                         [1, 2, 4, 3, 60, 60, 60])
        with self.assertRaisesRegex(ValueError, "previous is -1: it must be from 0 on"):
            retry_after(-1)


class Limits(unittest.TestCase):
    """The limits of a server."""

    def test_defaults(self):
        usual = ServerLimits()
        # docs/SESSIONS.md ("The cache").
        self.assertEqual((usual.most_connections, usual.most_refused, usual.most_behind),
                         (1024, 64, 2))
        self.assertEqual((usual.first_limit, usual.unit_limit, usual.idle_limit),
                         (30, 10, 25 * 3600))
        self.assertEqual((usual.write_limit, usual.response_limit, usual.report_limit),
                         (30, 600, 10))
        self.assertEqual((usual.pause, usual.keep, usual.keep_bytes, usual.refuses),
                         (60, 7200, 64 << 20, False))

    def test_each_reaches_the_library(self):
        given = {"most_connections": 1, "most_refused": 2, "most_behind": 3, "first_limit": 4,
                 "unit_limit": 5, "idle_limit": 6, "write_limit": 7, "response_limit": 8,
                 "report_limit": 9, "pause": 10, "keep": 11, "keep_bytes": 12, "refuses": True}
        settings = ServerLimits(**given).for_library()
        names = {name for name, *_ in (*settings._fields_, *settings.cache._fields_)}
        self.assertEqual(set(given), names - {"cache"})
        for name, value in given.items():
            holder = settings if hasattr(settings, name) else settings.cache
            is_time = name not in ("most_connections", "most_refused", "most_behind", "keep_bytes",
                                   "refuses")
            self.assertEqual(getattr(holder, name), value * 1000 if is_time else value, name)

    def test_values(self):
        self.assertEqual(ServerLimits(most_behind=1 << 40).for_library().most_behind, 2**32 - 1)
        for limits, error in ((ServerLimits(unit_limit=-1), ValueError),
                              (ServerLimits(most_refused=-1), ValueError),
                              (ServerLimits(keep="long"), TypeError),
                              (ServerLimits(most_connections=1.5), TypeError)):
            with self.assertRaises(error):
                Server(limits)


if __name__ == "__main__":
    unittest.main()
