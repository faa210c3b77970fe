"""A relay on disk in Python, as examples/state.py keeps it: what stopped.c tries with state.c.

The writer is stopped before, in and after every system call, each of them fails once, and the power is cut at each of these moments: the old file or the
new one is there every time. STATE_OF_C names a folder where stopped.c saved.
"""

import errno
import os
import pathlib
import sys
import tempfile
import unittest

ROOT = pathlib.Path(__file__).resolve().parents[2]
sys.path.insert(0, str(ROOT / "examples"))
import state
from state import BEING_SAVED, SAVED, NotWhole, State, haskumye

STEPS = ["open", "open", "write", "fsync", "close", "rename", "fsync", "close"]
ENDINGS = ["before", "middle", "after", "fails", "short"]


class Stopped(BaseException):
    """The writer is no more: no later call of it is made."""


class System:
    """The system calls of a writer, in the place of the module os: the one at a step ends otherwise than it should."""

    O_RDONLY, O_WRONLY, O_CREAT, O_TRUNC, O_CLOEXEC, O_DIRECTORY = (
        os.O_RDONLY,
        os.O_WRONLY,
        os.O_CREAT,
        os.O_TRUNC,
        os.O_CLOEXEC,
        os.O_DIRECTORY,
    )

    def __init__(self, ends_at=None, ending=None):
        self.ends_at, self.ending, self.steps, self.opened, self.stopped = ends_at, ending, [], [], False
        self.flushed = self.renamed = self.names_flushed = False

    def _ends(self, *endings):
        return len(self.steps) - 1 == self.ends_at and self.ending in endings

    def _stop(self, ending):
        if self._ends(ending):
            self.stopped = True
            raise Stopped

    def _call(self, name, call, *arguments, **named):
        if self.stopped:
            raise Stopped
        self.steps.append(name)
        self._stop("before")
        if self._ends("fails"):
            raise OSError(errno.EIO, name)
        result = call(*arguments, **named)
        self._stop("after")
        return result

    def open(self, *arguments, **named):
        self.opened.append(None)  # the folder first, then the new file
        self.opened[-1] = self._call("open", os.open, *arguments, **named)
        return self.opened[-1]

    def write(self, descriptor, data):
        def write():
            written = os.write(descriptor, data[: len(data) // 2] if self._ends("middle", "short") else data)
            self._stop("middle")
            return written

        return self._call("write", write)

    def fsync(self, descriptor):
        def fsync():
            os.fsync(descriptor)
            self.flushed |= descriptor == self.opened[1]
            self.names_flushed |= descriptor == self.opened[0] and self.renamed

        self._call("fsync", fsync)

    def close(self, descriptor):
        self._call("close", lambda: None)  # closed in any case at the end

    def rename(self, *arguments, **named):
        def rename():
            os.rename(*arguments, **named)
            self.renamed = True

        self._call("rename", rename)

    def end(self):
        for descriptor in self.opened:
            if descriptor is not None:
                os.close(descriptor)


def made(name, emission):
    relay = haskumye.Relay(name.ljust(16, b"\0"))
    relay.set_port(3, True, haskumye.Mode.ROAMING, 255)
    relay.add_local(name.ljust(16, b"\0"))
    relay = haskumye.Relay.from_tables(relay.tables, haskumye.Tally(total=0x01020304, dropped=5, kept=emission & 0xFFFFFFFF))
    wires = [b""] * haskumye.PORT_COUNT
    wires[3] = b"radio 4711"
    return State(relay, emission, tuple(wires))


def held(found):
    """What a state holds, to be compared."""
    return found and (found.relay.tables, found.relay.tally, found.last_emission, found.wires)


OLD, NEW = made(b"box 7", 1), made(b"box 8", 0x0102030405060708)


class TestDisk(unittest.TestCase):
    def setUp(self):
        folder = tempfile.TemporaryDirectory()
        self.addCleanup(folder.cleanup)
        self.folder, self.disk = pathlib.Path(folder.name) / "box", pathlib.Path(folder.name) / "disk"
        self.folder.mkdir()
        self.disk.mkdir()

    def save_until(self, wanted, ends_at=None, ending=None):
        """Saves, and the call at a step ends so. What it did, and whether it returned, raised an error or was stopped."""
        system, result = System(ends_at, ending), "saved"
        state.os = system
        try:
            state.save_state(self.folder, wanted)
        except OSError:
            result = "failed"
        except Stopped:
            result = "stopped"
        finally:
            state.os = os
            system.end()
        return system, result

    def expect(self, folder, had_old, result):
        found = held(state.load_state(folder))
        self.assertIn(found, [held(NEW), held(OLD) if had_old else None])
        if result == "saved":
            self.assertEqual(found, held(NEW))
        return found

    def cut_power(self, old, system, result):
        """Every disk that a power cut at this moment can leave: names before or after the rename, and of bytes that were not flushed any part."""
        path = self.folder / (SAVED if system.renamed else BEING_SAVED)
        data = path.read_bytes() if path.exists() else b""
        half = data[: len(data) // 2]
        for left in [data] if system.flushed else [data, b"", half, half.ljust(len(data), b"\0"), bytes(len(data))]:
            for renamed in [True] * system.renamed + [False] * (not system.names_flushed):
                files = {SAVED: left if renamed else old, BEING_SAVED: None if renamed else left}
                for name, content in files.items():
                    (self.disk / name).unlink(missing_ok=True)
                    if content is not None:
                        (self.disk / name).write_bytes(content)
                self.expect(self.disk, old is not None, result)

    def try_step(self, had_old, step, ending):
        for name in (SAVED, BEING_SAVED):
            (self.folder / name).unlink(missing_ok=True)
        if had_old:
            self.save_until(OLD)
        old = (self.folder / SAVED).read_bytes() if had_old else None
        system, result = self.save_until(NEW, step, ending)
        found = self.expect(self.folder, had_old, result)
        if result == "failed":
            self.assertTrue(system.renamed or found != held(NEW))
        self.cut_power(old, system, result)
        self.assertEqual(self.save_until(NEW)[1], "saved")  # over what the stop left behind
        self.assertEqual(held(state.load_state(self.folder)), held(NEW))

    def test_the_steps(self):
        system, result = self.save_until(NEW)
        self.assertEqual((system.steps, result), (STEPS, "saved"))

    def test_a_file_that_lost_bytes_is_seen(self):
        self.save_until(NEW)
        path = self.folder / SAVED
        whole = path.read_bytes()
        for at in (*range(0, len(whole), 509), *range(haskumye.TABLE_SIZE, len(whole), 17)):
            changed = whole[:at] + bytes([whole[at] ^ 1]) + whole[at + 1 :]
            for spoiled in (whole[:at], whole[:at].ljust(len(whole), b"\0"), changed):
                path.write_bytes(spoiled)
                self.assertRaises(NotWhole, state.load_state, self.folder)
        path.write_bytes(whole + b"\0")
        self.assertRaises(NotWhole, state.load_state, self.folder)

    def test_a_whole_file_that_is_not_taken(self):
        for at, byte, refusal in ((1, 255, 21), (0, 1, 21), (89, 3, 24)):
            self.save_until(NEW)
            path = self.folder / SAVED
            data = bytearray(path.read_bytes()[: -state.SEAL_SIZE])
            data[at] = byte
            path.write_bytes(data + state.seal_of(bytes(data)))
            with self.assertRaises(haskumye.Refused) as caught:
                state.load_state(self.folder)
            self.assertEqual(caught.exception.refusal, refusal)

    def test_names_that_do_not_fit(self):
        self.assertRaises(ValueError, state.save_state, self.folder, NEW._replace(wires=NEW.wires[:15]))
        self.assertRaises(ValueError, state.save_state, self.folder, NEW._replace(wires=(b"seventeen letters",) * 16))
        self.assertIsNone(state.load_state(self.folder))

    @unittest.skipUnless("STATE_OF_C" in os.environ, "no folder of stopped.c")
    def test_the_same_file_as_in_c(self):
        of_c = pathlib.Path(os.environ["STATE_OF_C"])
        self.assertEqual(held(state.load_state(of_c)), held(NEW))
        self.save_until(NEW)
        self.assertEqual((self.folder / SAVED).read_bytes(), (of_c / SAVED).read_bytes())


def _add_steps():
    """A test for each step and ending."""
    for ending in ENDINGS:
        for step, name in enumerate(STEPS):
            def test(self, step=step, ending=ending):
                self.try_step(True, step, ending)
                self.try_step(False, step, ending)

            setattr(TestDisk, f"test_{step}_{name}_{ending}", test)


_add_steps()

if __name__ == "__main__":
    unittest.main()
