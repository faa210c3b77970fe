"""What the sessions can't see: terminals, signals, files that are replaced, and the manual."""

from __future__ import annotations

import io
import os
import pathlib
import pty
import re
import shutil
import signal
import subprocess
import sys
import tempfile
import unittest

from example_site import PROGRAM, ROOT, make_site

import manual
from haskumye_desk import files
from haskumye_desk.progress import PATIENCE, Progress
from haskumye_desk.times import duration

SITE = tempfile.TemporaryDirectory()
FOLDER = pathlib.Path(SITE.name) / "site"
# The program with something in it replaced, as `-c` takes it; its words follow.
REPLACED = f"import sys; sys.path[:0] = ['{ROOT / 'desk'}', '{ROOT / 'bindings/python'}']; {{}}; from haskumye_desk.program import main; sys.exit(main())"


def setUpModule() -> None:
    make_site(FOLDER)


def tearDownModule() -> None:
    SITE.cleanup()


def start(*words: object, replaced: str = "", **settings: object) -> subprocess.Popen:
    program = ["-c", REPLACED.format(replaced)] if replaced else [str(PROGRAM)]
    return subprocess.Popen([sys.executable, *program, *map(str, words)], cwd=FOLDER, **settings)


def stopped(running: subprocess.Popen, number: int) -> int:
    """Sends a signal until the program ends: one that comes just before Python waits in a read is seen only after it."""
    while True:
        running.send_signal(number)
        try:
            return running.wait(timeout=1)
        except subprocess.TimeoutExpired:
            pass


def open_terminal() -> tuple[int, int]:
    try:
        return pty.openpty()
    except OSError as error:
        raise unittest.SkipTest(f"no terminal: {error}") from None


def read_terminal(terminal: int) -> str:
    """All that comes out of a terminal until whoever writes to it has ended."""
    parts = []
    try:
        while part := os.read(terminal, 65536):
            parts.append(part)
    except OSError:
        pass
    return b"".join(parts).decode()


class Terminal(io.StringIO):
    def isatty(self) -> bool:
        return True


class TestProgress(unittest.TestCase):
    def shown(self, stream: io.StringIO, seconds: list[float]) -> str:
        times = iter([0.0, *(second for second in seconds for _ in range(2))])
        with Progress("packets replayed", 9, stream, lambda: next(times)) as progress:
            for done in range(len(seconds)):
                progress.at(done)
        return stream.getvalue()

    def test_a_short_work_has_none(self) -> None:
        self.assertEqual(self.shown(Terminal(), [0.5, PATIENCE - 0.01]), "")

    def test_a_long_one_is_told_and_the_line_goes(self) -> None:
        told = self.shown(Terminal(), [PATIENCE + 0.1, PATIENCE + 5])
        self.assertEqual(told, "\rpackets replayed: 0 of 9\rpackets replayed: 1 of 9\r" + " " * 24 + "\r")

    def test_not_a_terminal(self) -> None:
        self.assertEqual(self.shown(io.StringIO(), [PATIENCE + 0.1]), "")

    def test_in_the_program(self) -> None:
        ours, theirs = open_terminal()
        impatient = "import haskumye_desk.progress as progress; progress.PATIENCE = progress.PAUSE = 0.0"
        ended = start("replay", "desk.saved", "desk-1.recording", replaced=impatient, stdout=subprocess.DEVNULL, stderr=theirs)
        os.close(theirs)
        told = read_terminal(ours)
        os.close(ours)
        self.assertEqual(ended.wait(), 0)
        self.assertIn("\rpackets replayed: 531 of 531", told)
        self.assertTrue(told.endswith(" \r"), told[-40:])


class TestStopped(unittest.TestCase):
    def test_while_it_reads(self) -> None:
        os.mkfifo(FOLDER / "pipe")
        before = sorted(FOLDER.iterdir())
        for number in (signal.SIGINT, signal.SIGTERM, signal.SIGHUP):
            running = start("replay", "desk.saved", "pipe", "--save", "never.saved", stderr=subprocess.PIPE)
            with open(FOLDER / "pipe", "wb") as pipe:  # opens once the program reads it
                pipe.write(b"\1")
                pipe.flush()
                self.assertEqual(stopped(running, number), 128 + number)
            self.assertEqual(running.stderr.read(), b"")
            running.stderr.close()
        self.assertEqual(sorted(FOLDER.iterdir()), before)

    def test_while_it_writes(self) -> None:
        shutil.copy(FOLDER / "desk.saved", FOLDER / "kept.saved")
        before, kept = sorted(FOLDER.iterdir()), (FOLDER / "kept.saved").read_bytes()
        stopping = "import os, signal; os.fsync = lambda file: os.kill(os.getpid(), signal.SIGTERM)"
        running = start("replay", "desk.saved", "desk-1.recording", "--save", "kept.saved", replaced=stopping, stdout=subprocess.DEVNULL)
        self.assertEqual(running.wait(), 128 + signal.SIGTERM)
        self.assertEqual((sorted(FOLDER.iterdir()), (FOLDER / "kept.saved").read_bytes()), (before, kept))

    def test_a_disk_that_is_full(self) -> None:
        full = "import os; os.fsync = lambda file: exec('raise OSError(28, os.strerror(28))')"
        running = start("load", "desk.saved", "--save", "never.saved", replaced=full, stderr=subprocess.PIPE)
        self.assertEqual(running.communicate()[1], b"haskumye load: cannot write never.saved: No space left on device\n")
        self.assertEqual(running.returncode, 2)
        self.assertEqual([path.name for path in FOLDER.iterdir() if "never" in path.name], [])


class TestFiles(unittest.TestCase):
    def test_a_pipe_and_a_link_stay(self) -> None:
        with tempfile.TemporaryDirectory() as name:
            folder = pathlib.Path(name)
            os.mkfifo(folder / "pipe")
            (folder / "link").symlink_to("file")
            reader = os.open(folder / "pipe", os.O_RDONLY | os.O_NONBLOCK)
            files.write(str(folder / "pipe"), b"1")
            files.write(str(folder / "link"), b"2")
            self.assertEqual((os.read(reader, 9), (folder / "file").read_bytes()), (b"1", b"2"))
            os.close(reader)
            self.assertTrue((folder / "pipe").is_fifo() and (folder / "link").is_symlink())
            self.assertEqual(len(list(folder.iterdir())), 3)

    def test_a_recording_is_not_for_a_terminal(self) -> None:
        ours, theirs = open_terminal()
        running = start("record", "/dev/null", stdout=theirs, stderr=subprocess.PIPE)
        os.close(theirs)
        self.assertIn(b"no text for a terminal", running.communicate()[1])
        self.assertEqual((running.returncode, read_terminal(ours)), (2, ""))
        os.close(ours)


class TestOpinion(unittest.TestCase):
    """Differences, which can't come: another engine stands in for the second opinion."""

    def told(self, replaced: str) -> tuple[int, str]:
        running = start("opinion", "desk.saved", "desk-1.recording", replaced=replaced, stdout=subprocess.DEVNULL, stderr=subprocess.PIPE, text=True)
        errors = running.communicate()[1]
        return running.returncode, errors.splitlines()[-1]

    def test_another_answer_is_told(self) -> None:
        ended = self.told("import haskumye; haskumye.SecondOpinion.packet = lambda *words: haskumye.Kept()")
        self.assertEqual(ended, (1, "haskumye opinion: packet 1 is answered otherwise by the second opinion"))

    def test_other_bytes_that_leave_are_told(self) -> None:
        wrong = "lambda *words: (lambda told: told._replace(packet=told.packet[:-1]) if isinstance(told, haskumye.Spread) else told)(real(*words))"
        ended = self.told(f"import haskumye; real = haskumye.SecondOpinion.packet; haskumye.SecondOpinion.packet = {wrong}")
        self.assertEqual(ended, (1, "haskumye opinion: packet 1 is answered otherwise by the second opinion"))


class TestTimes(unittest.TestCase):
    def test_durations(self) -> None:
        told = {0: "0 s", 59: "59 s", 60: "1 min", 61: "1 min 1 s", 3600: "1 h", 3661: "1 h 1 min", 86399: "23 h 59 min", 90000: "1 d 1 h", 86460: "1 d"}
        self.assertEqual({seconds: duration(seconds) for seconds in told}, told)


class TestManual(unittest.TestCase):
    def test_the_pages_are_what_the_program_says(self) -> None:
        written = {path.name: path.read_text() for path in (ROOT / "desk/man").iterdir()}
        self.assertEqual(written, manual.pages(), "run desk/manual.py desk/man")

    @unittest.skipUnless(shutil.which("groff"), "no groff")
    def test_groff_takes_them(self) -> None:
        pages = sorted((ROOT / "desk/man").iterdir())
        ended = subprocess.run(["groff", "-man", "-Tascii", "-ww", *pages], capture_output=True, text=True)
        self.assertEqual((ended.returncode, ended.stderr), (0, ""))
        for word in ("HASKUMYE-REPLAY(1)", "--drops-picture", "EXIT STATUS"):
            self.assertIn(word, re.sub(".\b", "", ended.stdout))


if __name__ == "__main__":
    unittest.main()
