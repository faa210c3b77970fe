"""The pictures, compared by their data: what is counted, what is drawn of it, and what the pages show."""

from __future__ import annotations

import collections
import fractions
import importlib.util
import math
import pathlib
import subprocess
import sys
import tempfile
import unittest
import xml.etree.ElementTree

import expected
from example_site import PROGRAM, ROOT

import haskumye
from haskumye import Kind, Reason, Recorded, Replayed
from haskumye_desk import gathered, pictures, surveyed
from haskumye_desk.bins import bins
from haskumye_desk.pictures import canvas, clocks, survey
from haskumye_desk.replaying import Event

DRAWN = importlib.util.find_spec("matplotlib") is not None
DESCRIPTION = "{http://purl.org/dc/elements/1.1/}description"


def description(svg: bytes) -> list[str]:
    """The numbers that a picture carries."""
    return (next(xml.etree.ElementTree.fromstring(svg).iter(DESCRIPTION)).text or "").splitlines()


def event(clock: int, port: int, kind: Kind = Kind.DELIVER, **answer: object) -> Event:
    """A packet of 20 bytes, and what became of it."""
    return Event(Recorded(clock, port, False, bytes(20)), Replayed("", kind, **answer))


def drop(clock: int, port: int, reason: Reason) -> Event:
    return event(clock, port, Kind.DROP, reason=reason)


ODD_DAYS = {
    "no packet": [],
    "one packet": [event(0, 0)],
    "one second": [event(5, 0), drop(5, 1, Reason.DUPLICATE)],
    "the longest time": [event(0, 0), drop((1 << 40) - 1, 3, Reason.NO_ROOM)],
    "a week": [event(clock, 1) for clock in range(0, 7 * 86400, 3600)],
    "no port": [event(7, 255, Kind.REFUSED, refusal=haskumye.Refusal.ARRIVAL_PORT)],
    "every port": [event(1000 + port, port, Kind.SPREAD, ports=tuple(range(16)), length=500) for port in range(16)],
    "every reason": [drop(1000, 0, reason) for reason in Reason] + [event(1000, 0, Kind.REFUSED, refusal=haskumye.Refusal.CLOCK)],
}


TESTS = (1, 2, 3, 4, 5, 6, 7, 8, 9, 10, 11, 15, 12, 16, 13)  # in the order that a survey's text has them


def survey_text(refused: str = "", port: str = "packets 0 in 0 out 0 dropped 0/1", count: int = 0) -> str:
    """A survey's text whose ports are alike, and its reasons."""
    return f"survey\n{refused}" + "".join(f"port {number} {port}\n" for number in range(16)) + "".join(f"reason {test} {count}\n" for test in TESTS)


ODD_SURVEYS = {
    "no packet": survey_text(),
    "all refused": survey_text("".join(f"recording {number} refused 20\n" for number in range(1, 17)) + "recording 17 refused 29\n"),
    "no drop": survey_text(port="packets 3 in 90 out 60 dropped 0/1"),
    "all dropped": survey_text("recording 2 refused 21\n", "packets 15 in 900 out 0 dropped 1/1", 16),
    "only out": survey_text(port="packets 0 in 0 out 14400000 dropped 0/1"),
    "one of many": survey_text(port="packets 30960 in 960000 out 0 dropped 1/30960", count=1),
}


class TestNumbers(unittest.TestCase):
    @classmethod
    def setUpClass(cls) -> None:
        cls.events = expected.cold_store_day()

    def test_the_site_s_numbers(self) -> None:
        for name, gather in expected.COUNTED.items():
            self.assertEqual(gather(self.events).lines(), expected.numbers(name), name)

    def test_every_packet_is_counted_once(self) -> None:
        day, drops, port_bytes = gathered.day(self.events), gathered.drops(self.events), gathered.port_bytes(self.events)
        self.assertEqual(sum(map(sum, day.packets_in.values())), len(self.events))
        self.assertEqual(sum(map(sum, day.packets_out.values())), sum(len(replayed.ports) for _, replayed in self.events))
        lines = collections.Counter(" ".join(replayed.line.split(".")[0].split()[1:3]) for _, replayed in self.events)
        for reason, counts in drops.dropped.items():
            self.assertEqual(sum(counts), lines[gathered.drop_fate(reason)])
            self.assertEqual(day.total(gathered.drop_fate(reason)), sum(counts))
        accepted = [recorded for recorded, replayed in self.events if replayed.kind != Kind.REFUSED]
        self.assertEqual(sum(port_bytes.bytes_in.values()), sum(len(recorded.packet) for recorded in accepted))

    def test_a_spread_counts_once_for_each_port(self) -> None:
        told = gathered.port_bytes([event(1, 0, Kind.SPREAD, ports=(1, 4), length=183), event(1, 1, Kind.FORWARD, ports=(0,), length=30)])
        self.assertEqual(told.lines(), ["port 0 in 20 out 30", "port 1 in 20 out 183", "port 4 in 0 out 183"])

    def test_spans(self) -> None:
        for first, last in ((0, 0), (59, 60), (1000, 87399), (0, (1 << 40) - 1), ((1 << 40) - 2, (1 << 40) - 1), (3599, 3600 * 48)):
            for least, most in ((1, gathered.DAY_BINS), (3600, gathered.HOUR_BINS)):
                spans = bins([last, first], least, most)
                self.assertTrue(spans.start % spans.width == 0 and spans.width >= least and 1 <= spans.number <= most)
                self.assertEqual((spans.place(first), spans.place(last)), (0, spans.number - 1))
                self.assertLessEqual(len(clocks.ticks(spans)), clocks.MOST_TICKS + 1)

    def test_odd_days(self) -> None:
        for name, events in ODD_DAYS.items():
            self.assertEqual(sum(map(sum, gathered.day(events).packets_in.values())), len(events), name)

    def test_the_site_s_survey(self) -> None:
        text = expected.cold_store_survey()
        self.assertEqual(text.splitlines(), expected.numbers("survey"))
        told = surveyed.read(text)
        self.assertEqual(told.ports[1], surveyed.PortCounts(416, 38927, 29541, fractions.Fraction(107, 416)))
        self.assertEqual({port: counts.dropped for port, counts in told.used.items()}, {0: 61, 1: 107, 2: 231, 3: 80})
        self.assertEqual(sum(counts.dropped for counts in told.ports.values()), sum(told.drops.values()))
        self.assertEqual([reason.value for reason in told.dropped], [1, 2, 3, 6, 9, 15, 16])

    def test_a_survey_s_text_is_read_whole(self) -> None:
        for name, text in {**ODD_SURVEYS, "site": expected.cold_store_survey()}.items():
            self.assertEqual(surveyed.read(text).lines(), text.splitlines(), name)

    def test_the_pages_pictures(self) -> None:
        for name in (*expected.COUNTED, "survey"):
            self.assertEqual(description((ROOT / f"docs/pictures/{name}.svg").read_bytes()), expected.numbers(name), name)


class TestLooks(unittest.TestCase):
    def test_every_fate_can_be_told_in_black_and_white(self) -> None:
        self.assertEqual(set(canvas.LOOKS), set(gathered.FATES))
        grey = lambda colour: sum(weight * int(colour[at : at + 2], 16) for at, weight in ((1, 0.299), (3, 0.587), (5, 0.114)))
        by_hatch = collections.defaultdict(list)
        for look in canvas.LOOKS.values():
            by_hatch[look.hatch].append(grey(look.colour))
        for hatch, greys in by_hatch.items():
            apart = [after - before for before, after in zip(sorted(greys), sorted(greys)[1:])]
            self.assertTrue(all(difference > 20 for difference in apart), f"{hatch}: {greys}")


@unittest.skipUnless(DRAWN, "no matplotlib")
class TestDrawings(unittest.TestCase):
    @classmethod
    def setUpClass(cls) -> None:
        cls.events = expected.cold_store_day()
        cls.drawn = [(picture.gather(cls.events), picture.draw(picture.gather(cls.events))) for picture in pictures.OF_A_REPLAY]

    def named(self, figure) -> dict:
        """The shapes that are called something."""
        return {shape.get_gid(): shape for shape in figure.findobj(lambda shape: shape.get_gid() is not None)}

    def test_the_day(self) -> None:
        day, figure = self.drawn[0]
        shapes = self.named(figure)
        heights = lambda data: [0 if math.isnan(value) else value - low for value, low in zip(data.values, data.baseline)]
        for (port, fate), counts in day.packets_in.items():
            self.assertEqual(heights(shapes.pop(f"port {port} in {fate}").get_data()), counts)
        for port, counts in day.packets_out.items():
            values = shapes.pop(f"port {port} out").get_data().values
            self.assertEqual([0 if math.isnan(value) else -value for value in values], counts)
        self.assertEqual(shapes, {})

    def test_drops(self) -> None:
        drops, figure = self.drawn[1]
        cells = self.named(figure)["drops"].get_array()
        self.assertEqual(cells.reshape(len(drops.dropped), -1).tolist(), list(drops.dropped.values()))
        written = [text.get_text().strip() for text in figure.axes[0].texts]
        numbers = [str(number) for counts in drops.dropped.values() for number in [*filter(None, counts), sum(counts)]]
        self.assertEqual(written, numbers)

    def test_bytes(self) -> None:
        told, figure = self.drawn[2]
        bars = self.named(figure)
        for port in told.bytes_in:
            self.assertEqual((bars[f"port {port} in"].get_width(), bars[f"port {port} out"].get_width()), (told.bytes_in[port], told.bytes_out[port]))

    def test_the_survey(self) -> None:
        told = surveyed.read(expected.cold_store_survey())
        bars = {name: bar.get_width() for name, bar in self.named(survey.draw(told)).items()}
        for port, counts in told.used.items():
            shown = (bars.pop(f"port {port} {words}") for words in ("taken in", "dropped", "in", "out"))
            self.assertEqual((*shown,), (counts.packets - counts.dropped, counts.dropped, counts.bytes_in, counts.bytes_out))
        self.assertEqual(bars, {f"reason {reason.value}": count for reason, count in told.dropped.items()})

    def test_the_survey_s_file(self) -> None:
        with tempfile.TemporaryDirectory() as name:
            folder = pathlib.Path(name)
            saved, recordings = expected.cold_store(folder / "site")
            words = [str(PROGRAM), "survey", saved, *recordings, "--picture", str(folder / "survey.svg")]
            text = subprocess.run([sys.executable, *words], check=True, capture_output=True, text=True).stdout
            self.assertEqual(description((folder / "survey.svg").read_bytes()), text.splitlines())

    def test_no_picture_of_refused_settings(self) -> None:
        with tempfile.TemporaryDirectory() as name:
            folder = pathlib.Path(name)
            _, recordings = expected.cold_store(folder / "site")
            words = [str(PROGRAM), "survey", recordings[0], "nothing.recording", "--picture", str(folder / "never.svg")]
            told = subprocess.run([sys.executable, *words], check=False, capture_output=True, text=True)
            self.assertEqual((told.returncode, told.stdout), (1, "settings refused 20\n"))
            self.assertFalse((folder / "never.svg").exists())

    def test_odd_surveys(self) -> None:
        for name, text in ODD_SURVEYS.items():
            (picture,) = pictures.OF_A_SURVEY
            data = picture.gather(text)
            self.assertEqual(description(canvas.svg(picture.draw(data), data.lines())), text.splitlines(), name)

    def test_the_files(self) -> None:
        for data, figure in self.drawn:
            svg = canvas.svg(figure, data.lines())
            self.assertEqual(description(svg), data.lines())
            self.assertEqual(svg, canvas.svg(figure, data.lines()))
            self.assertLess(len(svg), 150_000)

    def test_the_readme_s_commands(self) -> None:
        lines = [line.strip() for line in (ROOT / "README.md").read_text().splitlines() if line.startswith(("    examples/site", "    desk/haskumye"))]
        with tempfile.TemporaryDirectory() as name:
            for line in lines:
                command = f"{sys.executable} {line}".replace("target/", f"{name}/")
                subprocess.run(["sh", "-c", command], cwd=ROOT, check=True, stdout=subprocess.DEVNULL, stderr=subprocess.DEVNULL)
            self.assertEqual(description(pathlib.Path(name, "day.svg").read_bytes()), expected.numbers("day"))

    def test_odd_days(self) -> None:
        for name, events in ODD_DAYS.items():
            for picture in pictures.OF_A_REPLAY:
                data = picture.gather(events)
                self.assertEqual(description(canvas.svg(picture.draw(data), data.lines())), data.lines(), name)


if __name__ == "__main__":
    unittest.main()
