#!/usr/bin/env python3
"""Makes a day at a site of three relays: for each the saved file that the day begins with, and its recordings.

Usage: make.py FOLDER, after `make`. It writes growth-room.saved, growth-room-1.recording and so on, the same bytes each time.

Benches in the growth room send their counts to the desk, by way of the cold store, and receipts come home. Beside that the day has what a day has: a new
sensor that announces itself far too often (10:00 to 11:20), noise on the long radio (12:30 to 13:30), a handheld that went away before six and is written to
in the afternoon (14:00 to 15:20), a price list that the long radio can't carry (16:00 to 16:30), forged announces (19:00 to 19:20), a repeater that says
everything twice, and packets of a site nearby.
"""

from __future__ import annotations

import pathlib
import random
import sys
from typing import Iterator

from terminals import Terminal, data, keepalive, link_request
from boxes import Box, Port, Site

import haskumye
from haskumye import Mode

MIDNIGHT = 30 * 86400
MINUTE, HOUR = 60, 3600
LONG_RADIO = 255  # bytes that it carries

BENCHES = tuple(Terminal(f"bench {number}") for number in range(1, 5))
HANDHELD, GONE, SENSOR = Terminal("handheld 1"), Terminal("handheld 2"), Terminal("new sensor")
GREENHOUSE, OFFICE = Terminal("greenhouse"), Terminal("office")
CLIMATE, SHELF, COUNTS = Terminal("climate"), Terminal("shelf"), Terminal("counts")
NEIGHBOUR = haskumye.sha256(b"a relay of another site")[:16]

growth_room = Box("growth room", {0: Port(), 1: Port(Mode.ACCESS_POINT, terminals=(*BENCHES, CLIMATE))})
cold_store = Box(
    "cold store",
    {0: Port(), 1: Port(), 2: Port(Mode.BOUNDARY, LONG_RADIO, (GREENHOUSE,), repeater=True), 3: Port(Mode.ROAMING, terminals=(HANDHELD,))},
    (SHELF,),
)
desk = Box("desk", {0: Port(), 1: Port(Mode.ACCESS_POINT, terminals=(OFFICE,))}, (COUNTS,))
BOXES = (growth_room, cold_store, desk)
site = Site({(growth_room, 0): (cold_store, 0), (cold_store, 1): (desk, 0)})

# Where each is heard; of a host's own, where the packets that it sends come in.
HEARD = {
    **{terminal: [(growth_room, 1)] for terminal in (*BENCHES, CLIMATE)},
    **{SHELF: [(growth_room, 0), (desk, 0)], COUNTS: [(cold_store, 1)]},
    **{GREENHOUSE: [(cold_store, 2)], HANDHELD: [(cold_store, 3)], GONE: [(cold_store, 3)], OFFICE: [(desk, 1)]},
}
GONE_AT = 6  # o'clock
chance = random.Random(30)


def times(start: float, end: float, every: float, spread: float = 0.0) -> Iterator[int]:
    """Clocks from an hour of the day to another, so many minutes apart; each comes up to so many minutes later, by chance."""
    count = round((end - start) * HOUR / (every * MINUTE))
    for number in range(count):
        yield MIDNIGHT + int(start * HOUR + (number * every + chance.random() * spread) * MINUTE)


def announces() -> None:
    """Every terminal announces itself every three hours; the handheld that goes away twice, and not again."""
    for terminal, places in HEARD.items():
        for box, port in places:
            for clock in times(0, GONE_AT if terminal == GONE else 24, 180, 170):
                site.send(clock, box, port, terminal.announce(clock), signed=True)


def messages(sender: Terminal, to: Terminal, clocks: Iterator[int], text: str) -> None:
    box, port = HEARD[sender][0]
    for number, clock in enumerate(clocks, 1):
        site.send(clock, box, port, data(box.address, to, f"{sender.name}: {text} {number}".encode()))


def work() -> None:
    """Counts while people work, reports all day, orders and questions."""
    for bench in BENCHES:
        messages(bench, COUNTS, times(7, 12, 10, 9), "plants counted, entry")
        messages(bench, COUNTS, times(13, 17, 10, 9), "plants counted, entry after noon")
    messages(GREENHOUSE, COUNTS, times(0, 24, 20, 15), "warm and moist, report")
    messages(CLIMATE, COUNTS, times(0, 24, 30, 20), "21 degrees, report")
    messages(HANDHELD, SHELF, times(8, 17, 12, 10), "how many boxes, question")
    for bench in BENCHES:
        messages(OFFICE, bench, times(8, 16, 60, 50), f"order for {bench.name}")


def trouble() -> None:
    """What is dropped, each at its hour."""
    for clock in times(10, 11 + 1 / 3, 1):
        site.send(clock, cold_store, 3, SENSOR.announce(clock), signed=True)
    for clock in times(12.5, 13.5, 3, 2):
        site.send(clock, cold_store, 2, GREENHOUSE.announce(clock)[:110])
    for clock in times(12.5, 13.5, 10, 8):
        site.send(clock, cold_store, 2, b"\0" * 12)
    messages(OFFICE, GONE, times(14, 15 + 1 / 3, 4), "where are you, call")
    messages(OFFICE, GREENHOUSE, times(16, 16.5, 2), "price list".ljust(300, "."))
    for clock in times(19, 19 + 1 / 3, 2.5):
        site.send(clock, cold_store, 3, Terminal("counts of a stranger").announce(clock))
    for number, clock in enumerate(times(0, 24, 25, 20)):
        site.send(clock, cold_store, 2, data(NEIGHBOUR, COUNTS, f"another site's {number}".encode()))


def late_link() -> None:
    """Someone stays late: a link from the handheld to the office, kept alive until midnight."""
    start = MIDNIGHT + 23 * HOUR + 40 * MINUTE
    request = link_request(cold_store.address, OFFICE)
    site.send(start, cold_store, 3, request)
    for clock in range(start + MINUTE, MIDNIGHT + 24 * HOUR, MINUTE):
        site.send(clock, cold_store, 3, keepalive(request))


def main(folder: pathlib.Path) -> None:
    folder.mkdir(parents=True, exist_ok=True)
    for box in BOXES:
        box.relay.set_announce_rate(target=10 * MINUTE, grace=3, penalty=HOUR)
        (folder / f"{box.name.replace(' ', '-')}.saved").write_bytes(box.relay.save())
    for part in (announces, work, trouble, late_link):
        part()
    site.run()
    for box in BOXES:
        for number, file in enumerate(box.recordings(), 1):
            (folder / f"{box.name.replace(' ', '-')}-{number}.recording").write_bytes(file)


if __name__ == "__main__":
    if len(sys.argv) != 2:
        sys.exit(__doc__)
    main(pathlib.Path(sys.argv[1]))
