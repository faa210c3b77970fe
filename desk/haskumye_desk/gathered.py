"""What pictures show of a replay, counted: packets by port and time, drops by reason and hour, bytes by port."""

from __future__ import annotations

from collections import Counter
from typing import Dict, NamedTuple, Sequence, Tuple

import haskumye
from haskumye import Kind, Reason

from .bins import Bins, bins
from .replaying import Event
from .times import HOUR

DAY_BINS, HOUR_BINS = 96, 48  # at most

# What became of a packet that came in: it was taken (delivered, sent on or kept), dropped by a reason, or refused.
TAKEN, REFUSED = "taken", "refused"
Fate = str


def drop_fate(reason: Reason) -> Fate:
    return f"drop {reason.value}"


# Each with its words, in the order that they are drawn.
WORDS = {TAKEN: "taken in", **{drop_fate(reason): f"{drop_fate(reason)}: {reason.words}" for reason in Reason}, REFUSED: "refused"}
FATES = tuple(WORDS)


def fate(replayed: haskumye.Replayed) -> Fate:
    if replayed.kind == Kind.DROP:
        return drop_fate(replayed.reason)
    return REFUSED if replayed.kind == Kind.REFUSED else TAKEN


class Day(NamedTuple):
    """Packets in, by port, fate and span of time, and packets out, by port and span."""

    spans: Bins
    ports: Tuple[int, ...]
    packets_in: Dict[Tuple[int, Fate], list[int]]
    packets_out: Dict[int, list[int]]

    @property
    def fates(self) -> list[Fate]:
        return [fate for fate in FATES if any(told == fate for _, told in self.packets_in)]

    def total(self, fate: Fate) -> int:
        return sum(sum(counts) for (_, told), counts in self.packets_in.items() if told == fate)

    def lines(self) -> list[str]:
        """The numbers as text."""
        came = [f"port {port} in {told} {_numbers(self.packets_in[port, told])}" for port, told in self.packets_in]
        left = [f"port {port} out {_numbers(counts)}" for port, counts in self.packets_out.items()]
        return [f"spans of {self.spans.width} from {self.spans.start}", *came, *left]


class Drops(NamedTuple):
    """Drops by reason and span of time."""

    spans: Bins
    dropped: Dict[Reason, list[int]]

    def lines(self) -> list[str]:
        drops = [f"{drop_fate(reason)} {_numbers(counts)}" for reason, counts in self.dropped.items()]
        return [f"spans of {self.spans.width} from {self.spans.start}", *drops]


class PortBytes(NamedTuple):
    """Bytes in, of packets that were not refused, and bytes out, where a spread counts once for each port, by port."""

    bytes_in: Dict[int, int]
    bytes_out: Dict[int, int]

    def lines(self) -> list[str]:
        return [f"port {port} in {self.bytes_in[port]} out {self.bytes_out[port]}" for port in self.bytes_in]


def _numbers(counts: Sequence[int]) -> str:
    return " ".join(map(str, counts))


def ports_of(events: Sequence[Event]) -> Tuple[int, ...]:
    """The ports that packets came in by or left by, rising."""
    return tuple(sorted({port for recorded, replayed in events for port in (recorded.port, *replayed.ports)}))


def day(events: Sequence[Event]) -> Day:
    spans = bins((recorded.clock for recorded, _ in events), least=1, most=DAY_BINS)
    came = Counter((recorded.port, fate(replayed), spans.place(recorded.clock)) for recorded, replayed in events)
    left = Counter((port, spans.place(recorded.clock)) for recorded, replayed in events for port in replayed.ports)
    ports, places = ports_of(events), range(spans.number)
    seen = {(port, told) for port, told, _ in came}
    return Day(
        spans,
        ports,
        {(port, told): [came[port, told, place] for place in places] for port in ports for told in FATES if (port, told) in seen},
        {port: [left[port, place] for place in places] for port in ports},
    )


def drops(events: Sequence[Event]) -> Drops:
    spans = bins((recorded.clock for recorded, _ in events), least=HOUR, most=HOUR_BINS)
    counts = Counter((replayed.reason, spans.place(recorded.clock)) for recorded, replayed in events if replayed.kind == Kind.DROP)
    seen = {reason for reason, _ in counts}
    return Drops(spans, {reason: [counts[reason, place] for place in range(spans.number)] for reason in Reason if reason in seen})


def port_bytes(events: Sequence[Event]) -> PortBytes:
    came: Counter[int] = Counter()
    left: Counter[int] = Counter()
    for recorded, replayed in events:
        if replayed.kind != Kind.REFUSED:
            came[recorded.port] += len(recorded.packet)
        for port in replayed.ports:
            left[port] += replayed.length
    ports = ports_of(events)
    return PortBytes({port: came[port] for port in ports}, {port: left[port] for port in ports})
