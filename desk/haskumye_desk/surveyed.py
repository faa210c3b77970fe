"""A survey's text read, for its picture: all numbers are the text's."""

from __future__ import annotations

import re
from fractions import Fraction
from typing import Dict, NamedTuple

from haskumye import Reason

from .gathered import PortBytes

RECORDING = re.compile(r"^recording (\d+) refused (\d+)$", re.MULTILINE)
PORT = re.compile(r"^port (\d+) packets (\d+) in (\d+) out (\d+) dropped (\d+/\d+)$", re.MULTILINE)
REASON = re.compile(r"^reason (\d+) (\d+)$", re.MULTILINE)


class PortCounts(NamedTuple):
    """A port's line."""

    packets: int
    bytes_in: int
    bytes_out: int
    share: Fraction  # of the packets, dropped

    @property
    def dropped(self) -> int:
        return int(self.packets * self.share)

    @property
    def is_used(self) -> bool:
        return self.packets > 0 or self.bytes_out > 0


class Surveyed(NamedTuple):
    """A survey: the refusal of each refused recording, each port's line, and the drops by each reason, in the text's order."""

    refused: Dict[int, int]
    ports: Dict[int, PortCounts]
    drops: Dict[Reason, int]

    @property
    def used(self) -> Dict[int, PortCounts]:
        """The ports that packets came in by or left by."""
        return {port: counts for port, counts in self.ports.items() if counts.is_used}

    @property
    def port_bytes(self) -> PortBytes:
        used = self.used.items()
        return PortBytes({port: counts.bytes_in for port, counts in used}, {port: counts.bytes_out for port, counts in used})

    @property
    def dropped(self) -> Dict[Reason, int]:
        """The reasons that packets were dropped for."""
        return {reason: count for reason, count in self.drops.items() if count}

    def lines(self) -> list[str]:
        """The text again."""
        refused = [f"recording {recording} refused {refusal}" for recording, refusal in self.refused.items()]
        ports = [f"port {port} {_told(counts)}" for port, counts in self.ports.items()]
        return ["survey", *refused, *ports, *(f"reason {reason.value} {count}" for reason, count in self.drops.items())]


def _told(counts: PortCounts) -> str:
    share = f"{counts.share.numerator}/{counts.share.denominator}"
    return f"packets {counts.packets} in {counts.bytes_in} out {counts.bytes_out} dropped {share}"


def read(text: str) -> Surveyed:
    return Surveyed(
        {int(recording): int(refusal) for recording, refusal in RECORDING.findall(text)},
        {int(port): PortCounts(*map(int, counts), Fraction(share)) for port, *counts, share in PORT.findall(text)},
        {Reason(int(reason)): int(count) for reason, count in REASON.findall(text)},
    )
