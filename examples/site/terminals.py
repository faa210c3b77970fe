"""Those who send and receive at the site, and their packets."""

from __future__ import annotations

import pathlib
import sys
from typing import NamedTuple

sys.path.insert(0, str(pathlib.Path(__file__).resolve().parents[2] / "bindings/python"))
import haskumye
from haskumye import Parts

CARRIED = haskumye.HEADER_TYPE_2 | haskumye.HEADER_TRANSPORT
SIGNATURE, LINK_PROOF, KEYS = bytes(64), bytes(96), bytes(64)
KEEPALIVE = 0xFA


class Terminal(NamedTuple):
    """A destination. Nothing is signed here: the host's word is taken for it."""

    name: str

    @property
    def keys(self) -> bytes:
        return haskumye.sha256(self.name.encode()) + haskumye.sha256(self.name[::-1].encode())

    @property
    def name_hash(self) -> bytes:
        return haskumye.sha256(b"site." + self.name.encode())[:10]

    @property
    def destination(self) -> bytes:
        return haskumye.announced_destination(self.keys + self.name_hash)

    def announce(self, clock: int) -> bytes:
        random = haskumye.sha256(f"{self.name} {clock}".encode())[:5]
        return haskumye.build_announce(haskumye.Announce(self.keys, self.name_hash, random, clock), SIGNATURE)

    def reply(self, packet: bytes) -> tuple[bytes, bool] | None:
        """What it sends back for a packet of its own, with the word on its signature: a receipt for data, a proof for a link request."""
        parts = haskumye.read(packet, haskumye.LONGEST_PACKET)
        if parts.destination != self.destination:
            return None
        kind = parts.header & haskumye.PACKET_KIND
        if kind == haskumye.PACKET_DATA:
            return receipt(packet), False
        if kind == haskumye.PACKET_LINK_REQUEST:
            header = haskumye.PACKET_PROOF | haskumye.DESTINATION_LINK
            to = haskumye.link_id(packet)
            return haskumye.write(Parts(header, destination=to, context=haskumye.CONTEXT_LINK_PROOF), LINK_PROOF), True
        return None


def receipt(packet: bytes) -> bytes:
    return haskumye.write(Parts(haskumye.PACKET_PROOF, destination=haskumye.packet_hash(packet)[:16]), SIGNATURE)


def data(relay: bytes, to: Terminal, payload: bytes) -> bytes:
    """Data that a relay is asked to carry."""
    return haskumye.write(Parts(CARRIED | haskumye.PACKET_DATA, 0, relay, to.destination), payload)


def link_request(relay: bytes, to: Terminal) -> bytes:
    return haskumye.write(Parts(CARRIED | haskumye.PACKET_LINK_REQUEST, 0, relay, to.destination), KEYS)


def keepalive(request: bytes) -> bytes:
    """What keeps a link alive: the same byte each time."""
    return haskumye.write(Parts(haskumye.DESTINATION_LINK, destination=haskumye.link_id(request), context=KEEPALIVE), b"\xff")
