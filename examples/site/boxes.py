"""The site's relays, its cables and radios: packets take their way from box to box, and each box records what comes in."""

from __future__ import annotations

import heapq
from typing import NamedTuple

from terminals import Terminal

import haskumye
from haskumye import Deliver, Forward, Mode, Recorded, Spread

ON_A_WIRE, ON_THE_AIR = 1, 2  # seconds
HEAD, ENTRY = 4, 13  # bytes of a recording, and of each of its entries, beside the packets


class Port(NamedTuple):
    """A port's settings, who is in reach, and whether a repeater says everything once more."""

    mode: Mode = Mode.BOUNDARY
    size: int = haskumye.LONGEST_PACKET
    terminals: tuple = ()
    repeater: bool = False


class Box:
    """A relay, the terminals of its own host, and its day."""

    def __init__(self, name: str, ports: dict[int, Port], own: tuple = ()) -> None:
        self.name, self.ports, self.own, self.recorded = name, ports, own, []
        self.relay = haskumye.Relay(self.address)
        for number, port in ports.items():
            self.relay.set_port(number, True, port.mode, port.size)
        for terminal in own:
            self.relay.add_local(terminal.destination)

    @property
    def address(self) -> bytes:
        return haskumye.sha256(self.name.encode())[:16]

    def recordings(self) -> list[bytes]:
        """Its day, in files that end before they are too long."""
        files, waiting, size = [], [], HEAD
        for recorded in self.recorded:
            more = ENTRY + len(recorded.packet)
            if size + more > haskumye.RECORDING_SIZE:
                files.append(haskumye.write_recording(waiting))
                waiting, size = [], HEAD
            waiting.append(recorded)
            size += more
        return [*files, haskumye.write_recording(waiting)]


class Site:
    """Boxes, cables between them, and packets under way in the order of their clocks."""

    def __init__(self, cables: dict[tuple[Box, int], tuple[Box, int]]) -> None:
        self.cables = {**cables, **{there: here for here, there in cables.items()}}
        self.under_way, self.sent = [], 0

    def send(self, clock: int, box: Box, port: int, packet: bytes, signed: bool = False) -> None:
        """A packet comes in at a box. Those of one clock come in the order in which they were sent."""
        heapq.heappush(self.under_way, (clock, self.sent, box, port, signed, packet))
        self.sent += 1

    def run(self) -> None:
        while self.under_way:
            clock, _, box, port, signed, packet = heapq.heappop(self.under_way)
            box.recorded.append(Recorded(clock, port, signed, packet))
            self.judge(clock, box, port, signed, packet)

    def judge(self, clock: int, box: Box, port: int, signed: bool, packet: bytes) -> None:
        try:
            answer = box.relay.packet(packet, port, clock, signed)
        except haskumye.Refused:
            return
        if isinstance(answer, Deliver):
            self.reply(clock, box, port, packet, box.own)
        elif isinstance(answer, Forward):
            self.leave(clock, box, answer.port, signed, answer.packet)
        elif isinstance(answer, Spread):
            for leaving in answer.ports:
                self.leave(clock, box, leaving, signed, answer.packet)

    def leave(self, clock: int, box: Box, port: int, signed: bool, packet: bytes) -> None:
        """A packet leaves a box: to the next one, or to whoever hears the radio."""
        if (box, port) in self.cables:
            self.send(clock + ON_A_WIRE, *self.cables[box, port], packet, signed)
            return
        if box.ports[port].repeater:
            self.send(clock + ON_THE_AIR, box, port, packet, signed)
        self.reply(clock + ON_THE_AIR, box, port, packet, box.ports[port].terminals)

    def reply(self, clock: int, box: Box, port: int, packet: bytes, terminals: tuple[Terminal, ...]) -> None:
        """Whoever a packet is for sends something back: of the box's own host it goes to where the packet came from."""
        for reply in filter(None, (terminal.reply(packet) for terminal in terminals)):
            there = self.cables.get((box, port)) if terminals is box.own else (box, port)
            if there is not None:
                self.send(clock + ON_A_WIRE, *there, *reply)
