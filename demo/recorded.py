#!/usr/bin/env python3
"""Writes what the demo's cold store hears as a recording, and saves the relay that it starts from: data for the program `replay`.

Usage: demo/recorded.py FOLDER. The library is that of bindings/python, which `make` builds. crates/replay/data was written by it.
"""

import pathlib
import sys

sys.path.insert(0, str(pathlib.Path(__file__).resolve().parents[1] / "bindings" / "python"))
import haskumye  # noqa: E402

CABLE, NORTH, SOUTH, OFF = 0, 1, 2, 7
SHELF = b"shelf".ljust(16, b"\0")
COLD_STORE = b"cold store".ljust(16, b"\0")
GROWTH_ROOM = b"growth room".ljust(16, b"\0")
DATA, ANNOUNCE, PROOF = 0x50, 0x01, 0x03


def cold_store():
    """The relay, with its three wires on and an address of its own people."""
    relay = haskumye.Relay(COLD_STORE)
    for port in (CABLE, NORTH, SOUTH):
        relay.set_port(port, True, haskumye.Mode.BOUNDARY, haskumye.LONGEST_PACKET)
    relay.add_local(SHELF)
    return relay


def announce(emission, more=0):
    """An announce of the desk with so many bytes of its own, and its destination. Nothing is signed here: the host's word is good."""
    payload = bytearray(b"\xde" * (148 + more))
    payload[79:84] = emission.to_bytes(5, "big")
    destination = haskumye.announced_destination(bytes(payload))
    return haskumye.write(haskumye.Parts(header=ANNOUNCE, destination=destination), bytes(payload)), destination


def data(destination, relay=COLD_STORE):
    """A count, which a relay is asked to carry."""
    return haskumye.write(haskumye.Parts(header=DATA, hops=1, relay=relay, destination=destination), b"line 7: 42 plants, entry 1")


def main(folder):
    desk, destination = announce(1)
    count = data(destination)
    receipt = haskumye.write(haskumye.Parts(header=PROOF, destination=haskumye.packet_hash(count)[:16]), bytes(64))
    day = [
        (1000, CABLE, True, desk),
        (1001, CABLE, True, desk),  # once more
        (1002, NORTH, False, count),
        (1003, NORTH, False, data(bytes(16))),  # to nobody known
        (1004, OFF, False, count),  # by a port that is off
        (1005, CABLE, False, receipt),
        (1006, NORTH, False, data(destination, GROWTH_ROOM)),  # for another relay
        (1007, SOUTH, False, b""),
        (1005, SOUTH, False, count),  # before the one judged last
        (1008, NORTH, False, data(SHELF)),
        (1009, SOUTH, False, announce(2)[0]),  # the host's word is no
        (1010, SOUTH, True, announce(3, more=333)[0]),  # too long once it were spread
        (1011, CABLE, True, announce(4)[0]),
    ]
    (folder / "tables").write_bytes(cold_store().save())
    (folder / "recording").write_bytes(haskumye.write_recording(day))


if __name__ == "__main__":
    main(pathlib.Path(sys.argv[1]))
