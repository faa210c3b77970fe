"""The desk's relay in Python: counts come in, receipts go out, and the ports are renumbered in between.

Usage: desk.py, after `make`. HASKUMYE_LIBRARY names another shared library than target/libhaskumye.so.
"""

import pathlib
import sys

sys.path.insert(0, str(pathlib.Path(__file__).resolve().parent.parent / "bindings/python"))
try:
    import haskumye
except ImportError as missing:
    sys.exit(f"{missing}")

DESK = bytes([0x2A] * 16)


def receipt(packet):
    """A proof for the first 16 bytes of the packet's hash. Its payload, 64 bytes here of zeros, is the desk's signature."""
    parts = haskumye.Parts(header=haskumye.PACKET_PROOF, destination=haskumye.packet_hash(packet)[:16])
    return haskumye.write(parts, bytes(64))


def take_in(relay, packet, port, clock):
    """Judges a packet, and shows the answer; of a count that is delivered, the receipt too, which goes back by the port it came in by."""
    answer = relay.packet(packet, port, clock)
    if not isinstance(answer, haskumye.Deliver):
        print(f"port {port}: {answer}")
        return
    print(f"port {port}: deliver {answer.payload.decode()!r}")
    print(f"  receipt by port {port}: {haskumye.line(receipt(packet))}")


def main():
    relay = haskumye.Relay(own=bytes([0x0A] * 16))
    relay.add_local(DESK)
    for port in (0, 1):
        relay.set_port(port, True, haskumye.Mode.BOUNDARY, haskumye.LONGEST_PACKET)

    count = haskumye.Parts(header=haskumye.PACKET_DATA, destination=DESK)
    first = haskumye.write(count, b"line 7: 42 plants")
    take_in(relay, first, port=1, clock=1000)
    take_in(relay, first, port=1, clock=1001)

    relay.renumber([1, 0, *range(2, 16)])
    print("ports 0 and 1 renumbered")
    take_in(relay, haskumye.write(count, b"line 8: 17 plants"), port=0, clock=1002)
    try:
        relay.packet(first[:18], port=0, clock=1003)
    except haskumye.Refused as refusal:
        print(f"18 bytes: {refusal}")
    print("tally:", ", ".join(f"{name} {count}" for name, count in relay.tally._asdict().items()))


if __name__ == "__main__":
    main()
