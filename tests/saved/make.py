"""How a saved file of each edition was made, and what it holds written down: edition-N.saved and edition-N.text in this folder.

Each pair was made once, by the program that brought the edition, through the library's own calls; later programs must load it for ever. So it is never
made again, and this refuses to: it stays to show how it was done, and makes the next edition's. Usage: make.py, after `make`.
"""

import pathlib
import sys

HERE = pathlib.Path(__file__).resolve().parent
sys.path.insert(0, str(HERE.parents[1] / "bindings/python"))
import haskumye
from haskumye import Mode, Parts

OWN = bytes(range(0xA0, 0xB0))
END = 0x0102030405  # the last clock: every byte of it is another
START = END - 24000
TALLY = haskumye.Tally(0x11121314, 0x21222324, 0x31323334, 0x41424344, 0x51525354, 0xFFFFFFFE)  # counts on from here; the last one runs over
WIRES = {0: Mode.BOUNDARY, 1: Mode.ACCESS_POINT, 2: Mode.ROAMING, 3: Mode.BOUNDARY, 9: Mode.ACCESS_POINT}
MAP = [(port + 5) % 16 for port in range(16)]


class Box:
    """A relay whose wires keep their numbers here, whatever its ports are called."""

    def __init__(self):
        self.relay, self.ports = haskumye.Relay(OWN), list(range(16))
        for wire, mode in WIRES.items():
            self.relay.set_port(wire, True, mode, 400 if mode == Mode.ROAMING else haskumye.LONGEST_PACKET)
        self.relay.set_port(12, False, Mode.ROAMING, haskumye.SHORTEST_PACKET)
        for number in range(haskumye.LOCAL_COUNT):
            self.relay.add_local(bytes([number] * 16))
        self.relay.remove_local(bytes([5] * 16))
        self.relay = haskumye.Relay.from_tables(self.relay.tables, TALLY)

    def give(self, packet, wire, clock, signed=False):
        return str(self.relay.packet(packet, self.ports[wire], START + clock, signed))

    def renumber(self):
        self.relay.renumber(MAP)
        self.ports = [MAP[port] for port in self.ports]


def keys(number):
    return bytes([number, 0xEE] * 32) + bytes([number] * 10)


def destination(number):
    return haskumye.announced_destination(keys(number))


def announce(number, emission, hops=0, relay=None, length=4):
    """An announce of a destination; with a relay, of type 2."""
    payload = keys(number) + bytes([emission % 256] * 5) + (1_700_000_000 + emission).to_bytes(5, "big") + bytes(64) + bytes(length)
    header = haskumye.PACKET_ANNOUNCE | (haskumye.HEADER_TYPE_2 | haskumye.HEADER_TRANSPORT if relay else 0)
    return haskumye.write(Parts(header, hops, relay or bytes(16), destination(number)), payload)


def carried(kind, number, payload):
    """A packet that asks the relay to carry it to a destination."""
    return haskumye.write(Parts(haskumye.HEADER_TYPE_2 | haskumye.HEADER_TRANSPORT | kind, 3, OWN, destination(number)), payload)


def proof(to, payload, hops=0, context=0, kind=0):
    return haskumye.write(Parts(haskumye.PACKET_PROOF | kind, hops, bytes(16), to, context), payload)


def fill_paths(box):
    """All 64 places; those by the roaming wire expire before the end. One has more blobs than it has room for, one more than it had in older editions; one
    grew too long to be spread; a 65th finds no room."""
    for number in range(haskumye.PATH_COUNT):
        relay = bytes([0xC0 + number % 16] * 16) if number % 3 == 0 else None
        answer = box.give(announce(number, 1, number % 7, relay), list(WIRES)[number % 5], number, True)
        assert answer.startswith("spread"), answer
    assert box.give(announce(64, 1), 0, 100, True).startswith("drop 13")
    for emission in range(2, 71):
        assert box.give(announce(6, emission), 1, 200 + emission, True).startswith("spread")
    for emission in range(2, 21):
        assert box.give(announce(5, emission), 0, 280, True).startswith("spread")
    for emission in range(2, 5):
        assert box.give(announce(8, emission, length=333), 3, 300 + emission, True) == "kept"
    assert box.give(announce(9, 2), 9, 400).startswith("drop 9")


def chatter(box):
    """Destinations that announce too often: 10 is blocked beyond the end, 11 is forgiven a violation, 13 was blocked and is heard again, and 14 has all the
    violations that are counted. Every byte of the settings that are left is another."""
    box.relay.set_announce_rate(target=100, grace=2, penalty=30000)
    for clock, number, answer in [
        *((clock, number, "spread") for clock in (1000, 1001, 1002) for number in (10, 11)),
        (1003, 10, "drop 15"),
        (1200, 11, "spread"),
    ]:
        assert box.give(announce(number, clock - 990), list(WIRES)[number % 5], clock, True).startswith(answer)
    box.relay.set_announce_rate(target=100, grace=0, penalty=50)
    for clock, answer in (1300, "spread"), (1301, "drop 15"), (1449, "drop 15"), (1450, "spread"):
        assert box.give(announce(13, clock - 1290), 3, clock, True).startswith(answer)
    box.relay.set_announce_rate(haskumye.TARGET_LIMIT, haskumye.GRACE_LIMIT, 0)
    for violations in range(1, 256):
        answer = "spread" if violations <= haskumye.GRACE_LIMIT else "drop 15"
        assert box.give(announce(14, 1 + violations), 9, 1500 + violations, True).startswith(answer)
    box.relay.set_announce_rate(target=0x010203, grace=0xFD, penalty=0x090807)


def mark(box):
    """Destinations whose paths were marked: 15 is still; 16 was revived by the announce that it holds, by more hops; 17's expires before the end; 18 heard
    an older announce since."""
    for number in range(15, 19):
        box.relay.mark_path_unresponsive(destination(number), START + 2000)
    assert box.give(announce(16, 1, hops=5), 1, 2000, True).startswith("spread")
    assert box.give(announce(18, 0, hops=4), 3, 2000, True).startswith("drop 11")


def narrow(box):
    """One wire carries less from now on: what is too long for it is not sent by it, and what comes in by it is refused."""
    box.relay.set_port(3, True, WIRES[3], 255)
    assert box.give(carried(haskumye.PACKET_DATA, 13, bytes(237)), 0, 2100).startswith("drop 16")
    assert box.give(carried(haskumye.PACKET_DATA, 13, bytes(236)), 0, 2100).startswith("forward")
    try:
        box.give(carried(haskumye.PACKET_DATA, 0, bytes(221)), 3, 2100)
    except haskumye.Refused as refused:
        assert refused.refusal == haskumye.Refusal.TOO_LONG
    else:
        raise AssertionError("a packet of 256 bytes came in by a wire that carries 255")


def live(number):
    """Whether a destination's path is not by the roaming wire."""
    return number % 5 != 2


def give_data(box, count, clock, every):
    """Data for the destinations whose paths live, in turn, with receipts for each seventh and something for a local address now and then."""
    numbers = [number for number in range(haskumye.PATH_COUNT) if live(number)]
    for index in range(count):
        number, now = numbers[index % len(numbers)], clock + index * every
        packet = carried(haskumye.PACKET_DATA, number, b"%d %d" % (clock, index))
        wire = list(WIRES)[(number + 1) % 5]
        assert box.give(packet, wire, now).startswith("forward")
        if index % 7 == 0:
            way_back = list(WIRES)[number % 5]
            assert box.give(proof(haskumye.packet_hash(packet)[:16], bytes(64)), way_back, now).startswith("forward")
        if index % 50 == 0:
            assert box.give(haskumye.write(Parts(destination=bytes([3] * 16)), b"%d" % now), 1, now) == "deliver"


def give_links(box, numbers, clock):
    """Asks for a link to each destination, all at once; every other one is proved."""
    for index, number in enumerate(numbers):
        request = carried(haskumye.PACKET_LINK_REQUEST, number, bytes([index, clock % 256]) * 32)
        assert box.give(request, list(WIRES)[(number + 1) % 5], clock).startswith("forward")
        if index % 2 == 0:
            id, hops = haskumye.link_id(request), box.relay.live_path(destination(number), 0).hops
            way_back = list(WIRES)[number % 5]
            answer = box.give(proof(id, bytes(96), hops, 0xFF, haskumye.DESTINATION_LINK), way_back, clock, True)
            assert answer.startswith("forward"), answer
            yield id, list(WIRES)[(number + 1) % 5]


def keep_alive(box, links, clock):
    for id, wire in links:
        keepalive = haskumye.write(Parts(haskumye.DESTINATION_LINK, 3, bytes(16), id, 0xFA), b"\xff")
        assert box.give(keepalive, wire, clock).startswith("forward")


def make():
    box = Box()
    fill_paths(box)
    chatter(box)
    mark(box)
    narrow(box)
    give_data(box, 600, 20300, 3)
    numbers = [number for number in range(haskumye.PATH_COUNT) if live(number)]
    proved = list(give_links(box, (numbers + numbers)[: haskumye.LINK_COUNT], 22600))
    box.renumber()
    give_data(box, 140, 22700, 2)
    keep_alive(box, proved[:8], 23250)
    give_data(box, 140, 23260, 2)
    keep_alive(box, proved[:5], 23850)
    give_data(box, 20, 23960, 2)
    list(give_links(box, numbers[:6], 23999))
    assert box.give(haskumye.write(Parts(destination=bytes([4] * 16)), b"the last one"), 0, 24000) == "deliver"
    return box.relay


# ---- what a relay's tables hold, line by line, as docs/LAYOUT.md has them


def number_of(data):
    return int.from_bytes(data, "big")


def records(tables, at, count, width):
    """The used records of a table: place and bytes behind the mark."""
    for place in range(count):
        record = tables[at + place * width : at + (place + 1) * width]
        if record[0] == 1:
            yield place, record[1:]


def lines(relay):
    tables = relay.tables
    yield f"own {tables[:16].hex()}"
    yield f"clock {number_of(tables[16:24])}"
    if any(tables[24:36]):
        yield f"rate target {number_of(tables[24:28])} grace {number_of(tables[28:32])} penalty {number_of(tables[32:36])}"
    for port in range(16):
        on, mode, *size = tables[36 + 4 * port : 40 + 4 * port]
        later = "" if number_of(size) == haskumye.LONGEST_PACKET else f" size {number_of(size)}"
        yield f"port {port} on {on} mode {mode}{later}"
    for place, data in records(tables, 100, 16, 17):
        yield f"local {place} {data.hex()}"
    for place, data in records(tables, 372, 64, 702):
        way = f"path {place} {data[:16].hex()} port {data[16]} hops {data[17]} next {data[18:34].hex()} expiry {number_of(data[34:42])}"
        later = {"last": number_of(data[42:50]), "violations": data[50], "blocked": number_of(data[51:59]), "unresponsive": data[59]}
        blobs = [data[61 + 10 * i : 71 + 10 * i].hex() for i in range(data[60])]
        yield " ".join([way, *(f"{name} {number}" for name, number in later.items() if number), "blobs", *blobs])
    for place, data in records(tables, 45300, 64, 30):
        sides = f"asking {data[16]} answering {data[17]} taken {data[18]} remaining {data[19]} proved {data[20]}"
        yield f"link {place} {data[:16].hex()} {sides} expiry {number_of(data[21:])}"
    yield f"returns next {number_of(tables[47220:47222])}"
    for place, data in records(tables, 47222, 512, 27):
        yield f"return {place} {data[:16].hex()} arrival {data[16]} leaving {data[17]} expiry {number_of(data[18:])}"
    yield f"hashes next {number_of(tables[61046:61048])}"
    for place, data in records(tables, 61048, 1024, 41):
        yield f"hash {place} {data[:32].hex()} expiry {number_of(data[32:])}"
    yield "tally " + " ".join(f"{name} {count}" for name, count in relay.tally._asdict().items())


def main():
    relay = make()
    file = relay.save()
    saved, text = (HERE / f"edition-{file[1]}.{kind}" for kind in ("saved", "text"))
    if saved.exists():
        sys.exit(f"{saved.name} is there, and is never made again")
    saved.write_bytes(file)
    text.write_text("".join(line + "\n" for line in lines(relay)))
    clock = relay.last_clock
    print(f"{saved.name}: at clock {clock} {relay.live_returns(clock)} receipts under way, {relay.live_hashes(clock)} packets remembered")


if __name__ == "__main__":
    main()
