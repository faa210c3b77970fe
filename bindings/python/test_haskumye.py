"""The Python module through the library: each answer and refusal, the header's declarations and numbers, and the words of bindings/words."""

import ctypes
import os
import pathlib
import re
import subprocess
import sys
import unittest

import haskumye
from haskumye import (
    Announce,
    AnnounceRate,
    BadForm,
    Deliver,
    Drop,
    Forward,
    Kept,
    Kind,
    Link,
    Mode,
    NoWayOn,
    Parts,
    Path,
    Port,
    Reason,
    Refusal,
    Refused,
    Relay,
    SecondOpinion,
    Spread,
    Tally,
)

ROOT = pathlib.Path(__file__).resolve().parents[2]
OWN = bytes([0x0A] * 16)
DESK = bytes([0x2A] * 16)


def relay(ports=2):
    """A relay whose first ports are on."""
    made = Relay(OWN)
    for port in range(ports):
        made.set_port(port, True, Mode.BOUNDARY, haskumye.LONGEST_PACKET)
    return made


def announce(emission=1):
    """An announce, and the destination that it announces."""
    payload = bytearray([0x5A] * 148)
    payload[haskumye.ANNOUNCE_EMISSION : haskumye.ANNOUNCE_EMISSION + 5] = emission.to_bytes(5, "big")
    destination = haskumye.announced_destination(payload)
    return haskumye.write(Parts(header=haskumye.PACKET_ANNOUNCE, destination=destination), payload), destination


def data(destination, payload):
    """Data that asks the relay to carry it."""
    header = haskumye.HEADER_TYPE_2 | haskumye.HEADER_TRANSPORT | haskumye.PACKET_DATA
    return haskumye.write(Parts(header=header, relay=OWN, destination=destination), payload)


def drops():
    """A drop of each reason and clause."""
    clauses = {Reason.BAD_FORM: BadForm, Reason.NO_WAY_ON: NoWayOn}
    return [Drop(reason, clause) for reason in Reason for clause in clauses.get(reason, [None])]


class TestAnswers(unittest.TestCase):
    def test_deliver_and_duplicate(self):
        box = relay()
        box.add_local(DESK)
        packet = haskumye.write(Parts(destination=DESK), b"42 plants")
        self.assertEqual(box.packet(packet, 0, 1000), Deliver(b"42 plants"))
        self.assertEqual(box.packet(packet, 0, 1001), Drop(Reason.DUPLICATE))
        self.assertEqual(box.packet(data(DESK, b"43 plants"), 0, 1001), Deliver(b"43 plants"))
        self.assertEqual(box.tally, Tally(total=3, dropped=1, delivered=2))
        self.assertEqual(box.last_clock, 1001)

    def test_spread_forward_and_receipt_after_renumbering(self):
        box, (packet, destination) = relay(3), announce()
        spread = box.packet(packet, 1, 1, signed=True)
        self.assertEqual((spread.ports, haskumye.read(spread.packet, 500).relay), ((0, 2), OWN))
        count = data(destination, b"42 plants")
        answer = box.packet(count, 2, 2)
        self.assertEqual((answer.port, haskumye.payload(answer.packet)), (1, b"42 plants"))
        box.renumber([5, 6, 7, 0, 1, 2, 3, 4, *range(8, 16)])
        receipt = haskumye.write(Parts(header=haskumye.PACKET_PROOF, destination=haskumye.packet_hash(count)[:16]), bytes(64))
        self.assertEqual(box.packet(receipt, 6, 3).port, 7)

    def test_kept_and_not_signed(self):
        self.assertEqual(relay(1).packet(announce()[0], 0, 1, signed=True), Kept())
        self.assertEqual(relay(1).packet(announce()[0], 0, 1), Drop(Reason.NOT_SIGNED))

    def test_answers_print_as_document_01_writes_them(self):
        answers = [Drop(Reason.NOT_OURS), Deliver(b""), Forward(4, b""), Spread((1, 5), b""), Kept()]
        texts = ["drop 1: another relay is asked to carry it", "deliver", "forward 4", "spread 1 5", "kept"]
        self.assertEqual([str(answer) for answer in answers], texts)

    def test_what_a_drop_tells(self):
        box, (packet, destination) = relay(2), announce()
        cut, flagged = packet[:-1], bytes([packet[0] | haskumye.HEADER_CONTEXT_FLAG]) + packet[1:]
        self.assertEqual(box.packet(cut, 0, 1, signed=True), Drop(Reason.BAD_FORM, BadForm.ANNOUNCE_TOO_SHORT, 148))
        self.assertEqual(box.packet(flagged, 0, 1, signed=True), Drop(Reason.BAD_FORM, BadForm.ANNOUNCE_TOO_SHORT, 180))
        self.assertEqual(box.packet(data(destination, b"1"), 0, 1), Drop(Reason.NO_WAY_ON, NoWayOn.NO_PATH))
        box.packet(packet, 1, 1000, signed=True)
        dropped = box.packet(data(destination, b"2"), 0, 1000 + 604800)
        self.assertEqual(dropped, Drop(Reason.NO_WAY_ON, NoWayOn.ONLY_EXPIRED, 605800))
        self.assertEqual(dropped.text, "drop 6.3 605800")
        self.assertEqual(dropped.sentence, "no path to this destination: the last one ran out at 605800")
        self.assertEqual(str(box.packet(haskumye.write(Parts(destination=DESK)), 0, 605801)).split(":")[0], "drop 6.1")

    def test_texts_are_those_of_the_library(self):
        greatest, text = (1 << 41) - 1, ctypes.create_string_buffer(haskumye.TEXT_SIZE)
        for drop in drops():
            number = 1 | drop.reason << 8 | (drop.clause or 0) << 16
            if drop.clause is not None and "#" in drop.clause.words:
                drop, number = drop._replace(value=greatest), number | greatest << 20
            length = haskumye._library.haskumye_answer_text(number, text)
            self.assertEqual(text.raw, text.raw[:length].ljust(haskumye.TEXT_SIZE, b"\0"))
            self.assertEqual(text.raw[:length].decode("ascii"), drop.text)
            self.assertEqual(haskumye._drop(number), drop)

    def test_drops_that_the_library_never_answers(self):
        for number in (0x0001, 0x0301, 0x90301, 0x0601, 0x70601, 1 << 61 | 0x30601, 0x10201, 1 << 20 | 0x0201, 0x0E01, 0x1101):
            self.assertRaises(ValueError, haskumye._drop, number)

    def test_bytes_like_arguments(self):
        packet = haskumye.write(Parts(destination=bytearray(DESK)), memoryview(b"42 plants"))
        for given in (packet, bytearray(packet), memoryview(packet)):
            box = relay()
            box.add_local(memoryview(DESK))
            self.assertEqual(box.packet(given, 0, 1), Deliver(b"42 plants"))
            self.assertEqual(haskumye.payload(given), b"42 plants")
        self.assertRaises(TypeError, haskumye.read, "a text", 500)
        self.assertRaises(TypeError, haskumye.read, 19, 500)


class TestRefusals(unittest.TestCase):
    def refused(self, refusal, call, *arguments, **named):
        with self.assertRaises(Refused) as caught:
            call(*arguments, **named)
        self.assertEqual(caught.exception.refusal, refusal)
        self.assertEqual(str(caught.exception), f"refused {refusal.value}: {refusal.words}")

    def test_packet_calls(self):
        box, packet = relay(1), haskumye.write(Parts(destination=DESK))
        box.packet(packet, 0, 1000)
        before = (box.tables, box.tally)
        self.refused(Refusal.TOO_SHORT, box.packet, packet[:18], 0, 1000)
        self.refused(Refusal.TOO_LONG, box.packet, bytes(501), 0, 1000)
        self.refused(Refusal.ACCESS_CODE, box.packet, b"\x80" + packet[1:], 0, 1000)
        self.refused(Refusal.ARRIVAL_PORT, box.packet, packet, 1, 1000)
        self.refused(Refusal.ARRIVAL_PORT, box.packet, packet, (1 << 64) - 1, 1000)
        self.refused(Refusal.CLOCK, box.packet, packet, 0, 999)
        self.refused(Refusal.CLOCK, box.packet, packet, 0, haskumye.CLOCK_LIMIT)
        self.assertEqual((box.tables, box.tally), before)

    def test_settings(self):
        box = relay()
        for number in range(16):
            box.add_local(bytes([number] * 16))
        self.refused(Refusal.LOCAL_FULL, box.add_local, DESK)
        self.refused(Refusal.LOCAL_ADDRESS, box.add_local, bytes(16))
        self.refused(Refusal.LOCAL_ADDRESS, box.remove_local, DESK)
        self.refused(Refusal.SETTING, box.set_port, 16, True, Mode.BOUNDARY, 500)
        self.refused(Refusal.SETTING, box.set_port, 0, True, 3, 500)
        for size in (0, haskumye.SHORTEST_PACKET - 1, haskumye.LONGEST_PACKET + 1, 65536 + 255, (1 << 64) - 1):
            self.refused(Refusal.SETTING, box.set_port, 0, True, Mode.BOUNDARY, size)
            self.refused(Refusal.SETTING, haskumye.read, b"", size)
        self.refused(Refusal.SETTING, box.set_announce_rate, haskumye.TARGET_LIMIT + 1, 0, 0)
        self.refused(Refusal.SETTING, box.set_announce_rate, 0, haskumye.GRACE_LIMIT + 1, 0)
        self.refused(Refusal.SETTING, box.set_announce_rate, 0, 0, (1 << 64) - 1)
        self.assertEqual(box.announce_rate, AnnounceRate(0, 0, 0))
        self.refused(Refusal.MAP, box.renumber, [0] * 16)
        self.refused(Refusal.NO_LIVE_PATH, box.mark_path_unresponsive, DESK, 1)
        self.refused(Refusal.CLOCK, box.mark_path_unresponsive, DESK, haskumye.CLOCK_LIMIT)
        box.remove_local(bytes(16))

    def test_packets_and_tables(self):
        self.refused(Refusal.TOO_SHORT, haskumye.packet_hash, b"")
        self.refused(Refusal.TOO_LONG, haskumye.sha256, bytes(haskumye.LONGEST_MESSAGE + 1))
        self.refused(Refusal.TOO_LONG, haskumye.write, Parts(), bytes(482))
        self.refused(Refusal.ACCESS_CODE, haskumye.write, Parts(header=haskumye.HEADER_ACCESS_CODE))
        self.refused(Refusal.TABLES, haskumye.check_tables, b"")
        self.refused(Refusal.TABLES, Relay.from_tables, bytes(haskumye.TABLE_SIZE - 1))
        self.refused(Refusal.TABLES, Relay.from_tables, bytes(haskumye.TABLE_SIZE))  # zeros: no relay's ports carry nothing

    def test_numbers_that_do_not_cross(self):
        box, packet = relay(), haskumye.write(Parts())
        for wrong in (-1, 1 << 64):
            self.assertRaises(OverflowError, box.packet, packet, wrong, 1)
            self.assertRaises(OverflowError, box.packet, packet, 0, wrong)
            self.assertRaises(OverflowError, box.set_port, wrong, True, Mode.ROAMING, 500)
            self.assertRaises(OverflowError, box.set_port, 0, True, Mode.ROAMING, wrong)
            self.assertRaises(OverflowError, haskumye.read, packet, wrong)
            self.assertRaises(OverflowError, box.set_announce_rate, 0, wrong, 0)
            self.assertRaises(OverflowError, box.mark_path_unresponsive, DESK, wrong)
        self.assertRaises(OverflowError, haskumye.write, Parts(hops=256))
        self.assertRaises(TypeError, box.packet, packet, 0.5, 1)
        self.assertRaises(ValueError, box.add_local, bytes(15))
        self.assertRaises(ValueError, box.mark_path_unresponsive, bytes(17), 1)
        self.assertRaises(ValueError, box.renumber, range(15))


class TestPackets(unittest.TestCase):
    def test_parts_come_back(self):
        parts = Parts(0x52, 3, bytes([1] * 16), bytes([2] * 16), 4)
        packet = haskumye.write(parts, b"payload")
        self.assertEqual((haskumye.read(packet, len(packet)), haskumye.payload(packet), haskumye.payload_start(packet)), (parts, b"payload", 35))
        self.assertEqual(haskumye.payload(b""), b"")

    def test_hashes_lines_and_announces(self):
        request = haskumye.write(Parts(0x52, 9, bytes([1] * 16), bytes([2] * 16)), bytes([3] * 67))
        hashed = b"\x02" + bytes([2] * 16) + b"\x00" + bytes([3] * 67)
        self.assertEqual(haskumye.packet_hash(request), haskumye.sha256(hashed))
        self.assertEqual(haskumye.link_id(request), haskumye.sha256(hashed[:82])[:16])
        self.assertEqual(haskumye.line(b""), "refused 1")
        self.assertEqual(haskumye.line(request).split()[0], "type2")
        self.assertEqual((haskumye.least_announce(0x01), haskumye.least_announce(0x21)), (148, 180))
        self.assertEqual(haskumye.emission(bytes(5) + (1_700_000_000).to_bytes(5, "big")), 1_700_000_000)

    def test_tables_go_out_and_come_in_again(self):
        box = relay(5)
        box.packet(haskumye.write(Parts(destination=DESK)), 0, 77)
        again = Relay.from_tables(bytearray(box.tables), box.tally)
        self.assertEqual((again.tables, again.tally, again.last_clock), (box.tables, box.tally, 77))


class TestAnnounces(unittest.TestCase):
    PARTS = Announce(keys=bytes([10] * 64), name_hash=bytes([11] * 10), random=bytes([12] * 5), clock=0x0102030405, app_data=b"desk")
    RATCHET = bytes([13] * 32)
    SIGNATURE = bytes([14] * 64)

    def refused(self, refusal, **changes):
        """Both calls are refused so."""
        for call in (haskumye.announce_signing_bytes, lambda parts: haskumye.build_announce(parts, self.SIGNATURE)):
            with self.assertRaises(Refused) as raised:
                call(self.PARTS._replace(**changes))
            self.assertEqual(raised.exception.refusal, refusal)

    def test_parts_stand_where_they_should(self):
        for ratchet, header in ((b"", 0x01), (self.RATCHET, 0x21)):
            parts = self.PARTS._replace(ratchet=ratchet)
            front = parts.keys + parts.name_hash + parts.random + bytes([1, 2, 3, 4, 5]) + ratchet
            destination = haskumye.announced_destination(front)
            self.assertEqual(haskumye.announce_signing_bytes(parts), destination + front + b"desk")
            packet = haskumye.build_announce(parts, bytearray(self.SIGNATURE))
            self.assertEqual(haskumye.read(packet, 500), Parts(header=header, destination=destination))
            self.assertEqual(haskumye.payload(packet), front + self.SIGNATURE + b"desk")

    def test_another_relay_spreads_it(self):
        box, packet = relay(2), haskumye.build_announce(self.PARTS, self.SIGNATURE)
        self.assertEqual(box.packet(packet, 0, 1, signed=True).ports, (1,))

    def test_refusals(self):
        for length in (0, 1, 4, 6, 9, 11, 63, 65, 600):
            for part in ("keys", "name_hash", "random", "ratchet")[: 3 if length == 0 else 4]:
                self.refused(Refusal.ANNOUNCE_PART, **{part: bytes(length)})
            with self.assertRaises(Refused) as raised:
                haskumye.build_announce(self.PARTS, bytes(length))
            self.assertEqual(raised.exception.refusal, Refusal.ANNOUNCE_PART)
        self.refused(Refusal.ANNOUNCE_PART, keys=b"", clock=haskumye.CLOCK_LIMIT, app_data=bytes(334))
        self.refused(Refusal.CLOCK, clock=haskumye.CLOCK_LIMIT, app_data=bytes(334))
        self.refused(Refusal.ANNOUNCE_TOO_LONG, app_data=bytes(334))
        self.refused(Refusal.ANNOUNCE_TOO_LONG, ratchet=self.RATCHET, app_data=bytes(302))
        for ratchet, length in ((b"", 333), (self.RATCHET, 301)):
            packet = haskumye.build_announce(self.PARTS._replace(ratchet=ratchet, app_data=bytes(length)), self.SIGNATURE)
            self.assertEqual(len(packet), haskumye.LONGEST_PACKET)


class TestQuestions(unittest.TestCase):
    def test_ports_and_local_addresses(self):
        box = relay(2)
        box.set_port(3, True, Mode.ROAMING, 258)
        box.add_local(DESK)
        before = box.tables
        ports = [Port(True, Mode.BOUNDARY, 500), Port(False, Mode.BOUNDARY, 500), Port(True, Mode.ROAMING, 258)]
        self.assertEqual([box.port(port) for port in (1, 2, 3)], ports)
        self.assertEqual([box.local(place) for place in (0, 1, 16, (1 << 64) - 1)], [DESK, None, None, None])
        self.assertIsNone(box.port(16))
        self.assertEqual((box.last_clock, box.tables), (0, before))

    def test_a_path_and_its_receipt(self):
        box, (packet, destination) = relay(3), announce()
        box.packet(packet, 1, 1000, signed=True)
        path = Path(destination, 1, 0, destination, 1000 + 604800, 1000, 0, 0, False, 1)
        self.assertEqual((box.path(0), box.path(1), box.path(64)), (path, None, None))
        self.assertEqual([box.live_path(destination, clock) for clock in (1000, path.expiry - 1, path.expiry)], [path, path, None])
        self.assertIsNone(box.live_path(DESK, 1000))
        box.packet(data(destination, b"42 plants"), 2, 1001)
        self.assertEqual([box.live_returns(clock) for clock in (1001, 2800, 2801)], [1, 1, 0])
        self.assertEqual([box.live_hashes(clock) for clock in (1001, 1300, (1 << 64) - 1)], [2, 1, 0])
        box.renumber([5, 6, 7, 0, 1, 2, 3, 4, *range(8, 16)])
        self.assertEqual(box.path(0), path._replace(port=6))

    def test_the_announce_rate(self):
        """A sensor that announces itself every five seconds: let through while it has grace, then blocked, then heard again."""
        box = relay(2)
        box.set_announce_rate(target=60, grace=2, penalty=600)
        self.assertEqual(box.announce_rate, AnnounceRate(60, 2, 600))
        clocks = (1000, 1005, 1010, 1015, 1669, 1670)
        answers = [str(box.packet(announce(emission)[0], 0, clock, signed=True)) for emission, clock in enumerate(clocks, start=1)]
        dropped = "drop 15: this destination announces itself too often"
        self.assertEqual(answers, ["spread 1", "spread 1", "spread 1", dropped, dropped, "spread 1"])
        self.assertEqual(box.path(0)[5:8], (1670, 2, 1670))
        box.set_announce_rate(*AnnounceRate())
        self.assertEqual(box.path(0)[5:8], (1670, 2, 1670))

    def test_an_unresponsive_path(self):
        """A box dies, and comes back by another way before it announces itself anew: its path leads the new way only where it is marked."""
        box, (packet, destination) = relay(3), announce(5)
        box.packet(packet, 0, 1000, signed=True)
        path = box.path(0)
        self.assertEqual(box.packet(packet, 1, 1400, signed=True), Drop(Reason.REPLAY))
        box.mark_path_unresponsive(bytearray(destination), 1500)
        self.assertEqual((box.path(0), box.last_clock), (path._replace(unresponsive=True), 1500))
        older = announce(4)[0]
        self.assertEqual(box.packet(older, 1, 1500, signed=True), Drop(Reason.NOT_BETTER))
        self.assertIs(box.signature_matters(packet, 1, 1500), True)
        self.assertEqual(box.packet(packet, 1, 1500, signed=True).ports, (0, 2))
        self.assertEqual(box.path(0), path._replace(port=1, expiry=1500 + 604800, last_announce=1500))
        self.assertEqual(box.packet(packet, 1, 1501, signed=True), Drop(Reason.DUPLICATE))

    def test_a_port_that_carries_less(self):
        """A radio that takes 255 bytes: what comes in by it, what would leave by it, and what is spread."""
        box, (packet, destination) = relay(3), announce()
        box.packet(packet, 1, 1000, signed=True)
        box.set_port(1, True, Mode.BOUNDARY, 255)
        way = lambda payload: data(destination, bytes(payload))
        self.assertEqual(len(box.packet(way(236), 0, 1001).packet), 255)  # the last hop takes sixteen bytes off
        self.assertEqual(box.packet(way(237), 0, 1001), Drop(Reason.TOO_LONG_FOR_PORT))
        self.assertEqual(str(box.packet(way(238), 0, 1001)), "drop 16: it is too long for the port to leave by")
        with self.assertRaises(Refused) as caught:
            box.packet(way(221), 1, 1001)
        self.assertEqual(caught.exception.refusal, Refusal.TOO_LONG)
        box.set_port(1, True, Mode.BOUNDARY, 182)
        self.assertEqual(box.packet(announce(2)[0], 0, 1002, signed=True).ports, (2,))
        box.renumber(list(reversed(range(16))))
        self.assertEqual((box.port(14).size, box.port(1).size), (182, 500))

    def test_blobs(self):
        """The oldest of 65 announces is forgotten, so that it is no replay when it comes round again."""
        box = relay()
        for emission in range(1, 66):
            box.packet(announce(emission)[0], 0, 1000, signed=True)
            self.assertEqual(box.path(0).blob_count, min(emission, 64))
        for emission, reason in (1, Reason.NOT_BETTER), (2, Reason.REPLAY), (65, Reason.REPLAY):
            self.assertEqual(box.packet(announce(emission)[0], 0, 1300, signed=True), Drop(reason))

    def test_a_link(self):
        box, (packet, destination) = relay(3), announce()
        box.packet(packet, 1, 1000, signed=True)
        request = haskumye.write(Parts(0x52, 0, OWN, destination), bytes(64))
        self.assertEqual(box.packet(request, 2, 1001).port, 1)
        link = box.link(0)
        self.assertEqual(link[:6], (haskumye.link_id(request), 2, 1, 0, 0, False))
        self.assertGreater(link.expiry, 1001)
        self.assertIsNone(box.link(1))
        self.assertIsInstance(link, Link)

    def test_whether_the_signature_matters(self):
        box, (packet, destination) = relay(2), announce()
        self.assertIs(box.signature_matters(packet, 0, 1), True)
        box.packet(packet, 0, 1, signed=True)
        self.assertIs(box.signature_matters(packet, 0, 1), False)  # a duplicate
        self.assertIs(box.signature_matters(data(destination, b""), 1, 1), False)
        for refusal, arguments in ((1, (b"", 0, 1)), (4, (packet, 2, 1)), (5, (packet, 0, 0))):
            with self.assertRaises(Refused) as caught:
                box.signature_matters(*arguments)
            self.assertEqual(caught.exception.refusal, refusal)


class TestSecondOpinion(unittest.TestCase):
    """A relay and a second opinion, which are asked the same."""

    def setUp(self):
        self.engines = [Relay(OWN), SecondOpinion(OWN)]
        self.accepted = 0

    def asked(self, call, *arguments, **named):
        """What both answer, or the refusal by which both refuse."""
        answers = []
        for engine in self.engines:
            try:
                answers.append(getattr(engine, call)(*arguments, **named))
            except Refused as refused:
                answers.append(refused.refusal)
        self.accepted += not isinstance(answers[0], Refusal)
        if isinstance(answers[0], Drop) and answers[0].clause == NoWayOn.ONLY_EXPIRED:
            answers[0] = Drop(Reason.NO_WAY_ON, NoWayOn.NO_PATH)
        self.assertEqual(answers[0], answers[1])
        return answers[0]

    def test_answers_are_those_of_a_relay(self):
        packet, destination = announce()
        count = data(destination, b"42 plants")
        receipt = haskumye.write(Parts(header=haskumye.PACKET_PROOF, destination=haskumye.packet_hash(count)[:16]), bytes(64))
        for port in range(3):
            self.assertIsNone(self.asked("set_port", port, True, Mode.ROAMING, 300))
        self.assertEqual(self.asked("set_port", 16, True, Mode.BOUNDARY, 500), Refusal.SETTING)
        self.assertIsNone(self.asked("set_announce_rate", 60, 0, 100))
        self.assertIsNone(self.asked("add_local", DESK))
        self.assertEqual(self.asked("add_local", DESK), Refusal.LOCAL_ADDRESS)
        self.assertEqual(self.asked("packet", packet, 1, 10, signed=True).ports, (0, 2))
        self.assertEqual(self.asked("packet", announce(2)[0], 1, 20, signed=True), Drop(Reason.RATE_LIMITED))
        self.assertEqual(self.asked("packet", count, 2, 21).port, 1)
        self.assertIsNone(self.asked("renumber", [5, 6, 7, 0, 1, 2, 3, 4, *range(8, 16)]))
        self.assertEqual(self.asked("packet", receipt, 6, 22).port, 7)
        self.assertIsNone(self.asked("mark_path_unresponsive", destination, 23))
        self.assertEqual(self.asked("mark_path_unresponsive", DESK, 23), Refusal.NO_LIVE_PATH)
        self.assertEqual(self.asked("packet", haskumye.write(Parts(destination=DESK), b"7"), 5, 24), Deliver(b"7"))
        self.assertIsNone(self.asked("remove_local", DESK))
        self.assertEqual(self.asked("packet", count, 5, 30_000), Drop(Reason.NO_WAY_ON, NoWayOn.NO_PATH))
        self.assertEqual(self.asked("packet", bytes(18), 5, 30_000), Refusal.TOO_SHORT)

    def test_64_calls_are_listed(self):
        opinion = self.engines[1]
        for number in range(haskumye.LIST_LIMIT):
            self.assertIsNone(self.asked("set_port", number % 16, True, Mode.BOUNDARY, 500))
        self.assertEqual(self.accepted, haskumye.LIST_LIMIT)
        for call in (
            lambda: opinion.packet(bytes(18), 99, 0),
            lambda: opinion.set_port(99, True, Mode.BOUNDARY, 500),
            lambda: opinion.set_announce_rate(0, 0, 0),
            lambda: opinion.add_local(DESK),
            lambda: opinion.remove_local(DESK),
            lambda: opinion.mark_path_unresponsive(DESK, 0),
            lambda: opinion.renumber([0] * 16),
        ):
            with self.assertRaises(Refused) as raised:
                call()
            self.assertEqual(raised.exception.refusal, Refusal.LIST_FULL)


class TestRecordings(unittest.TestCase):
    def day(self):
        """A day's packets: an announce, data, and one that is too short."""
        packet, destination = announce()
        return [(1000, 1, True, packet), (1001, 0, False, data(destination, b"42 plants")), (1002, 0, False, b"noise")]

    def test_what_is_written_is_read(self):
        file = haskumye.write_recording(self.day())
        self.assertEqual(len(file), 4 + 13 * 3 + sum(len(packet) for *_, packet in self.day()))
        haskumye.check_recording(bytearray(file))
        self.assertEqual(list(haskumye.entries(file)), self.day())
        self.assertEqual(haskumye.write_recording(haskumye.entries(memoryview(file))), file)
        self.assertEqual(haskumye.recording_count(file), 3)
        self.assertEqual(haskumye.recording_entry(file, 2), haskumye.Recorded(*self.day()[2]))
        self.assertEqual(list(haskumye.entries(haskumye.write_recording([]))), [])

    def test_a_replay_is_the_packet_calls(self):
        file, live, replayed = haskumye.write_recording(self.day()), relay(3), relay(3)
        steps = list(replayed.replay(file))
        self.assertEqual([step.line for step in steps], ["1 spread 0 2", "2 forward 1", "3 refused 1"])
        self.assertEqual([(step.ports, step.length) for step in steps], [((0, 2), 183), ((1,), 28), ((), 0)])
        self.assertEqual(steps[2].refusal, Refusal.TOO_SHORT)
        for clock, port, signed, packet in self.day()[:2]:
            live.packet(packet, port, clock, signed)
        self.assertEqual((replayed.tables, replayed.tally), (live.tables, live.tally))

    def test_a_replayed_drop_tells_its_clause(self):
        late = (700000, 0, False, data(announce()[1], b"late"))
        step = list(relay(3).replay(haskumye.write_recording([*self.day(), late])))[3]
        self.assertEqual((step.line, step.reason, step.clause), ("4 drop 6.3 605800", Reason.NO_WAY_ON, NoWayOn.ONLY_EXPIRED))
        self.assertEqual((step.value, step.ports, step.length), (605800, (), 0))

    def refused(self, number, call, *arguments):
        with self.assertRaises(Refused) as caught:
            call(*arguments)
        self.assertEqual(caught.exception.refusal, number)

    def test_refusals(self):
        file, box = haskumye.write_recording(self.day()), relay(3)
        before = (box.tables, box.tally)
        for spoiled, number in ((file[:3], 20), (b"\x02" + file[1:], 21), (file[:-1], 22), (file[:10] + b"\x02" + file[11:], 23)):
            self.refused(number, haskumye.check_recording, spoiled)
            self.refused(number, haskumye.entries, spoiled)
            self.refused(number, box.replay, spoiled)
        self.refused(22, haskumye.recording_entry, file, 3)
        self.refused(22, box.replay_entry, file, 3)
        self.refused(22, box.replay_entry, file, (1 << 64) - 1)
        self.assertEqual((box.tables, box.tally), before)
        self.refused(5, haskumye.write_recording, [(haskumye.CLOCK_LIMIT, 0, False, bytes(70000))])
        self.refused(20, haskumye.write_recording, [(0, 0, False, bytes(70000))])
        self.refused(20, haskumye.write_recording, [(0, 0, False, bytes(haskumye.RECORDING_SIZE - 16))])
        self.assertRaises(OverflowError, haskumye.write_recording, [(0, 256, False, b"")])


class TestSaved(unittest.TestCase):
    def box(self):
        """A relay with something in it, and a tally that is another in each byte."""
        box, (packet, destination) = relay(3), announce()
        box.add_local(DESK)
        box.packet(packet, 1, 1000, signed=True)
        box.packet(data(destination, b"42 plants"), 2, 1001)
        return Relay.from_tables(box.tables, Tally(0x01020304, 0x05060708, 0x090A0B0C, 0x0D0E0F10, 0x11121314, 0xFFFFFFFF))

    def test_what_is_saved_loads(self):
        box = self.box()
        file = box.save()
        self.assertEqual((len(file), file[:4]), (haskumye.SAVED_SIZE, bytes([2, 5, 0, 8])))
        self.assertEqual(file[52:-24], box.tables)
        self.assertEqual(file[-24:], bytes(range(1, 21)) + bytes([0xFF] * 4))
        for given in (file, bytearray(file), memoryview(file)):
            again = Relay.load(given)
            self.assertEqual((again.tables, again.tally, again.save()), (box.tables, box.tally, file))
        self.assertEqual(haskumye._library.haskumye_saved_size(), haskumye.SAVED_SIZE)

    def test_a_loaded_relay_goes_on(self):
        box, again = self.box(), Relay.load(self.box().save())
        packet = haskumye.write(Parts(destination=DESK), b"43 plants")
        self.assertEqual(again.packet(packet, 0, 1001), box.packet(packet, 0, 1001))
        self.assertEqual((again.tables, again.tally), (box.tables, box.tally))
        with self.assertRaises(Refused) as caught:
            Relay.load(again.save()).packet(packet, 0, 1000)
        self.assertEqual(caught.exception.refusal, Refusal.CLOCK)

    def test_refusals(self):
        file = self.box().save()
        spoiled = lambda at, byte: file[:at] + bytes([byte]) + file[at + 1 :]
        files = [
            (20, b""),
            (20, file[:-1]),
            (20, file + bytes(32)),  # a seal that was not cut off
            (21, spoiled(0, 1)),
            (21, spoiled(1, 0)),
            (21, spoiled(1, 255)),
            (22, bytes([2, 5, 0, 0])),
            (22, spoiled(7, 53)),
            (24, spoiled(1, 1)),  # bodies longer than an older edition's
            (24, spoiled(1, 2)),
            (24, spoiled(1, 3)),
            (24, spoiled(1, 4)),
            (24, spoiled(89, 3)),
        ]
        for refusal, wrong in files:
            with self.assertRaises(Refused) as caught:
                Relay.load(wrong)
            self.assertEqual(caught.exception.refusal, refusal)

    def test_a_file_of_every_edition(self):
        files = sorted((ROOT / "tests/saved").glob("edition-*.saved"))
        self.assertEqual([path.read_bytes()[1] for path in files], list(range(1, self.box().save()[1] + 1)))
        for path in files:
            box = Relay.load(path.read_bytes())
            self.assertEqual(box.local(3), bytes([3] * 16))
            self.assertEqual((box.last_clock, box.tally.kept), (0x0102030405, 1))
            marked = [place for place in range(haskumye.PATH_COUNT) if box.path(place).unresponsive]
            self.assertEqual(marked, [15, 17, 18] if path.read_bytes()[1] >= 3 else [])
            self.assertEqual((box.path(5).blob_count, box.path(6).blob_count), (20, 64) if path.read_bytes()[1] >= 4 else (1, 16))
            sizes = {port: box.port(port).size for port in range(16) if box.port(port).size != haskumye.LONGEST_PACKET}
            self.assertEqual(sizes, {1: 19, 7: 400, 8: 255} if path.read_bytes()[1] >= 5 else {})


class TestSurveys(unittest.TestCase):
    refused = TestRefusals.refused

    def test_a_survey(self):
        """Recordings, refused ones among them, each from a fresh relay with the settings of this one, which knows more."""
        box, (packet, _) = relay(3), announce()
        box.packet(packet, 1, 1 << 39, signed=True)
        day = haskumye.write_recording([(1000, 1, True, packet), (1001, 1, True, packet), (1002, 9, True, packet)])
        survey = haskumye.Survey(box.save())
        self.assertEqual(len(survey.text().splitlines()), 32)
        survey.add(day)
        for file, refusal in (b"", Refusal.FILE_LENGTH), (b"\2" + day[1:], Refusal.FILE_KIND):
            self.refused(refusal, survey.add, file)
        for _ in range(13):
            survey.add(bytearray(day))
        for _ in range(2):
            self.refused(Refusal.SURVEY_FULL, survey.add, day)
        size = len(packet)
        lines = survey.text().splitlines()
        self.assertEqual(lines[:4], ["survey", "recording 2 refused 20", "recording 3 refused 21", "recording 17 refused 29"])
        self.assertEqual(lines[4], f"port 0 packets 0 in 0 out {14 * (size + 16)} dropped 0/1")
        self.assertEqual(lines[5], f"port 1 packets 28 in {28 * size} out 0 dropped 1/2")
        self.assertEqual(lines[20:22], ["reason 1 0", "reason 2 14"])
        self.refused(Refusal.FILE_LENGTH, haskumye.Survey, b"")


class TestAgreement(unittest.TestCase):
    """What the header declares, without its comments and inline functions."""

    @classmethod
    def setUpClass(cls):
        text = (ROOT / "include/haskumye.h").read_text()
        text = re.sub(r"/\*.*?\*/", " ", text, flags=re.DOTALL)
        cls.header = re.sub(r"^static inline .*?^}", " ", text, flags=re.DOTALL | re.MULTILINE)

    def test_functions(self):
        numbers = {
            "uint8_t": ctypes.c_uint8,
            "uint32_t": ctypes.c_uint32,
            "haskumye_written": ctypes.c_uint32,
            "uint64_t": ctypes.c_uint64,
            "haskumye_answer": ctypes.c_uint64,
            "haskumye_saved": ctypes.c_uint64,
            "size_t": ctypes.c_size_t,
            "void": None,
        }

        def crosses(argument):
            if "*" in argument:
                return ctypes.c_char_p if argument.startswith("const ") else ctypes.c_void_p
            return numbers[argument.split()[0]]

        declared = {}
        for result, name, arguments in re.findall(r"(\w+) (haskumye_\w+)\(([^()]*)\);", self.header):
            listed = [] if arguments == "void" else [" ".join(argument.split()) for argument in arguments.split(",")]
            declared[name] = (numbers[result], [crosses(argument) for argument in listed])
        self.assertGreater(len(declared), 10)
        self.assertEqual(haskumye.FUNCTIONS, declared)

    def test_constants(self):
        plain = re.findall(r"^#define HASKUMYE_(\w+) (?:UINT64_C\()?(0x[0-9a-f]+|\d+)\b", self.header, flags=re.MULTILINE)
        self.assertGreater(len(plain), 30)
        for name, number in plain:
            self.assertEqual(getattr(haskumye, name), int(number, 0), name)

    def test_enums(self):
        lists = (("REFUSAL_", Refusal), ("REASON_", Reason), ("BAD_FORM_", BadForm), ("NO_WAY_ON_", NoWayOn), ("MODE_", Mode), ("", Kind))
        for prefix, numbered in lists:
            name = prefix.lower().rstrip("_") or "kind"
            enum = re.search(rf"enum haskumye_{name} {{(.*?)}}", self.header, flags=re.DOTALL).group(1)
            cases = {name: int(number) for name, number in re.findall(rf"HASKUMYE_{prefix}(\w+) = (\d+)", enum) if name != "NONE"}
            self.assertEqual({case.name: case.value for case in numbered}, cases)

    def test_words(self):
        lines = [line for line in (ROOT / "bindings/words").read_text().splitlines() if not line.startswith("#")]
        words = lambda name, numbered: [f"{name} {case.value} {case.words}" for case in numbered]
        sentences = [f"sentence {drop.text.split()[1]} {drop.clause.words if drop.clause else drop.reason.sentence}" for drop in drops()]
        self.assertEqual(words("refusal", Refusal) + words("reason", Reason) + sentences + words("kind", Kind) + words("mode", Mode), lines)


class TestLoading(unittest.TestCase):
    def imported(self, library):
        """What importing the module with another library ends with."""
        environment = {**os.environ, "HASKUMYE_LIBRARY": str(library), "PYTHONPATH": str(ROOT / "bindings/python")}
        command = "try:\n import haskumye\nexcept ImportError as missing:\n print(missing)"
        return subprocess.run([sys.executable, "-c", command], env=environment, capture_output=True, text=True, check=True).stdout

    def test_a_missing_library_is_said_in_one_line(self):
        line = self.imported("/nowhere/libhaskumye.so")
        self.assertRegex(line, r"^/nowhere/libhaskumye.so cannot be loaded .*: run make, or let HASKUMYE_LIBRARY name the shared library\n$")

    def test_another_library_is_said_in_one_line(self):
        self.assertRegex(self.imported("libc.so.6"), r"^libc.so.6 is of another version than .*haskumye_version\n$")


if __name__ == "__main__":
    unittest.main()
