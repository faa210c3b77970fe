"""Haskumye, the proved deciding core of a Reticulum relay, for hosts in Python.

A Relay takes a packet, the port it came in by, the clock and the host's word on its signature, and says whether to drop, deliver, forward or spread it.
Signatures, access codes, framing and timers are the host's; docs/HOST.md tells them step by step, and include/haskumye.h has every call.

    import haskumye
    relay = haskumye.Relay(own=bytes(16))
    relay.set_port(3, True, haskumye.Mode.BOUNDARY, haskumye.LONGEST_PACKET)
    answer = relay.packet(packet, port=3, clock=1000)
    if isinstance(answer, haskumye.Forward):
        send(answer.port, answer.packet)

Packets, addresses and payloads are bytes-like. A refused call raises Refused and has changed nothing. A call holds Python's lock, so those on one relay
are made one at a time. The shared library, libhaskumye.so.6, is found in the repository's target/, below the prefix that this file is installed
in, or by the system; HASKUMYE_LIBRARY names another file.
"""

import ctypes
import enum
import operator
import os
import pathlib
from ctypes import c_char_p, c_size_t, c_uint8, c_uint32, c_uint64, c_void_p
from typing import NamedTuple, Optional, Union

VERSION = 6  # of the interface, as the header has it

# Sizes in bytes, and limits.
TABLE_SIZE = 103032
OUTPUT_SIZE = 500
SHORTEST_PACKET = 19
LONGEST_PACKET = 500
LONGEST_MESSAGE = 65535
TEXT_SIZE = 160
RECORDING_SIZE = 60000
ENTRY_WIDTH = 12
SAVED_SIZE = 103108
LONGEST_SAVED = 524332
LOG_SIZE = 32721
PORT_COUNT = 16
LOCAL_COUNT = 16
PATH_COUNT = 64
LINK_COUNT = 64
RETURN_COUNT = 512
HASH_COUNT = 1024
CLOCK_LIMIT = 1 << 40
RECORDING_LIMIT = 16
SURVEY_LINES = 49
COUNTER_COUNT = 79
REFUSAL_COUNT = 18
LIST_LIMIT = 64
TARGET_LIMIT = 86400
GRACE_LIMIT = 254
PENALTY_LIMIT = 604800
NONE = 255
VERIFY = 255
OFF = 0
ON = 1
NO_PORT = 0xFFFF

# The header byte, and the places in an announce's payload.
HEADER_ACCESS_CODE = 0x80
HEADER_TYPE_2 = 0x40
HEADER_CONTEXT_FLAG = 0x20
HEADER_TRANSPORT = 0x10
DESTINATION_KIND = 0x0C
DESTINATION_SINGLE = 0x00
DESTINATION_GROUP = 0x04
DESTINATION_PLAIN = 0x08
DESTINATION_LINK = 0x0C
PACKET_KIND = 0x03
PACKET_DATA = 0x00
PACKET_ANNOUNCE = 0x01
PACKET_LINK_REQUEST = 0x02
PACKET_PROOF = 0x03
CONTEXT_LINK_PROOF = 0xFF
ANNOUNCE_KEYS = 0
ANNOUNCE_NAME_HASH = 64
ANNOUNCE_BLOB = 74
ANNOUNCE_EMISSION = 79


class Words(enum.IntEnum):
    """A number of the header, with its words and, for some, a sentence: those of bindings/words, which the tests compare."""

    def __new__(cls, number, words, sentence=None):
        member = int.__new__(cls, number)
        member._value_, member.words, member.sentence = number, words, sentence
        return member


class Refusal(Words):
    """Why a call was refused."""

    TOO_SHORT = 1, "length under 19, or type 2 under 35"
    TOO_LONG = 2, "length over the port's size, or over 500 (hashing: over 65,535)"
    ACCESS_CODE = 3, "access code bit set"
    ARRIVAL_PORT = 4, "arrival port over 15, or off"
    CLOCK = 5, "clock 2^40 or more, or below the last accepted clock"
    OUTPUT = 6, "output buffer under 500 bytes"
    TABLES = 7, "tables of wrong size, or with bytes that no relay has"
    MAP = 8, "renumbering map not one-to-one on 0..15"
    SETTING = 9, "setting a port over 15, an unknown mode, a size outside 19 to 500 or an announce rate over its limit"
    LOCAL_FULL = 10, "adding a 17th local address"
    LOCAL_ADDRESS = 11, "adding a local address already there, or removing one not there"
    NO_LIVE_PATH = 12, "marking a destination that has no live path"
    FILE_LENGTH = 20, "file too long or shorter than its contents (saved: another length)"
    FILE_KIND = 21, "kind or edition"
    FILE_PLACE = 22, "offset, length, count or file end that breaks the rule"
    SIGNATURE_WORD = 23, "signature word"
    FILE_BODY = 24, "saved body of wrong size, or with bytes that no relay has"
    ROOM = 25, "too little room (loading: not the tables' size)"
    ANNOUNCE_PART = 26, "key, name, random, ratchet or signature of wrong length"
    ANNOUNCE_TOO_LONG = 27, "announce over 500 once built"
    LIST_FULL = 28, "the second opinion lists 64 calls already"
    SURVEY_FULL = 29, "a 17th recording of a survey"


class BadForm(Words):
    """The clause of test 3 that a packet's form breaks. Its words are a sentence, with # for the least payload length."""

    TYPE_TWO_PROOF = 1, "a proof that names a relay: no proof is of type 2"
    TYPE_TWO_OF_KIND_LINK = 2, "a packet of a link that names a relay: none is of type 2"
    ANNOUNCE_NOT_SINGLE = 3, "an announce whose destination is not of kind single"
    ANNOUNCE_TOO_SHORT = 4, "an announce whose payload is under # bytes"
    ANNOUNCE_OF_ANOTHER = 5, "an announce whose destination does not belong to its keys"
    REQUEST_OF_KIND_LINK = 6, "a link request whose destination is a link"
    REQUEST_TOO_SHORT = 7, "a link request whose payload is under # bytes"
    LINK_PROOF_LENGTH = 8, "a link proof whose payload is not # bytes, nor three more"


class NoWayOn(Words):
    """The case of test 6. Its words are a sentence, with # for the expiry."""

    NOT_ASKING = 1, "it asks no relay to carry it, and is not for this box"
    NO_PATH = 2, "no path to this destination: none is held"
    ONLY_EXPIRED = 3, "no path to this destination: the last one ran out at #"
    NO_LINK = 4, "no such link: it ran out, or never led through here"
    NOT_PROVED = 5, "this link is not proved yet"
    NO_RETURN = 6, "nobody waits for this receipt: it is late, or its packet did not go through here"


class Reason(Words):
    """Why a packet was dropped: the first test that held, with a sentence where it has no clauses."""

    NOT_OURS = 1, "not ours", "another relay is asked to carry it"
    DUPLICATE = 2, "duplicate", "the same packet came less than 300 s ago"
    BAD_FORM = 3, "bad form"
    OWN_ANNOUNCE = 4, "own announce", "an announce of this box's own came back"
    TOO_MANY_HOPS = 5, "hops 128 or more", "128 relays or more carried it"
    NO_WAY_ON = 6, "no way on"
    ALREADY_KNOWN = 7, "already known", "this link is known already"
    WRONG_SIDE = 8, "wrong side", "it came by another port, or with other hops, than its way has"
    NOT_SIGNED = 9, "signature word no", "its signature was not found good"
    REPLAY = 10, "replay", "this announce was taken in before"
    NOT_BETTER = 11, "not better", "an announce no newer than the one held, by no shorter way"
    PORT_OFF = 12, "port off", "the port to leave by is off"
    NO_ROOM = 13, "no room", "no room for another path or link"
    RATE_LIMITED = 15, "announced too often", "this destination announces itself too often"
    TOO_LONG_FOR_PORT = 16, "too long for the port", "it is too long for the port to leave by"


class Kind(Words):
    """What a packet call answers."""

    REFUSED = 0, "refused"
    DROP = 1, "drop"
    DELIVER = 2, "deliver"
    FORWARD = 3, "forward"
    SPREAD = 4, "spread"
    KEPT = 5, "kept"


class Mode(Words):
    """A port's mode, which decides how long a path through it lives."""

    BOUNDARY = 0, "boundary"
    ACCESS_POINT = 1, "access point"
    ROAMING = 2, "roaming"


class Refused(Exception):
    """A refused call. It changed nothing; `refusal` says why."""

    def __init__(self, number):
        self.refusal = Refusal(number)
        super().__init__(f"refused {number}: {self.refusal.words}")


class Drop(NamedTuple):
    """The packet goes no further. The clause is a BadForm or a NoWayOn where the reason has some. The value is the least payload length that would have
    served, or 0 where length is not the fault (3); or the greatest expiry of the destination's expired paths, in seconds (6.3); else 0."""

    reason: Reason
    clause: Union[BadForm, NoWayOn, None] = None
    value: int = 0

    @property
    def text(self):
        """The words of a replay's line: drop 6.3 22600."""
        clause = "" if self.clause is None else f".{self.clause.value}"
        told = isinstance(self.clause, BadForm) or self.clause is NoWayOn.ONLY_EXPIRED
        return f"drop {self.reason.value}{clause}" + (f" {self.value}" if told else "")

    @property
    def sentence(self):
        """A sentence for people, with the value filled in."""
        form = self.reason.sentence if self.clause is None else self.clause.words
        return form.replace("#", str(self.value))

    def __str__(self):
        return f"{self.text}: {self.sentence}"


class Deliver(NamedTuple):
    """It is for a local address: the payload, to be handed up."""

    payload: bytes

    def __str__(self):
        return "deliver"


class Forward(NamedTuple):
    """A packet leaves by one port."""

    port: int
    packet: bytes

    def __str__(self):
        return f"forward {self.port}"


class Spread(NamedTuple):
    """A packet leaves by each of some ports, rising."""

    ports: tuple
    packet: bytes

    def __str__(self):
        return " ".join(["spread", *map(str, self.ports)])


class Kept(NamedTuple):
    """An announce was taken in, and nothing leaves."""

    def __str__(self):
        return "kept"


class Parts(NamedTuple):
    """The parts of a packet. In type 1 the relay address reads as zeros, and writing ignores it."""

    header: int = 0
    hops: int = 0
    relay: bytes = bytes(16)
    destination: bytes = bytes(16)
    context: int = 0


class Announce(NamedTuple):
    """The parts of an announce of an own address: keys of 64 bytes (X25519, then Ed25519), a name hash of 10, five random bytes from the system, new for
    each announce, the emission time in seconds (wall-clock time that never goes back), a ratchet of 32 bytes or none, and the application's data."""

    keys: bytes
    name_hash: bytes
    random: bytes
    clock: int
    ratchet: bytes = b""
    app_data: bytes = b""


class Recorded(NamedTuple):
    """An entry of a recording: a packet as it came in. `signed` is the host's word on its signature."""

    clock: int
    port: int
    signed: bool
    packet: bytes


class Replayed(NamedTuple):
    """What a relay makes of an entry: its line, and the answer's kind with what goes with it. A replay does not give the bytes that leave."""

    line: str
    kind: Kind
    refusal: Optional[Refusal] = None
    reason: Optional[Reason] = None
    ports: tuple = ()
    length: int = 0
    clause: Union[BadForm, NoWayOn, None] = None
    value: int = 0


class Port(NamedTuple):
    """A port's settings. Its size is the longest packet that it carries, in bytes."""

    on: bool
    mode: Mode
    size: int


class AnnounceRate(NamedTuple):
    """How often a destination may announce itself: the least seconds between two announces, how many violations are let through, and the seconds that
    it is blocked for beyond the target. With a target of 0 there is no limit."""

    target: int = 0
    grace: int = 0
    penalty: int = 0


class Path(NamedTuple):
    """A path. It is live while the clock is below its expiry, in seconds. Announces of its destination are dropped by 15 while the clock is below
    `blocked_until`. It is `unresponsive` where the host marked it, and no announce was taken in since."""

    destination: bytes
    port: int
    hops: int
    next_hop: bytes
    expiry: int
    last_announce: int
    violations: int
    blocked_until: int
    unresponsive: bool
    blob_count: int


class Link(NamedTuple):
    """A link that leads through the relay. It is live while the clock is below its expiry, in seconds."""

    id: bytes
    asking: int
    answering: int
    taken_hops: int
    remaining_hops: int
    proved: bool
    expiry: int


class Tally(NamedTuple):
    """The packet calls since fresh, each count modulo 2^32: all that were not refused, and those of each answer."""

    total: int = 0
    dropped: int = 0
    delivered: int = 0
    forwarded: int = 0
    spread: int = 0
    kept: int = 0


_BYTES = [c_char_p, c_size_t]  # bytes that a call reads
_BUFFER = [c_void_p, c_size_t]  # a buffer that it may write
_GIVEN, _TAKEN = c_char_p, c_void_p  # a struct that it reads, and one that it may write
_ANNOUNCE = [*_BYTES, *_BYTES, *_BYTES, c_uint64, *_BYTES, *_BYTES]  # the parts of an announce

# As the header declares them: what a function returns, then its arguments.
FUNCTIONS = {
    "haskumye_version": (c_uint32, []),
    "haskumye_table_size": (c_size_t, []),
    "haskumye_fresh": (c_uint8, [*_BUFFER, _GIVEN]),
    "haskumye_check_tables": (c_uint8, [*_BYTES]),
    "haskumye_set_port": (c_uint8, [*_BUFFER, c_uint64, c_uint8, c_uint64, c_uint64]),
    "haskumye_set_announce_rate": (c_uint8, [*_BUFFER, c_uint64, c_uint64, c_uint64]),
    "haskumye_add_local": (c_uint8, [*_BUFFER, _GIVEN]),
    "haskumye_remove_local": (c_uint8, [*_BUFFER, _GIVEN]),
    "haskumye_mark_path_unresponsive": (c_uint8, [*_BUFFER, _GIVEN, c_uint64]),
    "haskumye_renumber": (c_uint8, [*_BUFFER, _GIVEN]),
    "haskumye_packet": (c_uint64, [*_BYTES, c_uint64, c_uint64, c_uint8, *_BUFFER, *_BUFFER, _TAKEN]),
    "haskumye_answer_text": (c_size_t, [c_uint64, _TAKEN]),
    "haskumye_opinion_fresh": (None, [_TAKEN, _GIVEN]),
    "haskumye_opinion_packet": (c_uint64, [*_BYTES, c_uint64, c_uint64, c_uint8, _TAKEN, *_BUFFER]),
    "haskumye_opinion_set_port": (c_uint8, [_TAKEN, c_uint64, c_uint8, c_uint64, c_uint64]),
    "haskumye_opinion_set_announce_rate": (c_uint8, [_TAKEN, c_uint64, c_uint64, c_uint64]),
    "haskumye_opinion_add_local": (c_uint8, [_TAKEN, _GIVEN]),
    "haskumye_opinion_remove_local": (c_uint8, [_TAKEN, _GIVEN]),
    "haskumye_opinion_mark_path_unresponsive": (c_uint8, [_TAKEN, _GIVEN, c_uint64]),
    "haskumye_opinion_renumber": (c_uint8, [_TAKEN, _GIVEN]),
    "haskumye_saved_size": (c_size_t, []),
    "haskumye_save": (c_uint64, [*_BYTES, _GIVEN, *_BUFFER]),
    "haskumye_load": (c_uint8, [*_BYTES, *_BUFFER, _TAKEN]),
    "haskumye_port": (c_uint8, [*_BYTES, c_uint64, _TAKEN]),
    "haskumye_announce_rate": (c_uint8, [*_BYTES, _TAKEN]),
    "haskumye_local": (c_uint8, [*_BYTES, c_uint64, _TAKEN]),
    "haskumye_path": (c_uint8, [*_BYTES, c_uint64, _TAKEN]),
    "haskumye_live_path": (c_uint8, [*_BYTES, _GIVEN, c_uint64, _TAKEN]),
    "haskumye_link": (c_uint8, [*_BYTES, c_uint64, _TAKEN]),
    "haskumye_live_returns": (c_uint8, [*_BYTES, c_uint64, _TAKEN]),
    "haskumye_live_hashes": (c_uint8, [*_BYTES, c_uint64, _TAKEN]),
    "haskumye_last_clock": (c_uint8, [*_BYTES, _TAKEN]),
    "haskumye_signature_matters": (c_uint8, [*_BYTES, c_uint64, c_uint64, *_BYTES, c_size_t]),
    "haskumye_read": (c_uint8, [*_BYTES, c_uint64, _TAKEN]),
    "haskumye_payload_start": (c_size_t, [*_BYTES]),
    "haskumye_write": (c_uint32, [_GIVEN, *_BYTES, *_BUFFER]),
    "haskumye_packet_hash": (c_uint8, [*_BYTES, _TAKEN]),
    "haskumye_link_id": (c_uint8, [*_BYTES, _TAKEN]),
    "haskumye_announced_destination": (None, [*_BYTES, _TAKEN]),
    "haskumye_least_announce": (c_size_t, [c_uint8]),
    "haskumye_emission": (c_uint64, [_GIVEN]),
    "haskumye_line": (c_size_t, [*_BYTES, _TAKEN]),
    "haskumye_sha256": (c_uint8, [*_BYTES, _TAKEN]),
    "haskumye_announce_signing_bytes": (c_uint32, [*_ANNOUNCE, *_BUFFER]),
    "haskumye_build_announce": (c_uint32, [*_ANNOUNCE, *_BYTES, *_BUFFER]),
    "haskumye_check_recording": (c_uint8, [*_BYTES]),
    "haskumye_recording_count": (c_size_t, [*_BYTES]),
    "haskumye_recording_entry": (c_uint8, [*_BYTES, c_uint64, _TAKEN]),
    "haskumye_write_recording": (c_uint32, [*_BYTES, *_BYTES, *_BUFFER]),
    "haskumye_replay_entry": (c_uint64, [*_BYTES, c_uint64, *_BUFFER, _TAKEN, _TAKEN]),
    "haskumye_survey_begin": (c_uint8, [*_BYTES, _TAKEN, _TAKEN, _TAKEN, _TAKEN]),
    "haskumye_survey_recording": (c_uint8, [*_BYTES, _GIVEN, _TAKEN, _TAKEN, _TAKEN]),
    "haskumye_survey_line": (c_size_t, [_GIVEN, _GIVEN, c_uint64, _TAKEN]),
}


def _places():
    """Where the shared library may be: the first that is there is taken, and the system looks for a name without a folder."""
    name, here = f"libhaskumye.so.{VERSION}", pathlib.Path(__file__).resolve()
    if "HASKUMYE_LIBRARY" in os.environ:
        return [os.environ["HASKUMYE_LIBRARY"]]
    above = [here.parents[2] / "target", here.parents[3] / "lib"] if len(here.parents) > 3 else []
    return [str(folder / name) for folder in above if (folder / name).exists()] + [name]


def _load():
    path = _places()[0]
    try:
        library = ctypes.PyDLL(path)
    except OSError as error:
        raise ImportError(f"{path} cannot be loaded ({error}): run make, or let HASKUMYE_LIBRARY name the shared library") from None
    try:
        for name, (result, arguments) in FUNCTIONS.items():
            function = getattr(library, name)
            function.restype, function.argtypes = result, arguments
    except AttributeError as error:
        raise ImportError(f"{path} is of another version than {__file__}: {error}") from None
    found = (library.haskumye_version(), library.haskumye_table_size())
    if found != (VERSION, TABLE_SIZE):
        raise ImportError(f"{path} is of interface {found[0]}, {__file__} of {VERSION}")
    return library


_library = _load()


def _bytes(data):
    """Bytes-like data as bytes."""
    return data if isinstance(data, bytes) else memoryview(data).tobytes()


def _exactly(data, length, what):
    data = _bytes(data)
    if len(data) != length:
        raise ValueError(f"{what} has {length} bytes, not {len(data)}")
    return data


def _number(value, bits=64):
    """A number that crosses: ctypes would cut off what is above the width."""
    value = operator.index(value)
    if not 0 <= value < 1 << bits:
        raise OverflowError(f"{value} is no number of {bits} bits")
    return value


def _done(number):
    if number:
        raise Refused(number)


def _written(number, output):
    """What a writing call wrote."""
    _done(number & 0xFFFF)
    return output.raw[: number >> 16]


def _asked(function, data, size, *given):
    """What a call on bytes, given these numbers, writes to a struct of so many bytes."""
    data, struct = _bytes(data), ctypes.create_string_buffer(size)
    _done(function(data, len(data), *given, struct))
    return struct.raw


def read(packet, size):
    """The parts of a packet no longer than a size, from SHORTEST_PACKET to LONGEST_PACKET. Refusals 9 for the size, 1, 2 and 3."""
    parts = _asked(_library.haskumye_read, packet, 35, _number(size))
    return Parts(parts[0], parts[1], parts[2:18], parts[18:34], parts[34])


def write(parts, payload=b""):
    """The packet of these parts. Refusals 2 and 3."""
    header, hops, relay, destination, context = parts
    relay, destination = _exactly(relay, 16, "an address"), _exactly(destination, 16, "an address")
    given = bytes([_number(header, 8), _number(hops, 8), *relay, *destination, _number(context, 8)])
    payload, output = _bytes(payload), ctypes.create_string_buffer(OUTPUT_SIZE)
    return _written(_library.haskumye_write(given, payload, len(payload), output, OUTPUT_SIZE), output)


def payload_start(packet):
    """Where the payload starts, at most the packet's length."""
    packet = _bytes(packet)
    return _library.haskumye_payload_start(packet, len(packet))


def payload(packet):
    """The payload; none where the packet is too short to have one."""
    return _bytes(packet)[payload_start(packet) :]


def packet_hash(packet):
    """The packet hash. A receipt for a packet is addressed to its first 16 bytes. Refusals 1, 2 and 3."""
    return _asked(_library.haskumye_packet_hash, packet, 32)


def link_id(packet):
    """The id of the link that a link request asks for. Refusals 1, 2 and 3."""
    return _asked(_library.haskumye_link_id, packet, 16)


def sha256(message):
    """SHA-256. Refusal 2 for a message over 65,535 bytes."""
    return _asked(_library.haskumye_sha256, message, 32)


def announced_destination(payload):
    """The destination that an announce's keys and name hash give: equal to the packet's own in an honest one."""
    return _asked(_library.haskumye_announced_destination, payload, 16)


def least_announce(header):
    """The least payload of an announce with this header: 148, or 180 with the context flag."""
    return _library.haskumye_least_announce(_number(header, 8))


def emission(blob):
    """The emission time, in seconds, of an announce's blob, its payload bytes 74 to 83."""
    return _library.haskumye_emission(_exactly(blob, 10, "a blob"))


def line(packet):
    """A packet as one line of words, or `refused` and the number."""
    packet, text = _bytes(packet), ctypes.create_string_buffer(TEXT_SIZE)
    length = _library.haskumye_line(packet, len(packet), text)
    return text.raw[:length].decode("ascii").rstrip("\n")


def _announce(announce):
    """The parts of an announce as the calls take them."""
    keys, name_hash, random, clock, ratchet, app_data = announce
    slices = [[data, len(data)] for data in map(_bytes, (keys, name_hash, random, ratchet, app_data))]
    return [*slices[0], *slices[1], *slices[2], _number(clock), *slices[3], *slices[4]]


def announce_signing_bytes(announce):
    """The bytes that the host signs with the Ed25519 key of an Announce. Refusals 26, 5 and 27, in this order."""
    room = ctypes.create_string_buffer(OUTPUT_SIZE)
    return _written(_library.haskumye_announce_signing_bytes(*_announce(announce), room, OUTPUT_SIZE), room)


def build_announce(announce, signature):
    """The packet of an Announce with the host's signature, 64 bytes, which is not verified. Refusals 26, 5 and 27, in this order."""
    signature, room = _bytes(signature), ctypes.create_string_buffer(OUTPUT_SIZE)
    return _written(_library.haskumye_build_announce(*_announce(announce), signature, len(signature), room, OUTPUT_SIZE), room)


def check_recording(file):
    """Raises Refused, by 20, 21, 22 or 23, where a file is no recording."""
    file = _bytes(file)
    _done(_library.haskumye_check_recording(file, len(file)))


def recording_count(file):
    """How many entries a file says it has; 0 where it is too short to say."""
    file = _bytes(file)
    return _library.haskumye_recording_count(file, len(file))


def recording_entry(file, index):
    """The entry at this place, counted from 0. Refusal 22 where the file does not have it."""
    file, entry = _bytes(file), (c_uint64 * 5)()
    _done(_library.haskumye_recording_entry(file, len(file), _number(index), entry))
    clock, port, signed, start, length = entry
    return Recorded(clock, port, signed == 1, file[start : start + length])


def entries(file):
    """An iterator over a recording's entries. Refusals 20, 21, 22 and 23, at the call."""
    file = _bytes(file)
    check_recording(file)
    return (recording_entry(file, index) for index in range(recording_count(file)))


def write_recording(recorded):
    """The recording of these packets, each a Recorded or the same four in a tuple. Refusal 5 for a clock of 2^40 or more, 20 for too many bytes."""
    recorded = [(clock, port, signed, _bytes(packet)) for clock, port, signed, packet in recorded]
    given = bytearray()
    for clock, port, signed, packet in recorded:
        # A packet over 65,535 bytes makes any file too long: entries and bodies then don't add up, which is refused by 20 as well.
        length = min(len(packet), 0xFFFF)
        given += _number(clock).to_bytes(8, "big") + bytes([_number(port, 8), 1 if signed else 0]) + length.to_bytes(2, "big")
    bodies, room = b"".join(packet for _, _, _, packet in recorded), ctypes.create_string_buffer(RECORDING_SIZE)
    return _written(_library.haskumye_write_recording(bytes(given), len(given), bodies, len(bodies), room, RECORDING_SIZE), room)


def check_tables(tables):
    """Raises Refused, by 7, where these bytes are no relay's tables."""
    tables = _bytes(tables)
    _done(_library.haskumye_check_tables(tables, len(tables)))


class Relay:
    """A relay: it owns its tables, its tally and the buffer for what leaves."""

    def __init__(self, own):
        """A fresh relay: its own address, every port off and boundary, clock 0, all else empty."""
        self._tables = ctypes.create_string_buffer(TABLE_SIZE)
        self._tally = (c_uint32 * 6)()
        self._output = ctypes.create_string_buffer(OUTPUT_SIZE)
        self._call(_library.haskumye_fresh, _exactly(own, 16, "an address"))

    @classmethod
    def from_tables(cls, tables, tally=Tally()):
        """The relay of tables and a tally that `tables` and `tally` gave. Refusal 7 where no relay has such tables."""
        check_tables(tables)
        relay = cls(bytes(16))
        relay._tables.raw = _bytes(tables)
        relay._tally[:] = [_number(count, 32) for count in tally]
        return relay

    @classmethod
    def load(cls, file):
        """The relay of a file that `save` gave, of this edition or an older one. What a host put behind it is cut off first. Refusals 20, 21, 22 and
        24, in this order."""
        relay, file = cls(bytes(16)), _bytes(file)
        _done(_library.haskumye_load(file, len(file), relay._tables, TABLE_SIZE, relay._tally))
        return relay

    def save(self):
        """The relay's tables and tally as a file, which has no checksum; docs/LAYOUT.md says what lies where."""
        room = ctypes.create_string_buffer(SAVED_SIZE)
        return _written(_library.haskumye_save(self._tables, TABLE_SIZE, bytes(self._tally), room, SAVED_SIZE), room)

    def _call(self, function, *arguments):
        _done(function(self._tables, TABLE_SIZE, *arguments))

    def packet(self, packet, port, clock, signed=False):
        """What becomes of a packet that came in by a port at a clock, in seconds: Drop, Deliver, Forward, Spread or Kept. `signed` is the host's
        word on its signature, which is read only for announces and link proofs."""
        packet = _bytes(packet)
        number = _library.haskumye_packet(
            packet,
            len(packet),
            _number(port),
            _number(clock),
            1 if signed else 0,
            self._tables,
            TABLE_SIZE,
            self._output,
            OUTPUT_SIZE,
            self._tally,
        )
        return _answer(number, packet, self._output)

    def replay_entry(self, file, index):
        """What becomes of a recording's entry, counted from 0; one that the core refuses has a line too. Refusal 22 where the file has no such entry."""
        file, text = _bytes(file), ctypes.create_string_buffer(TEXT_SIZE)
        number = _library.haskumye_replay_entry(file, len(file), _number(index), self._tables, TABLE_SIZE, self._tally, text)
        return _replayed(number, text.value.decode("ascii").rstrip("\n"))

    def replay(self, file):
        """An iterator that replays a recording, entry by entry. Refusals 20, 21, 22 and 23, at the call."""
        file = _bytes(file)
        check_recording(file)
        return (self.replay_entry(file, index) for index in range(recording_count(file)))

    def set_port(self, port, on, mode, size):
        """Sets a port on or off, its mode, and its size, the longest packet that it carries: SHORTEST_PACKET to LONGEST_PACKET bytes. Records that name
        the port stay. Refusal 9."""
        self._call(_library.haskumye_set_port, _number(port), ON if on else OFF, _number(mode), _number(size))

    def set_announce_rate(self, target, grace, penalty):
        """Sets how often every destination may announce itself, as AnnounceRate says. Paths stay, blocked ones too. Refusal 9 for a number over its
        limit."""
        self._call(_library.haskumye_set_announce_rate, _number(target), _number(grace), _number(penalty))

    def add_local(self, address):
        """Adds an address whose packets are delivered here. Refusal 11 where it is there already, 10 for a 17th."""
        self._call(_library.haskumye_add_local, _exactly(address, 16, "an address"))

    def remove_local(self, address):
        """Removes one. Refusal 11 where it is not there."""
        self._call(_library.haskumye_remove_local, _exactly(address, 16, "an address"))

    def mark_path_unresponsive(self, destination, clock):
        """Marks a destination's live path unresponsive: what was sent by it was not answered. Packets still go by it. Of the destination's announces, one
        emitted no earlier than the newest held is no longer dropped by 2, 10, 11 or 15, though it came before; the first that is taken in leads the path
        its way, and takes the mark off. The clock is one as packets have, and from then on the last accepted. Refusal 5 for the clock, 12 where no path
        of the destination is live at it."""
        self._call(_library.haskumye_mark_path_unresponsive, _exactly(destination, 16, "an address"), _number(clock))

    def renumber(self, ports):
        """Renumbers the ports while the relay runs: port i becomes ports[i]. Nothing is forgotten. Refusal 8 where they are not one-to-one on 0..15."""
        self._call(_library.haskumye_renumber, _exactly(bytes(ports), 16, "a map"))

    @property
    def tally(self):
        """The packet calls since fresh."""
        return Tally(*self._tally)

    @property
    def tables(self):
        """A copy of the tables' bytes; docs/LAYOUT.md says what lies where."""
        return self._tables.raw

    def _told(self, function, size, *arguments):
        """The bytes that a question tells, or None where there is none."""
        told = ctypes.create_string_buffer(size)
        number = function(self._tables, TABLE_SIZE, *arguments, told)
        if number == NONE:
            return None
        _done(number)
        return told.raw

    def _told_number(self, function, *arguments):
        number = c_uint64()
        _done(function(self._tables, TABLE_SIZE, *arguments, ctypes.byref(number)))
        return number.value

    def port(self, port):
        """A port's settings; None for a number over 15."""
        told = self._told(_library.haskumye_port, 4, _number(port))
        return told and Port(told[0] == ON, Mode(told[1]), int.from_bytes(told[2:], "big"))

    @property
    def announce_rate(self):
        """The announce rate's settings."""
        told = self._told(_library.haskumye_announce_rate, 12)
        return AnnounceRate(*(int.from_bytes(told[at : at + 4], "big") for at in (0, 4, 8)))

    def local(self, place):
        """The local address at a place, below LOCAL_COUNT; None where it is empty."""
        return self._told(_library.haskumye_local, 16, _number(place))

    def path(self, place):
        """The path at a place, below PATH_COUNT, live or not; None where it is empty."""
        return _path(self._told(_library.haskumye_path, 61, _number(place)))

    def live_path(self, destination, clock):
        """A destination's live path at a clock, or None."""
        return _path(self._told(_library.haskumye_live_path, 61, _exactly(destination, 16, "an address"), _number(clock)))

    def link(self, place):
        """The link at a place, below LINK_COUNT, live or not; None where it is empty."""
        told = self._told(_library.haskumye_link, 29, _number(place))
        return told and Link(told[:16], *told[16:20], told[20] == 1, int.from_bytes(told[21:], "big"))

    def live_returns(self, clock):
        """How many receipts are under way at a clock."""
        return self._told_number(_library.haskumye_live_returns, _number(clock))

    def live_hashes(self, clock):
        """How many packets are remembered at a clock."""
        return self._told_number(_library.haskumye_live_hashes, _number(clock))

    @property
    def last_clock(self):
        """The last accepted clock, 0 in a fresh relay. After a restart the clock goes on from there."""
        return self._told_number(_library.haskumye_last_clock)

    def signature_matters(self, packet, port, clock):
        """Whether `packet` with the same arguments would read `signed`: verify the signature only then. Else the answer is the same with either word.
        Refused as that call is."""
        packet = _bytes(packet)
        told = _library.haskumye_signature_matters(
            packet, len(packet), _number(port), _number(clock), self._tables, TABLE_SIZE, OUTPUT_SIZE
        )
        if told == VERIFY:
            return True
        _done(told)
        return False


class Survey:
    """What up to RECORDING_LIMIT recordings come to, by port and by reason. Each is replayed by a fresh relay with the same settings."""

    def __init__(self, settings):
        """By a saved relay, of which own address, ports, announce rate and local addresses count. Refusals 20, 21, 22 and 24, in this order."""
        self._start, self._work = ctypes.create_string_buffer(TABLE_SIZE), ctypes.create_string_buffer(TABLE_SIZE)
        self._counts, self._refusals = (c_uint64 * COUNTER_COUNT)(), (c_uint8 * REFUSAL_COUNT)()
        settings = _bytes(settings)
        _done(_library.haskumye_survey_begin(settings, len(settings), self._start, self._work, self._counts, self._refusals))

    def add(self, recording):
        """Replays a recording, and counts what it comes to. Refusal 29 for a 17th, which is not read; else 20, 21, 22 and 23. A refused one has a line
        in the text, and nothing is counted."""
        recording = _bytes(recording)
        _done(_library.haskumye_survey_recording(recording, len(recording), self._start, self._work, self._counts, self._refusals))

    def text(self):
        """The whole text: `survey`, then a line for each refused recording, for each port and for each test."""
        line, counts, refusals = ctypes.create_string_buffer(TEXT_SIZE), bytes(self._counts), bytes(self._refusals)
        lengths = (_library.haskumye_survey_line(counts, refusals, place, line) for place in range(SURVEY_LINES))
        return "".join(line.raw[:length].decode("ascii") for length in lengths)


class SecondOpinion:
    """A plain engine for checking, which lists the accepted calls since fresh, up to LIST_LIMIT, and has no tables. It is proved to answer as a Relay
    does from fresh on, what leaves too; where a relay drops by 6.3 it says 6.2. With 64 calls listed it refuses every call by 28, before all other
    refusals. It has no load, save or replay, no questions and no tally. Its calls are those of Relay, and refused as those are but for 28."""

    def __init__(self, own):
        """One that has listed nothing, of a relay with this address of its own."""
        self._log, self._output = ctypes.create_string_buffer(LOG_SIZE), ctypes.create_string_buffer(OUTPUT_SIZE)
        _library.haskumye_opinion_fresh(self._log, _exactly(own, 16, "an address"))

    def packet(self, packet, port, clock, signed=False):
        """What becomes of a packet, as Relay.packet tells it."""
        packet = _bytes(packet)
        log, output, word = self._log, self._output, 1 if signed else 0
        number = _library.haskumye_opinion_packet(packet, len(packet), _number(port), _number(clock), word, log, output, OUTPUT_SIZE)
        return _answer(number, packet, output)

    def set_port(self, port, on, mode, size):
        """Sets a port on or off, its mode and its size. Refusals 28 and 9."""
        _done(_library.haskumye_opinion_set_port(self._log, _number(port), ON if on else OFF, _number(mode), _number(size)))

    def set_announce_rate(self, target, grace, penalty):
        """Sets how often every destination may announce itself. Refusals 28 and 9."""
        _done(_library.haskumye_opinion_set_announce_rate(self._log, _number(target), _number(grace), _number(penalty)))

    def add_local(self, address):
        """Adds a local address. Refusals 28, 11 and 10."""
        _done(_library.haskumye_opinion_add_local(self._log, _exactly(address, 16, "an address")))

    def remove_local(self, address):
        """Removes one. Refusals 28 and 11."""
        _done(_library.haskumye_opinion_remove_local(self._log, _exactly(address, 16, "an address")))

    def mark_path_unresponsive(self, destination, clock):
        """Marks a destination's live path unresponsive. Refusals 28, 5 and 12."""
        _done(_library.haskumye_opinion_mark_path_unresponsive(self._log, _exactly(destination, 16, "an address"), _number(clock)))

    def renumber(self, ports):
        """Renumbers the ports: port i becomes ports[i]. Refusals 28 and 8."""
        _done(_library.haskumye_opinion_renumber(self._log, _exactly(bytes(ports), 16, "a map")))


def _path(told):
    if told is None:
        return None
    time = lambda at: int.from_bytes(told[at : at + 8], "big")
    return Path(told[:16], told[16], told[17], told[18:34], time(34), time(42), told[50], time(51), told[59] == 1, told[60])


def _fields(number):
    """The fields of a packet call's number: kind, detail, ports, length, and where a delivered payload starts. A drop has others behind the detail."""
    return number & 0xFF, number >> 8 & 0xFF, number >> 16 & 0xFFFF, number >> 32 & 0xFFFF, number >> 48


def _drop(number):
    """The drop that a packet call's number says."""
    reason, clause, value = Reason(number >> 8 & 0xFF), number >> 16 & 0xF, number >> 20
    clauses = {Reason.BAD_FORM: BadForm, Reason.NO_WAY_ON: NoWayOn}
    if reason in clauses and value < 1 << 41:
        return Drop(reason, clauses[reason](clause), value)
    if clause == value == 0:
        return Drop(reason)
    raise ValueError(f"the library answered {number:#x}, which this module does not know")


def _port_set(ports):
    return tuple(port for port in range(PORT_COUNT) if ports >> port & 1)


def _replayed(number, line):
    kind, detail, ports, length, _ = _fields(number)
    if (kind, detail) == (Kind.REFUSED, Refusal.FILE_PLACE):
        raise Refused(detail)
    if kind == Kind.REFUSED:
        return Replayed(line, Kind.REFUSED, refusal=Refusal(detail))
    if kind == Kind.DROP:
        return Replayed(line, Kind.DROP, **_drop(number)._asdict())
    return Replayed(line, Kind(kind), ports=(ports,) if kind == Kind.FORWARD else _port_set(ports), length=length)


def _answer(number, packet, output):
    """The answer that a packet call's number says; what leaves is at the output's start."""
    kind, detail, ports, length, start = _fields(number)
    if kind == Kind.REFUSED:
        raise Refused(detail)
    if kind == Kind.DROP:
        return _drop(number)
    if kind == Kind.DELIVER:
        return Deliver(packet[start:])
    if kind == Kind.FORWARD:
        return Forward(ports, output.raw[:length])
    if kind == Kind.SPREAD:
        return Spread(_port_set(ports), output.raw[:length])
    if kind == Kind.KEPT:
        return Kept()
    raise ValueError(f"the library answered {number:#x}, which this module does not know")
