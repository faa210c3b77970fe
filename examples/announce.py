"""The desk announces itself in Python, with a real Ed25519 (OpenSSL's libcrypto), and a relay elsewhere verifies the announce, takes it in and spreads it.

Usage: announce.py, after `make`. It prints what announce.c prints. Seeds and random bytes are fixed for that: a box keeps its seeds secret, and takes
the random bytes from os.urandom.
"""

import ctypes
import ctypes.util
import pathlib
import sys
from ctypes import byref, c_char_p, c_int, c_size_t, c_void_p, create_string_buffer

sys.path.insert(0, str(pathlib.Path(__file__).resolve().parent.parent / "bindings/python"))
try:
    import haskumye
    crypto = ctypes.CDLL(ctypes.util.find_library("crypto") or "libcrypto.so")
except (ImportError, OSError) as missing:
    sys.exit(f"{missing}")

X25519, ED25519 = 1034, 1087  # EVP_PKEY_X25519 and EVP_PKEY_ED25519
DESK, ROOM, CLOCK = 1, 2, 1000  # the relay's ports and its clock

# What libcrypto's functions return, then their arguments.
for function, result, arguments in (
    ("EVP_PKEY_new_raw_private_key", c_void_p, [c_int, c_void_p, c_char_p, c_size_t]),
    ("EVP_PKEY_new_raw_public_key", c_void_p, [c_int, c_void_p, c_char_p, c_size_t]),
    ("EVP_PKEY_get_raw_public_key", c_int, [c_void_p, c_void_p, c_void_p]),
    ("EVP_PKEY_free", None, [c_void_p]),
    ("EVP_MD_CTX_new", c_void_p, []),
    ("EVP_MD_CTX_free", None, [c_void_p]),
    ("EVP_DigestSignInit", c_int, [c_void_p] * 5),
    ("EVP_DigestSign", c_int, [c_void_p, c_void_p, c_void_p, c_char_p, c_size_t]),
    ("EVP_DigestVerifyInit", c_int, [c_void_p] * 5),
    ("EVP_DigestVerify", c_int, [c_void_p, c_char_p, c_size_t, c_char_p, c_size_t]),
):
    getattr(crypto, function).restype, getattr(crypto, function).argtypes = result, arguments


class Key:
    """A key of libcrypto."""

    def __init__(self, key):
        if not key:
            raise ValueError("libcrypto takes no such key")
        self.key = key

    def __del__(self):
        crypto.EVP_PKEY_free(getattr(self, "key", None))

    @classmethod
    def of_seed(cls, kind, seed):
        return cls(crypto.EVP_PKEY_new_raw_private_key(kind, None, seed.ljust(32, b"\0"), 32))

    def public(self):
        room, length = create_string_buffer(32), c_size_t(32)
        if crypto.EVP_PKEY_get_raw_public_key(self.key, room, byref(length)) != 1:
            raise ValueError("libcrypto gives no public key")
        return room.raw

    def sign(self, message):
        room, length, context = create_string_buffer(64), c_size_t(64), crypto.EVP_MD_CTX_new()
        ready = crypto.EVP_DigestSignInit(context, None, None, None, self.key)
        done = ready == 1 and crypto.EVP_DigestSign(context, room, byref(length), message, len(message))
        crypto.EVP_MD_CTX_free(context)
        if done != 1:
            raise ValueError("libcrypto does not sign")
        return room.raw


def verified(public, message, signature):
    key, context = Key(crypto.EVP_PKEY_new_raw_public_key(ED25519, None, public, 32)), crypto.EVP_MD_CTX_new()
    ready = crypto.EVP_DigestVerifyInit(context, None, None, None, key.key)
    good = ready == 1 and crypto.EVP_DigestVerify(context, signature, 64, message, len(message)) == 1
    crypto.EVP_MD_CTX_free(context)
    return good


def signed_well(packet):
    """Whether an announce that came in is signed well. The parts are the packet's own; its destination is not among them, since the core itself tests
    that it belongs to the keys."""
    payload, header = haskumye.payload(packet), packet[0]
    if len(payload) < haskumye.least_announce(header):
        return False
    keys, name_hash, blob = payload[:64], payload[64:74], payload[74:84]
    behind = 116 if header & haskumye.HEADER_CONTEXT_FLAG else 84
    ratchet, signature, app_data = payload[84:behind], payload[behind : behind + 64], payload[behind + 64 :]
    parts = haskumye.Announce(keys, name_hash, blob[:5], haskumye.emission(blob), ratchet, app_data)
    return verified(keys[32:], haskumye.announce_signing_bytes(parts), signature)


def take_in(relay, title, packet):
    """The relay takes a packet in by the desk's port. It verifies only what the core asks for."""
    asked = relay.signature_matters(packet, DESK, CLOCK)
    word = asked and signed_well(packet)
    answer = relay.packet(packet, DESK, CLOCK, signed=word)
    found = "not asked for" if not asked else "right" if word else "wrong"
    told = f"{title}: signature {found}, "
    if isinstance(answer, haskumye.Spread):
        print(f"{told}spread{' by port 2' if ROOM in answer.ports else ''}")
        print(f"  {haskumye.line(answer.packet)}")
    else:
        print(f"{told}drop {answer.reason.value}, {answer.reason.words}")


def main():
    encrypting, desk = Key.of_seed(X25519, b"the desk, encrypting"), Key.of_seed(ED25519, b"the desk, signing")
    other = Key.of_seed(ED25519, b"somebody else")
    parts = haskumye.Announce(
        keys=encrypting.public() + desk.public(),
        name_hash=haskumye.sha256(b"counting.desk")[:10],
        random=bytes([0x5A, 1, 2, 3, 4]),
        clock=1700000000,
        app_data=b"Desk",
    )
    signing = haskumye.announce_signing_bytes(parts)
    announce, wrong = (haskumye.build_announce(parts, key.sign(signing)) for key in (desk, other))
    print(f"the desk signs {len(signing)} bytes, and sends {len(announce)}:\n  {haskumye.line(announce)}")

    relay = haskumye.Relay(own=b"cold store".ljust(16, b"\0"))
    for port in (DESK, ROOM):
        relay.set_port(port, True, haskumye.Mode.BOUNDARY, haskumye.LONGEST_PACKET)
    take_in(relay, "signed by another key", wrong)
    take_in(relay, "signed by the desk", announce)
    take_in(relay, "the same again", announce)


if __name__ == "__main__":
    main()
