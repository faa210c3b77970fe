"""What a box keeps over a power cut, and the sealed file that keeps it: state.c in Python, with the same file byte for byte.

docs/HOST.md, section 10, tells why. `save_state` saves in a folder, `load_state` loads what was saved there last.
"""

import os
import pathlib
import sys
from typing import NamedTuple

sys.path.insert(0, str(pathlib.Path(__file__).resolve().parents[1] / "bindings/python"))
import haskumye

SAVED = "relay.saved"
BEING_SAVED = "relay.saved.new"

# The file: what haskumye.Relay.save gives, then the box's own (last emission, big-endian, and wires), then the seal.
NAME_SIZE = 16
OWN_SIZE = 8 + haskumye.PORT_COUNT * NAME_SIZE
SEAL_SIZE = 32


class State(NamedTuple):
    """What belongs together: the same tables over other wires send receipts out by the wrong radio."""

    relay: haskumye.Relay
    last_emission: int = 0  # of the last announce of the box's own
    wires: tuple = (b"",) * haskumye.PORT_COUNT  # the wire at each port, by a name that stays, such as a serial number


class NotWhole(Exception):
    """The file is there, and is not as it was saved."""


def seal_of(data):
    """A call hashes at most 65,535 bytes: the seal is the digest of the digests of such pieces, in their order."""
    pieces = range(0, len(data), haskumye.LONGEST_MESSAGE)
    return haskumye.sha256(b"".join(haskumye.sha256(data[at : at + haskumye.LONGEST_MESSAGE]) for at in pieces))


def _name(wire):
    if len(wire) > NAME_SIZE:
        raise ValueError(f"a wire's name has at most {NAME_SIZE} bytes: {wire!r}")
    return wire.ljust(NAME_SIZE, b"\0")


def _file(state):
    own = state.last_emission.to_bytes(8, "big") + b"".join(map(_name, state.wires))
    if len(own) != OWN_SIZE:
        raise ValueError(f"there are {haskumye.PORT_COUNT} wires, one for each port")
    data = state.relay.save() + own
    return data + seal_of(data)


def _write_all(descriptor, data):
    while data:
        data = data[os.write(descriptor, data) :]


def _replace_saved(folder, data):
    """The disk holds all of the new file before it takes the saved one's name, and the new name before this returns."""
    descriptor = os.open(BEING_SAVED, os.O_WRONLY | os.O_CREAT | os.O_TRUNC | os.O_CLOEXEC, 0o600, dir_fd=folder)
    try:
        _write_all(descriptor, data)
        os.fsync(descriptor)
    finally:
        os.close(descriptor)
    os.rename(BEING_SAVED, SAVED, src_dir_fd=folder, dst_dir_fd=folder)
    os.fsync(folder)


def save_state(folder, state):
    """Saves a state in a folder. Where it raises OSError, or the power fails, what was saved before is there."""
    data = _file(state)
    folder = os.open(folder, os.O_RDONLY | os.O_DIRECTORY | os.O_CLOEXEC)
    try:
        _replace_saved(folder, data)
    finally:
        os.close(folder)


def load_state(folder):
    """What was saved in a folder last, or None. NotWhole: it isn't as it was saved. haskumye.Refused, by 21: it is whole, and of an edition that this
    library doesn't know, so that a newer program saved it."""
    try:
        data = (pathlib.Path(folder) / SAVED).read_bytes()
    except FileNotFoundError:
        return None
    data, seal = data[:-SEAL_SIZE], data[-SEAL_SIZE:]
    if len(data) < OWN_SIZE or seal_of(data) != seal:
        raise NotWhole(folder)
    # Cut off from behind: what is before it may be of an older edition, and of another length.
    saved, own = data[:-OWN_SIZE], data[-OWN_SIZE:]
    names = (own[at : at + NAME_SIZE].rstrip(b"\0") for at in range(8, OWN_SIZE, NAME_SIZE))
    return State(haskumye.Relay.load(saved), int.from_bytes(own[:8], "big"), tuple(names))
