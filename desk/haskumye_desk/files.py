"""A relay's files: read whole, and written whole or not at all."""

from __future__ import annotations

import os
import pathlib
import sys
from typing import NamedTuple, Sequence

import haskumye

from .failure import refused_file, told_name, wrong_use

STANDARD = "-"  # standard input, or standard output


class Heading(NamedTuple):
    """The first two bytes of a file, which docs/LAYOUT.md tells; whether they are good is the library's to say."""

    kind: int
    edition: int


SAVED = 2  # the kind of saved tables; a recording's is 1


def heading(data: bytes) -> Heading:
    """What a file says that it is; zeros where it is too short to say."""
    return Heading(*data[:2].ljust(2, b"\0"))


def read(name: str, most: int = haskumye.LONGEST_SAVED + 1) -> bytes:
    """A file's bytes, at most so many: whatever is longer than the longest file is refused by 20, however long."""
    try:
        if name == STANDARD:
            return sys.stdin.buffer.read(most)
        with open(name, "rb") as file:
            return file.read(most)
    except OSError as error:
        raise wrong_use(f"cannot read {told_name(name)}: {error.strerror}") from None


def read_text(name: str) -> str:
    """All text of a file, of which every byte is a character: what is no digit is told as such later."""
    return read(name, most=-1).decode("latin-1")


def at_most_one_standard(names: Sequence[str]) -> None:
    """Standard input can be read once."""
    if list(names).count(STANDARD) > 1:
        raise wrong_use("standard input, -, can be given once")


def load(name: str, result: str = "") -> haskumye.Relay:
    """The relay of a saved file. Where it is refused, the result has the refusal's number in it."""
    return relay_of(name, read(name), result)


def relay_of(name: str, data: bytes, result: str) -> haskumye.Relay:
    """The relay of a saved file's bytes."""
    try:
        return haskumye.Relay.load(data)
    except haskumye.Refused as refused:
        raise refused_file(name, refused, result.format(refused.refusal.value)) from None


def write(name: str, data: bytes) -> None:
    """Writes a file: a new one beside it is filled first, and takes its name once the disk holds it. Pipes and devices are written to as they are."""
    try:
        if name == STANDARD:
            sys.stdout.buffer.write(data)
            sys.stdout.buffer.flush()
        elif os.path.exists(name) and not os.path.isfile(name):
            pathlib.Path(name).write_bytes(data)
        else:
            _replace(pathlib.Path(os.path.realpath(name)), data)
    except BrokenPipeError:
        raise
    except OSError as error:
        raise wrong_use(f"cannot write {name}: {error.strerror}") from None


def _replace(path: pathlib.Path, data: bytes) -> None:
    new = path.with_name(f".{path.name}.{os.getpid()}")
    try:
        with open(new, "wb") as file:
            file.write(data)
            file.flush()
            os.fsync(file.fileno())
        os.replace(new, path)
    except BaseException:  # a signal too: it is raised where it comes
        new.unlink(missing_ok=True)
        raise
