"""Recordings replayed one after another over one relay."""

from __future__ import annotations

from typing import Iterator, NamedTuple, Sequence

import haskumye
from haskumye import Kind

from . import files
from .failure import refused_file


class Recording(NamedTuple):
    """A recording that the library took."""

    name: str
    data: bytes

    @property
    def packets(self) -> int:
        return haskumye.recording_count(self.data)


class Event(NamedTuple):
    """A packet as it came in, and what the relay made of it."""

    recorded: haskumye.Recorded
    replayed: haskumye.Replayed


def read_recordings(names: Sequence[str]) -> list[Recording]:
    """The recordings of these names, all of them checked. One that is refused has the line of the replaying program, `refused` and the number."""
    return [Recording(name, checked(name, files.read(name))) for name in names]


def checked(name: str, data: bytes) -> bytes:
    try:
        haskumye.check_recording(data)
    except haskumye.Refused as refused:
        raise refused_file(name, refused, f"refused {refused.refusal.value}") from None
    return data


def replay(relay: haskumye.Relay, recording: Recording) -> Iterator[Event]:
    """Replays a recording: the relay is then as it was after these packets."""
    return (Event(*pair) for pair in zip(haskumye.entries(recording.data), relay.replay(recording.data)))


def sentence(replayed: haskumye.Replayed) -> str:
    """What became of a packet, for people: the library's sentence for a drop and its words for a refusal."""
    if replayed.kind == Kind.DROP:
        return haskumye.Drop(replayed.reason, replayed.clause, replayed.value).sentence
    if replayed.kind == Kind.REFUSED:
        return replayed.refusal.words
    if replayed.kind == Kind.DELIVER:
        return "it is for this box"
    if replayed.kind == Kind.KEPT:
        return "an announce is taken in, and nothing leaves"
    return f"{replayed.length} bytes leave"
