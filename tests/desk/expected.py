"""What the pictures of the cold store's day show, in numbers: expected/ has them written down."""

from __future__ import annotations

import pathlib
import tempfile

from example_site import make_site

import haskumye
from haskumye_desk import files, gathered
from haskumye_desk.replaying import Event, read_recordings, replay

FOLDER = pathlib.Path(__file__).resolve().parent / "expected"
COUNTED = {"day": gathered.day, "drops": gathered.drops, "bytes": gathered.port_bytes}


def cold_store_day() -> list[Event]:
    with tempfile.TemporaryDirectory() as name:
        saved, names = cold_store(pathlib.Path(name) / "site")
        relay = files.load(saved)
        return [event for recording in read_recordings(names) for event in replay(relay, recording)]


def cold_store_survey() -> str:
    """The survey's text of the same recordings."""
    with tempfile.TemporaryDirectory() as name:
        saved, names = cold_store(pathlib.Path(name) / "site")
        survey = haskumye.Survey(files.read(saved))
        for recording in names:
            survey.add(files.read(recording))
        return survey.text()


def cold_store(folder: pathlib.Path) -> tuple[str, list[str]]:
    """The names of its saved file and its recordings, in a new folder."""
    make_site(folder)
    return str(folder / "cold-store.saved"), sorted(map(str, folder.glob("cold-store-*.recording")))


def numbers(name: str) -> list[str]:
    return (FOLDER / f"{name}.numbers").read_text().splitlines()


def accept() -> None:
    events = cold_store_day()
    shown = {name: gather(events).lines() for name, gather in COUNTED.items()}
    for name, lines in {**shown, "survey": cold_store_survey().splitlines()}.items():
        (FOLDER / f"{name}.numbers").write_text("".join(f"{line}\n" for line in lines))
