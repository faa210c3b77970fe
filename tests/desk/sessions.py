"""Sessions: command lines at the example site, as a person types them, with what each prints and its status.

A file of sessions/ is a story in a folder of its own, which has the site's files. `$` begins a command line; below it `|` begins a line of standard output,
`!` one of standard error, `=` the status where it is not 0. All else is comment. The blocks of docs/DESK.md are a story too, of standard output alone.
"""

from __future__ import annotations

import concurrent.futures
import pathlib
import shutil
import subprocess
import tempfile
from typing import NamedTuple

from example_site import ROOT, make_site, surroundings

SESSIONS = pathlib.Path(__file__).resolve().parent / "sessions"
PAGE = ROOT / "docs/DESK.md"
COMMAND, MARKS = "$ ", ("|", "!", "=")
DAMAGED = ["= damaged"]


class Line(NamedTuple):
    """A command line or a comment, and what stands below a command line."""

    text: str
    expected: list[str]


class Outcome(NamedTuple):
    """How many command lines agreed, what differed, and the story as it went."""

    passed: int
    differences: list[str]
    printed: str


def read(path: pathlib.Path) -> list[Line]:
    lines: list[Line] = []
    for text in path.read_text().splitlines():
        if text.startswith(MARKS):
            lines[-1].expected.append(text)
        else:
            lines.append(Line(text, []))
    return lines


def read_page(path: pathlib.Path) -> list[Line]:
    """The command lines in the page's blocks of text, behind the one that the page begins with."""
    lines, inside = [Line("$ haskumye replay cold-store.saved cold-store-*.recording --save evening.saved >day.lines", [])], False
    for text in path.read_text().splitlines():
        if text.startswith("```"):
            inside = text.startswith("```text ")
        elif inside and text.startswith(COMMAND):
            lines.append(Line(text, []))
        elif inside:
            lines[-1].expected.append(f"| {text}".rstrip())
    return lines


def printed(command: str, folder: pathlib.Path, environment: dict[str, str]) -> list[str]:
    """What a command line prints, marked, and its status."""
    ended = subprocess.run(["sh", "-c", command], cwd=folder, env=environment, stdin=subprocess.DEVNULL, capture_output=True, text=True)
    output = [f"| {line}".rstrip() for line in ended.stdout.splitlines()]
    errors = [f"! {line}".rstrip() for line in ended.stderr.splitlines()]
    return output + errors + ([f"= {ended.returncode}"] if ended.returncode else [])


def told(name: str, line: Line, found: list[str]) -> str:
    """A difference."""
    return "\n".join([f"{name}: {line.text}", *(f"  expected {text}" for text in line.expected), *(f"  printed  {text}" for text in found)])


def run_session(path: pathlib.Path, folder: pathlib.Path, environment: dict[str, str], damage: bool) -> Outcome:
    """Runs a story to its end, whatever differs."""
    passed, differences, lines = 0, [], []
    for line in read_page(path) if path == PAGE else read(path):
        if line.text.startswith(COMMAND):
            found = printed(line.text[len(COMMAND) :], folder, environment)
            if path == PAGE:
                found = [text for text in found if not text.startswith("!")]
            if found == (DAMAGED if damage else line.expected):
                passed += 1
            else:
                differences.append(told(path.name, line, found))
            line = Line(line.text, found)
        lines.append(line)
    return Outcome(passed, differences, "".join(f"{text}\n" for line in lines for text in (line.text, *line.expected)))


def run_all(damage: bool = False, accept: bool = False) -> tuple[int, int]:
    """Runs all stories, side by side, and gives how many command lines agreed, and how many did not."""
    paths = [*sorted(SESSIONS.glob("*.session")), PAGE]
    with tempfile.TemporaryDirectory() as name, concurrent.futures.ThreadPoolExecutor() as pool:
        top = pathlib.Path(name)
        make_site(top / "site")
        for path in paths:
            shutil.copytree(top / "site", top / path.stem)
        environment = surroundings(top)
        outcomes = list(pool.map(lambda path: run_session(path, top / path.stem, environment, damage), paths))
    for path, outcome in zip(paths, outcomes):
        if accept and path != PAGE:
            path.write_text(outcome.printed)
        elif not damage:
            print(*outcome.differences, sep="\n", end="\n" if outcome.differences else "")
    return sum(outcome.passed for outcome in outcomes), sum(len(outcome.differences) for outcome in outcomes)
