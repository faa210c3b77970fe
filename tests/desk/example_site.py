"""The example site's files, and the desk's program over them."""

from __future__ import annotations

import os
import pathlib
import subprocess
import sys

ROOT = pathlib.Path(__file__).resolve().parents[2]
sys.path[:0] = [str(ROOT / "desk"), str(ROOT / "bindings/python")]
PROGRAM = ROOT / "desk/haskumye"


def make_site(folder: pathlib.Path) -> None:
    """A day at the site, in a new folder."""
    subprocess.run([sys.executable, ROOT / "examples/site/make.py", folder], check=True)


def surroundings(programs: pathlib.Path) -> dict[str, str]:
    """What a command line finds: `haskumye` on the path, run by the Python that runs this, and the repository."""
    called = programs / "haskumye"
    called.write_text(f'#!/bin/sh\nexec "{sys.executable}" -W error "{PROGRAM}" "$@"\n')
    called.chmod(0o755)
    path = f"{programs}{os.pathsep}{os.environ['PATH']}"
    given = {name: value for name, value in os.environ.items() if name != "PYTHONDONTWRITEBYTECODE"}
    return {**given, "PATH": path, "LC_ALL": "C", "REPOSITORY": str(ROOT), "PYTHONPYCACHEPREFIX": str(programs / "compiled")}
