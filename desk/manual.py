#!/usr/bin/env python3
"""Writes the manual pages of `haskumye` and of each subcommand from what the program itself says: manual.py FOLDER.

desk/man was written by it; a test compares the two.
"""

from __future__ import annotations

import pathlib
import re
import sys
from typing import Any, Iterator

HERE = pathlib.Path(__file__).resolve().parent
sys.path[:0] = [str(HERE), str(HERE.parent / "bindings/python")]
from haskumye_desk import commands  # noqa: E402
from haskumye_desk.command import Argument, Command  # noqa: E402
from haskumye_desk.program import ABOUT, HELP, NAME, STATUS, VERSION  # noqa: E402

TITLE = '.TH {} 1 "" "Haskumye" "Haskumye\'s desk"'


def is_option(argument: Argument) -> bool:
    return argument.names[0].startswith("-")


def label(argument: Argument) -> str:
    value = argument.settings.get("metavar", "")
    return ", ".join(f"{name} {value}".strip() for name in argument.names) if is_option(argument) else value


def synopsis(argument: Argument) -> str:
    value = argument.settings.get("metavar", "")
    if is_option(argument):
        return "[" + f"{argument.names[-1]} {value}".strip() + "]"
    return {"+": f"{value}...", "?": f"[{value}]"}.get(argument.settings.get("nargs", ""), value)


class Arguments:
    """Stands in for a parser, and keeps what is added."""

    def __init__(self) -> None:
        self.added: list[Argument] = []

    def add_argument(self, *names: str, **settings: Any) -> None:
        self.added.append(Argument(names, settings))


def roff(text: str) -> str:
    """Text that troff takes as it is: its signs escaped, and no line that begins with a request."""
    escaped = text.replace("\\", r"\e").replace("-", r"\-").replace("`", r"\(ga").replace("'", r"\(aq")
    return re.sub(r"^\.", r"\\&.", escaped)


def section(title: str, *paragraphs: str) -> Iterator[str]:
    yield f".SH {title}"
    yield "\n.PP\n".join(map(roff, paragraphs))


def listed(title: str, rows: list[tuple[str, str]]) -> Iterator[str]:
    """Words in bold, each with what it means."""
    yield f".SH {title}"
    for words, meaning in rows:
        yield f".TP\n\\fB{roff(words)}\\fR\n{roff(meaning)}"


def argument_rows(arguments: list[Argument]) -> list[tuple[str, str]]:
    return [(label(argument), sentence(argument.settings["help"])) for argument in arguments]


def sentence(text: str) -> str:
    return text[0].upper() + text[1:].rstrip(".") + "."


def arguments_of(command: Command) -> list[Argument]:
    taken = Arguments()
    command.add_arguments(taken)
    return [*taken.added, HELP]


def command_page(command: Command) -> Iterator[str]:
    arguments = arguments_of(command)
    options = [argument for argument in arguments if is_option(argument)]
    others = [argument for argument in arguments if not is_option(argument)]
    yield TITLE.format(f"{NAME}-{command.name}".upper())
    yield from section("NAME", f"{NAME}-{command.name} - {command.summary}")
    yield from section("SYNOPSIS", " ".join([NAME, command.name, *map(synopsis, [*options, *others])]))
    yield from section("DESCRIPTION", *command.description)
    yield from listed("ARGUMENTS", argument_rows(others))
    yield from listed("OPTIONS", argument_rows(options))
    yield from listed("EXAMPLES", [(example.line, sentence(example.purpose)) for example in command.examples])
    yield from section("EXIT STATUS", sentence(STATUS))
    yield from section("SEE ALSO", f"{NAME}(1)")


def program_page() -> Iterator[str]:
    yield TITLE.format(NAME.upper())
    yield from section("NAME", f"{NAME} - {ABOUT}")
    yield from section("SYNOPSIS", f"{NAME} COMMAND [ARGUMENT]...")
    yield from section(
        "DESCRIPTION",
        "Reads a relay's files, saved tables and recordings, tells what they hold, and replays and draws what a relay did. It decides nothing: every answer, "
        "line and number is the library's.",
        "Results go to standard output, sentences for people to standard error. A file's name may be -, standard input or output. A file is written whole "
        "or not at all.",
    )
    yield from listed("COMMANDS", [(command.name, sentence(command.summary)) for command in commands.ALL])
    yield from listed("OPTIONS", argument_rows([HELP, VERSION]))
    yield from listed("ENVIRONMENT", [("HASKUMYE_LIBRARY", "The shared library, where another one is meant than that of the same prefix.")])
    yield from section("EXIT STATUS", sentence(STATUS))
    yield from section("SEE ALSO", ", ".join(f"{NAME}-{command.name}(1)" for command in commands.ALL))


def pages() -> dict[str, str]:
    """Each page by its file's name."""
    of_commands = {f"{NAME}-{command.name}.1": command_page(command) for command in commands.ALL}
    return {name: "\n".join(lines) + "\n" for name, lines in {f"{NAME}.1": program_page(), **of_commands}.items()}


if __name__ == "__main__":
    if len(sys.argv) != 2:
        sys.exit(__doc__)
    folder = pathlib.Path(sys.argv[1])
    folder.mkdir(parents=True, exist_ok=True)
    for name, text in pages().items():
        (folder / name).write_text(text)
