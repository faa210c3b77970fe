"""The subcommands. One more is a module with its COMMAND, and its line in ALL."""

from . import check, load, opinion, record, renumber, replay, show, survey, tables

ALL = (
    tables.COMMAND,
    replay.COMMAND,
    survey.COMMAND,
    opinion.COMMAND,
    renumber.COMMAND,
    load.COMMAND,
    check.COMMAND,
    record.COMMAND,
    show.COMMAND,
)
