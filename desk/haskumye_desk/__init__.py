"""The desk's program, `haskumye`: a relay's files read, told, replayed and drawn.

It decides nothing: every answer, line and number comes from the library, by the module `haskumye`. A module here has one subject; `commands` lists the
subcommands, each in a module of its own.
"""
