"""Packets in hexadecimal."""

from __future__ import annotations

import re


def packet_of(text: str) -> bytes:
    """The bytes that a text writes, two digits each. ValueError says that it writes none."""
    if len(text) % 2 or not re.fullmatch("[0-9a-fA-F]*", text):
        raise ValueError(f"{text[:40]!a} is no packet: two hexadecimal digits for each byte")
    return bytes.fromhex(text)
