"""A relay's tables as a page for people, as rnstatus and rnpath show them."""

from __future__ import annotations

from typing import Iterator

from .facts import Facts
from .sentences import counted
from .times import duration


def lines(facts: Facts) -> Iterator[str]:
    """The page of what `facts` tells."""
    yield f"Relay <{facts['own']}> at clock {facts['clock']}, last packet at {facts['last_clock']}"
    yield from ports(facts)
    yield from headed("Local addresses", [f"<{address}>" for address in facts["local_addresses"]])
    yield from headed("Paths", [path(told, facts["clock"]) for told in facts["paths"]])
    yield from headed("Links", [link(told) for told in facts["links"]])
    yield ""
    yield f"Receipts under way: {facts['receipts_under_way']}"
    yield f"Packets remembered: {facts['packets_remembered']}"
    yield "Tally: " + ", ".join(f"{name} {count}" for name, count in facts["tally"].items())


def headed(title: str, records: list[str]) -> Iterator[str]:
    yield ""
    yield f"{title}: {len(records) or 'none'}"
    yield from (f"  {record}" for record in records)


def ports(facts: Facts) -> Iterator[str]:
    on = [f"{port['port']:>2}  {port['mode']:<12}  {port['size']} bytes" for port in facts["ports"] if port["on"]]
    off = [str(port["port"]) for port in facts["ports"] if not port["on"]]
    yield from headed("Ports that are on", on)
    if off:
        yield "  off: " + " ".join(off)
    rate = facts["announce_rate"]
    if rate["target"]:
        told = f"one in {duration(rate['target'])}, {rate['grace']} too early let through, then blocked for {duration(rate['penalty'])} more"
    else:
        told = "no limit"
    yield f"  announces of a destination: {told}"


def hops(count: int) -> str:
    return counted(count, "hop")


def expires(seconds: int) -> str:
    return f"expires in {duration(seconds)}" if seconds > 0 else f"expired {duration(-seconds)} ago"


def path(told: Facts, clock: int) -> str:
    text = f"<{told['destination']}> is {hops(told['hops'])} away via <{told['next_hop']}> on port {told['port']}, {expires(told['expires_in'])}"
    if told["unresponsive"]:
        text += ", unresponsive"
    if told["blocked_until"] > clock:
        text += f", blocked for {duration(told['blocked_until'] - clock)}"
    return text


def link(told: Facts) -> str:
    asking = f"port {told['asking_port']} ({hops(told['taken_hops'])})"
    answering = f"port {told['answering_port']} ({hops(told['remaining_hops'])})"
    return f"<{told['id']}> from {asking} to {answering}, {'proved' if told['proved'] else 'not proved'}, {expires(told['expires_in'])}"
