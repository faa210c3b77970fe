"""What a relay's tables hold, asked of the library question by question."""

from __future__ import annotations

from typing import Any, Callable, Dict, Iterator

import haskumye

Facts = Dict[str, Any]


def facts(relay: haskumye.Relay, clock: int) -> Facts:
    """All that is told of a relay at a clock, as JSON has it: times in seconds, addresses in hexadecimal."""
    return {
        "own": own_address(relay).hex(),
        "clock": clock,
        "last_clock": relay.last_clock,
        "ports": [port_facts(relay, number) for number in range(haskumye.PORT_COUNT)],
        "announce_rate": relay.announce_rate._asdict(),
        "local_addresses": [address.hex() for address in filled(relay.local, haskumye.LOCAL_COUNT)],
        "paths": [path_facts(path, clock) for path in filled(relay.path, haskumye.PATH_COUNT)],
        "links": [link_facts(link, clock) for link in filled(relay.link, haskumye.LINK_COUNT)],
        "receipts_under_way": relay.live_returns(clock),
        "packets_remembered": relay.live_hashes(clock),
        "tally": relay.tally._asdict(),
    }


def own_address(relay: haskumye.Relay) -> bytes:
    """The relay's own address. No question tells it: it stands first in the tables, as docs/LAYOUT.md says."""
    return relay.tables[:16]


def filled(question: Callable[[int], Any], count: int) -> Iterator[Any]:
    """What stands in a table, without its empty places."""
    return (told for told in map(question, range(count)) if told is not None)


def port_facts(relay: haskumye.Relay, number: int) -> Facts:
    port = relay.port(number)
    return {"port": number, "on": port.on, "mode": port.mode.words, "size": port.size}


def path_facts(path: haskumye.Path, clock: int) -> Facts:
    return {
        "destination": path.destination.hex(),
        "hops": path.hops,
        "next_hop": path.next_hop.hex(),
        "port": path.port,
        "expiry": path.expiry,
        "expires_in": path.expiry - clock,
        "last_announce": path.last_announce,
        "violations": path.violations,
        "blocked_until": path.blocked_until,
        "unresponsive": path.unresponsive,
        "blobs": path.blob_count,
    }


def link_facts(link: haskumye.Link, clock: int) -> Facts:
    return {
        "id": link.id.hex(),
        "asking_port": link.asking,
        "taken_hops": link.taken_hops,
        "answering_port": link.answering,
        "remaining_hops": link.remaining_hops,
        "proved": link.proved,
        "expiry": link.expiry,
        "expires_in": link.expiry - clock,
    }
