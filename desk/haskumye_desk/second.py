"""A relay and its second opinion, asked the same from fresh on."""

from __future__ import annotations

from typing import Any, Callable, Iterator, NamedTuple, Union

import haskumye
from haskumye import Deliver, Drop, Forward, Kept, NoWayOn, Reason, Refusal, Refused, Spread

from .facts import filled, own_address

Answer = Union[Drop, Deliver, Forward, Spread, Kept, Refusal, None]  # None where a call is done that answers nothing
NO_PATH = Drop(Reason.NO_WAY_ON, NoWayOn.NO_PATH)
UNSET = haskumye.Port(False, haskumye.Mode.BOUNDARY, haskumye.LONGEST_PACKET)  # a fresh relay's ports
UNLIMITED = haskumye.AnnounceRate(0, 0, 0)


class Answers(NamedTuple):
    """What both said to a call."""

    core: Answer
    opinion: Answer

    @property
    def is_asked_too_late(self) -> bool:
        """Whether 64 calls were listed before."""
        return self.opinion == Refusal.LIST_FULL

    @property
    def agree(self) -> bool:
        """Whether both said the same, and the same bytes leave. The second opinion has no slots: it says 6.2 where the core says 6.3."""
        expired = isinstance(self.core, Drop) and self.core.clause == NoWayOn.ONLY_EXPIRED
        return self.opinion == (NO_PATH if expired else self.core)


class Both:
    """A fresh relay and a second opinion, with the settings of another relay. Each setting that is not a fresh relay's is a call, and listed."""

    def __init__(self, settings: haskumye.Relay) -> None:
        self.relay = haskumye.Relay(own_address(settings))
        self.opinion = haskumye.SecondOpinion(own_address(settings))
        self.listed = 0
        for answers in self._set_up(settings):
            if answers.core is not None or not answers.agree:
                raise ValueError(f"a loaded relay has a setting that is answered by {answers}")

    def _set_up(self, settings: haskumye.Relay) -> Iterator[Answers]:
        for number in range(haskumye.PORT_COUNT):
            port = settings.port(number)
            if port != UNSET:
                yield self.ask("set_port", number, port.on, port.mode, port.size)
        if settings.announce_rate != UNLIMITED:
            yield self.ask("set_announce_rate", *settings.announce_rate)
        for address in filled(settings.local, haskumye.LOCAL_COUNT):
            yield self.ask("add_local", address)

    def ask(self, call: str, *arguments: Any) -> Answers:
        """Makes a call on both."""
        answers = Answers(*(_answer(getattr(engine, call), *arguments) for engine in (self.relay, self.opinion)))
        self.listed += not isinstance(answers.opinion, Refusal)
        return answers

    def packet(self, recorded: haskumye.Recorded) -> Answers:
        return self.ask("packet", recorded.packet, recorded.port, recorded.clock, recorded.signed)


def _answer(call: Callable[..., Answer], *arguments: Any) -> Answer:
    try:
        return call(*arguments)
    except Refused as refused:
        return refused.refusal


def text(answer: Answer) -> str:
    """An answer as a replay's line has it."""
    if isinstance(answer, Refusal):
        return f"refused {answer.value}"
    return answer.text if isinstance(answer, Drop) else str(answer)
