"""The calls on texts of graphs and traces."""

from __future__ import annotations

import ctypes
from typing import AnyStr, Optional

from ._library import DONE, LIB, NO_MEMORY, SLOTS, TOO_LONG, UNFIT, UNLAWFUL, UNREAD, USAGE, Verdict, text_of
from .errors import Refused

# The kinds of numbers that `word` names.
WHY, RULE, FAULT = 0, 1, 2
SECTION, DESCENDS, RACE = 3, 4, 6
SOURCE, OVERLAP, MISSING = 3, 4, 5


def bytes_of(text: str | bytes) -> bytes:
    """The bytes of a text."""
    return text.encode() if isinstance(text, str) else bytes(text)


def like(text: AnyStr, found: bytes) -> AnyStr:
    """What was found, of the type of the text."""
    return found.decode() if isinstance(text, str) else found


def word(kind: int, number: int) -> str:
    """The word of a number of a verdict: WHY, RULE or FAULT."""
    return (text_of(LIB.realm_word, kind, number)[1] or b"").decode()


def _line_of(text: bytes, operation: int) -> int | None:
    """The line of an operation in the text of a graph, from 1."""
    lines = (number for number, line in enumerate(text.split(b"\n"), 1) if line.split()[1:2] == [b"="])
    return next((number for at, number in enumerate(lines) if at == operation), None)


def _unfit(verdict: Verdict, text: bytes) -> Refused:
    """The rule that is broken, with its operations: one, or for some rules two."""
    rule, line = word(RULE, verdict.rule), _line_of(text, verdict.first)
    if verdict.rule in (SECTION, DESCENDS, RACE):
        told = (verdict.first, verdict.second)
        return Refused(UNFIT, f"{rule} at operations {verdict.first} and {verdict.second}", line, told, text)
    return Refused(UNFIT, f"{rule} at operation {verdict.first}", line, (verdict.first,), text)


def _unlawful(verdict: Verdict) -> Refused:
    """The fault of a trace, and what it names: its place, another operation, or both."""
    fault = word(FAULT, verdict.fault)
    if verdict.fault == MISSING:
        return Refused(UNLAWFUL, f"{fault} operation {verdict.first}", None, (verdict.first,))
    has_other = verdict.fault in (SOURCE, OVERLAP)
    other = f" with operation {verdict.first}" if has_other else ""
    return Refused(UNLAWFUL, f"{fault} at place {verdict.place + 1}{other}", None, (verdict.first,) if has_other else ())


def refused(status: int, verdict: Verdict, text: bytes | None = None) -> Exception:
    """What is raised for a status but DONE."""
    if status == NO_MEMORY:
        return MemoryError()
    if status == UNFIT and text is not None:
        return _unfit(verdict, text)
    if status == UNLAWFUL:
        return _unlawful(verdict)
    if status == UNREAD:
        return Refused(status, f"line {verdict.line} {word(WHY, verdict.why)}", verdict.line, (), text)
    reasons = {USAGE: "a number is beyond its range", TOO_LONG: "input too long", SLOTS: f"needs {verdict.need} slots"}
    return Refused(status, reasons[status])


def within(number: int, least: int, most: int) -> int:
    """The number, which ctypes would cut to its low bits where it is beyond its type."""
    if not least <= number <= most:
        raise refused(USAGE, Verdict())
    return number


def _judge(call, text: bytes) -> Verdict:
    verdict = Verdict()
    status = call(text, len(text), ctypes.byref(verdict))
    if status != DONE:
        raise refused(status, verdict, text)
    return verdict


def check(text: str | bytes) -> int:
    """How many event slots are enough for any run of the graph. Raises Refused where it is not accepted."""
    return _judge(LIB.realm_check, bytes_of(text)).need


def audit(text: str | bytes) -> None:
    """Returns where the graph is accepted and the trace behind it lawful. Raises Refused else."""
    _judge(LIB.realm_audit, bytes_of(text))


def _made(call, text: AnyStr, *arguments) -> AnyStr:
    given = bytes_of(text)
    status, found = text_of(call, given, len(given), *arguments)
    if status in (UNREAD, UNFIT):
        _judge(LIB.realm_check, given)
    if status != DONE or found is None:
        raise refused(status, Verdict())
    return like(text, found)


def evaluate(text: AnyStr) -> AnyStr:
    """The report of the one-thread evaluation, which each run has."""
    return _made(LIB.realm_eval, text)


def upgrade(text: AnyStr, to: Optional[int] = None) -> AnyStr:
    """The text of the graph in format 2, or in format 3 where it has that; in format 3 where `to` is 3."""
    if to is None:
        return _made(LIB.realm_upgrade, text)
    return _made(LIB.realm_upgrade_to, text, within(to, 3, 3))


def explain(text: AnyStr) -> AnyStr:
    """What `realm-explain` writes: where and why a text is refused, or what an accepted graph needs and why operations wait."""
    return _made(LIB.realm_explain, text)


def plan(text: AnyStr, processors: int) -> AnyStr:
    """A plan in virtual time on 1 to 8 processors, with its critical chain."""
    return _made(LIB.realm_plan, text, within(processors, 1, 8))


def make(seed: int, size: int) -> bytes:
    """The text of a generated graph of 1 to 8,192 operations."""
    status, found = text_of(LIB.realm_make, within(seed, 0, 2**64 - 1), within(size, 1, 8192))
    if status != DONE or found is None:
        raise refused(status, Verdict())
    return found
