"""Runs of graphs by threads."""

from __future__ import annotations

import ctypes
from collections.abc import Callable, Mapping
from dataclasses import dataclass
from typing import AnyStr

from ._aside import aside
from ._library import BODY, DONE, LIB, U32, BodyOfWord, CallNumbers, Handle, Lines, Verdict, text_of
from .errors import checked
from .texts import bytes_of, like, refused, within

NOT_YET, BUSY_LOCK, BUSY_COLUMN, NONE, FULL, OVER, NEVER = 1, 2, 3, 4, 5, 9, 10
MODES = ("read", "write", "sum", "min", "max")
FINE, FAULT = 0, 1


@dataclass(frozen=True)
class State:
    """How many operations of a run are where.

    `left` are those that have not ended, without user events and phases that never come; what waits for these counts.
    """

    unissued: int
    issued: int
    out: int
    ended: int
    left: int


@dataclass(frozen=True)
class Access:
    """How a call uses a column of data over a space: `mode` is a word of the language, the numbers are from 0 in the order of the text."""

    mode: str
    column: int
    space: int


@dataclass(frozen=True)
class Call:
    """What the body of a call is told."""

    word: str
    operation: int
    values: tuple[int, ...]
    accesses: tuple[Access, ...]


def _call(numbers: CallNumbers) -> Call:
    accesses = (Access(MODES[it.mode], it.column, it.space) for it in numbers.access[: numbers.accesses])
    return Call(numbers.word.decode(), numbers.operation, tuple(numbers.value[: numbers.values]), tuple(accesses))


class _Table:
    """Bodies as the library takes them. One that raises faults, and what the first one raised is kept. After an interrupt no other is run: each faults."""

    def __init__(self, bodies: Mapping[str, Callable[[Call], object]]):
        self.raised: list[BaseException] = []
        self._is_interrupted = False
        self._functions = [self._guarded(it) for it in bodies.values()]  # (the library holds no reference)
        self.entries = (BodyOfWord * len(bodies))(*(BodyOfWord(word.encode(), run, None) for word, run in zip(bodies, self._functions)))

    def stop(self, error: BaseException) -> None:
        """Has no further body run."""
        self._is_interrupted = True
        self.raised.append(error)

    def _guarded(self, body: Callable[[Call], object]) -> BODY:
        def run(numbers, _):
            try:
                if self._is_interrupted:
                    return FAULT
                body(_call(numbers.contents))
                return FINE
            except Exception as error:
                self.raised.append(error)
                return FAULT
            except BaseException as error:  # (nothing may pass through the library's own frames)
                self.stop(error)
                return FAULT

        return BODY(run)


class Work:
    """An operation that was taken. It is performed once, by any thread, and then put back; a thread performs it beside the others."""

    def __init__(self, run: Run, handle: Handle, line: int):
        self._run, self._handle, self.line = run, handle, line

    def call(self) -> Call | None:
        """What its body is told. None where it is no call, and where its wait is poisoned, so that its body is not to be run."""
        numbers = CallNumbers()
        return _call(numbers) if checked(LIB.realm_work_call(self._handle, numbers), NONE) == DONE else None

    def perform(self, faulted: bool = False) -> None:
        """Performs the operation. Of a call whose body faulted it is said so, and its event is poisoned."""
        checked(LIB.realm_work_finish(self._handle, FAULT if faulted else FINE))

    def put_back(self) -> None:
        """Puts the operation back into its run, where it ends."""
        checked(LIB.realm_run_put_back(self._run._handle, self._handle))

    def __del__(self):
        if LIB is not None and self._handle.at:
            LIB.realm_work_free(self._handle)


class Run:
    """A run of a graph, with so many event slots; 0 is as many as needed, from 256 to 8,192. Raises Refused where the graph is not accepted.

    `perform_all` does all by threads of the library's own. Else threads of the program's issue, take and put back one at a time, under a lock
    of theirs. Whatever they do, the report is that of `evaluate`, with the faults of the bodies of calls. A run may be a context, and is freed behind it.
    """

    def __init__(self, text: str | bytes, slots: int = 0):
        self._handle, self._text = Handle(), text
        given, verdict = bytes_of(text), Verdict()
        status = LIB.realm_run_new(given, len(given), within(slots, 0, 2**32 - 1), self._handle, ctypes.byref(verdict))
        if status != DONE:
            raise refused(status, verdict, given)

    def perform_all(self, threads: int = 4, bodies: Mapping[str, Callable[[Call], object]] | None = None) -> None:
        """Performs all that can be performed on 1 to 8 threads, with the calling one.

        A graph with calls needs `bodies`, a function for the word of each. They run side by side as far as they let other threads go on. One that
        raises is a fault of its call: its event is poisoned, and the other operations are performed. What the first one raised is raised once no body
        runs any more; the run stays, and its report tells which calls faulted. An interrupt from the keyboard is seen then too, and no body is begun after it.
        """
        if bodies is None:
            checked(LIB.realm_run_all(self._handle, within(threads, 0, 8)))
            return
        table = _Table(bodies)
        count = within(threads, 0, 8)
        status = aside(lambda: LIB.realm_run_all_with(self._handle, count, table.entries, len(bodies)), table.stop)
        if table.raised:
            raise table.raised[0]
        checked(status)

    def issue(self) -> int | None:
        """Issues the next operation of the text: its number. None where all are issued, or no slot is free."""
        line = U32()
        return line.value if checked(LIB.realm_run_issue(self._handle, line), NONE, FULL) == DONE else None

    def take(self, line: int) -> Work | None:
        """Takes an issued operation. None where it can't be taken now: it waits, is busy, is out, has ended, or never comes."""
        work, other = Handle(), U32()
        status = checked(
            LIB.realm_run_take(self._handle, within(line, 0, 2**32 - 1), work, other), NOT_YET, BUSY_LOCK, BUSY_COLUMN, OVER, NEVER
        )
        return Work(self, work, line) if status == DONE else None

    def woken(self) -> int | None:
        """An operation that waited for one that has ended, each once. None where there is none."""
        line = U32()
        return line.value if checked(LIB.realm_run_woken(self._handle, line), NONE) == DONE else None

    def state(self) -> State:
        """How many operations are where."""
        lines = Lines()
        checked(LIB.realm_run_state(self._handle, lines))
        return State(*(getattr(lines, name) for name, _ in Lines._fields_))

    def report(self) -> str | bytes:
        """Does what is left on this thread, and gives the report, of the type of the graph's text. It may be asked for again."""
        status, found = text_of(LIB.realm_run_report, self._handle)
        checked(status)
        return like(self._text, found)

    def free(self) -> None:
        """Frees the run. Nothing else is done with it from then on."""
        checked(LIB.realm_run_free(self._handle))

    def __enter__(self) -> Run:
        return self

    def __exit__(self, *raised: object) -> None:
        if self._handle.at:
            self.free()

    def __del__(self):
        if LIB is not None and self._handle.at:
            LIB.realm_run_free(self._handle)


def run(text: AnyStr, threads: int = 4, slots: int = 0) -> AnyStr:
    """The report of a run by 1 to 8 threads. It is that of `evaluate`. Raises Refused where the graph is not accepted."""
    with Run(text, slots) as held:
        held.perform_all(threads)
        return held.report()
