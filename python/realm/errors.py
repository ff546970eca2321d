"""What calls raise."""

from __future__ import annotations

from collections.abc import Callable

from ._library import DONE, LIB, MISUSE, NO_MEMORY, text_of


class Refused(Exception):
    """A text or a number that is refused."""

    status: int
    """The number of the program's exit status."""
    reason: str
    """Why, in words."""
    line: int | None
    """The line of the text, from 1, that is refused, or that of the first operation at which a rule is broken."""
    operations: tuple[int, ...]
    """The operations that are told, counted from 0."""

    def __init__(self, status: int, reason: str, line: int | None = None, operations: tuple[int, ...] = (), text: bytes | None = None):
        super().__init__(status, reason)
        self.status, self.reason, self.line, self.operations, self._text = status, reason, line, operations, text

    def __str__(self) -> str:
        return self.reason

    @property
    def explanation(self) -> str:
        """What `realm.explain` says of the text: where and why it is refused. Empty where no graph's text was refused."""
        if self._text is None:
            return ""
        status, found = text_of(LIB.realm_explain, self._text, len(self._text))
        if status == NO_MEMORY:
            raise MemoryError
        return (found or b"").decode(errors="replace")


class Misuse(RuntimeError):
    """A call that is not used as its page says. Nothing was changed by it."""

    status: int
    """The number of realm_misuse."""

    def __init__(self, status: int, message: Callable[..., int] = LIB.realm_run_message):
        super().__init__((text_of(message, status)[1] or b"").decode())
        self.status = status


class Undeclared(RuntimeError):
    """The guard of tasks found an access that a task did not declare."""

    task: int
    """The number of the task."""
    datum: int
    """Which datum, from 0 in the order in which those of the runtime were made."""
    byte: int
    """The byte, from 0 in the datum."""
    is_read: bool
    """The task declared to read that byte."""
    is_written: bool
    """The byte was written. If not it was read, or it isn't known."""

    def __init__(self, task: int, datum: int, byte: int, is_read: bool, is_written: bool):
        did, declared = "wrote" if is_written else "accessed", "which it declared to read" if is_read else "which it did not declare"
        super().__init__(f"task {task} {did} byte {byte} of datum {datum}, {declared}")
        self.task, self.datum, self.byte, self.is_read, self.is_written = task, datum, byte, is_read, is_written


def checked(status: int, *others: int) -> int:
    """The status, where it is DONE or one of these others. Raises what it says else."""
    if status in (DONE, *others):
        return status
    if status == NO_MEMORY:
        raise MemoryError
    if status >= MISUSE:
        raise Misuse(status)
    raise AssertionError(f"status {status}")
