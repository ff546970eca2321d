"""Tasks: functions of Python's over buffers, inserted in the order of the program and run side by side."""

from __future__ import annotations

import ctypes
import itertools
import operator
import os
import threading
import weakref
from collections.abc import Callable, Iterable, Sequence
from dataclasses import dataclass
from typing import Any, Union

from ._aside import aside
from ._library import DONE, LIB, MISUSE, SIZE, TASK_BODY, U32, U64, DatumHandle, FaultNumbers, Handle, StatsNumbers, UseNumbers, text_of
from .errors import Misuse, Undeclared, checked
from .texts import within

FAULTED, UNDECLARED = 1, 2
READ, WRITE = 0, 1
WHOLE = 2**32 - 1
STATES = ("waiting", "running", "done", "faulted", "cancelled", "long over")


def _checked(status: int) -> None:
    """Raises what a call on tasks answers that is not DONE."""
    if status >= MISUSE:
        raise Misuse(status, LIB.realm_tasks_message)
    checked(status)


@dataclass(frozen=True)
class Stats:
    """What a runtime has done so far, as `struct realm_task_stats` of realm_tasks.h tells it."""

    inserted: int
    done: int
    faulted: int
    cancelled: int
    windows: int
    by_waits: int
    wakes: int
    workers: int
    data: int
    is_guarded: bool


@dataclass(frozen=True)
class Tile:
    """One tile of a datum, from 0."""

    data: Data
    number: int

    @property
    def memory(self) -> memoryview:
        """Its bytes."""
        first, end = self.data._ends[self.number : self.number + 2]
        return self.data.memory[first:end]


class Data:
    """The memory of an object, as tasks access it: as a whole, or by one of its tiles, `data[0]`, `data[1]`.. It has one tile until it is cut."""

    def __init__(self, tasks: Tasks, buffer: Any):
        self._tasks, self._handle, self._object = tasks, DatumHandle(), buffer
        # (it keeps the object from being resized)
        memory = (ctypes.c_char * memoryview(buffer).nbytes).from_buffer(buffer)
        _checked(LIB.realm_data_new(tasks._handle, ctypes.addressof(memory), len(memory), self._handle))
        self._key = self._handle.place, self._handle.generation
        tasks._memory[self._key] = memory
        self._ends = [0, len(memory)]

    @property
    def memory(self) -> memoryview:
        """Its bytes."""
        return memoryview(self._object).cast("B")

    def __len__(self) -> int:
        return len(self._ends) - 1

    def __getitem__(self, number: int) -> Tile:
        return Tile(self, range(len(self))[operator.index(number)])

    def cut(self, sizes: Sequence[int]) -> None:
        """Cuts it into consecutive tiles of so many bytes, at least 1 each and together its own. Tiles of before go."""
        numbers = (SIZE * len(sizes))(*(within(it, 0, 2**64 - 1) for it in sizes))
        _checked(LIB.realm_data_tiles(self._tasks._handle, self._handle, len(sizes), numbers))
        self._ends = [0, *itertools.accumulate(sizes)]

    def free(self) -> None:
        """Has it be no datum any more: the object is the program's alone. Raises Misuse where a task with it has not ended."""
        _checked(LIB.realm_data_free(self._tasks._handle, self._handle))
        del self._tasks._memory[self._key]


class _Bodies:
    """By numbers from 0 the functions of tasks that have not begun, and what those raised that have."""

    def __init__(self):
        self._lock, self._count = threading.Lock(), 0
        self._functions: dict[int, Callable[[], object]] = {}
        self._raised: dict[int, BaseException] = {}
        self._stops: list[BaseException] = []
        self.run = TASK_BODY(self._run)

    def put(self, function: Callable[[], object]) -> int:
        with self._lock:
            self._functions[self._count] = function
            self._count += 1
            return self._count - 1

    def drop(self, number: int) -> None:
        with self._lock:
            del self._functions[number]

    def _run(self, number: int) -> int:
        try:
            with self._lock:
                function = self._functions.pop(number)
            if self._stops:
                raise self._stops[0]
            function()
            return 0
        except BaseException as error:  # (nothing may pass through the library's own frames)
            with self._lock:
                self._raised[number] = error
            return _answer(number)

    def perform(self, call: Callable[[], int]) -> tuple[int, BaseException | None]:
        """The status of a call that runs functions, and what a signal raised meanwhile: no function is begun from then on."""
        try:
            return aside(call, self._stops.append), next(iter(self._stops), None)
        finally:
            self._stops.clear()

    def count(self) -> int:
        """How many there were so far."""
        return self._count

    def end(self, count: int, answer: int) -> BaseException | None:
        """Forgets the first `count`, which have ended, and gives what the body with this answer raised, or what is no Exception, as sys.exit raises it."""
        with self._lock:
            raised = {number: error for number, error in self._raised.items() if number < count}
            self._raised = {number: error for number, error in self._raised.items() if number >= count}
            self._functions = {number: it for number, it in self._functions.items() if number >= count}
        found = [error for number, error in raised.items() if not isinstance(error, Exception) or _answer(number) == answer]
        return min(found, key=lambda error: isinstance(error, Exception), default=None)


def _answer(number: int) -> int:
    """What a body that raises answers: no 0."""
    return number % (2**32 - 1) + 1


_kept: list[object] = []


def _free(process: int, handle: Handle, bodies: _Bodies, *needed: object) -> None:
    """Frees a runtime, with what it needs until then. Where that is refused, as in a body of its own, and in a forked process it is kept for good."""
    if os.getpid() != process or bodies.perform(lambda: LIB.realm_tasks_free(handle))[0] >= MISUSE:
        _kept.append((handle, bodies, needed))


class Tasks:
    """A runtime of tasks with so many worker threads, at most 64; the thread that waits performs tasks too, with 0 workers it alone.

        with realm.Tasks(workers=4) as tasks:
            of_a, of_b, of_sum = tasks.data(a), tasks.data(b), tasks.data(sum)
            tasks.insert(fill, a, writes=[of_a])
            tasks.insert(fill, b, writes=[of_b])
            tasks.insert(add_up, a, b, sum, reads=[of_a, of_b], writes=[of_sum])   # waits for both
            tasks.wait()

    A task waits for those inserted before it that access a common part of data, where one of the two writes it, and for no other; so the memory is in the end
    that of the functions one after another, where each accesses data only as its task declares. Nothing proves that; REALM_GUARD=1 in the environment tests
    it. From the insertion of a task until a wait the program leaves alone what the task writes, and does not write what it reads. Python's threads run one
    body at a time, but for what lets others go on, as numpy does. One thread at a time inserts or waits, and no body does: Misuse else.

    A runtime may be a context, and is freed behind it, as it is where nobody holds it any more. realm_tasks.h has the rest.
    """

    def __init__(self, workers: int = 4):
        self._handle, self._bodies = Handle(), _Bodies()
        self._memory: dict[tuple[int, int], object] = {}
        self._most, self._since = 1024, 0  # the tasks of a window, and those of this one
        _checked(LIB.realm_tasks_new(within(workers, 0, 2**32 - 1), self._handle))
        # (before the interpreter ends, too, which stops the threads that run functions)
        self._finalizer = weakref.finalize(self, _free, os.getpid(), self._handle, self._bodies, self._memory)

    def data(self, buffer: Any) -> Data:
        """The memory of an object as a datum: a bytearray, an array, a numpy array or another with a writable contiguous buffer. No byte is in two data."""
        return Data(self, buffer)

    def insert(self, body: Callable[..., object], *arguments: Any, reads: Iterable[Use] = (), writes: Iterable[Use] = ()) -> int:
        """Inserts a task: a function, what it is called with, and the data and tiles that it reads, or reads and writes, at most 8. Its number, from 0."""
        uses = [*((it, READ) for it in reads), *((it, WRITE) for it in writes)]
        numbers, task = (UseNumbers * len(uses))(*(_use(it, mode) for it, mode in uses)), U64()
        function = self._bodies.put(lambda: body(*arguments))
        status, stop = self._insert(lambda: LIB.realm_insert(self._handle, self._bodies.run, function, numbers, len(uses), ctypes.byref(task)))
        if status != DONE:
            self._bodies.drop(function)
        if stop is not None:
            raise stop
        _checked(status)
        return task.value

    def _insert(self, call: Callable[[], int]) -> tuple[int, BaseException | None]:
        # (one into a full window performs all that was inserted)
        is_full = self._since >= self._most
        status, stop = self._bodies.perform(call) if is_full else (call(), None)
        if status == DONE:
            self._since = 1 if is_full else self._since + 1
        return status, stop

    def wait(self) -> None:
        """Performs tasks until all have ended.

        A body that raises cancels the tasks that depend on its own, and those theirs. Then what the first such body raised, in the order of insertion, is
        raised here, or Undeclared by the guard. What is inserted later is not cancelled by that. An interrupt from the keyboard is raised once no body
        runs any more; no other is begun then.
        """
        self._wait()

    def _wait(self, then: Callable[[], object] = lambda: None) -> None:
        fault, count = FaultNumbers(), self._bodies.count()
        status, stop = self._bodies.perform(lambda: LIB.realm_wait(self._handle, ctypes.byref(fault)))
        raised = None
        if status < MISUSE:
            self._since = 0
            raised = self._bodies.end(count, fault.answer)
            then()
        if stop is not None:
            raise stop
        if raised is not None and (status == FAULTED or not isinstance(raised, Exception)):
            raise raised
        if status == UNDECLARED:
            raise Undeclared(fault.task, fault.datum, fault.byte, bool(fault.declared), bool(fault.written))
        _checked(status)

    def status(self, task: int) -> str:
        """How a task stands: waiting, running, done, faulted, cancelled or long over."""
        state = U32()
        _checked(LIB.realm_task_status(self._handle, within(task, 0, 2**64 - 1), ctypes.byref(state)))
        return STATES[state.value]

    def window(self, most: int) -> None:
        """Has an insertion perform all tasks once there are so many, 1 to 1,024, which it is at first."""
        _checked(LIB.realm_tasks_window(self._handle, within(most, 0, 2**32 - 1)))
        self._most = most

    def stats(self) -> Stats:
        """What the runtime has done so far."""
        numbers = StatsNumbers()
        _checked(LIB.realm_tasks_stats(self._handle, ctypes.byref(numbers)))
        *counts, is_guarded = (getattr(numbers, name) for name, _ in StatsNumbers._fields_)
        return Stats(*counts, bool(is_guarded))

    def graph(self) -> str:
        """The tasks since the last wait, or since an insertion performed all, as the text of a graph of format 3. The word of each call is body0."""
        status, text = text_of(LIB.realm_tasks_graph, self._handle)
        _checked(status)
        return text.decode()

    def free(self) -> None:
        """Waits, and frees the runtime with its data. Raises what `wait` does, and has freed it then too, but with Misuse."""
        self._wait(self._finalizer)

    def __enter__(self) -> Tasks:
        return self

    def __exit__(self, kind: object, *raised: object) -> None:
        if kind is not None:
            self._finalizer()
        elif self._handle.at:
            self.free()


Use = Union[Data, Tile]


def _use(it: Use, mode: int) -> UseNumbers:
    if isinstance(it, Data):
        return UseNumbers(it._handle, WHOLE, mode)
    if isinstance(it, Tile):
        return UseNumbers(it.data._handle, it.number, mode)
    raise TypeError("a task reads and writes data, as Tasks.data gives them, and their tiles")
