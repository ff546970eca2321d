"""Generational events that threads share.

    owner = realm.Owner(slots=64, last_gen=9999)
    pending = owner.create()               # an event, with the right to end it
    place = owner.split()                  # for another thread
    ended = pending.end()                  # one thread ends it
    place.look(pending.event)              # True; the other looks: None while it is pending, False where it ended with poison

What is of one table is used with what is of that table alone; else, and where it is used up, Misuse is raised.
"""

from __future__ import annotations

import ctypes
from dataclasses import dataclass

from ._library import DONE, LIB, U32, USAGE, EventHandle, Handle, Verdict
from .errors import checked
from .texts import refused, within

NONE, FULL, REFUSED = 4, 5, 8
TRIGGERED, POISONED, PENDING = 0, 1, 2
PLACED, OVER, OVER_POISON, MOVED = 0, 1, 2, 3


@dataclass(frozen=True)
class Event:
    """The handle of an event: plain data, which may be kept for any time."""

    slot: int
    gen: int
    table: int


def _event(handle: EventHandle) -> Event:
    return Event(handle.slot, handle.gen, handle.table)


def _handle(event: Event) -> EventHandle:
    return EventHandle(event.slot, event.gen, event.table)


class _Held:
    """What is freed once nobody holds it."""

    def __init__(self, handle: Handle):
        self._handle = handle

    def _given_up(self) -> Handle:
        """The handle, which another object holds from then on."""
        handle, self._handle = self._handle, Handle()
        return handle

    def free(self) -> None:
        """Frees it now. A pending that is freed leaves its event pending for good."""
        checked(LIB.realm_events_free(self._handle))

    def __del__(self):
        if LIB is not None and self._handle.at:
            LIB.realm_events_free(self._handle)


class Waiter(_Held):
    """A numbered waiter that stands on no event."""

    def __init__(self, handle: Handle, number: int):
        super().__init__(handle)
        self.number = number


class Receipt(_Held):
    """That an event has ended, and how."""


class Place(_Held):
    """A thread's place at a table."""

    def split(self) -> Place:
        """A second place, for another thread."""
        out = Handle()
        checked(LIB.realm_events_split(self._handle, out))
        return Place(out)

    def join(self, other: Place) -> None:
        """Takes up what another place of this table knows, and uses it up."""
        checked(LIB.realm_events_join(self._handle, other._handle))

    def look(self, event: Event) -> bool | None:
        """None while the event is pending, True where it ended well, False where it ended with poison."""
        status = checked(LIB.realm_events_look(self._handle, _handle(event)), POISONED, PENDING)
        return {TRIGGERED: True, POISONED: False, PENDING: None}[status]

    def watch(self, event: Event, waiter: Waiter) -> bool | None:
        """None where the waiter was placed on the event, whose end will catch it; else how the event has ended, and the waiter stays."""
        while True:
            status = checked(LIB.realm_events_watch(self._handle, _handle(event), waiter._handle), OVER, OVER_POISON, MOVED)
            if status != MOVED:
                return {PLACED: None, OVER: True, OVER_POISON: False}[status]

    def learn(self, receipt: Receipt) -> tuple[Event, bool]:
        """The event of a receipt, and whether it ended well. The receipt is used up."""
        handle = EventHandle()
        fate = checked(LIB.realm_events_learn(self._handle, receipt._handle, ctypes.byref(handle)), POISONED)
        return _event(handle), fate == DONE


class Ended(_Held):
    """What is left of an event that ended: its waiters, each given once."""

    def __init__(self, handle: Handle, event: Event):
        super().__init__(handle)
        self.event = event

    def receipt(self) -> Receipt:
        """A receipt of the end, of which there may be any number."""
        out = Handle()
        checked(LIB.realm_events_receipt(self._handle, out))
        return Receipt(out)

    def waiters(self) -> list[Waiter]:
        """The waiters that stood on the event. Then nothing more is done with this but `place`."""
        found = []
        while True:
            out, number = Handle(), U32()
            if checked(LIB.realm_events_next(self._handle, out, number), NONE) == NONE:
                return found
            found.append(Waiter(out, number.value))

    def place(self) -> Place:
        """The place that remains behind `waiters`."""
        return Place(self._given_up())


class Pending(_Held):
    """The right to end an event."""

    def __init__(self, handle: Handle, event: Event):
        super().__init__(handle)
        self.event = event

    def end(self, well: bool = True) -> Ended:
        """Ends the event: well, or with poison."""
        checked(LIB.realm_events_end(self._handle, 0 if well else 1))
        return Ended(self._given_up(), self.event)

    def leave(self) -> Place:
        """Gives the right up: the event stays pending for good."""
        checked(LIB.realm_events_leave(self._handle))
        return Place(self._given_up())


class Closed(_Held):
    """What a table left as it was closed. It stays with the thread that closed it."""

    def look(self, event: Event) -> bool | None:
        """What became of an event of the table, as of `Place.look`."""
        status = checked(LIB.realm_events_closed_look(self._handle, _handle(event)), POISONED, PENDING)
        return {TRIGGERED: True, POISONED: False, PENDING: None}[status]

    def place_of(self, waiter: int) -> Event | None:
        """The pending event on which the waiter of this number still stood. None where it stood on none."""
        handle = EventHandle()
        status = checked(LIB.realm_events_closed_place(self._handle, within(waiter, 0, 2**32 - 1), ctypes.byref(handle)), NONE)
        return _event(handle) if status == DONE else None


class Owner(Place):
    """A new table, with the right to create events in it: so many slots (1 to 8,192) and waiters, whose slots serve generation 0 to last_gen.

    Raises Refused where the numbers are beyond their limits.
    """

    def __init__(self, slots: int, waiters: int = 0, last_gen: int = 0):
        super().__init__(Handle())
        status = LIB.realm_events_new(*(within(it, 0, 2**32 - 1) for it in (slots, waiters, last_gen)), self._handle)
        if status == REFUSED:
            raise refused(USAGE, Verdict())
        checked(status)

    def create(self) -> Pending | None:
        """A new event. None where each slot is pending, or has served its last generation."""
        out, handle = Handle(), EventHandle()
        if checked(LIB.realm_events_create(self._handle, out, ctypes.byref(handle)), FULL) == FULL:
            return None
        return Pending(out, _event(handle))

    def waiter(self) -> Waiter | None:
        """The next waiter. None where all were given."""
        out, number = Handle(), U32()
        return Waiter(out, number.value) if checked(LIB.realm_events_waiter(self._handle, out, number), NONE) == DONE else None

    def close(self) -> Closed | None:
        """Closes the table. None where another place, pending or ended of it is held: free or join it first."""
        if checked(LIB.realm_events_close(self._handle), REFUSED) == REFUSED:
            return None
        return Closed(self._given_up())
