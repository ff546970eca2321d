"""librealm.so by ctypes: its file, the types of its calls, and the texts that they put into buffers."""

import ctypes
import os
import pathlib

SONAME = "librealm.so.1"
DONE, USAGE, UNREAD, UNFIT, NO_ROOM, NO_MEMORY, SLOTS, TOO_LONG, UNLAWFUL = 0, 2, 3, 4, 6, 7, 8, 9, 10
# The least number of misuse, which are the same for runs, events and tasks.
MISUSE = 11

U32, U64, SIZE, TEXT = ctypes.c_uint32, ctypes.c_uint64, ctypes.c_size_t, ctypes.c_char_p


class Verdict(ctypes.Structure):
    """What is told of a text beside the status; what the status does not speak of is 0."""

    _fields_ = [
        ("need", U32),
        ("rule", U32),
        ("first", U32),
        ("second", U32),
        ("line", U64),
        ("why", U32),
        ("fault", U32),
        ("place", U32),
    ]


class Handle(ctypes.Structure):
    """A handle of a run, of work, of a runtime of tasks, or of what the calls on events hold; 0 is empty."""

    _fields_ = [("at", U64)]


class Lines(ctypes.Structure):
    """How many operations of a run are where."""

    _fields_ = [(name, U32) for name in ("unissued", "issued", "out", "ended", "left")]


class AccessNumbers(ctypes.Structure):
    """How a call uses a column of data over a space."""

    _fields_ = [("mode", U32), ("column", U32), ("space", U32)]


class CallNumbers(ctypes.Structure):
    """What the body of a call is told."""

    _fields_ = [
        ("word", ctypes.c_char * 64),
        ("operation", U32),
        ("values", U32),
        ("accesses", U32),
        ("value", U64 * 4),
        ("access", AccessNumbers * 8),
        ("work", ctypes.c_void_p),
    ]


BODY = ctypes.CFUNCTYPE(U32, ctypes.POINTER(CallNumbers), ctypes.c_void_p)


class BodyOfWord(ctypes.Structure):
    """The body for the calls of one word."""

    _fields_ = [("word", TEXT), ("run", BODY), ("context", ctypes.c_void_p)]


TASK_BODY = ctypes.CFUNCTYPE(U32, ctypes.c_size_t)


class DatumHandle(ctypes.Structure):
    """The handle of a datum of a runtime of tasks."""

    _fields_ = [("of", U64), ("place", U32), ("generation", U32)]


class UseNumbers(ctypes.Structure):
    """What a task accesses."""

    _fields_ = [("data", DatumHandle), ("tile", U32), ("mode", U32)]


class FaultNumbers(ctypes.Structure):
    """What a wait tells of a fault."""

    _fields_ = [
        ("task", U64),
        ("answer", U32),
        ("declared", U32),
        ("written", U32),
        ("datum", U64),
        ("pointer", ctypes.c_void_p),
        ("byte", U64),
    ]


class StatsNumbers(ctypes.Structure):
    """What a runtime of tasks has done so far."""

    _fields_ = [
        *((name, U64) for name in ("inserted", "done", "faulted", "cancelled", "windows", "by_waits", "wakes")),
        *((name, U32) for name in ("workers", "data", "is_guarded")),
    ]


class EventHandle(ctypes.Structure):
    """The handle of an event."""

    _fields_ = [("slot", U32), ("gen", U32), ("table", U64)]


_BUFFER = [TEXT, SIZE, ctypes.POINTER(U64)]
_HANDLE, _NUMBER, _EVENT = ctypes.POINTER(Handle), ctypes.POINTER(U32), ctypes.POINTER(EventHandle)
_DATUM = ctypes.POINTER(DatumHandle)
_CALLS = {
    "realm_check": [TEXT, SIZE, ctypes.POINTER(Verdict)],
    "realm_audit": [TEXT, SIZE, ctypes.POINTER(Verdict)],
    "realm_eval": [TEXT, SIZE, *_BUFFER],
    "realm_upgrade": [TEXT, SIZE, *_BUFFER],
    "realm_upgrade_to": [TEXT, SIZE, U32, *_BUFFER],
    "realm_explain": [TEXT, SIZE, *_BUFFER],
    "realm_plan": [TEXT, SIZE, U32, *_BUFFER],
    "realm_make": [U64, U32, *_BUFFER],
    "realm_word": [U32, U32, *_BUFFER],
    "realm_message": [U32, *_BUFFER],
    "realm_run_message": [U32, *_BUFFER],
    "realm_run_new": [TEXT, SIZE, U32, _HANDLE, ctypes.POINTER(Verdict)],
    "realm_run_all": [_HANDLE, U32],
    "realm_run_all_with": [_HANDLE, U32, ctypes.POINTER(BodyOfWord), SIZE],
    "realm_run_issue": [_HANDLE, _NUMBER],
    "realm_run_take": [_HANDLE, U32, _HANDLE, _NUMBER],
    "realm_work_call": [_HANDLE, ctypes.POINTER(CallNumbers)],
    "realm_work_perform": [_HANDLE],
    "realm_work_finish": [_HANDLE, U32],
    "realm_run_put_back": [_HANDLE, _HANDLE],
    "realm_run_woken": [_HANDLE, _NUMBER],
    "realm_run_state": [_HANDLE, ctypes.POINTER(Lines)],
    "realm_run_report": [_HANDLE, *_BUFFER],
    "realm_run_free": [_HANDLE],
    "realm_work_free": [_HANDLE],
    "realm_events_new": [U32, U32, U32, _HANDLE],
    "realm_events_split": [_HANDLE, _HANDLE],
    "realm_events_join": [_HANDLE, _HANDLE],
    "realm_events_create": [_HANDLE, _HANDLE, _EVENT],
    "realm_events_waiter": [_HANDLE, _HANDLE, _NUMBER],
    "realm_events_watch": [_HANDLE, EventHandle, _HANDLE],
    "realm_events_end": [_HANDLE, U32],
    "realm_events_leave": [_HANDLE],
    "realm_events_next": [_HANDLE, _HANDLE, _NUMBER],
    "realm_events_receipt": [_HANDLE, _HANDLE],
    "realm_events_learn": [_HANDLE, _HANDLE, _EVENT],
    "realm_events_look": [_HANDLE, EventHandle],
    "realm_events_close": [_HANDLE],
    "realm_events_closed_look": [_HANDLE, EventHandle],
    "realm_events_closed_place": [_HANDLE, U32, _EVENT],
    "realm_events_free": [_HANDLE],
    "realm_tasks_new": [U32, _HANDLE],
    "realm_data_new": [_HANDLE, ctypes.c_void_p, SIZE, _DATUM],
    "realm_data_tiles": [_HANDLE, DatumHandle, U32, ctypes.POINTER(SIZE)],
    "realm_data_free": [_HANDLE, _DATUM],
    "realm_insert": [_HANDLE, TASK_BODY, ctypes.c_size_t, ctypes.POINTER(UseNumbers), SIZE, ctypes.POINTER(U64)],
    "realm_wait": [_HANDLE, ctypes.POINTER(FaultNumbers)],
    "realm_task_status": [_HANDLE, U64, _NUMBER],
    "realm_tasks_window": [_HANDLE, U32],
    "realm_tasks_stats": [_HANDLE, ctypes.POINTER(StatsNumbers)],
    "realm_tasks_graph": [_HANDLE, *_BUFFER],
    "realm_tasks_message": [U32, *_BUFFER],
    "realm_tasks_free": [_HANDLE],
}


def _file() -> str:
    """The library's file, of REALM_SO, of PREFIX for PREFIX/share/realm/python/realm, or of the repository; else a name for the system to find."""
    if os.environ.get("REALM_SO"):
        return os.environ["REALM_SO"]
    above = pathlib.Path(__file__).resolve().parents
    places = [above[4] / "lib" / SONAME] if above[1].parts[-3:] == ("share", "realm", "python") else [above[2] / "out/c" / SONAME]
    return next((str(it) for it in places if it.is_file()), SONAME)


def _library() -> ctypes.CDLL:
    lib = ctypes.CDLL(_file())
    for name, types in _CALLS.items():
        getattr(lib, name).argtypes = types
        getattr(lib, name).restype = U32
    lib.realm_version.argtypes, lib.realm_version.restype = [], TEXT
    return lib


LIB = _library()
VERSION: str = LIB.realm_version().decode()


def text_of(call, *arguments):
    """The status of a call, and the text that it puts into a buffer, which is made anew where it is too short; None where there is none."""
    room = 4096
    while True:
        out, written = ctypes.create_string_buffer(room), U64()
        status = call(*arguments, out, room, ctypes.byref(written))
        if status != NO_ROOM:
            return status, out.raw[: written.value] if status == DONE else None
        room = written.value
