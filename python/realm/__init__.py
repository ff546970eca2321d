"""Graphs of array operations by their texts: checked, evaluated, planned, explained, and run by threads; events that threads share; and tasks over buffers.

    import realm

    text = open("graph.realm").read()
    try:
        print(realm.check(text), "event slots are enough")
        print(realm.run(text, threads=4))
    except realm.Refused as refused:
        print(refused.line, refused.reason)
        print(refused.explanation)

A text is str or bytes, and what is made of it is of the same type. This is librealm.so by ctypes: the file that the variable REALM_SO names, else that of the
installation or the repository to which this package belongs, else one that the system finds. A call lets other threads go on meanwhile.
"""

from ._library import VERSION as __version__
from .errors import Misuse, Refused, Undeclared
from .events import Closed, Ended, Event, Owner, Pending, Place, Receipt, Waiter
from .runs import Access, Call, Run, State, Work, run
from .tasks import Data, Stats, Tasks, Tile
from .texts import FAULT, RULE, WHY, audit, check, evaluate, explain, make, plan, upgrade, word

__all__ = [
    "FAULT", "RULE", "WHY", "Access", "Call", "Closed", "Data", "Ended", "Event", "Misuse", "Owner", "Pending", "Place", "Receipt", "Refused", "Run", "State",
    "Stats", "Tasks", "Tile", "Undeclared", "Waiter", "Work", "__version__", "audit", "check", "evaluate", "explain", "make", "plan", "run", "upgrade", "word",
]  # fmt: skip
