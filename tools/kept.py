"""What was proved is kept, each library under a sum of all that its proof rests on, for all checkouts of one user.

It lies in $REALM_KEPT, else in realm-proved below $XDG_CACHE_HOME or ~/.cache, else, where no file can be made there, in out/kept. Whoever can write
there is trusted as whoever can write to a checkout's own out/. `rt ci` proves from nothing and takes nothing from there.
"""

import os
import pathlib
import re
import shutil
import tempfile
import time

from crates import ROOT

# So many are kept, of 1 to 150 MiB each: those that were used last. One that was used within these seconds stays in any case.
MOST, USED_NOW = 160, 3 * 3600
# The names of what is kept, of what is being built, and of what is being removed. Nothing else in the folder is ever touched.
NAME, PASSING = re.compile(r"[a-z0-9_]+-[0-9a-f]{32}"), re.compile(r"\.(new|old)-[a-z0-9_]+-\w+")


def folder():
    """The folder, which is made where it isn't there."""
    cache = os.environ.get("XDG_CACHE_HOME") or os.path.expanduser("~/.cache")
    for it in (os.environ.get("REALM_KEPT") or f"{cache}/realm-proved", ROOT / "out/kept"):
        try:
            os.makedirs(it, exist_ok=True)
        except OSError:
            continue
        if os.access(it, os.W_OK):
            return pathlib.Path(it)
    raise SystemExit("realm: no folder can be written to in which what is proved could be kept: set REALM_KEPT")


class Kept:
    """The folder of what was proved."""

    def __init__(self):
        self.folder = folder()

    def place(self, name, key):
        """The folder that holds one crate's library, archive or program alone."""
        return self.folder / f"{name}-{key[:32]}"

    def library(self, name, key):
        return self.place(name, key) / f"{name}.rlib"

    def find(self, name, key, made=None):
        """What was made of a crate, its library if nothing is said, where it is kept. It then counts as used."""
        found = self.place(name, key) / (made or f"{name}.rlib")
        try:
            os.utime(found.parent)
        except FileNotFoundError:
            return None
        return found if found.exists() else None

    def room(self, name):
        """A new folder on the same disk, for what is being built."""
        return pathlib.Path(tempfile.mkdtemp(prefix=f".new-{name}-", dir=self.folder))

    def keep(self, name, key, room):
        """Takes over a folder that holds what was built; where another build was faster, that one's stays."""
        try:
            os.rename(room, self.place(name, key))
        except OSError:
            shutil.rmtree(room, ignore_errors=True)

    def entries(self, pattern):
        """The names of the folder that are of this pattern, with the time of their last use, the latest first."""
        found = []
        for it in os.scandir(self.folder):
            try:
                if pattern.fullmatch(it.name):
                    found.append((it.stat(follow_symlinks=False).st_mtime, it.name))
            except FileNotFoundError:
                pass
        return sorted(found, reverse=True)

    def clear(self):
        """Removes what was not used for longest, and what a build that was stopped left."""
        now = time.time()
        for used, name in self.entries(NAME)[MOST:]:
            # (renamed first, so that nobody finds a half of it)
            if now - used > USED_NOW:
                try:
                    os.rename(self.folder / name, self.folder / f".old-{name}")
                except OSError:
                    pass
        for used, name in self.entries(PASSING):
            if name.startswith(".old-") or now - used > 24 * 3600:
                shutil.rmtree(self.folder / name, ignore_errors=True)
