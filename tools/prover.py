"""Proves and builds crates over what is kept, and keeps what it proved under a sum of the sources that it read."""

import shutil
import signal
import subprocess
import sys

from crates import Crates
from kept import Kept


def say(text):
    print(text, file=sys.stderr, flush=True)


class Prover:
    """The crates below some targets, and the proved libraries that were found or made of them."""

    def __init__(self, crates, names):
        self.crates, self.kept, self.libraries = crates, Kept(), {}
        self.keys = crates.keys(names)

    def find(self, names):
        """Takes each library that is kept: those that have to be proved, each with those of them that it waits for. A crate comes behind those that it
        stands on."""
        for it in names:
            found = self.kept.find(it, self.keys[it])
            if found:
                self.libraries[it] = found
        left = [it for it in names if it not in self.libraries]
        return {it: [low for low in self.crates.own(it) if low in left] for it in left}

    def prove(self, name, jobs):
        """Proves and builds one crate, and keeps it: whether it is proved."""
        room = self.kept.room(name)
        made = room / self.crates.made(name)
        for number in sorted({jobs, 1}, reverse=True):
            words = self.crates.build_words(name, self.libraries, made, number)
            ran = subprocess.run(words, cwd=self.crates.folder(name), stdin=subprocess.DEVNULL, capture_output=True, text=True, errors="replace")
            # one that is killed, most likely for memory, is tried once more with one job
            if ran.returncode != -signal.SIGKILL:
                break
        said = ran.stdout + ran.stderr
        well = ran.returncode == 0 and any(it.startswith("logic=proved ") for it in said.splitlines())
        if not well:
            say(f"{said}\nrealm: {name} is NOT PROVED")
        if well and self.is_unchanged(name) and (not self.crates.is_program(name) or self.link(made, room / name)):
            self.kept.keep(name, self.keys[name], room)
            if not self.crates.is_program(name) and name not in self.crates.static:
                self.libraries[name] = self.kept.library(name, self.keys[name])
            return True
        shutil.rmtree(room, ignore_errors=True)
        return False

    def is_unchanged(self, name):
        """Whether the sources are still those of the key, so that what was proved is kept under the right one."""
        if Crates(root=self.crates.root, kit=self.crates.kit).keys([name])[name] == self.keys[name]:
            return True
        say(f"realm: a source of {name} changed while it was proved: start again")
        return False

    def link(self, made, program):
        ran = subprocess.run(self.crates.link_words(made, program), capture_output=True, text=True, errors="replace")
        made.unlink()
        if ran.returncode:
            say(f"{ran.stdout}{ran.stderr}\nrealm: {program.name} is not linked")
        return ran.returncode == 0
