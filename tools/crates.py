"""The crates of crates.txt: what each uses, the files that its proof reads, and the words by which `rattle` proves it.

The commands beside `rt ci` that prove crates (`tools/build-program`, `tests/wrong-edits`, `bench/gate`) share this.
"""

import hashlib
import os
import pathlib
import shutil
import subprocess

ROOT = pathlib.Path(__file__).resolve().parent.parent
PARTS = ("src", "specs", "proofs")
TARGET = "x86_64-unknown-linux-gnu"
# The crate of each program, by its name in bin/.
PROGRAMS = {"realm": "realm_main", "realm-explain": "realm_explain", "realm-flow": "realm_flow"}


def kit_folder():
    """The folder of the Rattle toolchain, by the page that it tells to read first."""
    if not shutil.which("rt"):
        raise SystemExit("realm: the Rattle toolchain's command rt is not on the PATH, and nothing is proved or built without it")
    ran = subprocess.run(["rt", "doc"], capture_output=True, text=True, check=True)
    return pathlib.Path(ran.stdout.strip()).parent


class Crates:
    """The crates of a checkout."""

    def __init__(self, root=ROOT, kit=None):
        self.root = pathlib.Path(root)
        self.kit = kit or kit_folder()
        # each crate with what it uses, of the repository and of the kit
        self.uses = {}
        self.static = set()
        for line in (self.root / "crates.txt").read_text().splitlines():
            head, colon, uses = line.partition("#")[0].partition(":")
            if colon:
                name, *kind = head.split()
                self.uses[name] = uses.split()
                if kind == ["staticlib"]:
                    self.static.add(name)

    def folder(self, name):
        return self.root / "crates" / name

    def own(self, name):
        """The crates of the repository that a crate names."""
        return [it for it in self.uses[name] if it in self.uses]

    def below(self, name):
        """All crates that a crate stands on, each behind those that it stands on itself."""
        found = {}
        for it in self.own(name):
            found.update(dict.fromkeys([*self.below(it), it]))
        return list(found)

    def closure(self, names):
        """These crates and all that they stand on, each behind those that it stands on itself."""
        found = {}
        for it in names:
            found.update(dict.fromkeys([*self.below(it), it]))
        return list(found)

    def is_program(self, name):
        return (self.folder(name) / "src/main.rt").is_file()

    def files(self, name):
        """The files that the proof of a crate reads."""
        folders = (self.folder(name) / part for part in PARTS)
        return sorted(it for folder in folders for it in folder.rglob("*") if it.is_file())

    def lines(self, name):
        return sum(it.read_bytes().count(b"\n") for it in self.files(name))

    def keys(self, names):
        """For each of the crates a sum of all that its proof rests on: the kit, its files, and the same of the crates below it."""
        kit = (self.kit / "KIT-ID").read_text() + (self.kit / "WHAT").read_text()
        found = {}
        for name in self.closure(names):
            below = [found[it] for it in self.own(name)]
            total = hashlib.sha256(repr((kit, name, name in self.static, self.uses[name], below)).encode())
            for file in self.files(name):
                total.update(repr((str(file.relative_to(self.folder(name))), file.read_bytes())).encode())
            found[name] = total.hexdigest()
        return found

    def words(self, verb, name, libraries, *more):
        """The command that checks or builds a crate over proved libraries, each with its file or folder."""
        root = "src/main.rt" if self.is_program(name) else "src/lib.rt"
        words = ["rattle", verb, "--crate-name", name, root]
        for it in ["std", *self.uses[name]]:
            words += ["--extern", f"{it}={libraries.get(it) or self.kit / 'rlibs' / f'{it}.rlib'}"]
        words += ["-L", f"dependency={self.kit}/rlibs"]
        for it in dict.fromkeys(os.path.dirname(libraries[below]) for below in self.below(name)):
            words += ["-L", f"dependency={it}"]
        words += ["--links", f"{name}=", "--antt-project", f"{self.kit}/rattle/logic/antt-project.json"]
        words += ["--logic-built", f"{self.kit}/logic_built"]
        return [*words, *(["--crate-type", "staticlib"] if name in self.static else []), *more]

    def made(self, name):
        """The name of what a crate's build writes: the object of a program, a static library's archive, or a library."""
        return f"{name}.o" if self.is_program(name) else f"lib{name}.a" if name in self.static else f"{name}.rlib"

    def build_words(self, name, libraries, made, jobs):
        """The command that proves a crate and builds it: a library's statements, else what is compiled of it."""
        toolchain = ["--toolchain", f"{self.kit}/toolchain"]
        if self.is_program(name):
            kind = [*toolchain, "--backend", "llvm"]
        elif name in self.static:
            kind = toolchain
        else:
            kind = ["--statements"]
        return self.words("build", name, libraries, *kind, "-o", str(made), "--jobs", str(jobs))

    def link_words(self, made, program):
        words = [f"{self.kit}/bin/rattle-link", "--target", TARGET, "--toolchain", f"{self.kit}/toolchain"]
        return [*words, "-o", str(program), str(made), f"{self.kit}/c/libos_c.a", f"{self.kit}/c/liblibc_c.a"]
