"""The definitions in specs/: where each stands, how many lines it has, and what it stands on."""

import functools
import pathlib
import re

ROOT = pathlib.Path(__file__).resolve().parent.parent
IMPORT = re.compile(r"^(?:pub )?use (Rattle\.[\w.]+)\.\{([^}]*)\}", re.M)
DECLARED = re.compile(r"^(?:abbrev |unfoldable )*(?:pub )?(?:record |data )?([^\s(:{]+)(?=[\s(:{])")
WORD = re.compile(r"[^\s(){}\[\],;.]+")


class File:
    """A file of definitions."""

    def __init__(self, path):
        self.lines = path.read_text().splitlines()
        self.spans = {}
        self.imports = {}
        for module, names in IMPORT.findall("\n".join(self.lines)):
            for name in filter(None, (it.strip() for it in names.split(","))):
                itself, _, here = name.partition(" as ")
                self.imports[here.strip("{} ") or itself] = module, itself.strip()
        self.find()

    def find(self):
        """Finds the lines of each definition, with the comment above it."""
        name, comment = None, None
        for place, line in enumerate(self.lines):
            if not line.strip() or line.startswith("--"):
                comment = (place if comment is None else comment) if line.strip() else None
                continue
            if line[0] == " ":
                if name:
                    self.spans[name][1] = place
                continue
            it = None if re.match(r"(pub )?(use|mod) ", line) else DECLARED.match(line)
            name = it[1] if it else None
            if name in self.spans:
                self.spans[name][1] = place
            elif name and re.match(r"(abbrev|unfoldable|pub|record|data) |\S+ .*:", line):
                self.spans[name] = [place if comment is None else comment, place]
            else:
                name = None
            comment = None

    def count(self, name):
        first, last = self.spans[name]
        return last - first + 1

    def words(self, name):
        """The words of a definition, without its comments."""
        first, last = self.spans[name]
        return WORD.findall("\n".join(it for it in self.lines[first : last + 1] if not it.strip().startswith("--")))


@functools.cache
def read(module):
    """The file of a module, where it is one of specs/ of the repository."""
    _, crate, *folders = module.split(".")
    path = (ROOT / "crates" / crate).joinpath(*folders).with_suffix(".antt")
    return File(path) if folders and path.is_file() else None


def stands_on(roots, without=()):
    """Each definition that these stand on, themselves included, each behind those that it stands on: by module and name."""
    found = {}

    def add(module, name):
        file = read(module)
        if (module, name) in found or name in without or not file or name not in file.spans:
            return
        found[module, name] = False
        for word in file.words(name):
            if word in file.spans:
                add(module, word)
            elif word in file.imports:
                add(*file.imports[word])
        found[module, name] = found.pop((module, name)) or file.count(name)

    for it in roots:
        add(*it)
    return found
