"""The public functions of a crate with their clauses, as `tests/claims` reads them off the code."""

import re

FUNCTION = re.compile(r"\bfn\s+(\w+)")
BLOCK = re.compile(r"^(?:pub )?(?P<kind>impl|trait)\b(?P<head>[^{;]*)\{", re.M)
CLAUSE = re.compile(r"\b(requires|ensures)\*?[ \t]*(\w*)\s*$")
MODULE = re.compile(r"^(?:#\[cfg\(test\)\]\s*\n)?(?P<public>pub )?(?:pub\([a-z]+\) )?mod (?P<name>\w+);", re.M)
IMPORT = re.compile(r"ghost use Rattle\.(\w+\.specs(?:\.(?!declared\b)\w+)+)\.\{([^}]*)\}")
WORD = re.compile(r"[^\s(){}\[\],;.]+")
TEXTS = re.compile(r'//[^\n]*|"(?:\\.|[^"\\])*"|b?\'(?:\\.|[^\'\\])\'')


def bare(text):
    """A source without comments, texts and characters, whose braces would count."""
    return TEXTS.sub(lambda it: "" if it[0].startswith("//") else '""', text)


def end_of(text, start):
    """Where the block ends whose brace stands at `start`."""
    depth = 0
    for it in re.compile(r"[{}]").finditer(text, start):
        depth += 1 if it[0] == "{" else -1
        if depth == 0:
            return it.end()
    return len(text)


def owner(head):
    """The type that a block is of, and whether the block is one for a trait."""
    head = re.split(r"\bwhere\b", head)[0].strip()
    depth = 0
    for place, letter in enumerate(head if head.startswith("<") else ""):
        depth += {"<": 1, ">": -1}.get(letter, 0) if head[place - 1 : place] != "-" else 0
        if depth == 0:
            head = head[place + 1 :]
            break
    trait, found, kind = head.rpartition(" for ")
    name = re.match(r"\s*&?(?:mut )?(?:\w+::)*(\w+)", kind)
    return name[1] if name else "", bool(found)


def ensured(text, start):
    """The `ensures` behind a function's name: the name of each, "" where it has none, with what it says."""
    found, at = [], start
    while it := re.compile(r"[{;]").search(text, at):
        said = CLAUSE.search(text[at : it.start()])
        if it[0] == ";" and text.count("[", start, it.start()) > text.count("]", start, it.start()):
            at = it.end()
        elif it[0] == "{" and said:
            end = end_of(text, it.start())
            found += [(said[2], text[it.start() : end])] if said[1] == "ensures" else []
            at = end
        else:
            break
    return found


def cited(clauses, imports):
    """The definitions that clauses cite, each as its module and name."""
    return {imports[it] for _, said in clauses for it in WORD.findall(said) if it in imports}


def modules(folder, file=None, public=True):
    """The files of a crate's modules, each with whether its path is public."""
    if not file:
        file = next(it for it in (folder / "lib.rt", folder / "main.rt") if it.is_file())
    text = file.read_text()
    yield text, public
    for it in MODULE.finditer(text):
        below = folder / f"{it['name']}.rt"
        if below.is_file():
            yield from modules(folder / it["name"], below, public and bool(it["public"]))


def imported(text):
    """The definitions that a source names, by the word that it has for each."""
    found = {}
    for module, names in IMPORT.findall(text):
        for name in filter(None, (it.strip() for it in names.split(","))):
            itself, _, here = name.partition(" as ")
            found[here.strip("{} ") or itself] = module, itself
    return found


def shown(text):
    """The names that a public module shows: what it exports, and its own public items."""
    for it in re.findall(r"^\s*pub use ([^;]+);", re.sub(r"//[^\n]*", "", text), re.M):
        yield from re.findall(r"(\w+)\s*(?:,|\}|$)", it)
    yield from re.findall(r"^pub (?:struct|enum|trait|fn|type) (\w+)", text, re.M)


class Call:
    """A function with an `ensures`: the names of these, the definitions that they cite, and whether it is public."""

    def __init__(self, clauses, imports, public):
        self.clauses = {name for name, _ in clauses}
        self.cited = cited(clauses, imports)
        self.public = public


def calls(folder):
    """The functions of a crate with an `ensures`, by the name that CLAIMS has for each."""
    found = {}
    texts = list(modules(folder / "src"))
    names = {name for text, public in texts if public for name in shown(text)}
    for text, _ in texts:
        imports = imported(text)
        text = bare(text) if "ensures" in text else ""
        blocks = [(it.start(), end_of(text, it.end() - 1), it["kind"], *owner(it["head"])) for it in BLOCK.finditer(text)]
        for it in FUNCTION.finditer(text):
            name, before = it[1], text[text.rfind("\n", 0, it.start()) + 1 : it.start()].split()
            clauses = ensured(text, it.end())
            around = next((block for block in blocks if block[0] <= it.start() < block[1]), None)
            if clauses and around:
                _, _, kind, of, for_trait = around
                public = of in names and (kind == "trait" or for_trait or "pub" in before)
                found[f"{of}::{name}"] = Call(clauses, imports, public)
            elif clauses:
                public = "pub" in before and (name in names or "extern" in before)
                if public or name not in found:
                    found[name] = Call(clauses, imports, public)
    return found
