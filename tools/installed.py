"""The tree of an installation: which file stands where, and its text. bin/install and bin/release share this.

Nothing in it names the repository or the toolchain, and all finds its parts by where it lies itself, so the tree may be moved as a whole.
"""

import hashlib
import os
import pathlib
import re
import shutil
import subprocess

from crates import PROGRAMS, ROOT

BUILT = ROOT / "out/programs"
DOCUMENTS = ("LANGUAGE", "ERRORS", "DEBUGGING", "EMBEDDING")
EXAMPLES = (".realm", ".flow", ".session", ".trace", ".out", ".c", ".h", ".cpp", ".py")
# The shared library's file. Its number is raised where a program that was built before would not go on with the library.
SONAME = "librealm.so.1"
# Where the files of an installation are listed, and their sums.
LIST = "share/realm/installed"
SUMS = "share/realm/SHA256SUMS"
PLACES = """# Where the parts of the installation are
help=$root/share/realm/help
version=$root/share/realm/VERSION

find_program() {
    program=$root/libexec/realm/$name
}
"""
PKG_CONFIG = """prefix=${{pcfiledir}}/../..
includedir=${{prefix}}/include
libdir=${{prefix}}/lib

Name: realm
Description: Checks, evaluates and plans graphs of array operations, and events that threads share
Version: {version}
Cflags: -I${{includedir}}
Libs: -L${{libdir}} -lrealm
Libs.private: -lrealm_events -pthread
"""


def version():
    return (ROOT / "VERSION").read_text().strip()


def launcher():
    """bin/realm with the places of an installation for those of the repository."""
    text = (ROOT / "bin/realm").read_text()
    found = re.sub(r"(?ms)^# The repository \(.*?^# \(up to here\)\n", lambda _: PLACES, text)
    if found == text:
        raise SystemExit("install: bin/realm has no lines on the repository")
    return found


def document(text):
    """A text without the places of the repository: commands are found on the PATH, and links to what is not installed are plain words."""
    text = re.sub(r"(?<![\w/])bin/(?=realm)|(?<![\w/])docs/(?=[A-Z]+\.md)", "", text)
    link = r"\[([^\]]*)\]\(((?:\.\./)?[\w/.-]+)(#[^)]*)?\)"
    return re.sub(link, lambda it: it[0] if it[2] in {f"{name}.md" for name in DOCUMENTS} else it[1], text)


def texts():
    """Each file that is made or changed here, with its text."""
    found = {"bin/realm": launcher(), "lib/pkgconfig/realm.pc": PKG_CONFIG.format(version=version())}
    for name in DOCUMENTS:
        found[f"share/doc/realm/{name}.md"] = document((ROOT / f"docs/{name}.md").read_text())
    for path in sorted((ROOT / "examples").rglob("*")):
        if path.suffix in EXAMPLES:
            text = path.read_text()
            found[f"share/doc/realm/{path.relative_to(ROOT)}"] = document(text) if path.suffix == ".out" else text
    return found


def copies(libraries):
    """Each file that is copied, with where it is copied from."""
    found = {f"libexec/realm/{name}": BUILT / crate for name, crate in PROGRAMS.items()}
    found |= {f"lib/{it}": libraries / it for it in ("librealm.a", "librealm_events.a", SONAME)}
    found |= {f"include/{it.name}": it for it in (ROOT / "include").iterdir()}
    found |= {f"share/man/man{it.suffix[1:]}/{it.name}": it for it in (ROOT / "manual/man").iterdir()}
    found |= {f"share/realm/help/{it.name}": it for it in (ROOT / "manual/help").iterdir()}
    found |= {f"share/realm/python/realm/{it.name}": it for it in (ROOT / "python/realm").iterdir() if it.is_file()}
    found["share/realm/VERSION"], found["share/realm/python/pyproject.toml"] = ROOT / "VERSION", ROOT / "python/pyproject.toml"
    found["share/bash-completion/completions/realm"] = ROOT / "manual/completions/realm.bash"
    found["share/zsh/site-functions/_realm"] = ROOT / "manual/completions/_realm"
    return found


LINKS = {
    "lib/librealm.so": SONAME,
    "bin/realm-explain": "realm",
    "bin/realm-flow": "realm",
    "share/bash-completion/completions/realm-explain": "realm",
    "share/bash-completion/completions/realm-flow": "realm",
}
RUN = ("bin/", "libexec/", f"lib/{SONAME}")


def put(path, write):
    """Puts a file in the place of what is there, at once."""
    path.parent.mkdir(parents=True, exist_ok=True)
    new = path.with_name(f".{path.name}.new")
    new.unlink(missing_ok=True)
    write(new)
    os.replace(new, path)


def write_tree(prefix, libraries, more):
    """Writes an installation below a folder, with `more` texts by their places, and takes away what an older one had besides: its files."""
    prefix, made, copied = pathlib.Path(prefix), {**texts(), **more}, copies(libraries)
    before, names = listed(prefix), sorted([*made, *copied, *LINKS, SUMS, LIST])
    folders = folders_of(names)
    new_folders = [it for it in folders if it in before or not (prefix / it).is_dir()]
    foreign = [at for at in names if at not in before and os.path.lexists(prefix / at)]
    if foreign:
        raise FileExistsError(0, "it stands there and no installation put it there: move it away, or install elsewhere", str(prefix / foreign[0]))
    # (first, so that bin/uninstall knows what an installation wrote that was stopped)
    put_list(prefix, {*names, *(it for it in before if not it.endswith("/"))}, {*new_folders, *(it for it in before if it.endswith("/"))})
    for at, text in made.items():
        put(prefix / at, lambda new, text=text: new.write_text(text))
    for at, origin in copied.items():
        put(prefix / at, lambda new, origin=origin: shutil.copyfile(origin, new))
    for at in [*made, *copied]:
        (prefix / at).chmod(0o755 if at.startswith(RUN) else 0o644)
    for at, to in LINKS.items():
        put(prefix / at, lambda new, to=to: new.symlink_to(to))
    sums = (f"{hashlib.sha256((prefix / at).read_bytes()).hexdigest()}  {at}\n" for at in sorted([*made, *copied]))
    put(prefix / SUMS, lambda new: new.write_text("".join(sums)))
    put_list(prefix, names, new_folders)
    for at in before - {*names, *folders}:
        if not at.endswith("/"):
            (prefix / at).unlink(missing_ok=True)
    return names


def put_list(prefix, names, folders):
    """Writes the list of what bin/uninstall takes away: files, and then folders, those within others first."""
    lines = [*sorted(names), *sorted(folders, key=lambda it: (-it.count("/"), it))]
    put(prefix / LIST, lambda new: new.write_text("".join(f"{it}\n" for it in lines)))


def folders_of(names):
    """The folders of these files, each with a / behind it, those within others first."""
    found = {f"{it}/" for name in names for it in pathlib.PurePath(name).parents if str(it) != "."}
    return sorted(found, key=lambda it: (-it.count("/"), it))


def listed(prefix):
    """What the installation that is there has."""
    try:
        return {it for it in (pathlib.Path(prefix) / LIST).read_text().splitlines() if it and not it.startswith("/") and ".." not in it.split("/")}
    except OSError:
        return set()


def build_all():
    """Builds what an installation has, where it is missing or stale: whether all is built."""
    commands = [[ROOT / "tools/build-program", *PROGRAMS.values()], [ROOT / "bin/build-c"], [ROOT / "tools/write-manual", "--check"]]
    return all(subprocess.run(it).returncode == 0 for it in commands)
