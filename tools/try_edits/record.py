"""The record of what was tried: the file wrong-bodies.passed has, for each crate, a digest of all texts on which the outcome depends,
and for each of its places what refused it there."""
import collections
import hashlib
import os
import re
import subprocess

from try_edits.edits import FOLDERS, ROOT, functions_of, read, title, write

PATH = f"{ROOT}/wrong-bodies.passed"
HEAD = """\
# For each crate: how many places its wrong bodies change, the digest of all texts on which it depends whether they are refused, the logic,
# the kit, and the commit over which they were tried; behind it each place, its functions and what refused it. `tools/try-edits CRATE`
# writes this; a line written by hand is found when it is drawn (docs/GATE.md).
"""

# What was tried of a crate. A line of places is `TITLE FILE:LINE FUNCTIONS: WHAT REFUSED IT`; one of `dropped` is `EDIT: WHY`.
Entry = collections.namedtuple("Entry", "number digest logic kit commit places dropped")
OF_CRATE = re.compile(r"(\w+) (\d+) ([0-9a-f]{64}) (logic-\w+) (\S+) ([0-9a-f]{40})\Z")


class Record:
    """What the file says: an entry for each crate, and over which commit all places of all crates were last tried in one run."""

    def __init__(self):
        self.entries, self.whole = {}, None
        for line in read(PATH).split("\n") if os.path.isfile(PATH) else []:
            found = OF_CRATE.match(line)
            if found:
                name = found[1]
                self.entries[name] = Entry(int(found[2]), *found.groups()[2:], [], [])
            elif line.startswith("all "):
                self.whole = line
            elif line.startswith("  dropped "):
                self.entries[name].dropped.append(line[len("  dropped ") :])
            elif line.startswith("  "):
                self.entries[name].places.append(line[2:])

    def save(self, crates):
        """Writes the file, crate by crate in their order, as a whole or not at all."""
        lines = [self.whole] if self.whole else []
        for name in (it for it in crates if it in self.entries):
            entry = self.entries[name]
            lines.append(f"{name} {entry.number} {entry.digest} {entry.logic} {entry.kit} {entry.commit}")
            lines += [f"  dropped {it}" for it in entry.dropped] + [f"  {it}" for it in entry.places]
        write(f"{PATH}.new", HEAD + "".join(f"{it}\n" for it in lines))
        os.replace(f"{PATH}.new", PATH)


def git(*words):
    """What git says of the repository, without the end of its last line; nothing where it fails."""
    done = subprocess.run(["git", "-C", ROOT, *words], stdin=subprocess.DEVNULL, capture_output=True, text=True, check=False)
    return done.stdout.rstrip("\n") if done.returncode == 0 else ""


def version():
    """The names of the kit and of its logic. A proof depends on the logic alone."""
    said = subprocess.run(["rt", "version"], stdin=subprocess.DEVNULL, capture_output=True, text=True, check=True).stdout.split()
    return said[0], f"logic-{said[said.index('logic') + 1]}"


def files_in(folder):
    for at, folders, names in os.walk(folder):
        folders.sort()
        yield from (f"{at}/{name}" for name in sorted(names))


def without_bodies(text):
    """A source without the bodies of its functions that are not `const`: a caller is proved from what is left. Macros are left as they are."""
    if "macro_rules!" in text:
        return text
    lines = text.split("\n")
    for it in reversed(functions_of("", text)):
        if not re.search(r"\bconst fn\b", lines[it.first - 1]):
            del lines[it.body : it.last - 1]
    return "\n".join(lines)


def of_tools():
    """The scripts that judge, and what the repository may do."""
    paths = [f"{ROOT}/HANDLES", f"{ROOT}/tools/try-edits", *files_in(f"{ROOT}/tools/try_edits")]
    return [it for it in paths if it.endswith((".py", "HANDLES", "try-edits"))]


def texts_for(crate, logic, known):
    """The texts on which it depends whether the wrong bodies of a crate are refused, by name; those that were read before are known."""

    def take(path, is_whole=True):
        if (path, is_whole) not in known:
            known[path, is_whole] = read(path) if is_whole else without_bodies(read(path))
        return known[path, is_whole]

    texts = {"logic": logic, **{it: take(it) for it in of_tools()}}
    for it in [*crate.below, crate]:
        texts[f"{it.name}:"] = it.line
        for folder in ("src", "specs", "proofs", *(FOLDERS if it is crate else ())):
            for path in files_in(f"{it.folder}/{folder}"):
                texts[path] = take(path, it is crate or folder != "src" or not path.endswith(".rt"))
    return texts


def digests_of(crates, logic):
    """For each crate, by name, one number for all these texts, with their names (below the repository) and lengths."""
    found, known = {}, {}
    for crate in crates:
        digest = hashlib.sha256()
        for name, text in sorted(texts_for(crate, logic, known).items()):
            bytes_of_it = text.encode()
            digest.update(f"{os.path.relpath(name, ROOT) if name.startswith('/') else name} {len(bytes_of_it)}\n".encode() + bytes_of_it)
        found[crate.name] = digest.hexdigest()
    return found


def uncommitted(crate):
    """What of these texts is not as the last commit has it."""
    folders = [f"crates/{it.name}/{folder}" for it in [*crate.below, crate] for folder in ("src", "specs", "proofs", *FOLDERS)]
    paths = ["HANDLES", "crates.txt", "tools/try-edits", "tools/try_edits", *filter(lambda it: os.path.isdir(f"{ROOT}/{it}"), folders)]
    return git("status", "--porcelain", "--", *paths) or ("" if git("rev-parse", "HEAD") else "there is no commit")


def place_of(place):
    """How the record names a place."""
    names = ", ".join(it.name for it in place.functions) or "-"
    return f"{title(place.edit)} {place.pairs[0].file}:{place.line} {names}"


def too_few(entry, number):
    """Whether places went of which nobody says why."""
    return number < entry.number - len(entry.dropped)
