"""What is installed, file by file, and the Debian package of it."""
import dataclasses
import datetime
import email.utils
import gzip
import hashlib
import os
import pathlib
import re
import subprocess
import tempfile
import textwrap

from . import completions, pages
from .words import NotMade, NotUnderstood, read_program

TOP = pathlib.Path(__file__).resolve().parent.parent.parent
PROGRAM = TOP / "crates" / "uadisc" / "out" / "uadisc"
MARK = "# From here on tools/package takes the lines for the command that it installs.\n"
COMMAND = """#!/bin/bash
# Runs the program of the folder lib/uadisc beside this one.
top=$(cd "$(dirname "$(readlink -f "$0")")/../lib/uadisc" && pwd) || exit 1
program=$top/uadisc
"""
MACHINES = {62: "amd64", 183: "arm64"}
# Debian's package for each library that a program of the kit is linked with.
LIBRARIES = {"libc": "libc6", "libm": "libc6", "libpthread": "libc6", "libdl": "libc6", "libgcc_s": "libgcc-s1"}
# The program is the very one that was proved and built, so nothing is taken out of it.
UNSTRIPPED = "uadisc: unstripped-binary-or-object [usr/lib/uadisc/uadisc]\n"
COPYRIGHT = """The program uadisc, and what is beside it here, is made from the sources of Genipstrake
at commit {commit}.

Copyright (C) {year} Genipstrake maintainers

The sources state no licence of their own.

The program has code in it of crates of the kit of Rattle by which it is proved and built: std, {crates}, and those that these stand on.
Each has its own licence, which is in the kit, beside the crate.
"""


@dataclasses.dataclass
class Commit:
    """The commit that is packed: its id, its moment, and who made it."""
    name: str
    moment: int
    maintainer: str


def git(*words):
    done = subprocess.run(["git", *words], cwd=TOP, capture_output=True, text=True, check=False)
    if done.returncode != 0:
        raise NotMade(f"`git {' '.join(words)}` says: {done.stderr.strip()}")
    return done.stdout.strip()


def this_commit():
    name, moment, maintainer = git("log", "-1", "--format=%H%n%ct%n%an <%ae>").split("\n")
    if git("status", "--porcelain"):
        name += " and changes that are not committed"
    return Commit(name, int(os.environ.get("SOURCE_DATE_EPOCH", moment)), maintainer)


def zipped(text):
    return gzip.compress(text.encode(), compresslevel=9, mtime=0)


def crates_of_kit():
    """The libraries that the crates of the program use and that are not of this repository."""
    lines = (TOP / "crates.txt").read_text(encoding="utf-8").split("\n# Tests")[0].splitlines()
    lines = [line.split(":") for line in lines if line and not line.startswith("#")]
    own = {line[0].split()[0] for line in lines}
    return sorted({name for line in lines for name in line[1].split()} - own)


def installed_command():
    """The command: ./uadisc from the line on that the program is there."""
    parts = (TOP / "uadisc").read_text(encoding="utf-8").split(MARK)
    if len(parts) != 2:
        raise NotUnderstood(f"./uadisc without the one line `{MARK.strip()}`")
    return COMMAND + parts[1]


def scripts_of(command):
    """The scripts of tools/ that the command calls."""
    found = sorted(set(re.findall(r"\$top/tools/([\w-]+)", command)))
    if not found:
        raise NotUnderstood("./uadisc calls no script of tools/")
    return found


def changelog(version, commit):
    date = email.utils.formatdate(commit.moment).replace("-0000", "+0000")
    made = textwrap.fill(f"Made from commit {commit.name}.", 78, initial_indent="  * ", subsequent_indent="    ")
    return f"uadisc ({version}) unstable; urgency=medium\n\n{made}\n\n -- {commit.maintainer}  {date}\n"


def documents(version, commit):
    """What stands in the folder of documents: as in the sources, so that links between them hold."""
    files = {name: (TOP / name).read_bytes() for name in ["README.md"]}
    for folder in ("docs", "examples"):
        files |= {f"{folder}/{path.name}": path.read_bytes() for path in sorted((TOP / folder).iterdir()) if path.is_file()}
    year = datetime.datetime.fromtimestamp(commit.moment, datetime.UTC).year
    notice = COPYRIGHT.format(commit=commit.name, year=year, crates=", ".join(crates_of_kit()))
    files["copyright"] = ("\n\n".join(textwrap.fill(part, 78) for part in notice.strip().split("\n\n")) + "\n").encode()
    files["changelog.gz"] = zipped(changelog(version, commit))
    return files


def tree(commit, zsh_folder="vendor-completions"):
    """The version, and all files below the prefix with their bytes and modes."""
    version, top, commands = read_program(PROGRAM)
    date = datetime.datetime.fromtimestamp(commit.moment, datetime.UTC).date().isoformat()
    formats, guide = ((TOP / "docs" / name).read_text(encoding="utf-8") for name in ("FORMATS.md", "GUIDE.md"))
    files = {f"share/man/man1/{name}.1.gz": zipped(text) for name, text in pages.pages(version, date, top, commands, formats, guide).items()}
    files["share/bash-completion/completions/uadisc"] = completions.bash(top, commands).encode()
    files[f"share/zsh/{zsh_folder}/_uadisc"] = completions.zsh(top, commands).encode()
    files["share/fish/vendor_completions.d/uadisc.fish"] = completions.fish(top, commands).encode()
    files |= {f"share/doc/uadisc/{name}": text for name, text in documents(version, commit).items()}
    files["lib/uadisc/examples/uadisc.schema.json"] = (TOP / "examples" / "uadisc.schema.json").read_bytes()
    command = installed_command()
    run = {"bin/uadisc": command.encode(), "lib/uadisc/uadisc": PROGRAM.read_bytes()}
    run |= {f"lib/uadisc/tools/{name}": (TOP / "tools" / name).read_bytes() for name in scripts_of(command)}
    return version, top, commands, {**{path: (text, 0o644) for path, text in files.items()}, **{path: (text, 0o755) for path, text in run.items()}}


def put(files, folder, moment=None):
    """Writes files below a folder, all with one moment where one is given."""
    for path, (text, mode) in sorted(files.items()):
        place = folder / path
        for parent in reversed(place.relative_to(folder).parents):
            if not (folder / parent).is_dir():
                (folder / parent).mkdir(parents=True)
                (folder / parent).chmod(0o755)
        # What is there may be in use, as a program that runs: it is replaced, not written into.
        place.unlink(missing_ok=True)
        place.write_bytes(text)
        place.chmod(mode)
    if moment is not None:
        for place in [*folder.rglob("*"), folder]:
            os.utime(place, (moment, moment))


def machine(program):
    if program[:4] != b"\x7fELF" or (number := int.from_bytes(program[18:20], "little")) not in MACHINES:
        raise NotMade("crates/uadisc/out/uadisc is no program for a machine that is known here")
    return MACHINES[number]


def depends(program):
    """Debian's packages of the libraries that the program names, the C library in the version that it needs."""
    needed = set()
    for name in set(re.findall(rb"\0(lib[a-z_]+)\.so\.\d+(?=\0)", program)):
        if name.decode() not in LIBRARIES:
            raise NotMade(f"the program wants the library {name.decode()}, of which no package is known here")
        needed.add(LIBRARIES[name.decode()])
    versions = [tuple(map(int, found.split(b"."))) for found in re.findall(rb"\0GLIBC_(\d+(?:\.\d+)+)(?=\0)", program)]
    if versions:
        needed = needed - {"libc6"} | {f"libc6 (>= {'.'.join(map(str, max(versions)))})"}
    return sorted(needed)


def control(version, top, commands, files, commit):
    program = files["usr/lib/uadisc/uadisc"][0]
    size = sum(-(-len(text) // 1024) for text, _ in files.values()) + len({str(parent) for path in files for parent in pathlib.PurePath(path).parents})
    needed = depends(program)
    lines = ["Package: uadisc", f"Version: {version}", f"Architecture: {machine(program)}", f"Maintainer: {commit.maintainer}",
             f"Installed-Size: {size}", *([f"Depends: {', '.join(needed)}"] if needed else []), "Recommends: python3 (>= 3.11)",
             "Section: net", "Priority: optional", f"Description: {top.about}",
             *textwrap.wrap("A program whose code is proved against definitions of the wire format. Its commands:", 78, initial_indent=" ", subsequent_indent=" "), " ."]
    for command in commands:
        lines += textwrap.wrap(f"{command.name.split()[-1]}: {command.about}", 78, initial_indent="  * ", subsequent_indent="    ")
    return "\n".join(lines) + "\n"


def sums(files):
    return "".join(f"{hashlib.md5(text, usedforsecurity=False).hexdigest()}  {path}\n" for path, (text, _) in sorted(files.items()))


def debian_package(folder):
    """Makes the package in a folder, and gives its path."""
    commit = this_commit()
    version, top, commands, files = tree(commit)
    files = {f"usr/{path}": what for path, what in files.items()}
    if b".symtab\0" in files["usr/lib/uadisc/uadisc"][0]:
        files["usr/share/lintian/overrides/uadisc"] = (UNSTRIPPED.encode(), 0o644)
    made = folder / f"uadisc_{version}_{machine(files['usr/lib/uadisc/uadisc'][0])}.deb"
    with tempfile.TemporaryDirectory() as place:
        root = pathlib.Path(place) / "uadisc"
        head = {"DEBIAN/control": control(version, top, commands, files, commit), "DEBIAN/md5sums": sums(files)}
        put(files | {path: (text.encode(), 0o644) for path, text in head.items()}, root, commit.moment)
        root.chmod(0o755)
        folder.mkdir(exist_ok=True)
        done = subprocess.run(["dpkg-deb", "--build", "--root-owner-group", "-Zxz", str(root), str(made)], check=False, capture_output=True,
                              text=True, env={**os.environ, "SOURCE_DATE_EPOCH": str(commit.moment)})
    if done.returncode != 0:
        raise NotMade(f"dpkg-deb says: {done.stderr.strip()}")
    return made
