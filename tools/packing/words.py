"""Reads the help that `clap` prints: usage, arguments, options and commands. What has another form is told, not passed over."""
import dataclasses
import re
import subprocess

HEADINGS = ("Commands", "Arguments", "Options")
# Words that are paths by their name.
PATHS = ("FILE", "PATH", "SETTINGS")
# What may stand in square brackets behind a word's help.
NOTE = re.compile(r"\s*\[(possible values|default): ([^\]]*)\]$")
PLAIN = re.compile(r"[A-Za-z0-9][\w.+-]*|-")


class NotMade(Exception):
    """Why no package is made."""


class NotUnderstood(NotMade):
    """A part of the help, or of a document, that has another form than is known here."""

    def __str__(self):
        return f"this is not understood: {super().__str__()}"


@dataclasses.dataclass
class Word:
    """A word that an argument or an option takes: its name in the help, what the help says of it, its names if these are all."""
    name: str
    text: str
    values: list[str]
    default: str = ""

    @property
    def is_file(self):
        return self.name in PATHS or re.match(r"(A|The) file\b", self.text) is not None

    @property
    def others(self):
        """What may stand in the place of a file, as `default`."""
        return re.findall(r"\bor `([^`]+)`", self.text) if self.is_file else []


@dataclasses.dataclass
class Option:
    """An option, with the word that it takes, if any."""
    short: str
    long: str
    word: Word
    required: bool = False

    @property
    def takes_word(self):
        return bool(self.word.name)

    @property
    def names(self):
        return [name for name in (self.short, self.long) if name]


@dataclasses.dataclass
class Argument:
    word: Word
    required: bool
    many: bool


@dataclasses.dataclass
class Command:
    """A command or the program itself."""
    name: str
    about: str
    usage: str
    arguments: list[Argument]
    options: list[Option]
    commands: list[tuple[str, str]]


def parts_of(text):
    """The text before the usage, the usage, and the entries below each heading, an entry being its head and its text."""
    about, entries, usage, heading = [], {name: [] for name in HEADINGS}, "", None
    for line in text.splitlines():
        found = re.fullmatch(r"([A-Z][A-Za-z ]*):", line)
        if line.startswith("Usage: "):
            usage = line.removeprefix("Usage: ")
        elif found and usage:
            heading = found[1]
            if heading not in HEADINGS:
                raise NotUnderstood(f"the heading `{line}`")
        elif not usage:
            about.append(line)
        elif heading and line.startswith(" "):
            add_line(entries[heading], line)
        elif line.strip():
            raise NotUnderstood(f"the line `{line}`, which is below no heading")
    if not usage:
        raise NotUnderstood("a help without a line `Usage: ..`")
    return " ".join(line for line in about if line.strip()), usage, entries


def add_line(entries, line):
    """One more line below a heading: an entry begins at the second place, or at the sixth where an option has no short name."""
    found = re.fullmatch(r"(?:  |      (?=--))(\S.*?)(?:  +(\S.*))?", line.rstrip())
    if found and (not line.startswith("      ") or line.startswith("      --")):
        entries.append([found[1], found[2] or ""])
    elif entries and line.startswith("      "):
        entries[-1][1] = f"{entries[-1][1]} {line.strip()}".strip()
    else:
        raise NotUnderstood(f"the line `{line}`")


def word_of(name, text):
    """A word with what its help says, without the lists behind it."""
    values, default = [], ""
    while found := NOTE.search(text):
        text = text[:found.start()]
        if found[1] == "default":
            default = found[2]
        else:
            values = found[2].split(", ")
    if re.search(r"\[[a-z ]+: [^\]]*\]$", text) or "Possible values:" in text:
        raise NotUnderstood(f"what stands behind the help of {name}: `{text}`")
    if any(not PLAIN.fullmatch(value) for value in values):
        raise NotUnderstood(f"the values of {name}, of which one would have to be quoted")
    word = Word(name, text.strip(), values, default)
    if name and re.search(r"\bfile\b", text) and not word.is_file:
        raise NotUnderstood(f"whether {name} is a file, whose help does not begin with `A file`: `{text}`")
    if not word.text:
        raise NotUnderstood(f"{name or 'an option'}, which has no help")
    return word


def option_of(head, text, usage):
    found = re.fullmatch(r"(?:(-\w))?(?:, )?(--[a-z][a-z0-9-]*)?(?: <([A-Z][A-Z0-9_-]*)>)?", head)
    if not found or not (found[1] or found[2]):
        raise NotUnderstood(f"the option `{head}`")
    shown = f"{found[2] or found[1]} <{found[3]}>" if found[3] else found[2] or found[1]
    return Option(found[1] or "", found[2] or "", word_of(found[3] or "", text), f" {shown} " in f"{usage} ")


def argument_of(head, text):
    found = re.fullmatch(r"(?:<([A-Z][A-Z0-9_-]*)>|\[([A-Z][A-Z0-9_-]*)\])(\.\.\.)?", head)
    if not found:
        raise NotUnderstood(f"the argument `{head}`")
    return Argument(word_of(found[1] or found[2], text), bool(found[1]), bool(found[3]))


def read_help(name, text):
    """A command by the text of its help."""
    about, usage, entries = parts_of(text)
    if not about:
        raise NotUnderstood("a help that does not say what the command does")
    options = [option_of(head, text, usage) for head, text in entries["Options"]]
    arguments = [argument_of(head, text) for head, text in entries["Arguments"]]
    command = Command(name, about, usage, arguments, options, [tuple(entry) for entry in entries["Commands"]])
    if usage != usage_of(command):
        raise NotUnderstood(f"the usage `{usage}`, which by the rest of the help is `{usage_of(command)}`")
    return command


def usage_of(command):
    """The usage by the rest of the help."""
    words = [command.name]
    if any(not option.required and option.long not in ("--help", "--version") for option in command.options):
        words.append("[OPTIONS]")
    words += [f"{option.long or option.short}{f' <{option.word.name}>' if option.takes_word else ''}" for option in command.options if option.required]
    for argument in command.arguments:
        words.append((f"<{argument.word.name}>" if argument.required else f"[{argument.word.name}]") + ("..." if argument.many else ""))
    return " ".join(words + ["<COMMAND>"] * bool(command.commands))


def printed(program, *words):
    """What the program prints for words that ask for help."""
    done = subprocess.run([program, *words], stdin=subprocess.DEVNULL, capture_output=True, text=True, check=False, timeout=20)
    if done.returncode != 0:
        raise NotUnderstood(f"`{' '.join(words)}`, which ended with status {done.returncode}: {done.stderr.strip()}")
    return done.stdout


def read_program(program):
    """The version of the program, its own words, and those of each command."""
    found = re.match(r"uadisc (\d[0-9A-Za-z.+~]*)", line := printed(program, "--version"))
    if not found:
        raise NotUnderstood(f"the version `{line.strip()}`")
    top = read_help("uadisc", printed(program, "--help"))
    if not top.commands:
        raise NotUnderstood("a help that names no commands")
    names = [name for name, _ in top.commands if name != "help"]
    commands = [read_help(f"uadisc {name}", printed(program, name, "--help")) for name in names]
    for command in commands:
        if command.commands:
            raise NotUnderstood(f"`{command.name}`, which has commands of its own")
    return found[1], top, commands
