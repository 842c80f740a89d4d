"""Manual pages, made of the words that `words` read and of docs/FORMATS.md and docs/GUIDE.md, which say what is printed."""
import re

from .words import NotUnderstood

GENERAL = "The command"
# How the paragraphs begin, behind those of the commands, that are of all of them.
OF_ALL = ("The text of a Guid ", "Other lines on standard error: ")


def roff(text):
    """A text as roff has it."""
    text = text.replace("\\", "\\e").replace("-", "\\-")
    text = "".join(sign if ord(sign) < 128 else f"\\[u{ord(sign):04X}]" for sign in text)
    return f"\\&{text}" if text[:1] in (".", "'") else text


def marked(text):
    """A line of Markdown as roff: code and what is bold in bold letters, of links their words."""
    text = re.sub(r"\[([^\]]*)\]\([^)]*\)", r"\1", text)
    out = []
    for at, part in enumerate(re.split(r"\*\*`([^`]*)`\*\*|`([^`]*)`|\*\*([^*]*)\*\*", text)):
        if part is not None:
            out.append(roff(part) if at % 4 == 0 else f"\\fB{roff(part)}\\fR")
    return "".join(out).replace("\n.", "\n\\&.").removeprefix(" ")


def cells(line):
    return [cell.strip() for cell in re.split(r"(?<!\\)\|", line.strip().strip("|"))]


def table(lines):
    """A table, each row as its first cell and what is said of it."""
    heads, out = cells(lines[0]), []
    if not re.fullmatch(r"\|[-| ]+\|", lines[1].strip()):
        raise NotUnderstood(f"the table `{lines[0]}`")
    for line in lines[2:]:
        row = [cell for cell in cells(line)]
        if len(row) != len(heads):
            raise NotUnderstood(f"the row `{line}` of a table with {len(heads)} columns")
        told = [marked(row[1])] + [f"{marked(head)}: {marked(cell)}" for head, cell in zip(heads[2:], row[2:]) if cell]
        out += [".TP", marked(row[0]), ".br\n".join(f"{line}\n" for line in told).rstrip("\n")]
    return out


def markdown(text):
    """Paragraphs, tables, lists and blocks of Markdown as roff."""
    out = []
    for part in re.split(r"\n{2,}", text.strip()):
        lines = part.splitlines()
        if part.startswith("|"):
            out += table(lines)
        elif part.startswith("```"):
            out += [".PP", ".nf", *(roff(line) for line in lines[1:-1]), ".fi"]
        elif part.startswith("- "):
            for item in re.split(r"^- ", part, flags=re.M)[1:]:
                out += [".IP \\(bu 2", marked(" ".join(item.split()))]
        elif part.startswith("#"):
            raise NotUnderstood(f"the heading `{lines[0]}` within a part of the manual")
        else:
            out += [".PP", marked(" ".join(lines))]
    return out


def chapter(document, heading):
    """The text below a heading of a document."""
    found = re.search(rf"^## {re.escape(heading)}\n(.*?)(?=^## |\Z)", document, re.M | re.S)
    if not found:
        raise NotUnderstood(f"a document without `## {heading}`")
    return found[1].strip()


def told(formats, names):
    """What docs/FORMATS.md says of each command, by its name, and of all of them, by no name.

    The part of a command begins with a paragraph that begins with its words in bold, as **`show FILE`**."""
    parts, place = {name: [] for name in ["", *names]}, ""
    paragraphs = re.split(r"\n{2,}", chapter(formats, GENERAL))
    for begin in OF_ALL:
        if sum(paragraph.startswith(begin) for paragraph in paragraphs) != 1:
            raise NotUnderstood(f"docs/FORMATS.md, which in `## {GENERAL}` has not one paragraph that begins with `{begin}`")
    for paragraph in paragraphs:
        if found := re.match(r"\*\*`(\w+)[ `]", paragraph):
            place = found[1]
            if place not in parts:
                raise NotUnderstood(f"`{paragraph[:40]}..` of docs/FORMATS.md: the program has no command {place}")
        elif paragraph.startswith(OF_ALL):
            place = ""
        parts[place].append(paragraph)
    for name, own in parts.items():
        if not own:
            raise NotUnderstood(f"docs/FORMATS.md, which in `## {GENERAL}` has no paragraph that begins with **`{name} ..`**")
    return {name: "\n\n".join(own) for name, own in parts.items()}


def words_of(word):
    """What the help says of a word."""
    out = marked(word.text)
    if word.values:
        out += "; one of " + ", ".join(f"\\fB{roff(value)}\\fR" for value in word.values)
    return out + (f"; {roff(word.default)} where it is left out" if word.default else "") + "."


def options(command):
    out = [".SH OPTIONS"] if command.options else []
    for option in command.options:
        names = ", ".join(f"\\fB{roff(name)}\\fR" for name in option.names)
        out += [".TP", names + (f" \\fI{roff(option.word.name)}\\fR" if option.takes_word else ""), words_of(option.word)]
    return out


def usage(command):
    """The usage: in bold what stands as it is, in italics what is put in its place."""
    shown = re.sub(r"\[([A-Z0-9_-]+)\]", r"[<\1>]", command.usage)
    parts = re.split(r"<([A-Z0-9_-]+)>|([^][<>. ]+)", shown)
    kinds = ("{}", "\\fI{}\\fR", "\\fB{}\\fR")
    return "".join(kinds[at % 3].format(roff(part)) for at, part in enumerate(parts) if part)


def page(command, title, version, date, parts):
    about = command.about
    if command.name != "uadisc" and about[1:2].islower():
        about = about[0].lower() + about[1:]
    head = [f'.TH {roff(title.upper())} 1 {date} "uadisc {version}" "User Commands"', ".SH NAME", f"{roff(title)} \\- {marked(about)}",
            ".SH SYNOPSIS", usage(command)]
    return "\n".join(head + parts) + "\n"


def see_also(titles):
    shown = ", ".join(f"\\fB{roff(title)}\\fR(1)" for title in titles)
    return [".SH SEE ALSO", shown, ".PP", "The folder share/doc/uadisc has a guide, the formats, and settings and captures to begin with."]


def listed(commands, titles):
    """The commands of the program, each with its line."""
    out = [".SH COMMANDS"]
    for name, text in commands:
        page_of = f" See \\fB{roff(titles[name])}\\fR(1)." if name in titles else ""
        out += [".TP", f"\\fB{roff(name)}\\fR", f"{marked(text)}.{page_of}"]
    return out


def arguments(command):
    out = [".SH ARGUMENTS"] if command.arguments else []
    for argument in command.arguments:
        out += [".TP", f"\\fI{roff(argument.word.name)}\\fR", words_of(argument.word)]
    return out


def pages(version, date, top, commands, formats, guide):
    """The text of each page, by its name."""
    titles = {command.name.split()[-1]: command.name.replace(" ", "-") for command in commands}
    parts = told(formats, list(titles))
    status = [".SH EXIT STATUS", *markdown(chapter(guide, "Exit statuses"))]
    made = {"uadisc": page(top, "uadisc", version, date, [
        ".SH DESCRIPTION", *markdown(parts[""]), *listed(top.commands, titles), *options(top), *status, *see_also(titles.values())])}
    for command, (name, title) in zip(commands, titles.items()):
        others = ["uadisc", *(other for other in titles.values() if other != title)]
        made[title] = page(command, title, version, date, [
            ".SH DESCRIPTION", *markdown(parts[name]), *arguments(command), *options(command), *status, *see_also(others)])
    return made
