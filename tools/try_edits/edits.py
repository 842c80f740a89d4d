"""The crates of the repository, their functions, and the places that the edits of wrong bodies change."""
import collections
import functools
import os
import re
import time

ROOT = os.path.dirname(os.path.dirname(os.path.dirname(os.path.realpath(__file__))))
FOLDERS = ("must-fail", "wrong-bodies")

# One change of an edit, and the answers that it brings along.
Pair = collections.namedtuple("Pair", "file old new answers")
# A function, what it stands in (`impl Wire for u32`), and the numbers of its lines: the first, that with the brace of its body, the last.
Function = collections.namedtuple("Function", "file name owner first body last")
# What is judged as one: some pairs of an edit, the line of the first, and the functions that they change. A `const` that functions
# alone name changes these. What else changes no body (a field, a `use`, a `const` that another one names) is checked alone, and
# judged by the functions that the other pairs change or that name the `const`. The arm is that of a `match` which one pair changes.
# A place shares a check only with places whose edits say the same of where they stand apart.
Place = collections.namedtuple("Place", "edit pairs line functions is_alone arm apart")
# An arm of a `match`: the line of the `match`, and the variant that the arm is for, for which the function has no other arm.
Arm = collections.namedtuple("Arm", "match variant")


def read(path):
    with open(path, encoding="utf-8") as file:
        return file.read()


def write(path, text):
    with open(path, "w", encoding="utf-8") as file:
        file.write(text)


class Crate:
    def __init__(self, line):
        head, _, deps = line.partition(":")
        self.line, self.name, self.deps = line, head.split()[0], deps.split()
        self.folder = f"{ROOT}/crates/{self.name}"
        self.is_program = os.path.isfile(f"{self.folder}/src/main.rt")
        self.above, self.below = [], []
        self.places, self.lines, self.found = [], [], []
        self.passed = self.failed = self.open = self.memory = 0
        # The texts as a number; whether all its places are tried; the entry of the record of which one batch is tried anew.
        self.digest, self.is_whole, self.drawn = None, False, None
        self.started = time.time()

    def length(self):
        return sum(read(path).count("\n") for path in sources(self.folder))

    @functools.cache
    def functions(self):
        """How many functions with a body its sources have."""
        return sum(len(functions_of("", read(path))) for path in sources(self.folder))


def sources(folder):
    for at, folders, names in os.walk(f"{folder}/src"):
        folders.sort()
        for name in sorted(names):
            if name.endswith(".rt"):
                yield f"{at}/{name}"


def crates_of_the_repository():
    """The crates by name, lowest first, each with the crates below it and those right above it."""
    lines = [line.split("#")[0].strip() for line in read(f"{ROOT}/crates.txt").split("\n")]
    crates = {crate.name: crate for crate in map(Crate, filter(None, lines))}
    for crate in crates.values():
        crate.of_kit = [name for name in crate.deps if name not in crates]
        crate.deps = [crates[name] for name in crate.deps if name in crates]
        for dep in crate.deps:
            dep.above.append(crate)
    for crate in crates.values():
        crate.below = below(crate)
    return {crate.name: crate for crate in sorted(crates.values(), key=lambda it: len(it.below))}


def below(crate):
    found = []
    for dep in crate.deps:
        found += [it for it in [*below(dep), dep] if it not in found]
    return found


FN = re.compile(r"( *)(?:pub(?:\([^)]*\))? )?(?:const |unsafe |final )*fn (\w+)")
OWNER = re.compile(r"( *)(?:pub(?:\([^)]*\))? )?(?:unsafe )?((?:impl|trait)\b.*)")


def functions_of(file, text):
    """The functions of a file with a body, outside of its tests."""
    found, owner, lines = [], None, text.split("\n")
    for at, line in enumerate(lines):
        opened = OWNER.match(line)
        if opened and not line.rstrip().endswith("}"):
            owner = (opened[1], opened[2].rstrip("{ "))
        elif owner and line == owner[0] + "}":
            owner = None
        header = FN.match(line)
        if header:
            body, last = body_of(lines, at, header[1])
            if body is not None:
                found.append(Function(file, header[2], owner and owner[1], at + 1, body + 1, last + 1))
    return found


def body_of(lines, at, indent):
    """The line that opens the body of the function that begins at a line, and the one that closes it."""
    if lines[at].endswith("}"):
        return at, at
    for opens in range(at, len(lines)):
        line = lines[opens]
        if line.endswith("{") and (opens == at or line == indent + "{" or line.startswith(indent + ")")):
            return opens, lines.index(indent + "}", opens)
        if opens > at and line and not line.startswith((indent + " ", indent + ")", indent + "where")):
            break
    return None, None


def pairs_of(text):
    """The pairs of an edit, each with the answers that stand behind it."""
    found, file, old = [], None, None
    for line in text.split("\n"):
        if line.startswith("file: "):
            file = line[len("file: ") :].strip()
        elif line.startswith("old: "):
            old = line[len("old: ") :]
        elif line.startswith("new:"):
            found.append(Pair(file, old, re.sub(r"\A ", "", line[len("new:") :]), ()))
            old = None
        elif line.startswith("answer: ") and found:
            found[-1] = found[-1]._replace(answers=(*found[-1].answers, line[len("answer: ") :]))
    return found


def function_at(functions, line, pair):
    """The innermost function whose body has a line, or begins with what the pair puts behind its brace."""
    goes_on = pair.old.endswith("{") and "{" in pair.new
    found = [it for it in functions if it.body < line < it.last or line == it.first == it.last or line == it.body and goes_on]
    return found[-1] if found else None


ARM = re.compile(r"\s*(?:\w+::)*([A-Z]\w*)(?:\([^()]*\)| \{[^{}]*\})? => ")


def indent_of(line):
    return len(line) - len(line.lstrip())


def arm_of(pair, source, line, function):
    """The arm of a `match` of which a pair changes only what stands behind its `=>`, or none."""
    old, new = ARM.match(pair.old), ARM.match(pair.new)
    lines = source.split("\n")
    if not (old and new and old[0] == new[0] and pair.old.count("=>") == pair.new.count("=>") == 1):
        return None
    if not lines[line - 1].strip().startswith(pair.old.strip()):
        return None
    body = lines[function.body : function.last - 1]
    if len([it for it in body if "=>" in it and re.search(rf"\b{old[1]}\b", it.partition("=>")[0])]) != 1:
        return None
    above = [at for at in range(function.body, line) if lines[at - 1].strip() and indent_of(lines[at - 1]) < indent_of(lines[line - 1])]
    return Arm(above[-1], old[1]) if above else None


APART = re.compile(r"^apart: (.+)", re.M)
CONST = re.compile(r"\b([A-Z][A-Z0-9_]+): ")
# A line in which naming a `const` reads nothing of it.
READS_NOTHING = re.compile(r"\s*(?:(?:pub(?:\([^)]*\))? )?use |//)")


def readers_of(crate, pair):
    """The functions that name the `const` which a pair changes, and whether nothing else names it: no other `const`, no type, no clause."""
    named, found, is_all = CONST.search(pair.old), [], True
    for path in sources(crate.folder) if named else ():
        file, text = os.path.relpath(path, crate.folder), read(path)
        lines, functions = text.split("\n"), functions_of(os.path.relpath(path, crate.folder), text)
        for at, line in enumerate(lines, 1):
            if not re.search(rf"\b{named[1]}\b", line):
                continue
            within = [it for it in functions if it.body <= at <= it.last]
            found += [it for it in within if it not in found]
            is_own = file == pair.file and pair.old in line
            is_all = is_all and bool(within or is_own or READS_NOTHING.match(line))
    return found, is_all and bool(found)


def places_of(crate, edit):
    """The places of an edit, or why it cannot be applied."""
    pairs, apart = pairs_of(read(edit)), "".join(APART.findall(read(edit)))
    texts, places, is_one, is_alone = {}, [], False, False
    if not pairs:
        return [], "it has no pair of old and new"
    for pair in pairs:
        if not pair.file or not pair.old or not os.path.isfile(f"{crate.folder}/{pair.file}"):
            return [], f"there is no file {pair.file}, or no old text"
        if not pair.file.startswith("src/"):
            return [], f"{pair.file} is no file of src/"
        source = read(f"{crate.folder}/{pair.file}")
        text = texts.get(pair.file, source)
        if text.count(pair.old) != 1:
            return [], f"an old text is in {pair.file} {text.count(pair.old)} times, and not once"
        texts[pair.file] = text.replace(pair.old, pair.new)
        at = source.find(pair.old)
        line = source[: max(at, 0)].count("\n") + 1
        function = function_at(functions_of(pair.file, source), line, pair)
        readers, is_read_there_alone = ([function], True) if function else readers_of(crate, pair)
        is_alone = is_alone or not is_read_there_alone
        is_one = is_one or source.count(pair.old) != 1 or function is None
        if pair.answers and not (function and proof_file_of(crate, function)):
            return [], f"it has answers for {function.name if function else pair.file}, which has no proof file"
        arm = arm_of(pair, source, line, function) if function and not pair.answers else None
        places.append(Place(edit, [pair], line, readers, False, arm, apart))
    if not is_one:
        return places, None
    functions = list(dict.fromkeys(function for it in places for function in it.functions))
    return [Place(edit, pairs, places[0].line, functions, is_alone, None, apart)], None


def module_of(file):
    parts = file[len("src/") : -len(".rt")].split("/")
    return tuple(parts[:-1] if parts[-1] in ("lib", "main", "mod") else parts)


def in_names(text):
    """A type or a trait as the prover's names have it, without its parameters: `u32` is `U32`."""
    found = re.match(r"\s*(?:[\w:]+::)?(\w+)", text)
    return found[1][:1].upper() + found[1][1:] if found else ""


def is_owner(segment, owner):
    """Whether a part of a path may be this `impl` or `trait`."""
    text = re.sub(r"\A(impl|trait)(?:<(?:[^<>]|<[^<>]*>)*>)?\s*", "", owner)
    trait, is_trait, of = text.partition(" for ")
    if not is_trait:
        return segment == in_names(text)
    parts = in_names(trait) + "".join(map(in_names, re.findall(r"<(\w+)>", trait)))
    return segment.startswith(in_names(of)) and segment.endswith((in_names(trait), parts))


@functools.cache
def proof_folders(folder):
    """The folders below proofs/ that have what is written of a proof, each with its parts and, of a cycle of calls, its text."""
    found = []
    for at, folders, names in os.walk(f"{folder}/proofs"):
        folders.sort()
        if {*names} & {"Answers.antt", "Invariants.antt", "Proof.antt"}:
            parts = tuple(os.path.relpath(at, f"{folder}/proofs").split("/"))
            found.append((at, parts, "".join(read(f"{at}/{it}") for it in names) if parts[-1].startswith("+") else ""))
    return found


def proofs_of(crate, function):
    """The folders of what is written of the proof of a function: its own, or that of the cycle of calls that it is in."""
    module, name = module_of(function.file), function.name
    for at, parts, text in proof_folders(crate.folder):
        if parts[-1] == name and (is_owner(parts[-2], function.owner) if function.owner and len(parts) > 1 else parts[:-1] == module):
            yield at
        elif parts[-1] == f"+{name}" or text and re.search(rf"(?:::|\b){name}-", text):
            yield at


def proof_file_of(crate, function):
    """The file with the answers of a function, below its crate; none where it has none."""
    found = [f"{it}/Answers.antt" for it in proofs_of(crate, function) if os.path.isfile(f"{it}/Answers.antt")]
    return os.path.relpath(found[0], crate.folder) if found else None


def edits_of(crate):
    for folder in FOLDERS:
        path = f"{crate.folder}/{folder}"
        for name in sorted(os.listdir(path)) if os.path.isdir(path) else []:
            if name.endswith(".edit"):
                yield f"{path}/{name}"


def title(edit):
    return os.path.basename(edit)[: -len(".edit")]


def key_of(function):
    return function.file, function.owner, function.name


def may_share(place, other):
    """Whether two places may be in one check: they stand apart from the same, and change no function both, or in it other arms of one `match`."""
    if place.apart != other.apart:
        return False
    if not {key_of(it) for it in place.functions} & {key_of(it) for it in other.functions}:
        return True
    return bool(place.arm and other.arm) and place.arm.match == other.arm.match and place.arm.variant != other.arm.variant


def batches_of(places, most):
    """Groups the places, the largest group first, at most so many in one, so that any two of a group may share a check. What changes no body, or is several pairs, is a group of its own."""
    batches = []
    for place in places:
        is_alone = place.is_alone or len(place.pairs) > 1
        for batch, is_open in [] if is_alone else batches:
            if is_open and len(batch) < most and all(may_share(place, it) for it in batch):
                batch.append(place)
                break
        else:
            batches.append(([place], not is_alone))
    return sorted((batch for batch, _ in batches), key=len, reverse=True)
