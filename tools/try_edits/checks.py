"""Checks of changed copies of crates, and what they say of each function."""
import collections
import os
import re
import shutil
import subprocess
import tempfile
import threading

from try_edits.edits import functions_of, is_owner, key_of, may_share, module_of, proof_file_of, proofs_of, read, sources, write

PARTS = ("src", "specs", "proofs")
HARMLESS = "let _harmless = 0u8;"

# What a check said of a function: whether it is proved, its open goals by name, where they are, and the errors in its proof files,
# each with the answer that it is in.
Verdict = collections.namedtuple("Verdict", "proved goals notes errors")


def copied(folder, to, *words):
    """Copies a folder, with its times; with --link its files are linked, where both are on one file system."""
    os.makedirs(os.path.dirname(to), exist_ok=True)
    return subprocess.run(["cp", "-a", *words, folder, to], stderr=subprocess.DEVNULL, check=False).returncode == 0


def linked(folder, to):
    """Links the files of a folder, which `rt` does not write into: it puts a new file in the place of an old one."""
    if os.path.isdir(folder) and not copied(folder, to, "--link"):
        shutil.rmtree(to, ignore_errors=True)
        copied(folder, to)


class Repository:
    """A copy of crates of the repository: their sources, and for each the folder out/ of another copy, which `rt` fills and reads."""

    def __init__(self, top):
        self.top, self.crates = top, []
        os.makedirs(f"{top}/crates")

    def add(self, crate, out):
        """Copies the sources of a crate, and links its folder out/ as it is there, or takes none."""
        for part in PARTS:
            if os.path.isdir(f"{crate.folder}/{part}"):
                copied(f"{crate.folder}/{part}", f"{self.top}/crates/{crate.name}/{part}")
        if out:
            linked(out, f"{self.top}/crates/{crate.name}/out")
        self.crates.append(crate)
        write(f"{self.top}/crates.txt", "".join(f"{it.line}\n" for it in self.crates))

    def out(self, crate):
        return f"{self.top}/crates/{crate.name}/out"

    def run(self, crate, used, verb, *more):
        """Runs a verb of `rt` for a crate, and returns the exit status and what was said."""
        return ran(crate, f"{self.top}/crates/{crate.name}", used, "rt", verb, *more)


class Rooms:
    """The temporary folder: for each crate a repository in which it is proved as it stands, and for each lane one for the checks."""

    def __init__(self, anew):
        self.top, self.anew = tempfile.mkdtemp(prefix="try-edits-"), anew
        self.outs, self.lanes, self.count, self.lock = {}, [], 0, threading.Lock()
        self.proofs, self.batches = Used(), Used()

    def prove(self, crate, is_library, jobs):
        """Proves a crate as it stands, over what is kept of it, and builds its library where one above stands on it. Each has a
        repository of its own, since a run of `rt` has all crates below its own to itself there, and others wait for them. `rt lib`
        says nothing of a crate whose library is up to date."""
        room = Repository(f"{self.top}/{crate.name}")
        for it in crate.below:
            room.add(it, self.outs[it.name])
        room.add(crate, None if self.anew else f"{crate.folder}/out")
        self.outs[crate.name] = room.out(crate)
        status, said = room.run(crate, self.proofs, "lib", "--jobs", str(jobs)) if is_library else (0, "")
        if status == 0 and crate.places and verdicts_of(said) is None:
            status, said = room.run(crate, self.proofs, "check", "--jobs", str(jobs))
        return status, said

    def check(self, crate, texts, *more):
        """Checks a crate with these files in place of its own, over its proof and those of the crates below, and puts all back."""
        lane = self.free_lane()
        for it in [*crate.below, crate]:
            if it not in lane.crates:
                lane.add(it, self.outs[it.name])
        for file, text in texts.items():
            write(f"{lane.top}/crates/{crate.name}/{file}", text)
        status, said = lane.run(crate, self.batches, "check", *more)
        for file in texts:
            shutil.copy2(f"{crate.folder}/{file}", f"{lane.top}/crates/{crate.name}/{file}")
        shutil.rmtree(lane.out(crate), ignore_errors=True)
        linked(self.outs[crate.name], lane.out(crate))
        with self.lock:
            self.lanes.append(lane)
        return status, said

    def free_lane(self):
        """A repository that no check works in, a new one where there is none."""
        with self.lock:
            if self.lanes:
                return self.lanes.pop()
            self.count += 1
            return Repository(f"{self.top}/lane{self.count}")


class Stopped(Exception):
    """The run was told to stop."""


RUNNING, STOPPING = set(), threading.Event()


class Used:
    """The seconds of a processor that commands took."""

    def __init__(self):
        self.seconds, self.lock = 0.0, threading.Lock()

    def add(self, crate, usage):
        """Adds what a command took, and notes with its crate the most memory of one process, in bytes."""
        with self.lock:
            self.seconds += usage.ru_utime + usage.ru_stime
            crate.memory = max(crate.memory, 1024 * usage.ru_maxrss)


def ran(crate, folder, used, *words):
    """Runs a command in a crate's folder, adds what it took, and returns its exit status and what it wrote."""
    if STOPPING.is_set():
        raise Stopped
    with subprocess.Popen(words, cwd=folder, stdin=subprocess.DEVNULL, stdout=subprocess.PIPE, stderr=subprocess.STDOUT) as runs:
        RUNNING.add(runs)
        said = runs.stdout.read()
        _, status, usage = os.wait4(runs.pid, 0)
        runs.returncode = os.waitstatus_to_exitcode(status)
    RUNNING.discard(runs)
    used.add(crate, usage)
    if STOPPING.is_set():
        raise Stopped
    return runs.returncode, said.decode("utf-8", "replace")


def stop(*_):
    """Ends all that runs, on a signal. (`rt` ends what it started itself.)"""
    STOPPING.set()
    for it in list(RUNNING):
        it.kill()
    raise SystemExit(1)


OF_FUNCTION = re.compile(r"fn (\S+): (proved|not proved|no proof|could not tell)(.*)")
NOT_PROVED = re.compile(r"did not prove ((?:`[^`]+`(?:, )?)+)")
OPEN_GOAL = re.compile(r"note: (src/\S+\.rt):(\d+):\d+: it is not proved[^(]*\(`([^`]+)`\)")
OF_PROOF_FILE = re.compile(r"(?:\./)?proofs/(\S+)/(?:Answers|Invariants|Proof)\.antt:\d+:\d+: error: (?:`([^`]*)`: )?(.*)")
# What says of a proof file only that a name which it cites is gone, or what that name stood for.
NAME_IS_GONE = re.compile(r"has no field|is not in scope|has no `|was not admitted")
UNREAD = re.compile(r"(?:\./)?src/\S+\.rt:\d+:\d+: error: (?!`[^`]*`: )|(?:\./)?src/\S+\.rt:\d+:\d+: error: .*is not in scope")


def verdicts_of(said):
    """What a check said of each function, or of each that it was asked for, by its path below the crate; none where it did not reach the prover."""
    lines = said.split("\n")
    if not any(it.startswith(("logic=proved", "logic=not-proved", "only=")) for it in lines) or any(map(UNREAD.match, lines)):
        return None
    verdicts, notes = {}, []
    for line in lines:
        goal, function = OPEN_GOAL.match(line), OF_FUNCTION.match(line)
        if goal:
            notes.append((goal[1], int(goal[2]), goal[3]))
        elif function:
            named = NOT_PROVED.search(function[3])
            goals = {*(re.findall(r"`([^`]+)`", named[1]) if named else []), *(it[2] for it in notes)}
            verdicts[tuple(function[1].split("::")[1:])] = Verdict(function[2] == "proved", goals, notes, [])
            notes = []
    for error in filter(None, map(OF_PROOF_FILE.match, lines)):
        path = path_of_proofs(tuple(error[1].split("/")), error[2] or "", verdicts)
        if path in verdicts:
            verdicts[path].errors.append((error[2] or "", error[3]))
    return {path: of_its_own(path, verdicts) for path in verdicts}


def is_named(path, goal, above):
    """Whether the name of a goal, or of an answer, of a cycle of calls begins with this member's: with the modules and the type that it
    stands in, below so many of its path, or without (`data::each_data`)."""
    return any(goal.startswith("::".join(path[at:]) + "-") for at in range(above, len(path)))


def path_of_proofs(folder, answer, verdicts):
    """The function that an answer is for. A cycle of calls has one folder, +NAME, and names each answer for its member first."""
    if not folder[-1].startswith("+"):
        return folder
    above = len(folder) - 1
    members = [it for it in verdicts if it[:above] == folder[:-1] and is_named(it, answer, above)]
    return max(members, key=lambda it: len(it[-1]), default=(*folder[:-1], folder[-1][1:]))


def of_its_own(path, verdicts):
    """The verdict of a function without the goals of others of its cycle, which a check says of each member of it."""
    verdict = verdicts[path]

    def is_of_another(goal):
        named = [it for it in verdicts if goal in verdicts[it].goals and is_named(it, goal, 0)]
        return bool(named) and path not in named

    notes = [it for it in verdict.notes if not is_of_another(it[2])]
    return verdict._replace(goals={it for it in verdict.goals if not is_of_another(it)}, notes=notes)


def why_refused(verdict):
    """Why a function is refused on its own account, not for what it calls."""
    if verdict.proved:
        return None
    if verdict.goals:
        return "goal"
    if any(not NAME_IS_GONE.search(it) for _, it in verdict.errors):
        return "proof file"
    return "name" if verdict.errors else None


def what_refused(verdicts):
    """What refused a place, by these verdicts: its kind (the heaviest that one of them has), and the names of the goals, or the errors."""
    for kind in ("goal", "proof file", "name"):
        of_kind = [it for it in verdicts if why_refused(it) == kind]
        if of_kind:
            said = {text for it in of_kind for text in (it.goals if kind == "goal" else (": ".join(error) for error in it.errors))}
            return kind, sorted(said)
    return None, []


def of_arm(verdict, variant, others):
    """What a verdict says of an arm of a `match`: its goals, whose names have the steps to them, and the errors in their answers. Those
    on whose way one of the other arms is are not among them."""

    def is_of_it(goal):
        steps = {*re.findall(r"(?:\A|-)in-(\w+)", goal)}
        return variant in steps and not others & steps

    return verdict._replace(goals={*filter(is_of_it, verdict.goals)}, errors=[it for it in verdict.errors if is_of_it(it[0])])


def paths_of(function, verdicts):
    """The paths that a function may have, with those of the closures in it: one, unless its `impl` is of a type without a name."""
    named = [it for it in verdicts if function.name in it]
    # (a function may have the name of its module)
    before = {it: it[: max(at for at, word in enumerate(it) if word == function.name)] for it in named}
    module = module_of(function.file)
    if not function.owner:
        return [it for it in named if before[it] == module]
    owned = [it for it in named if before[it] and is_owner(before[it][-1], function.owner)]
    # (the methods of a type stand in the module of the type, in whatever file its `impl` is)
    return [it for it in owned if before[it][:-1] == module] or owned


def only_of(batch, control, verdicts):
    """The words that ask a check for the functions of a batch and its control alone; none where one of them has no name in what was said of the crate."""
    named = [paths_of(it, verdicts) for it in [*(function for place in batch for function in place.functions), *([control] if control else [])]]
    if not all(named) or not all(place.functions for place in batch):
        return []
    return [it for path in dict.fromkeys(path for paths in named for path in paths) for it in ("--only", "::".join(path))]


class Checked:
    """A check of a batch: the texts that were changed, and what was said."""

    def __init__(self, texts, status, said):
        self.texts, self.status, self.said = texts, status, said
        self.verdicts = verdicts_of(said)
        self.functions = [it for file, text in texts.items() for it in functions_of(file, text)]

    def refused(self):
        return {path: why_refused(it) for path, it in self.verdicts.items() if why_refused(it)}

    def refused_in(self, function):
        """The paths of the function that are refused, those of its closures among them."""
        paths = paths_of(function, self.verdicts)
        spans = [(it.file, it.first, it.last) for it in self.functions if key_of(it) == key_of(function)]
        for path, verdict in self.verdicts.items():
            if any(file == at[0] and at[1] <= line <= at[2] for file, line, _ in verdict.notes for at in spans):
                paths.append(path)
        return {path: why for path, why in self.refused().items() if path in paths}

    def verdicts_in(self, place, others):
        """The verdicts of what is refused in the functions that a place changes, of its arm alone where the others change other arms of
        the `match`; of all that is refused where it changes no function."""
        paths = {path for it in place.functions for path in self.refused_in(it)} if place.functions else {*self.refused()}
        found = [self.verdicts[path] for path in sorted(paths)]
        return [of_arm(it, place.arm.variant, others) for it in found] if others else found


# (a capital begins what makes a value, as `Some(`)
CALLS = re.compile(r"\b[a-z_]\w*\(|[?!\[]|\bfor\b")


def is_proved_by_itself(crate, function):
    """Whether a function may be a control: it has a body of its own lines, is no test, and has no proof file."""
    return function.first < function.last and not re.search(r"\btests?\b", function.file) and not any(proofs_of(crate, function))


def bodies_of(crate):
    """The functions of a crate with their bodies."""
    for path in sources(crate.folder):
        file = os.path.relpath(path, crate.folder)
        lines = read(path).split("\n")
        for it in functions_of(file, "\n".join(lines)):
            yield it, "\n".join(lines[it.body : it.last - 1])


def hidden_by(names, bodies):
    """The names of the functions that may be hidden by those with these names: they name one of them, or what does."""
    hidden, words = set(names), {it.name: set() for it, _ in bodies}
    for it, body in bodies:
        words[it.name] |= set(re.findall(r"\w+", body))
    grown = True
    while grown:
        more = {name for name, named in words.items() if name not in hidden and named & hidden}
        hidden, grown = hidden | more, bool(more)
    return hidden


def control_of(crate, batch):
    """A function that has no proof file and is not changed by the batch: the shortest that calls nothing, or else the shortest of
    those that name nothing that is changed, or that such a function hides, of a file that is not changed where there is one."""
    taken = {key_of(it) for place in batch for it in place.functions}
    changed = {pair.file for place in batch for pair in place.pairs}
    bodies = list(bodies_of(crate))
    hidden = hidden_by({name for _, _, name in taken}, bodies)
    found = []
    for it, body in bodies:
        if key_of(it) not in taken and is_proved_by_itself(crate, it):
            calls = bool(CALLS.search(body))
            is_hidden = calls and bool(hidden & {*re.findall(r"\w+", body)})
            found.append((is_hidden, calls, calls and it.file in changed, len(body), it.file, it.first, it))
    return min(found, key=lambda it: it[:-1])[-1] if found else None


def with_controls(crate, batches):
    """The batches, but of one that changes every function that might be its control, one place is taken out: it goes with others, or alone."""
    for batch in list(batches):
        spare = [it for it in batch if len(it.pairs) == len(it.functions) == 1 and is_proved_by_itself(crate, it.functions[0])]
        if len(batch) == 1 or control_of(crate, batch) or not spare:
            continue
        place = min(spare, key=lambda it: it.functions[0].last - it.functions[0].body)
        batch.remove(place)
        free = [it for it in batches if it is not batch and len(it) > 1 and all(may_share(place, other) for other in it)]
        if free:
            free[-1].append(place)
        else:
            batches.append([place])
    return batches


def texts_of(crate, batch, control):
    """The changed files of a batch by path, its control among them. A batch of more than one place has one pair in each."""
    if len(batch) == 1:
        texts = {pair.file: read(f"{crate.folder}/{pair.file}") for pair in batch[0].pairs}
        for pair in batch[0].pairs:
            texts[pair.file] = texts[pair.file].replace(pair.old, pair.new)
        changes = []
    else:
        texts = {}
        changes = [change_of(crate, pair) for place in batch for pair in place.pairs]
    if control:
        changes.append(harmless_change(crate, control, texts))
    for pair in (pair for place in batch for pair in place.pairs if pair.answers):
        texts |= answered(crate, batch, pair, texts)
    # (from the end on, so that what stands before keeps its place)
    for file, begins, ends, text in sorted(changes, reverse=True):
        source = texts.get(file) or read(f"{crate.folder}/{file}")
        texts[file] = source[:begins] + text + source[ends:]
    return texts


def answered(crate, batch, pair, texts):
    """The proof file of the function that a pair changes, with its answers: `NEW from OLD` gives the answer of a goal to another one (OLD
    goes, unless it is given to itself too), `NEW PARAMETERS = TERM` is one of its own."""
    function = next(it for place in batch if pair in place.pairs for it in place.functions)
    file = proof_file_of(crate, function)
    blocks = re.split(r"^(?=(?:abbrev )?pub )", texts.get(file) or read(f"{crate.folder}/{file}"), flags=re.M)
    named = {re.match(r"(?:abbrev )?pub (\S+)", it)[1]: it for it in blocks[1:]}
    moved = [it.split(" from ") for it in pair.answers if " from " in it]
    taken = {old: named.pop(old) for _, old in moved if old in named}
    for new, old in moved:
        named[new] = re.sub(rf"(?<![\w-]){re.escape(old)}(?![\w-])", new, taken.get(old, ""))
    for it in pair.answers:
        if " from " not in it:
            name = it.split()[0]
            named[name] = f"pub {name} : goal.{name}\n{it}\n\n"
    return {file: blocks[0] + "".join(named.values())}


def change_of(crate, pair):
    at = read(f"{crate.folder}/{pair.file}").index(pair.old)
    return pair.file, at, at + len(pair.old), pair.new


def harmless_change(crate, control, texts):
    """Puts a statement behind the brace of a function's body."""
    text = texts.get(control.file) or read(f"{crate.folder}/{control.file}")
    found = next(it for it in functions_of(control.file, text) if key_of(it) == key_of(control))
    at = len("\n".join(text.split("\n")[: found.body]))
    return control.file, at, at, f"\n{HARMLESS}"
