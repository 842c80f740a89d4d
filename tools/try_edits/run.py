"""A run over the wrong bodies of crates: their proofs as they stand, their batches, and what these show of each place."""
import re
import threading
import time

from try_edits.checks import Checked, control_of, only_of, paths_of, texts_of, verdicts_of, what_refused, with_controls
from try_edits.edits import batches_of, edits_of, key_of, proof_file_of, title
from try_edits.lanes import Task, memory_of
from try_edits.record import Entry, Record, digests_of, git, place_of, too_few, uncommitted

# Above the weight of any batch: the last crate's batches wait for all proofs below it.
PROOFS_FIRST = 10**9
# The most places in one batch of a crate below which no other has edits: it comes last, when lanes stand idle, and its batches go side by side.
MOST_AT_THE_TOP = 24


def say(text):
    print(text, flush=True)


def all_batches(crate):
    """The batches of the places of a crate, each with a function for its control."""
    is_top = not any(next(edits_of(it), None) for it in crate.above)
    return with_controls(crate, batches_of(crate.places, MOST_AT_THE_TOP if is_top else len(crate.places)))


class Run:
    """What is tried, in which rooms, and whether what is found is written into the record."""

    def __init__(self, wanted, rooms, is_kept, versions, order):
        self.wanted, self.rooms, self.is_kept, self.versions, self.order = wanted, rooms, is_kept, versions, order
        self.broken, self.printing = set(), threading.Lock()

    def first_tasks(self):
        """The tasks that prove the crates, each behind those that it stands on, the longest chain first, and before batches."""
        behind = {}
        for crate in reversed(self.wanted):
            above = [behind[it.name] for it in crate.above if it in self.wanted]
            behind[crate.name] = crate.length() * (1 + len(crate.places) / 50) + max(above, default=0)
        for crate in self.wanted:
            after = [it.name for it in crate.below]
            yield Task(crate.name, after, PROOFS_FIRST + behind[crate.name], memory_of(crate), True, lambda jobs, it=crate: self.prove(it, jobs))

    # -- proving what the batches stand on

    def prove(self, crate, jobs):
        """Proves a crate as it stands, and gives the tasks of its batches."""
        started = time.time()
        broken = [it.name for it in crate.below if it.name in self.broken]
        if broken:
            status, said = 1, f"its library {', '.join(broken)} is not proved"
        else:
            status, said = self.rooms.prove(crate, any(it in self.wanted for it in crate.above), jobs)
        if status:
            self.broken.add(crate.name)
            return self.end_unproved(crate, said)
        crate.verdicts = verdicts_of(said)
        batches = all_batches(crate) if crate.drawn is None else [crate.places]
        sizes = ", ".join(str(len(it)) for it in batches) or "none"
        say(f"-- {crate.name}: proved after {time.time() - started:.0f} s; {len(crate.places)} places in batches of {sizes}")
        crate.open, crate.started = len(batches), time.time()
        return [self.task(crate, it, str(at + 1)) for at, it in enumerate(batches)]

    def end_unproved(self, crate, said):
        if crate.places:
            crate.failed += 1
            with self.printing:
                say("\n".join([f"== {crate.name}", *crate.lines]))
                say(f"FAILED {crate.name}: it is not proved as it stands:\n{said[-2000:].rstrip()}")
        return []

    # -- the batches

    def task(self, crate, batch, number):
        weight = crate.length() * (1 + len(batch))
        return Task(f"{crate.name} batch {number}", (), weight, memory_of(crate, len(batch)), False, lambda jobs: self.attempt(crate, batch, number))

    def check(self, crate, batch, control, asked):
        texts = texts_of(crate, batch, control)
        return Checked(texts, *self.rooms.check(crate, texts, "--jobs", "1", *asked))

    def attempt(self, crate, batch, number):
        """Checks a batch, notes what it shows, and gives the tasks of what has to be tried again."""
        started = time.time()
        control = control_of(crate, batch)
        checked = self.check(crate, batch, control, only_of(batch, control, crate.verdicts))
        again = self.judge(crate, batch, control, checked)
        say(f"-- {crate.name} batch {number}: {len(batch)} places, {sum(map(len, again))} to be tried again, {time.time() - started:.0f} s")
        tasks = [self.task(crate, it, f"{number}.{at + 1}") for at, it in enumerate(again)]
        self.close(crate, len(tasks))
        return tasks

    def judge(self, crate, batch, control, checked):
        """Notes what a check shows of a batch, and returns what of it is to be tried again, and how it is grouped."""
        if checked.verdicts is None:
            return self.part(crate, batch, checked)
        fault = self.fault_of(control, batch, checked)
        if fault:
            return self.refute(crate, batch, fault)
        hidden = []
        for place in batch:
            kind, names = self.refusal(place, batch, checked)
            if kind in ("goal", "proof file"):
                self.note_refused(crate, place, kind, names)
            elif len(batch) == 1:
                gone = "only a proof file that names a goal which is gone no longer fits"
                self.note_open(crate, place, gone if kind else "it is still proved")
            else:
                hidden.append(place)
        if len(hidden) == len(batch):
            return [[it] for it in hidden]
        return [hidden] if hidden else []

    def part(self, crate, batch, checked):
        """Looks by halves for the places of a batch that do not compile, notes them, and returns the rest as one batch."""
        if len(batch) == 1:
            first = next((it for it in checked.said.split("\n") if "error" in it), checked.said[-200:])
            self.note_open(crate, batch[0], f"it does not compile: {first[:200]}")
            return []
        rest = []
        for half in (batch[: len(batch) // 2], batch[len(batch) // 2 :]):
            tried = self.check(crate, half, None, ["--only", ""])
            if re.search(r"^only=", tried.said, re.M) and not re.search(r"^error|: error", tried.said, re.M):
                rest += half
            else:
                rest += [place for group in self.part(crate, half, tried) for place in group]
        if len(rest) == len(batch):
            return self.refute(crate, batch, "its batch did not reach the prover")
        return [rest] if rest else []

    def fault_of(self, control, batch, checked):
        """What makes the check of a batch show nothing: a control that is refused, or a function that is refused and that nothing changed."""
        if control is None:
            return "there is no function for a control"
        paths = paths_of(control, checked.verdicts)
        if not paths or not all(checked.verdicts[it].proved for it in paths):
            return f"the control in {control.file} {control.name} is not proved"
        own = {path for place in batch for it in place.functions for path in checked.refused_in(it)}
        strange = [path for path, why in checked.refused().items() if path not in own]
        if strange and not any(it.is_alone for it in batch):
            return f"{'::'.join(strange[0])} is refused, which nothing changed"
        return None

    def refute(self, crate, batch, fault):
        if len(batch) > 1:
            say(f"-- {crate.name}: each place of the batch alone, since {fault}")
            return [[it] for it in batch]
        for place in batch:
            self.note_open(crate, place, fault)
        return []

    def refusal(self, place, batch, checked):
        """What refused a place: in a function that it changes, in its arm where others of the batch change other arms of it, or anywhere
        where it is no body and changes what any may read."""
        others = {it.arm.variant for it in batch if it is not place and it.arm and {*map(key_of, it.functions)} & {*map(key_of, place.functions)}}
        return what_refused(checked.verdicts_in(place, others))

    # -- the results

    def note_refused(self, crate, place, kind, names):
        """Notes that a place is refused, whether its function has a proof by hand, and what refused it."""
        by_hand = " by hand" if any(proof_file_of(crate, it) for it in place.functions) else ""
        crate.lines.append(f"refused {crate.name} {place_of(place)}")
        crate.found.append(f"{place_of(place)}: {kind}{by_hand} {', '.join(names)}")
        crate.passed += 1

    def note_open(self, crate, place, fault):
        crate.lines.append(f"NOT REFUSED {crate.name} {place_of(place)}: {fault}")
        crate.failed += 1

    def close(self, crate, more):
        """Ends a task of a crate; behind the last one compares or writes what was found, and prints it in one block."""
        with self.printing:
            crate.open += more - 1
            if crate.open == 0:
                if crate.drawn is not None:
                    self.compare(crate)
                elif self.is_kept and crate.is_whole:
                    self.keep(crate)
                say("\n".join([f"== {crate.name} ({time.time() - crate.started:.0f} s, at most {crate.memory / 1e9:.1f} GB)", *sorted(crate.lines)]))

    def compare(self, crate):
        """Says which lines of the record are not what a batch that was drawn shows."""
        strange = [it for it in crate.found if it not in crate.drawn.places]
        crate.failed += len(strange)
        crate.lines += [f"FAILED {crate.name}: wrong-bodies.passed has another line than {it}" for it in strange]

    def keep(self, crate):
        """Writes what was found of a crate into the record, as that is by now, or takes out what stands there and is not so."""
        record = Record()
        entry = record.entries.get(crate.name)
        if crate.failed:
            record.entries.pop(crate.name, None)
            record.whole = None
            return record.save(self.order)
        changed = uncommitted(crate)
        if digests_of([crate], self.versions[1])[crate.name] != crate.digest or changed:
            crate.lines.append(f"-- {crate.name}: not written into wrong-bodies.passed, since this is not committed: {changed or 'what was tried'}")
        elif entry and too_few(entry, len(crate.found)):
            crate.failed += 1
            crate.lines.append(f"FAILED {crate.name}: wrong-bodies.passed has {entry.number} places, and does not say which of them was dropped and why")
        else:
            kit, logic = self.versions
            dropped = entry.dropped if entry else []
            record.entries[crate.name] = Entry(len(crate.found), crate.digest, logic, kit, git("rev-parse", "HEAD"), sorted(crate.found), dropped)
            record.save(self.order)
        return None
