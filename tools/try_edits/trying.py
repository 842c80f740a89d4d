"""What all runs share: which edits are asked for, how crates are tried, and the last line."""
import shutil
import signal
import sys

from try_edits.checks import stop
from try_edits.edits import edits_of, places_of, title
from try_edits.lanes import Width, lanes, run_in_lanes
from try_edits.record import digests_of
from try_edits.run import Run, say


def take_edits(crates, words):
    """Reads the edits that are asked for, and returns the crates that have any; what cannot be applied has failed."""
    asked = [word.partition("/") for word in words] or [(name, "", "") for name in crates]
    for name, _, only in asked:
        if name not in crates:
            sys.exit(f"try-edits: crates.txt names no crate {name}")
        crate = crates[name]
        crate.is_whole = crate.is_whole or not only
        for edit in edits_of(crate):
            if only in ("", title(edit)):
                places, fault = places_of(crate, edit)
                crate.places += places
                if fault:
                    crate.failed += 1
                    crate.lines.append(f"NOT REFUSED {name} {title(edit)}: {fault}")
    return [it for it in crates.values() if it.places or it.lines]


def take_digests(tried, logic):
    digests = digests_of(tried, logic)
    for crate in tried:
        crate.digest = digests[crate.name]


def try_all(crates, tried, rooms, is_kept, versions):
    """Tries the places of these crates, each over its proof and those of the crates below, and writes of each that is tried whole what was
    found into the record, where it is to be kept."""
    wanted = [it for it in crates.values() if it in tried or any(it in above.below for above in tried)]
    run = Run(wanted, rooms, is_kept, versions, list(crates))
    width = Width(lanes())
    for it, does in ((signal.SIGTERM, stop), (signal.SIGINT, stop), (signal.SIGUSR1, width.widen)):
        signal.signal(it, does)
    try:
        run_in_lanes(width, run.first_tasks())
    finally:
        shutil.rmtree(rooms.top, ignore_errors=True)
    say(f"processor minutes: proofs {rooms.proofs.seconds / 60:.1f}, batches {rooms.batches.seconds / 60:.1f}")


def end(tried):
    """The last line, and the exit status."""
    passed, failed = sum(it.passed for it in tried), sum(it.failed for it in tried)
    say(f"{passed} passed, {failed} failed")
    return 1 if failed or not passed else 0
