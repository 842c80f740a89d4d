"""Tasks side by side, in as many lanes as processors and memory allow."""
import collections
import os
import re
import time
from concurrent.futures import FIRST_COMPLETED, ThreadPoolExecutor, wait

# What `rt ci` is planned with a lane: it is told how many crates at once, and not how large they are.
GIGABYTES_A_LANE = 4

# What waits for the tasks named in `after`, runs the earlier the heavier it is, in more than one lane where it can use that, and needs so
# much memory in each, in bytes.
Task = collections.namedtuple("Task", "name after weight memory takes_more run")


def memory_of(crate, places=0):
    """What a check of a crate with so many wrong bodies takes at the most, in bytes (docs/GATE.md, "Memory")."""
    return 0.8e9 + 12e6 * crate.functions() + 2e6 * sum(it.functions() for it in crate.below) + 40e6 * places


class Width:
    """How many lanes there are."""

    def __init__(self, number):
        self.number = number

    def widen(self, *_):
        """Takes all processors."""
        self.number = max(self.number, processors())


class Begun:
    """What began in the last minute, and has not yet taken the memory that it needs."""

    def __init__(self):
        self.tasks = []

    def has_room(self, task):
        """Whether a task fits what is free, less what those that just began will take."""
        self.tasks = [it for it in self.tasks if it[0] > time.monotonic() - 60]
        return task.memory <= free_memory() - sum(memory for _, memory in self.tasks)

    def add(self, task, jobs):
        self.tasks.append((time.monotonic(), task.memory * jobs))


def run_in_lanes(width, tasks):
    """Runs tasks side by side, the heaviest first, each once those that it waits for have ended and its memory is free (or nothing else
    runs). A task gives the tasks that come of it."""
    left, running, ended, begun = list(tasks), {}, set(), Begun()
    with ThreadPoolExecutor(max(width.number, processors())) as pool:
        while left or running:
            ready = sorted((it for it in left if ended.issuperset(it.after)), key=lambda it: -it.weight)
            for at, task in enumerate(ready):
                free = width.number - sum(jobs for _, jobs in running.values())
                if free <= 0 or running and not begun.has_room(task):
                    continue
                jobs = max(1, min(4, free // (len(ready) - at))) if task.takes_more else 1
                begun.add(task, jobs)
                left.remove(task)
                running[pool.submit(task.run, jobs)] = task, jobs
            # (not for long, since there may be more lanes, or more memory, by then)
            for it in wait(running, timeout=10, return_when=FIRST_COMPLETED).done:
                task, _ = running.pop(it)
                ended.add(task.name)
                left += it.result()


def numbers_in(path):
    try:
        with open(path, encoding="ascii") as file:
            return [int(it) for it in re.findall(r"\d+", file.read())]
    except OSError:
        return []


def free_memory():
    """The free memory in bytes, under the limit of the control group too."""
    with open("/proc/meminfo", encoding="ascii") as file:
        free = 1024 * int(re.search(r"MemAvailable:\s+(\d+)", file.read())[1])
    limit, held = numbers_in("/sys/fs/cgroup/memory.max"), numbers_in("/sys/fs/cgroup/memory.current")
    return min(free, limit[0] - held[0]) if limit and held else free


def processors():
    """The processors that this process may use, by the quota of its control group too."""
    found = len(os.sched_getaffinity(0))
    quota = numbers_in("/sys/fs/cgroup/cpu.max")
    return min(found, max(1, quota[0] // quota[1])) if len(quota) == 2 else found


def lanes():
    """How many checks may run side by side."""
    number = os.environ.get("RT_JOBS", "")
    wanted = int(number) if number.isdigit() and int(number) else processors()
    return max(1, min(wanted, int(free_memory() / GIGABYTES_A_LANE / 1e9)))
