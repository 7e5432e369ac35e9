#!/usr/bin/env python3
"""Records what each crate costs the gate, and prints it.

    costs.py record -- COMMAND ..    runs the command, as `rt ci`, and writes out/costs.json
    costs.py [FILE]                  prints tables of out/costs.json, or of this file

Both run at the top of a repository. The command's output, status and signals are as without `record`. Each 0.3 seconds
it looks at the processes below the command. Those that name a crate are counted for it, with all that they start: its
library, its tests (`--test`), its must-fail edits (folders rt-edit-*), its program, and runs of what was built (folders
rt-run-*). What a process took after the last look comes from what the system counts for its parent. The rest is rt's own.
A look that fails is dropped. Where out/costs.json can't be written, one line on standard error says so.

The schedules are those of `rt ci` (`in_lanes`): its tasks are the proof, the tests and the edits of each crate. A task
starts after those that it waits for, and first the one that most lines of code wait for. At the end programs and tests
are run, one after the other. A task takes as long by the clock as it took of processors, and there is memory for all.
With shared processors a proof gets up to four that are idle, and is done in that part of the time.
"""
import contextlib
import json
import os
import re
import resource
import signal
import subprocess
import sys
import time
from dataclasses import asdict, dataclass, field
from pathlib import Path
from threading import Event, Thread

from build import below, lines_of

ROOT = Path.cwd()
LOG = ROOT / "out/costs.json"
EVERY = 0.3
# Seconds that the command's end waits for the last look at most.
LAST_LOOK = 5
TICKS = os.sysconf("SC_CLK_TCK")
PASSED_ON = {signal.SIGINT, signal.SIGTERM, signal.SIGHUP, signal.SIGQUIT}
# The code of a signal from the terminal, which the command gets too.
FROM_KERNEL = 0x80
KINDS = ("library", "tests", "program", "edits", "runs")
MOST_JOBS = 4


@dataclass
class Process:
    """A process of the machine, with its seconds of processors and those of children that it waited for."""
    parent: int
    start: int
    own: float
    waited: float


@dataclass
class Seen:
    """A process below the command at the last look. One that names a crate is a task, and has the seconds of all below it."""
    parent: int
    seconds: float
    waited: float
    task: tuple


@dataclass
class Log:
    """Seconds by the clock, of processors, and of processors by crate and kind."""
    clock: float = 0
    processors: float = 0
    crates: dict = field(default_factory=dict)

    def add(self, crate, kind, seconds):
        kinds = self.crates.setdefault(crate, {})
        kinds[kind] = kinds.get(kind, 0) + seconds

    def minutes(self, crate, *kinds):
        return sum(self.crates.get(crate, {}).get(kind, 0) for kind in kinds) / 60


@dataclass
class Task:
    """What rt ci does of a crate: what it waits for, its lines of code, and its minutes."""
    waits: list
    lines: int
    minutes: float


def processes(others):
    """The processes of the machine, by their numbers, without these others."""
    found = {}
    for name in filter(str.isdigit, os.listdir("/proc")):
        if int(name) in others:
            continue
        try:
            with open(f"/proc/{name}/stat", "rb") as file:
                words = file.read().rpartition(b")")[2].split()
            user, system, users, systems = (int(word) / TICKS for word in words[11:15])
            found[int(name)] = Process(int(words[1]), int(words[19]), user + system, users + systems)
        except (OSError, ValueError, IndexError):
            continue
    return found


def words_of(number):
    """The words that started a process, and the folder that it is in."""
    try:
        words = Path("/proc", str(number), "cmdline").read_bytes().decode(errors="replace").split("\0")[:-1]
        return words, os.readlink(f"/proc/{number}/cwd")
    except OSError:
        return [], ""


def named(words, folder):
    """The crate and the kind of work that a process with these words has, or None."""
    text, here = " ".join(words), Path(folder).name
    ran = re.search(r"/rt-run-[^/]+/bin/(\w+)", text)
    if ran:
        return re.sub("_tests$", "", ran[1]) if "rattle-test" in text else ran[1], "runs"
    if "--crate-name" in words[:-1]:
        kind = "program" if "src/main.rt" in words else "library"
        kind = "tests" if "--test" in words else "edits" if "rt-edit-" in folder else kind
        return words[words.index("--crate-name") + 1], kind
    linked = re.search(r"rattle-link .* -o out/(\w+)", text)
    if linked:
        return here, "tests" if linked[1] == f"{here}_tests" else "program"
    formatted = re.search(r"rattle fmt .*?/crates/(\w+)/", text)
    return (formatted[1], "library") if formatted else None


class Recorder:
    """Looks at the processes below a command, and counts tasks as they end."""

    def __init__(self, command):
        self.command, self.before, self.log = command, {}, Log()
        self.others = set()

    def look(self):
        now, children, seen = processes(self.others), {}, {}
        for number, process in now.items():
            children.setdefault(process.parent, []).append(number)
        self.others &= {int(name) for name in os.listdir("/proc") if name.isdigit()}
        self.others |= now.keys() - set(started(self.command, children))
        left = [self.command] if self.command in now else []
        while left:
            number = left.pop()
            process = now[number]
            key = number, process.start
            task = self.task_of(key)
            own = started(number, children) if task else [number]
            seconds = sum(now[it].own + now[it].waited for it in own)
            seen[key] = Seen(process.parent, seconds, process.waited, task)
            left += [] if task else children.get(number, [])
        self.settle(seen)

    def task_of(self, key):
        was = self.before.get(key)
        return was.task if was and was.task else named(*words_of(key[0]))

    def settle(self, seen):
        """Counts tasks that ended since the last look, with what their parent was given beyond what was seen of them."""
        given = {key[0]: it.waited - self.before[key].waited for key, it in seen.items() if key in self.before}
        ended = [it for key, it in self.before.items() if key not in seen]
        for parent in {it.parent for it in ended}:
            children = [it for it in ended if it.parent == parent]
            tasks = [it for it in children if it.task]
            rest = max(0, given.get(parent, 0) - sum(it.seconds for it in children))
            for it in tasks:
                self.log.add(*it.task, it.seconds + rest / len(tasks))
        self.before = seen


def started(number, children):
    """A process and all below it."""
    return [number, *(it for child in children.get(number, []) for it in started(child, children))]


def sample(recorder, is_over):
    """Looks until the command is over, and once then. No fault of a look is one of the command."""
    is_last = False
    while not is_last:
        with contextlib.suppress(Exception):
            recorder.look()
        is_last = is_over.wait(EVERY)
    with contextlib.suppress(Exception):
        recorder.look()


def watch(child):
    """Waits until the command ends, which is still to be waited for, and passes on signals that came to this process alone."""
    while os.waitid(os.P_PID, child.pid, os.WEXITED | os.WNOWAIT | os.WNOHANG) is None:
        came = signal.sigtimedwait({*PASSED_ON, signal.SIGCHLD}, EVERY)
        if came and came.si_signo in PASSED_ON and came.si_code != FROM_KERNEL:
            with contextlib.suppress(OSError):
                os.kill(child.pid, came.si_signo)


@contextlib.contextmanager
def sampled(recorder):
    """Looks in a thread, so that a look that hangs keeps back no signal."""
    is_over = Event()
    sampler = Thread(target=sample, args=(recorder, is_over), daemon=True)
    try:
        sampler.start()
    except (RuntimeError, MemoryError):
        sampler = None
    yield
    is_over.set()
    if sampler:
        sampler.join(LAST_LOOK)


def write(log):
    """Writes out/costs.json whole. Where it can't, there is none, so that no table shows an earlier run."""
    written = LOG.with_suffix(".new")
    try:
        LOG.parent.mkdir(exist_ok=True)
        written.write_text(json.dumps(asdict(log), indent=1) + "\n")
        written.replace(LOG)
    except Exception as fault:
        # Not by `print`, which fails again at the end of the process where nobody reads.
        with contextlib.suppress(OSError):
            os.write(2, f"costs.py: {LOG} is not written, and the run is as it was: {fault}\n".encode(errors="replace"))
        for file in (written, LOG):
            with contextlib.suppress(OSError):
                file.unlink()


def record(words):
    """Runs the command, and writes what it cost. Ends as it ended."""
    start = time.monotonic()
    # Where this is ignored, as a parent may have it, the system keeps no status of the command.
    signal.signal(signal.SIGCHLD, signal.SIG_DFL)
    before = signal.pthread_sigmask(signal.SIG_BLOCK, {*PASSED_ON, signal.SIGCHLD})
    try:
        child = subprocess.Popen(words, preexec_fn=lambda: signal.pthread_sigmask(signal.SIG_SETMASK, before))
    except OSError as fault:
        sys.exit(f"costs.py: {words[0]} can't be run: {fault.strerror}")
    recorder = Recorder(child.pid)
    with sampled(recorder):
        watch(child)
    _, status, used = os.wait4(child.pid, 0)
    child.returncode = status
    recorder.log.clock, recorder.log.processors = time.monotonic() - start, used.ru_utime + used.ru_stime
    write(recorder.log)
    return end_as(status, before)


def end_as(status, mask):
    """The command's exit status. Where a signal ended it, the same one ends this process, without a core file of its own."""
    if not os.WIFSIGNALED(status):
        return os.WEXITSTATUS(status)
    number = os.WTERMSIG(status)
    with contextlib.suppress(OSError, ValueError):
        resource.setrlimit(resource.RLIMIT_CORE, (0, 0))
    # Python ignores some, as SIGPIPE.
    with contextlib.suppress(OSError, ValueError):
        signal.signal(number, signal.SIG_DFL)
    signal.pthread_sigmask(signal.SIG_SETMASK, mask)
    os.kill(os.getpid(), number)
    return 128 + number


def lines(crate):
    return sum(file.read_bytes().count(b"\n") for file in (ROOT / "crates" / crate / "src").rglob("*.rt"))


def planned(log):
    """The tasks of rt ci, each after those that it waits for."""
    _, uses = lines_of(ROOT)
    tasks = {}
    for crate in sorted(uses, key=lambda it: len(below(it, uses))):
        waits, count = [(it, "proof") for it in below(crate, uses) - {crate}], lines(crate)
        tests, edits = log.minutes(crate, "tests"), log.minutes(crate, "edits")
        tasks[crate, "proof"] = Task(waits, count, log.minutes(crate, "library", "program"))
        tasks[crate, "tests"] = Task(waits, count * bool(tests), tests)
        tasks[crate, "edits"] = Task([(crate, "proof"), (crate, "tests")], count * bool(edits), edits)
    return tasks


def longest(tasks):
    """The chain of tasks that takes longest: its minutes, and the tasks."""
    found = {}
    for key, task in tasks.items():
        above, chain = max((found[it] for it in task.waits), default=(0, []))
        found[key] = above + task.minutes, [*chain, key]
    return max(found.values())


def clock(tasks, processors, are_shared):
    """Minutes by the clock until all tasks are done on so many processors."""
    waiting = dict.fromkeys(tasks, 0)
    for key in reversed(list(tasks)):
        waiting[key] += tasks[key].lines
        for it in tasks[key].waits:
            waiting[it] = max(waiting[it], waiting[key])
    left, running, done, now = sorted(tasks, key=lambda it: -waiting[it]), [], set(), 0
    while left or running:
        ready = [key for key in left if done.issuperset(tasks[key].waits)]
        for at, key in enumerate(ready):
            idle = processors - sum(jobs for _, _, jobs in running)
            if idle:
                share = min(MOST_JOBS, idle // (len(ready) - at)) if are_shared and key[1] != "edits" else 1
                jobs = max(1, share)
                left.remove(key)
                running.append((now + tasks[key].minutes / jobs, key, jobs))
        now = min(end for end, _, _ in running)
        done.update(key for end, key, _ in running if end <= now)
        running = [it for it in running if it[0] > now]
    return now


def row(name, cells):
    print(f"| {name} | {' | '.join(cells)} |")


def print_table(log, names):
    """The processor minutes of these crates, and their sum."""
    print("Processor minutes:\n")
    row("Crate", [kind.capitalize() for kind in KINDS])
    print("|---" * (len(KINDS) + 1) + "|")
    for crate in names:
        row(f"`{crate}`", [f"{log.minutes(crate, it):.1f}" if it in log.crates[crate] else "-" for it in KINDS])
    sums = [sum(log.minutes(crate, kind) for crate in log.crates) for kind in KINDS]
    row("**all**", [f"**{it:.1f}**" for it in sums])
    print()
    return sum(sums)


def print_schedules(log):
    tasks = planned(log)
    minutes, chain = longest(tasks)
    names = {key: key[0] if key[1] == "proof" else f"{key[0]} ({key[1]})" for key in chain}
    parts = [f"{names[key]} {tasks[key].minutes:.1f}" for key in chain if tasks[key].minutes]
    print(f"The longest chain takes {minutes:.1f} minutes: {', '.join(parts)}.\n")
    runs = sum(log.minutes(crate, "runs") for crate in log.crates)
    print("Minutes by the clock, simulated:\n")
    row("Processors", ["One for each task", "Idle ones are shared"])
    print("|---|---|---|")
    for number in (2, 4):
        row(number, [f"{clock(tasks, number, are_shared) + runs:.1f}" for are_shared in (False, True)])
    print()


def show(file):
    log = Log(**json.loads(Path(file).read_text()))
    names = [crate for crate in lines_of(ROOT)[0] if crate in log.crates]
    counted = print_table(log, names)
    print_schedules(log)
    print(f"This run took {log.clock / 60:.1f} minutes by the clock, and {log.processors / 60:.1f} processor minutes: "
          f"{counted:.1f} of crates, {log.processors / 60 - counted:.1f} of rt itself.")


if __name__ == "__main__":
    if sys.argv[1:3] == ["record", "--"] and sys.argv[3:]:
        sys.exit(record(sys.argv[3:]))
    if len(sys.argv) > 2 or sys.argv[1:2] == ["record"]:
        sys.exit(__doc__)
    file = sys.argv[1] if sys.argv[1:] else LOG
    try:
        show(file)
        sys.stdout.flush()
    except (OSError, ValueError, TypeError, KeyError) as fault:
        sys.exit(f"costs.py: no table of {file}: {fault}")
