"""Tasks that run side by side: as many as there are processors and memory for, the longest chain first."""

import os
import signal
import subprocess
import sys
import threading
import time
import traceback
from concurrent.futures import FIRST_COMPLETED, ThreadPoolExecutor, wait
from dataclasses import dataclass, field
from functools import cache
from typing import NamedTuple

MEMORY_EACH = 4_000_000_000
"""Octets that a check may take."""
MOST_JOBS = 4
RUNNING = set()
"""Process numbers of the commands that run."""
THIS_TASK = threading.local()
"""What stands before each command of the task that this thread does: others wait for its end, or it gives way to them."""


class Ran(NamedTuple):
    """A command that ended: its status, all that it printed, and seconds of processor time with what it started."""

    status: int
    text: str
    seconds: float


@dataclass
class Done:
    """What a task gives."""

    passed: int = 0
    failed: dict = field(default_factory=dict)
    """By name of what failed, what it printed."""
    says: str = ""
    """What is said of it in one line."""
    seconds: float = 0.0
    """Of processor time."""


@dataclass
class Task:
    """A task: its call gets how many jobs it may use, and gives a Done; it waits until the tasks of these names passed."""

    name: str
    call: object
    waits: tuple = ()
    work: float = 0.0
    """How much there is to do, in any measure that all share."""


def own_group():
    """How a command is started in a process group of its own, so that all it starts can be ended with it. Where it can be, the
    group is of the same session: of several sessions, Linux would give each an equal share of the processors."""
    return {"process_group": 0} if sys.version_info >= (3, 11) else {"start_new_session": True}


def run(words, folder, stdin=subprocess.DEVNULL, is_shown=False):
    """Runs a command to its end, with all that it prints in one text, or where its output is shown as it comes, with what it writes
    to standard error. What it started and left running is ended."""
    streams = {"stderr": subprocess.PIPE} if is_shown else {"stdout": subprocess.PIPE, "stderr": subprocess.STDOUT}
    how = {"cwd": folder, "stdin": stdin, **streams, **own_group()}
    with subprocess.Popen([*getattr(THIS_TASK, "before", ()), *words], **how) as started:
        RUNNING.add(started.pid)
        try:
            printed = (started.stderr if is_shown else started.stdout).read().decode(errors="replace")
            _, status, usage = os.wait4(started.pid, 0)
            started.returncode = os.waitstatus_to_exitcode(status)
        finally:
            RUNNING.discard(started.pid)
            end_group(started.pid, signal.SIGKILL)
    return Ran(started.returncode, printed, usage.ru_utime + usage.ru_stime)


def end_group(pid, number):
    """Sends a signal to the process group of a command, if any of it is left."""
    try:
        os.killpg(pid, number)
    except OSError:
        pass


def stop_on_signals():
    """Lets the signals that end a process end what it started too."""

    def stop_all(*_):
        for pid in list(RUNNING):
            end_group(pid, signal.SIGTERM)
        os._exit(130)

    for each in (signal.SIGTERM, signal.SIGINT, signal.SIGHUP):
        signal.signal(each, stop_all)


def lanes():
    """How many checks may run at once, by processors and by memory."""
    with open("/proc/meminfo", encoding="ascii") as file:
        free = next((int(line.split()[1]) * 1024 for line in file if line.startswith("MemAvailable")), MEMORY_EACH)
    return max(min(len(os.sched_getaffinity(0)), free // MEMORY_EACH), 1)


def chains(tasks):
    """By name, the work of the longest chain of tasks that begins with it."""

    @cache
    def chain(name):
        return works[name] + max((chain(task.name) for task in tasks if name in task.waits), default=0)

    works = {task.name: task.work for task in tasks}
    return {name: chain(name) for name in works}


def called(task, jobs, is_last):
    """Does a task. Where no other waits for it, its commands give way to those of tasks that others wait for."""
    THIS_TASK.before = ("nice", "-n", "10") if is_last else ()
    return task.call(jobs)


def outcome(task, future):
    """What a task gives; where it ended by a fault of this program, a failure of its own."""
    fault = future.exception()
    return Done(failed={task.name: "".join(traceback.format_exception(fault))}) if fault else future.result()


def run_all(tasks, say, count=None):
    """Runs tasks and returns how much passed, by name what each failure printed, and the names of what wasn't tried."""
    count = count or lanes()
    left, running, ended, behind = list(tasks), {}, set(), chains(tasks)
    passed, failed, number = 0, {}, 0
    with ThreadPoolExecutor(count) as pool:
        while True:
            ready = sorted((task for task in left if ended.issuperset(task.waits)), key=lambda task: -behind[task.name])
            idle = count - sum(jobs for _, jobs, _ in running.values())
            for at, task in enumerate(ready[: max(idle, 0)]):
                # What others wait for gets a second processor, also where all are in use, and more where some would be idle;
                # more jobs than that take more processor time in all. On two processors each task has one.
                is_last = behind[task.name] == task.work
                jobs = max(1 if is_last or count < 3 else 2, min(MOST_JOBS, idle // (len(ready) - at)))
                idle -= jobs
                left.remove(task)
                running[pool.submit(called, task, jobs, is_last)] = task, jobs, time.time()
            if not running:
                return passed, failed, [task.name for task in left]
            for future in wait(running, return_when=FIRST_COMPLETED).done:
                task, _, began = running.pop(future)
                done, number = outcome(task, future), number + 1
                if not done.failed:
                    ended.add(task.name)
                passed += done.passed
                failed.update(done.failed)
                says = done.says or ("FAILED" if done.failed else "ok")
                clock = f"{time.time() - began:.0f} s, {done.seconds:.0f} s of processor time"
                say(f"[{number} of {len(tasks)}] {task.name}: {says} ({clock})")
                for shows in done.failed.values():
                    say(shows)
