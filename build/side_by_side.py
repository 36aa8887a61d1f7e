#!/usr/bin/env python3
"""Proves and builds the crates of the program, or of the C library, side by side, by the graph of crates.txt.

usage: side_by_side.py build TOP RT
       side_by_side.py library TOP RT
       side_by_side.py record TOP RT SINCE
       side_by_side.py measured TOP

TOP is the folder of crates.txt, and RT the toolchain's command. With `build`, or `library`, each crate is proved over the statements of
those below it, by the words with which the gate has rattle build it, so the longest chain of crates bounds the time, and not their number.
What was proved stands in crates/NAME/out/rlib/statements, beside a sum of all that it was made from: a call after one that was stopped goes
on, and one after a change proves what changed and what stands above it. With `record` the program that another proved build made since the
file SINCE was written is recorded, unless a source was changed since. `measured` prints what the proofs of both took, as the table
build/seconds.txt by which it shares out the processors and tells the time that is left.

The status is 0 where the program stands and is recorded, 1 where a crate isn't proved or nothing was recorded, 3 where the toolchain
refuses this way to build, and 128 and the signal's number where a signal ended it.
"""
import errno
import fcntl
import os
import re
import signal
import subprocess
import sys
import time

sys.dont_write_bytecode = True
# pylint: disable=wrong-import-position
from crates import LIBRARY, PROGRAM, BuiltFrom, Toolchain, crates_of, number_in, text_of, weigh

NOT_PROVED, REFUSED = 1, 3
ENDINGS = (signal.SIGINT, signal.SIGTERM, signal.SIGHUP)
# A proof's last line where it rests on nothing but the toolchain's logic and on libraries that were proved before, as the gate has it. A
# word that isn't listed may say what was left out.
VERDICT = re.compile(
    r"logic=proved( (tests|functions|axioms|target|cpu|threads|main|may-abort|partial|may-wait|may-serve|sum)=\S+)+"
    r" native=nat,char,string logic-built=trusted libraries-built=trusted statements=trusted"
)
# By how much a crate is proved faster by so many jobs, how much more processor time more than one take together, and how much memory each
# further one takes, as measured.
SPEED = {1: 1.0, 2: 1.4, 3: 1.7, 4: 1.9}
MOST_JOBS = max(SPEED)
TIME_OF_JOBS, MEMORY_OF_A_JOB = 1.25, 0.6
# By how much a build is longer than the processors and the longest chain alone would have it.
LOSS = 1.15
# A chain that lacks less than this part of the longest one counts as a longest one too. More jobs cost processor time, so they are worth it
# where the longest chain takes so much longer than all that is left does on all processors.
NEAR, WORTH_JOBS = 0.05, 1.4


def say(text):
    print(f"citrus: {text}", file=sys.stderr, flush=True)


class Ended(Exception):
    """Ends the build with a status, and a line that says why."""

    def __init__(self, status, why):
        super().__init__(why)
        self.status = status


def processors():
    """How many processors there are to use: those that this process may run on, or fewer by its control group's quota."""
    found = len(os.sched_getaffinity(0))
    quota, period = number_in("/sys/fs/cgroup/cpu.max", r"^(\d+)"), number_in("/sys/fs/cgroup/cpu.max", r" (\d+)")
    return min(found, max(quota // period, 1)) if quota and period else found


def free_megabytes():
    found = [(number_in("/proc/meminfo", r"^MemAvailable:\s+(\d+)") or 0) >> 10]
    for limit, used in (("memory.max", "memory.current"), ("memory/memory.limit_in_bytes", "memory/memory.usage_in_bytes")):
        limit, used = number_in(f"/sys/fs/cgroup/{limit}", r"^(\d+)"), number_in(f"/sys/fs/cgroup/{used}", r"^(\d+)")
        if limit and used:
            found.append((limit - used) >> 20)
    return max(min(found), 0)


def load_of_others(own):
    """How many processes beside these want a processor."""
    return max(os.getloadavg()[0] - own, 0)


class Group:
    """The process group of all that the build starts. It ends when this process ends, however that ends."""

    def __init__(self):
        end, self.held = os.pipe()
        # The read returns when the other end closes, and the shell then kills its group.
        quiet = {"stdout": subprocess.DEVNULL, "stderr": subprocess.DEVNULL}
        self.guard = subprocess.Popen(["sh", "-c", "read _; kill -9 0"], stdin=end, preexec_fn=os.setpgrp, **quiet)
        os.close(end)

    def start(self, words, folder, log, niceness):
        def join():
            os.setpgid(0, self.guard.pid)
            os.nice(niceness)

        return subprocess.Popen(words, cwd=folder, stdin=subprocess.DEVNULL, stdout=log, stderr=subprocess.STDOUT, preexec_fn=join)

    def end(self):
        try:
            os.killpg(self.guard.pid, signal.SIGKILL)
        except ProcessLookupError:
            pass
        self.guard.wait()


def spent_by(pid):
    """The processor seconds of a process and of its children so far."""
    ticks, left = 0, [pid]
    while left:
        at = left.pop()
        fields = text_of(f"/proc/{at}/stat").rpartition(")")[2].split()
        ticks += sum(map(int, fields[11:15])) if len(fields) > 14 else 0
        left += map(int, text_of(f"/proc/{at}/task/{at}/children").split())
    return ticks / os.sysconf("SC_CLK_TCK")


def megabytes_of(crate, jobs):
    return crate.megabytes * (1 + MEMORY_OF_A_JOB * (jobs - 1))


class Run:
    """A crate that is being proved."""

    def __init__(self, crate, toolchain, jobs, group, niceness):
        self.crate, self.jobs, self.group = crate, jobs, group
        self.key, self.touched = crate.key(toolchain), crate.touched()
        self.began, self.is_linking, self.seconds, self.megabytes = time.monotonic(), False, 0.0, 0.0
        os.makedirs(crate.kept, exist_ok=True)
        crate.forget()
        with open(crate.log, "wb") as log:
            self.process = group.start(crate.words(toolchain, jobs), crate.folder, log, niceness)

    def link(self, toolchain):
        with open(self.crate.log, "ab") as log:
            self.process = self.group.start(self.crate.link_words(toolchain), self.crate.folder, log, 0)
        self.is_linking = True

    def left(self):
        """The seconds of one processor that it still takes, as far as is known."""
        return max(self.crate.seconds - self.seconds - spent_by(self.process.pid), 1)

    def ended(self):
        """The status with which its process ended, or None."""
        pid, status, used = os.wait4(self.process.pid, os.WNOHANG)
        if not pid:
            return None
        self.seconds += used.ru_utime + used.ru_stime
        self.megabytes = max(self.megabytes, used.ru_maxrss / 1024)
        self.process.returncode = -os.WTERMSIG(status) if os.WIFSIGNALED(status) else os.WEXITSTATUS(status)
        return self.process.returncode


class Progress:
    """Tells how far the build is: on a terminal in one line that is renewed, and elsewhere in a line for each crate."""

    def __init__(self, crates, lanes):
        self.lanes, self.is_terminal, self.number = lanes, os.isatty(2), len(crates)
        self.began, self.told_at = time.monotonic(), 0.0
        self.whole = sum(it.seconds for it in crates)
        self.first = self.bound(crates, [])

    def bound(self, left, running):
        """The seconds that are left by the number of processors and by the longest chain, where nothing else runs."""
        rest = {it.crate: it.left() for it in running}
        whole = sum(rest.values()) + sum(it.seconds for it in left)
        chains = [it.behind for it in left] + [it.behind - it.seconds + rest[it] for it in rest]
        return LOSS * max([whole / self.lanes, *(it / SPEED[min(self.lanes, MOST_JOBS)] for it in chains)])

    def minutes(self, left, running):
        """The minutes that are left where it goes on as fast as until now."""
        seconds = self.bound(left, running)
        gone, spent = self.first - seconds, time.monotonic() - self.began
        # At first what else runs here is all that is known of the pace.
        pace = spent / gone if gone > 0.1 * self.first else 1 + load_of_others(len(running)) / self.lanes
        return max(1, round(seconds * pace / 60))

    def line(self, left, running):
        rest = sum(it.left() for it in running) + sum(it.seconds for it in left)
        percent, done = int(100 - 100 * rest / self.whole), self.number - len(left) - len(running)
        names = " ".join(it.crate.name for it in running)
        return f"{percent}% of the work, {done} of {self.number} crates, about {self.minutes(left, running)} min left; at {names}"

    def renew(self, left, running):
        if self.is_terminal and running and time.monotonic() - self.told_at > 1:
            self.told_at = time.monotonic()
            # A terminal that doesn't know its width says 0.
            columns = os.get_terminal_size(2).columns or 80
            text = f"citrus: {self.line(left, running)}"[: columns - 1]
            print(f"\r\033[K{text}", end="", file=sys.stderr, flush=True)

    def tell(self, run, left, running):
        if not self.is_terminal:
            rest = f": {self.line(left, running)}" if running else ""
            say(f"{run.crate.name} proved in {time.monotonic() - run.began:.0f} s{rest}")

    def say(self, text):
        """Says a line for itself."""
        if self.is_terminal:
            print("\r\033[K", end="", file=sys.stderr, flush=True)
        say(text)


class Build:
    def __init__(self, crates, toolchain, group, progress, lanes):
        self.toolchain, self.group, self.progress, self.lanes = toolchain, group, progress, lanes
        self.left, self.running, self.done = list(crates), [], set()
        # Those whose check was killed, most likely for memory: it runs once more, alone and with one job.
        self.killed = set()
        self.memory = 0.85 * free_megabytes()

    def go(self):
        self.start()
        while self.running:
            time.sleep(0.1)
            self.progress.renew(self.left, self.running)
            if self.collect():
                self.start()

    def ready(self):
        """The crates to be proved next, those with the longest chain above them first."""
        found = []
        for crate in list(self.left):
            if all(it in self.done for it in crate.used):
                if crate.is_proved(crate.key(self.toolchain)):
                    self.left.remove(crate)
                    self.done.add(crate)
                else:
                    found.append(crate)
        return sorted(found, key=lambda it: -it.behind)

    def start(self):
        ready = self.ready()
        front = max([it.behind for it in ready] + [it.crate.behind for it in self.running], default=0)
        for at, crate in enumerate(ready):
            is_alone = crate in self.killed or any(it.crate in self.killed for it in self.running)
            if self.running and (len(self.running) >= self.lanes or is_alone or self.room() < crate.megabytes):
                break
            jobs = self.jobs_for(crate, front, len(ready) - at)
            # A crate of the longest chain goes first where more want a processor than there are.
            niceness = min(15, int(30 * (1 - crate.behind / front)))
            self.left.remove(crate)
            self.running.append(Run(crate, self.toolchain, jobs, self.group, niceness))

    def room(self):
        return self.memory - sum(megabytes_of(it.crate, it.jobs) for it in self.running)

    def jobs_for(self, crate, front, number):
        if crate in self.killed:
            return 1
        idle = (self.lanes - len(self.running)) // number
        rest = sum(it.seconds for it in self.left) + sum(it.left() for it in self.running)
        is_bound = crate.behind > (1 - NEAR) * front and front > WORTH_JOBS * rest / self.lanes
        jobs = min(self.lanes if is_bound else max(idle, 1), MOST_JOBS)
        while jobs > 1 and self.room() < megabytes_of(crate, jobs):
            jobs -= 1
        return jobs

    def collect(self):
        """Settles what has ended, and returns whether anything has."""
        ended = [(it, status) for it in self.running for status in [it.ended()] if status is not None]
        for run, status in ended:
            if not self.is_well(run, status):
                self.running.remove(run)
                self.left.append(run.crate)
            elif run.crate.is_program and not run.is_linking:
                run.link(self.toolchain)
            else:
                self.running.remove(run)
                self.settle(run)
        return bool(ended)

    def is_well(self, run, status):
        """Whether rattle said that the crate is proved. Where its check was killed it is to run once more, and else the build ends."""
        told = text_of(run.crate.log)
        if status == 0 and (run.is_linking or VERDICT.fullmatch(told.rstrip("\n").rpartition("\n")[2])):
            return True
        if status in (-signal.SIGKILL, 3) and run.crate not in self.killed:
            self.killed.add(run.crate)
            self.progress.say(f"the check of {run.crate.name} ran out of something, most likely of memory: once more, alone")
            return False
        self.progress.say(f"what rattle says of {run.crate.name}:")
        print(told, end="", file=sys.stderr)
        if status in (0, 2):
            raise Ended(REFUSED, f"the toolchain doesn't build {run.crate.name} over statements")
        raise Ended(NOT_PROVED, f"{run.crate.name} could not be proved")

    def settle(self, run):
        crate = run.crate
        if crate.touched() != run.touched or crate.key(self.toolchain) != run.key:
            self.progress.say(f"files of {crate.name} changed while it was proved: once more")
            self.left.append(crate)
            return
        if crate.has_result():
            os.replace(f"{crate.made}.linked" if crate.is_program else crate.made, crate.result)
        crate.keep(run.key, run.seconds / (TIME_OF_JOBS if run.jobs > 1 else 1), run.megabytes)
        self.done.add(crate)
        self.progress.tell(run, self.left, self.running)


def lock(crates):
    """Waits until nobody else works in the crates' folders, as the toolchain's own commands do, and returns what keeps them out."""
    held = []
    for folder in sorted(os.path.realpath(it.folder) for it in crates):
        held.append(os.open(folder, os.O_RDONLY))
        try:
            fcntl.flock(held[-1], fcntl.LOCK_EX | fcntl.LOCK_NB)
        except BlockingIOError:
            say(f"waiting for another build or check to end in {folder}")
            fcntl.flock(held[-1], fcntl.LOCK_EX)
        except OSError as error:
            # Some file systems have no locks.
            if error.errno not in (errno.ENOLCK, errno.ENOTSUP, errno.EINVAL):
                raise
    return held


def outdated(crates, toolchain):
    """The crates that have to be proved, as far as is known before those below them are."""
    found = []
    for crate in crates:
        if any(it in found for it in crate.used) or not crate.is_proved(crate.key(toolchain)):
            found.append(crate)
    return found


def announce(crates, left, lanes):
    progress = Progress(left, lanes)
    of = f"the {'C library' if crates[-1].is_archive else 'program'}'s {len(crates)} crates"
    what = f"{len(left)} of {of}" if len(left) < len(crates) else of
    busy = " beside what else runs here" if load_of_others(0) > 0.5 else ""
    say(f"to be proved first: {what}, in about {progress.minutes(left, [])} min on {lanes} processor{'s' * (lanes > 1)}{busy}")
    if crates[-1].is_program:
        say("./citrus --unproved WORDS answers within a minute, by a build without proofs. Ctrl-C ends this, and the next call goes on")
    return progress


def prove(crates, toolchain):
    """Proves what has to be proved, and builds what the last crate is for."""
    lanes, group = processors(), Group()
    left = outdated(crates, toolchain)
    try:
        if left:
            progress = announce(crates, left, lanes)
            Build(crates, toolchain, group, progress, lanes).go()
            progress.say(f"proved and built in {(time.monotonic() - progress.began) / 60:.1f} min")
    finally:
        group.end()


def takes_statements(toolchain):
    try:
        told = subprocess.run([toolchain.rattle, "build", "--help"], stdout=subprocess.PIPE, stderr=subprocess.DEVNULL, check=False).stdout
    except OSError:
        return False
    return b"--statements" in told and b"--logic-built" in told and os.path.isdir(f"{toolchain.folder}/rlibs/std.rlib")


def build(top, rt, last=PROGRAM):
    top = os.path.abspath(top)
    toolchain, crates = Toolchain(rt), crates_of(top, last)
    if not crates:
        raise Ended(NOT_PROVED, f"crates.txt has no crate {last}")
    weigh(crates, f"{top}/build/seconds.txt")
    held = lock(crates)
    while True:
        record = BuiltFrom(crates, toolchain)
        if not record.holds():
            if not takes_statements(toolchain):
                raise Ended(REFUSED, f"the toolchain in {toolchain.folder} doesn't build over statements")
            prove(crates, toolchain)
        if record.is_untouched():
            break
        say("files changed meanwhile: going on with what changed")
    record.write()
    for it in held:
        os.close(it)


def record_since(top, rt, since):
    """Records the program that another proved build made since that file was written, and takes what it left of the libraries."""
    top, began = os.path.abspath(top), os.stat(since).st_mtime_ns
    toolchain, crates = Toolchain(rt), crates_of(top)
    names = {it.name for it in crates}
    # Those of the C library on which the program doesn't stand.
    others = [it for it in crates_of(top, LIBRARY) if it.name not in names]
    held = lock([*crates, *others])
    record = BuiltFrom(crates, toolchain)
    if not all(it.is_untouched_since(began) for it in crates) or os.stat(f"{top}/crates.txt").st_ctime_ns > began:
        raise Ended(NOT_PROVED, "files changed meanwhile, so the program isn't recorded as built from them")
    if not os.path.exists(record.last.result) or os.stat(record.last.result).st_ctime_ns < began:
        raise Ended(NOT_PROVED, "no program was built, so none is recorded")
    for crate in [*crates, *others]:
        if crate.is_untouched_since(began):
            crate.adopt(began, toolchain)
    record.write(began)
    for it in held:
        os.close(it)


def print_measured(top):
    print("# Of each crate: the processor seconds of its proof by one job, and the most megabytes that one process of it took.")
    names = {it.name for it in crates_of(top)}
    for crate in [*crates_of(top), *(it for it in crates_of(top, LIBRARY) if it.name not in names)]:
        words = text_of(crate.record).split()
        if len(words) != 4 or words[2] == "0":
            raise Ended(NOT_PROVED, f"nothing was measured of {crate.name}")
        print(crate.name, *words[2:])


def stop(number, _):
    for it in ENDINGS:
        signal.signal(it, signal.SIG_IGN)
    raise Ended(128 + number, "stopped; the next call goes on from what is proved")


def main(words):
    for number in ENDINGS:
        signal.signal(number, stop)
    # It is in no terminal's foreground, and writes to one all the same.
    signal.signal(signal.SIGTTOU, signal.SIG_IGN)
    try:
        if words[:1] == ["build"] and len(words) == 3:
            build(*words[1:])
        elif words[:1] == ["library"] and len(words) == 3:
            build(*words[1:], last=LIBRARY)
        elif words[:1] == ["record"] and len(words) == 4:
            record_since(*words[1:])
        elif words[:1] == ["measured"] and len(words) == 2:
            print_measured(words[1])
        else:
            print(__doc__.split("\n\n")[1], file=sys.stderr)
            return 2
    except Ended as end:
        say(end)
        return end.status
    except OSError as error:
        say(f"{error.filename or 'a file'}: {error.strerror}")
        return NOT_PROVED
    return 0


if __name__ == "__main__":
    sys.exit(main(sys.argv[1:]))
