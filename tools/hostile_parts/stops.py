"""Runs that are killed, and calls of the system that fail, are interrupted or come short."""

import collections
import os
import random
import subprocess
import time

import base
import trace

KILLS, SEED = 200, 20261129
# unlinkat, renames and fdatasync are looked for too, so that a body that makes them isn't passed over
CALLS = ["openat", "statx", "mkdir", "flock", "pwrite64", "pread64", "fsync", "fdatasync", "ftruncate", "unlink", "unlinkat", "rename", "getdents64"]
ERRORS = ["EIO", "ENOSPC"]


def kills():
    draw = random.Random(SEED)
    start = time.monotonic()
    base.run(base.folder("whole"), base.SCRIPT)
    whole = time.monotonic() - start
    early = 0
    for number in range(KILLS):
        path = base.folder("killed")
        with open(f"{base.WORK}/script", "wb") as file:
            file.write(base.SCRIPT)
        with open(f"{base.WORK}/script", "rb") as source, open(f"{base.WORK}/answers", "wb") as answers:
            process = subprocess.Popen([base.PROGRAM, path], stdin=source, stdout=answers)
            time.sleep(draw.uniform(0, whole))
            process.kill()
            process.wait()
        written = os.path.getsize(f"{base.WORK}/answers")
        early += written < base.prefixes()[-1][0]
        base.check(path, written, f"kill {number}")
    print(f"kills: {KILLS} runs killed, {early} of them before the last answer; each folder has the state of a prefix that holds each answered command")


class Scenario:
    """A run whose calls fail: on a new folder, or on a copy of one that is there."""

    def __init__(self, name, begin, script, check):
        self.name, self.begin, self.script, self.check = name, begin, script, check  # begin gives the folder's path
        self.usual = base.run(begin(), script)
        assert self.usual.returncode == 0

    def count(self, call):
        """How many such calls there are, and how many of them are the loader's: without words the program touches no folder."""
        counts = []
        for words in [[], [self.begin()]]:
            traced = ["strace", "-f", "-qq", "-o", base.own("trace"), "-e", f"trace={call}", base.PROGRAM, *words]
            subprocess.run(traced, input=self.script, stdout=subprocess.PIPE, stderr=subprocess.PIPE)
            with open(base.own("trace")) as lines:
                counts.append(sum(1 for line in lines if f"{call}(" in line))
        return counts

    def failing(self, call, how, when):
        path = self.begin()
        inject = ["strace", "-f", "-qq", "-o", "/dev/null", "-e", f"trace={call}", "-e", f"inject={call}:{how}:when={when}"]
        return path, base.run(path, self.script, inject)

    def end(self, call, error, when):
        """How the run ended."""
        path, given = self.failing(call, f"error={error}", when)
        why, told = f"{self.name}: {call} {error} {when}", b"refused fault" in given.stdout
        if given.returncode == 5:
            assert len(given.stderr.splitlines()) == 2, f"{why}: {given.stderr}"
        elif not told:
            assert given.returncode == 0 and given.stdout == self.usual.stdout, f"{why}: other answers"
        if not told and os.path.isdir(path):
            self.check(path, len(given.stdout), why)
        return "5" if given.returncode else "0, refused fault" if told else "0 as if nothing were"

    def goes_on(self, call, when):
        """The call is interrupted, and nothing comes of it."""
        path, given = self.failing(call, "error=EINTR", when)
        why = f"{self.name}: {call} interrupted at {when}"
        assert (given.returncode, given.stdout) == (0, self.usual.stdout), f"{why}: {given}"
        self.check(path, len(given.stdout), why)


def state_before_or_after(begin, script):
    """A check that each state is that before the script or after some of its commands."""
    commands = [command + b"\n" for command in script.splitlines()]
    states = set()
    for count in range(len(commands) + 1):
        path = begin()
        base.run(path, b"".join(commands[:count]))
        states.add(base.state_of(path))

    def check(path, _written, why):
        assert base.state_of(path) in states, f"{why}: another state"

    return check


def scenarios():
    long = base.long_folder()
    again = lambda: base.copy_of(long, "failing")
    return [
        Scenario("a new folder", lambda: base.folder("failing"), base.SCRIPT, base.check),
        Scenario("a folder with a long log", again, base.LATER, state_before_or_after(again, base.LATER)),
    ]


def calls():
    base.prefixes()
    for scenario in scenarios():
        never = []
        for call in CALLS:
            first, count = scenario.count(call)
            if count <= first:
                never.append(call)
                continue
            for error in ERRORS:
                ends = collections.Counter(base.of_each(lambda when: scenario.end(call, error, when), range(first + 1, count + 1)))
                told = ", ".join(f"{many} with {end}" for end, many in sorted(ends.items()))
                print(f"calls: {scenario.name}: {call} failing with {error} at each of {count - first} calls: {told}", flush=True)
        print(f"calls: {scenario.name}: never made, so not tried: {', '.join(never)}", flush=True)


INTERRUPTED = ["openat", "statx", "mkdir", "flock", "pwrite64", "pread64", "fsync", "ftruncate", "unlink", "getdents64"]


def interrupted():
    """Each call is interrupted once: the run goes on as if nothing were. A folder's sync that isn't supported is let pass."""
    base.prefixes()
    for scenario in scenarios():
        for call in INTERRUPTED:
            first, count = scenario.count(call)
            base.of_each(lambda when: scenario.goes_on(call, when), range(first + 1, count + 1))
            if count > first:
                print(f"interrupted: {scenario.name}: {call} at each of {count - first} calls: as if nothing were", flush=True)
    unsupported()
    closed_above()


def unsupported():
    """The sync of a folder that answers EINVAL."""
    path = base.folder("unsupported")
    _, traced = trace.traced(path, base.SCRIPT)
    files, syncs = trace.Files(), []
    for call in traced:
        of = files.take(call)
        if call.name == "fsync":
            syncs.append(trace.number_of(path, of) is None)
    for when, is_folder in enumerate(syncs, 1):
        inject = ["strace", "-f", "-qq", "-o", "/dev/null", "-e", "trace=fsync", "-e", f"inject=fsync:error=EINVAL:when={when}"]
        given = base.run(base.folder("unsupported"), base.SCRIPT, inject)
        assert given.returncode == (0 if is_folder else 5), f"fsync {when}: {given}"
    print(f"interrupted: fsync answering EINVAL: let pass at each of {sum(syncs)} of folders, status 5 at each of {len(syncs) - sum(syncs)} of files")


def closed_above():
    """The folder above may not be opened: let pass where the folder was there, and not where it was just made."""

    def when(path):
        _, traced = trace.traced(path, base.PROBE)
        opened = [trace.path_of(call.words[1]) for call in traced if call.name == "openat"]
        return max(place for place, of in enumerate(opened, 1) if of.endswith("/.."))

    def status(path, when):
        inject = ["strace", "-f", "-qq", "-o", "/dev/null", "-e", "trace=openat", "-e", f"inject=openat:error=EACCES:when={when}"]
        return base.run(path, base.PROBE, inject).returncode

    made = when(base.folder("closed-other"))
    path = base.folder("closed")
    assert status(path, made) == 5 and status(path, when(path)) == 0
    print("interrupted: a folder above that may not be opened is let pass where the folder was there, and is status 5 where it was just made")


# Each read gives at most 3 bytes, and each write takes at most 3.
SHORT = r"""
#define _GNU_SOURCE
#include <dlfcn.h>
#include <sys/types.h>

#define SHORT(name, of, kind)                                            \
    ssize_t name(int fd, kind buf, size_t count, off_t at) {             \
        ssize_t (*next)(int, kind, size_t, off_t) = dlsym(RTLD_NEXT, of); \
        return next(fd, buf, count < 3 ? count : 3, at);                 \
    }

SHORT(pread, "pread", void *)
SHORT(pread64, "pread64", void *)
SHORT(pwrite, "pwrite", const void *)
SHORT(pwrite64, "pwrite64", const void *)
"""


def short():
    """Reads and writes come short: the run goes on as if nothing were."""
    with open(f"{base.WORK}/short.c", "w") as file:
        file.write(SHORT)
    subprocess.run(["cc", "-O1", "-shared", "-fPIC", "-o", f"{base.WORK}/short.so", f"{base.WORK}/short.c", "-ldl"], check=True)
    preloaded = {**os.environ, "LD_PRELOAD": f"{base.WORK}/short.so"}
    for scenario in scenarios():
        path = scenario.begin()
        given = base.run(path, scenario.script, env=preloaded)
        assert (given.returncode, given.stdout) == (0, scenario.usual.stdout), f"short: {scenario.name}: {given}"
        scenario.check(path, len(given.stdout), "short")
    print("short: where each read and write comes to 3 bytes at most, all answers and states are the same")
