"""Two processes on one folder."""

import subprocess
import threading

import base

APPENDS, STARTS = 300, 200
REFUSED = b"nectar: folder failed\nnectar: another process has it\n"


def is_refused(given):
    if given.returncode != 5:
        return False
    assert given.stderr == REFUSED and not given.stdout, given
    return True


def looks(path, done, seen):
    while not done.is_set():
        given = base.run(path, b"entries\n")
        assert is_refused(given) or given.returncode == 0, given
        seen.append(given.returncode)


def append_beside_looks(path):
    """One process appends, each row behind the answer to the one before, while others look."""
    done, seen = threading.Event(), []
    writer = subprocess.Popen([base.PROGRAM, path], stdin=subprocess.PIPE, stdout=subprocess.PIPE)

    def ask(command):
        writer.stdin.write(command)
        writer.stdin.flush()
        return writer.stdout.readline()

    assert ask(b"stream s (a:int)\n") == b"ok\n"
    others = [threading.Thread(target=looks, args=(path, done, seen)) for _ in range(2)]
    for other in others:
        other.start()
    for number in range(APPENDS):
        assert ask(b"append s\n%d\nend\n" % number).startswith(b"ok"), number
    done.set()
    for other in others:
        other.join()
    return writer, seen


def rows_of(path):
    given = base.run(path, b"run r = from s\n")
    assert given.returncode == 0, given
    return [int(line) for line in given.stdout.split(b"\n") if line.isdigit()]


def start_at_once(number):
    """Two processes start on a folder at the same time, each with a row of its own: those that answered kept it."""
    path = base.folder("at-once")
    base.run(path, b"stream s (a:int)\n")
    started = [subprocess.Popen([base.PROGRAM, path], stdin=subprocess.PIPE, stdout=subprocess.PIPE, stderr=subprocess.PIPE) for _ in range(2)]
    told = [None, None]

    def give(which):
        told[which] = started[which].communicate(b"append s\n%d\nend\n" % which)

    givers = [threading.Thread(target=give, args=(which,)) for which in range(2)]
    for giver in givers:
        giver.start()
    for giver in givers:
        giver.join()
    kept = [which for which in range(2) if started[which].returncode == 0]
    for which in range(2):
        assert which in kept or (started[which].returncode == 5 and told[which] == (b"", REFUSED)), told
    assert kept and sorted(rows_of(path)) == kept, f"start {number}: {kept} were answered"
    return len(kept)


def two():
    path = base.folder("two")
    writer, seen = append_beside_looks(path)
    assert set(seen) == {5}, seen
    writer.kill()
    writer.wait()
    assert rows_of(path) == list(range(APPENDS))
    both = sum(start_at_once(number) == 2 for number in range(STARTS))
    print(f"two: {APPENDS} answered appends are kept beside {len(seen)} refused looks; of {STARTS} pairs started at once {both} went one behind the other, in the others one was refused; the lock of a killed process is gone")
