"""tools/root writes a lost root, and refuses where it isn't sure."""

import os
import subprocess

import base


def root(path):
    return subprocess.run([f"{base.TOP}/tools/root", path], stdout=subprocess.PIPE, stderr=subprocess.PIPE)


def is_refused(begin, change, word):
    path = begin()
    change(path)
    before = {name: os.lstat(f"{path}/{name}").st_size for name in os.listdir(path)}
    given = root(path)
    assert given.returncode == 1 and word in given.stderr.decode(), f"{word}: {given}"
    assert before == {name: os.lstat(f"{path}/{name}").st_size for name in os.listdir(path)}, word


def cut(path, name, length):
    os.truncate(f"{path}/{name}", length)


def turn(path, name, at):
    """Changes a byte of a file."""
    with open(f"{path}/{name}", "r+b") as file:
        file.seek(at)
        byte = file.read(1)
        file.seek(at)
        file.write(bytes([byte[0] ^ 1]))


def make(path, name, content=b""):
    with open(f"{path}/{name}", "wb") as file:
        file.write(content)


def roots():
    short = base.folder("root-short")
    assert base.run(short, base.SCRIPT).returncode == 0
    long = base.copy_of(base.long_folder(), "root-long")
    base.run(long, base.LATER)
    written = 0
    for made in (short, long):
        state = base.state_of(made)
        with open(f"{made}/0.nxt", "rb") as file:
            bytes_of_root = file.read()
        for lose in (lambda path: os.remove(f"{path}/0.nxt"), lambda path: cut(path, "0.nxt", 9), lambda path: cut(path, "0.nxt", 0)):
            path = base.copy_of(made, "rootless")
            lose(path)
            given = root(path)
            assert given.returncode == 0, given
            with open(f"{path}/0.nxt", "rb") as file:
                assert file.read() == bytes_of_root
            assert base.state_of(path) == state
            written += 1

    def rootless():
        path = base.copy_of(short, "rootless")
        os.remove(f"{path}/0.nxt")
        return path

    log = "4294967297.nxt"
    refusals = [
        (lambda path: os.remove(f"{path}/{log}"), "no log"),
        (lambda path: make(path, "0.nxt", b"NXL1\0\0\0\0\0\0"), "0.nxt is there"),
        (lambda path: make(path, "4294967299.nxt"), "more logs"),
        (lambda path: make(path, "4294967298.nxt", b"NXL1\0\0\0\0\0"), "empty"),
        (lambda path: cut(path, log, 40), "stops at byte"),
        (lambda path: turn(path, log, 2), "doesn't begin"),
        (lambda path: turn(path, log, 51), "kind"),  # behind the checkpoint of nothing
        (lambda path: turn(path, "1.nxt", 0), "damaged"),
        (lambda path: os.remove(f"{path}/1.nxt"), "missing"),
        (lambda path: make(path, "4000000000.nxt"), "doesn't name"),
        (lambda path: os.symlink("1.nxt", f"{path}/4000000000.nxt"), "a link or a folder"),
    ]
    for change, word in refusals:
        is_refused(rootless, change, word)
    user = subprocess.Popen([base.PROGRAM, short], stdin=subprocess.PIPE, stdout=subprocess.PIPE)
    user.stdin.write(base.PROBE)
    user.stdin.flush()
    user.stdout.readline()
    is_refused(lambda: short, lambda path: None, "another process has it")
    user.communicate()
    print(f"root: {written} lost roots are written byte by byte as they were, and {len(refusals) + 1} folders are refused, where it isn't sure")
