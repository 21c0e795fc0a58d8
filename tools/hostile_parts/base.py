"""The program, the worked script, and the states that its commands lead through."""

import os
import shutil
import subprocess
import threading
from concurrent.futures import ThreadPoolExecutor

PROGRAM = os.environ["HOSTILE_PROGRAM"]
WORK = os.environ["HOSTILE_WORK"]
TOP = os.environ["HOSTILE_TOP"]
PROBE = b"catalog\n"

ROWS = ['1,"tea",2\n2,"cup",5\n3,"tea",4\n', '4,"pot",1\n', '5,"tea",9\n6,"cup",7\n']
COMMANDS = ["stream orders (id:int, item:text, qty:int)\n"]
for turn in range(6):
    COMMANDS += [
        f"append orders\n{ROWS[turn % 3]}end\n",
        "run totals = from orders | group item with n = sum(qty)\n",
        f"run large = from orders | where qty > {turn}\n",
        "entries\n",
        "open j dear = from orders | order qty desc\n",
        "step j\n",
        "close j\n",
        f"collect {turn * 40}\n",
        "fetch totals\n",
    ]
SCRIPT = "".join(COMMANDS).encode()
# A second script, for a folder that the first has left.
LATER = b'append orders\n7,"jug",3\nend\nrun totals = from orders | group item with n = sum(qty)\ncollect 40\nfetch totals\n'


def own(name):
    """A path of this thread's own."""
    return f"{WORK}/{name}-{threading.get_ident()}"


def folder(name):
    """The path of a folder that isn't there, of this thread's own."""
    path = own(name)
    shutil.rmtree(path, ignore_errors=True)
    return path


def of_each(what, items):
    """What comes of each, several at a time."""
    with ThreadPoolExecutor(os.cpu_count()) as pool:
        return list(pool.map(what, items))


def copy_of(path, name):
    to = folder(name)
    shutil.copytree(path, to)
    return to


def run(path, script, before=(), **more):
    return subprocess.run([*before, PROGRAM, path], input=script, stdout=subprocess.PIPE, stderr=subprocess.PIPE, **more)


def state_of(path):
    given = run(path, PROBE)
    assert given.returncode == 0, f"the folder isn't loaded: {given.returncode} {given.stderr}"
    return given.stdout


def prefixes_of(commands):
    """After each number of commands: how many bytes the answers have, and the state."""
    found = []
    for count in range(len(commands) + 1):
        path = folder("prefix")
        given = run(path, "".join(commands[:count]).encode())
        assert given.returncode == 0
        found.append((len(given.stdout), state_of(path)))
    return found


def prefixes(known={}):
    if not known:
        known["all"] = prefixes_of(COMMANDS)
    return known["all"]


def check(path, written, why):
    """The folder has the state after the commands that were answered, or after one more."""
    known = prefixes()
    answered = max(count for count, (length, _) in enumerate(known) if length <= written)
    state = state_of(path)
    for count in (answered, answered + 1):
        if count < len(known) and known[count][1] == state:
            return
    raise SystemExit(f"{why}: {answered} commands were answered, and the folder has the state of no such prefix")


def long_folder(known={}):
    """A folder that the script has left, whose log is so long that it is replaced at the next loading, with a file that nothing names."""
    if not known:
        path = folder("long")
        assert run(path, SCRIPT + b"run large = from orders | where qty > 1\n" * 1100).returncode == 0
        with open(f"{path}/4000000000.nxt", "wb") as file:
            file.write(b"nobody's")
        known["path"] = path
    return known["path"]
