"""The system's calls of a run, as strace tells them."""

import collections
import os
import re
import subprocess

import base

Call = collections.namedtuple("Call", "name words value error")
# write and writev tell what is answered, the others what becomes of files
TRACED = "openat,close,pread64,pwrite64,fsync,fdatasync,ftruncate,unlink,mkdir,rename,flock,write,writev,statx,getdents64"
LINE = re.compile(r"^(\d+) +(\w+)\((.*)\) += (-?\d+)(?: ([A-Z0-9]+))?")
# A call that another process's call came between stands in two lines.
BEGUN = re.compile(r"^(\d+) +(.*) <unfinished \.\.\.>$")
ENDED = re.compile(r"^(\d+) +<\.\.\. \w+ resumed>(.*)$")
TEXT = re.compile(r'"((?:\\x[0-9a-f]{2})*)"')


def bytes_of(word):
    """The bytes of a call's word, of all its texts together."""
    return b"".join(bytes.fromhex(text.replace("\\x", "")) for text in TEXT.findall(word))


def path_of(word):
    return bytes_of(word).decode(errors="replace")


def traced_words(to, more=()):
    return ["strace", "-f", "-qq", "-xx", "-s", "16777216", "-o", to, "-e", f"trace={TRACED}", *more]


def whole_lines(lines):
    """A line for each call, where it ended."""
    begun = {}
    for line in lines:
        first, last = BEGUN.match(line), ENDED.match(line)
        if first:
            begun[first[1]] = first[2]
        elif last:
            yield f"{last[1]} {begun.pop(last[1], '')}{last[2]}"
        else:
            yield line


def calls_of(file):
    """The calls of each process of a trace, in order."""
    calls = {}
    with open(file) as lines:
        for line in whole_lines(lines):
            found = LINE.match(line)
            if found:
                process, name, words, value, error = found.groups()
                calls.setdefault(process, []).append(Call(name, words.split(", "), int(value), error))
    return calls


def calls_on(file, path):
    """The calls of the process of a trace that opens the folder."""
    for calls in calls_of(file).values():
        if any(call.name == "openat" and path_of(call.words[1]).startswith(path) for call in calls):
            return calls
    raise SystemExit(f"no process of the trace opens {path}")


def traced(path, script, more=()):
    """A run, and its calls."""
    to = base.own("trace")
    given = base.run(path, script, traced_words(to, more))
    calls = calls_on(to, path)
    os.remove(to)
    return given, calls


class Files:
    """What each descriptor of a run is, by its calls."""

    def __init__(self):
        self.paths = {}

    def take(self, call):
        """The path that the call is about, if it is one."""
        if call.name in ("mkdir", "unlink"):
            return path_of(call.words[0])
        if call.name == "openat":
            path = path_of(call.words[1])
            if call.value >= 0:
                self.paths[str(call.value)] = path
            return path
        if call.name == "close":
            return self.paths.pop(call.words[0], None)
        return self.paths.get(call.words[0])


def number_of(folder, path):
    """The number of the file with this path, if it is one of the folder's."""
    front, _, name = path.rpartition("/")
    digits = name.removesuffix(".nxt")
    return int(digits) if front == folder and name.endswith(".nxt") and digits.isdigit() else None


def is_log(number):
    return number == 0 or number >= 1 << 32


def answers(call):
    """Whether the call writes on standard output."""
    return call.name in ("write", "writev") and call.words[0] == "1" and call.value > 0


def opens_a_gate(number, call):
    return call.name == "pwrite64" and is_log(number) and bytes_of(call.words[1]) == b"\1"
