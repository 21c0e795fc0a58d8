"""The order of a run's calls: what an answer and an opened gate stand on is stable before them."""

import os

import base
import trace


class Order:
    """What isn't stable yet, and what was done too early."""

    def __init__(self, folder):
        self.folder, self.files = folder, trace.Files()
        self.unstable, self.made = set(), set()  # numbers of files with unsynced bytes, and with unsynced names
        self.folders = {folder}  # folders whose names aren't known to be stable
        self.lock = None  # the descriptor with the lock
        self.writable, self.short = {}, {}  # files that were opened for writing and not written yet; reads that came short
        self.faults = []

    def fault(self, text):
        if text not in self.faults:
            self.faults.append(text)

    def stands(self, what):
        """All that this stands on is to be stable."""
        if self.unstable:
            self.fault(f"{what} before the bytes of a file are synced")
        if self.made:
            self.fault(f"{what} before the folder's names are synced")
        if self.folders:
            self.fault(f"{what} before the folder's own name is synced")
        if self.lock is None:
            self.fault(f"{what} without the lock")

    def take(self, call):
        path = self.files.take(call)
        number = trace.number_of(self.folder, path) if path else None
        if trace.answers(call):
            self.stands("an answer")
            if self.short:
                self.fault("an answer behind a read that came short and wasn't gone on with")
        elif call.name == "flock" and call.value == 0 and path == self.folder and "LOCK_EX" in call.words[1]:
            self.lock = call.words[0]
        elif call.name == "close" and call.words[0] == self.lock:
            self.lock = None
            self.folders.add(self.folder)  # whoever attaches it next is to sync its name anew
        elif call.name == "mkdir" and call.value == 0:
            self.folders.add(path)
        elif call.name in ("fsync", "fdatasync") and call.value == 0:
            self.sync(path, number)
        elif number is not None:
            self.take_file(call, number)

    def sync(self, path, number):
        if number is not None:
            self.unstable.discard(number)
            self.writable.pop(number, None)
            return
        if path == self.folder:
            self.made.clear()
        if path is not None:
            self.folders -= {folder for folder in self.folders if os.path.dirname(folder) == os.path.normpath(path)}

    def take_file(self, call, number):
        if call.name == "openat" and call.value >= 0:
            if self.lock is None:
                self.fault("a file is opened without the lock")
            if "O_CREAT" in call.words[2]:
                self.made.add(number)
            if "O_RDONLY" not in call.words[2] and not trace.is_log(number):
                self.writable[number] = True
        elif call.name in ("pwrite64", "ftruncate"):
            if trace.opens_a_gate(number, call):
                self.stands("an opened gate")
            self.writable.pop(number, None)
            if call.value >= 0:
                self.unstable.add(number)
        elif call.name == "pread64" and call.value >= 0:
            self.short.pop(number, None)
            if 0 < call.value < int(call.words[-2]):
                self.short[number] = True
        elif call.name == "unlink" and call.value == 0:
            for kept in (self.unstable, self.made):
                kept.discard(number)


def faults_of(folder, calls):
    order = Order(folder)
    for call in calls:
        order.take(call)
    if order.writable:
        order.fault("a file is opened for writing and only read")
    return order.faults


def syncs_of(folder, calls):
    """Of each file that is written, of the folder where a name is made, and of the folder above: the places of its syncs."""
    files, written, syncs = trace.Files(), set(), {}
    for place, call in enumerate(calls):
        path = files.take(call)
        if call.name in ("pwrite64", "ftruncate"):
            written.add(path)
        elif call.name == "openat" and "O_CREAT" in call.words[2]:
            written.add(folder)
        elif call.name == "fsync":
            syncs.setdefault(path, set()).add(place)
    above = os.path.dirname(folder)
    return {path: places for path, places in syncs.items() if path in written or os.path.normpath(path) == above}


def order():
    """The worked script on a new folder and on one that is there, and the second script on one with a long log."""
    path = base.folder("ordered") + "/with/parents"
    again = base.copy_of(base.long_folder(), "ordered-again")
    gates = answers = left_out = 0
    for folder, script in ((path, base.SCRIPT), (path, base.LATER), (again, base.LATER)):
        given, calls = trace.traced(folder, script)
        assert given.returncode == 0, given.stderr
        faults = faults_of(folder, calls)
        assert not faults, f"order: {faults}"
        for of, places in syncs_of(folder, calls).items():
            assert faults_of(folder, [call for place, call in enumerate(calls) if place not in places]), f"order: the syncs of {of} may be left out"
            left_out += 1
        files = trace.Files()
        for call in calls:
            number = trace.number_of(folder, files.take(call) or "")
            gates += number is not None and trace.opens_a_gate(number, call)
            answers += trace.answers(call)
    print(f"order: {gates} gates opened and {answers} writes of answers, each behind the syncs of all that it stands on; without the syncs of any one of {left_out} files and folders that is told")
