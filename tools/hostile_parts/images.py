"""Folders as a cut of the power may leave them, built from the calls of a run."""

import os
import random

import base
import trace

SEED = 20261202
IMAGES_OF_A_CALL = 2


class File:
    """A file: its bytes when it was last stable, and what was done since."""

    def __init__(self):
        self.stable, self.bytes = bytearray(), bytearray()
        self.written, self.lengths = [], [0]

    def write(self, at, written):
        if len(self.bytes) < at + len(written):
            self.bytes.extend(bytes(at + len(written) - len(self.bytes)))
        self.bytes[at : at + len(written)] = written
        self.written.append((at, at + len(written)))
        self.lengths.append(len(self.bytes))

    def cut(self, length):
        self.written.append((min(length, len(self.bytes)), len(self.bytes)))
        del self.bytes[length:]
        self.bytes.extend(bytes(length - len(self.bytes)))
        self.lengths.append(len(self.bytes))

    def sync(self):
        self.stable, self.written, self.lengths = bytearray(self.bytes), [], [len(self.bytes)]

    def image(self, draw):
        """Any length since the last sync; each byte that was written since is the old one, the new one or another."""
        length = draw.choice([*self.lengths, draw.randint(min(self.lengths), max(self.lengths))])
        image = bytearray(self.stable[:length].ljust(length, b"\0"))
        for start, end in self.written:
            how = draw.choice(["old", "new", "torn"])
            for at in range(start, min(end, length)):
                if how == "new" or (how == "torn" and draw.random() < 0.5):
                    image[at] = self.bytes[at] if at < len(self.bytes) else 0
                elif how == "torn" and draw.random() < 0.2:
                    image[at] = draw.randrange(256)
        return bytes(image)


class Disk:
    """The folder's files, and the names that aren't stable."""

    def __init__(self, folder):
        self.folder, self.descriptors = folder, trace.Files()
        self.files, self.removed, self.made = {}, {}, set()
        self.is_made = self.is_named = os.path.isdir(folder)
        for name in os.listdir(folder) if self.is_made else []:
            file = self.files[int(name.removesuffix(".nxt"))] = File()
            with open(f"{folder}/{name}", "rb") as content:
                file.write(0, content.read())
            file.sync()

    def take(self, call):
        path = self.descriptors.take(call)
        number = trace.number_of(self.folder, path) if path else None
        if number is not None and call.value >= 0:
            self.take_file(call, number)
        elif call.name == "mkdir" and call.value == 0 and path == self.folder:
            self.is_made = True
        elif call.name == "fsync" and call.value == 0 and path == self.folder:
            self.made.clear()
            self.removed.clear()
        elif call.name == "fsync" and call.value == 0 and path is not None:
            self.is_named |= os.path.normpath(path) == os.path.dirname(self.folder)

    def take_file(self, call, number):
        if call.name == "openat" and number not in self.files:
            self.files[number] = File()
            self.made.add(number)
        elif call.name == "pwrite64":
            self.files[number].write(int(call.words[-1]), trace.bytes_of(call.words[1])[: call.value])
        elif call.name == "ftruncate":
            self.files[number].cut(int(call.words[1]))
        elif call.name == "fsync":
            self.files[number].sync()
        elif call.name == "unlink":
            self.removed[number] = self.files.pop(number)
            self.made.discard(number)

    def image(self, draw, path):
        """Makes the folder as a cut may leave it now. Whether the name itself is there."""
        if not self.is_made or (not self.is_named and draw.random() < 0.5):
            return False
        os.mkdir(path)
        back = {number: file for number, file in self.removed.items() if number not in self.files and draw.random() < 0.5}
        for number, file in {**self.files, **back}.items():
            if number not in self.made or draw.random() < 0.5:
                with open(f"{path}/{number}.nxt", "wb") as image:
                    image.write(file.image(draw))
        return True


CHANGES = ("openat", "pwrite64", "ftruncate", "unlink", "mkdir", "fsync", "write", "writev")


def images_of(folder, draw, script, check):
    """The number of images of a run on the folder, each of which is checked."""
    disk, written, count = Disk(folder), 0, 0
    given, calls = trace.traced(folder, script)
    assert given.returncode == 0, given.stderr
    for call in calls:
        disk.take(call)
        written += call.value if trace.answers(call) else 0
        if call.name not in CHANGES:
            continue
        for _ in range(IMAGES_OF_A_CALL):
            path = base.folder("image")
            disk.image(draw, path)
            check(path, written, f"image {count}")
            count += 1
    return count


def images():
    draw = random.Random(SEED)
    new = images_of(base.folder("imaged"), draw, base.SCRIPT, base.check)
    long = base.copy_of(base.long_folder(), "imaged")
    before = base.state_of(base.copy_of(long, "before"))

    def check(path, written, why):
        assert base.state_of(path) == before, f"{why}: another state"

    again = images_of(long, draw, base.PROBE, check)
    print(f"images: {new} of the script and {again} of loading a folder whose log is replaced: each has a state that holds each answered command")
