"""Wrong bodies of folder_store, which no contract can refuse: the check of a run's order must refuse each.

A small program makes the calls that nectar makes of a store, on a folder that is new and then there: files and a log are written, answered
and read again. `rt try` runs it, unproved, over the crate as it is and over each wrong body.
"""

import os
import shutil
import subprocess
from concurrent.futures import ThreadPoolExecutor

import base
import order
import trace

DRIVER = r"""//! Writes files and a log of them over a real folder, answers behind each, and reads them again.
#![tactic(auto)]

use folder_store::FolderStore;
use outside_traits::{Failed, Store};
use std::process::ExitCode;
use std::{env, io};

const LOG: u64 = 4_294_967_296;

fn main(rt: HostRuntime) -> ExitCode {
    match drive(&rt) {
        Ok(()) => ExitCode::SUCCESS,
        Err(_) => ExitCode::FAILURE,
    }
}

fn drive(rt: &HostRuntime) -> io::Result<()> {
    let words = env::args(rt)?.collect::<Vec<String>>(rt.alloc())?;
    let [_, folder] = words.as_slice() else {
        return Err(io::Error::other("usage"));
    };
    for first in [1, 4] {
        let mut store = FolderStore::new(rt);
        told(store.attach(folder.as_str()))?;
        write_files(rt, &mut store, first)?;
        told(store.remove(first))?;
    }
    read_again(rt, folder.as_str())
}

fn told<T: Drop>(done: Result<T, Failed>) -> io::Result<T> {
    match done {
        Ok(value) => Ok(value),
        Err(Failed) => Err(io::Error::other("failed")),
    }
}

fn write_files(rt: &HostRuntime, store: &mut impl Store, first: u64) -> io::Result<()> {
    for file in first..first + 3 {
        told(write_file(store, file))?;
        println!(rt; "ok {file}")?;
    }
    Ok(())
}

fn write_file(store: &mut impl Store, file: u64) -> Result<(), Failed> {
    store.write(file, 0, b"the bytes of a file")?;
    store.sync(file)?;
    store.write(LOG, 4 * file, b"log\0")?;
    store.sync(LOG)?;
    store.write(LOG, 4 * file - 1, b"\x01")?;
    store.sync(LOG)
}

fn read_again(rt: &HostRuntime, folder: &str) -> io::Result<()> {
    let mut store = FolderStore::new(rt);
    told(store.attach(folder))?;
    let mut room = [0; 64];
    let count = told(store.read(5, 0, &mut room))?;
    println!(rt; "read {count}")
}
"""

ATTACHED, DIRECTORY, REGULAR = "attached.rt", "directory.rt", "regular.rt"
# a name, the file, what stands there, the wrong body, and a fault that tells it
BODIES = [
    ("a file isn't synced", DIRECTORY, "self.open[place].file.sync_all()?;", "let _ = &self.open[place];", "the bytes of a file"),
    ("the folder's names aren't synced", ATTACHED, "        sync_folder(&self.handle)\n", "        Ok(())\n", "the folder's names"),
    ("a name that was made passes for stable", DIRECTORY, "        self.names_are_stable = false;\n        let file = make_regular", "        let file = make_regular", "the folder's names"),
    ("the parent isn't synced", ATTACHED, "    sync_folder(&File::open(runtime, parent.as_str())?)\n", "    let _ = File::open(runtime, parent.as_str())?;\n    Ok(())\n", "the folder's own name"),
    ("the parent of a folder that was there isn't synced", ATTACHED, "        return sync_name_that_was_there(runtime, path);\n", "        return Ok(());\n", "the folder's own name"),
    ("one read only", DIRECTORY, "            Ok(more) => count += more,\n", "            Ok(more) => return Ok(more),\n", "came short"),
    ("no lock", ATTACHED, "        lock(&handle)?;\n", "", "without the lock"),
    ("a shared lock", ATTACHED, "handle.try_lock()", "handle.try_lock_shared()", "without the lock"),
    ("a lock that is let go of", ATTACHED, "        lock(&handle)?;\n", "        lock(&File::open(runtime, folder)?)?;\n", "without the lock"),
    ("files are opened for writing to be read", REGULAR, ".write(access != Access::Read)", ".write(true)", "for writing and only read"),
]


def repository(number, body):
    """A copy of the crate with the body, and the small program over it."""
    top = base.folder(f"body-{number}")
    os.makedirs(f"{top}/crates/store_driver/src")
    shutil.copy(f"{base.TOP}/HANDLES", top)
    with open(f"{base.TOP}/crates.txt") as lines:
        below = [line for line in lines if line.startswith(("outside_traits:", "folder_store:"))]
    with open(f"{top}/crates.txt", "w") as file:
        file.write("".join(below) + "store_driver: folder_store outside_traits\n")
    for crate in ("outside_traits", "folder_store"):
        for part in ("src", "specs", "proofs"):
            if os.path.isdir(f"{base.TOP}/crates/{crate}/{part}"):
                shutil.copytree(f"{base.TOP}/crates/{crate}/{part}", f"{top}/crates/{crate}/{part}")
    with open(f"{top}/crates/store_driver/src/main.rt", "w") as file:
        file.write(DRIVER)
    if body is not None:
        _, name, right, wrong, _ = body
        path = f"{top}/crates/folder_store/src/{name}"
        with open(path) as file:
            text = file.read()
        assert text.count(right) == 1, f"{name} has {right!r} {text.count(right)} times"
        with open(path, "w") as file:
            file.write(text.replace(right, wrong))
    return top


def faults(number, body):
    """What the order of the calls is refused for."""
    top = repository(number, body)
    folder = f"{top}/disk/folder"
    words = trace.traced_words(f"{top}/trace", ["-s", "64"])
    given = subprocess.run([*words, "rt", "try", "--", folder], cwd=f"{top}/crates/store_driver", stdin=subprocess.DEVNULL, stdout=subprocess.PIPE, stderr=subprocess.STDOUT)
    assert b"status=0" in given.stdout, f"the small program failed: {given.stdout.decode()}"
    found = order.faults_of(folder, trace.calls_on(f"{top}/trace", folder))
    shutil.rmtree(top)
    return found


def bodies():
    with ThreadPoolExecutor(3) as pool:
        right, *wrong = pool.map(faults, range(len(BODIES) + 1), [None, *BODIES])
    assert not right, f"the crate as it is: {right}"
    for body, found in zip(BODIES, wrong):
        assert any(body[4] in fault for fault in found), f"a wrong body is passed: {body[0]}: {found}"
        print(f"bodies: {body[0]}: {found[0]}")
