"""Each request for memory is refused once."""

import os
import subprocess

import base

MEMORY_COMMANDS = 19  # two turns

# Refuses the request of the number that REFUSED gives, from 1, and says in the file COUNTED how many there were.
REFUSING = r"""
#include <errno.h>
#include <fcntl.h>
#include <stddef.h>
#include <stdio.h>
#include <stdlib.h>
#include <unistd.h>

void *__libc_malloc(size_t), *__libc_calloc(size_t, size_t), *__libc_realloc(void *, size_t), *__libc_memalign(size_t, size_t);

static long count, refused;

static int refuses(void) {
    if (++count != refused) return 0;
    errno = ENOMEM;
    return 1;
}

void *malloc(size_t size) { return refuses() ? NULL : __libc_malloc(size); }
void *calloc(size_t many, size_t size) { return refuses() ? NULL : __libc_calloc(many, size); }
void *realloc(void *old, size_t size) { return refuses() ? NULL : __libc_realloc(old, size); }
void *memalign(size_t align, size_t size) { return refuses() ? NULL : __libc_memalign(align, size); }
void *aligned_alloc(size_t align, size_t size) { return refuses() ? NULL : __libc_memalign(align, size); }
int posix_memalign(void **to, size_t align, size_t size) {
    if (refuses()) return ENOMEM;
    *to = __libc_memalign(align, size);
    return *to ? 0 : ENOMEM;
}

__attribute__((constructor)) static void begin(void) {
    const char *number = getenv("REFUSED");
    refused = number ? atol(number) : 0;
    count = 0;
}

__attribute__((destructor)) static void end(void) {
    const char *path = getenv("COUNTED");
    char text[32];
    int length = snprintf(text, sizeof text, "%ld", count), file = path ? open(path, O_CREAT | O_WRONLY | O_TRUNC, 0600) : -1;
    if (file >= 0 && write(file, text, length) < 0) _exit(9);
}
"""


def refusing(path, number, script):
    """A run in which the request of this number is refused, none with 0, and how many requests there were."""
    counted = f"{base.WORK}/requests"
    preloaded = {**os.environ, "LD_PRELOAD": f"{base.WORK}/refusing.so", "REFUSED": str(number), "COUNTED": counted}
    # from a file, whose pieces are the same each time
    with open(f"{base.WORK}/script", "wb") as file:
        file.write(script)
    with open(f"{base.WORK}/script", "rb") as source:
        given = subprocess.run([base.PROGRAM, path], stdin=source, stdout=subprocess.PIPE, stderr=subprocess.PIPE, env=preloaded)
    with open(counted) as file:
        return given, int(file.read())


def answers_of(written):
    """The answers, one of each command."""
    lines, answers = written.decode().splitlines(keepends=True), []
    while lines:
        word, _, count = lines[0].strip().partition(" ")
        behind = {"rows": 3, "entries": 0}.get(word, None)
        behind = int(word == "evicted") if behind is None else behind + int(count)
        answers.append("".join(lines[: 1 + behind]))
        del lines[: 1 + behind]
    return answers


def undisturbed(commands, known={}):
    """The answers of a run on these commands, and the state that it leaves."""
    if commands not in known:
        path = base.folder("undisturbed")
        known[commands] = base.run(path, "".join(commands).encode()).stdout.decode(), base.state_of(path)
    return known[commands]


REFUSALS = ["refused memory\n", "refused fault\n"]


def memory():
    with open(f"{base.WORK}/refusing.c", "w") as file:
        file.write(REFUSING)
    subprocess.run(["cc", "-O1", "-shared", "-fPIC", "-fno-builtin", "-o", f"{base.WORK}/refusing.so", f"{base.WORK}/refusing.c"], check=True)
    commands = base.COMMANDS[:MEMORY_COMMANDS]
    script = "".join(commands).encode()
    ends = {}
    for number in range(1, refusing(base.folder("counted"), 0, script)[1] + 1):
        path = base.folder("refused")
        given, _ = refusing(path, number, script)
        status, answers = given.returncode, answers_of(given.stdout)
        assert status == 0 or (status == 6 and not answers) or status == 5, f"request {number}: status {status}"
        performed = tuple(command for command, answer in zip(commands, answers) if answer not in REFUSALS)
        usual, state = undisturbed(performed)
        assert "".join(answer for answer in answers if answer not in REFUSALS) == usual, f"request {number}: other answers"
        # the command that wasn't answered may be recorded
        later = [undisturbed((*performed, *commands[len(answers) :][:1]))[1]] if status == 5 else []
        assert base.state_of(path) in [state, *later], f"request {number}: another state"
        assert status != 0 or len(answers) == len(commands), f"request {number}: {len(answers)} answers"
        end = ", ".join([str(status), *sorted(answer.strip() for answer in answers if answer in REFUSALS)])
        ends[end] = ends.get(end, 0) + 1
    told = ", ".join(f"{many} with {end}" for end, many in sorted(ends.items()))
    print(f"memory: each of {sum(ends.values())} requests of {len(commands)} commands refused: {told}")
