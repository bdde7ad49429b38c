#!/usr/bin/env python3
"""Each call of the system that ten commands make, failing in turn: with each errno that it may have, once and from then
on, and reads and writes that take less than they were given.

    faults.py [--every N] [--calls CALL,..] [--jobs N]     (all runs, three at once)

Prints what was otherwise than docs/measuring.md says, and how many runs of each kind there were; the status is 1 where
something was. Needs strace, and cc for reads and writes that take less. AQFP names the program.
"""
import argparse
import collections
import subprocess
import sys

sys.dont_write_bytecode = True
from room import COMMANDS, Rooms, have, in_turn, injected, name, own_calls

ERRNOS = {
    "openat": "EACCES EBUSY EDQUOT EEXIST EINTR EIO EISDIR ELOOP EMFILE ENAMETOOLONG ENFILE ENODEV ENOENT ENOMEM "
              "ENOSPC ENOTDIR ENXIO EOVERFLOW EPERM EROFS ETXTBSY",
    "read": "EAGAIN EINTR EINVAL EIO EISDIR ENOMEM",
    "write": "EAGAIN EDQUOT EFBIG EINTR EINVAL EIO ENOMEM ENOSPC EPERM EPIPE",
    "close": "EDQUOT EINTR EIO ENOSPC",
    "fsync": "EDQUOT EINTR EINVAL EIO ENOSPC ENOSYS EOPNOTSUPP EROFS",
    "statx": "EACCES EINTR EIO ELOOP ENAMETOOLONG ENOENT ENOMEM ENOSYS ENOTDIR EOVERFLOW",
    "newfstatat": "EACCES EIO ELOOP ENAMETOOLONG ENOENT ENOMEM ENOTDIR EOVERFLOW",
    "fstat": "EACCES EIO ENOMEM EOVERFLOW",
    "readlink": "EACCES EINVAL EIO ELOOP ENAMETOOLONG ENOENT ENOMEM ENOTDIR",
    "readlinkat": "EACCES EINVAL EIO ELOOP ENAMETOOLONG ENOENT ENOMEM ENOTDIR",
    "fchmod": "EIO EOPNOTSUPP EPERM EROFS",
    "rename": "EACCES EBUSY EDQUOT EIO EISDIR ELOOP ENAMETOOLONG ENOENT ENOMEM ENOSPC ENOTDIR EPERM EROFS EXDEV",
    "unlink": "EACCES EBUSY EIO ENOENT ENOMEM EPERM EROFS",
    "mmap": "EAGAIN ENOMEM EPERM",
    "munmap": "EINVAL ENOMEM",
    "mremap": "EAGAIN ENOMEM",
    "getrandom": "EAGAIN EINTR ENOSYS",
}
OTHERWISE = "EINVAL ENOMEM ENOSYS EPERM"
NOT_THERE = ("EINVAL", "ENOSYS", "EOPNOTSUPP")  # what fsync(2) answers where the system has no sync

SHORT = r"""
#define _GNU_SOURCE
#include <stdlib.h>
#include <string.h>
#include <sys/syscall.h>
#include <unistd.h>
static long seen;

// How many bytes a call may take: the one that is to take less, or each from it on, at most as many as it is told.
static size_t room(const char *call, size_t count) {
    const char *chosen = getenv("SHORT_CALL");
    if (!chosen || strcmp(chosen, call)) return count;
    long from = atol(getenv("SHORT_FROM")), most = atol(getenv("SHORT_MOST"));
    seen++;
    if (seen < from || (seen > from && !getenv("SHORT_ON")) || count <= (size_t)most) return count;
    return (size_t)most;
}
ssize_t read(int file, void *into, size_t count) { return syscall(SYS_read, file, into, room("read", count)); }
ssize_t write(int file, const void *bytes, size_t count) {
    return syscall(SYS_write, file, bytes, room("write", count));
}
"""

Trial = collections.namedtuple("Trial", "command is_there kind before environment due is_silent said")


def failing(command, is_there, calls):
    """The trials in which one call fails, once or from then on."""
    for call, number, _ in calls:
        if call == "brk":  # which tells where the heap ends now, and has no errno
            for when in (f"{number}", f"{number}+"):
                yield Trial(command, is_there, "calls failed", injected(call, "retval=0", when), {}, None, False,
                            f"{command.words}: brk {when} gives nothing")
            continue
        for errno in ERRNOS.get(call, OTHERWISE).split():
            due = 0 if call == "fsync" and errno in NOT_THERE else None
            # (a call that is interrupted is made again, and so is one by another name where a file has that: one for
            # which this never ends need not end)
            for when in (f"{number}", f"{number}..{number + 2}" if errno in ("EINTR", "EEXIST") else f"{number}+"):
                said = f"{command.words}: {call} {when} fails with {errno}"
                is_silent = call == "write" and when != f"{number}"
                yield Trial(command, is_there, "calls failed", injected(call, f"error={errno}", when), {}, due,
                            is_silent, said)
        if call == "write":
            for when in (f"{number}", f"{number}+"):
                yield Trial(command, is_there, "writes took nothing", injected(call, "retval=0", when), {}, 5,
                            when != f"{number}", f"{command.words}: write {when} takes nothing")


def taking_less(command, is_there, calls, preload):
    """The trials in which reads or writes take less than they are given."""
    for chosen in ("read", "write"):
        for number in range(1, 1 + sum(call == chosen for call, _, _ in calls)):
            for most, is_on in ((1, False), (1, True), (1000, True)):
                environment = {"LD_PRELOAD": preload, "SHORT_CALL": chosen, "SHORT_FROM": str(number),
                               "SHORT_MOST": str(most), **({"SHORT_ON": "1"} if is_on else {})}
                yield Trial(command, is_there, "reads and writes were short", (), environment, 0, False,
                            f"{command.words}: {chosen} {number}{'+' if is_on else ''} takes {most} bytes")


def make_preload(rooms):
    """The library by which less is read and written, where there is a compiler."""
    if not have("cc"):
        return None
    (rooms.work / "short.c").write_text(SHORT)
    subprocess.run(["cc", "-O2", "-shared", "-fPIC", "-o", rooms.work / "short.so", rooms.work / "short.c"], check=True)
    return str(rooms.work / "short.so")


def all_trials(rooms, preload, chosen):
    """The trials of each command, of the chosen calls alone where some are chosen."""
    for command in COMMANDS:
        for is_there in (True, False) if command.stores else (True,):
            room = rooms.new_room()
            for file, held in rooms.files_for(command, is_there).items():
                (room / file).write_bytes(held)
            calls = [it for it in own_calls(command.words, room) if not chosen or it[0] in chosen.split(",")]
            yield from failing(command, is_there, calls)
            if preload:
                yield from taking_less(command, is_there, calls, preload)


def main():
    words = argparse.ArgumentParser()
    words.add_argument("--every", type=int, default=1)
    words.add_argument("--calls", default="")
    words.add_argument("--jobs", type=int, default=3)
    words = words.parse_args()
    if not have("strace"):
        return 0
    counts, statuses, otherwise = collections.Counter(), collections.Counter(), 0
    with Rooms() as rooms:

        def try_one(trial):
            try:
                ended = rooms.run(trial.command, trial.is_there, trial.before, trial.environment)
            except subprocess.TimeoutExpired:
                return trial, None, "did not end"
            wrong = rooms.what_is_wrong(trial.command, trial.is_there, ended, is_silent=trial.is_silent)
            if not wrong and trial.due is not None and ended.status != trial.due:
                wrong = f"status {ended.status} in place of {trial.due}"
            return trial, ended.status, wrong

        trials = list(all_trials(rooms, make_preload(rooms), words.calls))[::words.every]
        for trial, status, wrong in in_turn(try_one, trials, words.jobs):
            counts[trial.kind] += 1
            statuses[status] += 1
            if wrong:
                otherwise += 1
                print(f"{name}: {trial.said}{', over a good file' if trial.is_there else ''}: {wrong}")
    kinds = ", ".join(f"{count} runs in which {kind}" for kind, count in counts.items())
    ended = ", ".join(f"{count} with {status}" for status, count in sorted(statuses.items(), key=str))
    print(f"{name}: {kinds}; ended {ended}; {otherwise} otherwise")
    return 1 if otherwise else 0


sys.exit(main())
