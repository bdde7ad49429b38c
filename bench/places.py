#!/usr/bin/env python3
"""What OUT may lead to: links, files with all sorts of modes, folders with all sorts of rights, pipes, devices, open
files, the file that standard output goes to, names of every length, and disks that are full.

    places.py

Prints what was otherwise than docs/measuring.md says, and how many trials there were; the status is 1 where something
was. What needs another user or a mount is tried by root alone. AQFP names the program.
"""
import os
import re
import resource
import shutil
import signal
import stat
import subprocess
import sys
import time

sys.dont_write_bytecode = True
from room import COMMANDS, Rooms, Tally, have, name, program, top

NOBODY = 65534
FAILED = b"aqfp: write failed\n"
STORING = [command for command in COMMANDS if command.stores]
BUILD, NETLIST = STORING[0], STORING[-1]


class Places:
    """Rooms in which OUT is laid out, and runs of a copy of the program that each user may run."""

    def __init__(self, rooms, tally):
        self.rooms, self.expect = rooms, tally.expect
        self.program = rooms.work / "aqfp"
        shutil.copy(program, self.program)
        os.chmod(self.program, 0o755)
        os.chmod(rooms.work, 0o755)
        self.old, self.new = rooms.old_chip, rooms.whole(BUILD).files["out"]
        self.line = rooms.whole(BUILD).out

    def room(self):
        """A room with the files that are read, and a chip under `out`."""
        room = self.rooms.new_room()
        for file, held in {**self.rooms.given, "out": self.old}.items():
            (room / file).write_bytes(held)
            os.chmod(room / file, 0o644)
        os.chmod(room, 0o755)
        return room

    def run(self, room, out, command=BUILD, before=(), **more):
        words = [*before, self.program, *command.words.split()[:-1], out]
        how = {"stdout": subprocess.PIPE, "stderr": subprocess.PIPE, "timeout": 60, **more}
        return subprocess.run(words, cwd=room, **how)

    def stored(self, what, ended, file, held=None):
        """The run did its work, and the file is new, or holds what it is to hold."""
        held = self.new if held is None else held
        found = file.read_bytes() if file.exists() else None
        well = (ended.returncode, ended.stderr) == (0, b"") and ended.stdout in (self.line, None) and found == held
        self.expect(what, well and not drafts(file.parent), f"{ended.returncode} {ended.stderr}")

    def refused(self, what, ended, file=None, held=None):
        """The run failed to write, and the file is as it was."""
        held = self.old if held is None else held
        well = (ended.returncode, ended.stderr) == (5, FAILED)
        if file is not None:
            well = well and file.read_bytes() == held and not drafts(file.parent)
        self.expect(what, well, f"{ended.returncode} {ended.stderr}")


def drafts(folder):
    return [file for file in os.listdir(folder) if re.fullmatch(r"\.aqfp-\d+\.part", file)]


def try_links(places):
    """A link stays, and the file to which it leads is replaced, or made."""
    room = places.room()
    (room / "folder").mkdir()
    (room / "folder/chip").write_bytes(places.old)
    leads = {"relative": "folder/chip", "absolute": room / "folder/chip", "way/chip": None, "folder/up": "../out",
             "dangling": "folder/none", "twice": "relative"}
    os.symlink("folder", room / "way")
    for link, to in leads.items():
        if to is not None:
            os.symlink(to, room / link)
        file = (room / link).resolve()
        if file.exists():
            file.write_bytes(places.old)
        places.stored(f"a link: {link}", places.run(room, link), file)
        places.expect(f"a link stays: {link}", to is None or os.readlink(room / link) == str(to))
        places.expect(f"no draft: {link}", not drafts(room) and not drafts(room / "folder"))
    for number in range(41):
        os.symlink(f"link{number}" if number else "out", room / f"link{number + 1}")
    (room / "out").write_bytes(places.old)
    places.refused("41 links", places.run(room, "link41"), room / "out")
    places.stored("40 links", places.run(room, "link40"), room / "out")
    os.symlink("loop", room / "loop")
    places.refused("a loop", places.run(room, "loop"))


def try_modes(places):
    """The mode of the file that is replaced stays, whatever is masked; a new file has what the mask leaves."""
    for mode in (0o600, 0o640, 0o664, 0o755, 0o200):
        room = places.room()
        os.chmod(room / "out", mode)
        places.stored(f"mode {mode:o}", places.run(room, "out", umask=0o077), room / "out")
        places.expect(f"mode {mode:o} stays", stat.S_IMODE((room / "out").stat().st_mode) == mode)
    room = places.room()
    places.stored("a new file", places.run(room, "new", umask=0o027), room / "new")
    places.expect("its mode", stat.S_IMODE((room / "new").stat().st_mode) == 0o640)
    if not have("strace"):
        return
    room = places.room()
    os.chmod(room / "out", 0o600)
    running = subprocess.Popen(["strace", "-qq", "-o", "/dev/null", "-e", "trace=fsync", "-e",
                                "inject=fsync:delay_enter=700000:when=1", places.program, *BUILD.words.split()],
                               cwd=room, umask=0, stdout=subprocess.DEVNULL)
    begun = time.monotonic()
    while not (found := drafts(room)) and running.poll() is None and time.monotonic() < begun + 20:
        time.sleep(0.01)
    modes = [stat.S_IMODE((room / draft).stat().st_mode) for draft in found]
    running.wait()
    places.expect("a draft is no more open than what it replaces", modes == [0o600], f"{modes}")


def try_names(places):
    """OUT may be what is read; its name may have 255 bytes; other hard links keep the old file."""
    for command, read in [(command, file) for command in STORING for file in command.words.split()[1:3]]:
        room = places.room()
        ended = places.run(room, read, command)
        well = ended.returncode == 0 and (room / read).read_bytes() == places.rooms.whole(command).files["out"]
        places.expect(f"{command.verb}: OUT is {read}", well and not drafts(room), f"{ended.returncode}")
    room = places.room()
    places.stored("255 bytes", places.run(room, "n" * 255), room / ("n" * 255))
    places.refused("256 bytes", places.run(room, "n" * 256), room / "out")
    (room / "folder").mkdir()
    for out in ("new/", "folder", "folder/", ".", "", "none/new", "out/", "out/new"):
        places.refused(f"OUT is '{out}'", places.run(room, out), room / "out")
    os.link(room / "out", room / "other")
    places.stored("a hard link", places.run(room, "out"), room / "out")
    places.expect("the other link", (room / "other").read_bytes() == places.old)
    room = places.room()
    (room / ".aqfp-0.part").write_bytes(b"another's")
    (room / ".aqfp-1.part").mkdir()
    os.symlink("none", room / ".aqfp-2.part")
    ended = places.run(room, "out")
    well = (room / "out").read_bytes() == places.new and len(drafts(room)) == 3 and not (room / "none").exists()
    places.expect("drafts that are there", well and (room / ".aqfp-0.part").read_bytes() == b"another's")


def try_streams(places):
    """What is no regular file is written as it stands; the file of a standard stream is refused."""
    for command in STORING:
        whole, verb = places.rooms.whole(command), command.verb
        room = places.room()
        os.mkfifo(room / "pipe")
        with subprocess.Popen(["cat", room / "pipe"], stdout=subprocess.PIPE) as reader:
            ended = places.run(room, "pipe", command)
            places.expect(f"{verb}: a pipe", ended.returncode == 0 and reader.stdout.read() == whole.files["out"])
        places.expect(f"{verb}: it stays a pipe", stat.S_ISFIFO((room / "pipe").stat().st_mode) and not drafts(room))
        ended = places.run(room, "/dev/stdout", command)
        places.expect(f"{verb}: /dev/stdout", (ended.returncode, ended.stdout) == (0, whole.files["out"] + whole.out))
        places.expect(f"{verb}: /dev/null", places.run(room, "/dev/null", command).returncode == 0)
        if os.path.exists("/dev/full"):
            places.refused(f"{verb}: /dev/full", places.run(room, "/dev/full", command), room / "out")
        for out in ("/dev/stdout", "/dev/fd/1", "said", "/proc/self/fd/1", "link", "hard"):
            for way in ("wb", "ab"):
                try_stream_file(places, command, out, "stdout", way)
        for out in ("/dev/stderr", "/dev/fd/2", "said"):
            try_stream_file(places, command, out, "stderr", "wb")
    places.expect("devices stay", all(stat.S_ISCHR(os.stat(it).st_mode) for it in ("/dev/null", "/dev/full")))


def try_stream_file(places, command, out, stream, way):
    """OUT is the file that standard output or standard error goes to, by some name."""
    room = places.room()
    (room / "said").write_bytes(b"" if way == "wb" else b"said before\n")
    os.symlink("said", room / "link")
    os.link(room / "said", room / "hard")
    with open(room / "said", way) as said:
        ended = places.run(room, out, command, **{stream: said})
    before = b"" if way == "wb" else b"said before\n"
    held = (room / "said").read_bytes()
    well = ended.returncode == 5 and held == before + (FAILED if stream == "stderr" else b"") and not drafts(room)
    places.expect(f"{command.verb}: {out} is the file of {stream} ({way})", well, f"{ended.returncode} {held[:20]!r}")


def try_open_files(places):
    """An open file that another name than OUT's own leads to is written as it stands."""
    for kind in ("a file", "a removed file", "a link to it", "a new name"):
        room = places.room()
        inode = (room / "out").stat().st_ino
        with open(room / "out", "r+b") as file:
            fd = file.fileno()
            if kind == "a removed file":
                (room / "out").unlink()
            os.symlink(f"/dev/fd/{fd}", room / "link")
            ended = places.run(room, "link" if kind == "a link to it" else f"/dev/fd/{fd}", pass_fds=[fd])
            file.seek(0)
            well = ended.returncode == 0 and file.read() == places.new and not drafts(room)
        stays = kind == "a removed file" or (room / "out").stat().st_ino == inode
        places.expect(f"/dev/fd/N: {kind}", well and stays, f"{ended.returncode}")
    for shut in ("0<&-", ">&-", "2>&-", "0<&- >&- 2>&-"):
        room = places.room()
        ended = subprocess.run(["sh", "-c", f'exec "$0" "$@" {shut}', places.program, *BUILD.words.split()], cwd=room,
                               capture_output=True)
        held = (room / "out").read_bytes()
        well = ended.returncode in (0, 5) and held in (places.old, places.new) and not drafts(room)
        places.expect(f"shut streams: {shut}", well, f"{ended.returncode}, {len(held)} bytes")


def try_rights(places):
    """What another user than root may do, and what not. Only root can try it."""
    if os.geteuid():
        print(f"{name}: only root can run as another user: rights of folders are left out")
        return
    nobody = {"user": NOBODY, "group": NOBODY, "extra_groups": []}
    room = places.room()
    os.chown(room, NOBODY, NOBODY)
    os.chmod(room / "out", 0o444)
    os.chown(room / "out", NOBODY, NOBODY)
    places.refused("a file that may not be written", places.run(room, "out", **nobody), room / "out")
    os.chmod(room / "out", 0o644)
    os.chmod(room, 0o555)
    places.refused("a folder that takes no new file", places.run(room, "out", **nobody), room / "out")
    with open(room / "out", "r+b") as file:
        ended = places.run(room, f"/dev/fd/{file.fileno()}", pass_fds=[file.fileno()], **nobody)
    places.expect("its file in place", ended.returncode == 0 and (room / "out").read_bytes() == places.new)
    room = places.room()
    os.chown(room, NOBODY, NOBODY)
    os.chown(room / "out", NOBODY, NOBODY)
    os.chmod(room, 0o300)
    places.stored("a folder that can't be listed", places.run(room, "out", **nobody), room / "out")
    room = places.room()
    os.chmod(room, 0o1777)
    os.chmod(room / "out", 0o666)
    places.refused("another's file in a sticky folder", places.run(room, "out", **nobody), room / "out")


def limit_size():
    """What a shell does that ignores the signal which comes where a file is to pass the limit."""
    signal.signal(signal.SIGXFSZ, signal.SIG_IGN)
    resource.setrlimit(resource.RLIMIT_FSIZE, (30000, 30000))


def try_full_disks(places):
    """A limit on a file's size; and by root a small disk, a mount point, and a disk that may not be written."""
    room = places.room()
    ended = places.run(room, "out", preexec_fn=limit_size, restore_signals=False)
    places.refused("a limit on a file's size", ended, room / "out")
    if (top / "bin/aqfp").exists():  # the launcher ignores the signal of that limit for who doesn't
        ended = subprocess.run(["sh", "-c", 'ulimit -f 30 && exec "$@"', "sh", top / "aqfp", *BUILD.words.split()],
                               cwd=room, capture_output=True)
        places.refused("the launcher with such a limit", ended)
    if os.geteuid() or not have("mount") or not have("umount"):
        print(f"{name}: only root can mount: full disks are left out")
        return
    for how in ("size=64k", "bind", "ro"):
        room = places.room()
        at = room / "at"
        if how == "bind":
            at.write_bytes(places.old)
            words, out = ["--bind", room / "out", at], at
        else:
            at.mkdir()
            words, out = ["-t", "tmpfs", "-o", "size=64k", "none", at], at / "out"
        if subprocess.run(["mount", *words], capture_output=True).returncode:
            print(f"{name}: nothing can be mounted here: {how} is left out")
            continue
        try:
            out.write_bytes(places.old)
            if how == "ro":
                subprocess.run(["mount", "-o", "remount,ro", at], check=True)
            places.refused(f"mounted: {how}", places.run(room, out), out)
        finally:
            subprocess.run(["umount", at], check=True)


def try_order(places):
    """The order of what is done to the files: the counts line comes once the new file has its name and is synced."""
    if not have("strace"):
        return
    room = places.room()
    told = room / "told"
    places.run(room, "out", before=["strace", "-qq", "-y", "-o", told, "-e", "trace=write,fsync,rename"])
    steps = []
    for line in told.read_text(errors="replace").splitlines():
        call = line.partition("(")[0]
        what = "draft" if ".part>" in line or "rename" in call else "folder" if "fsync" in call else "text"
        if not steps or steps[-1] != (call, what):
            steps.append((call, what))
    due = [("write", "draft"), ("fsync", "draft"), ("rename", "draft"), ("fsync", "folder"), ("write", "text")]
    places.expect("writes, sync, rename, sync of the folder, counts line", steps == due, f"{steps}")


def main():
    tally = Tally()
    with Rooms() as rooms:
        places = Places(rooms, tally)
        for trial in (try_links, try_modes, try_names, try_streams, try_open_files, try_rights, try_full_disks,
                      try_order):
            trial(places)
    return tally.end("trials of what OUT leads to")


sys.exit(main())
